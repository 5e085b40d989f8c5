"""Finds the programs of the bench, and runs them.

They are looked for in the folders of `TSB_BIN` (as many as one likes, parted as in
`PATH`), then beside the repository that this package is part of, where
`tools/build` leaves them, then beside the programs of this Python's environment,
where a wheel puts them, then on `PATH`. Where `TSB_UNPROVED` names a folder, as
`tools/look` does, they are those alone that were built there without a proof.
"""

import os
import shutil
import subprocess
import sysconfig
import warnings
from collections.abc import Iterator, Sequence
from pathlib import Path

from tsb.errors import NoProgram, ProgramDied, shown

PROGRAMS = ("tsb", "tsb_field", "tsb_live")
REPOSITORY = Path(__file__).resolve().parents[2]


def folders(name: str) -> Iterator[str]:
    """Where a program is looked for, in this order."""
    yield from filter(None, os.environ.get("TSB_BIN", "").split(os.pathsep))
    yield str(REPOSITORY / "crates" / name / "out")
    yield sysconfig.get_path("scripts")
    yield from filter(None, os.environ.get("PATH", os.defpath).split(os.pathsep))


def is_unproved() -> bool:
    """Whether the programs are those that were built without a proof."""
    return bool(os.environ.get("TSB_UNPROVED"))


def marked(title: str) -> str:
    """A title of what the programs made: it says so where they are unproved."""
    return f"UNPROVED: {title}" if is_unproved() else title


def find(name: str) -> Path:
    """The path of a program; `NoProgram` where there is none."""
    if is_unproved():
        path = Path(os.environ["TSB_UNPROVED"]) / f"unproved_{name}"
        if not path.is_file():
            raise NoProgram(f"there is no program {path} yet: tools/look builds it")
        return path
    for it in filter(None, os.environ.get("TSB_BIN", "").split(os.pathsep)):
        if not Path(it).is_dir():
            warnings.warn(f"TSB_BIN: there is no folder {shown(it)}", stacklevel=2)
    found = shutil.which(name, path=os.pathsep.join(folders(name)))
    if found is None:
        raise NoProgram(
            f"there is no program {name}: `tools/build {name}` at the top of the"
            " repository proves and builds it; or name its folder in TSB_BIN"
        )
    return Path(found)


def run(
    name: str,
    words: Sequence[str | Path],
    text: bytes = b"",
    statuses: Sequence[int] = (0,),
) -> subprocess.CompletedProcess[bytes]:
    """Runs a program that reads this text, until it ends.

    `ProgramDied` where it ends with another status than these.
    """
    done = subprocess.run(
        [find(name), *words], input=text, capture_output=True, check=False
    )
    if done.returncode not in statuses:
        stderr = done.stderr.decode(errors="replace")
        raise ProgramDied(name, done.returncode, stderr)
    return done
