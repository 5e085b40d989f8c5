"""Results that are kept: files of tables, and each says whether it is whole.

The name of a file ends with the sum of its text, as `quad.day.KEY.SUM.csv`. So one that
was cut, or lost its bytes with the power, is known from a whole one, and made again. A
file is written under another name, through to the disk, and then renamed.
"""

import fcntl
import hashlib
import os
import re
import threading
import time
import uuid
from collections.abc import Iterable
from contextlib import suppress
from pathlib import Path

from tsb.errors import Error
from tsb.files import read

SUM = 16  # digits of a sum in a name
LONGEST = 1 << 30  # bytes of a result that are read
YOUNG = 60  # seconds in which a part of a file has its lock, if it is to have one
#: Held while a file is written, so that a process which ends leaves no part of one.
WRITING = threading.Lock()
_NAMED = re.compile(rf"(.+)\.([0-9a-f]{{{SUM}}})\.csv", re.S)
_PART = re.compile(r"\.[0-9a-f]{32}\.part")


def sum_of(text: bytes) -> str:
    """The sum of a text, as the name of its file has it."""
    return hashlib.sha256(text).hexdigest()[:SUM]


def whole(folder: Path, names: Iterable[str]) -> dict[str, Path]:
    """The files of these results that are whole."""
    wanted, found = set(names), {}
    for path in sorted(folder.iterdir()):
        said = _NAMED.fullmatch(path.name)
        if said is not None and said[1] in wanted:
            with suppress(OSError, Error):
                if path.is_file() and said[2] == sum_of(read(path, LONGEST)):
                    found[said[1]] = path
    return found


def keep(folder: Path, name: str, text: bytes) -> Path:
    """Keeps a result, in place of those of its name that are not whole: its file."""
    path = folder / f"{name}.{sum_of(text)}.csv"
    write(path, text)
    for it in folder.iterdir():
        said = _NAMED.fullmatch(it.name)
        if said is not None and said[1] == name and it != path and it.is_file():
            it.unlink(missing_ok=True)
    return path


def write(path: Path, text: bytes) -> None:
    """Writes a file, so that there is all of it or what was there before."""
    part = path.with_name(f".{uuid.uuid4().hex}.part")
    with WRITING:
        try:
            _write(part, path, text)
        except OSError as fault:
            raise OSError(fault.errno, fault.strerror, str(path)) from None
        finally:
            part.unlink(missing_ok=True)
    _synced(path.parent)


def _write(part: Path, path: Path, text: bytes) -> None:
    """Writes a part of this name, and renames it once all of it is on the disk."""
    with part.open("xb") as file:
        with suppress(OSError):  # (some disks of networks have no locks)
            fcntl.flock(file, fcntl.LOCK_EX)
        file.write(text)
        file.flush()
        os.fsync(file.fileno())
        os.replace(part, path)


def _synced(folder: Path) -> None:
    """A renamed file is there after a power loss too, where the folder can say so."""
    with suppress(OSError):
        of = os.open(folder, os.O_RDONLY | os.O_DIRECTORY)
        try:
            os.fsync(of)
        finally:
            os.close(of)


def tidy(folder: Path) -> None:
    """Removes the parts of files that a process left that was killed. Those that are
    being written have a lock, or are young."""
    for path in folder.iterdir():
        if _PART.fullmatch(path.name):
            with suppress(OSError), path.open("r+b") as file:
                fcntl.flock(file, fcntl.LOCK_EX | fcntl.LOCK_NB)
                if time.time() - path.stat().st_mtime > YOUNG:
                    path.unlink()
