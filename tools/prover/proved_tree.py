"""A copy of the repository in which crates are proved from nothing, side by side, by the kit's `rt ci`."""
import pathlib
import shutil
import subprocess

from tools.prover import kit


def files_of(top: pathlib.Path) -> list[str]:
    """The files of the repository as they are: those that git knows, and new ones that it does not ignore."""
    words = ["git", "ls-files", "--cached", "--others", "--exclude-standard", "-z"]
    listed = subprocess.run(words, cwd=top, capture_output=True, text=True, check=True).stdout
    return [it for it in listed.split("\0") if it and (top / it).is_file()]


def listed(text: str, names: set[str]) -> str:
    """The lines of crates.txt for these crates alone."""
    lines = (line for line in text.splitlines() if line.partition(":")[0].split(" ")[0] in names)
    return "".join(line + "\n" for line in lines)


def below(top: pathlib.Path, name: str) -> set[str]:
    """A crate and those below it."""
    crate = kit.crates(top)[name]
    return {name, *(it.name for it in crate.below())}


def copy(top: pathlib.Path, to: pathlib.Path, names: set[str]) -> None:
    """Copies the repository with these crates alone, and without edits, which are put there later (`copy_edits`)."""
    for file in files_of(top):
        parts = pathlib.PurePath(file).parts
        is_left_out = parts[0] == "crates" and (parts[1] not in names or parts[2] == "must-fail")
        if not is_left_out:
            (to / file).parent.mkdir(parents=True, exist_ok=True)
            shutil.copy2(top / file, to / file)
    (to / "crates.txt").write_text(listed((top / "crates.txt").read_text(), names))


def copy_edits(top: pathlib.Path, to: pathlib.Path, names: set[str]) -> None:
    """Puts the edits of these crates into the copy."""
    for name in sorted(names):
        if (top / "crates" / name / "must-fail").is_dir():
            shutil.copytree(top / "crates" / name / "must-fail", to / "crates" / name / "must-fail")


def take_programs(top: pathlib.Path, to: pathlib.Path, names: list[str]) -> None:
    """Leaves programs that were proved in the copy where `rt run` leaves them, at crates/NAME/out/NAME."""
    for name in names:
        place = top / "crates" / name / "out"
        place.mkdir(exist_ok=True)
        shutil.copy2(to / "crates" / name / "out" / name, place / name)
