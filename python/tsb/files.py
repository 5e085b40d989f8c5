"""Files that are read, never more of one than it may have, nor what never ends; and
files that are written, as a whole or not at all."""

import os
import stat
import uuid
from os import PathLike
from pathlib import Path

from tsb.errors import Error

AnyPath = str | PathLike[str]


def up_to(path: AnyPath, most: int) -> bytes:
    """A file's bytes, and where it has more than so many one more of them."""
    with Path(path).open("rb") as file:
        return file.read(most + 1)


def read(path: AnyPath, most: int) -> bytes:
    """A file's bytes; `Error` where it has more than so many."""
    found = up_to(path, most)
    if len(found) > most:
        raise Error(f"{path}: too large: over {most >> 20} MiB")
    return found


def regular(path: Path) -> Path:
    """The path of a file that ends; `Error` where it is a pipe, or a device."""
    if path.exists() and not stat.S_ISREG(os.stat(path).st_mode):
        raise Error(f"{path}: no file as others are")
    return path


def word(path: AnyPath) -> str:
    """A path as a word of a command, which is no option however it begins."""
    text = os.fspath(path)
    return f"./{text}" if text.startswith("-") else text


def write(path: Path, text: bytes) -> None:
    """Writes a file as a whole: what was there stays until all is written."""
    part = path.with_name(f".{uuid.uuid4().hex}.part")
    try:
        if path.exists() and not path.is_file():
            path.write_bytes(text)
            return
        part.write_bytes(text)
        os.replace(part, path)
    except OSError as fault:
        part.unlink(missing_ok=True)
        raise OSError(fault.errno, fault.strerror, str(path)) from None


def create(path: Path, text: bytes) -> None:
    """Writes a file that is new; `Error` where there is one of its name, which stays as
    it is. A file that can't be written to its end is not left behind."""
    try:
        file = path.open("xb")
    except FileExistsError:
        raise Error(f"{path}: there is such a file: name another") from None
    try:
        with file:
            file.write(text)
    except OSError as fault:
        path.unlink(missing_ok=True)
        raise OSError(fault.errno, fault.strerror, str(path)) from None
