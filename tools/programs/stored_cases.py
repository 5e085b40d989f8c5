"""How stored cases are written and read: those of the folder `cases`, whose README says what each file has."""
import pathlib
from collections.abc import Iterable, Iterator
from typing import NamedTuple

CASES = pathlib.Path("cases")
# How many cases the files have.
COUNTS = CASES / "counts.txt"

HEAD = """\
# {title}
#
# A case is a line that heads it, then its pieces, each followed by a line feed:
#   session NAME LENGTH LENGTH LENGTH LINES SUM: a plan text, a log and commands
#   told NAME LENGTH LENGTH LENGTH LENGTH: a plan text, a log, commands and the answers
# A length is that of a piece in bytes, which may be any bytes. Lines that begin with # and blank lines before a
# head are skipped.
#
# Answered is what `tsb run` writes: the answers, or the first fault of the plan or of the log. LINES is how many lines
# these are, and SUM the 32-bit FNV-1a of their bytes: from 2166136261 on, for each byte, the exclusive or with the
# byte, times 16777619, modulo 4294967296. The answers are those of an independent implementation.
#
# {source}
"""

# How many pieces a case of each kind has.
PIECES = {b"plan": 1, b"log": 1, b"session": 3, b"told": 4}


class Spelled(NamedTuple):
    """A case as a file has it: its name, its pieces, and the numbers that its head has behind their lengths."""

    name: str
    pieces: list[bytes]
    numbers: list[int]


class Case(NamedTuple):
    """A session. `answers` is None where only their number of lines and their sum are stored."""

    name: str
    plan: bytes
    log: bytes
    commands: bytes
    lines: int
    sum: int
    answers: bytes | None


def checksum(text: bytes) -> int:
    """The 32-bit FNV-1a of bytes."""
    found = 2166136261
    for byte in text:
        found = (found ^ byte) * 16777619 & 0xFFFFFFFF
    return found


def spelled(name: str, plan: bytes, log: bytes, commands: bytes, answers: bytes, is_told: bool) -> bytes:
    """A case as it is stored."""
    pieces = [plan, log, commands] + ([answers] if is_told else [])
    words = [b"told" if is_told else b"session", name.encode()] + [b"%d" % len(piece) for piece in pieces]
    if not is_told:
        words += [b"%d" % answers.count(b"\n"), b"%d" % checksum(answers)]
    return b"\n".join([b" ".join(words)] + pieces) + b"\n"


def write(path: pathlib.Path | str, title: str, source: str, cases: Iterable[bytes]) -> None:
    """Writes a file of cases."""
    with open(path, "wb") as file:
        file.write(HEAD.format(title=title, source=source).encode() + b"\n")
        file.writelines(cases)


def read_pieces(text: bytes, at: int, lengths: list[int]) -> tuple[list[bytes], int]:
    """The pieces of a text from a place on, and the place after them."""
    pieces = []
    for length in lengths:
        assert text[at + length:at + length + 1] == b"\n", "a piece does not end where its head says"
        pieces.append(text[at:at + length])
        at += length + 1
    return pieces, at


def read_spelled(path: pathlib.Path | str) -> Iterator[Spelled]:
    """The cases of a file as it has them, one after another."""
    with open(path, "rb") as file:
        text = file.read()
    at = 0
    while at < len(text):
        end = text.index(b"\n", at)
        line, at = text[at:end], end + 1
        if not line.strip(b" ") or line.startswith(b"#"):
            continue
        words = line.split(b" ")
        assert words[0] in PIECES, f"no case: {line!r}"
        numbers, count = [int(word) for word in words[2:]], PIECES[words[0]]
        pieces, at = read_pieces(text, at, numbers[:count])
        yield Spelled(words[1].decode(), pieces, numbers[count:])


def read(path: pathlib.Path | str) -> Iterator[Case]:
    """The sessions of a file, each with its answers or with how many lines these are and their sum."""
    for name, pieces, numbers in read_spelled(path):
        plan, log, commands, *told = pieces
        if told:
            yield Case(name, plan, log, commands, told[0].count(b"\n"), checksum(told[0]), told[0])
        else:
            yield Case(name, plan, log, commands, numbers[0], numbers[1], None)


def counts() -> dict[str, int]:
    """How many cases each file has, by its name without its ending."""
    lines = [line.split() for line in COUNTS.read_text(encoding="utf-8").splitlines()]
    return {words[0]: int(words[1]) for words in lines if words and words[0] != "#"}
