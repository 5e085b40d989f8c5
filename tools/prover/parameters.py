"""Finds functions of more parameters than a reader keeps in mind; run it at the top, or by tools/ready.py.

A struct that names what belongs together is the cure: `self` counts, and a struct counts as one.
"""
import pathlib
import re
import sys
from collections.abc import Iterator

# How many parameters a function has at most.
MOST = 6
HEAD = re.compile(r"^[ \t]*(?:pub(?:\([^)]*\))? )?(?:const )?fn (\w+)", re.M)
COMMENT = re.compile(r"//[^\n]*")
OPENS, CLOSES = "([{<", ")]}>"

# Functions that have more and wait for a change of their files.
WAITING: dict[str, set[str]] = {}


def parts(text: str, at: int) -> Iterator[str]:
    """The parts of a list in brackets, by its commas; `at` is the place after the bracket that opens it."""
    depth, begin = 0, at
    for k in range(at, len(text)):
        if text[k] in OPENS:
            depth += 1
        elif text[k] in CLOSES and text[k - 1:k + 1] != "->":
            depth -= 1
        if depth < 0 or depth == 0 and text[k] == ",":
            yield text[begin:k]
            begin = k + 1
        if depth < 0:
            return


def parameters(text: str, at: int) -> int:
    """How many parameters a function has whose name ends at this place; its generics come before them."""
    if text[at] == "<":
        at += len(",".join(parts(text, at + 1)))
    return sum(1 for it in parts(text, text.index("(", at) + 1) if it.strip())


def found() -> Iterator[tuple[str, str, int]]:
    """The functions of the crates: file, name, and how many parameters they have."""
    for path in sorted(pathlib.Path("crates").glob("*/src/**/*.rt")):
        text = COMMENT.sub("", path.read_text())
        yield from ((str(path), it[1], parameters(text, it.end())) for it in HEAD.finditer(text))


def missing() -> Iterator[str]:
    """What tools/ready.py reports."""
    over = {(path, name): count for path, name, count in found() if count > MOST}
    for (path, name), count in over.items():
        if name not in WAITING.get(path, set()):
            yield f"{path}: {name} has {count} parameters, over {MOST}"
    for path, names in WAITING.items():
        for name in sorted(names):
            if (path, name) not in over:
                yield f"tools/prover/parameters.py: {name} of {path} waits no longer"


if __name__ == "__main__":
    wrong = list(missing())
    print("\n".join(wrong))
    sys.exit(1 if wrong else 0)
