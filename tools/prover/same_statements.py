"""Finds lemmas that say the same thing twice; run it at the top, or by tools/ready.py.

Two lemmas of `proofs/` count as the same where their statements differ only in names of bound variables. A name
that a file imports or makes is read with its module, so that `IsBy` of one layer is not that of another. Answers to
goals are not looked at, and neither are values, whose statement is a type alone.
"""
import collections
import pathlib
import re
import sys
from collections.abc import Iterator

LEMMA = re.compile(r"^(?:pub )?([^\s:(]+) : (.*)$")
MADE = re.compile(r"^(?:(?:abbrev|unfoldable|record) )?(?:pub )?([^\s:(]+) [:({]")
USE = re.compile(r"^use ([\w.]+)(?:\.\{(.*)\}| as (\S+))?$")
PASSED_ON = re.compile(r"\bRattle\.\w+\.(specs|proofs)\.(tsb_\w+)\.")
BOUND = re.compile(r"[({]([\w' -]+?) :|λ ([\w' -]+)\.")
WORD = re.compile(r"[^\s(){}.,;]+")
# A value's type ends in one of these.
VALUES = {"ℕ", "Bool", "List", "Option", "State", "Status", "Rule", "Type"}


def module(path: pathlib.Path) -> str:
    """The module that a file of proofs is."""
    return "Rattle." + ".".join(path.with_suffix("").parts[1:])


def names(path: pathlib.Path, lines: list[str]) -> dict[str, str]:
    """What the names of a file are, with their modules: those that it imports and those that it makes."""
    found = {}
    for line in lines:
        if (use := USE.match(line)) and not use[1].startswith("Rattle.std."):
            place = use[1] + "."
            while (shorter := PASSED_ON.sub(r"Rattle.\2.\1.", place)) != place:
                place = shorter
            for it in (use[2] or "").split(", ") if use[2] else [f" as {use[3]}"] if use[3] else []:
                name, _, other = it.partition(" as ")
                found[other or name] = place + name
        elif made := MADE.match(line):
            found[made[1]] = f"{module(path)}.{made[1]}"
    return found


def statements(path: pathlib.Path) -> Iterator[tuple[str, str]]:
    """The lemmas of a file: the name, and what it says, with one form for all names of bound variables."""
    lines = path.read_text().split("\n")
    known = names(path, lines)
    for k, line in enumerate(lines):
        lemma = LEMMA.match(line)
        if not lemma:
            continue
        said = lemma[2]
        for later in lines[k + 1:]:
            if not later.startswith("    "):
                break
            said += " " + later.strip()
        if said.rpartition("→ ")[2].split(" ")[0] not in VALUES:
            yield lemma[1], canonical(said, known)


def canonical(said: str, known: dict[str, str]) -> str:
    """What a statement says, with its bound variables by their order and its names with their modules."""
    bound: dict[str, str] = {}
    for it in BOUND.finditer(said):
        for name in (it[1] or it[2]).split():
            bound.setdefault(name, f"${len(bound)}")
    return " ".join(WORD.sub(lambda it: bound.get(it[0]) or known.get(it[0], it[0]), said).split())


def missing() -> Iterator[str]:
    """What tools/ready.py reports."""
    places = collections.defaultdict(list)
    for path in sorted(pathlib.Path("crates").glob("*/proofs/**/*.antt")):
        if path.name != "Answers.antt":
            for name, said in statements(path):
                places[said].append((path, name))
    for said, found in sorted(places.items()):
        if len(found) > 1:
            yield f"proved {len(found)} times: " + ", ".join(f"{name} of {path}" for path, name in found)


if __name__ == "__main__":
    wrong = list(missing())
    print("\n".join(wrong))
    sys.exit(1 if wrong else 0)
