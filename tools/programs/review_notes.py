"""What is printed of the text of a plan, read a second time: from docs/use/REVIEW.md, and from nothing of the crates.

`notes(text)` gives the lines: a name or an index that comes again in its table, a value that is no whole number, and a
name, an index or a value that no object has.
`written(source, plan)` writes a plan as a text at random that has such.
"""
import json
import os
import random
import re
from collections.abc import Iterator
from typing import Any

from tools import TOP

Pairs = list[tuple[str, Any]]

MANUAL = json.loads((TOP / "python/tsb/manual.json").read_text())
OBJECTS: dict[str, dict[str, Any]] = MANUAL["objects"]
UNITS = {**{it: it for it in ("seconds", "tenths of a second", "minutes")}, "list of phases": "list of phases, a sum of 2^(phase-1)"}
MOST = 2**32 - 1
# How many there are of some things in texts of versions 1 and 2.
BEFORE = {"vehicle detector": 16, "pedestrian detector": 8, "overlap": 4, "preempt": 4}
# How many letters the right name and another may have in the one place where they differ, the nearest first.
DIFFERENCES = [(1, 0), (0, 1), (1, 1), (2, 2), (2, 1), (1, 2), *(it for count in range(2, 8) for it in ((count, 0), (0, count)))]


class Number(str):
    """A number of JSON, as its text has it."""


class Table:
    """An object of JSON: names and values in the order of the text."""

    def __init__(self, pairs: Pairs) -> None:
        self.pairs = pairs


def parsed(text: bytes) -> Any:
    """The value of a JSON text, or None where it is none."""
    def refused(word: str) -> None:
        raise ValueError(word)
    try:
        return json.loads(text.decode(), object_pairs_hook=Table, parse_int=Number, parse_float=Number, parse_constant=refused)
    except ValueError:
        return None


def shown(value: Any) -> str:
    """A value as JSON, without spaces."""
    if isinstance(value, Number):
        return str(value)
    if isinstance(value, Table):
        return "{" + ",".join(f"{json.dumps(name, ensure_ascii=False)}:{shown(it)}" for name, it in value.pairs) + "}"
    if isinstance(value, list):
        return "[" + ",".join(map(shown, value)) + "]"
    return json.dumps(value, ensure_ascii=False)


def unit_of(name: str) -> str | None:
    """The unit of an object's values, where they are times, and what a list of phases is."""
    return UNITS.get(OBJECTS[name]["unit"].split(", ")[0])


def why_not(value: Any) -> str:
    """Why a value is no whole number as plans have it."""
    if not isinstance(value, Number):
        return "is no whole number"
    if value.startswith("-"):
        return "is negative"
    if "e" in value.lower():
        return "has an exponent"
    return "is no whole number" if "." in value else "is too large"


def is_whole(value: Any) -> bool:
    """Whether a value is a whole number as plans have it."""
    return isinstance(value, Number) and value.isdigit() and int(value) <= MOST


def listed(text: str) -> str:
    """The sum for phases 1 to 16 that a text lists, two or more and each once, parted by commas, spaces and plus signs."""
    found = re.split(r"[, +]+", text.strip(", +"))
    if not all(re.fullmatch("[1-9]|1[0-6]", it) for it in found) or len({*found}) != len(found) or len(found) < 2:
        return ""
    return f", {sum(2 ** (int(it) - 1) for it in found)}"


def meant(name: str, value: Any) -> str:
    """What a value in seconds says in tenths of a second, where it has one decimal, and a text of phases as a sum."""
    if unit_of(name) == UNITS["list of phases"]:
        return listed(value) if isinstance(value, str) and not isinstance(value, Number) else ""
    whole, _, decimal = value.partition(".") if isinstance(value, Number) else ("", "", "")
    has_tenths = whole.isdigit() and decimal.isdigit() and len(decimal) == 1 and int(whole) <= MOST
    return f", {int(whole + decimal)}" if has_tenths and unit_of(name) == "tenths of a second" else ""


def counting(text: str) -> dict[str, dict[str, int]]:
    """The plan of a text that `check` takes: of what comes twice the last."""
    plan: dict[str, dict[str, int]] = json.loads(text)
    return {name: table for name, table in plan.items() if name != "version"}


def near(name: str) -> str | None:
    """The right name that was perhaps meant: in one place alone, and there by few letters, the two differ."""
    for lacks, extra in DIFFERENCES:
        for right in sorted(OBJECTS, key=lambda it: OBJECTS[it]["since"]):
            front = len(os.path.commonprefix([right, name]))
            if right[front + lacks:] == name[front + extra:]:
                return right
    return None


def again(path: str, at: int, pairs: Pairs) -> Iterator[str]:
    """That a name comes again, with its next value."""
    name, value = pairs[at]
    for other, later in pairs[at + 1:]:
        if other == name:
            yield f"{path}: it stands twice, as {shown(value)} and as {shown(later)}, and the last one counts"
            return


def count_in(name: str, version: int | None) -> int:
    """How many indices an object has in a text of a version, or where that has no such object in the newest."""
    count: int = OBJECTS[name]["count"]
    is_earlier = version in (1, 2) and OBJECTS[name]["since"] < 3
    return min([count] + [most for kind, most in BEFORE.items() if is_earlier and OBJECTS[name]["index"] == kind])


def of_table(name: str, entries: Pairs, version: int | None) -> Iterator[str]:
    """What is printed of the table of an object in a text of a version."""
    count = count_in(name, version)
    for at, (index, value) in enumerate(entries):
        if index not in map(str, range(1, count + 1)):
            is_newer = index in map(str, range(1, OBJECTS[name]["count"] + 1))
            newer = f"version 3 has it, and this text is of version {version}"
            yield f"{name}.{index}: {newer if is_newer else f'no such index, 1 to {count}'}"
            continue
        yield from again(f"{name}.{index}", at, entries)
        unit, most = unit_of(name), OBJECTS[name]["greatest"]
        if not is_whole(value):
            yield f"{name}.{index}: {shown(value)} {why_not(value)}" + (f": {unit}{meant(name, value)}" if unit else "")
        elif int(value) > most:
            yield f"{name}.{index}: {shown(value)} is out of range, 0 to {most}" + (f": {unit}" if unit else "")


def version_of(given: list[Any]) -> int | None:
    """The version that a text says it is of, by the last member that does."""
    known = {"1": 1, "2": 2, "3": 3}
    return known.get(given[-1]) if given and isinstance(given[-1], Number) else None


# Members that are no objects.
BESIDE = ("version", "notes")


def notes(text: bytes) -> list[str]:
    """What is printed of a text."""
    value = parsed(text)
    found: list[str] = []
    pairs = value.pairs if isinstance(value, Table) else []
    version = version_of([it for name, it in pairs if name == "version"])
    for at, (name, it) in enumerate(pairs):
        since = 3 if name == "notes" else OBJECTS[name]["since"] if name in OBJECTS else 1
        if version is not None and version < since:
            found.append(f"{name}: version {since} has it, and this text is of version {version}")
        if name in OBJECTS or name in BESIDE:
            found += again(name, at, value.pairs)
        if name in OBJECTS and isinstance(it, Table):
            found += of_table(name, it.pairs, version)
        if name not in OBJECTS and name not in BESIDE:
            right = near(name)
            found.append(f"{name}: no such object" + (f", did you mean {right}?" if right else ""))
    return found


OTHERS = ["3.2", "7.5", "0.5", "12.0", "3.25", "-1", "1e2", "32.0e0", "4294967295.9", "4294967296", "4294967295", "99999999999.5",
          '"32"', '"4,7"', '"2 + 6, 1"', '"16,9,16"', '"0,4"', '"4,17"', '" 3,8,"', '"a\\nb\\u00e9"', "true", "null", "[1, 2.5]", '{"a": {}}', "0", "35", "1"]
# Slips of the hand, short and long forms of names, and names that are near none.
SLIPS = ["phaseMinGreen", "phaseYelowChange", "PhaseWalk", "phasePedClear", "phaseRedClearance", "phaseWlak", "phaseMaxGreen", "unknown",
         "phase", "", "splitTimes", "pedDetectorCallPhase", "phaseMxRecall", "phaseMinimum Green", "patternOfset", "sequenceDat", "notes", "note", "coordReference",
         "overlapType"]
INDICES = ["0", "01", "1", "2", "8", "9", "16", "17", "64", "65", "+1", "128", "129", ""]


def written(source: random.Random, plan: dict[str, dict[str, int]]) -> bytes:
    """A text of the plan in which some names and indices come again, and some values are no whole numbers."""
    members: list[tuple[str, list[tuple[str, str]] | str]] = [("version", "2")]
    members += [(name, [(index, str(value)) for index, value in table.items()]) for name, table in plan.items()]
    for _ in range(source.choice([0, 1, 1, 2, 3])):
        name, table = source.choice(members)
        kind = source.random()
        if kind < 0.2:
            members.insert(source.randint(0, len(members)), (name, table if isinstance(table, str) else table[:source.randint(0, 3)]))
        elif kind < 0.3:
            # (a text of version 1 is none of those that tools/programs/review_rules.py reads)
            members.append((source.choice(["phaseWalk", name, *SLIPS]), source.choice(OTHERS)) if name != "version" else ("version", "2"))
        elif isinstance(table, list):
            known = [index for index, _ in table] or ["1"]
            index = source.choice(known) if source.random() < 0.8 else source.choice(INDICES)
            table.insert(source.randint(0, len(table)), (index, source.choice(OTHERS)))
    space = source.choice(["", " ", "\n  "])
    def body(table: list[tuple[str, str]] | str) -> str:
        return table if isinstance(table, str) else "{" + f",{space}".join(f'"{index}":{space}{it}' for index, it in table) + "}"
    return ("{" + f",{space}".join(f'"{name}":{space}{body(table)}' for name, table in members) + "}").encode()
