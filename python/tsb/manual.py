"""What docs/use/MANUAL.md says of objects, rules, faults and refusals.

All of it is read from manual.json, which tools/pages/python_manual.py writes from the
documents: there is no other list of names, units or ranges in the package.
"""

import difflib
import json
import re
from collections.abc import Mapping
from dataclasses import dataclass
from datetime import timedelta
from importlib.resources import files
from typing import Any

TIMES = {
    "minutes": timedelta(minutes=1),
    "seconds": timedelta(seconds=1),
    "tenths of a second": timedelta(milliseconds=100),
}


# The units of values that are lists: of what.
LISTS = {"list of phases": "phase", "list of overlaps": "overlap"}
# How many there are of some things in plan texts of versions 1 and 2.
BEFORE = {"vehicle detector": 16, "pedestrian detector": 8, "overlap": 4, "preempt": 4}


@dataclass(frozen=True)
class Object:
    """An object of a plan: what its index counts, and the range of its values.

    `since` is the first version of plan texts that has it. `count` is the greatest
    index of version 3, and `greatest` its greatest value; `greatest_2` is that of version
    2, None where it is the same. `count_1` and `greatest_1` are those of version 1, None
    where it has no such object. `structural` objects can be changed by a commit only while
    nothing is in service.
    """

    name: str
    index: str
    count: int
    count_1: int | None
    greatest: int
    greatest_1: int | None
    since: int
    unit: str
    structural: bool
    meaning: str
    greatest_2: int | None = None

    def counts(self, version: int) -> int:
        """The greatest index in plan texts of a version; 0 where it has no object."""
        if version < self.since:
            return 0
        count = (self.count_1 if version == 1 else self.count) or 0
        return count if version >= NEWEST else min(count, BEFORE.get(self.index, count))

    def since_index(self, index: int) -> int:
        """The first version of plan texts, from 2 on, that has the object at an index."""
        return max(self.since, 2 if index <= self.counts(2) else NEWEST)

    def since_value(self, value: int) -> int:
        """The first version of plan texts, from 2 on, in which the object has a value."""
        return max(self.since, 2 if value <= self.most(2) else NEWEST)

    def most(self, version: int) -> int:
        """The greatest value in plan texts of a version."""
        if version == 2 and self.greatest_2 is not None:
            return self.greatest_2
        return (self.greatest_1 if version == 1 else self.greatest) or 0

    @property
    def time(self) -> timedelta | None:
        """How long a value of 1 lasts; None where the object is no time."""
        return TIMES.get(self.unit.split(",")[0])

    @property
    def member(self) -> str:
        """What a list is of, `phase` or `overlap`; nothing where a value is no list."""
        return LISTS.get(self.unit, "")

    @property
    def is_list(self) -> bool:
        """Whether a value is a list of phases or overlaps: 1 for the first of them, 2
        for the second, 4 for the third, .."""
        return bool(self.member)

    def range(self, version: int = 2) -> str:
        """The range with its unit, as `0 to 255 (tenths of a second)`."""
        return f"0 to {self.most(version)} ({self.unit})"


@dataclass(frozen=True)
class Refusal:
    """A refusal E1 to E12: what it means, its usual cause and the cure."""

    number: int
    name: str
    meaning: str
    cause: str
    cure: str


@dataclass(frozen=True)
class Rule:
    """A rule K1 to K29: what must hold, the usual cause where it does not, the cure."""

    name: str
    holds: str
    cause: str
    cure: str


def _read() -> dict[str, Any]:
    text = files(__package__).joinpath("manual.json").read_text(encoding="utf-8")
    found: dict[str, Any] = json.loads(text)
    return found


_TOLD = _read()

LAST_TICK: int = _TOLD["ticks"]
OBJECTS: Mapping[str, Object] = {
    name: Object(name=name, **said) for name, said in _TOLD["objects"].items()
}
# The version of plan texts that has all objects, as `set` knows them.
NEWEST: int = max(it.since for it in OBJECTS.values())
NOTES = "notes"  # the member of texts of the newest version that is no object
REFUSALS: Mapping[int, Refusal] = {
    int(number): Refusal(number=int(number), **said)
    for number, said in _TOLD["refusals"].items()
}
RULES: Mapping[str, Rule] = {
    name: Rule(name=name, **said) for name, said in _TOLD["rules"].items()
}
PLAN_FAULTS: Mapping[str, str] = _TOLD["plan_faults"]
# The names of an export's columns, by what is in them.
COLUMNS: Mapping[str, list[str]] = _TOLD["columns"]


def plan_fault(line: str) -> str | None:
    """When a fault line of a plan comes that names no rule; None for another line."""
    shape = re.sub(r"^plan: \w+\.\w+: ", "plan: NAME.INDEX: ", line)
    shape = re.sub(r"^plan: \w+: ", "plan: NAME: ", shape)
    told = PLAN_FAULTS.get(shape)
    named = re.fullmatch(r"plan: (\w+): no such object", line)
    return f"{told}{meant(named[1])}" if told and named else told


#: How alike a name and an object's are that may be meant: 1 where they are the same.
NEAR = 0.8


def meant(name: str, version: int | None = None) -> str:
    """The version from which on texts have a name that this version has not; else a
    question for the object that it may mean, if it is near one that texts of the
    version have, or of any version."""
    since = NEWEST if name == NOTES else OBJECTS[name].since if name in OBJECTS else 0
    if since > (version or 1):
        return f": texts have it from version {since} on"
    known = {
        it.lower(): it
        for it, what in OBJECTS.items()
        if version is None or what.counts(version)
    }
    near = difflib.get_close_matches(name.lower(), list(known), n=1, cutoff=NEAR)
    found = known[near[0]] if near else name
    return "" if found == name else f": did you mean {found}?"
