"""Prints what differs between two plans, and what follows from it in their patterns.

docs/use/PYTHON.md, "What differs between two plans", says what the lines are.
"""

import re
import sys
from collections.abc import Collection, Iterable, Iterator, Mapping, Sequence
from dataclasses import dataclass
from pathlib import Path

from tsb.errors import Error, shown
from tsb.manual import NEWEST, OBJECTS, Object
from tsb.options import Words, called
from tsb.patterns import Timing, timings_of
from tsb.plan import Plan
from tsb.values import parts_of, phases_of, time_of, unit_of

PROGRAM = called("diff")
ALIKE, DIFFER, FAULT = 0, 1, 2  # statuses, as those of diff
NONE = "none"  # of a time that a pattern has no more, or not yet

_LINE = re.compile(
    r"(?P<name>\w{1,64})\.(?P<index>\d{1,4})(?: \([^()]*\))?:"
    r" (?P<before>\d{1,10}) -> (?P<after>\d{1,10})(?: \([^()]*\))?"
)


@dataclass(frozen=True)
class Change:
    """A value in which two plans differ: the object, its index in plan texts of
    versions 2 and 3, and the number that each plan has, in the object's own unit. Its
    text is the line of `python3 -m tsb diff`."""

    name: str
    index: int
    before: int
    after: int

    def __str__(self) -> str:
        after = self.with_said(self.after)
        return f"{self.name}.{self.place}: {self.before} -> {after}"

    @property
    def place(self) -> str:
        """The index, with its parts where it has several: `3 (table 1, phase 3)`."""
        parts = place_of(OBJECTS[self.name], self.index)
        return f"{self.index} ({parts})" if parts else f"{self.index}"

    def with_said(self, number: int) -> str:
        """A value of the object, with the time or the list that it is: `25 (2.5 s)`."""
        said = said_of(OBJECTS[self.name], number)
        return f"{number} ({said})" if said else f"{number}"

    @classmethod
    def of(cls, line: str) -> "Change":
        """The change of a line; `Error` where it is none."""
        found = _LINE.fullmatch(line)
        if found is None:
            raise Error(f"{line[:80]}: no line as phasePassage.2: 20 -> 25 (2.5 s)")
        numbers = (int(found[it]) for it in ("index", "before", "after"))
        return cls(found["name"], *numbers)


def place_of(what: Object, index: int) -> str:
    """The parts of an index that has several, as `table 2, phase 3`."""
    found, left = [], index - 1
    for name, (_, step) in parts_of(what, NEWEST).items():
        number, left = divmod(left, step)
        found.append(f"{name} {number + 1}")
    return ", ".join(found)


def said_of(what: Object, number: int) -> str:
    """A value that is a time or a list, as a person says it; nothing of others."""
    if what.is_list:
        members = sorted(phases_of(number))
        name = what.member if len(members) == 1 else f"{what.member}s"
        told = f"{name} {', '.join(map(str, members))}"
        return told if members else f"no {what.member}"
    return f"{time_of(what, number)} {unit_of(what)}" if what.time else ""


def changes(a: Plan, b: Plan) -> list[Change]:
    """The values in which plans differ, in the order of docs/use/MANUAL.md. Texts of
    two versions that give the same plan have none."""
    before, after = a.wide(NEWEST), b.wide(NEWEST)
    found = []
    for name in OBJECTS:
        was, now = before[name], after[name]
        for index in sorted({*was, *now}):
            if was[index] != now[index]:
                found.append(Change(name, index, was[index], now[index]))
    return found


def laid_over(plan: Plan, lines: Iterable[Change]) -> Plan:
    """The plan, in the newest version of plan texts, with these changes. `Error` names
    a line that another plan is meant by: its first number is not the plan's."""
    found = plan.wide(NEWEST)
    for it in lines:
        values = found[it.name]
        has = values[it.index]
        if has != it.before:
            raise Error(f"{it}: this plan has {has}")
        values[it.index] = it.after
    return found


# What follows


def following(a: Plan, b: Plan) -> Iterator[str]:
    """What follows from the changes: concurrency by phases, jumpers of the monitor's
    card, and of each pattern splits, force-off instants and yields, as the bench has
    them."""
    yield from _concurrency(a, b)
    yield from _card(a, b)
    of_a, of_b = timings_of(a), timings_of(b)
    for pattern in sorted({*of_a, *of_b}):
        if pattern not in of_b or pattern not in of_a:
            used = "in use" if pattern in of_b else "not in use"
            yield f"pattern {pattern}: {used}"
            continue
        for it in timing_lines(of_a[pattern], of_b[pattern]):
            yield f"pattern {pattern}, {it}"


def _concurrency(a: Plan, b: Plan) -> Iterator[str]:
    """The pairs of phases that one plan alone lets be served together."""
    before, after = _pairs(a), _pairs(b)
    for first, second in sorted(before ^ after):
        said = "are" if (first, second) in after else "are no longer"
        yield f"phases {first} and {second} {said} concurrent"


def _card(a: Plan, b: Plan) -> Iterator[str]:
    """The jumpers that the monitor's card needs in one plan alone."""
    before, after = set(a.card()), set(b.card())
    for what, pairs in (("add", after - before), ("remove", before - after)):
        if pairs:
            told = ", ".join(f"{one}-{other}" for one, other in sorted(pairs))
            yield f"card of the monitor: {what} {told}"


def _pairs(plan: Plan) -> frozenset[tuple[int, int]]:
    """The pairs of phases that are concurrent, the lower number first."""
    lists = plan["phaseConcurrency"]
    return frozenset(
        (min(phase, other), max(phase, other))
        for phase in lists
        for other in lists.phases(phase)
    )


def timing_lines(a: Timing, b: Timing) -> Iterator[str]:
    """What differs between the times of a pattern in two plans."""
    for what, of_a, of_b in (
        ("split", a.splits, b.splits),
        ("force-off at", a.force_offs, b.force_offs),
        ("yield at", a.yields, b.yields),
    ):
        for phase in _unlike(of_a, of_b):
            was, now = (_time(it.get(phase)) for it in (of_a, of_b))
            yield f"phase {phase}: {what} {was} -> {now}"


def _unlike(a: Mapping[int, int], b: Mapping[int, int]) -> Collection[int]:
    """The phases for which two tables have another time."""
    return [it for it in sorted({*a, *b}) if a.get(it) != b.get(it)]


def _time(tenths: int | None) -> str:
    return NONE if tenths is None else f"{tenths // 10}.{tenths % 10} s"


# The command


def lines_of(a: Plan, b: Plan, names: tuple[str, str]) -> Iterator[str]:
    """The lines of the command: the changes, and beyond a blank line what follows."""
    found = changes(a, b)
    yield from map(str, found)
    if not found:
        return
    further = further_of(a, b, names)
    if further:
        yield ""
        yield from further


def further_of(a: Plan, b: Plan, names: tuple[str, str]) -> list[str]:
    """What follows from the changes of two plans of these names. One that `tsb check`
    refuses has no patterns that run: its fault is in place of what follows."""
    refused = [
        f"{shown(name)}: {fault.line}"
        for name, plan in zip(names, (a, b), strict=True)
        if (fault := plan.fault())
    ]
    return refused or list(following(a, b))


def main(words: Sequence[str]) -> int:
    """Carries out `python3 -m tsb diff A B`; its status: 0 where the plans are alike, 1
    where they differ, 2 where a file is no plan, or the words are bad."""
    known = Words(
        prog=PROGRAM,
        description="Prints the values in which two plans differ, a line for each, and"
        " what follows from them.",
        epilog="The status is 0 where they are alike, 1 where they differ, 2 after a"
        " fault.",
    )
    known.add_argument("a", type=Path, metavar="A", help="a plan")
    known.add_argument("b", type=Path, metavar="B", help="another plan")
    given = known.parse_args(words)
    try:
        names = str(given.a), str(given.b)
        found = list(lines_of(_read(given.a), _read(given.b), names))
    except Error as fault:
        print(f"{PROGRAM}: {fault}", file=sys.stderr)
        return FAULT
    except OSError as fault:
        where = shown(fault.filename or PROGRAM)
        print(f"{PROGRAM}: {where}: {fault.strerror or fault}", file=sys.stderr)
        return FAULT
    for line in found:
        print(line)
    return DIFFER if found else ALIKE


def _read(path: Path) -> Plan:
    """The plan of a file; `Error` names the file that is none."""
    try:
        return Plan.read(path)
    except Error as fault:
        raise Error(f"{path}: {fault}") from None
