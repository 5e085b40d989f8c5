"""Prints a plan as the lines of OIDs that `snmpwalk -On` prints of a controller.

What NTCIP 1201 and 1202 have no place for is printed on standard error, a line for each value.
"""

import argparse
import sys
from collections.abc import Collection, Iterable, Iterator, Sequence
from pathlib import Path

from tsb.errors import Error, NoSuchObject, OutOfRange
from tsb.exchange import mib
from tsb.exchange.forms import KINDS, NOTHING, Form, Row, Value
from tsb.exchange.objects import (
    Leaf,
    leaf_of,
    plan_leaves,
    row_of,
    values_of,
)
from tsb.exchange.remarks import Remark, of_notes, warn
from tsb.exchange.sides import sides_of
from tsb.exchange.walk import Line, dotted, printed
from tsb.manual import NEWEST, OBJECTS
from tsb.options import Words, called
from tsb.plan import Plan
from tsb.values import RINGS, SEQUENCES

PROGRAM = called("oids")
PROFILE = "NTCIP 1202 v02 has no object for it"
#: Values that are written as another one: the object, the value, and what is said.
WRITTEN_AS = {
    ("coordForceMode", 1): "it is written as fixed, as 0 is",
}


def profile_objects() -> frozenset[str]:
    """The objects of a plan that NTCIP 1202 v02 has no object for."""
    forms = (it.column.form for it in plan_leaves().values())
    return frozenset(OBJECTS).difference(*(it.names for it in forms if it is not None))


def lines_of(plan: Plan) -> Iterator[str]:
    """The lines of a plan, by ascending OIDs."""
    return (printed(oid, value) for oid, value in values_of(plan))


def without_place(plan: Plan) -> Iterator[Remark]:
    """What NTCIP 1202 has no place for, or has only as another value."""
    profile = profile_objects()
    for name, values in plan.items():
        for index, value in values.items():
            why = WRITTEN_AS.get((name, value))
            why = PROFILE if name in profile else why
            if why is not None:
                yield Remark(0, name, (index,), str(value), why)
    for phase in blank_density(plan):
        why = "no time reduces a gap there, and here it is the minimum gap at once"
        yield Remark(0, "phaseMinimumGap", (phase,), "0", why)
    yield from of_notes(plan, PROFILE)


# From lines to a plan


class Reading:
    """A plan that is made of the lines of a walk, and what it has no place for."""

    def __init__(self) -> None:
        self.plan = Plan(NEWEST)
        self.remarks: list[Remark] = []
        self.lines = 0
        #: Lines of which a plan has all or some.
        self.taken: set[int] = set()
        self._seen: set[tuple[int, ...]] = set()

    def take(self, line: Line) -> None:
        """Takes a line; of an OID that comes twice the first one counts."""
        self.lines += 1
        leaf = leaf_of(line.oid)
        if leaf is None:
            self._tell(line, dotted(line.oid), (), "it is no object of a plan")
        elif leaf.number <= len(leaf.table.keys):
            self._index(line, leaf)
        elif (form := leaf.column.form) is None:
            why = leaf.column.why + _off(leaf.column.off, line.value)
            self._tell(line, leaf.column.name, leaf.row, why)
        elif not leaf.table.has(leaf.row):
            why = f"a plan has {' x '.join(map(str, leaf.table.sizes))} of them"
            why += _off(NOTHING[form.kind], line.value)
            self._tell(line, leaf.column.name, leaf.row, why)
        elif line.oid in self._seen:
            why = "a line before has it too, and counts"
            self._tell(line, leaf.column.name, leaf.row, why)
        else:
            self._seen.add(line.oid)
            self._read(line, leaf, form)

    def _index(self, line: Line, leaf: Leaf) -> None:
        """Takes a part of an index, which says nothing more than its row."""
        if line.value == leaf.row[leaf.number - 1]:
            self.taken.add(line.number)
        else:
            name = leaf.table.keys[leaf.number - 1]
            self._tell(line, name, leaf.row, "it is not its index")

    def _read(self, line: Line, leaf: Leaf, form: Form) -> None:
        """Takes a line that is of a plan."""
        name, is_of_kind = leaf.column.name, isinstance(line.value, form.kind)
        if line.value is None or not is_of_kind:
            self._tell(line, name, leaf.row, f"it is not {KINDS[form.kind]}")
            return
        sets, lost = form.read(line.value, row_of(leaf))
        for of, index, value in sets:
            try:
                self.plan[of][index] = value
                self.taken.add(line.number)
            except (OutOfRange, NoSuchObject) as fault:
                lost.append(str(fault))
        for why in lost:
            self._tell(line, name, leaf.row, why)

    def _tell(self, line: Line, name: str, row: Row, why: str) -> None:
        self.remarks.append(Remark(line.number, name, row, line.text, why))

    def _leave_out(self, name: str, index: int, value: object, why: str) -> None:
        self.remarks.append(Remark(0, name, (index,), str(value), why))

    def finish(self) -> None:
        """Gives the plan what NTCIP 1202 leaves to other objects, and takes out what
        names phases that are not enabled."""
        self._only_enabled()
        self._give_sides()
        self._give_gaps()
        for phase, value in self.plan["phaseAddedInitial"].items():
            self.plan["phaseVariableInitial"][phase] = 1
            why = f"given, as phaseAddedInitial is {value}"
            self._leave_out("phaseVariableInitial", phase, 1, why)
        # (only a schedule asks for the newest version)
        self.plan = self.plan.wide()

    def _only_enabled(self) -> None:
        """Takes phases out of lists and sequences that are not enabled, as the rules
        K3, K4, K6, K12 and K14 ask."""
        plan, enabled = self.plan, self.plan.phases
        for name in ("phaseConcurrency", "overlapIncludedPhases", "overlapModifierPhases"):
            for index in list(plan[name]):
                keeps = name != "phaseConcurrency" or index in enabled
                self._filter(name, index, enabled if keeps else ())
        for number in range(1, SEQUENCES + 1):
            for ring in range(1, RINGS + 1):
                order = plan.sequence(number, ring)
                for it in (it for it in order if it not in enabled):
                    why = f"phase {it} is not enabled, so ring {ring} leaves it out"
                    self._leave_out("sequenceData", number, it, why)
                plan.set_sequence(number, ring, [it for it in order if it in enabled])
        for name in ("vehicleDetectorCallPhase", "pedestrianDetectorCallPhase"):
            for index, phase in list(plan[name].items()):
                if phase not in enabled:
                    why = f"phase {phase} is not enabled, so it calls none"
                    self._leave_out(name, index, phase, why)
                    plan[name][index] = 0

    def _filter(self, name: str, index: int, keeps: Collection[int]) -> None:
        """Keeps these phases of a list alone."""
        values = self.plan[name]
        phases = values.phases(index)
        for it in sorted(phases - set(keeps)):
            why = "only phases that are enabled are in lists: it is left out"
            self._leave_out(name, index, it, why)
        values[index] = phases & set(keeps)

    def _give_sides(self) -> None:
        """Gives each enabled phase its side."""
        plan = self.plan
        rings = {it: plan["phaseRing"][it] for it in plan.phases}
        concurrent = {it: plan["phaseConcurrency"].phases(it) for it in rings}
        orders = [
            plan.sequence(number, ring)
            for number in range(1, SEQUENCES + 1)
            for ring in range(1, RINGS + 1)
        ]
        for phase, side in sorted(sides_of(rings, concurrent, orders).items()):
            plan["phaseSide"][phase] = side
            why = "given, by lists of concurrent phases and sequences"
            why = why if side else "more than 4 sides would be needed"
            self._leave_out("phaseSide", phase, side, why)

    def _give_gaps(self) -> None:
        """Gives phases without volume density the passage as minimum gap."""
        for phase in blank_density(self.plan):
            passage = self.plan["phasePassage"][phase]
            self.plan["phaseMinimumGap"][phase] = passage
            why = "given, as phasePassage: no time reduces a gap"
            self._leave_out("phaseMinimumGap", phase, passage, why)


def _off(off: Value | None, value: Value | None) -> str:
    """What is said of a value that does nothing."""
    return "; as it is, it does nothing" if off is not None and off == value else ""


def blank_density(plan: Plan) -> list[int]:
    """The phases with a passage and a blank page of volume density."""
    names = (
        "phaseMinimumGap",
        "phaseTimeBeforeReduction",
        "phaseTimeToReduce",
        "phaseCarsBeforeReduction",
    )
    return [
        it for it in plan["phasePassage"] if not any(plan[name][it] for name in names)
    ]


def plan_of(lines: Iterable[Line]) -> Reading:
    """The plan of a walk, and what it has no place for."""
    reading = Reading()
    for line in lines:
        reading.take(line)
    reading.finish()
    return reading


def _words() -> argparse.ArgumentParser:
    words = Words(
        prog=PROGRAM,
        description="Prints a plan as the lines that snmpwalk -On prints.",
        epilog="docs/use/EXCHANGE.md has the objects.",
        allow_abbrev=False,
    )
    words.add_argument("plan", type=Path, nargs="?", metavar="PLAN")
    words.add_argument(
        "--mib", action="store_true", help="prints a MIB file of the objects instead"
    )
    return words


def main(words: Sequence[str]) -> int:
    """Prints a plan's lines; the status to end with."""
    known = _words()
    given = known.parse_args(words)
    if given.mib == (given.plan is not None):
        known.error("name a plan, or give --mib")
    if given.mib:
        sys.stdout.write(mib.text())
        return 0
    try:
        plan = Plan.read(given.plan)
    except Error as fault:
        raise Error(f"{given.plan}: {fault}") from None
    # (a plan of version 1 has other indices)
    plan = plan.wide()
    for line in lines_of(plan):
        print(line)
    warn(without_place(plan))
    return 0
