"""Prints phases and a pattern of a plan as the sections of a UTDF file.

UTDF is the form of text by which Synchro takes and gives timings. What it has no place
for is printed on standard error, a line for each value. docs/use/EXCHANGE.md says what
of the form is from memory.
"""

import argparse
import csv
import io
import sys
from collections.abc import Iterator, Mapping, Sequence
from dataclasses import dataclass, field
from decimal import Decimal, InvalidOperation
from pathlib import Path
from typing import NamedTuple

from tsb.errors import Error, NoSuchObject, OutOfRange, shown
from tsb.exchange.oids import blank_density
from tsb.exchange.remarks import Remark, of_notes, warn
from tsb.manual import NEWEST
from tsb.options import Words, called
from tsb.plan import Plan
from tsb.values import RINGS, object_of

PROGRAM = called("utdf")
PHASES, TIMEPLANS, LANES = "phases", "timeplans", "lanes"
TITLES = {PHASES: "Phasing Data", TIMEPLANS: "Timing Plan Settings"}
#: The one pattern of a file, with its table of splits and its sequence.
PATTERN = TABLE = SEQUENCE = 1
DIGITS = 8  # of the columns D1, D2, .., at least
UNCOORDINATED, COORDINATED = 1, 3  # of Control Type
#: Rows of [Phases], and the objects that they are of, in seconds.
TIMES = {
    "MinGreen": "phaseMinimumGreen",
    "MaxGreen": "phaseMaximum1",
    "VehExt": "phasePassage",
    "TimeBeforeReduce": "phaseTimeBeforeReduction",
    "TimeToReduce": "phaseTimeToReduce",
    "MinGap": "phaseMinimumGap",
    "Yellow": "phaseYellowChange",
    "AllRed": "phaseRedClear",
    "Walk": "phaseWalk",
    "DontWalk": "phasePedestrianClear",
}
#: What a number of Recall asks for.
RECALLS = {1: "phaseMinRecall", 2: "phasePedRecall", 3: "phaseMaxRecall"}
#: What a detector of [Lanes] has.
DETECTORS = {
    "DetectExtend1": "vehicleDetectorExtend",
    "DetectDelay1": "vehicleDetectorDelay",
}
#: What [Timeplans] has that a pattern has.
TIMEPLAN = ("Control Type", "Cycle Length", "Offset", "Reference Phase")
WORKED_OUT = ("Start", "End", "Yield", "Yield170", "LocalStart", "LocalYield",
              "LocalYield170", "ActGreen")  # fmt: skip
NO_PLACE = "a plan has no place for it"
NO_ROW = "these sections have no place for it"
#: The objects of a plan that the sections have, all of them or as far as is said.
COVERED = {
    *TIMES.values(), *RECALLS.values(), "phaseEnabled", "phaseRing", "phaseSide",
    "phaseDualEntry", "sequenceData", "phaseConcurrency", "splitTime",
    "splitCoordPhase", "patternCycleTime", "patternOffsetTime", "patternSplitNumber",
    "patternSequenceNumber",
}  # fmt: skip


class Cell(NamedTuple):
    """A value of a file: its line and its text."""

    line: int
    text: str


#: The values of a row by the names of their columns.
Record = Mapping[str, Cell]


@dataclass
class Node:
    """What a file has of a node: of each section its rows by their names."""

    name: str
    sections: dict[str, dict[str, Record]] = field(default_factory=dict)


def is_utdf(text: str) -> bool:
    """Whether a text has a line that begins a section with phases, or is a network."""
    heads = {it.strip().strip(",").lower() for it in text.splitlines()}
    return f"[{PHASES}]" in heads


def _sections(text: str) -> Iterator[tuple[str, int, list[str]]]:
    """The lines of a file that are not blank: section, number and cells."""
    section = ""
    reader = csv.reader(io.StringIO(text))
    try:
        for row in reader:
            cells = [it.strip() for it in row]
            if not any(cells):
                continue
            if cells[0].startswith("[") and cells[0].endswith("]"):
                section = cells[0][1:-1].strip().lower()
                continue
            yield section, reader.line_num, cells
    except csv.Error as fault:
        raise Error(f"UTDF line {reader.line_num}: {fault}") from None


class Reading:
    """A plan that is made of a node of a file, and what it has no place for."""

    def __init__(self, text: str, node: str | None) -> None:
        self.plan = Plan(NEWEST)
        self.remarks: list[Remark] = []
        self._nodes: dict[str, Node] = {}
        self._read(text)
        of = [it.name for it in self._nodes.values() if PHASES in it.sections]
        if node is None and len(of) == 1:
            node = of[0]
        if node not in of:
            given = "name one by --node" if node is None else f"not {shown(node)}"
            raise Error(f"[Phases] has nodes {shown(' '.join(of) or 'none')}: {given}")
        self.node = node
        self._sections = self._nodes[node].sections

    def _read(self, text: str) -> None:
        """Takes the rows of the sections that a plan has, by node and name."""
        columns: dict[str, list[str]] = {}
        for section, line, cells in _sections(text):
            if section not in (PHASES, TIMEPLANS, LANES):
                self._tell(line, f"[{section}]" if section else "text", "", NO_PLACE)
            elif cells[0].upper() == "RECORDNAME":
                columns[section] = cells[2:]
            elif section in columns and len(cells) >= 2 and cells[1]:
                self._row(section, line, columns[section], cells)
            elif any(cells[1:]):
                what = f"a row of [{section}] without a node, or before RECORDNAME"
                raise Error(f"UTDF line {line}: {what}")

    def _row(self, section: str, line: int, names: list[str], cells: list[str]) -> None:
        """Takes a row of a section that a plan has."""
        name, node, *values = cells
        rows = self._nodes.setdefault(node, Node(node)).sections.setdefault(section, {})
        if name in rows:
            what = ",".join(values)
            self._tell(line, name, what, "a line before has it too, and counts")
            return
        pairs = zip(names, values, strict=False)
        rows[name] = {key: Cell(line, it) for key, it in pairs if it}
        if more := ",".join(values[len(names) :]).strip(","):
            self._tell(line, name, more, "no column is named for it")

    def _tell(self, line: int, name: str, value: str, why: str) -> None:
        self.remarks.append(Remark(line, name, (), value, why))

    def _give(self, name: str, index: int, value: int, why: str) -> None:
        """Gives a value that the file leaves to the reader."""
        self.plan[name][index] = value
        self.remarks.append(Remark(0, name, (index,), str(value), f"given, {why}"))

    def _number(self, cell: Cell, name: str) -> Decimal | None:
        """The number of a cell; None, with a remark, where it has none."""
        try:
            found = Decimal(cell.text)
        except InvalidOperation:
            found = Decimal("NaN")
        if found.is_finite() and abs(found) < 10**9:
            return found
        self._tell(cell.line, name, cell.text, "it is no number")
        return None

    def _whole(self, cell: Cell, name: str) -> int | None:
        """The whole number of a cell; None, with a remark, where it has none."""
        found = self._number(cell, name)
        if found is not None and found != int(found):
            self._tell(cell.line, name, cell.text, "it is no whole number")
            return None
        return None if found is None else int(found)

    def _set(self, cell: Cell, said: str, name: str, index: int, value: int) -> bool:
        """Sets a value of the plan, and whether it did; a remark where it has no such
        value."""
        try:
            self.plan[name][index] = value
        except (OutOfRange, NoSuchObject) as fault:
            self._tell(cell.line, said, cell.text, str(fault))
            return False
        return True

    def _time(self, cell: Cell, said: str, name: str, index: int) -> None:
        """Sets a time that is given in seconds."""
        found = self._number(cell, said)
        if found is None:
            return
        units = found * (10 if object_of(name).unit.startswith("tenths") else 1)
        if units == int(units):
            self._set(cell, said, name, index, int(units))
            return
        up = int(units) + (units > 0)
        self._tell(cell.line, said, cell.text, f"{name} takes whole ones: {up} is given")
        self._set(cell, said, name, index, up)

    # Phases

    def take(self) -> None:
        """Gives the plan what the file has of the node."""
        records = self._sections[PHASES]
        self._place(records.get("BRP", {}))
        for name, record in records.items():
            for phase, cell in self._of_phases(name, record):
                self._phase(name, phase, cell)
        self._inhibit(records.get("InhibitMax", {}))
        self._timeplan(self._sections.get(TIMEPLANS, {}))
        self._detect(self._sections.get(LANES, {}))
        for phase, value in self.plan["phaseMaximum1"].items():
            self._give("phaseMaximum2", phase, value, "as phaseMaximum1")
        for phase in blank_density(self.plan):
            passage = self.plan["phasePassage"][phase]
            self._give("phaseMinimumGap", phase, passage, "as phasePassage")
        for node in self._nodes.values():
            if node.name != self.node:
                self._tell_other(node)
        # (only a detector beyond those of version 2 asks for the newest version)
        self.plan = self.plan.wide()
        # (what has no line was given at the end)
        self.remarks.sort(key=lambda it: (it.line == 0, it.line))

    def _tell_other(self, node: Node) -> None:
        """Names the lines of another node."""
        for section, rows in node.sections.items():
            lines = {it.line for record in rows.values() for it in record.values()}
            for line in sorted(lines):
                self._tell(line, f"[{section}]", "", "it is of another node")

    def _of_phases(self, name: str, record: Record) -> Iterator[tuple[int, Cell]]:
        """The cells of a row of [Phases] by their phases."""
        for column, cell in record.items():
            digits = column[1:]
            if column[:1] == "D" and digits.isdecimal() and 1 <= int(digits) <= 16:
                yield int(digits), cell
            else:
                said = f"{name} {column}"
                self._tell(cell.line, said, cell.text, "a plan has phases 1 to 16")

    def _place(self, record: Record) -> None:
        """Gives phases their rings, sides and places: barrier, ring and position."""
        places: dict[int, list[tuple[int, int, int]]] = {1: [], 2: []}
        for phase, cell in self._of_phases("BRP", record):
            if len(cell.text) != 3 or not cell.text.isdecimal():
                self._tell(cell.line, f"BRP D{phase}", cell.text, "it is no such place")
                continue
            side, ring, position = map(int, cell.text)
            if ring not in places or not 1 <= side <= 4:
                why = "a plan has rings 1 and 2, and sides 1 to 4"
                self._tell(cell.line, f"BRP D{phase}", cell.text, why)
                continue
            places[ring].append((side, position, phase))
            self.plan["phaseEnabled"][phase] = 1
            self.plan["phaseRing"][phase] = ring
            self.plan["phaseSide"][phase] = side
        for ring, of in places.items():
            order = [phase for _, _, phase in sorted(of)]
            self.plan.set_sequence(SEQUENCE, ring, order)
        self._concur()

    def _concur(self) -> None:
        """Makes phases of one side and two rings concurrent."""
        plan = self.plan
        for it in plan.phases:
            plan["phaseConcurrency"][it] = beside(plan, it)

    def _phase(self, name: str, phase: int, cell: Cell) -> None:
        """Takes a cell of [Phases]."""
        said = f"{name} D{phase}"
        if name in ("BRP", "InhibitMax"):
            return
        if phase not in self.plan.phases:
            self._tell(cell.line, said, cell.text, "BRP has no place of this phase")
        elif name in TIMES:
            self._time(cell, said, TIMES[name], phase)
        elif name == "DualEntry":
            if (number := self._whole(cell, said)) is not None:
                self._set(cell, said, "phaseDualEntry", phase, number)
        elif name == "Recall":
            number = self._whole(cell, said)
            if number in RECALLS:
                self.plan[RECALLS[number]][phase] = 1
            elif number:
                self._tell(cell.line, said, cell.text, "no recall has this number")
        elif name in WORKED_OUT:
            self._tell(cell.line, said, cell.text, "Synchro works it out")
        else:
            self._tell(cell.line, said, cell.text, NO_PLACE)

    def _inhibit(self, record: Record) -> None:
        """Gives the mode of maximums in patterns: one for all phases."""
        cells = dict(self._of_phases("InhibitMax", record))
        on = {self._whole(it, f"InhibitMax D{at}") for at, it in cells.items()}
        if on == {0}:
            self.plan["coordMaximumMode"][1] = 1
        elif on not in ({1}, set()):
            for phase, cell in cells.items():
                why = "a plan has one mode for all phases: no maximum in a pattern"
                self._tell(cell.line, f"InhibitMax D{phase}", cell.text, why)

    # The pattern

    def _timeplan(self, records: Mapping[str, Record]) -> None:
        """Gives pattern 1, where the file's timing plan is coordinated."""
        cells = {name: it["DATA"] for name, it in records.items() if "DATA" in it}
        numbers = {
            name: number
            for name in TIMEPLAN
            if name in cells
            and (number := self._number(cells[name], name)) is not None
        }
        for name, cell in cells.items():
            if name not in TIMEPLAN:
                self._tell(cell.line, name, cell.text, NO_PLACE)
        if numbers.get("Control Type") != COORDINATED:
            for name, cell in cells.items():
                if name in TIMEPLAN:
                    why = "the plan runs free: Control Type is not 3"
                    self._tell(cell.line, name, cell.text, why)
            return
        self.plan["patternSplitNumber"][PATTERN] = TABLE
        self.plan["patternSequenceNumber"][PATTERN] = SEQUENCE
        for name, of in (
            ("Cycle Length", "patternCycleTime"), ("Offset", "patternOffsetTime"),
        ):  # fmt: skip
            if name in cells:
                self._time(cells[name], name, of, PATTERN)
        if "Offset" in cells:
            why = "it is not converted: docs/use/MANUAL.md, chapter 8, has its zero"
            self._tell(cells["Offset"].line, "Offset", cells["Offset"].text, why)
        self._coordinate(cells, numbers)
        self._split()

    def _coordinate(
        self, cells: Mapping[str, Cell], numbers: Mapping[str, Decimal]
    ) -> None:
        """Marks the coordinated phases: 206 is phases 2 and 6."""
        name = "Reference Phase"
        if name not in numbers:
            return
        for it in divmod(int(numbers[name]), 100):
            if it in self.plan.phases:
                self.plan["splitCoordPhase"][TABLE, it] = 1
            elif it:
                cell = cells[name]
                self._tell(cell.line, name, cell.text, f"there is no phase {it}")

    def _split(self) -> None:
        """Gives splits: each is the maximum green with yellow and red clearance, where
        the file has all three."""
        records = self._sections[PHASES]
        for phase in self.plan.phases:
            parts = [
                (cell, number)
                for name in ("MaxGreen", "Yellow", "AllRed")
                if (cell := records.get(name, {}).get(f"D{phase}")) is not None
                and (number := self._number(cell, f"{name} D{phase}")) is not None
            ]
            if len(parts) < 3:
                continue
            split = sum((number for _, number in parts), Decimal())
            cell = Cell(parts[0][0].line, str(split))
            said = f"split of D{phase}"
            if split == int(split):
                index = self.plan["splitTime"].index((TABLE, phase))
                self._set(cell, said, "splitTime", index, int(split))
            else:
                self._tell(cell.line, said, cell.text, "a split has whole seconds")

    # Detectors

    def _detect(self, records: Mapping[str, Record]) -> None:
        """Gives each movement with detectors a vehicle detector, in the order of the
        file's columns."""
        phases, counts = (records.get(it, {}) for it in ("DetectPhase1", "numDetects"))
        name, channel = "vehicleDetectorCallPhase", 0
        used = set()
        for movement, cell in phases.items():
            said = f"DetectPhase1 {movement}"
            count = counts.get(movement)
            phase = self._whole(cell, said)
            if not phase or count is None or not self._whole(count, "numDetects"):
                continue
            if not self._set(cell, said, name, channel + 1, phase):
                continue
            channel += 1
            used.add(movement)
            why = f"given, for {movement}"
            self.remarks.append(Remark(0, name, (channel,), str(phase), why))
            for row, of in DETECTORS.items():
                more = records.get(row, {}).get(movement)
                if more is not None:
                    self._time(more, f"{row} {movement}", of, channel)
        for row, record in records.items():
            if row in ("DetectPhase1", "numDetects", *DETECTORS):
                left = {at: it for at, it in record.items() if at not in used}
                self._tell_row(row, left, "it is of no detector with a phase")
            else:
                self._tell_row(row, record, NO_PLACE)

    def _tell_row(self, name: str, record: Record, why: str) -> None:
        """Names the values of a row, if it has some."""
        for line in sorted({it.line for it in record.values()}):
            text = ", ".join(f"{at} {it.text}" for at, it in record.items())
            self._tell(line, name, text, why)


def beside(plan: Plan, phase: int) -> set[int]:
    """The phases of a phase's side in the other ring."""
    ring, side = plan["phaseRing"], plan["phaseSide"]
    return {
        it for it in plan.phases if ring[it] != ring[phase] and side[it] == side[phase]
    }


def plan_of(text: str, node: str | None) -> Reading:
    """The plan of a node of a file; of the one that there is without a name."""
    reading = Reading(text, node)
    reading.take()
    return reading


# From a plan to sections


class Sections:
    """The sections of a plan with a pattern, or in free operation, and what they have
    no place for."""

    def __init__(self, plan: Plan, pattern: int, node: str) -> None:
        self._plan, self._pattern, self._node = plan, pattern, node
        self.remarks: list[Remark] = []
        if pattern and not plan["patternCycleTime"][pattern]:
            raise Error(f"the plan has no pattern {pattern}")
        self._table = plan["patternSplitNumber"][pattern] if pattern else 0
        self._phases = sorted(plan.phases)

    def _tell(self, name: str, index: int, value: int, why: str) -> None:
        self.remarks.append(Remark(0, name, (index,), str(value), why))

    def lines(self) -> Iterator[str]:
        """The lines of both sections."""
        file = io.StringIO()
        write = csv.writer(file, lineterminator="\n").writerow
        for section, columns, rows in (
            (TIMEPLANS, ["DATA"], self._timeplan()),
            (PHASES, [f"D{it}" for it in self._columns()], self._rows()),
        ):
            write([f"[{section.capitalize()}]"])
            write([TITLES[section]])
            write(["RECORDNAME", "INTID", *columns])
            for name, values in rows:
                write([name, self._node, *values])
            write([])
        self._tell_others()
        return iter(file.getvalue().splitlines())

    def _columns(self) -> range:
        return range(1, max([DIGITS, *self._phases]) + 1)

    def _timeplan(self) -> Iterator[tuple[str, list[str]]]:
        plan, pattern = self._plan, self._pattern
        yield "Control Type", [str(COORDINATED if pattern else UNCOORDINATED)]
        if not pattern:
            return
        yield "Cycle Length", [f"{plan['patternCycleTime'][pattern]}.0"]
        coordinated = [
            it for it in self._phases if plan["splitCoordPhase"][self._table, it]
        ]
        # (each ring has one at most; 0 is no phase, and one alone comes second)
        first, second = [0, 0, *coordinated][-2:]
        yield "Reference Phase", [str(100 * first + second)]
        offset = plan["patternOffsetTime"][pattern]
        yield "Offset", [f"{offset}.0"]
        why = "its zero is that of docs/use/MANUAL.md, chapter 8: no Referenced To says so"
        self._tell("patternOffsetTime", pattern, offset, why)

    def _rows(self) -> Iterator[tuple[str, list[str]]]:
        places = self._places()
        yield "BRP", self._row({it: places.get(it, "") for it in self._phases})
        for name, of in TIMES.items():
            yield name, self._row({it: self._time(of, it) for it in self._phases})
        recalls = {it: str(self._recall(it)) for it in self._phases}
        yield "Recall", self._row(recalls)
        dual = self._plan["phaseDualEntry"]
        yield "DualEntry", self._row({it: str(dual[it]) for it in self._phases})
        inhibits = "0" if self._plan["coordMaximumMode"][1] else "1"
        yield "InhibitMax", self._row(dict.fromkeys(self._phases, inhibits))

    def _row(self, texts: Mapping[int, str]) -> list[str]:
        return [texts.get(it, "") for it in self._columns()]

    def _places(self) -> dict[int, str]:
        """Barrier, ring and position of each phase."""
        plan, found = self._plan, dict[int, str]()
        number = plan["patternSequenceNumber"][self._pattern] if self._pattern else 1
        for ring in range(1, RINGS + 1):
            before = dict[int, int]()
            for phase in plan.sequence(number, ring):
                side = plan["phaseSide"][phase]
                before[side] = before.get(side, 0) + 1
                found[phase] = f"{side}{ring}{before[side]}"
        return found

    def _time(self, name: str, phase: int) -> str:
        """A time in seconds. In a pattern the maximum green is what the split leaves."""
        plan = self._plan
        if name == "phaseMaximum1" and self._pattern:
            clearance = plan["phaseYellowChange"][phase] + plan["phaseRedClear"][phase]
            tenths = 10 * plan["splitTime"][self._table, phase] - clearance
            maximum = plan[name][phase]
            if 10 * maximum != tenths:
                self._tell(name, phase, maximum, "MaxGreen is what the split leaves")
            return _tenths(tenths)
        value = plan[name][phase]
        if object_of(name).unit.startswith("tenths"):
            return _tenths(value)
        return str(value)

    def _recall(self, phase: int) -> int:
        """The number of the greatest of a phase's recalls; a remark for others."""
        asked = [it for it, name in RECALLS.items() if self._plan[name][phase]]
        for it in asked[:-1]:
            self._tell(RECALLS[it], phase, 1, "Recall has one number")
        return max(asked, default=0)

    def _tell_others(self) -> None:
        """Tells what the sections have no place for."""
        plan = self._plan
        for name, values in plan.items():
            for index, value in values.items():
                if not self._has(name, index):
                    self._tell(name, index, value, NO_ROW)
        for it in self._phases:
            if plan["phaseConcurrency"].phases(it) != beside(plan, it):
                value = plan["phaseConcurrency"][it]
                why = "BRP makes all phases of a barrier and two rings concurrent"
                self._tell("phaseConcurrency", it, value, why)
        self.remarks += of_notes(plan, NO_ROW)

    def _has(self, name: str, index: int) -> bool:
        """Whether the sections have a value."""
        plan, pattern = self._plan, self._pattern
        if name == "coordMaximumMode":
            return plan[name][index] == 1
        if name.startswith("pattern"):
            return name in COVERED and index == pattern
        if name.startswith("split"):
            table, phase = divmod(index - 1, 16)
            of = table + 1 == self._table and phase + 1 in plan.phases
            return name in COVERED and of
        if name == "sequenceData":
            used = plan["patternSequenceNumber"][pattern] if pattern else 1
            return (index - 1) // 32 + 1 == used
        return name in COVERED and index in plan.phases


def _tenths(value: int) -> str:
    """Tenths of a second in seconds."""
    sign, value = ("-", -value) if value < 0 else ("", value)
    return f"{sign}{value // 10}.{value % 10}"


def _words() -> argparse.ArgumentParser:
    words = Words(
        prog=PROGRAM,
        description="Prints [Timeplans] and [Phases] of a UTDF file for a plan.",
        epilog="docs/use/EXCHANGE.md says what they have.",
        allow_abbrev=False,
    )
    words.add_argument("plan", type=Path, metavar="PLAN")
    words.add_argument(
        "--pattern", type=int, default=0, metavar="N",
        choices=range(17), help="the pattern; free operation without it",
    )  # fmt: skip
    words.add_argument("--node", default="1", metavar="ID", help="1 without it")
    return words


def main(words: Sequence[str]) -> int:
    """Prints the sections of a plan; the status to end with."""
    given = _words().parse_args(words)
    try:
        plan = Plan.read(given.plan)
        plan.check()
        plan = plan.wide() if plan.version == 1 else plan
        sections = Sections(plan, given.pattern, given.node)
        text = "".join(f"{line}\n" for line in sections.lines())
    except Error as fault:
        raise Error(f"{given.plan}: {fault}") from None
    sys.stdout.write(text)
    warn(sections.remarks)
    return 0
