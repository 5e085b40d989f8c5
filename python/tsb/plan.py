"""Plans: built and changed by the names of objects and their units.

The text of a plan is that of docs/use/MANUAL.md, chapter 2; names, units and ranges are
those of chapter 3. Whether a plan breaks a rule, the bench is asked.
"""

import json
import tempfile
from collections.abc import Iterable, Iterator, MutableMapping
from datetime import date, datetime, timedelta
from os import PathLike
from pathlib import Path
from typing import TYPE_CHECKING, Any, NamedTuple

from tsb.card import Differences, Pair, differences_of, pairs_of, text_of
from tsb.errors import (
    NOT_JSON,
    TOO_LARGE,
    Error,
    NoSuchObject,
    OutOfRange,
    PlanFault,
    ProgramDied,
    shown,
)
from tsb.files import up_to, word
from tsb.manual import NEWEST, NOTES, OBJECTS
from tsb.programs import run
from tsb.values import (
    Index,
    Value,
    index_of,
    number_of,
    object_of,
    phases_of,
    wide_index,
)
from tsb.worksheet import Worksheet, worksheet_of

if TYPE_CHECKING:
    from tsb.diff import Change

OK = "plan ok"
DIFFERS = 5  # the status of `tsb_field card` where a card differs
LONGEST = 1 << 20  # bytes of a plan's text
TRAILS = "overlapTrailGreen"  # what an overlap has that trails
ARROW = 2  # the type of an overlap that is a flashing yellow arrow
DAY_PLANS = "timeBaseScheduleDayPlan"  # what an entry of a schedule has that is used


class Turn(NamedTuple):
    """What the schedule runs from a minute on: at a midnight, or where another action
    comes into force. The pattern is 0 for free operation; what there is none of is 0."""

    begin: datetime
    action: int
    pattern: int
    entry: int
    day_plan: int


class Values(MutableMapping[int, int]):
    """The values of an object by index: those that are not 0.

    A value is a number in the object's own unit, a time (`tsb.seconds(3.5)`), or the
    phases of a list (`{2, 6}`). What is out of range is refused with the range.
    """

    def __init__(self, name: str, version: int) -> None:
        self.object = object_of(name, version)
        self._version = version
        self._values: dict[int, int] = {}

    @property
    def count(self) -> int:
        """The greatest index."""
        return self.object.counts(self._version)

    def index(self, index: Index) -> int:
        """An index as the plan text has it: of (table, phase) or (sequence, ring,
        place) too."""
        return index_of(self.object, index, self._version)

    def __getitem__(self, index: Index) -> int:
        return self._values.get(self.index(index), 0)

    def __setitem__(self, index: Index, value: Value) -> None:
        place, number = self.index(index), number_of(self.object, value, self._version)
        self._values.pop(place, None)
        if number:
            self._values[place] = number

    def __delitem__(self, index: Index) -> None:
        self[index] = 0

    def __contains__(self, index: Any) -> bool:
        """Whether the value of an index is not 0."""
        return self[index] != 0

    def __iter__(self) -> Iterator[int]:
        return iter(sorted(self._values))

    def __len__(self) -> int:
        return len(self._values)

    def __repr__(self) -> str:
        return f"{self.object.name} {dict(self)}"

    def time(self, index: Index) -> timedelta:
        """A value that is a time."""
        unit = self.object.time
        if unit is None:
            raise OutOfRange(f"{self.object.name} is no time: {self.object.range()}")
        return self[index] * unit

    def phases(self, index: Index) -> frozenset[int]:
        """The phases of a value that is a list."""
        if not self.object.is_list:
            raise OutOfRange(f"{self.object.name} is no list: {self.object.range()}")
        return phases_of(self[index])


def _place(fault: Exception) -> str:
    """Where a text stops being JSON, as a second line, if that is known."""
    if not isinstance(fault, json.JSONDecodeError):
        return ""
    what = "a byte order mark" if "BOM" in fault.msg else fault.msg.lower()
    return f"\nplan line {fault.lineno}, column {fault.colno}: {what}"


def _turn(fields: list[str]) -> Turn:
    """The turn of a row of `tsb_field schedule`: date, weekday, time, and numbers."""
    day, _, time, *numbers = fields
    values = (0 if it in ("-", "free") else int(it) for it in numbers)
    return Turn(datetime.fromisoformat(f"{day} {time}"), *values)


class Plan:
    """A plan. `plan["phaseYellowChange"][2] = tsb.seconds(4)` changes a value; what
    is never given is 0. `version` is that of its text, 1, 2 or 3. `notes` are texts of
    `site` or of a value, as `phaseWalk.2`, which texts of version 3 have."""

    def __init__(self, version: int = 2) -> None:
        if version not in (1, 2, 3):
            raise PlanFault("plan: version")
        self.version = version
        self.notes: dict[str, str] = {}
        self._objects: dict[str, Values] = {}

    @classmethod
    def of_text(cls, text: str | bytes) -> "Plan":
        """The plan of a JSON text. `PlanFault`, `NoSuchObject` or `OutOfRange` says
        what is wrong with it; rules are not judged here (`check`)."""
        if len(text) > LONGEST:
            raise PlanFault(TOO_LARGE)
        try:
            told = json.loads(text)
        except (ValueError, RecursionError) as fault:
            raise PlanFault(NOT_JSON + _place(fault)) from None
        if not isinstance(told, dict):
            raise PlanFault("plan: not a table")
        version = told.pop("version", None)
        if type(version) is not int:
            raise PlanFault("plan: version")
        plan = cls(version)
        for name, values in told.items():
            if name == NOTES and version == NEWEST:
                plan._take_notes(values)
            else:
                plan._take(name, values)
        return plan

    def _take_notes(self, notes: Any) -> None:
        """Takes the notes that a text has."""
        if not isinstance(notes, dict):
            raise PlanFault(f"plan: {NOTES}: not a table")
        for name, note in notes.items():
            if not isinstance(note, str):
                raise PlanFault(f"plan: {NOTES}.{name}: not a text")
        self.notes = notes

    def _take(self, name: str, values: Any) -> None:
        """Takes the values of an object as a text has them."""
        taken = self[name]
        if not isinstance(values, dict):
            raise PlanFault(f"plan: {name}: not a table")
        for index, value in values.items():
            if not index.isdecimal() or str(int(index)) != index:
                what = f"{name}.{shown(index)}"
                raise NoSuchObject(f"{what}: an index is a number")
            if type(value) is not int:
                raise PlanFault(f"plan: {name}.{index}: not a whole number")
            taken[int(index)] = value

    @classmethod
    def read(cls, path: str | PathLike[str]) -> "Plan":
        """The plan of a file."""
        return cls.of_text(up_to(path, LONGEST))

    def write(self, path: str | PathLike[str]) -> None:
        """Writes the text to a file."""
        Path(path).write_text(self.text, encoding="utf-8")

    @property
    def text(self) -> str:
        """The JSON text: what is not 0, an object on a line."""
        lines = [f'"version": {self.version}']
        for name, values in self.items():
            told = {str(index): value for index, value in values.items()}
            lines.append(f'"{name}": {json.dumps(told)}')
        if self.notes:
            lines.append(f'"{NOTES}": {json.dumps(self.notes, ensure_ascii=False)}')
        return "{\n  " + ",\n  ".join(lines) + "\n}\n"

    def items(self) -> Iterator[tuple[str, Values]]:
        """The objects that are not all zeros, in the order of the manual."""
        for name in OBJECTS:
            if values := self._objects.get(name):
                yield name, values

    def __getitem__(self, name: str) -> Values:
        if name not in self._objects:
            self._objects[name] = Values(name, self.version)
        return self._objects[name]

    def __setitem__(self, name: str, values: "dict[Any, Value]") -> None:
        taken = Values(name, self.version)
        for index, value in values.items():
            taken[index] = value
        self._objects[name] = taken

    def __eq__(self, other: object) -> bool:
        return isinstance(other, Plan) and self.text == other.text

    __hash__ = None  # type: ignore[assignment]

    def __repr__(self) -> str:
        return f"<plan of {sorted(self.phases)}>"

    @property
    def phases(self) -> frozenset[int]:
        """The phases that are enabled."""
        return frozenset(self["phaseEnabled"])

    def turn_of(self, overlap: int) -> int:
        """The protected turn of an overlap that is a flashing yellow arrow; 0 where it
        is none."""
        is_arrow = self["overlapType"][overlap] == ARROW
        turns = self["overlapModifierPhases"].phases(overlap) & self.phases
        return min(turns, default=0) if is_arrow else 0

    @property
    def has_trails(self) -> bool:
        """Whether an overlap trails: of such plans the longest entry of a worksheet is
        not proved."""
        found = next((of for name, of in self.items() if name == TRAILS), None)
        return found is not None and any(it in self["overlapIncludedPhases"] for it in found)

    @property
    def has_schedule(self) -> bool:
        """Whether it has an entry of a schedule, which acts by a clock alone."""
        return any(name == DAY_PLANS for name, _ in self.items())

    def sequence(self, number: int, ring: int) -> list[int]:
        """The phases of a ring in the order of a sequence."""
        count = 8 if self.version == 1 else 16
        values = self["sequenceData"]
        return [it for at in range(count) if (it := values[number, ring, at + 1])]

    def set_sequence(self, number: int, ring: int, phases: Iterable[int]) -> None:
        """Gives a ring the order of its phases in a sequence."""
        count = 8 if self.version == 1 else 16
        order = list(phases)
        if len(order) > count:
            raise OutOfRange(f"sequenceData: a sequence has at most {count} places")
        values = self["sequenceData"]
        for at, phase in enumerate(order + [0] * (count - len(order)), 1):
            values[number, ring, at] = phase

    def wide(self, version: int = 2) -> "Plan":
        """The same plan in this version, 2 or 3, or in the first later one that has all that it has."""
        newer = (
            max(what.since_index(max(values)), what.since_value(max(values.values())))
            for what, values in ((OBJECTS[name], of) for name, of in self.items())
            if self.version == NEWEST
        )
        plan = Plan(NEWEST if self.notes else max((version, *newer)))
        plan.notes = dict(self.notes)
        for name, values in self.items():
            taken = plan[name]
            for index, value in values.items():
                taken[wide_index(values.object, index, self.version)] = value
        return plan

    def noted(self, notes: dict[str, str]) -> "Plan":
        """The same plan with these notes, in version 3 where there are any."""
        if not notes:
            return self
        plan = Plan(NEWEST)
        plan.notes = dict(notes)
        for name, values in self.wide().items():
            plan[name] = dict(values)
        return plan

    def fault(self) -> PlanFault | None:
        """The first fault that `tsb check` finds, if any."""
        with tempfile.NamedTemporaryFile("w", suffix=".json") as file:
            file.write(self.text)
            file.flush()
            done = run("tsb", ["check", file.name], statuses=(0, 1))
        line = done.stdout.decode().strip()
        return None if line == OK else PlanFault(line)

    def review(self) -> list[str]:
        """The lines of `tsb_field review`: where the plan breaks its first rule, or
        what can be wrong with it though it runs."""
        return self._asked("review", statuses=(0, 1))

    def week(self, first: date | str) -> list[Turn]:
        """What the schedule runs in the week from a day on, as `tsb_field schedule`
        says it: a turn at each midnight, and where another action comes into force.
        `PlanFault` is a plan that is refused, `ProgramDied` a day that is none."""
        day = first if isinstance(first, str) else f"{first:%Y-%m-%d}"
        _, *rows = self._asked_if_checked("schedule", f"--week={day}")
        return [_turn(it.split()) for it in rows]

    def worksheet(self) -> Worksheet:
        """The times that follow of the plan, as `tsb_field worksheet` prints them: the
        longest entry of each preempt, and what used patterns give the phases that they
        serve. `PlanFault` is a plan that is refused."""
        return worksheet_of(self._asked_if_checked("worksheet"))

    def card(self) -> tuple[Pair, ...]:
        """The pairs of channels of a conflict monitor that have to be permissive for
        this plan, as `tsb_field card` prints them. `PlanFault` is a plan that is
        refused."""
        return pairs_of(self._asked_if_checked("card"))

    def against_card(self, card: Iterable[Pair] | str | PathLike[str]) -> Differences:
        """What a card has otherwise, its pairs or the path of its text: jumpers too many,
        and those that are missing. `Error` names a line of it that is no pair."""
        if isinstance(card, str | PathLike):
            return self._against(word(card))
        with tempfile.NamedTemporaryFile("w", suffix=".txt") as file:
            file.write(text_of(card))
            file.flush()
            return self._against(file.name)

    def _against(self, path: str) -> Differences:
        """What the card of a file has otherwise."""
        words = "card", f"--against={path}"
        try:
            return differences_of(self._asked_if_checked(*words, statuses=(0, DIFFERS)))
        except ProgramDied as died:
            if died.stderr.startswith("card line "):
                raise Error(died.stderr.strip()) from None
            raise

    def _asked_if_checked(
        self, *words: str, statuses: tuple[int, ...] = (0,)
    ) -> list[str]:
        """The lines that `tsb_field` prints of a plan that `tsb check` takes."""
        try:
            return self._asked(*words, statuses=statuses)
        except ProgramDied as died:
            if died.stderr.startswith("plan: "):
                raise PlanFault(died.stderr.strip()) from None
            raise

    def _asked(self, *words: str, statuses: tuple[int, ...] = (0,)) -> list[str]:
        """The lines that `tsb_field` prints of this plan."""
        with tempfile.NamedTemporaryFile("w", suffix=".json") as file:
            file.write(self.text)
            file.flush()
            done = run("tsb_field", [*words, file.name], statuses=statuses)
        return done.stdout.decode().splitlines()

    def diff(self, other: "Plan") -> "list[Change]":
        """The values in which another plan differs from this one, in the order of the
        manual; none where both texts give one plan. The text of each is its line of
        `python3 -m tsb diff`, and `tsb.diff.laid_over` lays them over this plan."""
        from tsb.diff import changes

        return changes(self, other)

    def check(self) -> None:
        """Asks `tsb check`; raises the `PlanFault` that it finds, if any."""
        if fault := self.fault():
            raise fault
