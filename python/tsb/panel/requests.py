"""What a page may ask: each request is checked before anything reaches the bench.

A request is an object of JSON with the member `do` and one member for each field of
the class that `do` names. Another member, a missing one, another type and a number
out of its bounds are refused as `BadRequest`.
"""

import re
from collections.abc import Mapping
from dataclasses import MISSING, asdict, dataclass, field, fields
from typing import Any, ClassVar, Literal

from tsb.bench import Watch
from tsb.errors import Error
from tsb.lines import OVERLAPS
from tsb.manual import LAST_TICK, OBJECTS
from tsb.rows import PEDESTRIANS, PREEMPTS, VEHICLES

NUMBER_MOST = (1 << 32) - 1  # the greatest number that a command can have
STATIONS, PATTERNS, PHASES = 4, 16, 16
LIST_MOST = (1 << OVERLAPS[1]) - 1  # the number of a list of all overlaps
TICKS_MOST = 100_000  # ticks that a request takes
PULSE_MOST = 36_000  # ticks of a pulse: an hour
COLUMNS_MOST = 4_000  # columns of a picture

Kind = Literal["vehicle", "pedestrian", "preempt"]
COUNTS: Mapping[str, int] = {
    "vehicle": VEHICLES,
    "pedestrian": PEDESTRIANS,
    "preempt": PREEMPTS,
}
# What can be watched, and how many there are of it: 0 where there is but one.
WATCHES: Mapping[Watch, int] = {
    "interval": PHASES,
    "ped": PHASES,
    "call": PHASES,
    "output": VEHICLES,
    "alarm": VEHICLES,
    "input": VEHICLES,
    "button": PEDESTRIANS,
    "preempt": PREEMPTS,
    "stage": 0,
    "trip": 0,
}


# What a person calls a member of a request.
SAID = {
    "tick": "a tick",
    "ticks": "a number of ticks",
    "number": "a number",
    "station": "a station",
    "index": "an index",
    "value": "a value",
    "first": "a first tick in view",
    "last": "a last tick in view",
}


class BadRequest(Error):
    """A request that is none. Nothing has changed."""


def _number(low: int, high: int) -> Any:
    """A field that is a whole number within bounds."""

    def check(name: str, value: Any) -> None:
        what = f"{SAID.get(name, name)} from {low:,} to {high:,}"
        if type(value) is not int:
            raise BadRequest(f"not a whole number: enter {what}")
        if not low <= value <= high:
            raise BadRequest(f"{value:,} is too much or too little: enter {what}")

    return field(metadata={"check": check})


def _truth() -> Any:
    """A field that is true or false."""

    def check(name: str, value: Any) -> None:
        if type(value) is not bool:
            raise BadRequest(f"{name}: neither true nor false")

    return field(metadata={"check": check})


def _word(pattern: str, what: str) -> Any:
    """A field that is a text of a form."""

    def check(name: str, value: Any) -> None:
        if type(value) is not str or not re.fullmatch(pattern, value, re.ASCII):
            raise BadRequest(f"{name}: {what}")

    return field(metadata={"check": check})


def _one_of(names: Any, what: str) -> Any:
    """A field that is one of some texts."""

    def check(name: str, value: Any) -> None:
        if type(value) is not str or value not in names:
            raise BadRequest(f"{name}: {what}")

    return field(metadata={"check": check})


HEAD = r"[PWO]([1-9]|1[0-6])"
DAY = r"20\d\d-\d\d-\d\d"
TIME = r"\d\d:\d\d:\d\d(\.\d)?"
NAME = r"[A-Za-z0-9][A-Za-z0-9_-]{0,39}"
A_NAME = "1 to 40 letters, digits, - and _, of which the first is no sign"


# Inputs of the bench that are no ticks: each is a command of docs/use/MANUAL.md


class _Given:
    """An input of the bench that is no tick; `FORM` is its command."""

    FORM: ClassVar[str]

    @property
    def line(self) -> str:
        """The command."""
        return self.FORM.format(**asdict(self))


@dataclass(frozen=True)
class Pattern(_Given):
    """Selects a pattern, 0 for free operation."""

    FORM = "pattern {number}"
    number: int = _number(0, PATTERNS)


@dataclass(frozen=True)
class Switch(_Given):
    """Turns the switch of a preempt on or off."""

    FORM = "preempt {number} {to}"
    number: int = _number(1, PREEMPTS)
    to: str = _one_of(("on", "off"), "on or off")


@dataclass(frozen=True)
class Lamp(_Given):
    """Lights a lamp in place of a head's own."""

    FORM = "fault {head} {lamp}"
    head: str = _word(HEAD, "P1 to P16, W1 to W16 or O1 to O16")
    lamp: str = _one_of(
        tuple("GYRPWCD"), "a letter of GYR, of an overlap P, of a pedestrian head WCD"
    )


@dataclass(frozen=True)
class Omit(_Given):
    """Names the arrows that do not flash from now on, by the number of their list."""

    FORM = "omit {number}"
    number: int = _number(0, LIST_MOST)


@dataclass(frozen=True)
class NoLamp(_Given):
    """Takes the lamp of a fault away."""

    FORM = "fault none"


@dataclass(frozen=True)
class Reset(_Given):
    """Ends a trip."""

    FORM = "reset"


@dataclass(frozen=True)
class Clock(_Given):
    """Sets the clock: the next tick begins then."""

    FORM = "clock {day} {time}"
    day: str = _word(DAY, "a day of the years 2000 to 2099, as 2026-11-22")
    time: str = _word(TIME, "a time of the day, as 07:00:00")


@dataclass(frozen=True)
class Begin(_Given):
    """Opens a transaction of a station."""

    FORM = "begin {station}"
    station: int = _number(1, STATIONS)


@dataclass(frozen=True)
class Set(_Given):
    """Writes a value down at the desk."""

    FORM = "set {station} {name} {index} {value}"
    station: int = _number(1, STATIONS)
    name: str = _one_of(OBJECTS, "no object of a plan")
    index: int = _number(0, NUMBER_MOST)
    value: int = _number(0, NUMBER_MOST)


@dataclass(frozen=True)
class Verify(_Given):
    """Judges the plan with the edits."""

    FORM = "verify {station}"
    station: int = _number(1, STATIONS)


@dataclass(frozen=True)
class Commit(_Given):
    """Puts all edits into effect."""

    FORM = "commit {station}"
    station: int = _number(1, STATIONS)


@dataclass(frozen=True)
class Abort(_Given):
    """Drops all edits."""

    FORM = "abort {station}"
    station: int = _number(1, STATIONS)


Given = (
    Pattern
    | Switch
    | Omit
    | Lamp
    | NoLamp
    | Reset
    | Clock
    | Begin
    | Set
    | Verify
    | Commit
    | Abort
)


# What else a page asks


@dataclass(frozen=True)
class Look:
    """Nothing: the answer is the state, as with each request."""


@dataclass(frozen=True)
class Advance:
    """Takes ticks, as many as there is time for."""

    ticks: int = _number(1, TICKS_MOST)


@dataclass(frozen=True)
class Go:
    """Goes to a tick, back or forward, as far as there is time for."""

    tick: int = _number(0, LAST_TICK)


@dataclass(frozen=True)
class Find:
    """Finds the tick that begins at a time of the clock, to go to it."""

    moment: str = _word(f"({DAY} )?{TIME}", "a time, as 07:42:10, with or without a day")


@dataclass(frozen=True)
class Undo:
    """Takes the newest input back."""


@dataclass(frozen=True)
class Drop:
    """Drops what lies ahead of the present tick."""


@dataclass(frozen=True)
class Hold:
    """A hand turns an input of the rows on or off, and keeps it so."""

    kind: Kind = _one_of(COUNTS, "vehicle, pedestrian or preempt")
    number: int = _number(1, VEHICLES)
    on: bool = _truth()


@dataclass(frozen=True)
class Pulse:
    """A hand turns an input on for so many ticks from the next one on."""

    kind: Kind = _one_of(COUNTS, "vehicle, pedestrian or preempt")
    number: int = _number(1, VEHICLES)
    ticks: int = _number(1, PULSE_MOST)


@dataclass(frozen=True)
class Free:
    """An input is as the log has it again, off without one."""

    kind: Kind = _one_of(COUNTS, "vehicle, pedestrian or preempt")
    number: int = _number(1, VEHICLES)


@dataclass(frozen=True)
class Mark:
    """Marks each change of a watched value, or marks it no more."""

    watch: Watch = _one_of(WATCHES, "nothing that can be watched")
    number: int = _number(0, VEHICLES)
    on: bool = _truth()


@dataclass(frozen=True)
class Save:
    """Saves the run up to the present tick."""

    name: str = _word(NAME, A_NAME)


@dataclass(frozen=True)
class Load:
    """Takes a saved run in place of this one."""

    name: str = _word(NAME, A_NAME)


@dataclass(frozen=True)
class Again:
    """Starts the bench again after it ended, and takes the run again."""


Request = (
    Given
    | Look
    | Advance
    | Go
    | Find
    | Undo
    | Drop
    | Hold
    | Pulse
    | Free
    | Mark
    | Save
    | Load
    | Again
)

GIVEN: Mapping[str, type[Given]] = {
    it.__name__.lower(): it
    for it in (
        Pattern, Switch, Omit, Lamp, NoLamp, Reset, Clock, Begin, Set, Verify,
        Commit, Abort,
    )
}  # fmt: skip
REQUESTS: Mapping[str, type[Request]] = {
    **GIVEN,
    **{
        it.__name__.lower(): it
        for it in (
            Look, Advance, Go, Find, Undo, Drop, Hold, Pulse, Free, Mark, Save, Load,
            Again,
        )
    },
}  # fmt: skip


def _checked(what: Any, told: Mapping[str, Any]) -> Any:
    """An object of a class whose fields are these members."""
    names = [it.name for it in fields(what)]
    if odd := [it for it in told if it not in names]:
        raise BadRequest(f"{odd[0][:40]}: no part of this request")
    for it in fields(what):
        if it.name in told:
            it.metadata["check"](it.name, told[it.name])
        elif it.default is MISSING:
            raise BadRequest(f"{it.name}: missing")
    return what(**told)


def request_of(told: Any) -> Request:
    """The request of an object of JSON."""
    if type(told) is not dict:
        raise BadRequest("a request is an object")
    members = dict(told)
    word = members.pop("do", None)
    if type(word) is not str or word not in REQUESTS:
        raise BadRequest("do: there is no such request")
    found: Request = _checked(REQUESTS[word], members)
    if isinstance(found, Hold | Pulse | Free):
        _within(found.number, COUNTS[found.kind])
    if isinstance(found, Mark):
        most = WATCHES[found.watch]
        _within(found.number, most, 1 if most else 0)
    return found


def _within(number: int, most: int, least: int = 1) -> None:
    if not least <= number <= most:
        raise BadRequest(f"there is no number {number}: enter {least} to {most}")


def given_of(line: str) -> Given:
    """The input of a command, as `save` writes it; `BadRequest` where it is none."""
    for what in GIVEN.values():
        found = re.fullmatch(re.sub(r"\{(\w+)\}", r"(?P<\1>\\S+)", what.FORM), line)
        if found is not None:
            kinds = {it.name: it.type for it in fields(what)}
            told = {
                name: int(text) if kinds[name] is int and _is_number(text) else text
                for name, text in found.groupdict().items()
            }
            read: Given = _checked(what, told)
            return read
    raise BadRequest(f"{line[:80]}: no input of a bench")


def _is_number(text: str) -> bool:
    """Whether a word is a number that a command can have."""
    return text.isascii() and text.isdecimal() and len(text) <= len(str(NUMBER_MOST))


@dataclass(frozen=True)
class View:
    """What of the run a page looks at: ticks, drawn in so many columns."""

    first: int = _number(0, LAST_TICK)
    last: int = _number(0, LAST_TICK)
    columns: int = _number(1, COLUMNS_MOST)


def columns_of(told: Any) -> int | None:
    """The columns of a picture of the whole run, and none of null."""
    if told is None:
        return None
    if type(told) is not int or not 1 <= told <= COLUMNS_MOST:
        raise BadRequest(f"overview: columns are 1 to {COLUMNS_MOST}")
    return told


def view_of(told: Any) -> View | None:
    """A view of an object of JSON, and none of null."""
    if told is None:
        return None
    if type(told) is not dict:
        raise BadRequest("a view is an object")
    found: View = _checked(View, told)
    if found.first > found.last:
        raise BadRequest("a view begins before it ends")
    return found
