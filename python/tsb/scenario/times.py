"""Ticks as a scenario gives them: numbers, values of the plan, times of the clock, and
sums of them."""

import re
from collections.abc import Callable, Mapping
from dataclasses import dataclass
from datetime import timedelta

from tsb import clock
from tsb.errors import NoSuchObject, OutOfRange
from tsb.manual import LAST_TICK, NEWEST
from tsb.plan import Plan
from tsb.scenario.faults import Word
from tsb.values import index_of, object_of

TICK = timedelta(milliseconds=100)
NAME = re.compile(r"[a-z][a-z0-9_]*")
_CLOCK = r"(?:\d{4}-\d\d-\d\dT)?\d\d?:\d\d(?::\d\d(?:\.\d)?)?"
_TERM = re.compile(rf"([+-]?)({_CLOCK}|\d{{1,10}}|[A-Za-z]\w*(?:\.\d{{1,10}})?)", re.ASCII)
_VALUE = re.compile(r"([A-Za-z]\w*)\.(\d{1,10})", re.ASCII)
IS_TIME = "a tick, as 120, a sum as 1+phaseMinimumGreen.2, or 7:42 of the clock"


@dataclass(frozen=True)
class Value:
    """A value of the plan, `OBJECT.INDEX`, by the names of version 3."""

    object: str
    index: int

    @classmethod
    def of(cls, word: Word) -> "Value":
        """The value that a word names."""
        found = _VALUE.fullmatch(word.text)
        if found is None:
            raise word.fault("a value of the plan is OBJECT.INDEX, as phaseWalk.2")
        return cls._known(found[1], int(found[2]), word)

    @classmethod
    def _known(cls, name: str, index: int, word: Word) -> "Value":
        try:
            return cls(name, index_of(object_of(name, NEWEST), index, NEWEST))
        except NoSuchObject as fault:
            raise word.fault(str(fault)) from None

    def __str__(self) -> str:
        return f"{self.object}.{self.index}"


@dataclass(frozen=True)
class Clock:
    """A time of the clock that runs from power-up on, as a command has it."""

    word: Word
    text: str


What = int | str | Value | Clock


@dataclass(frozen=True)
class Term:
    """A part of a sum: a number, the name of a time, a value of the plan, or a time of
    the clock."""

    sign: int
    what: What


@dataclass(frozen=True)
class Time:
    """A tick, or a number of ticks, as a file gives it."""

    word: Word
    terms: tuple[Term, ...]

    @classmethod
    def of(cls, word: Word, named: Mapping[str, "Time"]) -> "Time":
        """The time of a word, which may use times that were named before."""
        found = [*_TERM.finditer(word.text)]
        if not found or "".join(it[0] for it in found) != word.text:
            raise word.fault(f"no time: give {IS_TIME}")
        if any(not it[1] for it in found[1:]):
            raise word.fault(f"no time: give {IS_TIME}")
        terms = (Term(-1 if it[1] == "-" else 1, _term(it[2], word)) for it in found)
        time = cls(word, tuple(terms))
        for it in time.terms:
            if isinstance(it.what, str) and it.what not in named:
                raise word.fault(f"no line before has `let {it.what} ..`")
        return time


def _term(text: str, word: Word) -> What:
    """A number, a name, a value that is a time, or a time of the clock."""
    if text.isdecimal():
        return int(text)
    if ":" in text:
        try:
            return Clock(word, clock.words(text))
        except OutOfRange as fault:
            raise word.fault(str(fault)) from None
    if NAME.fullmatch(text) and "." not in text:
        return text
    value = Value.of(Word(text, word.place))
    if object_of(value.object, NEWEST).time is None:
        raise word.fault(f"{value.object} is no time")
    return value


def _no_clock(time: Clock) -> int:
    raise time.word.fault("no clock is set at tick 0")


class Times:
    """The ticks of times, on a plan of version 3. `tick` says with which tick a time of
    the clock comes."""

    def __init__(
        self, plan: Plan, named: Mapping[str, Time], tick: Callable[[Clock], int] = _no_clock
    ) -> None:
        self._plan, self._tick = plan, tick
        self._named: dict[str, int] = {}
        for name, time in named.items():
            self._named[name] = self._sum(time)

    def of(self, time: Time, least: int = 1) -> int:
        """The ticks of a time; `ScenarioFault` where they are out of range."""
        found = self._sum(time)
        if not least <= found <= LAST_TICK:
            raise time.word.fault(f"it is {found}: a tick is {least} to {LAST_TICK}")
        return found

    def _sum(self, time: Time) -> int:
        return sum(it.sign * self._ticks(it.what) for it in time.terms)

    def _ticks(self, what: What) -> int:
        if isinstance(what, int):
            return what
        if isinstance(what, Clock):
            return self._tick(what)
        if isinstance(what, str):
            return self._named[what]
        unit = object_of(what.object, NEWEST).time
        assert unit is not None
        return self._plan[what.object][what.index] * (unit // TICK)
