"""The inputs of a run, by tick: what hands and the log gave, and what lies ahead.

The bench forgets what lies ahead of the tick that it goes back to. The panel keeps
these inputs until another is given, so that it can give them again.
"""

from bisect import bisect_right
from collections.abc import Iterable, Iterator, Mapping
from dataclasses import dataclass, field
from itertools import pairwise

from tsb.panel.requests import Given, Lamp, NoLamp, Reset, Switch
from tsb.rows import ALL_OFF, PEDESTRIANS, VEHICLES, Log, fields, of_fields

# Where the digits of each kind begin among those of all inputs.
BEGINS = {"vehicle": 0, "pedestrian": VEHICLES, "preempt": VEHICLES + PEDESTRIANS}

Stretch = tuple[str, int]  # a row, and how many ticks it holds for


def place(kind: str, number: int) -> int:
    """The place of an input's digit among those of all inputs."""
    return BEGINS[kind] + number - 1


@dataclass(frozen=True)
class Hand:
    """What a hand does to an input: on or off, or on up to a tick and off then."""

    on: bool
    until: int | None = None

    def at(self, tick: int) -> bool:
        """Whether the input is on in a tick."""
        return self.on and (self.until is None or tick <= self.until)


Hands = Mapping[int, Hand]  # by the place of the input in a row


@dataclass(frozen=True)
class Entry:
    """An input that is no tick: when it was given, and whether it ended a trip."""

    tick: int
    what: Given
    ended_trip: bool


@dataclass
class Tape:
    """The rows and the other inputs of a run, up to the tick `end`.

    `log` acts where no hand does. Rows are those that were taken, from each tick on.
    """

    log: Log = field(default_factory=Log)
    end: int = 0
    given: list[Entry] = field(default_factory=list)
    _ticks: list[int] = field(default_factory=list)
    _rows: list[str] = field(default_factory=list)
    _hands: list[tuple[int, Hands]] = field(default_factory=lambda: [(0, {})])

    # Hands

    def hands(self, now: int) -> Hands:
        """What hands do at a tick."""
        at = bisect_right(self._hands, now, key=lambda it: it[0])
        return self._hands[at - 1][1]

    def grasp(self, now: int, where: int, hand: Hand | None) -> None:
        """A hand takes an input at a tick, or with None lets it go. What lay ahead
        is dropped."""
        self.cut(now)
        hands = {at: it for at, it in self.hands(now).items() if at != where}
        if hand is not None:
            hands[where] = hand
        self._hands.append((now, hands))

    # Rows

    def row(self, tick: int) -> str:
        """The row that was taken in a tick."""
        at = bisect_right(self._ticks, tick)
        return self._rows[at - 1] if at else ALL_OFF

    def next_rows(self, now: int, count: int) -> Iterator[Stretch]:
        """The rows of the next ticks, as the log and the hands have them."""
        hands = self.hands(now)
        for row, ticks in self.log.stretches(now + 1, now + count):
            for first, last in _parted(now + 1, now + ticks, hands):
                yield _with_hands(row, hands, first), last - first + 1
            now += ticks

    def take(self, stretches: Iterable[Stretch]) -> None:
        """Takes these rows at the end."""
        for row, ticks in stretches:
            if not self._rows or self._rows[-1] != row:
                self._ticks.append(self.end + 1)
                self._rows.append(row)
            self.end += ticks

    def taken(self, first: int, last: int) -> Log:
        """The rows that were taken from one tick to another."""
        low = max(bisect_right(self._ticks, first) - 1, 0)
        high = bisect_right(self._ticks, last)
        return Log(tuple(self._ticks[low:high]), tuple(self._rows[low:high]))

    # Other inputs

    def give(self, now: int, what: Given, ended_trip: bool) -> None:
        """Takes an input at a tick. What lay ahead is dropped."""
        self.cut(now)
        self.given.append(Entry(now, what, ended_trip))

    def before(self, now: int) -> list[Entry]:
        """What was given up to a tick, with it."""
        return self.given[: bisect_right(self.given, now, key=lambda it: it.tick)]

    def next_given(self, now: int) -> int | None:
        """The tick after this one at which something was given first."""
        at = bisect_right(self.given, now, key=lambda it: it.tick)
        return self.given[at].tick if at < len(self.given) else None

    def given_at(self, tick: int) -> list[Entry]:
        """What was given at a tick."""
        return [it for it in self.before(tick) if it.tick == tick]

    def cut(self, now: int) -> None:
        """Drops what lies ahead of a tick."""
        at = bisect_right(self._ticks, now)
        del self._ticks[at:], self._rows[at:]
        del self._hands[bisect_right(self._hands, now, key=lambda it: it[0]) :]
        del self.given[bisect_right(self.given, now, key=lambda it: it.tick) :]
        self.end = min(self.end, now)

    # What follows of it

    def switches(self, now: int) -> frozenset[int]:
        """The preempts whose switches are on at a tick."""
        on: set[int] = set()
        for it in self.before(now):
            if isinstance(it.what, Switch):
                (on.add if it.what.to == "on" else on.discard)(it.what.number)
        return frozenset(on)

    def lamp(self, now: int) -> Lamp | None:
        """The lamp that a fault lights at a tick."""
        lit: Lamp | None = None
        for it in self.before(now):
            if isinstance(it.what, Lamp):
                lit = it.what
            elif isinstance(it.what, NoLamp) or it.ended_trip:
                lit = None
        return lit


def ends_trip(what: Given, is_tripped: bool) -> bool:
    """Whether an input ends a trip."""
    return isinstance(what, Reset) and is_tripped


def _parted(first: int, last: int, hands: Hands) -> Iterator[tuple[int, int]]:
    """These ticks in parts, so that a pulse ends at the end of one."""
    ends = {it.until for it in hands.values() if it.until is not None}
    for end in sorted(it for it in ends if first <= it < last):
        yield first, end
        first = end + 1
    yield first, last


def _with_hands(row: str, hands: Hands, tick: int) -> str:
    """A row of the log as hands make it in a tick."""
    if not hands:
        return row
    digits = list("".join(fields(row)))
    for where, hand in hands.items():
        digits[where] = "1" if hand.at(tick) else "0"
    begins = [*BEGINS.values(), len(digits)]
    return of_fields("".join(digits[at:end]) for at, end in pairwise(begins))
