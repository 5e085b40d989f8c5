"""What a scenario expects of a run, and what came in place of it."""

from collections.abc import Iterable, Iterator, Mapping
from dataclasses import dataclass
from functools import cached_property
from typing import NamedTuple, Protocol

from tsb.lines import Display, Event
from tsb.rows import PREEMPTS
from tsb.scenario.faults import Place
from tsb.scenario.times import Time, Times
from tsb.scenario.words import Words

#: The letters of heads by their kind, and how many heads there are.
HEADS: Mapping[str, tuple[str, int]] = {
    "P": ("GYRF-", 16),
    "W": ("WCD-", 16),
    "O": ("GYRPF-", 16),
}
IS_HEAD = "P1 to P16, W1 to W16 and O1 to O16 are heads"
PREEMPT = "preempt"  # the preempt in service, as a head that shows a number
PHASES = 16
CODE_MOST, PARAMETER_MOST = 255, 65_535
SHOWN_MOST = 6  # bands, or ticks of events, that a line of a failure has


class Stretch(NamedTuple):
    """Ticks in which all heads show the same."""

    first: int
    last: int
    display: Display


class Waited(NamedTuple):
    """A wait of a phase from a vehicle call to its green, None where it goes on."""

    call: int
    served: int | None

    def told(self, end: int) -> str:
        """How long it was, or has been up to the end of the run."""
        until = "the end" if self.served is None else f"{self.served}"
        ticks = (self.served or end) - self.call
        return f"a call waits from {self.call} to {until}, for {ticks} ticks"


class Missed(NamedTuple):
    """An expectation that is not met: the tick to look at, what was expected, and what
    came."""

    tick: int
    expected: str
    came: str


@dataclass
class Played:
    """A run up to its last tick: what heads showed, and the events."""

    stretches: list[Stretch]
    events: list[Event]
    end: int

    def within(self, first: int, last: int) -> Iterator[Stretch]:
        """What heads showed from a tick to another."""
        for it in self.stretches:
            if it.last >= first and it.first <= last:
                yield Stretch(max(it.first, first), min(it.last, last), it.display)

    @cached_property
    def waits(self) -> Mapping[int, list[Waited]]:
        """The waits of each phase that had some (`tsb.measures.waits`)."""
        from tsb import frames, measures

        found: dict[int, list[Waited]] = {}
        table = measures.waits(frames.of_events(self.events))
        columns = (
            table[it].fillna(0).astype(int) for it in ("phase", "call", "served")
        )
        for phase, call, served in zip(*columns, strict=True):
            found.setdefault(phase, []).append(Waited(call, served or None))
        return found


@dataclass(frozen=True)
class Span:
    """Ticks from a first one to a last one, both of them too. Without them it is all of
    the run."""

    first: Time | None = None
    last: Time | None = None

    def ticks(self, times: Times, end: int, least: int = 1) -> tuple[int, int]:
        """The first and the last tick."""
        first = least if self.first is None else times.of(self.first, least)
        last = end if self.last is None else times.of(self.last, least)
        if first > last:
            word = (self.first or self.last).word  # type: ignore[union-attr]
            raise word.fault(f"from tick {first} to {last} there is no tick")
        return first, last

    def named(self) -> Iterator[Time]:
        """The times that it names."""
        yield from (it for it in (self.first, self.last) if it is not None)


@dataclass(frozen=True)
class Shown:
    """A letter that a head shows, or does not show."""

    head: str
    letter: str
    is_not: bool = False

    @classmethod
    def of(cls, words: Words) -> "Shown":
        """A head and its letter."""
        head = words.take("a head, as P2")
        letters, count = HEADS.get(head.text[:1], ("", 0))
        number = head.text[1:]
        if head.text == PREEMPT:
            letters = "".join(map(str, range(PREEMPTS + 1)))
        elif not (number.isdecimal() and number == str(int(number[:3]))):
            raise head.fault(f"no head: {IS_HEAD}")
        elif not 1 <= int(number) <= count:
            raise head.fault(f"no head: {IS_HEAD}")
        is_not = words.takes("not")
        letter = words.take(f"what {head.text} shows: one of {letters}")
        if len(letter.text) != 1 or letter.text not in letters:
            raise letter.fault(f"{head.text} shows one of {letters}")
        return cls(head.text, letter.text, is_not)

    def in_(self, display: Display) -> str:
        """The letter of the head in a display."""
        return str(display.preempt) if self.head == PREEMPT else display.head(self.head)

    def holds(self, display: Display) -> bool:
        """Whether a display has it."""
        return (self.in_(display) == self.letter) != self.is_not

    def bands(self, stretches: Iterable[Stretch]) -> str:
        """What the head showed, as `P4 R from 1 to 90, G from 91 to 120`."""
        bands: list[tuple[int, int, str]] = []
        for first, last, display in stretches:
            letter = self.in_(display)
            if bands and bands[-1][2] == letter:
                first = bands.pop()[0]
            bands.append((first, last, letter))
        told = [f"{it} {_ticks(first, last)}" for first, last, it in bands]
        return f"{self.head} {_some(told)}"

    def __str__(self) -> str:
        return f"{self.head} {'not ' * self.is_not}{self.letter}"


def _ticks(first: int, last: int) -> str:
    return f"at {first}" if first == last else f"from {first} to {last}"


def _some(told: list[str]) -> str:
    """The first of some texts, and how many more there are."""
    more = len(told) - SHOWN_MOST
    return ", ".join([*told[:SHOWN_MOST], *([f"and {more} more"] if more > 0 else [])])


class Kind(Protocol):
    """A kind of expectation."""

    @property
    def span(self) -> Span:
        """The ticks that it is about."""

    def missed(self, run: Played, times: Times) -> Missed | None:
        """What came in place of it; None where it is met."""


@dataclass(frozen=True)
class Always:
    """A head shows a letter in each tick."""

    shown: Shown
    span: Span

    def missed(self, run: Played, times: Times) -> Missed | None:
        """The first tick in which it shows another."""
        first, last = self.span.ticks(times, run.end)
        within = [*run.within(first, last)]
        for it in within:
            if not self.shown.holds(it.display):
                expected = f"{self.shown} in each tick {_ticks(first, last)}"
                return Missed(it.first, expected, self.shown.bands(within))
        return None


@dataclass(frozen=True)
class Once:
    """A head shows a letter in a tick at least."""

    shown: Shown
    span: Span

    def missed(self, run: Played, times: Times) -> Missed | None:
        """The last tick, where it never shows it."""
        first, last = self.span.ticks(times, run.end)
        within = [*run.within(first, last)]
        if any(self.shown.holds(it.display) for it in within):
            return None
        expected = f"{self.shown} in a tick {_ticks(first, last)}"
        return Missed(last, expected, self.shown.bands(within))


@dataclass(frozen=True)
class Never:
    """In no tick do heads show all of some letters."""

    shown: tuple[Shown, ...]
    span: Span

    def missed(self, run: Played, times: Times) -> Missed | None:
        """The first tick in which they do."""
        first, last = self.span.ticks(times, run.end)
        what = " with ".join(map(str, self.shown))
        begins = ends = 0
        for it in run.within(first, last):
            if all(shown.holds(it.display) for shown in self.shown):
                begins, ends = begins or it.first, it.last
            elif begins:
                break
        if not begins:
            return None
        expected = f"in no tick {_ticks(first, last)}: {what}"
        return Missed(begins, expected, f"{what} {_ticks(begins, ends)}")


@dataclass(frozen=True)
class Came:
    """An event comes, or comes not."""

    code: int
    parameter: int
    span: Span
    is_not: bool = False

    def missed(self, run: Played, times: Times) -> Missed | None:
        """The tick of the first that comes, or the last tick where none does. A command
        before the first tick has its events at tick 0."""
        first, last = self.span.ticks(times, run.end, least=0)
        wanted = (self.code, self.parameter)
        ticks = [it.tick for it in run.events if it[1:] == wanted]
        within = [it for it in ticks if first <= it <= last]
        if self.is_not != bool(within):
            return None
        what = f"{'no' if self.is_not else 'an'} event {self.code} {self.parameter}"
        told = _some([str(it) for it in ticks])
        came = f"event {self.code} {self.parameter} at {told}" if ticks else "none"
        tick = within[0] if self.is_not else last
        return Missed(tick, f"{what} {_ticks(first, last)}", came)


@dataclass(frozen=True)
class Waits:
    """No vehicle call of a phase waits for more than so many ticks."""

    phase: int
    most: Time
    span: Span = Span()

    def missed(self, run: Played, times: Times) -> Missed | None:
        """The last tick that the first longer wait may have, or the end where no wait
        of the phase was over."""
        most, found = times.of(self.most), run.waits.get(self.phase, [])
        expected = f"no call of phase {self.phase} waits for over {most} ticks"
        for it in found:
            if (run.end + 1 if it.served is None else it.served) - it.call > most:
                return Missed(it.call + most, expected, it.told(run.end))
        if not any(it.served for it in found):
            return Missed(run.end, expected, "no call of it that was served")
        return None


@dataclass(frozen=True)
class Expectation:
    """A line `expect ..`."""

    text: str
    place: Place
    kind: Kind

    def last(self, times: Times) -> int:
        """The last tick that it names, 0 where it names none."""
        least = 0 if isinstance(self.kind, Came) else 1
        return max((times.of(it, least) for it in self.kind.span.named()), default=0)


Named = Mapping[str, Time]


def expectation_of(words: Words, named: Named) -> Expectation:
    """The expectation of a line whose first word is taken."""
    text, place = words.text, words.place
    return Expectation(text, place, _kind(words, named))


def _kind(words: Words, named: Named) -> Kind:
    if words.takes("never"):
        shown = [Shown.of(words)]
        while words.takes("with"):
            shown.append(Shown.of(words))
        return Never(tuple(shown), _span(words, named))
    if words.takes("no", "event"):
        return Came(*_event(words), _span(words, named), is_not=True)
    if words.takes("event"):
        code, parameter = _event(words)
        by = _by(words, named)
        return Came(code, parameter, by or _span(words, named))
    if words.takes("wait"):
        phase = words.number("a phase", 1, PHASES)
        words.must("at", "most")
        return Waits(phase, words.time(named))
    one = Shown.of(words)
    by = _by(words, named)
    if by is not None:
        return Once(one, by)
    return Always(one, _span(words, named))


def _event(words: Words) -> tuple[int, int]:
    """The code and the parameter of an event."""
    code = words.number("a code of an event", 0, CODE_MOST)
    return code, words.number("its parameter", 0, PARAMETER_MOST)


def _by(words: Words, named: Named) -> Span | None:
    """The span of `by T` and `from A by T`, where the words are of this form."""
    if words.takes("by"):
        return Span(None, words.time(named))
    ahead = words.ahead(2)
    if words.next == "from" and ahead == "by":
        words.must("from")
        first = words.time(named)
        words.must("by")
        return Span(first, words.time(named))
    return None


def _span(words: Words, named: Named) -> Span:
    """The span of `at T`, of `from A to B`, or of no word: all of the run."""
    if words.takes("at"):
        tick = words.time(named)
        return Span(tick, tick)
    if not words.left:
        return Span()
    words.must("from")
    first = words.time(named)
    words.must("to")
    return Span(first, words.time(named))
