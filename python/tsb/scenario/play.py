"""Runs a scenario on the bench, and says which expectations are not met.

Heads, events and waits are the bench's own answers; nothing is worked out here but
which of them a line asks for.
"""

import shlex
from collections.abc import Iterator
from dataclasses import dataclass, field, replace
from itertools import accumulate, groupby, pairwise
from pathlib import Path

from tsb.bench import Bench
from tsb.errors import (
    Error,
    LogFault,
    NoSuchObject,
    NoSuchTick,
    OutOfRange,
    PlanFault,
    Refused,
    shown,
)
from tsb.files import regular
from tsb.manual import NEWEST
from tsb.options import called
from tsb.panel.keep import Source
from tsb.panel.requests import given_of
from tsb.plan import Plan
from tsb.rows import ALL_OFF, COUNTS, Log, fields, of_fields
from tsb.scenario.expect import Came, Played, Stretch, Waits
from tsb.scenario.text import Command, Laid, Scenario
from tsb.scenario.times import Clock, Times, Value

PROGRAM = called("test")
SETS_CLOCK = "at 0 clock 2026-11-22 07:00:00"


@dataclass(frozen=True)
class Miss:
    """A line that is not met.

    `line` is its number and `text` what it says. `expected` and `came` are in words.
    `display` is the display line of `tick`, the tick to look at, and `waits` says what
    each phase waits for there.
    """

    line: int
    text: str
    tick: int
    expected: str
    came: str
    display: str = ""
    waits: tuple[str, ...] = ()


@dataclass(frozen=True)
class Result:
    """What came of a scenario on a plan: the lines that are not met, how many lines
    `expect` it has, and why it was left out, if it was."""

    path: Path
    plan: Path
    is_own: bool
    count: int
    misses: tuple[Miss, ...] = ()
    left_out: str | None = None

    @property
    def text(self) -> str:
        """The lines that are not met, with a command for each that opens the panel at
        its tick."""
        told = "\n".join(line for it in self.misses for line in self._told(it))
        return shown(told, "\n")

    def _told(self, miss: Miss) -> Iterator[str]:
        yield f"{self.path}:{miss.line}: not met: {miss.text}"
        yield f"  expected: {miss.expected}"
        yield f"  came: {miss.came}"
        yield f"  tick {miss.tick}: {miss.display}"
        yield from (f"  {it}" for it in miss.waits or ["no phase waits"])
        words = [str(self.path), f"--panel={miss.tick}"]
        words += [] if self.is_own else [f"--plan={self.plan}"]
        yield f"  panel: {PROGRAM} {shlex.join(words)}"


def play(scenario: Scenario, plan: Path | None = None) -> Result:
    """Runs a scenario on its own plan, or on another one.

    `ScenarioFault` is a time that is out of range, `Error` a plan or a log that can't
    be read or is refused.
    """
    path, own = _plan_of(scenario, plan)
    result = Result(scenario.path, path, plan is None, len(scenario.expectations))
    if (reason := _lack(scenario, own)) is not None:
        return replace(result, left_out=reason)
    run = _Run.of(scenario, path, own)
    with run.bench() as bench:
        played, refused = run.played(bench)
        if refused is not None:
            return replace(result, misses=(_looked(refused, bench),))
        return replace(result, misses=tuple(run.missed(played, bench)))


def source_of(scenario: Scenario, tick: int, plan: Path | None = None) -> Source:
    """What a panel begins with that shows a scenario at a tick: what lies ahead of it
    is given again on the way forward, up to a command that is refused."""
    run = _Run.of(scenario, *_plan_of(scenario, plan))
    given, end = [], run.end
    with run.bench() as bench:
        _, refused = run.played(bench)
    for it in run.commands():
        at = run.times.of(it.tick, 0)
        if refused is not None and it.place.number == refused.line:
            end = refused.tick
            break
        given.append((at, given_of(it.text)))
    name = f"{run.path.name} with {scenario.path.name}"
    text = run.plan.text.encode()
    return Source(name, text, run.log(), tuple(given), end, min(tick, end))


def _plan_of(scenario: Scenario, other: Path | None) -> tuple[Path, Plan]:
    """The file of the plan, and the plan: its own, or another."""
    path = other or scenario.plan
    if path is None:
        raise Error(f"{scenario.path}: it names no plan, and --plan gives none")
    try:
        return path, newest(Plan.read(regular(path)))
    except OSError as fault:
        raise Error(f"{path}: {fault.strerror}") from None
    except (PlanFault, NoSuchObject, OutOfRange) as fault:
        raise Error(f"{path}: {fault}") from None


def _lack(scenario: Scenario, plan: Plan) -> str | None:
    """What a plan lacks that the scenario needs, if something."""
    for it in scenario.needs:
        has = plan[it.value.object][it.value.index]
        if has != it.number if it.number is not None else not has:
            wanted = "is 0" if it.number is None else f"is {has}, not {it.number}"
            return f"{it.value} {wanted}"
    return None


@dataclass(frozen=True)
class _Run:
    """A scenario on a plan: the plan's file, the plan with what is laid over it, and
    the last tick."""

    scenario: Scenario
    path: Path
    plan: Plan
    times: Times
    end: int

    @classmethod
    def of(cls, scenario: Scenario, path: Path, own: Plan) -> "_Run":
        """A scenario on the plan of a file."""
        plan = Plan.of_text(own.text)
        for it in scenario.laid:
            _lay(plan, it)
        clock = _Clock(scenario, path, plan)
        times = Times(plan, scenario.named, clock.tick)
        return cls(scenario, path, plan, times, _end(scenario, times))

    @property
    def asks_events(self) -> bool:
        """Whether a line is about events."""
        kinds = (it.kind for it in self.scenario.expectations)
        return any(isinstance(it, Came | Waits) for it in kinds)

    def bench(self) -> Bench:
        """A bench on the plan, with the inputs of the scenario."""
        log = self.log()
        return _opened(self.scenario, self.path, self.plan, log, self.asks_events)

    def log(self) -> Log:
        """The rows of the log, with the inputs that lines turn in place of its own."""
        path, base = self.scenario.log, Log()
        if path is not None:
            try:
                base = Log.read(regular(path))
            except OSError as fault:
                raise Error(f"{path}: {fault.strerror}") from None
            except LogFault as fault:
                raise Error(f"{path}: {fault}") from None
        turned: dict[int, dict[int, str]] = {}
        for turn in self.scenario.turns:
            at = turned.setdefault(self.times.of(turn.tick), {})
            for name, place in turn.places:
                if at.setdefault(place, str(int(turn.on))) != str(int(turn.on)):
                    raise turn.tick.word.fault(f"{name} goes on and off there")
        return Log.of(_rows(base, turned))

    def commands(self) -> list[Command]:
        """The commands in the order in which they are given."""
        return sorted(self.scenario.commands, key=lambda it: self.times.of(it.tick, 0))

    def played(self, bench: Bench) -> tuple[Played, Miss | None]:
        """What came, and a command that was refused, which ends the run."""
        run = Played([], [], self.end)
        by_tick = groupby(self.commands(), lambda it: self.times.of(it.tick, 0))
        for tick, commands in by_tick:
            _advance(bench, run, tick)
            for it in commands:
                if (answer := _answer(bench, it)) != "ok":
                    text = f"at {it.tick.word.text} {it.text}"
                    return run, Miss(it.place.number, text, tick, "ok", answer)
        _advance(bench, run, self.end)
        run.events = bench.events if self.asks_events else []
        return run, None

    def missed(self, run: Played, bench: Bench) -> list[Miss]:
        """The expectations that are not met, in their order."""
        found = []
        for it in self.scenario.expectations:
            if (missed := it.kind.missed(run, self.times)) is not None:
                found.append(Miss(it.place.number, it.text, *missed))
        # (the bench goes back alone, so the last tick is looked at first)
        found.sort(key=lambda it: -it.tick)
        looked = [_looked(it, bench) for it in found]
        return sorted(looked, key=lambda it: it.line)


@dataclass(frozen=True)
class _Clock:
    """The clock that a scenario sets at tick 0, which the bench is asked for."""

    scenario: Scenario
    path: Path
    plan: Plan
    known: dict[str, int] = field(default_factory=dict)

    def tick(self, time: Clock) -> int:
        """The tick with which a time comes; `ScenarioFault` where none does."""
        if time.text not in self.known:
            with _opened(self.scenario, self.path, self.plan, None, False) as bench:
                for it in self.scenario.commands:
                    if it.tick.word.text == "0" and it.text.startswith("clock "):
                        _answer(bench, it)
                try:
                    self.known[time.text] = bench.tick_at(time.text)
                except NoSuchTick:
                    raise time.word.fault(f"give a line `{SETS_CLOCK}`") from None
                except Refused:
                    raise time.word.fault("no tick is so late") from None
        return self.known[time.text]


def _opened(
    scenario: Scenario, path: Path, plan: Plan, log: Log | None, events: bool
) -> Bench:
    """A bench on a plan; `Error` where it is refused."""
    try:
        return Bench(plan, log, events=events)
    except PlanFault as fault:
        raise Error(f"{scenario.path} on {path.name}: {fault}") from None


def newest(plan: Plan) -> Plan:
    """The same plan in the newest version of plan texts."""
    found = Plan(NEWEST)
    for name, values in (plan.wide() if plan.version == 1 else plan).items():
        found[name] = dict(values)
    return found


def _lay(plan: Plan, laid: Laid) -> None:
    """Lays a value over a plan."""
    value = laid.value
    try:
        number = plan[value.object][value.index] if isinstance(value, Value) else value
        for index in laid.indices:
            plan[laid.object][index] = number
    except Error as fault:
        raise laid.place.fault(str(fault)) from None


def _end(scenario: Scenario, times: Times) -> int:
    """The last tick of a run."""
    named = [*(times.of(it.tick) for it in scenario.turns)]
    named += [times.of(it.tick, 0) for it in scenario.commands]
    named += [it.last(times) for it in scenario.expectations]
    last = max(named)
    if scenario.until is None:
        if not last:
            raise Error(f"{scenario.path}: it names no tick: give a line `until TICK`")
        return last
    end = times.of(scenario.until)
    if end < last:
        raise scenario.until.word.fault(f"a line names tick {last}, which is later")
    return end


def _rows(base: Log, turned: dict[int, dict[int, str]]) -> Iterator[tuple[int, str]]:
    """The rows of a log with the digits that lines turn, each from a tick on."""
    held: dict[int, str] = {}
    rows, row = dict(zip(base.ticks, base.rows, strict=True)), ALL_OFF
    ends = [0, *accumulate(COUNTS)]
    for tick in sorted({*rows, *turned}):
        row = rows.get(tick, row)
        held |= turned.get(tick, {})
        digits = enumerate("".join(fields(row)))
        told = "".join(held.get(at, digit) for at, digit in digits)
        yield tick, of_fields(told[at:end] for at, end in pairwise(ends))


def _advance(bench: Bench, run: Played, tick: int) -> None:
    """Takes ticks up to a tick."""
    if tick <= bench.now:
        return
    first, was = bench.now + 1, bench.show()
    for it in bench.changes(tick - bench.now):
        if it.tick > first:
            run.stretches.append(Stretch(first, it.tick - 1, was))
        first, was = it.tick, it
    run.stretches.append(Stretch(first, tick, was))


def _answer(bench: Bench, command: Command) -> str:
    """What the bench answers to a command."""
    try:
        return bench.give(command.text)
    except Refused as refused:
        return f"{refused.line}: {refused.meaning}"
    except Error as fault:
        raise command.place.fault(str(fault)) from None


def _looked(miss: Miss, bench: Bench) -> Miss:
    """What the bench shows at the tick of a line that is not met."""
    display = bench.seek(min(miss.tick, bench.now)).line
    waits = tuple(str(it) for _, it in sorted(bench.status.waits.items()))
    return replace(miss, display=display, waits=waits)
