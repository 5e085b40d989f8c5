"""Finds the moment of an input log from which a preempt waits longest for its green.

Each moment is tried: the bench goes there, switches the preempt on, lets time pass
until all phases of its first stage are green, and takes all of it back. The rows of a
worksheet are read off the heads of the tries that take longest, and beside them comes
the bound that is proved of the bench. docs/use/FIELD.md has an example.
"""

import argparse
from collections import Counter
from collections.abc import Iterator, Mapping, Sequence
from dataclasses import dataclass, field
from itertools import pairwise
from pathlib import Path
from typing import NamedTuple

from tsb.bench import Bench
from tsb.errors import Error, LogFault, PlanFault
from tsb.lines import Display
from tsb.options import Words, called
from tsb.plan import Plan
from tsb.programs import marked
from tsb.progress import progress
from tsb.rows import PREEMPTS, Log
from tsb.worksheet import Entry

PROGRAM = called("preempt")
ANEW = "preemptChoosesAnew, docs/use/MANUAL.md"
PIECE = 100  # ticks that pass between two looks at the heads
WITHIN = 600  # seconds in which a green has to come, without --within


#: What a phase that has to end shows from the begin of service on, in this order.
PARTS = ("before it", "walk", "clearance", "green", "yellow", "red")
VEHICLE, PEDESTRIAN = "conflicting vehicle", "conflicting pedestrian"


class Conflict(NamedTuple):
    """The phase whose yellow ended last before the green, and for how many ticks it
    showed what. They begin with the service, and end with the green."""

    phase: int
    parts: Mapping[str, int]

    @property
    def total(self) -> int:
        """All of it."""
        return sum(self.parts.values())

    @property
    def row(self) -> str:
        """The row of a worksheet that it is of."""
        return PEDESTRIAN if self.parts.keys() & {"walk", "clearance"} else VEHICLE

    def __str__(self) -> str:
        known = [it for it in PARTS if it in self.parts]
        said = ", ".join(f"{it} {_seconds(self.parts[it])}" for it in known)
        return f"phase {self.phase}: {said}"


@dataclass(frozen=True)
class Tries:
    """What all tries found: how many ticks each moment waited, None for longer than
    was asked; the moments at which a preempt was in service already; and of each row
    the longest conflict with its moment."""

    waits: dict[int, int | None]
    in_service: list[int]
    longest: dict[str, tuple[int, Conflict]] = field(default_factory=dict)

    @property
    def worst(self) -> tuple[int, int] | None:
        """The longest wait and the first moment that has it."""
        found = [(-wait, at) for at, wait in self.waits.items() if wait is not None]
        return None if not found else (-min(found)[0], min(found)[1])

    @property
    def totals(self) -> list[int]:
        """The longest conflict of each row."""
        return [it.total for _, it in self.longest.values()]

    def take(self, at: int, conflict: Conflict | None) -> None:
        """Takes the conflict of a moment, which is before those that were taken."""
        if conflict is None:
            return
        known = self.longest.get(conflict.row)
        if known is None or conflict.total >= known[1].total:
            self.longest[conflict.row] = at, conflict


def first_stage(plan: Plan, number: int) -> tuple[str, frozenset[int]]:
    """The stage that a preempt begins with, and its phases; `Error` without any."""
    for stage in ("track", "dwell"):
        name = f"preempt{stage.capitalize()}Phase"
        if phases := plan[name].phases(number):
            return stage, phases
    raise Error(f"preempt {number} has no track phases and no dwell phases")


def shown(
    bench: Bench, number: int, phases: frozenset[int], within: int
) -> dict[int, Display] | None:
    """What the heads show with the preempt's switch on from now on, by tick: where they
    or the service change, and where the preempt has all these phases green, which is the
    last. None where that takes longer."""
    begun, found = bench.now, dict[int, Display]()
    bench.preempt(number)
    while bench.now < begun + within:
        for it in bench.changes(min(PIECE, begun + within - bench.now)):
            found[it.tick] = it
            if _is_green(it, number, phases):
                return found
    return None


def _is_green(display: Display, number: int, phases: frozenset[int]) -> bool:
    """Whether the preempt is in service and all these phases are green."""
    return display.preempt == number and phases <= display.greens


def tries(
    bench: Bench, number: int, phases: frozenset[int], last: int, within: int
) -> Tries:
    """Tries each moment, from that of tick `last` down to that of tick 1."""
    bench.step(last - bench.now)
    found = Tries({}, [])
    for at in progress(range(last, 0, -1), "moments"):
        if bench.seek(at).preempt:
            found.in_service.append(at)
            continue
        displays = shown(bench, number, phases, within)
        found.waits[at] = None if displays is None else max(displays) - at - 1
        if displays is not None:
            found.take(at, conflict_of(displays, number, phases))
    return found


def conflict_of(
    displays: Mapping[int, Display], number: int, phases: frozenset[int]
) -> Conflict | None:
    """The conflict of a try; None where no phase had to end. Where several yellows ended
    together it is the first one that showed a walk or its clearance, if any."""
    served = {tick: it for tick, it in displays.items() if it.preempt == number}
    last: dict[int, int] = {}
    for tick, it in served.items():
        for phase, letter in enumerate(it.vehicles, 1):
            if letter in "GY" and phase not in phases:
                last[phase] = tick
    ends = sorted(it for it in last if last[it] == max(last.values()))
    found = [_conflict(served, it) for it in ends]
    return next((it for it in found if it.row == PEDESTRIAN), found[0] if found else None)


def _conflict(served: Mapping[int, Display], phase: int) -> Conflict:
    """What a phase showed for how long."""
    parts: Counter[str] = Counter()
    for tick, after in pairwise(served):
        begun = bool(parts.keys() - {"before it"})
        parts[_part(served[tick], phase, begun)] += after - tick
    return Conflict(phase, parts)


def _part(display: Display, phase: int, begun: bool) -> str:
    """What a phase shows, before it has begun or since."""
    match display.head(f"P{phase}"), display.head(f"W{phase}"):
        case "G", "W":
            return "walk"
        case "G", "C":
            return "clearance"
        case "G", _:
            return "green"
        case "Y", _:
            return "yellow"
    return "red" if begun else "before it"


def rows(
    plan: Plan, number: int, found: Tries, within: int, entry: Entry
) -> Iterator[str]:
    """The lines that are printed, with the longest entry, which is proved of a plan in
    which no overlap trails."""
    stage, phases = first_stage(plan, number)
    named = " and ".join(map(str, sorted(phases)))
    kind = "phase" if len(phases) == 1 else "phases"
    yield marked(f"preempt {number}: the wait for the green of {stage} {kind} {named}")
    yield _row("delay", entry.delay)
    for name in (VEHICLE, PEDESTRIAN):
        if name in found.longest:
            at, conflict = found.longest[name]
            yield _row(name, conflict.total, f"from tick {at}, {conflict}")
    bound = "bound, not proved" if plan.has_trails else "proved bound"
    yield _row(bound, entry.delay + entry.longest, _parts(entry))
    if found.worst is not None:
        yield _row("worst found", found.worst[0], f"from tick {found.worst[1]}")
    yield from notes(number, found, within)
    for _, it in found.longest.values():
        if "before it" in it.parts and it.total == max(found.totals):
            yield f"phase {it.phase} turned green in service: see {ANEW}"


def notes(number: int, found: Tries, within: int) -> Iterator[str]:
    """How many moments were tried, and what was found of none."""
    tried = len(found.waits)
    late = [at for at, it in found.waits.items() if it is None]
    yield f"{tried} moments tried, {tried - len(late)} with the green"
    if late:
        yield f"not within {within // 10} s: {len(late)} moments, as tick {min(late)}"
    if found.in_service:
        count, first = len(found.in_service), min(found.in_service)
        yield f"left out, as a preempt was in service: {count} moments, as tick {first}"
    for name in (VEHICLE, PEDESTRIAN):
        if name not in found.longest:
            yield f"{name}: no moment has one, so give a log that does"


def _parts(entry: Entry) -> str:
    """The parts of a bound."""
    return f"delay {_seconds(entry.delay)}, longest entry {_seconds(entry.longest)}"


def _row(name: str, tenths: int, more: str = "") -> str:
    return f"{name:24}{_seconds(tenths):>7} s  {more}".rstrip()


def _seconds(tenths: int) -> str:
    return f"{tenths // 10}.{tenths % 10}"


def _words() -> argparse.ArgumentParser:
    words = Words(
        prog=PROGRAM,
        description="Tries a preempt at each moment of an input log.",
        epilog='docs/use/FIELD.md, "The worst moment for a preempt", has an example.',
        allow_abbrev=False,
    )
    words.add_argument("plan", type=Path, metavar="PLAN")
    words.add_argument("number", type=int, choices=range(1, PREEMPTS + 1), metavar="N")
    words.add_argument("log", type=Path, metavar="LOG")
    words.add_argument(
        "--pattern", type=int, default=0, metavar="N", help="selected before tick 1"
    )
    words.add_argument(
        "--ticks", type=int, metavar="N",
        help="the moments of so many ticks; without it up to the log's last row",
    )  # fmt: skip
    words.add_argument(
        "--within", type=int, default=WITHIN, metavar="SECONDS",
        help=f"in which the green has to come; {WITHIN} without it",
    )  # fmt: skip
    return words


def main(words: Sequence[str]) -> int:
    """Tries a preempt; the status to end with: 1 where some moment has no green."""
    known = _words()
    given = known.parse_args(words)
    if given.within < 1 or given.ticks is not None and given.ticks < 1:
        known.error("--ticks and --within are 1 or more")
    plan, log = _read(given.plan, given.log)
    last = given.ticks or max(log.ticks, default=0)
    if not last:
        raise Error(f"{given.log}: it has no rows: give --ticks")
    _, phases = first_stage(plan, given.number)
    within = 10 * given.within
    with Bench(plan, log, events=False) as bench:
        if given.pattern:
            bench.set_pattern(given.pattern)
        found = tries(bench, given.number, phases, last, within)
    entry = plan.worksheet().entries[given.number]
    for line in rows(plan, given.number, found, within, entry):
        print(line)
    return 1 if None in found.waits.values() else 0


def _read(plan: Path, log: Path) -> tuple[Plan, Log]:
    """A plan and an input log; `Error` names the file that is refused."""
    try:
        found = Plan.read(plan)
        # (a list of phases of version 1 is read the same way)
        found.check()
    except PlanFault as fault:
        raise Error(f"{plan}: {fault}") from None
    try:
        return found, Log.read(log)
    except LogFault as fault:
        raise Error(f"{log}: {fault}") from None
