"""Two controllers on one intersection, compared: their greens, and where they part when
they are given the same inputs.

Heads are texts of a letter for each of phases 1 to 8, one for each tick, as
`Intersection.heads` has them; rows are those of inputs.
"""

from collections import Counter
from collections.abc import Iterator, Sequence
from dataclasses import dataclass, replace
from datetime import datetime
from itertools import groupby

from tsb.bench import Bench
from tsb.plan import Plan

ALL_OFF = "0000000000000000 00000000 0000"
PHASES = range(1, 9)
CALM = 100  # ticks
LEFT_OF = {2: 1, 4: 3, 6: 5, 8: 7}  # the left turn beside a through phase, of its ring
RINGS = (range(0, 4), range(4, 8))


@dataclass(frozen=True)
class Green:
    """A whole green: its phase, its first tick, how many ticks it had, and whether its
    gap had passed when it ended."""

    phase: int
    begin: int
    ticks: int
    gapped: bool


def greens(rows: Sequence[str], heads: Sequence[str], plan: Plan) -> Iterator[Green]:
    """The whole greens, phase after phase. The channel of a phase has its number."""
    for phase in PHASES:
        passage, tick = plan["phasePassage"][phase], 0
        for letter, of in groupby(it[phase - 1] for it in heads):
            ticks = len(list(of))
            end = tick + ticks
            if letter == "G" and end < len(rows):
                off = 0
                while off < ticks and rows[end - off][phase - 1] == "0":
                    off += 1
                yield Green(phase, tick + 1, ticks, off > passage)
            tick = end


def longest_without(heads: Sequence[str], phases: Sequence[int]) -> int:
    """The most ticks in a row in which none of these phases was green."""
    dark = [all(it[phase - 1] != "G" for phase in phases) for it in heads]
    return max((len(list(of)) for is_dark, of in groupby(dark) if is_dark), default=0)


def answers(
    rows: Sequence[str],
    plan: Plan,
    pattern: int = 0,
    begin: datetime | str | None = None,
) -> list[str]:
    """The heads of a bench that is given these rows, which react to nothing. Its clock
    is set to `begin`, the time at which tick 1 begins; without one it has none."""
    with Bench(plan, events=False) as bench:
        if begin is not None:
            bench.set_clock(begin)
        if pattern:
            bench.set_pattern(pattern)
        whole = [it + ALL_OFF[len(it) :] for it in rows]
        return [it.vehicles[:8] for it in bench.ticks(whole)]


@dataclass(frozen=True)
class Spell:
    """A stretch in which two controllers differ: its first tick, in how many ticks of
    it they do, and what each did in the first, with the cause of that."""

    begin: int
    ticks: int
    cause: str
    theirs: str
    ours: str


def spells(theirs: Sequence[str], ours: Sequence[str]) -> list[Spell]:
    """All spells in which the heads differ. One ends when they were alike for `CALM`
    ticks: what comes before is a consequence of its first tick."""
    found: list[Spell] = []
    tick, calm = 0, CALM
    for same, of in groupby(a == b for a, b in zip(theirs, ours, strict=True)):
        ticks = len(list(of))
        if same:
            calm = ticks
        elif calm >= CALM or not found:
            found.append(_spell(theirs, ours, tick, ticks))
        else:
            found[-1] = replace(found[-1], ticks=found[-1].ticks + ticks)
        tick += ticks
    return found


def _spell(theirs: Sequence[str], ours: Sequence[str], at: int, ticks: int) -> Spell:
    before = theirs[at - 1] if at else "R" * 8
    said = [_move(before, it[at]) for it in (theirs, ours)]
    return Spell(at + 1, ticks, _cause(theirs, ours, at), *said)


def _move(before: str, after: str) -> str:
    """What heads did: the letters that are others, as `2Y 6Y`."""
    moved = [
        f"{at}{b}"
        for at, (a, b) in enumerate(zip(before, after, strict=True), 1)
        if a != b
    ]
    return " ".join(moved) or "stays"


def _cause(theirs: Sequence[str], ours: Sequence[str], at: int) -> str:
    """Which difference of the two models a spell began with, by what each did:

    - `choice`: a ring comes out of its red clearance, and they show other phases;
    - `later`: the other ends the same greens in the tick after;
    - `return`: a ring of the other goes back to its own left turn;
    - `both`: the other ends both greens, and the bench one or none;
    - `hold`: the other goes on with a green that the bench ends;
    - `end`: the other ends one green that the bench goes on with.
    """
    before = theirs[at - 1] if at else "R" * 8
    a, b = theirs[at], ours[at]
    if any(x == "G" and y != "G" for x, y in zip(a + b, before * 2, strict=True)):
        return "choice"
    ended = [{p for p in PHASES if it[p - 1] == "Y" != before[p - 1]} for it in (a, b)]
    if ended[1] and not ended[0] and theirs[at + 1 : at + 2] == [b]:
        return "later"
    for phase in ended[0]:
        if phase in LEFT_OF and LEFT_OF[phase] == _next_green(theirs, at, phase):
            return "return"
    if ended[1] - ended[0]:
        return "hold"
    return "both" if len(ended[0]) > 1 else "end"


def _next_green(heads: Sequence[str], at: int, phase: int) -> int | None:
    """The phase of a ring that is green next after a tick, other than this one."""
    ring = RINGS[phase > 4]
    for it in heads[at:]:
        for place in ring:
            if it[place] == "G" and place + 1 != phase:
                return place + 1
    return None


def causes(found: Sequence[Spell]) -> Counter[str]:
    """How many spells began with each difference."""
    return Counter(it.cause for it in found)
