"""Tests within what time phases are served in a pattern, on runs at random of an independent implementation.

    python3 -m tools.reference.test_coordination --reference FOLDER --seeds LO HI

FOLDER holds the reference, which is no part of this repository (make_sessions.py says which files). Each seed is one
run: a plan of coordinated_plans.py, some ticks in free operation, some in pattern 2, and then pattern 1 for 8 cycles,
with detectors that change at random; in every second run buttons are on just where a walk takes all that is left to its
force-off, or a tick more. `crates/tsb_laws/specs/CoordinatedGreens.antt` has what is tested: how long a
coordinated phase is not Green, by the time that is proved and by the shorter one that is stated and not proved; and how
long any phase that stays called is not Green, by the time that is proved. A wait counts from where the local counter is
in step. Each tick goes to `recycled_walks.py` too, which tests the laws of walks that begin within a green, and to
`counters_in_step.py`, which tests those of local counters that come into step. It ends with status 1 where a run breaks
a law, and tells the largest share of each time that a wait took, how often a coordinated phase was not Green for a
whole cycle, and how many such walks and counters there were.
"""
import argparse
import importlib
import json
import os
import random
import sys
from collections.abc import Iterator
from dataclasses import dataclass, field
from typing import Any

from tools.reference import coordinated_plans
from tools.reference.counters_in_step import Counters
from tools.reference.recycled_walks import Walks, Watch
from tools.reference.reference_options import with_options
from tools.reference.served_calls import SIDES, is_called

CYCLES = 8
OMITTED = 5
State = Any
Plan = dict[str, list[int]]


@dataclass
class Longest:
    """The largest share of a time that a wait took, and how many waits took longer."""

    share: float = 0.0
    worst: str = ""
    broken: int = 0

    def see(self, seed: int, c: int, since: int, limit: int) -> None:
        """A tick in which phase c has waited for so many ticks."""
        self.broken += since == limit + 1
        if since / limit > self.share:
            self.share, self.worst = since / limit, f"phase {c} of seed {seed}: {since} of {limit} ticks"

    def told(self) -> str:
        """As it is printed."""
        return f"at most {self.share:.3f} ({self.worst}), {self.broken} breaches"


@dataclass
class Waits:
    """Of runs: how many coordinated phases there were, their waits and those of a cycle or more, and the longest."""

    phases: int = 0
    waits: int = 0
    long: int = 0
    stated: Longest = field(default_factory=Longest)
    proved: Longest = field(default_factory=Longest)
    called: Longest = field(default_factory=Longest)
    walks: Walks = field(default_factory=Walks)
    counters: Counters = field(default_factory=Counters)


def reference(folder: str) -> Any:
    """The module of the reference that takes inputs."""
    sys.dont_write_bytecode = True
    sys.path[:0] = [os.path.join(folder, "py")]
    return with_options(importlib.import_module("tsb_oracle"))


def rows(rng: random.Random) -> Iterator[tuple[tuple[bool, ...], ...]]:
    """Rows without end: vehicle and pedestrian detectors that change at random, and no preempts."""
    vehicles, pedestrians = [False] * 16, [False] * 8
    rises, stays = rng.choice([0.0005, 0.005, 0.05, 0.3]), rng.choice([0.01, 0.1, 0.5])
    while True:
        for inputs in (vehicles, pedestrians):
            for k, on in enumerate(inputs):
                if rng.random() < (stays if on else rises):
                    inputs[k] = not on
        yield tuple(vehicles), tuple(pedestrians), (False,) * 4


def longest(plan: Plan, p: int) -> int:
    """The longest that a phase is Green in pattern 1 once it has a conflict."""
    initial = plan["phaseMinimumGreen"][p]
    if plan["phaseVariableInitial"][p]:
        initial = max(initial, plan["phaseMaximumInitial"][p])
    walk = plan["phaseWalk"][p] + plan["phasePedestrianClear"][p]
    return 10 * max(plan["patternCycleTime"][1], initial, walk)


class Times:
    """What a plan says of turns in pattern 1."""

    def __init__(self, plan: Plan):
        self.plan = plan
        self.phases = [p for p, on in enumerate(plan["phaseEnabled"]) if on]
        revert = max(plan["phaseRedRevert"][p] for p in self.phases)
        clearance = max(plan["phaseYellowChange"][p] + plan["phaseRedClear"][p] for p in self.phases)
        self.clear = max(revert, plan["unitRedRevert"][1], clearance)
        self.begun = max(longest(plan, p) for p in self.phases) + 2 * self.clear + 1

    def turns(self, phases: list[int]) -> int:
        """The turns of some phases."""
        return sum(longest(self.plan, p) + self.clear + 2 for p in phases)

    def beside(self, c: int) -> tuple[list[int], list[int]]:
        """The phases on the side of c, of its ring and of the other."""
        here = [p for p in self.phases if self.plan["phaseSide"][p] == self.plan["phaseSide"][c]]
        own = [p for p in here if self.plan["phaseRing"][p] == self.plan["phaseRing"][c]]
        return own, [p for p in here if p not in own]

    def to_return(self, c: int) -> int:
        """Within how many ticks c is Green again, by the time that is stated and not proved."""
        own, across = self.beside(c)
        others = [p for p in self.phases if p != c]
        return self.turns(others) + self.clear + 2 + (len(own) - 1) * self.turns(across)

    def to_be_served(self, c: int) -> int:
        """Within how many ticks c is Green if it stays called, by the time that is proved."""
        own, across = self.beside(c)
        wait = self.turns(across) + self.begun
        leave = self.begun + 1 + wait + self.turns(own) + len(own) * (wait + 1)
        elsewhere = self.turns([p for p in self.phases if p not in own + across]) + SIDES * (3 * self.clear + 3)
        return self.clear + 1 + leave + elsewhere + self.turns(own) + self.clear + 2


def start(bench: Any, rng: random.Random) -> State:
    """The state at power-up with a plan that breaks no rule."""
    while True:
        asked = coordinated_plans.plan(rng, rng.choice([7, 10, 40, 255]))
        plan = bench.read_plan(json.dumps(asked).encode(), bench.V2)[0] if asked else None
        if plan:
            return bench.power_up(plan, bench.V2)


def ticked(bench: Any, state: State, inputs: Iterator[tuple[tuple[bool, ...], ...]], ticks: int) -> State:
    """The state so many ticks later."""
    for _ in range(ticks):
        state = bench.step(state, ("tick", next(inputs)))
    return state


def selected(bench: Any, seed: int, state: State, number: int, waits: Waits) -> State:
    """The state with another pattern."""
    after = bench.step(state, ("pattern", number))
    waits.counters.select(bench, seed, state, after)
    return after


def begun(bench: Any, seed: int, rng: random.Random, waits: Waits) -> tuple[State, Iterator[Any]]:
    """The state in which pattern 1 was selected, mostly while pattern 2 ran, and the rows from there on."""
    state, inputs = start(bench, rng), rows(rng)
    state = ticked(bench, state, inputs, rng.choice([0, rng.randint(1, 1000)]))
    if rng.random() < 0.7:
        state = ticked(bench, selected(bench, seed, state, 2, waits), inputs, rng.randint(1, 2000))
    return selected(bench, seed, state, 1, waits), inputs


def run(bench: Any, seed: int, waits: Waits) -> None:
    """Runs the pattern of a seed, and counts."""
    rng = random.Random(seed)
    state, inputs = begun(bench, seed, rng, waits)
    times = Times(state.plan)
    coordinated = [p for p in times.phases if state.plan["splitCoordPhase"][p]]
    others = [p for p in times.phases if p not in coordinated and state.plan["splitMode"][p] != OMITTED]
    since = dict.fromkeys(times.phases, 0)
    waits.phases += len(coordinated)
    watch = Watch(bench, seed, state, waits.walks)
    for _ in range(CYCLES * 10 * state.plan["patternCycleTime"][1]):
        is_in_step = bench.ahead_at(state, state.now) == 0
        for c in coordinated:
            since[c] = 0 if state.interval[c] == bench.G or not is_in_step else since[c] + 1
            count(waits, seed, times, c, since[c])
        row = next(inputs)
        if seed % 2:
            row = row[0], (watch.is_at_limit(state),) * len(row[1]), row[2]
        after = bench.step(state, ("tick", row))
        watch.see(state, after, row)
        waits.counters.see(bench, seed, state, after)
        for q in others:
            since[q] = since[q] + 1 if is_in_step and is_called(bench, state, after, q) else 0
            waits.called.see(seed, q, since[q], times.to_be_served(q))
        state = after


def count(waits: Waits, seed: int, times: Times, c: int, since: int) -> None:
    """Counts a tick in which the coordinated phase c has not been Green for so many ticks."""
    waits.waits += since == 1
    waits.long += since == 10 * times.plan["patternCycleTime"][1]
    waits.stated.see(seed, c, since, times.to_return(c))
    waits.proved.see(seed, c, since, times.to_be_served(c))


def main() -> int:
    """Runs the seeds."""
    words = argparse.ArgumentParser(description=(__doc__ or "").splitlines()[0])
    words.add_argument("--reference", required=True)
    words.add_argument("--seeds", nargs=2, type=int, required=True)
    given = words.parse_args()
    bench, waits = reference(given.reference), Waits()
    for seed in range(*given.seeds):
        run(bench, seed, waits)
    print(f"{given.seeds[1] - given.seeds[0]} runs: {waits.phases} coordinated phases waited {waits.waits} times, "
          f"{waits.long} times for a cycle or more\n"
          f"of the time that is stated {waits.stated.told()}\n"
          f"of the time that is proved {waits.proved.told()}\n"
          f"other phases that stayed called, of the time that is proved: {waits.called.told()}\n"
          f"{waits.walks.told()}\n"
          f"{waits.counters.told()}")
    late = waits.stated.broken + waits.proved.broken + waits.called.broken
    return 1 if late or waits.walks.broken or waits.counters.broken else 0


if __name__ == "__main__":
    sys.exit(main())
