"""Tests laws of preempts on runs at random of an independent implementation.

    python3 -m tools.reference.test_stated_laws --reference FOLDER --seeds LO HI

FOLDER holds the reference, which is no part of this repository (make_sessions.py says which files). Each seed is one
run: a plan at random, in version 2 with pedestrian recycle of half of its phases, and 1,500 to 4,000 ticks with inputs
of all kinds between; in every second run commits aim at the ticks in which an interval, a pedestrian part or a stage
has just changed. `crates/tsb_laws/specs/PreemptStages.antt` has what is tested: a preempt that stays in a stage
has all phases of that stage Green in time, from each tick in the stage on; and a preempt that stays in service has all
of its dwell phases Green in time. The third is the older bound of `PreemptDwells.antt`, which is false, and is counted
alone.
Each seed is one run of `served_calls.py` too, which tests in what time called phases are served.
It ends with status 1 where a run breaks a law, the older bound aside, and prints how often the premises were met.
"""
import argparse
import importlib
import json
import os
import random
import sys

from tools.reference import served_calls
from tools.reference.reference_options import with_options

LISTS = {"Track": "preemptTrackPhase", "Dwell": "preemptDwellPhase", "Exit": "preemptExitPhase"}


def reference(folder):
    """The modules of the reference: one makes plans at random, one takes inputs."""
    sys.dont_write_bytecode = True
    sys.path[:0] = [folder, os.path.join(folder, "py")]
    return importlib.import_module("gen"), with_options(importlib.import_module("tsb_oracle"))


# --- runs ---

def rows(rng):
    """Rows without end: detectors that change at random, and preempt inputs that stay on for long."""
    vehicles, pedestrians, preempts = [False] * 16, [False] * 8, [False] * 4
    busy = rng.choice([0.001, 0.01, 0.05])
    while True:
        for inputs, chance in ((vehicles, busy), (pedestrians, busy)):
            for k in range(len(inputs)):
                if rng.random() < (0.3 if inputs[k] else chance):
                    inputs[k] = not inputs[k]
        for k in range(4):
            if rng.random() < (0.004 if preempts[k] else 0.0008):
                preempts[k] = not preempts[k]
        yield tuple(vehicles), tuple(pedestrians), tuple(preempts)


def edit(rng, state):
    """One edit of a time of a phase or of a preempt, which no rule forbids for most values."""
    name = rng.choice(["phaseWalk", "phasePedestrianClear", "phaseYellowChange", "phaseRedClear", "phaseRedRevert",
                       "preemptMinimumGreen", "preemptMinimumWalk", "preemptEnterPedClear", "preemptTrackGreen",
                       "unitRedRevert"])
    last = len(state.plan[name]) - 1
    return name, rng.randint(1, last), rng.choice([0, 1, 3, 10, 30, 40])


def transaction(rng, state, most):
    """The inputs of a transaction with edits at random."""
    sets = [("set", 1) + edit(rng, state) for _ in range(rng.randint(1, most))]
    return [("begin", 1), *sets, ("verify", 1), ("commit", 1), ("abort", 1)]


def others(rng, state):
    """Inputs that are no ticks, at random: those of a transaction, or one of another kind."""
    kind = rng.random()
    if kind < 0.3:
        return transaction(rng, state, 3)
    if kind < 0.6:
        return [("pattern", rng.choice([0, 0, 1, 2, 3]))]
    return [("switch", rng.randint(1, 4), rng.random() < 0.4)]


def has_turned(before, after):
    """An interval, a pedestrian part or the stage of a preempt has changed, while a preempt is in service."""
    return after.service and (before.interval, before.ped, before.stage) != (after.interval, after.ped, after.stage)


def run(gen, bench, seed):
    """The states of a run, each with the input that led to it; the first has none."""
    rng = random.Random(seed)

    def accepts(plan):
        return bench.read_plan(json.dumps(plan).encode(), bench.V2)[1] is None

    asked = gen.plan(rng, 2, accepts)
    if asked["version"] == 2:
        asked["phasePedestrianRecycle"] = {str(p): rng.randint(0, 1) for p in range(1, 17)}
    plan, _ = bench.read_plan(json.dumps(asked).encode(), bench.V2)
    state = bench.power_up(plan, bench.V2)
    yield None, state
    inputs, aims, turned = rows(rng), seed % 2 == 1, False
    for _ in range(rng.randint(1500, 4000)):
        asked = others(rng, state) if rng.random() < 0.004 else []
        if aims and turned and rng.random() < 0.3:
            asked = asked + transaction(rng, state, 12)
        before = state
        for given in asked + [("tick", next(inputs))]:
            if bench.verdict(state, given) is None:
                state = bench.step(state, given)
                yield given, state
        turned = has_turned(before, state)


# --- the largest times ---

class Largest:
    """The largest that times of the plans in effect have been, since a moment, for preempt n."""

    def __init__(self, n):
        self.n, self.green, self.track = n, 0, 0
        self.walk, self.clear, self.together = {}, {}, 0
        self.yellow, self.red, self.revert = {}, {}, 0

    def see(self, plan):
        """Takes a plan in."""
        n = self.n
        self.green = max(self.green, 10 * plan["preemptMinimumGreen"][n])
        self.track = max(self.track, 10 * plan["preemptTrackGreen"][n])
        for p in range(1, len(plan["phaseEnabled"])):
            walk = min(10 * plan["phaseWalk"][p], 10 * plan["preemptMinimumWalk"][n])
            clear = min(10 * plan["phasePedestrianClear"][p], 10 * plan["preemptEnterPedClear"][n])
            self.together = max(self.together, walk + clear)
            for times, value in ((self.walk, walk), (self.clear, clear), (self.yellow, plan["phaseYellowChange"][p]),
                                 (self.red, plan["phaseRedClear"][p])):
                times[p] = max(times.get(p, 0), value)
            self.revert = max(self.revert, plan["phaseRedRevert"][p], plan["unitRedRevert"][1])

    def pedestrians(self):
        """The largest walk and the largest pedestrian clearance of a phase."""
        return max(self.walk[p] + self.clear[p] for p in self.walk)

    def clearance(self):
        """The largest yellow change and the largest red clearance of a phase, or a red revert."""
        return max(self.revert, *(self.yellow[p] + self.red[p] for p in self.yellow))

    def stage(self):
        """Within how many ticks the phases of a stage are Green."""
        clear = self.clearance()
        return max(self.pedestrians(), clear + self.green + 1) + clear + 4

    def dwell(self, has_track):
        """Within how many ticks of the begin of its service the dwell phases of a preempt are Green."""
        return self.stage() + (self.track + self.stage() if has_track else 0)

    def older(self, has_track):
        """The same by the older bound, which takes walk and clearance of one plan together, and is false."""
        first, clear = max(self.green, self.together), self.clearance()
        more = self.track + first + clear + 2 if has_track else 0
        return first + 2 * clear + self.green + 4 + more


# --- what is timed ---

def are_green(bench, state, stage):
    """The preempt in service is in that stage, and all phases of it are Green."""
    wanted = bench.members(state.plan[LISTS[stage]][state.service])
    return state.stage == stage and all(state.interval[p] == bench.G for p in wanted)


class Timed:
    """One stretch: since when, what it comes to, and by which bound."""

    def __init__(self, law, state, stages, goal):
        self.law, self.since, self.stages, self.goal = law, state.now, stages, goal
        self.largest, self.has_track = Largest(state.service), state.stage == "Track"

    def limit(self):
        """The bound, in ticks."""
        if self.law in ("dwell", "older"):
            return getattr(self.largest, self.law)(self.has_track)
        return self.largest.stage()

    def goes_on(self, state):
        """Its premise still holds."""
        return state.service == self.largest.n and state.stage in self.stages and not state.trip


class Counts:
    """Of one law: how often a stretch began, how often it came to its end, the least time left, the breaches."""

    def __init__(self):
        self.begun, self.reached, self.least, self.broken = 0, 0, None, 0


def observe(bench, states, counts, rng):
    """Goes through a run."""
    open_, before = [], None
    for given, state in states:
        ticked = given and given[0] == "tick"
        open_ = [one for one in open_ if one.goes_on(state)]
        if ticked and state.service:
            is_new = state.stime == 0
            stage = state.stage
            started = []
            if is_new:
                started = [Timed(law, state, ("Track", "Dwell"), "Dwell") for law in ("dwell", "older")]
            if is_new or before is None or before.stage != stage or rng.random() < 0.01:
                started.append(Timed(stage, state, (stage,), stage))
            for one in started:
                counts[one.law].begun += 1
            open_ += started
        kept = []
        for one in open_:
            one.largest.see(state.plan)
            left, count = one.since + one.limit() - state.now, counts[one.law]
            if are_green(bench, state, one.goal):
                count.reached += 1
                count.least = left if count.least is None else min(count.least, left)
                count.broken += left < 0
            elif left <= 0:
                count.broken += 1
            else:
                kept.append(one)
        open_, before = kept, state


def main():
    words = argparse.ArgumentParser(description=__doc__.splitlines()[0])
    words.add_argument("--reference", required=True)
    words.add_argument("--seeds", nargs=2, type=int, required=True)
    given = words.parse_args()
    gen, bench = reference(given.reference)
    counts = {law: Counts() for law in ("Track", "Dwell", "Exit", "dwell", "older")}
    for seed in range(*given.seeds):
        broken = sum(counts[law].broken for law in counts if law != "older")
        observe(bench, run(gen, bench, seed), counts, random.Random(-seed - 1))
        if sum(counts[law].broken for law in counts if law != "older") > broken:
            print(f"seed {seed}: not Green in time")
    for law, one in counts.items():
        print(f"{law}: {one.begun} began, {one.reached} reached, the least time left was {one.least} ticks, "
              f"{one.broken} breaches")
    breaches = any(one.broken for law, one in counts.items() if law != "older")
    unserved = served_calls.test(bench, range(*given.seeds))
    return 1 if breaches or unserved else 0


if __name__ == "__main__":
    sys.exit(main())
