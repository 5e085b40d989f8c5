"""Tests of the laws of called phases, on runs at random of the reference that `test_stated_laws.py` is given.

What is tested stands in `crates/tsb_laws/specs/ServedCalls.antt`: in free operation, with no preempt in service, and
where all phases of one side and of different rings are concurrent, a called phase that is still to come in the order
of its ring comes in time; and on whatever side it is, it is served in time.
"""
import collections
import dataclasses
import json
import random
from collections.abc import Iterator

SIDES = 4


# --- plans and rows ---

def placed(rng: random.Random) -> dict:
    """Rings, sides, concurrency and order of some phases, all of one side and of both rings concurrent."""
    phases = sorted(rng.sample(range(1, 17), rng.randint(2, 16)))
    sides = rng.randint(1, SIDES)
    ring = {p: rng.randint(1, 2) for p in phases}
    side = {p: rng.randint(1, sides) for p in phases}
    order = {}
    for r in (1, 2):
        listed: list[int] = []
        for d in range(1, SIDES + 1):
            here = [p for p in phases if ring[p] == r and side[p] == d]
            rng.shuffle(here)
            listed += here
        order.update({str(16 * (r - 1) + k): p for k, p in enumerate(listed, 1)})
    beside = {p: sum(1 << (q - 1) for q in phases if ring[q] != ring[p] and side[q] == side[p]) for p in phases}
    return {"version": 2, "phaseEnabled": dict.fromkeys(map(str, phases), 1),
            "phaseRing": {str(p): ring[p] for p in phases}, "phaseSide": {str(p): side[p] for p in phases},
            "phaseConcurrency": {str(p): beside[p] for p in phases if beside[p]}, "sequenceData": order}


# Values at random of the objects of a phase.
VALUES = {"phaseMinimumGreen": [0, 1, 3, 5], "phaseYellowChange": [30, 30, 31, 45], "phaseRedClear": [0, 0, 5, 10, 25],
          "phasePassage": [0, 10, 20, 50], "phaseTimeBeforeReduction": [0, 3, 8], "phaseCarsBeforeReduction": [0, 2, 5],
          "phaseTimeToReduce": [0, 4, 9], "phaseRedRevert": [0, 0, 20, 60, 150], "phaseWalk": [0, 0, 2, 4, 12],
          "phasePedestrianClear": [0, 3, 6, 15], "phaseSoftRecall": [0, 0, 1], "phaseNonLock": [0, 1],
          "phaseDualEntry": [0, 1], "phaseRestInWalk": [0, 0, 1], "phaseVariableInitial": [0, 1],
          "phaseMaximumInitial": [0, 4, 25], "phaseAddedInitial": [0, 10, 30], "phaseDynamicMaxLimit": [0, 0, 10, 30],
          "phaseDynamicMaxStep": [0, 10, 50], "phaseSimGapDisable": [0, 0, 1], "phaseMaximum1": [5, 8, 15],
          "phaseMaximum2": [5, 10]}

# In half of the runs none of these is used, so that greens last as long as they can.
SPECIAL = {"phaseWalk", "phasePedestrianClear", "phaseVariableInitial", "phaseDynamicMaxLimit"}


def plan_of(rng: random.Random) -> dict:
    """A plan at random in which all phases of one side and of different rings are concurrent."""
    plan = placed(rng)
    phases = list(plan["phaseEnabled"])
    plain = rng.random() < 0.5
    for name, values in VALUES.items():
        plan[name] = {p: 0 if plain and name in SPECIAL else rng.choice(values) for p in phases}
    recalled = rng.choice([0.05, 0.3, 0.9])
    for name in ("phaseMinRecall", "phaseMaxRecall"):
        plan[name] = {p: int(rng.random() < recalled) for p in phases}
    walkers = [p for p in phases if plan["phaseWalk"][p]]
    plan["phasePedRecall"] = {p: int(rng.random() < recalled) for p in walkers}
    plan["phaseMinimumGap"] = {p: rng.randint(0, plan["phasePassage"][p]) for p in phases}
    plan["unitMax2"], plan["unitRedRevert"] = {"1": rng.randint(0, 1)}, {"1": rng.choice([0, 20, 50])}
    plan["vehicleDetectorCallPhase"] = {str(d): int(rng.choice(phases)) for d in range(1, 17)}
    if walkers:
        plan["pedestrianDetectorCallPhase"] = {str(d): int(rng.choice(walkers)) for d in range(1, 9)}
    plan["preemptDwellPhase"] = {"1": 1 << (int(rng.choice(phases)) - 1)}
    if rng.random() < 0.5:
        plan["preemptExitPhase"] = {"1": 1 << (int(rng.choice(phases)) - 1)}
    plan["preemptMinimumDuration"] = {"1": 5}
    return plan


def rows(rng: random.Random) -> Iterator[tuple]:
    """Rows without end: detectors that change at random, and in some runs preempt 1."""
    vehicles, pedestrians, preempts = [False] * 16, [False] * 8, [False] * 4
    on, off = rng.choice([0.001, 0.01, 0.05, 0.2]), rng.choice([0.3, 0.02])
    preempted = rng.random() < 0.3
    while True:
        for inputs in (vehicles, pedestrians):
            for k, is_on in enumerate(inputs):
                if rng.random() < (off if is_on else on):
                    inputs[k] = not is_on
        if preempted and rng.random() < (0.02 if preempts[0] else 0.002):
            preempts[0] = not preempts[0]
        yield tuple(vehicles), tuple(pedestrians), tuple(preempts)


# --- the times of a plan ---

class Times:
    """What a plan says of greens and turns, as the laws have it."""

    def __init__(self, bench, plan: dict):
        self.bench, self.plan = bench, plan
        self.phases = [p for p in range(1, 17) if plan["phaseEnabled"][p]]
        self.order = {r: [p for p in bench.sequence(plan, bench.V2, 1, r) if p] for r in (1, 2)}
        self.longest = max(map(self.green, self.phases))
        self.clear = max(max(plan["phaseYellowChange"][p] + plan["phaseRedClear"][p], plan["phaseRedRevert"][p],
                             plan["unitRedRevert"][1]) for p in self.phases)

    def green(self, p: int) -> int:
        """The longest green of p once it has a conflict."""
        plan = self.plan
        maximum = 10 * plan["phaseMaximum2" if plan["unitMax2"][1] else "phaseMaximum1"][p]
        limit = 10 * plan["phaseDynamicMaxLimit"][p]
        if limit and plan["phaseDynamicMaxStep"][p]:
            maximum = max(maximum, limit)
        initial = 10 * plan["phaseMinimumGreen"][p]
        if plan["phaseVariableInitial"][p]:
            initial = max(initial, 10 * plan["phaseMaximumInitial"][p])
        return max(maximum, initial, 10 * (plan["phaseWalk"][p] + plan["phasePedestrianClear"][p]))

    def turn(self, p: int) -> int:
        """The turn of p: its longest green, and what its ring may clear for it."""
        return self.green(p) + self.clear + 2

    def begun(self) -> int:
        """What a ring may have begun."""
        return self.longest + self.clear + 1

    def still_to_come(self, state, r: int) -> list[int]:
        """What comes later in the order of the ring than the phase that it has come to."""
        place = state.last[r] if state.commit[r] is None else state.commit[r]
        order = self.order[r]
        return order[order.index(place) + 1:] if place in order else order

    def to_come(self, state, r: int) -> int:
        """Within how many ticks a phase comes that is still to come on the side that is served."""
        here = [p for p in self.still_to_come(state, r) if self.plan["phaseSide"][p] == state.side]
        return sum(map(self.turn, here)) + self.begun()

    def to_serve(self, q: int) -> int:
        """Within how many ticks q is served, if it stays called: `time_by_turns`."""
        r, d = self.plan["phaseRing"][q], self.plan["phaseSide"][q]
        own, across = ([p for p in self.order[x] if self.plan["phaseSide"][p] == d] for x in (r, 3 - r))
        others = [p for p in self.phases if self.plan["phaseSide"][p] != d]
        begun = self.begun() + self.clear
        waits = sum(map(self.turn, across)) + begun
        leaves = begun + 1 + waits + sum(self.turn(p) + waits + 1 for p in own)
        elsewhere = sum(map(self.turn, others)) + SIDES * (3 * self.clear + 3)
        home = sum(map(self.turn, own)) + self.clear + 2
        return self.clear + 1 + leaves + elsewhere + home


# --- what a tick has found, by the states before and after it ---

def is_called(bench, before, after, q: int) -> bool:
    """Whether q was callable in the tick, soft recall apart; of a phase that was not Green and is not."""
    plan = after.plan
    if not plan["phaseEnabled"][q] or bench.G in (before.interval[q], after.interval[q]):
        return False
    is_on = any(after.out[d] and plan["vehicleDetectorCallPhase"][d] == q for d in range(1, 17))
    walks = plan["phaseWalk"][q] and (after.pmem[q] or plan["phasePedRecall"][q])
    recalled = plan["phaseMinRecall"][q] or plan["phaseMaxRecall"][q]
    return bool(after.vmem[q] or walks or (plan["phaseNonLock"][q] and is_on) or recalled)


def is_to_come(bench, times: Times, state, q: int) -> bool:
    """Whether q is still to come in the order of its ring, on the side that is served and outside a crossing."""
    r = state.plan["phaseRing"][q]
    served = bench.service_of(state, r)
    clears = served is not None and state.interval[served] != bench.G and state.commit[r] is None
    if clears or state.cross is not None or state.plan["phaseSide"][q] != state.side:
        return False
    return state.commit[r] == q or q in times.still_to_come(state, r)


@dataclasses.dataclass
class Found:
    """How often the premises were met, the worst share of each bound, and the breaches."""

    waited: int = 0
    worst: collections.Counter = dataclasses.field(default_factory=collections.Counter)
    broken: list[tuple[int, str, int]] = dataclasses.field(default_factory=list)

    def see(self, law: str, now: int, q: int, took: int, bound: int) -> None:
        """Takes in that q has waited for so long."""
        self.worst[law] = max(self.worst[law], took / bound)
        if took > bound:
            self.broken.append((now, law, q))


class Watch:
    """One run: since when each phase waits, and by when it has to come."""

    def __init__(self, bench, times: Times, found: Found):
        self.bench, self.times, self.found = bench, times, found
        self.since: dict[int, int] = {}
        self.coming: dict[int, list[tuple[int, int]]] = {}

    def take(self, before, after) -> None:
        """Takes a tick in."""
        free = after.service == 0
        called = [q for q in self.times.phases if free and is_called(self.bench, before, after, q)]
        for q in self.times.phases:
            if q in called:
                self.wait(before, after, q)
            else:
                self.since.pop(q, None)
                self.coming.pop(q, None)

    def wait(self, before, after, q: int) -> None:
        """q has waited in the tick."""
        self.found.waited += 1
        since = self.since.setdefault(q, before.now)
        self.found.see("served", after.now, q, after.now - since, self.times.to_serve(q))
        if is_to_come(self.bench, self.times, before, q):
            bound = self.times.to_come(before, before.plan["phaseRing"][q])
            self.coming.setdefault(q, []).append((before.now, bound))
        for begun, bound in self.coming.get(q, []):
            self.found.see("comes", after.now, q, after.now - begun, bound)


def run(bench, seed: int, found: Found) -> None:
    """One run at random."""
    rng = random.Random(seed)
    while True:
        plan, refused = bench.read_plan(json.dumps(plan_of(rng)).encode(), bench.V2)
        if refused is None:
            break
    state = bench.power_up(plan, bench.V2)
    watch = Watch(bench, Times(bench, plan), found)
    inputs = rows(rng)
    for _ in range(rng.randint(1500, 3000)):
        after = bench.tick(state, next(inputs))
        if after.trip:
            return
        watch.take(state, after)
        state = after


# --- a run against which a bound that grows with the sum of the turns does not hold ---

def barred(own: int, across: int) -> dict:
    """A plan in which phase 1, and as many as `own` in all, share side 1 with phases across that have maximum recall."""
    first, second = range(1, own + 1), range(own + 1, own + across + 1)
    away = own + across + 1
    phases = [*first, *second, away]
    plan = {"version": 2, "phaseEnabled": dict.fromkeys(map(str, phases), 1), "phaseNonLock": {str(away): 1},
            "phaseRing": {str(p): 2 if p in second else 1 for p in phases},
            "phaseSide": {str(p): 2 if p == away else 1 for p in phases},
            "phaseConcurrency": {str(p): sum(1 << (q - 1) for q in (second if p in first else first))
                                 for p in [*first, *second]},
            "phaseMaxRecall": dict.fromkeys(map(str, second), 1),
            "vehicleDetectorCallPhase": {str(p): p for p in phases},
            "sequenceData": {str(k): p for k, p in enumerate([*first, away], 1)}}
    plan["sequenceData"].update({str(16 + k): p for k, p in enumerate(second, 1)})
    for name, value in (("phaseMaximum1", 15), ("phaseMaximum2", 15), ("phaseYellowChange", 30)):
        plan[name] = dict.fromkeys(map(str, phases), value)
    return plan


def barring(bench, state, own: int, across: int, called: int) -> tuple[tuple[bool, ...], int]:
    """Detectors that keep phase 1 called and ring 1 from it; how many of its phases have been called till now.

    The phase that ring 1 serves stays on. Once it has maxed out the side across is called, until ring 2 would join in
    the crossing: then the next phase of ring 1 is called, and ring 2 goes round once more.
    """
    on = [False] * 16
    served = bench.service_of(state, 1)
    if state.now == 0:
        on[1] = True
    if served is None or state.interval[served] != bench.G:
        return tuple(on), called
    on[0] = on[served - 1] = True
    if state.conf[served] is None or state.conf[served] + 1 < 150:
        return tuple(on), called
    second = bench.service_of(state, 2)
    joins = second == own + across and state.conf[second] is not None and state.conf[second] + 1 >= 150
    if joins and called < own:
        called += 1
        on[called - 1] = True
    else:
        on[own + across] = True
    return tuple(on), called


def waited_longest(bench, own: int = 8, across: int = 7) -> tuple[int, int]:
    """How long phase 1 waits so, and within how many ticks it has to be served."""
    plan, _ = bench.read_plan(json.dumps(barred(own, across)).encode(), bench.V2)
    state, called = bench.power_up(plan, bench.V2), 2
    while state.now == 0 or state.interval[1] != bench.G:
        vehicles, called = barring(bench, state, own, across, called)
        state = bench.tick(state, (vehicles, (False,) * 8, (False,) * 4))
    return state.now - 1, Times(bench, plan).to_serve(1)


def test(bench, seeds: range) -> int:
    """Runs of these seeds; prints what was found, and returns the number of breaches."""
    found, breaches = Found(), 0
    for seed in seeds:
        run(bench, seed, found)
        for now, law, phase in found.broken:
            print(f"seed {seed}: at tick {now} phase {phase} breaks `{law}`")
        breaches, found.broken = breaches + len(found.broken), []
    shares = ", ".join(f"{law} {100 * share:.0f} %" for law, share in sorted(found.worst.items()))
    print(f"{len(seeds)} runs: called phases waited in {found.waited} ticks, the largest shares of the bounds were {shares}, "
          f"{breaches} breaches")
    waited, bound = waited_longest(bench)
    print(f"a run made so that phase 1 waits: {waited} ticks, of {bound} at most")
    return breaches + (waited > bound)
