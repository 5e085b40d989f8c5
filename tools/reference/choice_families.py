"""Sessions in which preempts choose anew: their requests come while rings clear to what they are committed to.

`choices` gives the plan, the log and the commands of a seed. The plans are those of the reference with short times, of
two rings and two sides or at random, with all of their preempts, some with `preemptChoosesAnew`. Lists of overlaps are
such that some last through clearances, with `overlapAcrossRings` and without it. Commits change the option meanwhile.
"""
import json

from tools.reference.session_families import brisk, commit, partly, quick_quad, row

LISTS = ("preemptTrackPhase", "preemptDwellPhase", "preemptExitPhase")
# Lists of one and two phases of the plan of eight phases that go together.
TOGETHER = [132, 72, 34, 17, 18, 33, 68, 136, 8, 1, 2, 16, 128, 4]
OVERLAPS = [0, 0, 3, 6, 12, 48, 96, 129, 24, 10, 160, 66, 9]


def ones(rng, share):
    """For each of four, whether it has an option."""
    return {str(n): int(rng.random() < share) for n in range(1, 5)}


def with_preempts(rng, plan):
    """Gives the plan of eight phases four preempts and four overlaps."""
    plan["preemptDwellPhase"] = {str(n): rng.choice(TOGETHER) for n in range(1, 5)}
    for name in ("preemptTrackPhase", "preemptExitPhase"):
        plan[name] = {str(n): rng.choice(TOGETHER) for n in range(1, 5) if rng.random() < 0.6}
    for name, values in (("preemptTrackGreen", [0, 1, 3]), ("preemptMinimumDuration", [0, 1, 4]),
                         ("preemptMaximumPresence", [0, 0, 8]), ("preemptMinimumGreen", [0, 1, 3]),
                         ("preemptMinimumWalk", [0, 1]), ("preemptEnterPedClear", [0, 2])):
        plan[name] = {str(n): rng.choice(values) for n in range(1, 5)}
    plan["overlapIncludedPhases"] = {str(n): rng.choice(OVERLAPS) for n in range(1, 5)}
    plan["phaseRedClear"] = {str(p): rng.choice([0, 5, 10, 22]) for p in range(1, 9)}
    plan["phaseRedRevert"] = {str(p): rng.choice([0, 0, 30, 60]) for p in range(1, 9)}


def a_plan(reference, rng):
    """A plan of version 3 that breaks no rule, some of whose preempts choose anew."""
    while True:
        is_quad = rng.random() < 0.7
        plan = quick_quad(reference) if is_quad else brisk(reference.even.hexa(rng))
        if is_quad:
            with_preempts(rng, plan)
            if rng.random() < 0.3:
                partly(rng, plan)
        plan |= {"version": 3, "overlapAcrossRings": ones(rng, 0.4), "preemptChoosesAnew": ones(rng, 0.7)}
        if plan.get("preemptDwellPhase") and reference.accepts(plan):
            return json.loads(json.dumps(plan))


def a_log(rng, last):
    """Detectors and buttons that come and go, and preempt inputs now and then."""
    now, log, on = 0, "", set()
    while now < last:
        now += rng.randint(1, 30)
        on ^= set(rng.sample(range(1, 9), rng.randint(1, 3)))
        preempts = rng.sample(range(1, 5), 1) if rng.random() < 0.1 else []
        log += row(now, on, rng.sample(range(1, 9), rng.choice([0, 0, 1])), preempts)
    return log


def a_change(rng):
    """Something that happens while preempts come and go."""
    option = ("preemptChoosesAnew", rng.randint(1, 4), rng.randint(0, 1))
    times = ("preemptMinimumGreen", rng.randint(1, 4), rng.randint(0, 2))
    return rng.choice([commit(1, [option]), commit(2, [option, times]), commit(3, [("overlapAcrossRings", 1, 1)]),
                       ["undo", "undo"], [f"back {rng.randint(1, 30)}"], [f"pattern {rng.randint(0, 2)}"],
                       [f"fault P{rng.randint(1, 8)} {rng.choice('GR')}", "step 3", "reset", "fault none"],
                       [f"set 4 preemptChoosesAnew {rng.randint(0, 5)} {rng.randint(0, 2)}"]])


def choices(reference, rng, _seed):
    """The plan, log and commands of a session: requests at all moments, each by another preempt, and what follows."""
    plan = a_plan(reference, rng)
    found = [f"step {rng.randint(1, 60)}"]
    for _ in range(rng.randint(8, 16)):
        found += [f"preempt {rng.randint(1, 4)} {rng.choice(['on', 'on', 'on', 'off'])}", f"step {rng.randint(1, 12)}"]
        if rng.random() < 0.5:
            found += [f"preempt {n} off" for n in range(1, 5)] + [f"step {rng.choice([3, 20, 90])}"]
        if rng.random() < 0.3:
            found += a_change(rng)
        found += rng.choice([["when stage"], [f"when interval {rng.randint(1, 8)}"], [f"step {rng.randint(1, 60)}"], []])
    return plan, a_log(rng, 500), found + ["step 150", "when stage", "when trip"]
