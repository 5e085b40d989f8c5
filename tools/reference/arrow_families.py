"""Sessions with arrows and trailing overlaps, for comparing; none is stored. Greens end in all ways while arrows flash
and overlaps trail, with commits of their objects, crosswalks, preempts, patterns, omissions, lamps and the way back.

`session` gives the plan, the log and the commands of a seed.
"""
import json
import random

from tools.reference.clock_families import DAYS, a_moment, a_schedule, clock
from tools.reference.choice_families import a_log, with_preempts
from tools.reference.session_families import brisk, commit, partly, quick_quad

NORMAL, MINUS, ARROW = range(3)
# Left turns of the plan of eight phases, each with the throughs that oppose it.
LEFTS = {1: 2, 3: 8, 5: 32, 7: 128}


def listed(phases):
    """A list of phases as plans have it."""
    return sum(1 << phase - 1 for phase in phases)


def of_list(number):
    """The phases of a list."""
    return [phase for phase in range(1, 17) if number >> phase - 1 & 1]


def an_arrow(rng, plan):
    """A modifier and the included phases of an arrow, at random."""
    enabled = [int(p) for p, it in plan["phaseEnabled"].items() if it]
    turn = rng.choice(enabled)
    beside = of_list(plan["phaseConcurrency"].get(str(turn), 0))
    apart = [p for p in enabled if p != turn and p not in beside]
    return turn, listed(rng.sample(apart, min(len(apart), rng.choice([1, 1, 2, 3]))))


def an_overlap(rng, plan, number):
    """Gives a plan an overlap of some kind."""
    at = str(number)
    names = ("overlapIncludedPhases overlapType overlapModifierPhases overlapTrailGreen overlapTrailYellow overlapTrailRed "
             "overlapArrowDelay overlapArrowPedestrian overlapAcrossRings").split()
    for name in names:
        plan.setdefault(name, {})[at] = 0
    enabled = [int(p) for p, it in plan["phaseEnabled"].items() if it]
    kind = rng.choice(["arrow", "arrow", "arrow", "trail", "trail", "normal", "minus", "none"])
    plan["overlapIncludedPhases"][at] = listed(rng.sample(enabled, min(len(enabled), rng.choice([1, 1, 2, 2, 3]))))
    if kind == "none":
        plan["overlapIncludedPhases"][at] = 0
    elif kind == "arrow":
        turn, included = an_arrow(rng, plan)
        if len(enabled) == 8 and enabled[-1] == 8 and rng.random() < 0.6:
            turn = rng.choice(list(LEFTS))
            included = LEFTS[turn]
        plan["overlapIncludedPhases"][at], plan["overlapModifierPhases"][at] = included, listed([turn])
        plan["overlapType"][at] = ARROW if included else NORMAL
        if not included:
            plan["overlapModifierPhases"][at] = 0
        plan["overlapArrowDelay"][at] = rng.choice([0, 0, 1, 5, 20, 60])
        plan["overlapArrowPedestrian"][at] = rng.randint(0, 1)
    elif kind == "minus":
        plan["overlapType"][at], plan["overlapModifierPhases"][at] = MINUS, listed([rng.choice(enabled)])
    elif kind == "trail":
        plan["overlapTrailGreen"][at] = rng.choice([1, 1, 2, 3, 5, 9])
        plan["overlapTrailYellow"][at] = rng.choice([30, 30, 31, 45])
        plan["overlapTrailRed"][at] = rng.choice([0, 0, 1, 10, 25])
    if kind in ("normal", "trail"):
        plan["overlapAcrossRings"][at] = rng.randint(0, 1)


def a_plan(reference, rng, count):
    """A plan of version 3 that breaks no rule, some of whose overlaps trail or are arrows."""
    while True:
        is_quad = rng.random() < 0.7
        plan = quick_quad(reference) if is_quad else brisk(reference.even.hexa(rng))
        if is_quad:
            with_preempts(rng, plan)
            plan["phaseWalk"] = {str(p): rng.choice([0, 1, 2]) for p in range(1, 9)}
            plan["phasePedestrianClear"] = {str(p): rng.choice([0, 1, 3]) for p in range(1, 9)}
            plan["pedestrianDetectorCallPhase"] = {str(d): d for d in range(1, 9) if plan["phaseWalk"][str(d)]}
            if rng.random() < 0.3:
                partly(rng, plan)
        plan["version"] = 3
        enabled = [int(p) for p, it in plan["phaseEnabled"].items() if it]
        plan["phaseYellowChange"] = {str(p): rng.choice([30, 30, 31, 40]) for p in enabled}
        plan["preemptChoosesAnew"] = {str(n): int(rng.random() < 0.3) for n in range(1, 5)}
        walkers = [p for p in enabled if plan["phaseWalk"].get(str(p))]
        plan["phasePedestrianRecycle"] = {str(p): rng.randint(0, 1) for p in walkers}
        for number in rng.sample(range(1, count + 1), rng.randint(1, min(count, 6))):
            an_overlap(rng, plan, number)
        if rng.random() < 0.4:
            plan["channelControlType"] = {str(c): rng.randint(0, 4) for c in range(1, 17)}
            plan["channelControlSource"] = {str(c): rng.choice([0, *enabled, rng.randint(1, 16), rng.randint(1, count)])
                                            for c in range(1, 17)}
        if reference.accepts(plan):
            return json.loads(json.dumps(plan))


def an_edit(rng, plan, count):
    """An edit of an object of overlaps, or of a yellow."""
    overlap, phase = rng.randint(1, count), rng.randint(1, 16)
    return rng.choice([
        ("overlapArrowDelay", overlap, rng.choice([0, 3, 40, 255, 256])), ("overlapArrowPedestrian", overlap, rng.randint(0, 2)),
        ("overlapTrailYellow", overlap, rng.choice([0, 29, 30, 50])), ("overlapTrailRed", overlap, rng.choice([0, 7, 40])),
        ("overlapTrailGreen", overlap, rng.choice([0, 1, 4])), ("overlapType", overlap, rng.randint(0, 3)),
        ("overlapModifierPhases", overlap, listed([phase])), ("overlapIncludedPhases", overlap, listed([phase])),
        ("phaseYellowChange", phase, rng.choice([30, 36, 60])), ("phaseRedClear", phase, rng.choice([0, 30])),
        ("channelControlType", phase, rng.randint(0, 5)), ("channelControlSource", phase, rng.randint(0, 17)),
        ("actionArrowOmit", rng.randint(1, 33), rng.choice([0, 1, 65535, 65536])), ("phaseConcurrency", phase, 0)])


def a_lamp(rng, plan, count):
    """A lamp on the head of an overlap, mostly, with what follows."""
    number = rng.choice([rng.randint(1, count), rng.choice([int(o) for o in plan["overlapIncludedPhases"]])])
    head = rng.choice([f"O{number}", f"O{number}", f"P{rng.randint(1, 8)}", f"O{count + 1}"])
    return [f"fault {head} {rng.choice('GGYRP')}", "show", f"step {rng.randint(1, 30)}", rng.choice(["reset", "fault none"]),
            "show", "reset", "fault none"]


def a_change(rng, plan, count):
    """Something that happens while arrows flash and overlaps trail."""
    edits = [an_edit(rng, plan, count) for _ in range(rng.randint(1, 3))]
    return rng.choice([
        commit(rng.randint(1, 4), edits), commit(1, edits[:1]), ["undo", "undo"], [f"back {rng.randint(1, 40)}"],
        [f"pattern {rng.randint(0, 2)}"], a_lamp(rng, plan, count), [f"omit {rng.choice([0, 1, 3, 65535, 65536, 'x'])}"],
        ["omit 65535", f"step {rng.randint(1, 60)}", "undo", "show", "omit 0"],
        [f"preempt {rng.randint(1, 4)} on", f"step {rng.randint(1, 40)}"] + [f"preempt {n} off" for n in range(1, 5)]])


def arrows(reference, rng, count):
    """The plan, log and commands of a session."""
    plan = a_plan(reference, rng, count)
    found = [f"step {rng.randint(1, 60)}"]
    for _ in range(rng.randint(4, 10)):
        found += [f"step {rng.choice([1, 9, 30, 31, 60, 90])}"]
        if rng.random() < 0.6:
            found += a_change(rng, plan, count)
        found += rng.choice([["when stage"], [f"when interval {rng.randint(1, 8)}"], [f"step {rng.randint(1, 60)}"], ["show"], []])
    return plan, a_log(rng, 600), found + ["step 150", "when trip", "undo", "show"]


def scheduled(reference, rng, count):
    """A session with a schedule whose actions omit arrows."""
    while True:
        plan = a_plan(reference, rng, count)
        minute = rng.choice([0, 1, 390, 1439, rng.randrange(1440)])
        if len(plan.get("patternCycleTime", {})) < 2:
            continue
        a_schedule(rng, plan, minute)
        plan["actionArrowOmit"] = {str(action): rng.choice([0, 1, 3, 65535, rng.randrange(65536)]) for action in range(1, 5)}
        if reference.accepts(plan):
            break
    before = rng.randint(0, 300)
    found = [clock(rng.choice(DAYS), 600 * minute - before), *rng.choice([[], ["show"], ["omit 1"], ["undo", "show"]])]
    found += [f"step {before + rng.choice([-1, 0, 1, 2])}", "show"]
    found += rng.choice([["undo", "show", "step 3"], ["undo", "undo", "show"], ["omit 2", "step 2"], ["back 1", "step 2"],
                         [a_moment(rng), "step 2"], ["undo", "undo", "undo", "step 5"]])
    for _ in range(rng.choice([0, 1, 2])):
        edits = [("actionArrowOmit", rng.randint(1, 4), rng.choice([0, 2, 7, 65535])),
                 ("dayPlanActionNumber", rng.randint(1, 48), rng.randint(0, 4))]
        found += commit(rng.randint(1, 4), edits[:rng.randint(1, 2)]) + ["show", "step 3"] + a_change(rng, plan, count)
    return plan, a_log(rng, 600), found + [f"step {rng.randint(1, 700)}", "show", "undo", "undo", "show"]


def session(reference, seed, count):
    """The plan, log and commands of a seed, as bytes: from 1,000,000 on with schedules."""
    rng = random.Random(f"arrows {seed}")
    plan, log, commands = (scheduled if seed >= 1_000_000 else arrows)(reference, rng, count)
    return plan, log.encode(), "".join(command + "\n" for command in commands).encode()
