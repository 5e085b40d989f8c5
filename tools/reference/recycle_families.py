"""Families of sessions with pedestrian recycle: buttons at chosen ticks within the greens of coordinated phases.

A family is given what those of option_families.py are. Times of walks and instants are counted in ticks.
"""
from tools.reference.option_kit import PERMISSIVE, RECALLS, RECYCLE, a_time, busy, change, numbers, steps, watched
from tools.reference.option_plans import OMITTED
from tools.reference.session_families import commit, row

VEHICLE, BUTTON, PREEMPT = range(3)  # the fields of a row
MINIMUM_RECALL, RECALL_SPLITS = "phaseMinRecall", (3, 4)
CUTS = "preemptMinimumGreen preemptMinimumWalk preemptEnterPedClear preemptMinimumDuration".split()


# --- plans ---

def walker(rng, plan, table):
    """Gives coordinated phases of pattern 1 walks, pedestrian recycle and buttons from 1 on, and nothing a recall: the
    phase of button 1."""
    for name in (*RECALLS, "phaseNonLock"):
        plan.pop(name, None)
    held = [str(phase) for phase in rng.sample(table.held, len(table.held))]
    plan["phaseWalk"] = {phase: rng.choice([1, 1, 2, 3]) for phase in held}
    plan["phasePedestrianClear"] = {phase: rng.choice([0, 1, 1, 2, 4]) for phase in held}
    plan["pedestrianDetectorCallPhase"] = {str(button): int(phase) for button, phase in enumerate(held, 1)}
    plan[RECYCLE] = dict.fromkeys(held, 1)
    if rng.random() < 0.15:
        plan["phaseRestInWalk"] = dict.fromkeys(held, 1)
    return held[0]


def walk_of(plan, phase):
    """The walk of a phase."""
    return 10 * plan["phaseWalk"][phase]


def both_of(plan, phase):
    """The walk and the pedestrian clearance of a phase."""
    return walk_of(plan, phase) + 10 * plan["phasePedestrianClear"][phase]


def last_of(plan, table, phase):
    """The local counter of the last tick at which walk and clearance of a phase end by its instant."""
    return table.instant(int(phase)) - both_of(plan, phase)


def placed(plan, table, local, tick):
    """Has the local counter of pattern 1 be this at a tick, or less than a second before it: that tick."""
    plan["patternOffsetTime"]["1"] = (tick - local) // 10 % table.cycle
    return tick - (tick - local) % 10


def a_tick(rng, plan, table, local, least):
    """A tick about the least one or not long behind it, at which the local counter of pattern 1 is this."""
    return placed(plan, table, local, least + rng.randint(10, 50))


# --- logs ---

def log_of(spans):
    """A log in which inputs are on from a tick to another one: for each its field, its number and both ticks."""
    def on(field, tick):
        return {number for kind, number, first, last in spans if kind == field and first <= tick <= last}

    ticks = sorted({max(tick, 1) for _, _, first, last in spans for tick in (first, last + 1)})
    return "".join(row(tick, *(on(field, tick) for field in range(3))) for tick in ticks)


def press(rng, tick, button=1):
    """A button that is pressed at a tick, and mostly not longer."""
    return BUTTON, button, tick, tick + rng.choice([0, 0, 0, 0, 1, 12])


def of_others(plan, table):
    """The detectors of the phases that are neither coordinated nor omitted."""
    others = [p for p in table.found.phases if p not in table.held and plan["splitMode"].get(str(p)) != OMITTED]
    return [int(detector) for detector, phase in plan["vehicleDetectorCallPhase"].items() if phase in others]


def cars(rng, plan, table, *ticks):
    """A car of another phase at one of these ticks, or about it, and none now and then."""
    detectors = of_others(plan, table)
    if not detectors or rng.random() < 0.25:
        return []
    tick = max(2, rng.choice(ticks) + rng.choice([0, 0, 1, -1, rng.randint(-30, 30)]))
    return [(VEHICLE, rng.choice(detectors), tick, tick + rng.choice([0, 0, 20, 300]))]


def seen(rng, plan, phase, tick, ticks):
    """Commands that run pattern 1 up to about a tick, so many ticks on, and a part of the way back now and then."""
    found = ["pattern 1", f"step {max(1, tick - rng.randint(0, 8))}", f"when ped {phase}", f"step {ticks}"]
    found += rng.choice([[], [], [f"back {rng.randint(1, ticks)}", f"when ped {phase}", f"step {ticks}"],
                         ["undo", "undo", "step 3"]])
    return found + [f"when ped {phase}", watched(rng, plan)]


# --- families ---

def about_the_last_tick(rng, plan, table):
    """A button about the last tick at which walk and clearance end by the instant: in don't walk, or in the walk or the
    clearance before."""
    phase = walker(rng, plan, table)
    both, walk = both_of(plan, phase), walk_of(plan, phase)
    beside = rng.choice([-1, 0, 0, 0, 1, 1, 2, rng.randint(-30, 30)])
    aimed = a_tick(rng, plan, table, last_of(plan, table, phase) + beside, 10 + 2 * both)
    before = aimed - 1 - both
    spans = [press(rng, aimed)]
    if rng.random() < 0.5:
        spans = [(BUTTON, 1, before, before), press(rng, before + rng.choice([walk, rng.randint(1, both)]))]
    if rng.random() < 0.4:
        spans.append(press(rng, rng.choice([1, 2, 2, 3])))
    spans += cars(rng, plan, table, before, aimed, aimed + both)
    return log_of(spans), seen(rng, plan, phase, aimed, both + rng.randint(20, 60))


def walks_about_a_permissive_time(rng, plan, table):
    """A button before, in, at the end of and after a permissive time, mostly without a conflict."""
    phase = walker(rng, plan, table)
    time = rng.choice([0, 1, 2, a_time(rng, table.cycle, table.clearance(int(phase)))])
    plan[PERMISSIVE], end = {"1": time}, 10 * time
    behind = rng.choice([-1, 0, 0, 1, end, end, end + 1, end + 1, end + 2, rng.randint(0, end), end + 25])
    aimed = a_tick(rng, plan, table, table.instant(int(phase)) + behind, 20 + both_of(plan, phase))
    spans = [press(rng, aimed), *rng.choice([[], [], cars(rng, plan, table, aimed, aimed + both_of(plan, phase))])]
    if rng.random() < 0.3:
        spans.append(press(rng, rng.choice([1, 2, 3])))
    found = seen(rng, plan, phase, aimed, min(end, 90) + both_of(plan, phase) + rng.randint(10, 40))
    return log_of(spans), found


def walks_where_a_force_off_stands(rng, plan, table):
    """A button where a force-off stands, as the green's minimum has not passed or the walk of the other ring's phase
    holds both rings, and a conflict that goes or not."""
    phase = walker(rng, plan, table)
    stands = 10 * plan["phaseMinimumGreen"].get(phase, 0)
    if len(table.held) > 1:
        other = str(plan["pedestrianDetectorCallPhase"]["2"])
        plan["phaseWalk"][other], plan["phasePedestrianClear"][other] = rng.randint(2, 4), rng.randint(1, 5)
        plan[RECYCLE][other], stands = rng.randint(0, 1), both_of(plan, other)
    instant = placed(plan, table, table.instant(int(phase)), rng.randint(12, max(13, stands - 5)))
    gone = instant + rng.randint(2, 40)
    plan["phaseNonLock"] = dict.fromkeys(plan["phaseEnabled"], 1)
    pressed = instant + rng.choice([-1, 0, 1, rng.randint(2, 20), gone - instant, gone - instant + 1])
    spans = [(BUTTON, 2, 1, 1), press(rng, max(2, pressed))]
    spans += [(VEHICLE, detector, 2, rng.choice([gone, gone, 400])) for detector in of_others(plan, table)[:1]]
    return log_of(spans), seen(rng, plan, phase, instant, gone - instant + rng.randint(40, 120))


def walks_and_preempts(rng, plan, table):
    """A button while a preempt keeps the phase, of which service ends about the last tick for a walk, or a preempt that
    ends the phase where a walk begins or in it."""
    phase = walker(rng, plan, table)
    both = both_of(plan, phase)
    plan.update({name: {number: rng.choice([0, 0, 1, 2]) for number in "12"} for name in CUTS})
    plan["preemptDwellPhase"]["2"] = 1 << int(phase) - 1
    aimed = a_tick(rng, plan, table, last_of(plan, table, phase) + rng.choice([-1, 0, 0, 1, -25]), 30 + both)
    kept = [(PREEMPT, 2, aimed - rng.randint(20, 40), aimed - 1), press(rng, aimed - rng.randint(0, 20))]
    ended = [press(rng, aimed), (PREEMPT, 1, aimed + rng.choice([0, 0, 1, rng.randint(1, both)]), aimed + both)]
    spans = rng.choice([kept, ended]) + cars(rng, plan, table, aimed)
    return log_of(spans), seen(rng, plan, phase, aimed, both + rng.randint(40, 90)) + ["when stage"]


def walks_between_patterns(rng, plan, table):
    """Buttons in free operation and in patterns, which are selected at any tick, also in a walk."""
    phase = walker(rng, plan, table)
    plan[MINIMUM_RECALL] = {phase: 1}
    spans, tick, found = [press(rng, 1)] * rng.randint(0, 1), 10, []
    for _ in range(rng.randint(3, 5)):
        tick += rng.randint(5, 50)
        spans.append(press(rng, tick))
    spans += cars(rng, plan, table, *range(20, tick, 9))
    for number in [rng.choice([0, 1]), 1, *rng.choices([0, 1, 1, 2, 2], k=rng.randint(1, 3))]:
        found += [f"pattern {number}", f"step {rng.randint(10, 60)}"]
    return log_of(spans), found + [f"when ped {phase}", steps(rng, table, 0.2, 0.5), f"when ped {phase}"]


def of_a_walk(rng, plan, table, phase):
    """An edit of something that a walk is judged by."""
    both = both_of(plan, phase) // 10
    return rng.choice([
        (RECYCLE, phase, 0), (RECYCLE, phase, 1), ("phaseWalk", phase, rng.choice([1, 2, 5, table.cycle])),
        ("phasePedestrianClear", phase, rng.choice([0, 1, both, 6])),
        ("phaseYellowChange", phase, rng.choice([30, 41])),
        ("patternOffsetTime", 1, rng.randrange(table.cycle)), (PERMISSIVE, 1, rng.choice([0, 1, 3])),
        ("phaseRestInWalk", phase, 1), ("phasePedRecall", phase, rng.randint(0, 1)), ("patternCycleTime", 1, 0)])


def walks_changed_in_a_green(rng, plan, table):
    """What a walk is judged by, changed in a green: before, in and after a walk, taken back or not."""
    phase, first = walker(rng, plan, table), []
    if rng.random() < 0.4:
        plan[RECYCLE], first = {}, [(RECYCLE, phase, 1)]
    both = both_of(plan, phase)
    aimed = a_tick(rng, plan, table, last_of(plan, table, phase) - rng.randint(-5, both), 20 + both)
    spans = [press(rng, aimed), press(rng, aimed + rng.randint(1, both + 30)), *cars(rng, plan, table, aimed)]
    found = ["pattern 1", f"step {aimed + rng.choice([-1, -1, 0, rng.randint(1, both)])}"]
    for _ in range(rng.randint(1, 2)):
        made = first or [of_a_walk(rng, plan, table, phase) for _ in range(rng.choice([1, 1, 2]))]
        first = []
        found += commit(1, list({edit[:2]: edit for edit in made}.values()))
        found += rng.choice([[], [], ["undo", "undo", "show", "abort 1"]])
        found += [f"step {rng.randint(1, both + 20)}", f"when ped {phase}"]
    return log_of(spans), found + [f"step {both + 20}", f"when ped {phase}", watched(rng, plan)]


def walks_of_any_length(rng, plan, table):
    """Walks and clearances of about a cycle or a split, or longer, and buttons just behind an instant, or anywhere."""
    phase = walker(rng, plan, table)
    plan[PERMISSIVE] = {"1": rng.choice([0, 0, 1])}
    both = rng.choice([table.cycle - 1, table.cycle - 1, table.cycle, table.cycle + 3, table.split[int(phase)], 250])
    plan["phaseWalk"][phase] = rng.randint(1, max(1, both - 1))
    plan["phasePedestrianClear"][phase] = max(0, both - plan["phaseWalk"][phase])
    left = table.instant(int(phase)) + rng.choice([1, 9, 10, 10, 11, 11, 20, rng.randrange(10 * table.cycle)])
    aimed = a_tick(rng, plan, table, left, 10)
    spans = [press(rng, aimed), *rng.choice([[], cars(rng, plan, table, aimed, aimed + 10 * both)])]
    return log_of(spans), seen(rng, plan, phase, aimed, min(10 * both, 10 * table.cycle) + rng.randint(10, 30))


def walks_of_both_rings(rng, plan, table):
    """Buttons of the coordinated phases of both rings, about the last tick for a walk of each."""
    phase = walker(rng, plan, table)
    spans, aimed = [], a_tick(rng, plan, table, last_of(plan, table, phase) + rng.choice([0, 0, 1]), 40)
    for button, held in plan["pedestrianDetectorCallPhase"].items():
        behind = last_of(plan, table, str(held)) - last_of(plan, table, phase)
        tick = aimed + behind % (10 * table.cycle) + rng.choice([-1, 0, 0, 0, 1, 1, rng.randint(-20, 20)])
        spans += [press(rng, max(2, tick), int(button))]
        spans += [press(rng, 1, int(button))] * (rng.random() < 0.2)
    spans += cars(rng, plan, table, aimed, *(first for _, _, first, _ in spans))
    return log_of(spans), seen(rng, plan, phase, aimed, rng.randint(8, 12) * table.cycle)


def walks_by_recall(rng, plan, table):
    """Walks that begin again and again, by pedestrian recall of the phase or of its split, with and without cars."""
    phase = walker(rng, plan, table)
    if rng.random() < 0.5:
        plan["phasePedRecall"] = {phase: 1}
    else:
        plan["splitMode"][phase] = rng.choice(RECALL_SPLITS)
    found = [*rng.choice([[], [f"step {rng.randint(5, 30)}"]]), "pattern 1", steps(rng, table, 0.7, 1.0)]
    found += [f"when ped {phase}", *rng.choice([[], [], change(rng, [(RECYCLE, phase, 0)])])]
    found.append(steps(rng, table, 0.2, 0.5))
    return log_of(cars(rng, plan, table, *range(2, 10 * table.cycle, 7))), found + [f"when ped {phase}"]


def walks_of_all_phases(rng, plan, table):
    """Pedestrian recycle on all phases, coordinated or not, with cars and buttons throughout."""
    phases = sorted(plan["phaseEnabled"], key=int)
    plan["phaseWalk"] = {phase: rng.choice([1, 1, 2]) for phase in phases}
    plan["phasePedestrianClear"] = {phase: rng.choice([0, 0, 1, 2]) for phase in phases}
    plan["pedestrianDetectorCallPhase"] = {str(button): int(phase)
                                           for button, phase in enumerate(rng.sample(phases, min(8, len(phases))), 1)}
    plan[RECYCLE] = {phase: rng.choice([0, 1, 1, 1]) for phase in phases}
    found = [f"pattern {rng.choice([1, 1, 2])}", steps(rng, table, 0.5, 0.9)]
    found += [f"when ped {phase}" for phase in rng.sample(numbers(plan, "phaseWalk"), min(2, len(phases)))]
    return busy(rng, plan, 10 * table.cycle, rng.randint(3, 9)), found + [steps(rng, table, 0.3), watched(rng, plan)]


RECYCLES = [about_the_last_tick, walks_about_a_permissive_time, walks_where_a_force_off_stands, about_the_last_tick,
            walks_and_preempts, walks_between_patterns, walks_changed_in_a_green, walks_of_both_rings,
            walks_of_any_length, walks_by_recall, walks_of_all_phases, about_the_last_tick]
