"""Families of sessions with the options of coordination: force modes, maximums, permissive times, lead and lag.

A family is given a source of random numbers, a plan with short cycles (option_plans.py), and the table of its pattern
1; it gives a log and commands. `options` makes the plan of a seed, gives the options values, and has the family of the
seed make the rest. The families of pedestrian recycle are in recycle_families.py, those in which counters come into
step in correction_families.py; option_kit.py has what all share.
"""
from tools.reference.correction_families import CORRECTIONS
from tools.reference.option_kit import (FORCE, LEAD, LIMIT, MAXIMUM, MODE, PERMISSIVE, RECALLS, RECYCLE, a_time,
                                        an_edit, busy, change, changed_within, chosen, edits, numbers, some, steps,
                                        tick_at, watched)
from tools.reference.option_plans import OMITTED, accepted, begins_at_an_instant, is_left_out
from tools.reference.recycle_families import RECYCLES, walks_of_both_rings
from tools.reference.session_families import commit, row


# --- families ---

def behind_instants(rng, plan, table):
    """A pattern that begins at any local counter, with cars on all phases, for a cycle."""
    found = rng.choice([[], [], [steps(rng, table, 0.1, 0.2)]]) + [f"pattern {rng.randint(1, 2)}"]
    found += [steps(rng, table, 0.4, 0.8), watched(rng, plan), watched(rng, plan)]
    return busy(rng, plan, 10 * table.cycle, rng.choice([0, 0, 2])), found + [steps(rng, table, 0.1, 0.3)]


def at_an_instant(rng, plan, table):
    """A green that begins just before, at or just behind its instant, or that of the coordinated phase of its ring."""
    found = ["pattern 1", steps(rng, table, 0.5, 0.7), watched(rng, plan), rng.choice(["back 40", "undo", "show"])]
    return busy(rng, plan, 10 * table.cycle, 0), found + [steps(rng, table, 0.2)]


def longer_than_splits(rng, plan, table):
    """Pedestrian times that are longer than splits, by button, recall or both."""
    walking = next(iter(plan["phaseWalk"]))
    plan["phaseWalk"][walking], plan["phasePedestrianClear"][walking] = rng.randint(2, 6), rng.choice([4, 7, 9])
    if rng.random() < 0.5:
        plan["phasePedRecall"] = {walking: 1}
    if rng.random() < 0.3:
        plan["phaseRestInWalk"] = {walking: 1}
    found = ["pattern 1", steps(rng, table, 0.5, 0.8), f"when ped {walking}", watched(rng, plan)]
    return busy(rng, plan, 10 * table.cycle, 1), found + [steps(rng, table, 0.2, 0.4)]


def preempts_over_instants(rng, plan, table):
    """Preempts in service over instants, and what is forced off behind them."""
    number = str(rng.randint(1, 2))
    if rng.random() < 0.3:
        plan["preemptExitPhase"] = {number: plan["preemptDwellPhase"][number]}
    plan["preemptMinimumDuration"] = {number: rng.randint(1, 4)}
    found = [f"pattern {rng.randint(1, 2)}", steps(rng, table, 0.1, 0.3), f"preempt {number} on"]
    found += [steps(rng, table, 0.1, 0.3), f"preempt {number} off", "when stage", steps(rng, table, 0.4, 0.7)]
    return busy(rng, plan, 10 * table.cycle, rng.choice([0, 0, 1])), found + ["when stage", watched(rng, plan)]


def changed_in_a_run(rng, plan, table):
    """Options changed in a run: the commit is taken back at once or ticks later, and made again or not."""
    found, station = ["pattern 1", steps(rng, table, 0.2, 0.4)], rng.randint(1, 4)
    again, no_more = f"commit {station}", f"abort {station}"
    backs = [[], [], ["undo", "show", no_more], ["step 2", "undo", "undo", "undo", again], ["undo", "step 2", again],
             ["step 9", "back 6", "undo", "undo", "step 1"]]
    for _ in range(rng.randint(1, 2)):
        made = edits(rng, plan)
        if rng.random() < 0.3:
            made.append(("phasePassage", rng.choice(numbers(plan, "phaseEnabled")), rng.choice([0, 10, 30])))
        found += commit(station, made)[:-1] + rng.choice(backs) + [no_more] * (rng.random() < 0.2)
        found.append(steps(rng, table, 0.1, 0.4))
    if rng.random() < 0.3:
        found += [*["undo"] * rng.randint(2, 9), "show"]
    return busy(rng, plan, 10 * table.cycle, rng.choice([0, 0, 2])), found + [watched(rng, plan)]


def taken_off(rng, plan, table):
    """Force-offs in force when an option, a cycle or the pattern is taken off, and greens that wait to end."""
    walking = next(iter(plan["phaseWalk"]))
    plan["phaseWalk"][walking], plan["phasePedRecall"] = 4, {walking: 1}
    found, cycle = ["pattern 1", steps(rng, table, 0.1, 0.2, 0.4)], ("patternCycleTime", 1)
    stops = [change(rng, [(FORCE, 1, rng.choice([0, 0, 1]))]), change(rng, [(PERMISSIVE, 1, 0)]),
             change(rng, [(FORCE, 1, 0), (MAXIMUM, 1, 0)]), ["pattern 1"], ["pattern 2"],
             ["pattern 0", "step 2", "pattern 1"],
             commit(1, [(*cycle, 0)])[:-1] + ["step 3"] + commit(1, [(*cycle, table.cycle)])[:-1]]
    for _ in range(rng.randint(1, 2)):
        found += rng.choice(stops) + [steps(rng, table, 0.1, 0.2, 0.3)]
    return busy(rng, plan, 10 * table.cycle, rng.choice([0, 1])), found + [watched(rng, plan), "show"]


def other_patterns(rng, plan, table):
    """Changes between patterns with other offsets, sequences and coordinated phases, by way of none or not."""
    found = []
    for _ in range(rng.randint(2, 4)):
        found += [f"pattern {rng.choice([1, 2, 1, 2, 0])}", steps(rng, table, 0.2, 0.3, 0.4)]
        found += rng.choice([[], [], [watched(rng, plan)], ["back 5", "step 7"], ["undo", "show"]])
    return busy(rng, plan, 10 * table.cycle, rng.choice([0, 1, 2])), found


def left_out(rng, plan, table):
    """A phase that the pattern omits is green by a preempt: it is forced off behind that, or at its instant alone."""
    found = ["preempt 1 on", f"step {rng.randint(20, 50)}", "pattern 1", "preempt 1 off"]
    found += [steps(rng, table, 0.4, 0.7, 0.9), watched(rng, plan), watched(rng, plan)]
    return busy(rng, plan, 10 * table.cycle, rng.choice([0, 0, 1])), found + [steps(rng, table, 0.1)]


def calls_behind(rng, plan, table):
    """Calls that come and go, so that greens begin behind their instants, or end by their gaps."""
    plan["phaseNonLock"] = {p: 1 for p in plan["phaseEnabled"] if rng.random() < 0.7}
    found = ["pattern 1", steps(rng, table, 0.4, 0.6), watched(rng, plan)]
    found += rng.choice([[], change(rng, [(FORCE, 1, rng.choice([1, 2]))])]) + [steps(rng, table, 0.3, 0.5)]
    return busy(rng, plan, 10 * table.cycle, rng.randint(3, 5)), found + [watched(rng, plan)]


def by_the_length(rng, plan, table):
    """Greens that begin before their splits do, as phases before them are left out, and are held by cars."""
    plan[FORCE] = {"1": rng.choice([1, 2, 2, 2, 2, 2])}
    for name in (MAXIMUM, *RECALLS) if rng.random() < 0.7 else ():
        plan.pop(name, None)
    plan["phasePassage"] = dict.fromkeys(plan["phasePassage"], rng.choice([20, 255]))
    found = rng.choice([[], [steps(rng, table, 0.2)]]) + ["pattern 1", steps(rng, table, 0.9, 1.3), watched(rng, plan)]
    return some(rng, plan, table), found + [steps(rng, table, 0.1, 0.3)]


def yields(rng, plan, table, behinds):
    """Calls so many ticks behind instants of coordinated phases, which have nothing else to yield to."""
    for name in (*RECALLS, "phaseNonLock"):
        plan.pop(name, None)
    detectors = {phase: detector for detector, phase in plan["vehicleDetectorCallPhase"].items()}
    others = [p for p in table.found.phases if p not in table.held and plan["splitMode"].get(str(p)) != OMITTED]
    ticks = {}
    for behind in behinds:
        wanted = table.instant(rng.choice(table.held)) + behind
        if not ticks:
            plan["patternOffsetTime"]["1"] = (rng.randint(30, 90) - wanted) // 10 % table.cycle
        ticks[tick_at(plan, table, wanted)] = int(detectors[rng.choice(others or table.found.phases)])
    rows = {tick + 1: [] for tick in ticks} | {tick: [detector] for tick, detector in ticks.items()}
    log = "".join(row(tick, on) for tick, on in sorted(rows.items()))
    found = ["pattern 1", f"step {max(ticks) - rng.randint(1, 25)}"]
    found += change(rng, [an_edit(rng, plan, 1)]) if rng.random() < 0.15 else []
    return log, found + [f"step {rng.randint(60, 120)}", watched(rng, plan), steps(rng, table, 0.1, 0.5)]


def in_a_permissive_time(rng, plan, table):
    """Calls before, within, at the end of and just after a permissive time."""
    time = a_time(rng, table.cycle, table.clearance(table.held[0]))
    plan[PERMISSIVE] = {"1": time}
    end = 10 * time
    behinds = [end - 1, end, end, end + 1, end + 1, rng.randint(0, end), rng.randint(0, end), -1, 0, 1, end + 12]
    return yields(rng, plan, table, rng.sample(behinds, rng.choice([1, 1, 2])))


def lead_and_lag(rng, plan, table):
    """Coordinated phases whose splits end apart: calls about the instants of each, or cars throughout."""
    if rng.random() < 0.5:
        end = 10 * plan[PERMISSIVE].get("1", 0) if PERMISSIVE in plan else 0
        return yields(rng, plan, table, rng.sample([-1, 0, 0, 1, end, end + 1, rng.randint(0, end)], 2))
    found = [f"pattern {rng.choice([1, 1, 2])}", steps(rng, table, 0.5, 1.0), watched(rng, plan)]
    log = some(rng, plan, table) if rng.random() < 0.5 else busy(rng, plan, 10 * table.cycle, rng.choice([0, 1, 2]))
    return log, found + [steps(rng, table, 0.2, 0.4)]


def maximums_in_patterns(rng, plan, table):
    """Maximums in a pattern, shorter and longer than splits, with cars throughout."""
    plan[MAXIMUM] = {"1": rng.choice([0, 1, 1, 2, 2])}
    plan["phasePassage"] = dict.fromkeys(plan["phasePassage"], 255)
    for name in ("phaseMaximum1", "phaseMaximum2"):
        least = plan["phaseMinimumGreen"]
        plan[name] = {p: max(least.get(p, 0), rng.choice([0, 1, 2, 3, 4, 6, 12])) for p in plan["phaseEnabled"]}
    if rng.random() < 0.3:
        plan["unitMax2"] = {"1": 1}
    found = rng.choice([[], [steps(rng, table, 0.2)]]) + [f"pattern {rng.randint(1, 2)}", steps(rng, table, 0.5, 0.9)]
    log = some(rng, plan, table) if rng.random() < 0.4 else busy(rng, plan, 10 * table.cycle, rng.choice([0, 1, 2]))
    return log, found + [watched(rng, plan), steps(rng, table, 0.2, 0.3)]


def maximums_between(rng, plan, table):
    """Dynamic maximums that move in free operation, a pattern with or without maximums, and free operation again."""
    plan[MAXIMUM] = {"1": rng.randint(0, 2)}
    plan["phasePassage"] = dict.fromkeys(plan["phasePassage"], rng.choice([10, 255]))
    for name in ("phaseMaximum1", "phaseMaximum2"):
        least = plan["phaseMinimumGreen"]
        plan[name] = {p: least.get(p, 0) + rng.choice([0, 1, 2]) for p in plan["phaseEnabled"]}
    plan["phaseDynamicMaxLimit"] = {p: plan["phaseMaximum1"][p] + rng.choice([2, 6]) for p in plan["phaseEnabled"]}
    plan["phaseDynamicMaxStep"] = dict.fromkeys(plan["phaseEnabled"], rng.choice([5, 10, 30]))
    if rng.random() < 0.3:
        plan["unitMax2"] = {"1": 1}
    found = [steps(rng, table, 0.8, 1.2), "pattern 1", steps(rng, table, 0.4, 0.8), watched(rng, plan), "pattern 0"]
    return busy(rng, plan, 10 * table.cycle, rng.choice([0, 1])), found + [steps(rng, table, 0.6, 1.0)]


REFUSED = [(FORCE, 2, 0), (FORCE, 0, 1), (FORCE, 1, 3), (FORCE, 1, 4294967295), (MAXIMUM, 1, 3), (MAXIMUM, 2, 1),
           (PERMISSIVE, 17, 1), (PERMISSIVE, 0, 1), (PERMISSIVE, 1, 256), (LEAD, 1, 2), (LEAD, 17, 0),
           (RECYCLE, 17, 1), (RECYCLE, 0, 0), (RECYCLE, 16, 2), (MODE, 1, 4), (MODE, 2, 0), (LIMIT, 1, 51),
           (LIMIT, 0, 50)]


def breaking(rng, plan, table):
    """An edit of an option that breaks a rule, or is just within it: of permissive times, and of lead and lag."""
    if table.has_apart() and rng.random() < 0.6:
        return LEAD, 1, 0
    return PERMISSIVE, 1, rng.choice([table.cycle, table.cycle, table.cycle + 1, 255, table.cycle - 1])


def refused_edits(rng, plan, table):
    """Edits of options that are refused, break a rule or change nothing, and some that are verified alone."""
    station = rng.randint(1, 4)
    found = ["pattern 1", steps(rng, table, 0.2), f"begin {station}"]
    found += [f"set {station} {name} {index} {value}" for name, index, value in rng.sample(REFUSED, 2)]
    made = [breaking(rng, plan, table)] if rng.random() < 0.7 else edits(rng, plan)
    found += [f"set {station} {name} {index} {value}" for name, index, value in made]
    ends = [[f"commit {station}"], [f"abort {station}"], [f"verify {station}", f"abort {station}"],
            [f"verify {station}", f"commit {station}"], [f"verify {station}", f"commit {station}"]]
    found += [*rng.choice(ends), *["undo"] * rng.choice([0, 0, 1, 3])]
    if rng.random() < 0.5:
        found += [f"set {station} {name} {index} 1" for name, index, _ in made]
        found += [f"verify {station}", f"commit {station}"]
    found += [steps(rng, table, 0.3, 0.5), *["undo"] * rng.randint(0, 3), "show"]
    return busy(rng, plan, 10 * table.cycle, 1), found


def broken_plans(rng, plan, table):
    """Plans that break a rule about coordinated phases or permissive times, or just keep it."""
    held, places = str(rng.choice(table.held)), {str(p): 1 for p in table.found.phases}
    number = str(rng.randint(1, 2))
    kind = rng.choice(["time", "time", "unused", "lead", "two", "none", "omitted"])
    if kind == "time":
        plan[PERMISSIVE] = {number: plan["patternCycleTime"][number] + rng.choice([0, 0, 1, -1])}
    elif kind == "unused":
        plan[PERMISSIVE] = {"3": 255, number: 0}
    elif kind == "lead":
        plan[LEAD] = {number: 0}
    elif kind == "two":
        plan["splitCoordPhase"] = places
    elif kind == "none":
        plan["splitCoordPhase"].pop(held)
    else:
        plan["splitMode"][held] = OMITTED
    if kind != "time" and rng.random() < 0.3:
        plan[PERMISSIVE] = {number: 255}
    found = ["pattern 1", steps(rng, table, 0.1), *change(rng, edits(rng, plan)), steps(rng, table, 0.1)]
    return busy(rng, plan, 10 * table.cycle, 0), found


FAMILIES = [behind_instants, longer_than_splits, in_a_permissive_time, by_the_length, preempts_over_instants,
            lead_and_lag, changed_in_a_run, by_the_length, taken_off, maximums_in_patterns, other_patterns,
            in_a_permissive_time, left_out, by_the_length, calls_behind, lead_and_lag, at_an_instant, maximums_between,
            by_the_length, in_a_permissive_time, refused_edits, broken_plans, *RECYCLES, *CORRECTIONS]
AIMS = {left_out: is_left_out, at_an_instant: begins_at_an_instant}


def family_of(seed):
    """The family of a seed."""
    return FAMILIES[seed // 3 % len(FAMILIES)]


def options(reference, rng, seed):
    """The plan, log and commands of a seed: of three seeds, each begins with another force mode, or its family's."""
    family = family_of(seed)
    share = 0.4 if family in (refused_edits, broken_plans) else 0.25
    apart = family in (lead_and_lag, walks_of_both_rings) or rng.random() < share
    plan, table = accepted(reference, rng, AIMS.get(family), apart)
    plan.update(chosen(rng, seed, plan))
    log, commands = family(rng, plan, table)
    is_aimed = family in (*RECYCLES, *CORRECTIONS)
    if rng.random() < (0.1 if is_aimed else 0.3) and family is not in_a_permissive_time:
        commands = changed_within(rng, commands, edits(rng, plan))
    return plan, log, commands
