"""Families of sessions in which local counters come into step: one pattern is selected while another one runs.

A family is given what those of option_families.py are. Counters, instants and how far a counter is ahead are counted in
ticks. What is aimed at is found here by the plan alone, where both patterns have one table of splits (`alike`).
"""
from tools.reference.option_kit import (ADD_ONLY, AT_ONCE, DWELL, FORCE, LIMIT, MODE, PERMISSIVE, RECALLS, RECYCLE,
                                        SHORT_WAY, a_limit, a_time, an_edit, busy, change, numbers, some, steps,
                                        watched)
from tools.reference.recycle_families import VEHICLE, both_of, cars, last_of, log_of, of_others, press, walker
from tools.reference.session_families import commit

OFFSET, CYCLE = "patternOffsetTime", "patternCycleTime"
MODES = [AT_ONCE, DWELL, DWELL, SHORT_WAY, SHORT_WAY, SHORT_WAY, ADD_ONLY, ADD_ONLY]


# --- plans ---

def by(rng, plan, mode=None, limit=None):
    """Gives a plan a mode and a limit: the limit."""
    limit = a_limit(rng) if limit is None else limit
    plan[MODE], plan[LIMIT] = {"1": rng.choice(MODES) if mode is None else mode}, {"1": limit}
    return limit


def alike(plan):
    """Gives pattern 2 all of pattern 1 but the offset."""
    for name in (CYCLE, "patternSplitNumber", "patternSequenceNumber", PERMISSIVE):
        if name in plan and "1" in plan[name]:
            plan[name]["2"] = plan[name]["1"]


def ahead_by(plan, table, seconds):
    """Has a counter be so many seconds ahead where pattern 2 is selected in pattern 1, which is alike."""
    plan[OFFSET]["2"] = (plan[OFFSET]["1"] + seconds) % table.cycle


def some_seconds(rng, table):
    """How far a counter can be ahead, in seconds: a little, about half a cycle, or nearly a cycle."""
    half = table.cycle // 2
    found = [1, 2, 3, half - 1, half, half, half + 1, table.cycle - 1, table.cycle - 2, rng.randrange(table.cycle)]
    return rng.choice(found) % table.cycle


def tick_of(plan, table, local, least):
    """The first tick from the least one on at which the counter of pattern 1 is this, in step."""
    return least + (local + 10 * plan[OFFSET]["1"] - least) % (10 * table.cycle)


# --- how a counter moves ---

def lost(ticks, limit):
    """How many ticks a counter has lost that goes slower."""
    return ticks * limit // (100 + limit)


def gained(ticks, limit):
    """How many ticks a counter has gained that goes faster."""
    return ticks * limit // (100 - limit)


def ticks_until(moved, limit, least):
    """Behind how many ticks a counter has moved by at least so many ticks."""
    return next(ticks for ticks in range(100_000) if moved(ticks, limit) >= least)


# --- families ---

def in_a_pattern(rng, table):
    """Commands that run pattern 1 or 2 for a while, now and then from free operation on."""
    begun = rng.choice([[], [], [f"step {rng.randint(1, 40)}"]])
    return [*begun, f"pattern {rng.choice([1, 1, 2])}", f"step {rng.randint(1, 12 * table.cycle)}"]


def one_behind_another(rng, plan, table):
    """A pattern that is selected in another one at any tick, with cars throughout, and that one again."""
    by(rng, plan)
    if rng.random() < 0.6:
        alike(plan)
        ahead_by(plan, table, some_seconds(rng, table))
    first = rng.choice([1, 1, 2])
    found = [f"pattern {first}", f"step {rng.randint(1, 8 * table.cycle)}", f"pattern {3 - first}"]
    found += ["show"] * rng.randint(0, 1) + [steps(rng, table, 0.6, 1.0), watched(rng, plan)]
    if rng.random() < 0.5:
        found += [f"pattern {first}", steps(rng, table, 0.3, 0.6)]
    return busy(rng, plan, 10 * table.cycle, rng.choice([0, 0, 2])), found


def one_behind_many(rng, plan, table):
    """Patterns that are selected one behind another, the same again, and free operation in between."""
    by(rng, plan)
    if rng.random() < 0.5:
        alike(plan)
        ahead_by(plan, table, some_seconds(rng, table))
    found, number = in_a_pattern(rng, table), rng.randint(1, 2)
    for _ in range(rng.randint(3, 6)):
        number = rng.choice([number, number, 3 - number, 3 - number, 3 - number, 0]) if number else rng.randint(1, 2)
        found += [f"pattern {number}", *rng.choice([[], ["show"], [f"pattern {rng.randint(0, 2)}"]])]
        found += [f"step {rng.choice([1, 2, rng.randint(3, 90)])}"]
        found += rng.choice([[], [], ["back 2", "step 3"], ["undo", "show"]])
    return busy(rng, plan, 10 * table.cycle, rng.choice([0, 1])), found + [steps(rng, table, 0.2, 0.5)]


def about_half_a_cycle(rng, plan, table):
    """The short way from half a cycle, or a tick more or less: at once, or where that is left of a longer way."""
    limit = by(rng, plan, SHORT_WAY, rng.choice([1, 17, 50, 50, rng.randint(2, 50)]))
    alike(plan)
    half, more, begun = 5 * table.cycle, rng.randint(1, 3), rng.randint(1, 60)
    if table.cycle % 2 == 0 and rng.random() < 0.4:
        ahead_by(plan, table, half // 10)
        found = ["pattern 1", f"step {begun}", "pattern 2"]
    else:
        ahead_by(plan, table, -(-half // 10) + more)
        left = 10 * (-(-half // 10) + more) - half + rng.choice([-1, 0, 0, 1])
        plan[MODE], plan[LIMIT] = {"1": ADD_ONLY}, {"1": 50}
        found = ["pattern 1", f"step {begun}", "pattern 2", f"step {ticks_until(lost, 50, left)}"]
        found += ["pattern 2", *commit(1, [(MODE, 1, SHORT_WAY), (LIMIT, 1, limit)])[:-1], "show"]
    log = busy(rng, plan, 10 * table.cycle, rng.choice([0, 1]))
    return log, found + [steps(rng, table, 0.4, 1.0), watched(rng, plan)]


def an_edge(rng, plan, table):
    """A local counter at which force-offs of some phase begin or end: its instant, or the end of a permissive time."""
    phase = rng.choice([*table.held, *table.held, *table.held, rng.choice(table.found.phases)])
    end = 10 * plan.get(PERMISSIVE, {}).get("2", 0) if phase in table.held else -1
    return table.instant(phase) + rng.choice([0, 0, 0, end])


def with_two_steps(rng, plan, table, aimed):
    """Has a counter go faster, with a tick whose first step of two is at this place: the ticks of the selection and of
    the two steps."""
    alike(plan)
    limit = by(rng, plan, SHORT_WAY, rng.choice([50, 50, 17, 33, rng.randint(10, 49)]))
    seconds = rng.randint(min(2, (table.cycle - 1) // 2), max(1, (table.cycle - 1) // 2))
    ahead_by(plan, table, -seconds)
    cycle, last = 10 * table.cycle, ticks_until(gained, limit, 10 * seconds)
    twice = [ticks for ticks in range(1, last + 1) if gained(ticks, limit) > gained(ticks - 1, limit)]
    ticks = rng.choice(twice[-12:] if rng.random() < 0.5 else twice)
    begun = tick_of(plan, table, (aimed + 1 - ticks - gained(ticks, limit)) % cycle, rng.randint(1, 30))
    return begun, begun + ticks


def at_the_first_of_two_steps(rng, plan, table):
    """A counter that goes faster, whose first step of two in some tick is at an instant, or beside it."""
    plan["phasePassage"] = dict.fromkeys(plan["phaseEnabled"], 255)
    plan.pop("phaseNonLock", None)
    begun, tick = with_two_steps(rng, plan, table, an_edge(rng, plan, table) + rng.choice([0, 0, 0, 0, 1, -1]))
    found = ["pattern 1", f"step {begun}", "pattern 2", f"step {tick - begun + rng.randint(10, 40)}"]
    found += [watched(rng, plan), *rng.choice([[], ["back 20", "step 30"]])]
    return busy(rng, plan, 10 * table.cycle, rng.choice([0, 0, 0, 1])), found + [steps(rng, table, 0.1, 0.3)]


def calls_at_the_first_of_two_steps(rng, plan, table):
    """A call in a tick whose first step of two is the last of a permissive time, or beside it."""
    for name in (*RECALLS, "phaseNonLock"):
        plan.pop(name, None)
    time = rng.choice([0, 1, 2, a_time(rng, table.cycle)])
    plan[PERMISSIVE] = {"1": time, "2": time}
    aimed = table.instant(rng.choice(table.held)) + 10 * time + rng.choice([0, 0, 0, 1, -1])
    begun, tick = with_two_steps(rng, plan, table, aimed)
    detectors = of_others(plan, table) or numbers(plan, "vehicleDetectorCallPhase")
    came = tick + rng.choice([0, 0, 0, 0, -1, 1])
    found = ["pattern 1", f"step {begun}", "pattern 2", f"step {tick - begun + rng.randint(30, 60)}"]
    found.append(watched(rng, plan))
    return log_of([(VEHICLE, rng.choice(detectors), came, came + rng.choice([0, 30]))]), found


def at_the_waiting_place(rng, plan, table):
    """Dwell: a selection about the tick before the instant of the main street, and again in the wait or behind it."""
    alike(plan)
    limit = by(rng, plan, DWELL, rng.choice([0, 1, 2, 17, 50, 50]))
    ahead_by(plan, table, rng.choice([1, 2, 3, rng.randrange(table.cycle)]))
    cycle = 10 * table.cycle
    most = max(1, cycle * limit // 100) if limit else cycle
    place = (table.instant(table.held[0]) - 1) % cycle
    begun = tick_of(plan, table, (place + rng.choice([-15, -2, -1, 0, 0, 0, 1, 2, 9])) % cycle, rng.randint(1, 40))
    found = ["pattern 1", f"step {begun}", "pattern 2", f"step {min(most, cycle) + rng.choice([-1, 0, 1, 2, 20])}"]
    if rng.random() < 0.4:
        found += ["pattern 2", f"step {rng.randint(1, most + 10)}"]
    if rng.random() < 0.3:
        found += change(rng, [(LIMIT, 1, a_limit(rng))])
    found = [it for it in found if it != "step 0"]
    return busy(rng, plan, cycle, rng.choice([0, 0, 2])), found + [steps(rng, table, 0.9, 1.2), watched(rng, plan)]


def longer_cycles(plan, table, seconds):
    """Edits that make both patterns, which are alike, longer than at first by so many seconds, or as long again: the
    splits of the coordinated phases with them."""
    places = 16 * (plan["patternSplitNumber"]["1"] - 1)
    splits = [("splitTime", places + p, table.split[p] + seconds) for p in table.held]
    return [(CYCLE, number, table.cycle + seconds) for number in (1, 2)] + splits


def of_the_way(rng, plan, table):
    """Edits of what a counter that comes into step goes by."""
    number = rng.choice([1, 2, 2])
    held = str(table.held[0])
    return rng.choice([
        [(MODE, 1, rng.randint(AT_ONCE, ADD_ONLY))], [(LIMIT, 1, a_limit(rng))],
        [(MODE, 1, rng.randint(AT_ONCE, ADD_ONLY)), (LIMIT, 1, a_limit(rng))],
        [(OFFSET, number, rng.randrange(table.cycle))], longer_cycles(plan, table, rng.choice([0, 0, 1, 2, 5, 10])),
        [*longer_cycles(plan, table, rng.choice([1, 3, 6])), (OFFSET, 2, rng.randrange(table.cycle))],
        [("phaseYellowChange", held, rng.choice([30, 41, 55])), ("phaseRedClear", held, rng.choice([0, 3]))]])


def changed_on_the_way(rng, plan, table):
    """Commits of offsets, cycles, modes and limits where a counter comes into step, taken back or not."""
    by(rng, plan, rng.choice([*MODES[1:], *MODES[1:], AT_ONCE]), rng.choice([0, 17, 50, 50, a_limit(rng)]))
    alike(plan)
    ahead_by(plan, table, some_seconds(rng, table))
    begun = commit(1, longer_cycles(plan, table, rng.choice([1, 5, 10, 20])))[:-1] if rng.random() < 0.4 else []
    found = [*begun, "pattern 1", f"step {rng.randint(1, 60)}", "pattern 2"]
    found.append(f"step {rng.choice([1, rng.randint(2, 90)])}")
    if rng.random() < 0.2:
        found.remove("pattern 2")
    for _ in range(rng.randint(1, 3)):
        made = {edit[:2]: edit for edit in of_the_way(rng, plan, table)}
        found += [*commit(1, list(made.values())), "show"]
        found += rng.choice([[], [], [], ["pattern 2"], ["pattern 1"], ["undo", "undo", "show", "abort 1"]])
        found += [f"step {rng.choice([1, 3, rng.randint(4, 90)])}"]
    log = busy(rng, plan, 10 * table.cycle, rng.choice([0, 0, 1]))
    return log, found + [steps(rng, table, 0.2, 0.4), watched(rng, plan)]


def stopped_on_the_way(rng, plan, table):
    """Cycles of 0 by a commit where a counter comes into step, and given back; other patterns meanwhile."""
    by(rng, plan, rng.choice(MODES[1:]))
    alike(plan)
    ahead_by(plan, table, some_seconds(rng, table))
    found = ["pattern 1", f"step {rng.randint(1, 50)}", "pattern 2", f"step {rng.randint(1, 60)}"]
    found += [*change(rng, [(CYCLE, 2, 0)]), f"step {rng.randint(1, 30)}", "abort 1"]
    found += rng.choice([[], [], ["pattern 2"], ["pattern 1", "show", f"step {rng.randint(1, 30)}"]])
    found += [*commit(2, [(CYCLE, 2, table.cycle)])[:-1], "show", f"step {rng.randint(1, 60)}"]
    found += rng.choice([[], ["pattern 2", "show"], ["pattern 1", "show"]])
    return busy(rng, plan, 10 * table.cycle, 0), found + [steps(rng, table, 0.3, 0.6), watched(rng, plan)]


def tripped_on_the_way(rng, plan, table):
    """Trips where a counter comes into step: it goes on, patterns are selected, and a reset ends it."""
    by(rng, plan, rng.choice(MODES[1:]), rng.choice([0, 17, 50, 50]))
    if rng.random() < 0.6:
        alike(plan)
        ahead_by(plan, table, some_seconds(rng, table))
    lit = rng.sample(table.found.phases, min(2, len(table.found.phases)))
    found = ["pattern 1", f"step {rng.randint(5, 50)}", "pattern 2", f"step {rng.randint(1, 60)}"]
    found += [f"fault P{phase} G" for phase in lit] + ["when trip", f"step {rng.randint(1, 40)}"]
    found += rng.choice([[], ["pattern 1", f"step {rng.randint(1, 30)}"], ["pattern 2", f"step {rng.randint(1, 30)}"],
                         change(rng, [(MODE, 1, rng.randint(AT_ONCE, ADD_ONLY))]) + ["step 9"]])
    found += ["reset", f"pattern {rng.randint(1, 2)}", "show", f"step {rng.randint(1, 50)}"]
    found.append(f"pattern {rng.randint(1, 2)}")
    return busy(rng, plan, 10 * table.cycle, rng.choice([0, 1])), found + [steps(rng, table, 0.2, 0.5)]


def preempts_on_the_way(rng, plan, table):
    """Preempts in service where a counter comes into step, or where the pattern is selected."""
    by(rng, plan, rng.choice(MODES[1:]))
    if rng.random() < 0.6:
        alike(plan)
        ahead_by(plan, table, some_seconds(rng, table))
    number = str(rng.randint(1, 2))
    plan["preemptMinimumDuration"] = {number: rng.randint(0, 4)}
    parts = [[f"preempt {number} on"], [f"preempt {number} off"], ["pattern 2"], rng.choice([["pattern 1"], []])]
    order = rng.choice([(0, 2, 1, 3), (2, 0, 1, 3), (2, 0, 3, 1), (0, 1, 2, 3)])
    found = ["pattern 1", f"step {rng.randint(5, 60)}"]
    for place in order:
        found += parts[place] + [f"step {rng.randint(5, 70)}"]
    return busy(rng, plan, 10 * table.cycle, rng.choice([0, 1, 2])), found + [steps(rng, table, 0.3, 0.6), "when stage"]


def walks_on_the_way(rng, plan, table):
    """Buttons about the tick in which a counter is in step: no walk in a green begins before it was so for a tick."""
    phase = walker(rng, plan, table)
    alike(plan)
    mode = rng.choice([SHORT_WAY, SHORT_WAY, ADD_ONLY, ADD_ONLY, DWELL])
    limit, slower = by(rng, plan, mode, rng.choice([17, 50, 50, 33])), mode == ADD_ONLY or rng.random() < 0.5
    seconds = rng.choice([1, 1, 2, 3])
    way = ticks_until(lost if slower else gained, limit, 10 * seconds)
    aimed = 30 + way + rng.randint(0, 40)
    plan[OFFSET]["2"] = (aimed - last_of(plan, table, phase) + rng.randint(0, 60)) // 10 % table.cycle
    plan[OFFSET]["1"] = (plan[OFFSET]["2"] + (-seconds if slower else seconds)) % table.cycle
    pressed = aimed + rng.choice([-5, -1, 0, 0, 1, rng.randint(-way, 10)])
    spans = [press(rng, max(2, pressed)), press(rng, max(2, aimed - rng.randint(0, 30)))]
    spans += rng.choice([[], cars(rng, plan, table, aimed)])
    found = [rng.choice(["pattern 1", "pattern 1", "pattern 1", "pattern 0"]), f"step {aimed - way}", "pattern 2"]
    if rng.random() < 0.3:
        before = rng.randint(1, way)
        found += [f"step {before}", *change(rng, [(MODE, 1, rng.randint(AT_ONCE, ADD_ONLY))]), "show"]
        way -= before
    found += [f"step {way + both_of(plan, phase) + rng.randint(5, 40)}", f"when ped {phase}"]
    return log_of(spans), found + [steps(rng, table, 0.1, 0.3), watched(rng, plan)]


def force_modes_on_the_way(rng, plan, table):
    """Late and floating force-off and permissive times where a counter comes into step, and calls that come and go."""
    by(rng, plan, rng.choice(MODES[1:]), rng.choice([17, 50, 50, 33, 0, 1]))
    alike(plan)
    ahead_by(plan, table, some_seconds(rng, table))
    plan[FORCE] = {"1": rng.choice([0, 1, 1, 2])}
    time = rng.choice([0, 1, 2, a_time(rng, table.cycle)])
    plan[PERMISSIVE] = {"1": time, "2": time}
    plan["phaseNonLock"] = {p: 1 for p in plan["phaseEnabled"] if rng.random() < 0.7}
    if rng.random() < 0.3:
        plan[RECYCLE] = dict.fromkeys(map(str, numbers(plan, "phaseWalk")), 1)
    found = ["pattern 1", f"step {rng.randint(1, 10 * table.cycle)}", "pattern 2", steps(rng, table, 0.4, 0.8)]
    found += change(rng, [an_edit(rng, plan, 2)]) if rng.random() < 0.2 else []
    log = busy(rng, plan, 20 * table.cycle, rng.randint(3, 9)) if rng.random() < 0.6 else some(rng, plan, table)
    return log, found + [watched(rng, plan), steps(rng, table, 0.3, 0.5)]


CORRECTIONS = [one_behind_another, at_the_first_of_two_steps, at_the_waiting_place, changed_on_the_way, one_behind_many,
               about_half_a_cycle, walks_on_the_way, force_modes_on_the_way, tripped_on_the_way, preempts_on_the_way,
               changed_on_the_way, stopped_on_the_way, at_the_first_of_two_steps, calls_at_the_first_of_two_steps]
