"""Where a plan breaks the rules, read a second time: from chapter 4 of docs/use/MANUAL.md and the plan's JSON, and from
nothing of the crates.

`breaches(plan)` gives the lines that a review writes of a plan that is refused by a rule, and none of one that meets them
all. The plan is a plan text of version 3 as Python reads its JSON, with values in range.
"""
import itertools
from collections.abc import Iterator

from tools.programs.review_rules import (ACTIONS, BUTTONS, DAY_PLANS, DETECTORS, ENTRIES, EVENTS, FREE, OMITTED, OVERLAPS,
                                         PATTERNS, PHASES, PREEMPTS, Plan, Table, seconds)

RINGS = (1, 2)
SIDES = range(1, 5)
SEQUENCES = range(1, 5)
PLACES = range(16)
LISTS = ("Track", "Dwell", "Exit")
# The least yellow, in tenths of a second.
YELLOW = 30
# The type of an overlap that is a flashing yellow arrow.
ARROW = 2

# A rule, the way in which it is broken, and what a line says behind the rule.
Told = tuple[int, int, str]


def named(plan: Plan, name: str, index: int) -> list[int]:
    """The phases that a list has."""
    return [p for p in PHASES if plan.value(name, index) >> (p - 1) & 1]


def both_ways(plan: Plan, phase: int, other: int) -> bool:
    """Whether each of two phases is in the list of the other."""
    return plan.together(phase, other) and plan.together(other, phase)


def rings_and_sides(plan: Plan) -> Iterator[Told]:
    """Rules K1 to K3."""
    if not plan.enabled:
        yield 1, 0, "unit: no phase is enabled"
    for p in PHASES:
        ring, side, own = plan.phase("Ring", p), plan.phase("Side", p), plan.phase("Concurrency", p)
        if p in plan.enabled and ring not in RINGS:
            yield 2, 0, f"phase {p}: its ring is {ring}, not 1 or 2"
        if p in plan.enabled and side not in SIDES:
            yield 2, 1, f"phase {p}: its side is {side}, not 1 to 4"
        if p not in plan.enabled and own:
            yield 3, 0, f"phase {p}: it is not enabled, and its concurrency list is {own}"


def concurrency(plan: Plan) -> Iterator[Told]:
    """Rules K4 and K5."""
    for p in PHASES:
        side = plan.phase("Side", p)
        for q in named(plan, "phaseConcurrency", p):
            names = f"its concurrency list names phase {q}"
            if p in plan.enabled and q not in plan.enabled:
                yield 4, 0, f"phase {p}: {names}, which is not enabled"
            elif p in plan.enabled and plan.phase("Ring", p) == plan.phase("Ring", q):
                yield 4, 1, f"phase {p}: {names} of the same ring, {plan.phase('Ring', p)}"
            elif p in plan.enabled and side != plan.phase("Side", q):
                yield 4, 2, f"phase {p}: it is on side {side}, and {names} on side {plan.phase('Side', q)}"
            if not plan.together(q, p):
                yield 5, 0, f"phase {p}: {names}, whose list does not name phase {p}"


def places(plan: Plan, sequence: int, ring: int) -> list[int]:
    """What a sequence has for a ring, place by place."""
    return [plan.value("sequenceData", 32 * (sequence - 1) + 16 * (ring - 1) + k + 1) for k in PLACES]


def of_sequence(plan: Plan, sequence: int, ring: int) -> Iterator[tuple[int, str]]:
    """What is wrong with what a sequence has for a ring."""
    has = places(plan, sequence, ring)
    for k, p in enumerate(has):
        here, later = f"place {k + 1} has phase {p}", has[k + 1:]
        if p and p not in plan.enabled:
            yield 0, f"{here}, which is not enabled"
        elif p and plan.phase("Ring", p) != ring:
            yield 1, f"{here}, which is of ring {plan.phase('Ring', p)}"
        if p in later and p:
            yield 3, f"{here}, which comes again behind it"
        lower = [q for q in later if p and q and plan.phase("Side", q) < plan.phase("Side", p)]
        if lower:
            yield 4, f"{here}, and phase {lower[0]} of a lower side comes behind it"
        if not p and later and later[0]:
            yield 5, f"place {k + 1} is 0, and the next has phase {later[0]}"
    for p in plan.enabled:
        if plan.phase("Ring", p) == ring and p not in has:
            yield 2, f"phase {p} is missing"


def sequences(plan: Plan) -> Iterator[Told]:
    """Rules K6 and K7."""
    for s in SEQUENCES:
        blank = not any(places(plan, s, 1) + places(plan, s, 2))
        for ring in RINGS if s == 1 or not blank else ():
            for way, line in of_sequence(plan, s, ring):
                yield 6 if s == 1 else 7, way, f"sequence {s}, ring {ring}: {line}"


def times(plan: Plan) -> Iterator[Told]:
    """Rules K8 to K11 and K22."""
    for p in plan.enabled:
        yellow, gap, passage = (plan.phase(name, p) for name in ("YellowChange", "MinimumGap", "Passage"))
        green, limit = plan.phase("MinimumGreen", p), plan.phase("DynamicMaxLimit", p)
        if yellow < YELLOW:
            yield 8, 0, f"phase {p}: its yellow is {seconds(yellow)} s, under 3 s"
        if gap > passage:
            yield 9, 0, f"phase {p}: its minimum gap of {seconds(gap)} s is over its passage of {seconds(passage)} s"
        for way, name in enumerate(("Maximum1", "Maximum2")):
            if plan.phase(name, p) < green:
                yield 10, way, f"phase {p}: phase{name} is {plan.phase(name, p)}, the minimum green {green}"
        if plan.phase("PedRecall", p) and not plan.walks(p):
            yield 11, 0, f"phase {p}: it has a pedestrian recall and no walk"
        if limit and limit < green:
            yield 22, 0, f"phase {p}: its dynamic maximum limit of {limit} s is under its minimum green of {green} s"


def calls(plan: Plan) -> Iterator[Told]:
    """Rules K12 and K13."""
    for d in DETECTORS:
        p = plan.value("vehicleDetectorCallPhase", d)
        if p and p not in plan.enabled:
            yield 12, 0, f"vehicle detector {d}: it calls phase {p}, which is not enabled"
    for d in BUTTONS:
        p = plan.value("pedestrianDetectorCallPhase", d)
        if p and p not in plan.enabled:
            yield 13, 0, f"pedestrian detector {d}: it calls phase {p}, which is not enabled"
        elif p and not plan.walks(p):
            yield 13, 1, f"pedestrian detector {d}: it calls phase {p}, which has no walk"


def overlaps(plan: Plan) -> Iterator[Told]:
    """Rules K14 and K21."""
    for o in OVERLAPS:
        modifiers = named(plan, "overlapModifierPhases", o)
        for p in named(plan, "overlapIncludedPhases", o):
            if p not in plan.enabled:
                yield 14, 0, f"overlap {o}: it includes phase {p}, which is not enabled"
        for p in modifiers:
            if p not in plan.enabled:
                yield 21, 0, f"overlap {o}: its modifier phase {p} is not enabled"
        if modifiers and not plan.value("overlapType", o):
            yield 21, 1, f"overlap {o}: it has modifier phases, and its type is 0"


def arrows(plan: Plan) -> Iterator[Told]:
    """Rules K28 and K29."""
    for o in OVERLAPS:
        kind, green, yellow = (plan.value(f"overlap{it}", o) for it in ("Type", "TrailGreen", "TrailYellow"))
        included, turns = (named(plan, f"overlap{it}Phases", o) for it in ("Included", "Modifier"))
        if kind == ARROW and not included:
            yield 28, 0, f"overlap {o}: it is an arrow, and includes no phase"
        if kind == ARROW and len(turns) != 1:
            yield 28, 1, f"overlap {o}: it is an arrow with {len(turns)} modifier phases, not 1"
        for p in included if kind == ARROW else ():
            if any(turn == p or plan.together(turn, p) for turn in turns):
                yield 28, 2, f"overlap {o}: its modifier phase goes with phase {p}"
        if yellow < YELLOW and (yellow or green):
            yield 29, 0, f"overlap {o}: its trailing yellow of {seconds(yellow)} s is under 3.0 s"
        if green and kind:
            yield 29, 1, f"overlap {o}: it trails, and its type is {kind}"


def preempts(plan: Plan) -> Iterator[Told]:
    """Rules K15 and K16."""
    for m in PREEMPTS:
        lists = {name: named(plan, f"preempt{name}Phase", m) for name in LISTS}
        for way, (name, phases) in enumerate(lists.items()):
            for p in phases:
                if p not in plan.enabled:
                    yield 15, way, f"preempt {m}: its {name.lower()} phase {p} is not enabled"
            for p, q in itertools.combinations([p for p in phases if p in plan.enabled], 2):
                if not both_ways(plan, p, q):
                    yield 15, 3 + way, f"preempt {m}: its {name.lower()} phases {p} and {q} are not concurrent"
        for way, name in enumerate(("Track", "Exit")):
            if lists[name] and not lists["Dwell"]:
                yield 16, way, f"preempt {m}: it has {name.lower()} phases and no dwell phases"


def numbers(plan: Plan) -> Iterator[Told]:
    """Rule K17."""
    for n in plan.patterns:
        cycle, offset = plan.value("patternCycleTime", n), plan.value("patternOffsetTime", n)
        table, sequence = plan.value("patternSplitNumber", n), plan.value("patternSequenceNumber", n)
        if offset >= cycle:
            yield 17, 0, f"pattern {n}: its offset of {offset} s is not below its cycle of {cycle} s"
        if not table:
            yield 17, 1, f"pattern {n}: its split number is {table}, not 1 to 8"
        if not sequence:
            yield 17, 2, f"pattern {n}: its sequence number is {sequence}, not 1 to 4"
        elif not any(places(plan, sequence, 1) + places(plan, sequence, 2)):
            yield 17, 3, f"pattern {n}: its sequence {sequence} is all zeros"


def permissive(plan: Plan) -> Iterator[Told]:
    """Rule K23."""
    for n in plan.patterns:
        cycle, time = plan.value("patternCycleTime", n), plan.value("patternPermissiveTime", n)
        if time >= cycle:
            yield 23, 0, f"pattern {n}: its permissive time of {time} s is not below its cycle of {cycle} s"


def here(plan: Plan, ring: int, side: int) -> list[int]:
    """The phases of a ring on a side."""
    return [p for p in plan.enabled if plan.phase("Ring", p) == ring and plan.phase("Side", p) == side]


def splits(plan: Plan, n: int) -> Iterator[Told]:
    """Rules K18 and K19, of a pattern with a split table."""
    for p in plan.enabled:
        split = 10 * plan.split("Time", n, p)
        least = 10 * plan.phase("MinimumGreen", p) + plan.leaving(p)
        if plan.mode(n, p) != OMITTED and split < least:
            yield 18, 0, (f"pattern {n}, phase {p}: its split is {seconds(split)} s, "
                          f"its minimum green, yellow and red clearance are {seconds(least)} s")
    total = 0
    for side in SIDES:
        first, second = (sum(plan.split("Time", n, p) for p in here(plan, ring, side)) for ring in RINGS)
        if here(plan, 1, side) and here(plan, 2, side) and first != second:
            yield 19, 0, f"pattern {n}, side {side}: ring 1 has {first} s, ring 2 has {second} s"
        total += first if here(plan, 1, side) else second
    cycle = plan.value("patternCycleTime", n)
    if total != cycle:
        yield 19, 1, f"pattern {n}: its sides add up to {total} s, its cycle is {cycle} s"


def coordination(plan: Plan, n: int) -> Iterator[Told]:
    """Rule K20, of a pattern with a split table."""
    marked = [p for p in PHASES if plan.coordinated(n, p)]
    if not marked:
        yield 20, 0, f"pattern {n}: no phase is coordinated"
    for p in marked:
        if p not in plan.enabled:
            yield 20, 1, f"pattern {n}: the coordinated phase {p} is not enabled"
        if plan.mode(n, p) == OMITTED:
            yield 20, 2, f"pattern {n}: the coordinated phase {p} is omitted"
    for p, q in itertools.combinations([p for p in marked if p in plan.enabled], 2):
        two = f"pattern {n}: the coordinated phases {p} and {q}"
        sides = plan.phase("Side", p), plan.phase("Side", q)
        if sides[0] != sides[1]:
            yield 20, 3, f"{two} are on sides {sides[0]} and {sides[1]}"
        elif not both_ways(plan, p, q):
            yield 20, 4, f"{two} are not concurrent"
        elif plan.value("patternSequenceNumber", n) and not plan.value("patternLeadLag", n):
            ends = plan.split_end(n, p), plan.split_end(n, q)
            if ends[0] != ends[1]:
                yield 20, 5, f"{two} end at {seconds(ends[0])} s and {seconds(ends[1])} s"
    for ring in RINGS:
        count = sum(plan.phase("Ring", p) == ring for p in marked)
        if count != 1 and any(here(plan, ring, plan.phase("Side", p)) for p in marked):
            yield 20, 6, f"pattern {n}, ring {ring}: {count} of its phases are coordinated, not 1"


def patterns(plan: Plan) -> Iterator[Told]:
    """Rules K18 to K20."""
    for n in PATTERNS:
        if n in plan.patterns and plan.value("patternSplitNumber", n):
            yield from splits(plan, n)
            yield from coordination(plan, n)


def schedules(plan: Plan) -> Iterator[Told]:
    """Rules K24 to K27."""
    for d in DAY_PLANS:
        for j, k in itertools.combinations(plan.events(d), 2):
            if plan.minute(d, j) == plan.minute(d, k):
                hour, minute = divmod(plan.minute(d, j), 60)
                yield 24, 0, f"day plan {d}: events {j} and {k} both come at hour {hour}, minute {minute}"
        for k in plan.events(d):
            if not plan.value("timebaseAscPattern", plan.action(d, k)):
                yield 26, 0, f"day plan {d}, event {k}: its action {plan.action(d, k)} is not defined"
    for e in ENTRIES:
        d = plan.value("timeBaseScheduleDayPlan", e)
        if d and not plan.events(d):
            yield 25, 0, f"entry {e}: its day plan {d} has no event"
    for a in ACTIONS:
        n = plan.value("timebaseAscPattern", a)
        if n not in (0, FREE, *PATTERNS):
            yield 27, 0, f"action {a}: it asks for pattern {n}, and there are 16"
        elif n in PATTERNS and n not in plan.patterns:
            yield 27, 1, f"action {a}: it asks for pattern {n}, which is not used"


def breaches(text: Table) -> list[str]:
    """The lines of all places at which a plan breaks a rule, in order."""
    plan = Plan(text)
    parts = (rings_and_sides, concurrency, sequences, times, calls, overlaps, preempts, numbers, patterns, permissive,
             schedules, arrows)
    told = [it for part in parts for it in part(plan)]
    return [f"K{rule} {line}" for rule, _way, line in sorted(told, key=lambda it: it[:2])]
