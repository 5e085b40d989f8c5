"""Plans with patterns of short cycles at random, for sessions with the options of coordination.

A plan has two patterns, of one table of splits or of two. The splits of the coordinated phases end at one time, or
apart: then ring 1's ends before ring 2's, or behind it, and the patterns have lead and lag.
"""
import json

OMITTED = 5
LONGEST_CYCLE = 34  # seconds
# The phases of each ring on a side.
PAIRS = [(1, 1), (2, 2), (2, 2), (2, 1), (1, 2), (2, 0), (0, 2), (1, 0), (0, 1)]
ALONE = [(2, 2), (3, 0), (3, 3), (0, 3), (3, 2)]
# Those of a side on which coordinated phases can lead in one ring and lag in the other.
APART, APART_ALONE = [(2, 2), (2, 1), (1, 2)], [(2, 2), (3, 3), (3, 2)]
PATTERN_OBJECTS = "patternCycleTime patternOffsetTime patternSplitNumber patternSequenceNumber".split()


class Layout:
    """The phases of a plan: rings and sides of each, and of each ring and side the phases in order."""

    def __init__(self, rng, apart):
        sides = rng.choice([1, 2, 2, 2, 3])
        pairs = [rng.choice(ALONE if sides == 1 else PAIRS) for _ in range(sides)]
        if apart:
            pairs[rng.randrange(sides)] = rng.choice(APART if sides > 1 else APART_ALONE)
        names = rng.sample(range(1, 17), sum(map(sum, pairs)))
        self.rings, self.sides, self.orders = {}, {}, {}
        for side, pair in enumerate(pairs, 1):
            for ring, many in zip((1, 2), pair):
                taken, names = names[:many], names[many:]
                self.orders[ring, side] = taken
                self.rings.update(dict.fromkeys(taken, ring))
                self.sides.update(dict.fromkeys(taken, side))
        self.phases = sorted(self.rings)
        self.all_sides = range(1, sides + 1)

    def here(self, side):
        """The orders of the rings that have phases on a side."""
        return [self.orders[ring, side] for ring in (1, 2) if self.orders[ring, side]]

    def concurrency(self):
        """The phases of the other ring on the side of each."""
        return {p: sum(1 << q - 1 for q in self.phases
                       if self.rings[p] != self.rings[q] and self.sides[p] == self.sides[q]) for p in self.phases}

    def sequence(self, turned):
        """Both rings in their order, or with the orders of some sides turned: lead is lag there."""
        listed = {}
        for ring in (1, 2):
            lists = [self.orders[ring, side][::-1 if side in turned else 1] for side in self.all_sides]
            listed.update((16 * ring - 16 + place, p) for place, p in enumerate(sum(lists, []), 1))
        return listed


def made_even(rng, lists, split):
    """Lengthens splits so that those of each of these lists have one sum."""
    total = max(sum(split[p] for p in phases) for phases in lists)
    for phases in lists:
        split[rng.choice(phases)] += total - sum(split[p] for p in phases)


class Table:
    """A table of splits, and its coordinated phases: the last of their side, such as lead others in each ring, or such
    as lead in one ring and lag in the other."""

    def __init__(self, rng, found, times, omitted, apart):
        self.found, self.times, self.held = found, times, []
        self.split = {p: -(-(10 * times["phaseMinimumGreen"][p] + self.clearance(p)) // 10) + rng.choice([0, 0, 1, 2])
                      for p in found.phases}
        sides = [side for side in found.all_sides if not apart or self.may_be_apart(side)]
        coordinated_side = rng.choice([*sides, sides[-1]])
        for side in found.all_sides:
            orders, places = found.here(side), None
            if side == coordinated_side:
                places = self.apart(rng, orders) if apart else self.beside(rng, orders)
                self.held = [order[place - 1] for order, place in zip(orders, places)]
            short = [p for p in omitted - set(self.held) if found.sides[p] == side]
            self.split.update({p: rng.choice([0, 1, 2]) for p in short})
            if places and not apart:
                made_even(rng, [order[:place] for order, place in zip(orders, places)], self.split)
                orders = [order[place:] for order, place in zip(orders, places)]
            if all(orders):
                made_even(rng, orders, self.split)
        self.cycle = sum(map(self.side_sum, found.all_sides))

    def may_be_apart(self, side):
        """Whether coordinated phases of a side can lead in one ring and lag in the other."""
        orders = self.found.here(side)
        return len(orders) == 2 and max(map(len, orders)) > 1

    @staticmethod
    def beside(rng, orders):
        """Places of coordinated phases: the last of each order, or such as others follow in each."""
        leads = all(len(order) > 1 for order in orders) and rng.random() < 0.5
        return [rng.randint(1, len(order) - 1) if leads else len(order) for order in orders]

    @staticmethod
    def apart(rng, orders):
        """Places of coordinated phases: the last of one order, and one that others follow in the other."""
        leading = rng.choice([ring for ring, order in enumerate(orders) if len(order) > 1])
        return [rng.randint(1, len(order) - 1) if ring == leading else len(order) for ring, order in enumerate(orders)]

    def clearance(self, p):
        """Yellow and red clearance of a phase, in ticks."""
        return self.times["phaseYellowChange"][p] + self.times["phaseRedClear"][p]

    def side_sum(self, side):
        """The splits of a side, in seconds."""
        return sum(self.split[p] for p in self.found.here(side)[0])

    def end(self, p):
        """The end of the split of a phase, in seconds."""
        side = self.found.sides[p]
        order = self.found.orders[self.found.rings[p], side]
        before = sum(self.side_sum(it) for it in range(1, side))
        return before + sum(self.split[q] for q in order[:order.index(p) + 1])

    def instant(self, p):
        """The force-off instant of a phase, in ticks."""
        return (10 * (self.end(p) - self.end(self.held[0])) - self.clearance(p)) % (10 * self.cycle)

    def has_apart(self):
        """Whether the splits of the coordinated phases end at different times."""
        return len({self.end(p) for p in self.held}) > 1

    def held_beside(self, p):
        """The coordinated phase of the ring of a phase, or else the first."""
        own = [q for q in self.held if self.found.rings[q] == self.found.rings[p]]
        return (own or sorted(self.held))[0]


# --- plans ---

def maximums(rng, minimums):
    """Maximums of phases, which are not below their minimums: mostly 0 where these are, or others in each object."""
    least = {p: rng.choice([3, 5]) for p, green in minimums.items() if green}
    if rng.random() < 0.5:
        return {"phaseMaximum1": least, "phaseMaximum2": least}
    return {name: {p: green + rng.choice([0, 1, 2, 4, 7]) for p, green in minimums.items()}
            for name in ("phaseMaximum1", "phaseMaximum2")}


def greens(rng, phases):
    """Minimums, maximums, clearances and passages of phases: now and then one has a long clearance."""
    found = {"phaseMinimumGreen": [0, 0, 1, 2, 3], "phaseYellowChange": rng.choice([[30], [30, 30, 34, 45]]),
             "phaseRedClear": rng.choice([[5], [0, 5, 10], [0, 0, 23]]),
             "phasePassage": rng.choice([[0], [10], [0, 20]])}
    times = {name: {p: rng.choice(values) for p in phases} for name, values in found.items()}
    if rng.random() < 0.25:
        times["phaseRedClear"][rng.choice(phases)] = rng.choice([40, 60, 90])
    return times | maximums(rng, times["phaseMinimumGreen"])


def an_offset(rng, table):
    """An offset in seconds: mostly one with which a phase that is served first begins some ticks behind its instant."""
    firsts = [order[0] for order in table.found.here(1) if order[0] not in table.held]
    if not firsts or rng.random() < 0.2:
        return rng.randrange(table.cycle)
    return -(table.instant(rng.choice(firsts)) + rng.randint(0, 40)) // 10 % table.cycle


def patterns(rng, tables, omitted):
    """Patterns 1 and 2: of one table or of two, with the offsets, sequences and coordinated phases of each."""
    plan = {"splitTime": {}, "splitCoordPhase": {}, "splitMode": {}}
    for place, table in enumerate(tables):
        plan["splitTime"].update({16 * place + p: time for p, time in table.split.items()})
        plan["splitCoordPhase"].update({16 * place + p: 1 for p in table.held})
        plan["splitMode"].update({16 * place + p: OMITTED for p in omitted - set(table.held)})
    for number in (1, 2):
        table = tables[min(number, len(tables)) - 1]
        values = [table.cycle, an_offset(rng, table), tables.index(table) + 1, rng.choice([1, number])]
        for name, value in zip(PATTERN_OBJECTS, values):
            plan.setdefault(name, {})[number] = value
    return plan


def walkers(rng, found, table):
    """The phases that have a walk, each with a button: one, which is mostly coordinated, and now and then others."""
    first = rng.choice(found.phases if rng.random() < 0.4 else table.held)
    others = [p for p in found.phases if p != first]
    return [first, *rng.sample(others, min(len(others), rng.choice([0, 0, 0, 1, 2])))]


def a_plan(rng, omits, apart):
    """A plan of version 2 with two patterns, in which all phases have a detector, and the table of pattern 1."""
    found = Layout(rng, apart)
    times = greens(rng, found.phases)
    omitted = set(rng.sample(found.phases, 1)) if omits and len(found.phases) > 2 else set()
    tables = [Table(rng, found, times, omitted, apart) for _ in range(rng.choice([1, 1, 2]))]
    turned = [side for side in found.all_sides if rng.random() < 0.5]
    walking = walkers(rng, found, tables[0])
    others = [p for p in found.phases if p not in tables[0].held]
    beside = [p for p in found.phases if found.concurrency()[walking[0]] >> p - 1 & 1]
    plan = {"version": 2, "phaseEnabled": dict.fromkeys(found.phases, 1), "phaseRing": found.rings,
            "phaseSide": found.sides, "phaseConcurrency": found.concurrency(), **times,
            "sequenceData": found.sequence([]) | {32 + place: p for place, p in found.sequence(turned).items()},
            "vehicleDetectorCallPhase": dict(enumerate(found.phases, 1)), **patterns(rng, tables, omitted),
            "phaseWalk": {p: rng.choice([1, 2, 4]) for p in walking},
            "phasePedestrianClear": {p: rng.choice([1, 3, 6]) for p in walking},
            "pedestrianDetectorCallPhase": dict(enumerate(walking, 1)),
            "preemptDwellPhase": {1: 1 << rng.choice(others or found.phases) - 1,
                                  2: sum(1 << p - 1 for p in [walking[0], *beside[:1]])},
            "patternLeadLag": dict.fromkeys((1, 2), 1) if apart or rng.random() < 0.1 else {}}
    for name, chance in (("phaseNonLock", 0.4), ("phaseMaxRecall", 0.5), ("phaseSimGapDisable", 0.2)):
        if rng.random() < 0.5:
            plan[name] = {p: 1 for p in found.phases if rng.random() < chance}
    return plan, tables[0]


def begins_at_an_instant(rng, plan, table):
    """Has a phase that is served first begin about at its instant, or at that of the coordinated phase of its ring."""
    first = rng.choice(table.found.here(1))[0]
    reached, late = rng.choice([first, table.held_beside(first)]), rng.choice([-3, -2, -2, -1, -1, 0])
    late += reached == first
    plan["phaseMinimumGreen"][first] = rng.choice([0, 0, 1])
    yellow, red = (plan[name][reached] for name in ("phaseYellowChange", "phaseRedClear"))
    yellow += (late - 1 - yellow - red) % 10
    plan["phaseYellowChange"][reached] = yellow
    before = table.end(reached) - table.end(table.held[0])
    plan["patternOffsetTime"][1] = ((yellow + red + 1 - late) // 10 - before) % table.cycle
    return first not in table.held


def is_left_out(rng, plan, table):
    """Has preempt 1 dwell in an omitted phase, whose instant is mostly not before that of the coordinated one."""
    omitted = [p for p in table.found.phases if plan["splitMode"].get(p)]
    if not omitted:
        return False
    plan["preemptDwellPhase"][1] = 1 << omitted[0] - 1
    plan["phaseMaxRecall"] = {omitted[0]: 1}
    is_behind = table.instant(omitted[0]) >= table.instant(table.held_beside(omitted[0]))
    return is_behind or rng.random() < 0.05


def accepted(reference, rng, aim, apart):
    """A plan that breaks no rule, whose cycles are short and at which an aim was taken, and the table of pattern 1.

    With `apart` the splits of the coordinated phases of pattern 1 end at different times.
    """
    while True:
        plan, table = a_plan(rng, aim is is_left_out or rng.random() < 0.1, apart)
        if apart and not table.has_apart():
            continue
        if max(plan["patternCycleTime"].values()) > LONGEST_CYCLE or aim and not aim(rng, plan, table):
            continue
        plan = json.loads(json.dumps(plan))
        if reference.accepts(plan):
            return plan, table
