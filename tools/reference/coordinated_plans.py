"""Plans at random with two patterns, in which all phases of one side and of different rings are concurrent.

They aim at what makes a coordinated phase wait: walks and clearances that are longer than splits or than the cycle,
splits of their least time, unequal clearances, maximum recalls, phases that are omitted, lead and lag. The options of
coordination have each of their values; permissive times are below the cycle, with `patternLeadLag` the coordinated
splits of the two rings may end apart, and in two plans of three each phase may walk again within its green. Pattern 2
differs from pattern 1 by its offset alone.
"""
import random
from dataclasses import dataclass
from typing import Any

Values = dict[int, int]
PAIRS = [(1, 1), (2, 2), (2, 2), (2, 2), (1, 2), (2, 1), (3, 2), (1, 0), (0, 1), (2, 0), (3, 3)]
OMITTED = 5


@dataclass
class Layout:
    """The phases of each ring and side in the order of the pattern, and the coordinated side."""

    rings: Values
    sides: Values
    orders: dict[tuple[int, int], list[int]]
    coordinated_side: int


def layout(rng: random.Random) -> Layout:
    """One to four sides, each with up to three phases in a ring."""
    names = list(range(1, 17))
    rng.shuffle(names)
    count = rng.choice([1, 2, 2, 2, 3, 4])
    found = Layout({}, {}, {}, rng.randint(1, count))
    for side in range(1, count + 1):
        for ring, many in zip((1, 2), rng.choice(PAIRS)):
            taken = names[: min(many, 2) if count == 4 else many]
            del names[: len(taken)]
            found.orders[ring, side] = taken
            found.rings.update((p, ring) for p in taken)
            found.sides.update((p, side) for p in taken)
    return found


def shares(rng: random.Random, total: int, least: list[int]) -> list[int]:
    """Splits that add up to a total, none below its least time; now and then all that is spare goes to one."""
    spare = total - sum(least)
    cuts = sorted(rng.randint(0, spare) for _ in least[1:])
    parts = [b - a for a, b in zip([0, *cuts], [*cuts, spare])]
    if rng.random() < 0.3:
        parts = [0] * len(least)
        parts[rng.randrange(len(least))] = spare
    return [a + b for a, b in zip(least, parts)]


def times(rng: random.Random, phases: list[int], longest: int) -> dict[str, Values]:
    """What phases ask for: greens, walks, clearances and recalls; `longest` bounds a walk, in seconds."""

    def each(*choices: int) -> Values:
        return {p: rng.choice(choices) for p in phases}

    def some(chance: float) -> Values:
        return {p: int(rng.random() < chance) for p in phases}

    walks, recalls = rng.random(), rng.random()
    lengths = [x for x in (4, 7, 10, 40, 120, 255) if x <= longest]
    walk = {p: rng.choice([0, *lengths]) if rng.random() < walks else 0 for p in phases}
    maximum = each(15, 20, 60, 255)
    alike = rng.random() < 0.5
    return {
        "phaseMinimumGreen": each(0, 1, 3, 5, 8, 15),
        "phaseYellowChange": each(30) if alike else each(30, 30, 40, 60),
        "phaseRedClear": each(10) if alike else each(0, 0, 10, 25, 60),
        "phasePassage": each(0, 10, 30, 255),
        "phaseMaximum1": maximum,
        "phaseMaximum2": maximum,
        "phaseVariableInitial": some(0.3),
        "phaseAddedInitial": each(0, 10, 100),
        "phaseMaximumInitial": each(0, 10, 20, 60),
        "phaseWalk": walk,
        "phasePedestrianClear": {p: rng.choice([0, *lengths]) if rng.random() < walks else 0 for p in phases},
        "phaseRedRevert": each(0, 0, 20, 60, 255),
        "phaseMinRecall": some(0.2),
        "phaseMaxRecall": some(0.7 * recalls),
        "phasePedRecall": {p: int(walk[p] > 0 and rng.random() < recalls) for p in phases},
        "phaseSoftRecall": some(0.1),
        "phaseNonLock": some(rng.random()),
        "phaseDualEntry": some(0.4),
        "phaseRestInWalk": some(0.2),
        "phaseSimGapDisable": some(0.3),
    }


def halves(rng: random.Random, orders: list[list[int]], apart: bool) -> list[int]:
    """How many phases of each ring's order come up to the coordinated one: all, or some in both rings; any if apart."""
    places = [rng.randint(1, len(order)) for order in orders]
    if apart:
        return places
    whole = [place == len(order) for place, order in zip(places, orders)]
    if rng.random() < 0.4 or any(whole) and not all(whole):
        places = [len(order) for order in orders]
    return places


def splits(rng: random.Random, found: Layout, asked: dict[str, Values], apart: bool) -> tuple[Values, Values]:
    """The splits, and the coordinated phases, whose splits may end apart or not."""
    tight = rng.random()
    split: Values = {}
    coordinated: Values = {}

    def least(p: int) -> int:
        need = 10 * asked["phaseMinimumGreen"][p] + asked["phaseYellowChange"][p] + asked["phaseRedClear"][p]
        return -(-need // 10) + (0 if rng.random() < tight else rng.randint(0, 15))

    def share(lists: list[list[int]]) -> None:
        needs = [[least(p) for p in phases] for phases in lists]
        total = max(sum(need) for need in needs) + rng.choice([0, 0, 1, 5, 20])
        for phases, need in zip(lists, needs):
            split.update(zip(phases, shares(rng, total, need)))

    for side in sorted(set(found.sides.values())):
        orders = [found.orders[ring, side] for ring in (1, 2) if found.orders[ring, side]]
        if side != found.coordinated_side:
            share(orders)
            continue
        places = halves(rng, orders, apart)
        coordinated.update((order[place - 1], 1) for order, place in zip(orders, places))
        if apart:
            share(orders)
            continue
        share([order[:place] for order, place in zip(orders, places)])
        if all(place < len(order) for order, place in zip(orders, places)):
            share([order[place:] for order, place in zip(orders, places)])
    return split, coordinated


def options(rng: random.Random, cycle: int, apart: bool, phases: list[int]) -> dict[str, Values]:
    """The options of coordination; half of the plans have no permissive time, and a third no maximum in a pattern."""
    return {
        "coordForceMode": {1: rng.randint(0, 2)},
        "coordMaximumMode": {1: rng.randint(0, 2)},
        "patternPermissiveTime": {1: rng.choice([0, rng.randrange(cycle)])},
        "patternLeadLag": {1: int(apart)},
        "phasePedestrianRecycle": dict.fromkeys(phases, int(rng.random() < 2 / 3)),
        "coordCorrectionMode": {1: rng.randint(0, 3)},
        "coordCorrectionLimit": {1: rng.choice([0, 1, 10, 25, 50, 50, rng.randint(1, 50)])},
    }


def both(rows: dict[str, Values], offset: int) -> dict[str, Values]:
    """The values of these objects, with those of pattern 1 for pattern 2 too, but for its offset."""
    for name, row in rows.items():
        if name.startswith("pattern"):
            row[2] = offset if name == "patternOffsetTime" else row[1]
    return rows


def sequence(found: Layout, rng: random.Random | None = None) -> Values:
    """Both rings side by side, in their orders or at random within a side."""
    listed: Values = {}
    for ring in (1, 2):
        phases: list[int] = []
        for side in range(1, 5):
            here = list(found.orders.get((ring, side), []))
            if rng:
                rng.shuffle(here)
            phases += here
        listed.update((16 * (ring - 1) + place, p) for place, p in enumerate(phases, 1))
    return listed


def plan(rng: random.Random, longest: int = 255) -> dict[str, Any] | None:
    """A plan as its text has it; or none where the cycle would be too long, or none is coordinated."""
    found = layout(rng)
    phases = sorted(found.rings)
    if not phases:
        return None
    asked = times(rng, phases, longest)
    apart = rng.random() < 0.4
    split, coordinated = splits(rng, found, asked, apart)
    cycle = sum(
        max(sum(split[p] for p in found.orders[ring, side]) for ring in (1, 2)) for side in set(found.sides.values())
    )
    if not coordinated or not 1 <= cycle <= 255:
        return None
    modes = {p: rng.choice([0, 1, 2, 3, 4, OMITTED]) if rng.random() < 0.2 else 0 for p in phases}
    walkers = [p for p in phases if asked["phaseWalk"][p]]
    rows: dict[str, Values] = {
        **asked,
        **options(rng, cycle, apart, phases),
        "phaseEnabled": dict.fromkeys(phases, 1),
        "phaseRing": found.rings,
        "phaseSide": found.sides,
        "phaseConcurrency": {
            p: sum(1 << q - 1 for q in phases if found.sides[p] == found.sides[q] and found.rings[p] != found.rings[q])
            for p in phases
        },
        "unitRedRevert": {1: rng.choice([0, 20])},
        "sequenceData": sequence(found, rng) | {32 + place: p for place, p in sequence(found).items()},
        "splitTime": split,
        "splitMode": {p: 0 if p in coordinated else mode for p, mode in modes.items()},
        "splitCoordPhase": coordinated,
        "patternCycleTime": {1: cycle},
        "patternOffsetTime": {1: rng.randrange(cycle)},
        "patternSplitNumber": {1: 1},
        "patternSequenceNumber": {1: 2},
        "vehicleDetectorCallPhase": {d: rng.choice(phases) for d in range(1, 17)},
        "pedestrianDetectorCallPhase": {d: rng.choice(walkers) for d in range(1, 9)} if walkers else {},
    }
    rows = both(rows, rng.randrange(cycle))
    return {"version": 2} | {name: {str(i): v for i, v in row.items()} for name, row in rows.items()}
