"""The laws of tsb_overlap, which hold whatever a tick gives the overlaps, on states at random that no run leads to.

    python3 -m tools.reference.test_arrow_steps FOLDER COUNT
"""
import collections
import random
import sys
from types import SimpleNamespace

from tools.reference.arrow_families import a_plan
from tools.reference.reference_arrows import (CLEAR, FLASH, GREEN, RED, TRAIL, YELLOW, Part, is_arrow, numbers, reading,
                                          trails)
from tools.reference.arrow_kit import ArrowReference
from tools.reference.make_sessions import compact


def a_part(rng, plan, overlap):
    """What an overlap of its kind can be in."""
    interval = rng.choice([RED, GREEN, FLASH, YELLOW] if is_arrow(plan, overlap) else [RED, GREEN, TRAIL, YELLOW, CLEAR])
    timer = rng.choice([0, 9, 28, 29, 30, 31, 44, 89, rng.randint(0, 120)])
    if interval == YELLOW and is_arrow(plan, overlap):
        return Part(YELLOW, timer, rng.choice([p for p in range(1, 17) if plan["phaseEnabled"][p]]))
    return Part(interval, timer) if interval in (TRAIL, YELLOW, CLEAR) else Part(interval)


def a_state(rng, plan, phases):
    """Phases, pedestrians and rings at random."""
    return SimpleNamespace(
        plan=plan, interval=["R"] + [rng.choice("GYCRR") for _ in range(phases)], service=rng.choice([0, 0, 1]),
        itime=[0] + [rng.randint(0, 80) for _ in range(phases)], ped=["D"] + [rng.choice("WCDDD") for _ in range(phases)],
        commit=(None, *(rng.choice([None, rng.randint(1, phases)]) for _ in range(2))), omitted=rng.choice([0, 0, rng.randrange(65536)]))


def left(plan, overlap, part, is_preempted):
    """How long an overlap that trails holds its phases still, at most."""
    green = 0 if is_preempted else 10 * plan["overlapTrailGreen"][overlap]
    yellow, red = plan["overlapTrailYellow"][overlap], plan["overlapTrailRed"][overlap]
    return {TRAIL: max(green - (part.timer or 0), 1) + yellow + red, YELLOW: max(yellow - (part.timer or 0), 1) + red,
            CLEAR: max(red - (part.timer or 0), 1)}.get(part.interval, 0)


def check(bench, rng, plan, seen):
    """The laws of one tick."""
    way = reading(bench)
    before, after = a_state(rng, plan, 16), a_state(rng, plan, 16)
    before.service = after.service
    before.parts = [Part()] + [a_part(rng, plan, o) for o in numbers(plan)]
    for o in numbers(plan):
        if not is_arrow(plan, o) and not trails(plan, o):
            continue
        was = before.parts[o]
        run_on = way.run_on(before, o, bool(after.service))
        now = (way.arrow if is_arrow(plan, o) else way.trailing)(before, after, o, run_on)
        seen[was.interval + " to " + now.interval] += 1
        lit = was.interval not in (RED, CLEAR)
        if lit and now.interval in (RED, CLEAR):
            time = plan["phaseYellowChange"][was.phase] if is_arrow(plan, o) else plan["overlapTrailYellow"][o]
            assert was.interval == YELLOW and was.timer + 1 >= time, ("yellow", was, now)
        if is_arrow(plan, o):
            turn, = bench.members(plan["overlapModifierPhases"][o])
            assert (now.interval == GREEN) == (after.interval[turn] == "G"), ("turn", was, now)
            if now.interval == FLASH:
                included = bench.members(plan["overlapIncludedPhases"][o])
                assert any(after.interval[p] == "G" for p in included), ("permission", was, now)
                assert after.interval[turn] == "R" and turn not in after.commit, ("apart", was, now)
        else:
            if was.interval == TRAIL and now.interval == YELLOW:
                assert after.service or was.timer + 1 >= 10 * plan["overlapTrailGreen"][o], ("trail", was, now)
            if left(plan, o, was, after.service) >= 1:
                assert left(plan, o, run_on, after.service) < left(plan, o, was, after.service), ("runs out", was, run_on)


def main(words):
    reference, count = ArrowReference(words[0]), int(words[1])
    bench, seen = reference.bench, collections.Counter()
    for seed in range(count):
        rng = random.Random(f"any {seed}")
        plan, _ = bench.read_plan(compact(a_plan(reference, rng, reference.count())), bench.V2)
        for _ in range(60):
            check(bench, rng, plan, seen)
    print(dict(seen))


if __name__ == "__main__":
    main(sys.argv[1:])
