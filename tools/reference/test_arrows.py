"""The laws of arrows and trailing overlaps, asserted at every tick of sessions at random, of the reference alone.

    python3 -m tools.reference.test_arrows FOLDER LO HI
"""
import collections
import sys

from tools.reference.arrow_families import session
from tools.reference.reference_arrows import GREEN, RED, TRAIL, card, channels, is_arrow, numbers, trails
from tools.reference.arrow_kit import ArrowReference
from tools.reference.make_sessions import compact
from tools.reference.reference_events import commands_of

SEEN = collections.Counter()


def agree(bench, plan, p, q):
    """Two phases that the plan lets go together."""
    return p == q or bench.conc(plan, p, q)


def check_state(bench, s, is_tick):
    """What holds of each state that has not tripped."""
    plan, heads = s.plan, bench.display(s)
    enabled = bench.enabled(plan, s.lim)
    serving = [p for p in enabled if s.interval[p] != "R"]
    assert all(agree(bench, plan, p, q) for p in serving for q in serving)
    way = [p for p in enabled if heads[0][p] in "GY" or heads[1][p] in ("W", "C")]
    if not serving and not any(s.commit) and s.cross is None:
        assert all(part.interval == RED for part in s.parts), "idle"
    for o in numbers(plan):
        letter = heads[2][o]
        if not plan["overlapIncludedPhases"][o]:
            assert s.parts[o].interval == RED, "a dark overlap has a part"
            continue
        included = bench.members(plan["overlapIncludedPhases"][o])
        turns = bench.members(plan["overlapModifierPhases"][o])
        if is_arrow(plan, o):
            turn = turns[0]
            SEEN[letter] += 1
            if letter == "P":
                assert any(s.interval[p] == "G" for p in included), "P without a green through"
                assert s.interval[turn] == "R" and turn not in s.commit, "P beside the turn"
                if plan["overlapArrowPedestrian"][o]:
                    assert all(s.ped[p] == "D" for p in included), "P into a crosswalk"
                assert not is_tick or not s.omitted >> o - 1 & 1, "P of an omitted arrow"
            assert (letter == "G") == (s.interval[turn] == "G"), "G is the turn's green"
            if letter == "G":
                assert all(s.interval[p] == "R" for p in included), "G beside a through in service"
            if letter == "Y":
                yellow = s.parts[o].phase
                assert s.interval[yellow] in "GY", "Y without its phase"
                if s.interval[yellow] == "Y":
                    assert s.parts[o].timer >= s.itime[yellow], "Y is younger than its phase's"
            carriers = included + turns
        else:
            assert letter != "P"
            carriers = included
            if trails(plan, o):
                SEEN["trail " + s.parts[o].interval] += 1
        if letter in "GYP":
            good = [p for p in carriers if p in serving and all(agree(bench, plan, p, q) for q in serving + way)]
            assert good, f"overlap {o} is lit {letter} beside a stranger"
    lit = lit_channels(plan, heads)
    pairs = set(card(bench, plan))
    for a in lit:
        for b in lit:
            assert a >= b or (a, b) in pairs, f"channels {a} and {b} are lit together"
            SEEN["pairs"] += a < b


def lit_channels(plan, heads):
    """The channels that are lit."""
    found = []
    for c, (kind, source) in channels(plan).items():
        if not source or kind not in (2, 3, 4) or kind == 4 and source >= len(heads[2]):
            continue
        if kind == 4 and not plan["overlapIncludedPhases"][source]:
            continue
        letter = {2: heads[0], 3: heads[1], 4: heads[2]}[kind][source]
        if letter in (("W", "C") if kind == 3 else ("G", "Y", "P")):
            found.append(c)
    return found


def check_run(bench, states, inputs):
    """What holds of a run: yellows are whole, between trips."""
    yellow = collections.Counter()
    trail = collections.Counter()
    last = None
    for k, s in enumerate(states):
        if s.trip is not None:
            last = None
            continue
        check_state(bench, s, k and inputs[k - 1][0] == "tick")
        heads = bench.display(s)[2]
        if last is None:
            yellow.clear()
            trail.clear()
        was_reset = k and inputs[k - 1][0] == "reset"
        is_tick = k and inputs[k - 1][0] == "tick"
        for o in numbers(s.plan):
            special = is_arrow(s.plan, o) or trails(s.plan, o)
            if last is not None and not was_reset and special:
                before = bench.display(last)[2][o]
                if not is_tick:
                    assert before == heads[o] or before in "R" and heads[o] == "R", f"an input changes a head {inputs[k - 1]}"
                if before in "GP" and heads[o] == "R":
                    assert False, f"overlap {o} goes from {before} to red"
                if before == "Y" and heads[o] != "Y":
                    assert yellow[o] >= 30, f"a yellow of {yellow[o]}"
                    SEEN["Y to " + heads[o]] += 1
                if before == "P" and heads[o] == "G":
                    SEEN["P to G"] += 1
                if trails(s.plan, o) and is_tick and last.parts[o].interval == TRAIL and s.parts[o].interval not in (TRAIL, GREEN):
                    assert s.service or trail[o] >= 10 * s.plan["overlapTrailGreen"][o], "a short trail"
            if is_tick:
                yellow[o] = yellow[o] + 1 if heads[o] == "Y" else 0
                trail[o] = trail[o] + 1 if s.parts[o].interval == TRAIL else 0
        last = s


def main(words):
    folder, low, high = words[0], int(words[1]), int(words[2])
    reference = ArrowReference(folder)
    bench = reference.bench
    for seed in range(low, high):
        plan, log, commands = session(reference, seed, reference.count())
        timing, fault = bench.read_plan(compact(plan), bench.V2)
        assert fault is None, fault
        rows, _ = bench.read_log(log)
        run = bench.Session(timing, rows, bench.V2)
        for command in commands_of(bench, commands):
            run.answer(command, [])
            SEEN[command[0]] += 1
        try:
            check_run(bench, run.states, run.inputs)
        except AssertionError as wrong:
            print(f"seed {seed}: {wrong}")
        SEEN["states"] += len(run.states)
    print(dict(SEEN))


if __name__ == "__main__":
    main(sys.argv[1:])
