"""Writes a log of made-up traffic for a plan of eight phases whose detector n calls phase n, as examples/quad.json is.

    python3 -m tools.programs.made_traffic SEED SECONDS > LOG

No street was counted for it. Each lane has cars at random, at the rate below, with a least time between two of them;
each is on its detector for about a second, whatever the signals show. Now and then a button is pushed, or a preempt
asked for. The same seed gives the same log, and with more seconds the same traffic to begin with.
"""
import random
import sys

from tools.programs import field_rules

# How many come in an hour: cars on vehicle detectors (through lanes 2 and 6 of the main street, 4 and 8 of the side
# street, left turns 1, 5, 3 and 7), pushes of the button of pedestrian detector 2, and calls of preempt input 1.
RATES = {
    "vehicle": {1: 100, 2: 420, 3: 80, 4: 220, 5: 120, 6: 460, 7: 90, 8: 240},
    "pedestrian": {2: 20},
    "preempt": {1: 1},
}

# For how many seconds one of a kind is on, at least and at most.
STAYS = {"vehicle": (0.6, 1.6), "pedestrian": (0.2, 0.6), "preempt": (15, 40)}

# The least seconds from the beginning of one to that of the next; each is longer than the longest stay.
LEAST = {"vehicle": 2, "pedestrian": 2, "preempt": 300}

# How many seconds a bench can run.
MOST_SECONDS = field_rules.TICKS // 10


def stays(seed, kind, number, rate, seconds):
    """When an input is on: its first tick and the first one behind, one after the other, up to the end."""
    chance = random.Random(f"{seed} {kind} {number}")
    least, mean = LEAST[kind], 3600 / rate
    begin = chance.expovariate(1 / mean)
    while begin < seconds:
        end = begin + chance.uniform(*STAYS[kind])
        first, behind = 1 + int(10 * begin), 1 + int(10 * end)
        yield first, max(behind, first + 1)
        begin += least + chance.expovariate(1 / (mean - least))


def switches(seed, seconds):
    """What is switched in which tick: a list of kind, number and whether it is on then."""
    found = {}
    for kind, rates in RATES.items():
        for number, rate in rates.items():
            for first, behind in stays(seed, kind, number, rate, seconds):
                found.setdefault(first, []).append((kind, number, True))
                found.setdefault(behind, []).append((kind, number, False))
    return found


def rows(seed, seconds):
    """The rows of a log: one for each tick in which inputs are switched."""
    lit = set()
    for tick, switched in sorted(switches(seed, seconds).items()):
        if tick > 10 * seconds:
            return
        for kind, number, is_on in switched:
            (lit.add if is_on else lit.remove)((kind, number))
        yield field_rules.row_text(tick, lit)


def main(words):
    if len(words) != 2 or not all(word.isdecimal() for word in words) or not 1 <= int(words[1]) <= MOST_SECONDS:
        sys.exit(f"usage: python3 -m tools.programs.made_traffic SEED SECONDS, of which there are 1 to {MOST_SECONDS}")
    seed, seconds = map(int, words)
    sys.stdout.buffer.write(b"# Made-up traffic of no street: tools/programs/made_traffic.py %d %d\n" % (seed, seconds))
    sys.stdout.buffer.writelines(rows(seed, seconds))


if __name__ == "__main__":
    main(sys.argv[1:])
