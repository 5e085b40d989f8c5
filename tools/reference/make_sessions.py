"""Writes stored sessions: plans, logs and commands at random, and what an independent reference answers to them.

    python3 -m tools.reference.make_sessions --reference FOLDER --kind KIND --seeds LO HI [--told EVERY] --out FILE

FOLDER holds the reference, which is no part of this repository: gen.py and gen_late.py, which make sessions at
random, and py/tsb_oracle.py, which answers them. KIND is `even` (gen.py: all that a session can do, about evenly),
`late` (gen_late.py: dynamic maximums, overlaps, detectors that fail, trips, transactions, patterns that stop),
`aimed` (session_families.py: what the other two seldom meet), `tripped` (trip_families.py: trips at chosen moments, and
what is done until the reset), `options` (option_families.py: the options of coordination) or `mangled`
(mangled_texts.py: plan texts, logs and commands with bytes changed). A seed always gives the same session; LO is the
first and HI stands behind the last. Of every so many sessions one stands with its answers in full, where they are
short; of the others the number of answer lines and a checksum stand. The head of the file that is written says how it
reads, and count_sessions.py counts what occurs in it.
"""
import argparse
import importlib
import json
import os
import random
import re
import sys
from itertools import takewhile

from tools.programs import stored_cases
from tools.reference.mangled_texts import mangled
from tools.reference.option_families import broken_plans, family_of, options
from tools.reference.reference_options import with_options
from tools.reference.session_families import FAMILIES, brisk, odd_words
from tools.reference.trip_families import trips

LONGEST_TOLD = 9000  # bytes of answers

TITLES = {
    "even": "Sessions at random, of plans of 1 to 16 phases: all commands about evenly.",
    "late": "Sessions at random: detectors that fail, maximums that move, overlaps, trips, transactions, cycles of 0.",
    "aimed": "Sessions of what others seldom meet: each rule, refusals, stages, alarms, coincidences, the way back.",
    "tripped": "Sessions in which the monitor trips: in crossings, in each stage of preempts, in transactions, and back.",
    "options": "Sessions with the options of coordination: force modes, maximums, permissive times, lead and lag, "
               "pedestrian recycle, coming into step.",
    "mangled": "Sessions of which the plan text, the log or the commands were mangled: bytes changed at random.",
}


class Reference:
    """The modules of the reference, and its final numbers of phases and sides."""

    def __init__(self, folder):
        sys.dont_write_bytecode = True
        sys.path[:0] = [folder, os.path.join(folder, "py")]
        self.even = importlib.import_module("gen")
        self.late = importlib.import_module("gen_late")
        self.bench = with_options(importlib.import_module("tsb_oracle"))

    def accepts(self, plan):
        """Whether a plan has no fault."""
        return self.bench.read_plan(json.dumps(plan).encode(), self.bench.V2)[1] is None

    def answers(self, plan, log, commands):
        """What the program writes, as bytes."""
        return self.bench.run_text(plan, log, commands, 2)


# --- short texts ---

def compact(plan):
    """A plan as a short text: what is 0 is left out, as it is 0 anyway."""
    short = {}
    for name, values in plan.items():
        if isinstance(values, dict):
            values = {index: value for index, value in values.items() if value}
        if values:
            short[name] = values
    return json.dumps(short, separators=(",", ":")).encode()


def last_tick(answers):
    """The greatest tick number of the display lines among the answers."""
    return max([int(tick) for tick in re.findall(rb"(?m)^[0-9]{7}(?= )", answers)], default=0)


def shortened(log, last):
    """The rows of a log up to a tick, with the comments among them; later ones are never in force."""
    rows = log.splitlines(True)
    return b"".join(takewhile(lambda row: not row[:7].isdigit() or int(row[:7]) <= last, rows))


# --- variations of what the generators make ---

def paced(commands, ticks):
    """The commands with their steps cut in one ratio, so that they make about so many ticks or fewer."""
    numbers = [int(n) for n in re.findall(rb"(?m)^ *step +([0-9]{1,9}) *$", commands)]
    ratio = max(1.0, sum(numbers) / ticks)

    def cut(found):
        steps = int(found.group(2))
        return b"%s%d%s" % (found.group(1), max(min(steps, 1), int(steps / ratio)), found.group(3))
    return re.sub(rb"(?m)^( *step +)([0-9]{1,9})( *)$", cut, commands)


def a_watch(rng, plan):
    """A value of the state that `when` can be asked for."""
    phases = [int(index) for index, value in plan["phaseEnabled"].items() if value]
    kind = rng.choice(["interval", "interval", "ped", "call", "call", "output", "alarm"])
    if kind in ("output", "alarm"):
        return f"when {kind} {rng.randint(1, 16)}"
    if kind == "ped":
        walking = [int(index) for index, value in plan.get("phaseWalk", {}).items() if value]
        phases = walking or phases
    return f"when {kind} {rng.choice(phases)}"


def closing(rng, plan):
    """Commands for the end of a session: what changed when, and the way back."""
    found = ["when stage", "when trip"] + [a_watch(rng, plan) for _ in range(rng.randint(6, 10))]
    if rng.random() < 0.4:
        found += [f"back {rng.randint(1, 60)}"] + [a_watch(rng, plan) for _ in range(3)]
        found += [f"step {rng.randint(1, 60)}"] * rng.randint(0, 1)
    if rng.random() < 0.3:
        found += ["undo"] * rng.randint(2, 12) + ["show"]
    return ("\n".join(found) + "\n").encode()


ODD_LINES = ["", "   ", " # no comment", "\tshow", "show\t", "st ep 1", "SHOW"]


def zero_padded(rng, word):
    """A number with zeros before it, of ten digits at most."""
    return word.zfill(rng.randint(1, 10)) if word.isdigit() else word


def rough(rng, commands):
    """The commands in other forms: spaces, zeros, carriage returns, comments, long lines, no last line end."""
    found = []
    for line in commands.decode().splitlines():
        words = [zero_padded(rng, word) if rng.random() < 0.3 else word for word in line.split(" ")]
        line = "".join(word + " " * rng.choice([1, 1, 2, 5]) for word in words)
        line = " " * rng.choice([0, 0, 1, 3]) + line.rstrip(" ") + " " * rng.choice([0, 0, 1, 2])
        if rng.random() < 0.05:
            line = line.ljust(rng.choice([199, 200, 201]))
        if rng.random() < 0.1:
            found.append(rng.choice(ODD_LINES + ["# " + line]))
        found.append(line + rng.choice(["", "", "\r"]))
    return "\n".join(found).encode() + rng.choice([b"", b"\n", b"\r\n", b"\n\n", b"\r"])


def with_returns(log):
    """The log with carriage returns before its line ends, and a blank line."""
    return log.replace(b"\n", b"\r\n") + b"  \r\n"


def pace(seed):
    """How many ticks a session of a seed is to have, and how many commands the generator writes."""
    return [(60, 14), (150, 12), (250, 14), (400, 16)][seed % 4]


def random_session(reference, kind, seed):
    """A session of a generator of the reference, shorter and varied."""
    rng = random.Random(f"{kind} {seed}")
    ticks, size = pace(seed)
    make = {"even": reference.even.case, "late": reference.late.case}[kind]
    text, log, commands = make(seed, 2, reference.accepts, size, 2 * ticks)
    plan = json.loads(text)
    if rng.random() < 0.6 and reference.accepts(brisk(plan)):
        plan = brisk(plan)
    commands = paced(commands, ticks) + closing(rng, plan)
    if rng.random() < 0.04:
        lines = commands.splitlines(True)
        commands = b"".join(lines[:-4] + [b"quit\n"] + lines[-4:])
    if rng.random() < 0.07:
        commands, log = rough(rng, commands), with_returns(log)
    return plan, log, commands


def aimed_session(reference, seed):
    """A session of a family."""
    rng = random.Random(f"aimed {seed}")
    family = FAMILIES[seed % len(FAMILIES)]
    turn = 2 * (seed // len(FAMILIES)) + seed % len(FAMILIES)
    plan, log, commands = family(reference, rng, turn)
    assert reference.accepts(plan), f"seed {seed}: {family.__name__} makes a plan that has a fault"
    text = "".join(command + "\n" for command in commands).encode()
    if family is odd_words and rng.random() < 0.7:
        text = rough(rng, text)
    return plan, log.encode(), text + (closing(rng, plan) if rng.random() < 0.3 else b"")


def tripped_session(reference, seed):
    """A session in which the monitor trips."""
    plan, log, commands = trips(reference, random.Random(f"tripped {seed}"), seed)
    return plan, log.encode(), "".join(command + "\n" for command in commands).encode()


def option_session(reference, seed):
    """A session with options of coordination."""
    plan, log, commands = options(reference, random.Random(f"options {seed}"), seed)
    family = family_of(seed)
    is_well = family is broken_plans or reference.accepts(plan)
    assert is_well, f"seed {seed}: {family.__name__} makes a plan that has a fault"
    return plan, log.encode(), "".join(command + "\n" for command in commands).encode()


# --- the whole ---

def session(reference, kind, seed):
    """The name, plan text, log, commands and answers of a session."""
    name = f"{kind}_{seed}"
    if kind == "mangled":
        plan, log, commands = mangled(random.Random(f"mangled {seed}"), seed)
        return name, plan, log, commands, reference.answers(plan, log, commands)
    if kind == "aimed":
        plan, log, commands = aimed_session(reference, seed)
        name = f"{FAMILIES[seed % len(FAMILIES)].__name__}_{seed}"
    elif kind == "tripped":
        plan, log, commands = tripped_session(reference, seed)
    elif kind == "options":
        plan, log, commands = option_session(reference, seed)
        name = f"{family_of(seed).__name__}_{seed}"
    else:
        plan, log, commands = random_session(reference, kind, seed)
    text = compact(plan)
    answers = reference.answers(text, log, commands)
    return name, text, shortened(log, last_tick(answers)), commands, answers


def cases(reference, kind, seeds, every):
    """The cases of a file, one after another."""
    for seed in seeds:
        name, plan, log, commands, answers = session(reference, kind, seed)
        is_told = seed % every == 0 and len(answers) <= LONGEST_TOLD
        yield stored_cases.spelled(name, plan, log, commands, answers, is_told)


def main():
    """Reads the words and writes the file."""
    parser = argparse.ArgumentParser(description=__doc__.split("\n", 1)[0])
    parser.add_argument("--reference", required=True, help="the folder of the reference")
    parser.add_argument("--kind", required=True, choices=sorted(TITLES))
    parser.add_argument("--seeds", required=True, nargs=2, type=int, metavar=("LO", "HI"))
    parser.add_argument("--told", type=int, default=10, metavar="EVERY", help="one of so many has its answers in full")
    parser.add_argument("--out", required=True, help="the file to write")
    words = parser.parse_args()
    low, high = words.seeds
    asked = f"--kind {words.kind} --seeds {low} {high} --told {words.told}"
    source = f"Written by tools/reference/make_sessions.py {asked}."
    found = cases(Reference(words.reference), words.kind, range(low, high), words.told)
    stored_cases.write(words.out, TITLES[words.kind], source, found)


if __name__ == "__main__":
    main()
