"""Compares programs with the reference that has arrows, on sessions at random.

    python3 -m tools.reference.compare_arrows FOLDER LO HI WAY PROGRAM

The sessions are those of seeds LO to HI. WAY is `run` for tsb, `status` for tsb_live, `record` or `card` for tsb_field.
"""
import json
import pathlib
import random
import subprocess
import sys
import tempfile

from tools.reference.arrow_families import session
from tools.reference.reference_arrows import card
from tools.reference.arrow_kit import ArrowReference
from tools.programs.run_record import DEVICE, FORMS, FROM
from tools.programs.run_status import asked
from tools.reference.make_sessions import compact
from tools.reference.make_status import states_of
from tools.reference.reference_events import Form, opened, records
from tools.reference.reference_status import status_of
from tools.reference.reference_status_text import line_of

PAIRS = 0


def ran(words, room, given=b""):
    """What a program writes, and how it ends."""
    return subprocess.run(words, cwd=room, input=given, capture_output=True, timeout=120)


def first(one, other):
    """The first line in which two texts differ."""
    for k, (a, b) in enumerate(zip(one.split(b"\n") + [b"-"], other.split(b"\n") + [b"-"])):
        if a != b:
            return f"line {k + 1}: {a[:900]!r} for {b[:900]!r}"
    return "lengths"


def by_run(reference, program, room, plan, log, commands):
    """The answers of a session."""
    done = ran([program, "run", "plan", "log"], room, commands)
    wanted = reference.bench.run_text(plan, log, commands, 2)
    return None if done.stdout == wanted and done.returncode == 0 else first(done.stdout + done.stderr, wanted)


def by_record(reference, program, room, plan, log, commands):
    """Its records, in three forms."""
    forms = [Form("--recalls" in it, "--outputs" in it) for it in FORMS]
    wanted = records(reference, plan, log, commands, FROM, DEVICE, forms)
    for options, text in zip(FORMS, wanted):
        done = ran([program, "record", "--no-clock", "--from", f"{FROM}", "--device", DEVICE, "--go-on", *options, "plan", "log"],
                   room, commands)
        if done.stdout != text:
            return f"{options} {first(done.stdout, text)}"
    return None


def by_status(reference, program, room, plan, log, commands):
    """Its statuses."""
    bench = reference.bench
    answers = bench.run_text(plan, log, commands, 2)
    lines, others = asked(log, commands, answers)
    done = ran([program, "plan"], room, lines)
    told = done.stdout.splitlines(True)
    beside = b"".join(it for it in told if not it.startswith(b"{"))
    if beside != others:
        return f"beside {first(beside, others)}"
    run = opened(bench, plan, log)
    wanted = b"".join(line_of(status_of(reference, state)).encode() + b"\n" for state in states_of(bench, run, commands))
    found = b"".join(it for it in told if it.startswith(b"{"))
    return None if found == wanted else first(found, wanted)


def text_of(pairs):
    """The text of a card."""
    return "".join(f"{a}-{b}\n" for a, b in pairs).encode()


def by_card(reference, program, room, plan, log, commands):
    """Its card, and what another card has otherwise."""
    global PAIRS
    bench = reference.bench
    timing, _ = bench.read_plan(plan, bench.V2)
    wanted = card(bench, timing)
    PAIRS += len(wanted)
    done = ran([program, "card", "plan"], room)
    if (done.returncode, done.stdout) != (0, text_of(wanted)):
        return first(done.stdout + done.stderr, text_of(wanted))
    rng = random.Random(plan)
    other = {(a, b) for a in range(1, 17) for b in range(a + 1, 17) if ((a, b) in wanted) != (rng.random() < 0.05)}
    for pairs in (set(wanted), other):
        (pathlib.Path(room) / "card").write_bytes(b"# a card\n\n" + text_of(rng.sample(sorted(pairs), len(pairs))))
        done = ran([program, "card", "--against", "card", "plan"], room)
        lines = [("missing" if pair in wanted else "too many", pair) for pair in sorted(set(wanted) ^ pairs)]
        text = "".join(f"{what} {a}-{b}\n" for what, (a, b) in lines).encode()
        if (done.returncode, done.stdout) != (5 if lines else 0, text):
            return f"{done.returncode} {first(done.stdout + done.stderr, text)}"
    return None


WAYS = {"run": by_run, "record": by_record, "status": by_status, "card": by_card}


def main(words):
    folder, low, high, way, program = words[0], int(words[1]), int(words[2]), words[3], pathlib.Path(words[4]).resolve()
    reference, wrong = ArrowReference(folder), 0
    with tempfile.TemporaryDirectory() as room:
        for seed in range(low, high):
            plan, log, commands = session(reference, seed, reference.count())
            text = compact(plan)
            (pathlib.Path(room) / "plan").write_bytes(text)
            (pathlib.Path(room) / "log").write_bytes(log)
            found = WAYS[way](reference, program, room, text, log, commands)
            if found is not None:
                wrong += 1
                print(f"seed {seed}: {found}", flush=True)
                if wrong == 10:
                    break
    print(f"{way}: seeds {low} to {high - 1}, {wrong} differ" + (f", {PAIRS} pairs" if PAIRS else ""))


if __name__ == "__main__":
    main(sys.argv[1:])
