"""Writes stored live sessions, and what an independent reference answers to them.

    python3 -m tools.reference.make_live --reference FOLDER --seeds LO HI [--told EVERY] [--processes N] --out FILE

FOLDER holds the reference (make_sessions.py says what that is). A session is one that make_sessions.py makes, of each
kind in turn, in which each step has become rows, steps with the row held, and `changes`, at random. So a tick number
that is taken again has other inputs in most cases. Among the lines are `status`, `plan` and `edits`, and some that were
mangled. A seed always gives the same session; LO is the first and HI stands behind the last. Of every so many sessions
one stands with its answers in full, where they are short. The head of the file that is written says how it reads.
"""
import argparse
import concurrent.futures
import functools
import pathlib
import random
import re

from tools.programs import stored_cases
from tools.reference import make_sums
from tools.reference.make_sessions import LONGEST_TOLD, session
from tools.reference.reference_live import answers_of

HEAD = """\
# Live sessions at random: rows and commands, tick numbers that are taken again with other inputs, and mangled lines.
#
# A case is a line that heads it, then its pieces, each followed by a line feed:
#   session NAME LENGTH LENGTH LENGTH LINES SUM: a plan text, nothing, and the lines of the session
#   told NAME LENGTH LENGTH LENGTH LENGTH: a plan text, nothing, the lines of the session and the answers
# A length is that of a piece in bytes, which may be any bytes. Lines that begin with # and blank lines before a
# head are skipped.
#
# Answered is what `tsb_live` writes. LINES is how many lines these are, and SUM the 32-bit FNV-1a of their bytes: from
# 2166136261 on, for each byte, the exclusive or with the byte, times 16777619, modulo 4294967296. The answers are those
# of an independent implementation.
#
# Written by tools/reference/make_live.py --seeds {low} {high} --told {told}.

"""
KINDS = ["even", "late", "aimed", "tripped"]
STEP = re.compile(rb" *step +([0-9]{1,9}) *")
# Ticks that the steps of a session have at most, and those that one line takes.
TICKS, AT_ONCE = 150, 40
ASKED = [b"status", b"plan", b"edits", b"save", b"changes 0", b"  status ", b"edits  ", b"changes 007", b"show", b"step 2",
         b"events on", b"events on", b"events off", b"echo on", b"echo off", b"when input 1", b"when  input 4 ",
         b"when input 16", b"when button 2", b"when button 8", b"when preempt 1", b"when preempt 4"]
MANGLED = [b"changes", b"changes 1 1", b"changes x", b"changes 4294967296", b"status now", b"plan 1", b"Edits",
           b"save 1", b"events", b"events of", b"echo on on", b"when input 0", b"when input 17", b"when button 9",
           b"when preempt 5", b"when inputs 1", b"when input 1 1",
           b"statu", b"10000000000000000 00000000 0000", b"0000000000000000 00000000 000",
           b"0000000000000000  00000000 0000", b"0000000000000000 00000002 0000",
           b" 0000000000000000 00000000 0000", b"0000000000000000 00000000 0000 ",
           b"0000000000000000\t00000000 0000", b"\xff", b"", b"   ", b"# status", b" # status", b"x" * 201, b" " * 201,
           b"0000001 0000000000000000 00000000 0000", b"plan" + b" " * 196, b"plan" + b" " * 197, b"1" * 300]


def a_row(rng: random.Random) -> bytes:
    """A row in which some inputs are on."""
    busy = rng.choice([0.0, 0.05, 0.2, 0.5])
    rare = rng.choice([0.0, 0.0, 0.0, 0.05, 0.3])
    fields = [(16, busy), (8, busy / 2), (4, rare)]
    texts = ["".join("1" if rng.random() < part else "0" for _ in range(count)) for count, part in fields]
    return " ".join(texts).encode()


def taken(rng: random.Random, ticks: int) -> list[bytes]:
    """Lines that take about so many ticks, with rows at random."""
    found, row = [], a_row(rng)
    while ticks > 0:
        row = a_row(rng) if rng.random() < 0.7 else row
        many = rng.randint(0, min(ticks, AT_ONCE))
        way = rng.choice(["row", "row", "row", "step", "changes"])
        line = {"row": row, "step": b"step %d" % many, "changes": b"changes %d" % many}[way]
        found.append(line)
        ticks -= 1 if way == "row" else max(many, 1)
    return found


def given(rng: random.Random, commands: bytes) -> bytes:
    """The lines of a live session, from the commands of another."""
    found, left = [], TICKS
    for line in commands.split(b"\n")[:-1]:
        step = STEP.fullmatch(line)
        if step:
            ticks = min(int(step[1]), left)
            left -= ticks
            found += taken(rng, ticks)
        else:
            found.append(line)
        if rng.random() < 0.3:
            found.append(rng.choice(ASKED))
        if rng.random() < 0.1:
            found.append(rng.choice(MANGLED))
        if rng.random() < 0.1:
            found.append(rng.choice([b"undo", b"back 1", b"back %d" % rng.randint(1, 40)]))
            found += taken(rng, rng.randint(1, 20))
    end = rng.choice([b"\n"] * 8 + [b"\r\n", b""])
    return rng.choice([b"\n"] * 9 + [b"\r\n"]).join(found) + end


def case(reference_folder: str, every: int, seed: int) -> bytes:
    """A session with its answers, as it is stored."""
    reference, rng = make_sums.reference_of(reference_folder), random.Random(f"live {seed}")
    name, plan, _, commands, _ = session(reference, KINDS[seed % len(KINDS)], seed)
    lines = given(rng, commands)
    answers = answers_of(reference, plan, lines)
    is_told = seed % every == 0 and len(answers) <= LONGEST_TOLD
    return stored_cases.spelled(f"live_{name}", plan, b"", lines, answers, is_told)


def main() -> None:
    """Reads the words and writes the file."""
    parser = argparse.ArgumentParser(description=__doc__.split("\n", 1)[0])
    parser.add_argument("--reference", required=True, help="the folder of the reference")
    parser.add_argument("--seeds", required=True, nargs=2, type=int, metavar=("LO", "HI"))
    parser.add_argument("--told", type=int, default=7, metavar="EVERY", help="one of so many has its answers in full")
    parser.add_argument("--processes", type=int, default=1, help="how many sessions are found at once; 1 without it")
    parser.add_argument("--out", required=True, help="the file to write")
    words = parser.parse_args()
    low, high = words.seeds
    made = functools.partial(case, words.reference, words.told)
    with open(pathlib.Path(words.out), "wb") as file, concurrent.futures.ProcessPoolExecutor(words.processes) as pool:
        file.write(HEAD.format(low=low, high=high, told=words.told).encode())
        file.writelines(pool.map(made, range(low, high), chunksize=4))


if __name__ == "__main__":
    main()
