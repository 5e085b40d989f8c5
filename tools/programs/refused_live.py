"""Refuses the calls of the built program tsb_live, one in each run, and compares what it then answers; run it at the
top, with the program's path.

It does for tsb_live what tools/programs/refused_calls.py does for tsb, by the same library. Where a tick, a command or
the line of the plan was refused for want of memory, the answers after it have to be those of a run in which it was not
given; a row whose tick was refused is held all the same.
"""
import collections
import pathlib
import sys
import tempfile

from tools.programs.refused_calls import (BEHIND, INPUTS, LATE, NEARLY, PLAN, REFUSED, WAY_BACK, Differences, Program,
                                          answers_of, before_answers, built, pieces, reads, text_of, writes)
from tools.programs.run_program import INPUT

WORDS = [PLAN]
GOOD = [WORDS, ["examples/two_short_yellow.json"], ["none.json"]]
BAD = [["--what", PLAN], [PLAN, PLAN]]

# Lines of each kind, none of them refused after any of the others. Each but a step has one answer.
ROW, OTHER = "0100000000000001 00000100 0000", "0000010000000000 00000000 0010"
LINES = [ROW, "changes 1", *INPUTS, "status", OTHER, "edits", "plan"]
# Each line comes first once, where the room of the history is used up, or behind one that asks for less.
FIRST = [[*NEARLY, "begin 1", "abort 1", *LINES[place:], *LINES[:place]] for place in range(len(LINES))]
SESSIONS = [*FIRST, *BEHIND, *LATE]
# Inputs whose events are printed, and answers after their commands; each answer but those of `save` is short.
ALONE = [it for it in INPUTS if not it.startswith("step")]
TOLD = ["events on", "echo on", ROW, *ALONE, OTHER, "when input 2", "save", "events off", ROW, "save"]
STRICT = ["--strict", PLAN]
KINDS = ["row", "step", "changes", "plan", "pattern", "preempt", "fault", "reset", "begin", "set", "verify", "commit",
         "abort", "clock", "omit"]


def without(lines: list[str], place: int) -> tuple[list[str], str, int]:
    """The lines without that which the answer at a place is of, but with its steps before it; its kind; and how many
    answers stand at that place all the same: a row has its tick taken back, and is held."""
    for number, line in enumerate(lines):
        if place < answers_of(line):
            kind = "row" if line[0].isdigit() else line.split(" ")[0]
            made = [line, "undo"] if kind == "row" else [f"step {place}"] if place else []
            return lines[:number] + made + lines[number + 1:], kind, 2 if kind == "row" else 0
        place -= answers_of(line)
    raise AssertionError("there are more answers than the lines have")


def within_a_session(program: Program, wrong: Differences, lines: list[str], first: int,
                     found: collections.Counter[str]) -> None:
    """Where memory is refused in a session, one line is, and all goes on as if it had not been given."""
    for number, ended in program.sweep(WORDS, text_of(lines), first=first):
        what = f"{lines[:3]} .., request {number}"
        answers = ended.output.decode().splitlines()
        if answers.count(REFUSED) != 1:
            wrong.append(f"{what}: {answers.count(REFUSED)} lines are refused, not one")
            continue
        place = answers.index(REFUSED)
        others, kind, more = without(lines, place)
        wanted = program.run(WORDS, text_of(others)).output.decode().splitlines()
        wanted[place:place + more] = [REFUSED]
        found[kind] += 1
        wrong.compare(what, ended, (0, text_of(wanted), b""))


def within_told_inputs(program: Program, wrong: Differences, first: int) -> int:
    """Where memory is refused to an input that has events, none is printed, and all goes on as if it had not
    been given; how often that was."""
    count, starts = 0, [answers_to(program, TOLD[:place]) for place in range(len(TOLD))]
    for number, ended in program.sweep(WORDS, text_of(TOLD), first=first):
        answers = ended.output.decode().splitlines()
        if answers.count(REFUSED) != 1:
            wrong.append(f"told inputs, request {number}: {answers.count(REFUSED)} lines are refused, not one")
            continue
        place = answers.index(REFUSED)
        line = max(at for at, start in enumerate(starts) if len(start) <= place - answers[place - 1].startswith("> "))
        is_row = TOLD[line][0].isdigit()
        others = TOLD[:line] + [TOLD[line], "undo"] * is_row + TOLD[line + 1:]
        given = answers_to(program, TOLD[:line] + [TOLD[line], "undo"] * is_row)
        wanted = starts[line] + [f"> {TOLD[line]}"] * ("echo on" in TOLD[:line]) + [REFUSED]
        wanted += answers_to(program, others)[len(given):]
        wrong.compare(f"told inputs, request {number}", ended, (0, text_of(wanted), b""))
        count += 1
    return count


def answers_to(program: Program, lines: list[str]) -> list[str]:
    """The answers to lines."""
    output: bytes = program.run(WORDS, text_of(lines)).output
    return output.decode().splitlines()


def within_a_strict_run(program: Program, wrong: Differences, first: int) -> int:
    """Where memory is refused in a strict run, that line ends it and is reported; counts how often that was."""
    count, whole = 0, program.run(STRICT, text_of(LINES)).output.decode().splitlines()
    for number, ended in program.sweep(STRICT, text_of(LINES), first=first):
        answers = ended.output.decode().splitlines()
        place = len(answers) - 1
        line, at = next((it, at) for at, it in enumerate(LINES, 1) if place < sum(map(answers_of, LINES[:at])))
        wanted = 4, text_of(whole[:place] + [REFUSED]), f"line {at}: {line}: {REFUSED}\n".encode()
        wrong.compare(f"a strict run, request {number}", ended, wanted)
        count += 1
    return count


def usage_of(program: Program) -> bytes:
    """The line about bad words, which run_live.py compares."""
    usage: bytes = program.run(BAD[0]).errors
    return usage


def memory(program: Program, wrong: Differences) -> str:
    """Refuses each request for memory, and counts the lines of each kind to which it was refused."""
    found: collections.Counter[str] = collections.Counter()
    before_answers(program, wrong, GOOD, BAD, usage_of(program))
    first = program.calls(WORDS) + 1
    for lines in SESSIONS:
        within_a_session(program, wrong, lines + WAY_BACK, first, found)
    found["told input"] = within_told_inputs(program, wrong, first)
    found["strict run"] = within_a_strict_run(program, wrong, program.calls(STRICT) + 1)
    wrong += [f"memory was refused to no {kind}" for kind in [*KINDS, "told input", "strict run"] if not found[kind]]
    return ", ".join(f"{kind} {count}" for kind, count in sorted(found.items()))


def main(words: list[str]) -> int:
    """Refuses all, and prints what came out."""
    if len(words) != 1:
        sys.exit("usage: python3 -m tools.programs.refused_live TSB_LIVE")
    path = pathlib.Path(words[0]).resolve()
    if not path.is_file():
        sys.exit(f"there is no {path}")
    wrong, lines = Differences(), LINES + TOLD + WAY_BACK
    with tempfile.TemporaryDirectory() as folder:
        program = Program(path, built(folder))
        found = memory(program, wrong)
        reads(program, wrong, WORDS, lines, [PLAN], INPUT)
        writes(program, wrong, [WORDS], lines)
        pieces(program, wrong, GOOD + BAD, lines)
    wrong += [f"no call was refused: {kind}" for kind in ("memory", "read", "write") if not program.refused[kind]]
    told = ", ".join(f"{count} of {kind}" for kind, count in sorted(program.refused.items()))
    print("\n".join(wrong) if wrong else f"refused calls: {program.runs} runs as expected, {told}; lines: {found}")
    return 1 if wrong else 0


if __name__ == "__main__":
    sys.exit(main(sys.argv[1:]))
