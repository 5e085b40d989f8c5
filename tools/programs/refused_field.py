"""Refuses the calls of the built program of field files, one in each run, and compares what it then writes; run it at
the top, with the program's path.

It does for tsb_field what tools/programs/refused_calls.py does for tsb, by the same library: the k-th request for
memory, read or write is refused, for k from 1 on until a run makes fewer. Each run has to end as docs/use/FIELD.md
says: with 3, the line of the failure, and a prefix of what it writes otherwise; where a read of `log` fails, with the
rows that are known by then.
"""
import errno
import pathlib
import sys
import tempfile

from tools.programs import field_rules
from tools.programs.field_cases import ALL_LINES, BEGIN, FROM
from tools.programs.refused_calls import MEMORY, PIECE, WRITE, Differences, Program, built
from tools.programs.run_program import INPUT, not_read

LOG = "examples/one_row.log"

# A row of another device and an event of a channel without an input are left out.
EVENTS = field_rules.HEADER + b"".join(
    b"%d,2026-11-22 07:00:%02d.5,%d,%d\n" % (7 + (k == 9), k, 82 - k % 2, 1 + (k == 12) * 30) for k in range(40))

# The same with the month first, which is reported.
MONTH_FIRST = EVENTS.replace(b"2026-11-22", b"11/22/2026")

# The same with each second row before the one above it, which is a second late then.
TURNED = field_rules.HEADER + b"".join(
    second + first for first, second in zip(*[iter(EVENTS.splitlines(True)[1:])] * 2))

# Words of `log`, what is read, and the device, the wires and the window that the words name.
LOGS = [
    (["log", *FROM, "--device", "7", "--vehicle", "40=3"], EVENTS, b"7", [("vehicle", 40, 3)]),
    (["log", *FROM], EVENTS + b"x\n", None, []),
    (["log", *FROM, "--count", "--zone=Z"], MONTH_FIRST, None, []),
    (["log", *FROM, "--count", "--device=9"], EVENTS, b"9", []),
    (["log", *FROM, "--sort-within=1"], TURNED, None, [], 1),
    (["log", *FROM, "--sort"], EVENTS + b"x\n", None, [], 60),
]

# Words, and what is read.
RECORD = ["record", *FROM, "--device", "7", "examples/quad.json"]
COMMANDS = b"step 3\npattern 1\nstep 60\nback 40\nundo\nquit\nx\n"
OTHERS = [
    (["log", *FROM, "--count", "--as-outputs", "examples/main_and_oak.json"], EVENTS),
    (["log", *FROM, "--as-outputs", "examples/two_short_yellow.json"], EVENTS),
    (["log", *FROM, "--as-outputs", "none.json"], EVENTS),
    ([*RECORD, LOG], COMMANDS),
    ([*RECORD, LOG, "--go-on"], COMMANDS),
    ([*RECORD, LOG, "--recalls", "--outputs"], COMMANDS),
    ([*RECORD, "none.log"], b"step 3\n"),
    (["events", *FROM, "--device", "7", "--log", LOG], ALL_LINES),
    (["events", "--from", "9999-12-31 00:00:00", "--device", "7"], ALL_LINES),
    (["diagram", "--log", LOG, "--title", "A & B"], ALL_LINES),
    (["diagram", "--log", "none.log"], ALL_LINES),
    (["review", "examples/main_and_oak.json"], b""),
    (["review", "examples/two_short_yellow.json"], b""),
    (["review", "none.json"], b""),
    (["worksheet", "examples/main_and_oak.json"], b""),
    (["worksheet", "examples/two_short_yellow.json"], b""),
    (["worksheet", "none.json"], b""),
    (["card", "examples/arrows.json"], b""),
    (["card", f"--against={LOG}", "examples/arrows.json"], b""),
    (["card", "--against=none.txt", "examples/arrows.json"], b""),
    (["schedule", "--week=2026-12-06", "examples/schedule.json"], b""),
    (["schedule", "--week=2026-12-06", "--svg", "examples/schedule.json"], b""),
    (["what"], b""),
]
RUNS = [*((words, text) for words, text, *_ in LOGS), *OTHERS]


def fronts(text):
    """All prefixes of a text, itself among them."""
    return [text[:k] for k in range(len(text) + 1)]


def stopped_records(program, words, text):
    """What a record is where one of its commands has no memory: the command is told, and refused with E1, which ends a
    strict record with 4. One that goes on is that of the commands without it, or of a step that ends with the tick
    before."""
    lines = text.splitlines(True)
    for number, line in enumerate(lines, 1):
        refused = b"command %d: %s: refused E1 Memory\n" % (number, line.rstrip(b"\n"))
        if line.startswith((b"step", b"pattern")):
            if "--go-on" not in words:
                yield 4, b"", refused
                continue
            shorter = [b"step %d\n" % k for k in range(int(line.split()[1]))] if line.startswith(b"step") else [b"#\n"]
            for one in shorter:
                _, record, told, *_ = program.run(words, b"".join([*lines[:number - 1], one, *lines[number:]]))
                yield 0, record, told + refused


def memory(program, wrong):
    """Refuses each request for memory. One, behind those for the words given, is for what it can do without."""
    for words, text in RUNS:
        whole = program.run(words, text)[:3]
        stopped = list(stopped_records(program, words, text)) if words[0] == "record" and whole[0] == 0 else []
        for number, ended in program.sweep(words, text):
            refused = ((3, front, MEMORY) for front in fronts(whole[1]))
            wrong.compare(f"{words}, request {number}", ended, whole, *stopped, *refused)


def reads_of_log(program, wrong):
    """Fails each read of `log`. Each one before took a piece; the rows that are known by these go out."""
    for words, text, *asked in LOGS:
        for error in [errno.EIO, errno.EINTR]:
            for number, ended in program.sweep(words, text, kind="read", error=error, piece=PIECE):
                known = field_rules.begun_log(text[:PIECE * (number - 1)], BEGIN, *asked)
                wrong.compare(f"{words}, read {number}, error {error}", ended, (3, known, INPUT))


def reads(program, wrong):
    """Fails each other read. One of a file that is interrupted is tried again; one of standard input is not."""
    for words, text in OTHERS:
        whole = program.run(words, text)[:3]
        files = [word.removeprefix("--against=") for word in words if word.endswith((".json", ".log"))]
        for error in [errno.EIO, errno.EINTR]:
            for number, ended in program.sweep(words, text, kind="read", error=error, piece=PIECE):
                others = [whole] if error == errno.EINTR else [(3, b"", not_read(path)) for path in files]
                wrong.compare(f"{words}, read {number}, error {error}", ended, *others,
                              *((3, front, INPUT) for front in fronts(whole[1])))


def writes(program, wrong):
    """Fails each write; one that is interrupted may be tried again. Only the status shows that of errors: a line of
    what was read well that is not written ends with 3."""
    for words, text in RUNS:
        whole = program.run(words, text)[:3]
        for error in [errno.EIO, errno.EINTR, 0]:
            again = [whole] if error == errno.EINTR else []
            for number, ended in program.sweep(words, text, kind="write", error=error, piece=1000):
                told = [(whole[0] or 3, whole[1], front) for front in fronts(whole[2])]
                wrong.compare(f"{words}, write {number}, error {error}", ended, *again, *told,
                              *((3, front, WRITE) for front in fronts(whole[1])),
                              *((whole[0], front, whole[2]) for front in fronts(whole[1]) if whole[0] == 1))


def pieces(program, wrong):
    """Reads and writes move a byte at a time."""
    for words, text in RUNS:
        wrong.compare(f"{words}, a byte at a time", program.run(words, text, piece=1), program.run(words, text)[:3])


def main(words):
    if len(words) != 1:
        sys.exit("usage: python3 -m tools.programs.refused_field PROGRAM")
    path = pathlib.Path(words[0]).resolve()
    if not path.is_file():
        sys.exit(f"there is no {path}")
    wrong = Differences()
    with tempfile.TemporaryDirectory() as folder:
        program = Program(path, built(folder))
        for sweep in (memory, reads_of_log, reads, writes, pieces):
            sweep(program, wrong)
    wrong += [f"no call was refused: {kind}" for kind in ("memory", "read", "write") if not program.refused[kind]]
    told = ", ".join(f"{count} of {kind}" for kind, count in sorted(program.refused.items()))
    print("\n".join(wrong) if wrong else f"refused calls of tsb_field: {program.runs} runs as expected, {told}")
    return 1 if wrong else 0


if __name__ == "__main__":
    sys.exit(main(sys.argv[1:]))
