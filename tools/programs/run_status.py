"""Asks tsb_live for the status throughout stored sessions, and compares with the sums of a reference.

    python3 -m tools.programs.run_status TSB_LIVE TSB [SUMS CASES..]

The rows of a session's log and its commands are the lines of a live session, and `status` is asked after each tick and
each other command. All other answers are those of `tsb run`, by the program TSB. Without SUMS they are
cases/statuses.sums, of the sessions that lie beside it. Its head says of what there is a status, and
tools/reference/make_status.py writes such a file. Of a session whose plan or log has a fault there is none.

Fresh sessions at random come from the reference, for seeds that no file has. These are 10,000:

    mkdir fresh
    for kind in even late aimed tripped; do
        python3 -m tools.reference.make_sessions --reference FOLDER --kind $kind --seeds 3000000 3002500 --out
        fresh/$kind.cases 
    python3 -m tools.reference.make_status --reference FOLDER --processes 4 --out fresh/sums fresh/*.cases
    python3 -m tools.programs.run_status TSB_LIVE TSB fresh/sums fresh/*.cases
"""
import functools
import hashlib
import pathlib
import subprocess
import sys

from tools.programs import stored_cases, stored_sums
from tools.programs.live_from_log import ALL_OFF, Answers, Log, end_of, has_answer, is_quit, lines_of, ticks_of
from tools.programs.live_kit import first_difference, ran_on

USAGE = "python3 -m tools.programs.run_status TSB_LIVE TSB [SUMS CASES..]"
FILES = ["statuses.sums", "even.cases", "late.cases", "aimed.cases", "tripped.cases", "options.cases"]
STATUS = b"status\n"


def sum_of(text: bytes) -> str:
    """The first 16 hexadecimal digits of the SHA-256 of bytes."""
    return hashlib.sha256(text).hexdigest()[:16]


def asked(log: bytes, commands: bytes, answers: bytes) -> tuple[bytes, bytes]:
    """The lines of a live session that asks for each status, and all else that it is answered, of a session that `tsb run`
    answered so."""
    rows, given = Log(log), Answers(answers)
    lines: list[bytes] = []
    found: list[bytes] = []
    for line in lines_of(commands):
        if is_quit(line):
            break
        many = ticks_of(line)
        answered = given.taken(int(has_answer(line)) if many is None else many)
        found += answered
        if many is None:
            # (a line that is no command has no status)
            has_status = answered not in ([], [b"bad command\n"])
            lines += [line, end_of(line), STATUS * has_status]
            continue
        for answer in answered:
            was_refused = answer.startswith(b"refused ")
            lines += [ALL_OFF + b"\n"] if was_refused else [rows.at(int(answer[:7])), b"\n", STATUS]
    return b"".join(lines), b"".join(found)


def difference(tsb: pathlib.Path, live: pathlib.Path, case: stored_cases.Case, wanted: str) -> str | None:
    """What the statuses of a session, or its other answers, have otherwise than they should."""
    run = stored_sums.ran([tsb, "run"], case)
    if run.returncode:
        return stored_sums.difference(run, case, wanted, sum_of)
    lines, answers = asked(case.log, case.commands, run.stdout)
    ended, text, _ = ran_on(live, [], [case.plan], lines)
    told = text.splitlines(True)
    others = b"".join(line for line in told if not line.startswith(b"{"))
    if others != answers:
        return f"{case.name}: beside its statuses {first_difference(others, answers)}"
    statuses = b"".join(line for line in told if line.startswith(b"{"))
    return stored_sums.difference(subprocess.CompletedProcess([], ended, statuses), case, wanted, sum_of)


def main(words: list[str]) -> int:
    """Compares, and prints what came out."""
    if len(words) < 2 or not pathlib.Path(words[1]).is_file():
        sys.exit(f"usage: {USAGE}")
    compared = functools.partial(difference, pathlib.Path(words[1]).resolve())
    well = "statuses: {count} sessions have the lines of the reference"
    return stored_sums.compare([words[0], *words[2:]], USAGE, FILES, compared, well)


if __name__ == "__main__":
    sys.exit(main(sys.argv[1:]))
