"""Runs the stored sessions of the whole controller with the built program: run_stored.py PROGRAM, at the top.

The plan and the log of each are files, its commands and answers pipes. What the program writes is compared with the
stored answers, or with how many lines they are and with their sum. How many sessions each file has is said by
`cases/counts.txt`. The short sessions, plan texts and logs are run by run_cases.py.
"""
import pathlib
import re
import subprocess
import sys
import tempfile

from tools.programs import stored_cases

# The files of sessions of the whole controller.
FILES = ["aimed", "even", "late", "mangled", "options", "tripped", "worked"]
# The seconds that a session has at most; one takes some thousandths.
SECONDS = 60
# A second line of a plan or a log that is refused.
SECOND = re.compile(rb"(plan|log) line \d+[^\n]*: [^\n]*\n")
# How many sessions that differ are named.
NAMED = 10


def written(program: pathlib.Path, folder: pathlib.Path, case: stored_cases.Case) -> bytes | None:
    """What the program writes: the answers with status 0, or the first fault of plan or log with status 1, without a second
    line that says more of the text. It is none where it writes both, or ends otherwise."""
    (folder / "plan").write_bytes(case.plan)
    (folder / "log").write_bytes(case.log)
    try:
        done = subprocess.run([program, "run", "plan", "log"], cwd=folder, input=case.commands, capture_output=True,
                              timeout=SECONDS)
    except subprocess.TimeoutExpired:
        return None
    if done.returncode not in (0, 1) or (done.stdout if done.returncode else done.stderr):
        return None
    first, end, second = done.stderr.partition(b"\n")
    return None if second and not SECOND.fullmatch(second) else done.stdout + first + end


def is_as_expected(case: stored_cases.Case, found: bytes | None) -> bool:
    """Whether these are the stored answers, or as many lines with the same sum."""
    if found is None or case.answers is not None:
        return found == case.answers
    return found.count(b"\n") == case.lines and stored_cases.checksum(found) == case.sum


def main(words: list[str]) -> int:
    if len(words) != 1:
        sys.exit("usage: python3 -m tools.programs.run_stored PROGRAM")
    program = pathlib.Path(words[0]).resolve()
    counts = stored_cases.counts()
    ran, failed = 0, False
    with tempfile.TemporaryDirectory() as room:
        for name in FILES:
            cases = list(stored_cases.read(stored_cases.CASES / f"{name}.cases"))
            wrong = [it.name for it in cases if not is_as_expected(it, written(program, pathlib.Path(room), it))]
            print("\n".join(f"{name}: {it} differs" for it in wrong[:NAMED]) or f"{name}: {len(cases)} sessions as expected")
            ran, failed = ran + len(cases), failed or bool(wrong) or len(cases) != counts[name]
    print(f"stored sessions: {'not as expected' if failed else f'{ran} as expected'}")
    return 1 if failed else 0


if __name__ == "__main__":
    sys.exit(main(sys.argv[1:]))
