"""Files that say of each stored session how many lines a text of it has, and a sum of these.

A line is `NAME LINES SUM`, or `NAME fault` where the plan or the log of the session has a fault. `compare` runs a
program on the same sessions. tools/reference/make_sums.py writes such files.
"""
import concurrent.futures
import pathlib
import subprocess
import sys
import tempfile
from collections.abc import Callable, Iterator

from tools.programs import stored_cases

# The seconds that a session has at most; one takes some hundredths.
SECONDS = 600
# How many sessions that differ are named.
NAMED = 20

SumOf = Callable[[bytes], object]
Difference = Callable[[pathlib.Path, stored_cases.Case, str], str | None]  # what a program has otherwise than it should


def told(text: bytes, sum_of: SumOf) -> str:
    """How many lines a text has, and its sum."""
    return f"{text.count(10)} {sum_of(text)}"


def sums_of(path: pathlib.Path) -> dict[str, str]:
    """What a file of sums has of each session, by its name."""
    lines = path.read_text(encoding="utf-8").splitlines()
    return dict(line.split(" ", 1) for line in lines if line and not line.startswith("#"))


def ran(words: list[str | pathlib.Path], case: stored_cases.Case) -> subprocess.CompletedProcess[bytes]:
    """A run of a program on a session: its words, then the files of the plan and the log; it reads the commands."""
    with tempfile.TemporaryDirectory() as folder:
        plan, log = pathlib.Path(folder, "plan"), pathlib.Path(folder, "log")
        plan.write_bytes(case.plan)
        log.write_bytes(case.log)
        return subprocess.run([*words, plan, log], input=case.commands, capture_output=True, check=False,
                              timeout=SECONDS)


def difference(done: subprocess.CompletedProcess[bytes], case: stored_cases.Case, wanted: str,
               sum_of: SumOf) -> str | None:
    """What a run has otherwise than it should: at a fault of plan or log nothing is written, and the status is 1."""
    if wanted == "fault":
        is_well = (done.returncode, done.stdout) == (1, b"")
        return None if is_well else f"{case.name}: {done.returncode}, {done.stdout[:80]!r}, not a fault"
    found = told(done.stdout, sum_of) if done.returncode == 0 else f"status {done.returncode}"
    return None if found == wanted else f"{case.name}: {found}, not {wanted}"


def differences(program: pathlib.Path, sums: dict[str, str], paths: list[pathlib.Path],
                difference_of: Difference) -> Iterator[str | None]:
    """What each session has otherwise than it should, a few at a time."""
    cases = [case for path in paths for case in stored_cases.read(path)]
    missing = set(sums) ^ {case.name for case in cases}
    if missing:
        yield f"sums and sessions are not the same: {sorted(missing)[:4]}"
        return
    wanted = [sums[case.name] for case in cases]
    with concurrent.futures.ProcessPoolExecutor() as pool:
        yield from pool.map(difference_of, [program] * len(cases), cases, wanted, chunksize=8)


def compare(words: list[str], usage: str, files: list[str], difference_of: Difference, well: str) -> int:
    """Reads the words of a program that compares such a file, compares all sessions, and says how many there were.

    `files` are the sums and the sessions where the words name none, and `well` follows their number where all is well.
    """
    if len(words) == 2 or not words:
        sys.exit(f"usage: {usage}")
    program = pathlib.Path(words[0]).resolve()
    if not program.is_file():
        sys.exit(f"there is no {program}")
    sums, *paths = [pathlib.Path(word) for word in words[1:]] or [stored_cases.CASES / name for name in files]
    found = list(differences(program, sums_of(sums), paths, difference_of))
    wrong = [it for it in found if it is not None]
    print("\n".join(wrong[:NAMED]) if wrong else well.format(count=len(found)))
    return 1 if wrong else 0
