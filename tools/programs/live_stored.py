"""Runs a live program on stored live sessions, and compares what it answers with an independent reference.

    python3 -m tools.programs.live_stored TSB_LIVE [CASES..]

TSB_LIVE is the program of crate tsb_live. Without CASES they are cases/live.cases; tools/reference/make_live.py writes
such a file. Fresh sessions at random come from the reference, for seeds that no file has. These are 1,000:

    python3 -m tools.reference.make_live --reference FOLDER --processes 4 --seeds 3000000 3001000 --out fresh.cases
    python3 -m tools.programs.live_stored TSB_LIVE fresh.cases
"""
import concurrent.futures
import pathlib
import sys

from tools.programs import stored_cases
from tools.programs.live_kit import NAMED, difference, ran_on

USAGE = "python3 -m tools.programs.live_stored TSB_LIVE [CASES..]"
STORED = stored_cases.CASES / "live.cases"


def compared(program: pathlib.Path, case: stored_cases.Case) -> list[str]:
    """What a session is answered otherwise than it should be."""
    ended = ran_on(program, [], [case.plan], case.commands)
    if case.answers is not None or ended[0]:
        return difference(case.name, ended, case.answers or b"")
    counts = ended[1].count(b"\n"), stored_cases.checksum(ended[1])
    return [] if counts == (case.lines, case.sum) else [f"{case.name}: {counts}, not {(case.lines, case.sum)}"]


def compare(program: pathlib.Path, paths: list[pathlib.Path]) -> tuple[list[str], str]:
    """What differs in the sessions of files, and the line to print where nothing does."""
    cases = [case for path in paths for case in stored_cases.read(path)]
    with concurrent.futures.ProcessPoolExecutor() as pool:
        found = pool.map(compared, [program] * len(cases), cases, chunksize=4)
        wrong = [it for differs in found for it in differs]
    wrong += [] if cases else ["there are no sessions"]
    told = f"{len(cases)} live sessions have the {sum(case.lines for case in cases)} lines of the reference"
    return wrong[:NAMED], told


def main(words: list[str]) -> int:
    """Compares, and prints what came out."""
    if not words:
        sys.exit(f"usage: {USAGE}")
    program = pathlib.Path(words[0]).resolve()
    if not program.is_file():
        sys.exit(f"there is no {program}")
    wrong, told = compare(program, [pathlib.Path(word) for word in words[1:]] or [STORED])
    print("\n".join(wrong) if wrong else told)
    return 1 if wrong else 0


if __name__ == "__main__":
    sys.exit(main(sys.argv[1:]))
