"""Runs the built program tsb_live, and compares each byte that it answers; run it at the top.

    python3 -m tools.programs.run_live TSB_LIVE TSB TSB_FIELD

The others are the programs of crates tsb and tsb_field. Live sessions whose rows are those of a log are answered as
`tsb run` answers them; stored ones, in which tick numbers are taken again with other inputs, as an independent
reference does. What is asked of a live session alone is compared with `tsb run`, `tsb check`, `tsb_field record` and
cases that were worked by hand; tools/programs/run_status.py has the statuses. The last line of each group of checks
says how it came out.
"""
import pathlib
import sys

from tools.programs import json_places, live_logs, live_pipes, live_stored, live_told, live_worked
from tools.programs.live_kit import NAMED, Check


def checks(live: pathlib.Path, tsb: pathlib.Path, field: pathlib.Path) -> dict[str, Check]:
    """What is checked beside the sessions."""
    return {
        "changes": lambda: live_worked.changes(live, tsb),
        "plan": lambda: live_worked.plans(live, tsb),
        "edits": lambda: live_worked.edits(live),
        "status": lambda: live_worked.first_status(live),
        "goto": lambda: live_worked.clocked(live),
        "help": lambda: live_worked.helped(live),
        "events": lambda: live_told.events(live, field),
        "saved runs": lambda: live_told.saved(live, tsb),
        "commands that are repeated": lambda: live_told.echoed(live),
        "strict runs": lambda: live_told.strict(live),
        "the last change of an input": lambda: live_told.inputs(live),
        "what a session tells besides": lambda: live_told.worked(live),
        "one row at a time": lambda: live_pipes.one_at_a_time(live),
        "a hundred rows ahead": lambda: live_pipes.many_ahead(live),
        "a byte at a time": lambda: live_pipes.byte_by_byte(live) + live_pipes.answered_together(live),
        "ends of input and of lines": lambda: live_pipes.ends(live),
        "streams that fail": lambda: live_pipes.streams(live),
        "plans that are refused": lambda: live_pipes.plans(live, tsb),
        "where plan texts stop being JSON": lambda: json_places.compare(live),
        "words": lambda: live_pipes.words(live),
        "runs short of memory": lambda: live_pipes.short_of_memory(live),
    }


def main(words: list[str]) -> int:
    """Checks all, and prints what came out."""
    if len(words) != 3:
        sys.exit("usage: python3 -m tools.programs.run_live TSB_LIVE TSB TSB_FIELD")
    live, tsb, field = (pathlib.Path(word).resolve() for word in words)
    for path in (live, tsb, field):
        if not path.is_file():
            sys.exit(f"there is no {path}")
    failed = 0
    for wrong, told in [live_logs.compare(live, tsb), live_stored.compare(live, [live_stored.STORED])]:
        print("\n".join(wrong) if wrong else told, flush=True)
        failed += len(wrong)
    for name, check in checks(live, tsb, field).items():
        wrong = check()
        print("\n".join(wrong[:NAMED]) if wrong else f"{name}: as it should be", flush=True)
        failed += len(wrong)
    return 1 if failed else 0


if __name__ == "__main__":
    sys.exit(main(sys.argv[1:]))
