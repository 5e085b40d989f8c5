"""Measures what users wait for, and what it grows with; run it at the top.

    python3 -m tools.speed TSB TSB_FIELD TSB_LIVE [--beside PLAIN] [--runs N] [--only SUBJECTS] [--write]

The three are the built programs. Each subject gives tables of docs/trust/SPEED.md:

- sessions: ticks with their lines, ticks taken back, records that `when` reads, lines of commands;
- texts: plan texts that are checked, and a long log;
- files: the filters of tsb_field on ten hours and on a day, and how many days are recorded in a second;
- lives: round trips of a tick through pipes;
- phases, detectors, changes, ticks: what a tick takes with more phases, with more detectors, with more of them that
  change at once, and in longer sessions;
- edits: what a transaction takes with more edits;
- profile: the functions in which a session executes its instructions.

By the clock the median and, in brackets, the least of N runs are printed (7 without it). Where valgrind is there, the
instructions are told too, as callgrind counts them: those of a run with some work less those of one without it, so that
the start of the program falls out. They are the same each time, whatever else the machine does. With PLAIN, which
answers `check` and `run` as TSB does, the runs of both are made in turn, and the ratios are printed. `--write` puts the
tables into docs/trust/SPEED.md; the words around them stay.
"""

import argparse
import pathlib
import tempfile
from collections.abc import Callable

from tools.speed.files import field_files
from tools.speed.kit import Files, Setup, Table, has_counter
from tools.speed.live import lives
from tools.speed.profile import profile
from tools.speed.sessions import change_growth, detector_growth, edit_growth, phase_growth, sessions, texts, tick_growth

DOCUMENT = pathlib.Path("docs/trust/SPEED.md")
SUBJECTS = ["sessions", "texts", "files", "lives", "phases", "detectors", "changes", "edits", "ticks", "profile"]


def words_of() -> argparse.Namespace:
    """What the words ask for."""
    parser = argparse.ArgumentParser("python3 -m tools.speed",
                                     description="Measures what users wait for, and what it grows with.")
    for name in ("tsb", "tsb_field", "tsb_live"):
        parser.add_argument(name, type=pathlib.Path, metavar=name.upper())
    parser.add_argument("--beside", type=pathlib.Path, metavar="PLAIN", help="a program that answers as TSB does")
    parser.add_argument("--runs", type=int, default=7, help="how often each is timed (7)")
    parser.add_argument("--processes", type=int, default=2, help="how many are counted at a time (2)")
    parser.add_argument("--days", type=int, default=40, help="how many days are recorded (40)")
    parser.add_argument("--part", type=int, default=1, help="a part of the ticks, to try this program (1, for all)")
    parser.add_argument("--only", default=",".join(SUBJECTS), help="these subjects, with commas between")
    parser.add_argument("--write", action="store_true", help="puts the tables into docs/trust/SPEED.md")
    asked = parser.parse_args()
    if not set(asked.only.split(",")) <= set(SUBJECTS):
        parser.error(f"the subjects are {', '.join(SUBJECTS)}")
    if asked.write and not (asked.beside and has_counter() and asked.part == 1):
        parser.error("--write needs --beside, valgrind and all ticks, for all columns of docs/trust/SPEED.md")
    return asked


def tell(table: Table, is_written: bool) -> None:
    """Prints a table, and puts it into the document if it is to be written."""
    print(f"\n{table.name}\n\n{table.text()}", flush=True)
    if is_written:
        DOCUMENT.write_text(table.put_into(DOCUMENT.read_text()))


def main() -> None:
    """Measures all that is asked for."""
    asked = words_of()
    tsb, field, live = (str(it.resolve()) for it in (asked.tsb, asked.tsb_field, asked.tsb_live))
    programs = [tsb, *([str(asked.beside.resolve())] if asked.beside else [])]
    with tempfile.TemporaryDirectory() as name:
        setup = Setup(programs, Files(pathlib.Path(name)), asked.runs, asked.processes, asked.part)
        subjects: dict[str, Callable[[], list[Table]]] = {
            "sessions": lambda: sessions(setup),
            "texts": lambda: texts(setup),
            "files": lambda: [field_files(setup, field, asked.days)],
            "lives": lambda: [lives(setup, live)],
            "phases": lambda: [phase_growth(setup)],
            "detectors": lambda: [detector_growth(setup)],
            "changes": lambda: [change_growth(setup)],
            "edits": lambda: [edit_growth(setup)],
            "ticks": lambda: [tick_growth(setup)],
            "profile": lambda: [profile(setup)] if has_counter() else [],
        }
        for subject in asked.only.split(","):
            for table in subjects[subject]():
                tell(table, asked.write)


if __name__ == "__main__":
    main()
