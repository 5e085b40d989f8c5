"""`python3 -m tsb report`: what it does, and its faults."""

import sys
import warnings
from collections.abc import Sequence

from tsb import files
from tsb.errors import Error
from tsb.report.numbers import Numbers
from tsb.report.page import page_of
from tsb.report.sources import runs_of
from tsb.report.words import PROGRAM, read_words


def main(words: Sequence[str]) -> int:
    """Makes a report; the status to end with: 1 for what can't be read, is refused or
    can't be written, 2 for bad words (from argparse)."""
    given = read_words(words)
    try:
        with warnings.catch_warnings(record=True) as told:
            warnings.simplefilter("always", UserWarning)
            runs = runs_of(given)
        notes = [str(it.message) for it in told if it.category is UserWarning]
        several = len(runs), given.consecutive
        numbers = [Numbers(run, place, *several) for place, run in enumerate(runs)]
        text = page_of(numbers, given.title, notes, given.plan_b is not None)
        files.write(given.out, text.encode(errors="replace"))
    except OSError as fault:
        where = fault.filename or given.out
        print(f"{PROGRAM}: {where}: {fault.strerror or fault}", file=sys.stderr)
        return 1
    except Error as fault:
        print(f"{PROGRAM}: {fault}", file=sys.stderr)
        return 1
    for note in notes:
        print(f"{PROGRAM}: {note}", file=sys.stderr)
    return 0
