"""Writes files of sums of stored sessions (tools/programs/stored_sums.py) from what a reference finds.

make_sessions.py says what a reference is.
"""
import argparse
import concurrent.futures
import functools
import pathlib
from collections.abc import Callable

from tools.programs import stored_cases
from tools.programs.stored_sums import SumOf, told
from tools.reference.make_sessions import Reference

# What texts a reference finds of a session, and none at a fault.
TextsOf = Callable[[Reference, stored_cases.Case], list[bytes] | None]


@functools.cache
def reference_of(folder: str) -> Reference:
    """The reference of a folder."""
    return Reference(folder)


def line_of(texts_of: TextsOf, sum_of: SumOf, folder: str, case: stored_cases.Case) -> str:
    """The line of a session."""
    texts = texts_of(reference_of(folder), case)
    return f"{case.name} {'fault' if texts is None else ' '.join(told(text, sum_of) for text in texts)}\n"


def make(title: str, head: str, texts_of: TextsOf, sum_of: SumOf) -> None:
    """Reads the words of a program that makes such a file, and writes it."""
    parser = argparse.ArgumentParser(description=title)
    parser.add_argument("--reference", required=True, help="the folder of the reference")
    parser.add_argument("--out", required=True, help="the file to write")
    parser.add_argument("--processes", type=int, default=1, help="how many sessions are found at once; 1 without it")
    parser.add_argument("files", nargs="+", metavar="CASES")
    words = parser.parse_args()
    cases = [case for path in words.files for case in stored_cases.read(path)]
    found = functools.partial(line_of, texts_of, sum_of, words.reference)
    with open(words.out, "w", encoding="utf-8") as file:
        file.write(head.format(files=", ".join(pathlib.Path(path).name for path in words.files)))
        with concurrent.futures.ProcessPoolExecutor(words.processes) as pool:
            file.writelines(pool.map(found, cases, chunksize=8))
