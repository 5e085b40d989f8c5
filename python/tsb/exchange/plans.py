"""Makes a plan of a file: lines of snmpwalk, Synchro's UTDF, or tables of a sheet.

What a plan has no place for is printed, a line for each value.
"""

import argparse
from collections.abc import Callable, Iterable, Sequence
from dataclasses import dataclass
from pathlib import Path

from tsb import files
from tsb.errors import Error, PlanFault, shown
from tsb.exchange import oids, utdf, walk
from tsb.exchange.remarks import Remark, lines_of
from tsb.options import Words, called
from tsb.plan import OK, Plan
from tsb.sheet import spreadsheet

PROGRAM = called("plan")
LONGEST = 16 << 20  # bytes of a file


@dataclass(frozen=True)
class Made:
    """A plan that was made of a file, what it has no place for, and what it was made
    of."""

    plan: Plan
    remarks: Sequence[Remark]
    of: str


@dataclass(frozen=True)
class Reader:
    """A form of files: its name, whether a text has it, and how it is read. Its words
    are the options of the command that it takes."""

    name: str
    is_of: Callable[[str], bool]
    read: Callable[[str, argparse.Namespace], Made]


def _of_walk(text: str, given: argparse.Namespace) -> Made:
    """The plan of the lines of a walk."""
    reading = oids.plan_of(walk.lines_of(text))
    said = f"{len(reading.taken)} of {reading.lines} values of a walk"
    return Made(reading.plan, reading.remarks, said)


def _of_utdf(text: str, given: argparse.Namespace) -> Made:
    """The plan of a node of a UTDF file."""
    found = utdf.plan_of(text, given.node)
    return Made(found.plan, found.remarks, f"node {found.node} of a UTDF file")


def _of_sheet(text: str, given: argparse.Namespace) -> Made:
    """The plan of the tables of a timing sheet."""
    return Made(spreadsheet.plan_of(text), (), "the tables of a timing sheet")


#: The forms that files have: the first that a text has is taken.
READERS = [
    Reader("lines of snmpwalk -On", walk.is_walk, _of_walk),
    Reader("UTDF", utdf.is_utdf, _of_utdf),
    Reader(f"tables of {called('sheet')} --csv", spreadsheet.is_sheet, _of_sheet),
]


def made_of(text: str, given: argparse.Namespace) -> Made:
    """The plan of a text; `Error` where it has no form that is known."""
    for it in READERS:
        if it.is_of(text):
            return it.read(text, given)
    names = ", ".join(it.name for it in READERS)
    raise Error(f"it has none of these forms: {names}")


def read(path: Path, given: argparse.Namespace) -> Made:
    """The plan of a file; `Error` names the file."""
    text = files.read(path, LONGEST).decode("latin-1")
    try:
        return made_of(text, given)
    except Error as fault:
        raise Error(f"{path}: {fault}") from None


def written(made: Made, out: Path) -> Iterable[str]:
    """Writes a plan to a file, and gives the lines that say what was read, what has no
    place, and what `tsb check` says. A file that is there stays."""
    try:
        with out.open("x", encoding="utf-8") as file:
            file.write(made.plan.text)
    except FileExistsError:
        raise Error(f"{out}: there is such a file: name another") from None
    yield f"{shown(out)}: {made.of}"
    yield from lines_of(made.remarks)
    yield f"tsb check: {_judged(made.plan)}"


def _judged(plan: Plan) -> str:
    """What `tsb check` says of a plan."""
    fault: PlanFault | None = plan.fault()
    return OK if fault is None else str(fault)


def _words() -> argparse.ArgumentParser:
    words = Words(
        prog=PROGRAM,
        description="Makes a plan of a file: " + ", ".join(it.name for it in READERS),
        epilog="docs/use/EXCHANGE.md says what is read.",
        allow_abbrev=False,
    )
    words.add_argument("file", type=Path, metavar="FILE")
    words.add_argument("--out", type=Path, required=True, metavar="PLAN")
    words.add_argument(
        "--node", metavar="ID", help="of a UTDF file with several, the node"
    )
    return words


def main(words: Sequence[str]) -> int:
    """Makes a plan of a file; the status to end with."""
    given = _words().parse_args(words)
    for line in written(read(given.file, given), given.out):
        print(line)
    return 0
