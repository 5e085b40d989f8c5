"""What a reader or a writer has no place for: one line for each value, or for several
values that follow one another and are alike."""

import sys
from collections.abc import Iterable, Iterator
from typing import NamedTuple

from tsb.errors import shown
from tsb.manual import NOTES
from tsb.plan import Plan

LONGEST = 200  # characters of a value that are printed


class Remark(NamedTuple):
    """What is said of a value: the line of the file that has it (0 for none), the name
    of its object, its row, the value as a text, and why it has no place."""

    line: int
    name: str
    row: tuple[int, ...]
    value: str
    why: str

    def follows(self, other: "Remark") -> bool:
        """Whether this is of the line and the row after the other's, with the same
        object, value and reason."""
        line = other.line + (1 if self.line else 0)
        row = (*other.row[:-1], other.row[-1] + 1) if other.row else ()
        told = (line, other.name, row, other.value, other.why)
        return tuple(self) == told and (self.line > 0 or row != ())


def _run(run: list[Remark]) -> str:
    """The line for remarks that follow one another."""
    first, last = run[0], run[-1]
    where = ""
    if first.line:
        where = f"line {first.line}: "
        if len(run) > 1:
            where = f"lines {first.line} to {last.line}: "
    row = "".join(f".{it}" for it in first.row)
    if len(run) > 1 and row:
        row += f" to .{last.row[-1]}"
    value = shown(first.value)
    if len(value) > LONGEST:
        value = f"{value[:LONGEST]}.. ({len(value)} characters)"
    name = shown(first.name)
    said = f"{name}{row} = {value}" if value else f"{name}{row}"
    return f"{where}{said}: {first.why}"


def lines_of(remarks: Iterable[Remark]) -> Iterator[str]:
    """The lines for remarks, in their order."""
    run: list[Remark] = []
    for it in remarks:
        if run and not it.follows(run[-1]):
            yield _run(run)
            run = []
        run.append(it)
    if run:
        yield _run(run)


def of_notes(plan: Plan, why: str) -> Iterator[Remark]:
    """The remarks for a plan's notes, which no other form has."""
    return (Remark(0, f"{NOTES}.{of}", (), it, why) for of, it in plan.notes.items())


def warn(remarks: Iterable[Remark]) -> None:
    """Prints the lines for remarks on standard error."""
    for line in lines_of(remarks):
        print(line, file=sys.stderr)
