"""What a page is made of: sections, charts and tables, and how their cells are
written."""

from collections.abc import Callable, Mapping, Sequence
from dataclasses import dataclass, field
from typing import Any

import pandas as pd
from markupsafe import Markup

from tsb.report.numbers import Numbers

Both = Sequence[Numbers]
Cell = str
Form = Callable[[Any], Cell]
NONE = "–"
DAY = 864000  # ticks
#: Of a column of numbers, its name in the page and how its cells are written.
Columns = Mapping[str, tuple[str, Form]]


@dataclass(frozen=True)
class Table:
    """A table: what it shows, the names of its columns, its rows, and what is said
    beside it."""

    caption: str
    head: Sequence[str]
    rows: Sequence[Sequence[Cell]]
    note: str = ""


@dataclass(frozen=True)
class Chart:
    """A chart, the tables that it is drawn from, and those that are read beside it."""

    caption: str
    svg: Markup
    tables: Sequence[Table]
    beside: Sequence[Table] = field(default=())


@dataclass(frozen=True)
class Section:
    """A section: its name in addresses, its title, what it says, and its charts."""

    name: str
    title: str
    text: str
    charts: Sequence[Chart] = field(default=())


def seconds(value: Any) -> Cell:
    """Seconds with a tenth, as `12.3`."""
    return NONE if pd.isna(value) else f"{float(value):.1f}"


def count(value: Any) -> Cell:
    """A whole number."""
    return NONE if pd.isna(value) else f"{int(value):,}"


def share(value: Any) -> Cell:
    """A share of 1 as per cent, as `12.3 %`."""
    return NONE if pd.isna(value) else f"{100 * float(value):.1f} %"


def ratio(value: Any) -> Cell:
    """A number with two digits behind its point."""
    return NONE if pd.isna(value) else f"{float(value):.2f}"


def table_of(
    caption: str, both: Both, of: Callable[[Numbers], pd.DataFrame],
    columns: Columns, key: str = "phase", note: str = "",
) -> Table:  # fmt: skip
    """A table of the same rows of each run, by its index: runs below each other."""
    letters = ["run"] if len(both) > 1 else []
    rows: list[tuple[Any, int, Sequence[Cell]]] = []
    for numbers in both:
        table = of(numbers)
        for at, values in zip(table.index, table.to_dict("records"), strict=True):
            run = [numbers.letter] if letters else []
            told = [form(values[name]) for name, (_, form) in columns.items()]
            rows.append((at, numbers.place, [str(at), *run, *told]))
    rows.sort(key=lambda it: it[:2])
    head = [key, *letters, *(name for name, _ in columns.values())]
    return Table(caption, head, [cells for _, _, cells in rows], note)


def clock(numbers: Numbers, tick: Any) -> Cell:
    """The time of day at which a tick begins, with its day in a run over days."""
    if pd.isna(tick):
        return NONE
    form = "%H:%M:%S.%f" if numbers.run.ticks <= DAY else "%m-%d %H:%M:%S.%f"
    return f"{numbers.run.time(int(tick)):{form}}"[:-5]
