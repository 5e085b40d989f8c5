"""The tables of a plan: objects with the same index are the rows of one."""

from collections.abc import Iterator, Sequence
from dataclasses import dataclass
from itertools import product

from tsb.manual import OBJECTS, Object
from tsb.values import DATES, EVENTS, SEQUENCE, SPLITS, TENTH, Index, parts_of

MONITOR = "Channels"
#: The titles of tables, by what the index of their objects counts. A table of another
#: index is called by that.
TITLES = {
    "": "Unit", SPLITS: "Splits", SEQUENCE: "Sequences", "entry": "Schedule",
    DATES: "Days of the month", EVENTS: "Day plans",
    "channel of the monitor": MONITOR,
}  # fmt: skip
#: The titles of the tables that are the schedule.
SCHEDULE = ("Schedule", "Days of the month", "Day plans", "Actions")


@dataclass(frozen=True)
class Table:
    """The objects of one index: the rows of each, and the columns, which are the
    numbers of the last part of an index. An object has a row for each
    of the other parts, as the table of a split."""

    title: str
    objects: Sequence[Object]
    columns: range
    parts: Sequence[tuple[str, int]]

    def rows(self) -> Iterator[tuple[Object, tuple[int, ...]]]:
        """The rows: an object, and the numbers of the parts."""
        ranges = [range(1, most + 1) for _, most in self.parts]
        for of in product(*ranges):
            for what in self.objects:
                yield what, of

    def of(self, numbers: Sequence[int]) -> str:
        """The numbers of the parts with their names, as `sequence 1, ring 2`."""
        named = zip(self.parts, numbers, strict=True)
        return ", ".join(f"{name} {number}" for (name, _), number in named)


def index_of(of: tuple[int, ...], column: int) -> Index:
    """The index of a cell: of its row's parts, and its column."""
    match of:
        case ():
            return column
        case (table,):
            return table, column
        case (sequence, ring):
            return sequence, ring, column
    raise ValueError(f"no object has an index of {len(of) + 1} parts")


def tables(version: int) -> list[Table]:
    """The tables of plans whose texts have this version, in the manual's order."""
    found: dict[str, list[Object]] = {}
    for what in OBJECTS.values():
        if what.counts(version):
            found.setdefault(title_of(what), []).append(what)
    return [_table(title, objects, version) for title, objects in found.items()]


def _table(title: str, objects: Sequence[Object], version: int) -> Table:
    """The table of objects with one index."""
    parts = [(name, most) for name, (most, _) in parts_of(objects[0], version).items()]
    most = parts[-1][1] if parts else objects[0].counts(version)
    return Table(title, objects, range(1, most + 1), parts[:-1])


def title_of(what: Object) -> str:
    """The title of the table that has an object."""
    for index, title in TITLES.items():
        if what.index == index or index and what.index.startswith(index):
            return title
    return f"{what.index[:1].upper()}{what.index[1:]}s"


def unit_in(what: Object) -> str:
    """The unit of an object in a sheet, which has seconds for tenths of a second."""
    if what.time != TENTH:
        return what.unit
    return "seconds" + what.unit.removeprefix("tenths of a second")
