"""The tables of a plan as CSV that a spreadsheet edits, and the plan of such a text."""

import csv
import io
import re
from collections.abc import Iterable, Iterator, Sequence
from decimal import Decimal

from tsb.errors import Error, shown
from tsb.manual import NEWEST, OBJECTS, Object, meant
from tsb.plan import Plan
from tsb.sheet.tables import Table, index_of, tables, title_of, unit_in
from tsb.values import TENTH, number_of, phases_of, time_of, unit_of

FIRST = "tsb timing sheet"
OF, UNIT, LEFT = "of", "unit", 3  # cells at the left of the values
# With these a text begins that a spreadsheet computes; and what is put before them.
COMPUTED = ("=", "+", "-", "@", "\t", "\r", "'")
NOTES = "Notes"  # the title of the last table, of rows with a name and its note
LONGEST = 1 << 20  # characters of a text
FAULTS_MOST = 20  # faults that are listed
SIGNS_MOST = 40  # characters of a cell that are shown
VERSIONS = range(1, NEWEST + 1)

# A spreadsheet may put a cell between quotes, and a mark of the order of bytes before
# all. It may part cells by semicolons, with a comma in 4,0.
_BEGUN = re.compile(rf'(?:\ufeff|ï»¿)?(?="?{FIRST}"?([,;\t]))')
_NUMBER = re.compile(r"\+?\d{1,9}(?:\.\d{1,9})?")


class _Fault(Error):
    """What is wrong with a cell."""


def is_sheet(text: str) -> bool:
    """Whether a text begins as the tables of a plan do."""
    return _BEGUN.match(text) is not None


def text_of(plan: Plan) -> str:
    """The tables of a plan as CSV. An empty cell is 0, times are in seconds or minutes,
    and a list has its phases with spaces between."""
    text = io.StringIO()
    out = csv.writer(text, lineterminator="\n")
    out.writerow([FIRST, "version", plan.version])
    for table in tables(plan.version):
        out.writerow([])
        out.writerow([table.title, OF, UNIT, *table.columns])
        for what, of in table.rows():
            values = plan[what.name]
            cells = [_cell(what, values[index_of(of, it)]) for it in table.columns]
            out.writerow([what.name, table.of(of), unit_in(what), *cells])
    if plan.notes:
        out.writerows([[], [NOTES]])
        # (a return alone parts rows, unless it is between quotes)
        quoted = csv.writer(text, lineterminator="\n", quoting=csv.QUOTE_ALL)
        quoted.writerows([name, _kept(note)] for name, note in plan.notes.items())
    return text.getvalue()


def _kept(note: str) -> str:
    """A note as its cell has it: after a quote where a spreadsheet would compute it."""
    return f"'{note}" if note.startswith(COMPUTED) else note


def _cell(what: Object, number: int) -> str:
    """A value as its cell has it."""
    if not number:
        return ""
    if what.is_list:
        return " ".join(map(str, sorted(phases_of(number))))
    return time_of(what, number) if what.time else str(number)


def plan_of(text: str) -> Plan:
    """The plan of a text of tables. `Error` has a line for each cell that is wrong, up
    to twenty; whether the plan breaks a rule is not judged here."""
    begun = _BEGUN.match(text)
    if begun is None:
        raise Error(f"cell A1: no timing sheet, which begins with {FIRST}")
    if len(text) > LONGEST:
        raise Error("too large: over 1 MiB")
    lines = io.StringIO(text[begun.end() :], newline="")
    try:
        rows = list(csv.reader(lines, delimiter=begun[1], strict=True))
    except csv.Error as fault:
        raise Error(f"no CSV: {fault}") from None
    reading = _Reading(_version(rows[0]), has_commas=begun[1] != ",")
    for number, cells in enumerate(rows[1:], 2):
        reading.take(number, cells)
    if faults := reading.faults:
        more = len(faults) - FAULTS_MOST
        rest = [f"and {more} more"] if more > 0 else []
        raise Error("\n".join([*faults[:FAULTS_MOST], *rest]))
    return reading.plan


def _version(cells: Sequence[str]) -> int:
    """The version of plan texts that the first row names."""
    said = cells[2].strip() if len(cells) > 2 else ""
    if said not in map(str, VERSIONS):
        raise Error(f"cell C1: {_shown(said)} is no version of a plan text: 1, 2 or 3")
    return int(said)


def _shown(cell: str) -> str:
    """A cell as a message has it."""
    text = shown(cell)
    return (
        f"{text[:SIGNS_MOST]}.." if len(text) > SIGNS_MOST else text or "an empty cell"
    )


class _Reading:
    """A plan as far as its tables are read, and the cells that are wrong."""

    def __init__(self, version: int, has_commas: bool) -> None:
        self.plan, self.faults = Plan(version), list[str]()
        self._has_commas = has_commas
        self._tables = {it.title: it for it in tables(version)}
        self._table: Table | None = None
        self._columns: dict[int, int] = {}
        self._known: set[tuple[str, tuple[int, ...]]] = set()
        self._are_notes = False

    def take(self, row: int, given: Sequence[str]) -> None:
        """Takes a row, whose number is that of a spreadsheet."""
        cells = [it.strip() for it in given]
        name = cells[0] if cells else ""
        try:
            if self._are_notes and not (name in self._tables and OF in cells[1:2]):
                self._note(name, given)
            elif name == NOTES:
                self._are_notes = True
            elif name in self._tables:
                self._are_notes = False
                self._begin(self._tables[name], row, cells)
            elif name:
                self._values(row, cells)
            elif any(cells):
                raise _Fault("A: the row has values, and no object")
        except _Fault as fault:
            place, _, said = str(fault).partition(": ")
            self.faults.append(f"cell {place}{row}: {said}")

    def _note(self, name: str, cells: Sequence[str]) -> None:
        """Takes a note, which keeps its spaces and ends of lines."""
        if not any(cells):
            return
        if self.plan.version != NEWEST:
            raise _Fault(f"A: version {self.plan.version} has no notes")
        if name in self.plan.notes:
            raise _Fault(f"A: {_shown(name)} has a note already")
        note = cells[1] if len(cells) > 1 else ""
        self.plan.notes[name] = note.removeprefix("'")

    def _begin(self, table: Table, row: int, cells: Sequence[str]) -> None:
        """Begins a table: the row above its values has the number of each column."""
        self._table, self._columns = table, {}
        for place, cell in enumerate(cells[LEFT:], LEFT):
            if not cell:
                continue
            number = int(cell) if re.fullmatch(r"\d{1,4}", cell) else 0
            if number not in table.columns:
                self._wrong(row, place, f"no column of 1 to {table.columns[-1]}", cell)
            elif number in self._columns.values():
                self._wrong(row, place, "the column comes twice", cell)
            else:
                self._columns[place] = number

    def _values(self, row: int, cells: Sequence[str]) -> None:
        """Takes the values of an object."""
        what = self._object(cells[0])
        of = self._parts(what, cells[1] if len(cells) > 1 else "")
        if (what.name, of) in self._known:
            raise _Fault(f"A: {what.name} has such a row already")
        self._known.add((what.name, of))
        for place, cell in enumerate(cells[LEFT:], LEFT):
            if not cell:
                continue
            if place not in self._columns:
                self._wrong(row, place, "no number stands above it", cell)
                continue
            try:
                number = self._number(what, cell)
            except _Fault as fault:
                self._wrong(row, place, f"{what.name}: {fault}", cell)
            else:
                self.plan[what.name][index_of(of, self._columns[place])] = number

    def _wrong(self, row: int, place: int, said: str, cell: str) -> None:
        """Keeps what is wrong with a cell."""
        self.faults.append(f"cell {column_of(place)}{row}: {_shown(cell)}: {said}")

    def _object(self, name: str) -> Object:
        """The object of a row, which has to be one of its table."""
        version = self.plan.version
        what = OBJECTS.get(name)
        if what is None or not what.counts(version):
            told = f"A: version {version} has no object {_shown(name)}"
            raise _Fault(told + meant(name, version))
        if self._table is None or what not in self._table.objects:
            raise _Fault(f"A: {name} is an object of the table {title_of(what)}")
        return what

    def _parts(self, what: Object, said: str) -> tuple[int, ...]:
        """The numbers of the parts that a row is of."""
        assert self._table is not None
        of = tuple(int(it) for it in re.findall(r"\d{1,4}", said))
        parts = self._table.parts
        if len(of) != len(parts) or self._table.of(of) != said:
            form = self._table.of([1] * len(parts))
            raise _Fault(
                f"B: {_shown(said)}: " + (f"write {form}" if form else "empty it")
            )
        for (name, most), number in zip(parts, of, strict=True):
            if not 1 <= number <= most:
                raise _Fault(f"B: {name} {number}: it is 1 to {most}")
        return of

    def _number(self, what: Object, cell: str) -> int:
        """The value of a cell."""
        if what.is_list:
            return self._phases(what, cell)
        text = cell.replace(",", ".") if self._has_commas else cell
        if not _NUMBER.fullmatch(text):
            raise _Fault("no number")
        number = Decimal(text) * (10 if what.time == TENTH else 1)
        if number != int(number):
            unit = what.unit.split(",")[0] if what.time else ""
            raise _Fault(f"no whole number{f' of {unit}' if unit else ''}")
        most = what.most(self.plan.version)
        if number > most:
            unit = unit_of(what) or f"({what.unit})"
            raise _Fault(f"not in 0 to {time_of(what, most)} {unit}")
        return int(number)

    def _phases(self, what: Object, cell: str) -> int:
        """The list of phases or overlaps of a cell."""
        words = re.split(r"[\s,;+]+", cell)
        most = 8 if self.plan.version == 1 else 16
        if words == ["0"]:
            return 0
        if not all(
            re.fullmatch(r"\d{1,2}", it) and 1 <= int(it) <= most for it in words
        ):
            raise _Fault(f"no {what.member}s of 1 to {most} with spaces between")
        return number_of(what, map(int, words), self.plan.version)


def column_of(place: int) -> str:
    """The letters of a column, counted from 0."""
    letters = ""
    place += 1
    while place:
        place, rest = divmod(place - 1, 26)
        letters = chr(ord("A") + rest) + letters
    return letters
