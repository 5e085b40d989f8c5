"""The forms in which event logs of controllers come: docs/use/FIELD.md, "`tsb_field
log`".

A text becomes columns of text, by the lines that have them, and texts of times become
moments. What cannot be read is an `Error` that names its line.
"""

import io
import re
import warnings
from collections.abc import Iterable
from contextlib import suppress
from typing import Any

import numpy as np
import pandas as pd

from tsb.errors import Error
from tsb.manual import COLUMNS

# What parts the fields of a line, the likeliest first.
_SEPARATORS = ",;\t"
# A line that a database draws below a header, or in which it counts its rows.
_DRAWN = re.compile(r"[-,;\t +|]*-[-,;\t +|]*|\(\d{1,10} rows?(?: affected)?\)")
_FILLERS = str.maketrans("", "", " _-")
_WHOLE = r"(\d{1,10})(?:\.0*)?"
LARGEST = (1 << 32) - 1
# The seconds after 1970 began from which on a table has no moments: the year 2262.
LAST_SECOND = 9_223_372_036
# The codes of vehicle detectors, buttons and preempt inputs that go on and off.
INPUTS = (82, 81, 90, 89, 102, 104)

# A time as most exports have it, which numpy reads at once.
_PLAIN = r"\d{4}-\d\d-\d\d[ T]\d\d:\d\d:\d\d(?:\.\d{1,9})?"
# Three numbers of a day, three of a clock, a fraction of a second, and the half of the
# day; a zone after them does not count.
_CLOCKED = (
    r"(\d{1,10})([-/.])(\d{1,10})\2(\d{1,10})[ T](\d{1,10}):(\d{1,10}):(\d{1,10})"
    r"(?:[.,](\d{0,9}))?(?: |(?i: (am|pm))|(?i: utc))?"
    r"(?:Z|[-+](?:[01]?\d|2[0-3])(?::?[0-5]\d)?)?"
)
# A clock with a zone.
_ZONE = re.compile(r".*:\d\d(?:[.,]\d*)? ?(Z|(?i:utc)|[-+]\d{1,2}(?::?\d\d)?)")
_SINCE_1970 = r"(\d{1,10})(?:[.,](\d{0,9}))?|(\d{4,13})"
# Where year, month and day are among the three numbers of a day.
_ORDERS = {"year": (0, 1, 2), "month": (2, 0, 1), "day": (2, 1, 0)}


# Lines and columns


def columns_of(text: str) -> pd.DataFrame:
    """The columns of an export as texts, by the names of its header or by the usual
    ones, and by the numbers of its lines. Without rows it is empty."""
    lines = {
        number: line
        for number, line in enumerate(text.replace("\r\n", "\n").split("\n"), 1)
        if line and line[0] != "#" and not line.isspace()
    }
    usual = [names[0] for names in COLUMNS.values()]
    if not lines:
        return pd.DataFrame(columns=usual)
    # (a maker may write lines before the header, and a database draws one below it)
    first = next((at for at, line in lines.items() if _has_three(line)), None)
    if first is None:
        raise Error(
            "no header and no row: put commas, semicolons or tabs between its fields"
        )
    rows = {
        number: line
        for number, line in lines.items()
        if number >= first and not (line[0] in "-,;\t +|(" and _DRAWN.fullmatch(line))
    }
    table = _fields(rows, _separator(lines[first]))
    places = _named(table.iloc[0])
    if not places:
        return table.rename(columns=dict(zip(table.columns, usual, strict=False)))
    places_of(table.iloc[0])
    # (a header comes again where files were put together)
    names = [_plain(it) for it in COLUMNS["code"]]
    again = table.iloc[:, places["code"]].map(_plain).isin(names)
    return table[~again].set_axis(table.iloc[0], axis=1)


def _has_three(line: str) -> bool:
    """Whether some separator parts a line into three fields or more."""
    return any(line.count(mark) >= 2 for mark in _SEPARATORS)


def _separator(line: str) -> str:
    """What parts the fields of a header, or of a first row: the first that names the
    columns, or that makes three fields."""
    parted = {mark: _parted(line, mark) for mark in _SEPARATORS}
    named = [mark for mark, names in parted.items() if len(_needed(names)) == 3]
    several = [mark for mark, fields in parted.items() if len(fields) > 2]
    return (named + several + [","])[0]


def _needed(names: Iterable[object]) -> set[str]:
    """The columns that names have, of those that may not be missing."""
    return _named(names).keys() - {"device"}


def _parted(line: str, mark: str) -> list[str]:
    """The fields of a line that a mark parts; none where a quote is out of place."""
    field = rf'"([^"]*)"|([^"{mark}][^{mark}]*|)'
    if not re.fullmatch(rf"(?:(?:{field}){mark})+", line + mark):
        return []
    found = re.finditer(rf"(?:{field}){mark}", line + mark)
    return [it[1] if it[2] is None else it[2] for it in found]


def _fields(rows: dict[int, str], mark: str) -> pd.DataFrame:
    """The fields of lines that a mark parts, without the spaces around them."""
    most = max(
        len(_parted(line, mark)) if '"' in line else line.count(mark) + 1
        for line in rows.values()
    )
    try:
        table = pd.read_csv(
            io.StringIO("\n".join(rows.values())),
            sep=mark, header=None, names=list(range(max(most, 1))), dtype=str,
            na_filter=False, skipinitialspace=True, lineterminator="\n",
        )  # fmt: skip
    except ValueError as fault:
        raise Error(f"the export is no CSV: {fault}") from None
    if len(table) < len(rows):
        raise Error("the export is no CSV: a quote is out of place")
    return table.fillna("").set_index(pd.Index(rows)).apply(lambda it: it.str.strip())


def _plain(name: object) -> str:
    """A name of a column without what does not count in it."""
    return str(name).lower().translate(_FILLERS)


def _named(names: Iterable[object]) -> dict[str, int]:
    """The place of each column of an export among names: the first of each."""
    said = [_plain(it) for it in names]
    found = {}
    for what, known in COLUMNS.items():
        places = [said.index(it) for it in map(_plain, known) if it in said]
        if places:
            found[what] = min(places)
    return found


def places_of(names: Iterable[object]) -> dict[str, int]:
    """Where each column of an export stands among names, in any case, and with any
    spaces, underlines and hyphens. The device alone may be missing."""
    found = _named(names)
    for what, known in COLUMNS.items():
        if what != "device" and what not in found:
            raise Error(f"the export has no column {' or '.join(known)}")
    return found


# Numbers


def numbers_of(column: "pd.Series[Any]") -> "pd.Series[Any]":
    """The whole numbers up to 4294967295 of a column, as `82` or `82.0`; NA for what is
    none."""
    if column.dtype.kind in "iu":
        return column.astype("Int64").where(column.between(0, LARGEST))
    # (there are few texts, and many rows)
    places, texts = pd.factorize(column.astype(str))
    spelled = (re.fullmatch(_WHOLE, text.strip()) for text in texts)
    found = [None if it is None else int(it[1]) for it in spelled]
    counts = [it if it is not None and it <= LARGEST else None for it in found]
    return pd.Series(pd.array(counts, "Int64")[places], column.index)


# Times


def moments_of(times: "pd.Series[Any]") -> "pd.Series[Any]":
    """The moments of a column: of moments, or of texts, which have the form of the
    first of them. A zone behind a clock is passed over: what counts is what the clock
    shows."""
    if times.empty:
        return times.astype("datetime64[ns]")
    if times.dtype.kind == "M":
        if times.dt.tz is None:
            return times.astype("datetime64[ns]")
        _tell_zone(str(times.dt.tz))
        return times.dt.tz_localize(None).astype("datetime64[ns]")
    times, first = times.astype(str).str.strip(), str(times.iloc[0]).strip()
    if zone := _ZONE.fullmatch(first):
        _tell_zone(zone[1])
    if times.str.fullmatch(_PLAIN).all():
        with suppress(ValueError):  # (of a day that the calendar lacks)
            told = np.array(times.to_list(), dtype="datetime64[ns]")
            return pd.Series(told, times.index)
    forms = [it for it in _ORDERS if not _clocked(times.iloc[:1], it).isna().any()]
    if len(forms) > 1:
        raise Error(_fault(times, 0, "can be read with its month or its day first"))
    if forms:
        found = _clocked(times, forms[0])
    elif re.fullmatch(_SINCE_1970, first):
        found = _since_1970(times)
    else:
        raise Error(_fault(times, 0, "is no time as 2026-11-22 07:00:00.1"))
    if found.isna().any():
        at = int(found.isna().to_numpy().argmax())
        raise Error(_fault(times, at, f"is no time of the form of {first!r}"))
    return found


def _tell_zone(zone: str) -> None:
    """Tells that a zone counts for nothing."""
    what = f"the zone {zone} of times is passed over: what clocks show counts"
    warnings.warn(what, stacklevel=4)


def _fault(times: "pd.Series[str]", at: int, what: str) -> str:
    return f"line {times.index[at]}: time {times.iloc[at]!r} {what}"


def _clocked(times: "pd.Series[str]", first: str) -> "pd.Series[Any]":
    """The moments of days and clocks, of which a day begins with its year, its month
    or its day; NaT for what is none."""
    parts = times.str.extract(f"^{_CLOCKED}$")
    numbers = parts[[0, 2, 3, 4, 5, 6]].apply(pd.to_numeric)
    day = [numbers.iloc[:, at] for at in _ORDERS[first]]
    names = dict(zip(("year", "month", "day"), day, strict=True))
    days = pd.to_datetime(pd.DataFrame(names), errors="coerce")
    hour, minute, second = (numbers.iloc[:, at] for at in (3, 4, 5))
    half = parts[8].str.lower()
    clock = hour.where(half.isna(), hour % 12 + 12 * (half == "pm"))
    fine = (hour < 24) & (half.isna() | hour.between(1, 12))
    fine &= (minute < 60) & (second < 60) & (day[0] >= 1000)
    passed = (clock * 3600 + minute * 60 + second).where(fine, 0).astype(np.int64)
    found = days + pd.to_timedelta(passed, "s") + _fraction(parts[7])
    return found.where(fine)


def _fraction(digits: "pd.Series[str]") -> "pd.Series[Any]":
    """The parts of a second that digits after a point are."""
    nanos = digits.fillna("").str.ljust(9, "0").astype(np.int64)
    return pd.to_timedelta(nanos, "ns")


def _since_1970(times: "pd.Series[str]") -> "pd.Series[Any]":
    """The moments of seconds, or of milliseconds, after 1970 began; NaT for what is
    none."""
    parts = times.str.extract(f"^(?:{_SINCE_1970})$")
    place, unit, each = (2, "ms", 1000) if pd.isna(parts.iloc[0, 0]) else (0, "s", 1)
    count = parts[place].fillna("0").astype(np.int64)
    fine = parts[place].notna() & (count < LAST_SECOND * each)
    begun = pd.Timestamp("1970-01-01")
    passed = pd.to_timedelta(count.where(fine, 0), unit)
    return (begun + passed + _fraction(parts[1])).where(fine)
