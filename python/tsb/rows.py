"""Rows of inputs, and logs of them (docs/use/MANUAL.md, chapter 5).

A row is 30 characters, as `0001000000000000 00000000 0000`: a digit for each of 16
vehicle detectors, 8 pedestrian detectors and 4 preempt inputs, 1 for on. Where an input
beyond these is on it has lists instead, as `V1,4,17-20 P2 E1`, of up to 64 vehicle
detectors, 16 pedestrian detectors and 8 preempt inputs.
"""

import re
from bisect import bisect_right
from collections.abc import Iterable, Iterator
from dataclasses import dataclass
from numbers import Integral
from operator import index
from os import PathLike
from pathlib import Path

from tsb.errors import LogFault, OutOfRange
from tsb.files import up_to
from tsb.manual import LAST_TICK

VEHICLES, PEDESTRIANS, PREEMPTS = 64, 16, 8
COUNTS = VEHICLES, PEDESTRIANS, PREEMPTS
DIGITS = 16, 8, 4  # of a row in digits
ALL_OFF = "0000000000000000 00000000 0000"
LONGEST = 64 << 20  # bytes of a log

_LINE = re.compile(r"([0-9]{7}) ([01]{16} [01]{8} [01]{4})")
_LIST = r"[1-9][0-9]?(?:-[1-9][0-9]?)?(?:,[1-9][0-9]?(?:-[1-9][0-9]?)?)*"
_LISTS = re.compile(rf"(?:V({_LIST}))?(?:(?:^| )P({_LIST}))?(?:(?:^| )E({_LIST}))?")
_LISTED = re.compile(r"([0-9]{7})(?: ([VPE].*))?")

#: The numbers of the inputs that are on, or a digit for each from the first on.
On = Iterable[int] | str


def digits(on: On, count: int) -> str:
    """The digits of so many inputs, where these are on."""
    if isinstance(on, str):
        if not re.fullmatch("[01]*", on) or len(on) > count:
            raise OutOfRange(f"{on!r}: at most {count} digits 0 or 1")
        return on.ljust(count, "0")
    found = ["0"] * count
    try:
        numbers = [index(number) for number in on]
    except TypeError:
        listed = f"[{on}]" if isinstance(on, Integral) else "[1, 4]"
        what = f"the numbers of inputs in a list, as {listed}, or a digit for each"
        raise OutOfRange(f"{on!r}: give {what}") from None
    for number in numbers:
        if not 1 <= number <= count:
            raise OutOfRange(f"there is no input {number}: 1 to {count}")
        found[number - 1] = "1"
    return "".join(found)


def numbers(on: str) -> frozenset[int]:
    """The numbers of the inputs that are on, of their digits."""
    return frozenset(place for place, digit in enumerate(on, 1) if digit == "1")


def row(vehicles: On = (), pedestrians: On = (), preempts: On = ()) -> str:
    """The row in which these inputs are on, and no others: in digits, or in lists where
    one of them is beyond those."""
    given = zip((vehicles, pedestrians, preempts), COUNTS, strict=True)
    return of_fields([digits(on, count) for on, count in given])


def of_fields(given: Iterable[str]) -> str:
    """The row of a digit for each vehicle detector, pedestrian detector and preempt."""
    found = list(given)
    if any("1" in it[count:] for it, count in zip(found, DIGITS, strict=True)):
        return _in_lists(found)
    return " ".join(it[:count] for it, count in zip(found, DIGITS, strict=True))


def fields(given: str) -> list[str]:
    """A digit for each vehicle detector, pedestrian detector and preempt of a row, in
    either form; `OutOfRange` where it is none."""
    if not isinstance(given, str):
        raise OutOfRange(f"{given!r} is no row: it is a text")
    if given[:1] in ("0", "1"):
        found = given.split(" ")
        if [len(it) for it in found] == [*DIGITS] and not set(given) - set("01 "):
            return [it.ljust(n, "0") for it, n in zip(found, COUNTS, strict=True)]
    elif (listed := _of_lists(given)) is not None:
        return listed
    raise OutOfRange(f"{given!r} is no row: 16, 8 and 4 digits, or lists as V1,17-20 P2")


def _in_lists(given: list[str]) -> str:
    """The lists of the inputs that are on: a kind that has none on is left out."""
    told = []
    for letter, it in zip("VPE", given, strict=True):
        runs = [(found.start() + 1, found.end()) for found in re.finditer("1+", it)]
        if runs:
            spelled = (f"{low}" if low == high else f"{low}-{high}" for low, high in runs)
            told.append(letter + ",".join(spelled))
    return " ".join(told)


def _of_lists(given: str) -> list[str] | None:
    """The digits of a row of lists, or None where it is none."""
    found = _LISTS.fullmatch(given)
    if found is None:
        return None
    told = []
    for it, count in zip(found.groups(), COUNTS, strict=True):
        on, last = ["0"] * count, 0
        for item in it.split(",") if it else ():
            low, _, high = item.partition("-")
            first, end = int(low), int(high or low)
            if not last < first <= end <= count or (high and first == end):
                return None
            on[first - 1 : end], last = "1" * (end - first + 1), end
        told.append("".join(on))
    return told


def _read(line: str, is_listed: bool) -> tuple[int, str | None]:
    """The tick and the row of a line of a log of this form."""
    found = (_LISTED if is_listed else _LINE).fullmatch(line)
    if found is None:
        return 0, None
    if not is_listed:
        return int(found[1]), found[2]
    listed = _of_lists(found[2] or "")
    return int(found[1]), None if listed is None else of_fields(listed)


def _text(rows: list[tuple[int, str]]) -> str:
    """The text of a log of these rows: in digits, or in lists where some row is."""
    if any(row[:1] in ("V", "P", "E") for _, row in rows):
        rows = [(tick, _in_lists(fields(row))) for tick, row in rows]
    return "".join(f"{tick:07} {row}".rstrip(" ") + "\n" for tick, row in rows)


@dataclass(frozen=True)
class Log:
    """A log of inputs: ticks that rise, and the row that holds from each on. Before
    the first row all inputs are off."""

    ticks: tuple[int, ...] = ()
    rows: tuple[str, ...] = ()

    @classmethod
    def of(cls, rows: Iterable[tuple[int, str]]) -> "Log":
        """The log of these ticks and rows; `LogFault` names the first bad one."""
        return cls.of_text(_text(list(rows)))

    @classmethod
    def of_text(cls, text: str | bytes) -> "Log":
        """The log of a text; `LogFault` has its first fault, with the line."""
        # (bytes that are no text can only be in comments)
        told = text.decode("latin-1") if isinstance(text, bytes) else text
        if len(told) > LONGEST:
            raise LogFault("log: too large")
        ticks, rows, is_listed = [0], [], None
        for number, line in enumerate(told.split("\n"), 1):
            line = line.removesuffix("\r")
            if not line.strip(" ") or line.startswith("#"):
                continue
            if is_listed is None:  # the first row says of which form the log is
                is_listed = _LISTED.fullmatch(line) is not None
            tick, found = _read(line, is_listed)
            if found is None or not 1 <= tick <= LAST_TICK:
                raise LogFault(f"log line {number}: malformed")
            if tick <= ticks[-1]:
                raise LogFault(f"log line {number}: tick order")
            ticks.append(tick)
            rows.append(found)
        return cls(tuple(ticks[1:]), tuple(rows))

    @classmethod
    def read(cls, path: str | PathLike[str]) -> "Log":
        """The log of a file."""
        return cls.of_text(up_to(path, LONGEST))

    @property
    def text(self) -> str:
        """The text of the log: in lists where some row is."""
        return _text(list(zip(self.ticks, self.rows, strict=True)))

    def write(self, path: str | PathLike[str]) -> None:
        """Writes the text to a file."""
        Path(path).write_text(self.text, encoding="ascii")

    def at(self, tick: int) -> str:
        """The row that holds in a tick."""
        place = bisect_right(self.ticks, tick)
        return self.rows[place - 1] if place else ALL_OFF

    def stretches(self, first: int, last: int) -> Iterator[tuple[str, int]]:
        """The rows of the ticks from `first` to `last`, each with how many ticks it
        holds for."""
        place = bisect_right(self.ticks, first)
        while first <= last:
            more = self.ticks[place] if place < len(self.ticks) else last + 1
            end = min(more, last + 1)
            yield (self.rows[place - 1] if place else ALL_OFF), end - first
            first, place = end, place + 1
