"""What each head showed over a run: bands of one letter, from the bench's own lines.
Inputs have bands of digits, from the rows that were given.

A page gets no more of it than it can draw: the bands in view, or where there are more
of them than columns, for how much of each column a head was not red.
"""

from array import array
from bisect import bisect_right
from collections.abc import Iterable, Iterator
from typing import Any

import numpy as np

from tsb.lines import OVERLAPS, Display
from tsb.panel.requests import View
from tsb.rows import ALL_OFF, PEDESTRIANS, PREEMPTS, VEHICLES, Log, fields

NAMES = [
    *(f"P{it}" for it in range(1, 17)),
    *(f"W{it}" for it in range(1, 17)),
    *(f"O{it}" for it in range(1, OVERLAPS[1] + 1)),
    "preempt",
]
INPUTS = [
    *(f"D{it}" for it in range(1, VEHICLES + 1)),
    *(f"B{it}" for it in range(1, PEDESTRIANS + 1)),
    *(f"I{it}" for it in range(1, PREEMPTS + 1)),
]
# The letters whose share a column has: right of way, a preempt, an input.
SHARED = frozenset(b"GWC12345678")
# What shows nothing: no head, and no preempt or input.
DARK, NONE = ord("-"), ord("0")


def letters(display: Display) -> str:
    """The letter of each of `NAMES` in a display: of the preempt its number."""
    overlaps = display.overlaps.ljust(OVERLAPS[1], "-")
    return display.vehicles + display.pedestrians + overlaps + str(display.preempt)


def digits(row: str) -> str:
    """The digits of a row, one for each of `INPUTS`."""
    return "".join(fields(row))


class Band:
    """The letters of one head, each from a tick on."""

    def __init__(self, letter: int) -> None:
        self.ticks, self.letters = array("q", [0]), bytearray([letter])
        # For how many ticks it had right of way before each of `ticks`.
        self._before = array("q", [0])

    def put(self, tick: int, letter: int) -> None:
        """The letter from a tick on, which is the last one or a later one."""
        if self.ticks[-1] == tick:
            self.cut(tick - 1)
        if not self.ticks or self.letters[-1] != letter:
            self._before.append(self._shared(tick) if self.ticks else 0)
            self.ticks.append(tick)
            self.letters.append(letter)

    def _shared(self, tick: int) -> int:
        """For how many ticks it had right of way before a tick, since the last."""
        on = tick - self.ticks[-1] if self.letters[-1] in SHARED else 0
        return self._before[-1] + on

    def cut(self, tick: int) -> None:
        """Drops what begins after a tick."""
        at = bisect_right(self.ticks, tick)
        del self.ticks[at:], self.letters[at:], self._before[at:]

    def is_dark(self) -> bool:
        """Whether it never showed anything."""
        dark = self.letters.count(DARK) + self.letters.count(NONE)
        return dark == len(self.letters)

    def bands(self, first: int, last: int) -> tuple[int, int]:
        """The places of the bands from one tick to another."""
        return bisect_right(self.ticks, first) - 1, bisect_right(self.ticks, last)

    def shares(self, edges: "np.ndarray[Any, Any]", end: int) -> list[int]:
        """For how many hundredths of the time between two edges it had right of
        way."""
        ticks = np.frombuffer(self.ticks, dtype=np.int64)
        before = np.append(np.frombuffer(self._before, dtype=np.int64), 0)
        before[-1] = self._shared(max(end + 1, self.ticks[-1]))
        times = np.append(ticks, max(end + 1, self.ticks[-1]))
        found = np.interp(edges, times, before)
        width = np.maximum(np.diff(edges), 1e-9)
        told: list[int] = np.rint(100 * np.diff(found) / width).astype(int).tolist()
        return told


class Track:
    """The bands of all heads and inputs, up to the tick `end`."""

    def __init__(self, display: Display) -> None:
        self.end = display.tick
        self._last, self._row = letters(display), digits(ALL_OFF)
        self._bands = [Band(ord(it)) for it in self._last]
        self._inputs = [Band(ord(it)) for it in self._row]

    def add(self, displays: Iterable[Display], end: int) -> None:
        """Takes the displays in which something changed up to the tick `end`, as far
        as they are not known."""
        for it in displays:
            if it.tick >= self.end:
                self._last = _put(self._bands, self._last, it.tick, letters(it))
        self.end = max(self.end, end)

    def take(self, rows: Log) -> None:
        """Takes the rows of the newest ticks."""
        for tick, row in zip(rows.ticks, rows.rows, strict=True):
            self._row = _put(self._inputs, self._row, tick, digits(row))

    def cut(self, tick: int) -> None:
        """Drops what lies ahead of a tick."""
        if tick < self.end:
            for band in [*self._bands, *self._inputs]:
                band.cut(tick)
            self._last = "".join(chr(it.letters[-1]) for it in self._bands)
            self._row = "".join(chr(it.letters[-1]) for it in self._inputs)
            self.end = tick

    def picture(self, view: View, inputs: bool = False) -> dict[str, Any]:
        """What a page draws: for each head that is ever lit its bands as
        `[tick, letter]`, or where they are too many the share of each column. With
        `inputs` likewise for each input that is ever on."""
        last = min(view.last, self.end)
        bands = [*zip(NAMES, self._bands, strict=True)]
        if inputs:
            bands += zip(INPUTS, self._inputs, strict=True)
        heads = [
            {"head": name, **_drawn(band, view, last)}
            for name, band in bands
            if not band.is_dark()
        ]
        return {
            "first": view.first,
            "last": view.last,
            "known": last,
            "columns": view.columns,
            "heads": heads,
        }


def _put(bands: list[Band], was: str, tick: int, now: str) -> str:
    """Puts the letters that are others from a tick on: those of now."""
    if was != now:
        for band, before, letter in zip(bands, was, now, strict=True):
            if before != letter:
                band.put(tick, ord(letter))
    return now


def _drawn(band: Band, view: View, last: int) -> dict[str, Any]:
    """What is drawn of a band."""
    low, high = band.bands(view.first, last)
    if 2 * (high - low) <= view.columns:
        return {"bands": list(_told(band, view.first, low, high))}
    edges = np.linspace(view.first, view.last + 1, view.columns + 1)
    return {"shares": band.shares(np.minimum(edges, last + 1), last)}


def _told(band: Band, first: int, low: int, high: int) -> Iterator[list[Any]]:
    for at in range(low, high):
        yield [max(band.ticks[at], first), chr(band.letters[at])]
