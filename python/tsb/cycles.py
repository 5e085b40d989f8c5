"""The patterns of a run, and its cycles, by its events."""

from collections.abc import Iterator
from typing import Any, NamedTuple

import numpy as np
import pandas as pd

from tsb.told import (
    BARRIER,
    CYCLE,
    CYCLE_STATE,
    FREE,
    GREEN,
    LOCAL_ZERO,
    NOT_IN_STEP,
    OFFSET,
    PATTERN,
    Row,
    by_tick,
    seconds,
    table_of,
)


def patterns(events: pd.DataFrame) -> pd.DataFrame:
    """The stretches in which a pattern runs, or none: `begin` and `end` (the first
    tick after it; for the last one, the tick after the last event), `pattern`, `cycle_s` and
    `offset_s`, NA in free operation. Before the first code 131 operation is free. A cycle
    has an event only where it becomes another (132), so before the first it is NA."""
    if not len(events):
        names = ["begin", "end", "pattern", "cycle_s", "offset_s"]
        empty: pd.DataFrame = table_of([], names, [])
        return empty
    first, last = int(events["tick"].min()), int(events["tick"].max())
    now: dict[int, Any] = {PATTERN: 0, CYCLE: pd.NA, OFFSET: 0}
    rows: list[Row] = [{"begin": first}]
    for tick, moment in by_tick(events, now):
        now.update(moment)
        if tick > rows[-1]["begin"]:
            rows[-1]["end"] = tick
            rows.append({"begin": tick})
        is_long = now[CYCLE] is pd.NA or now[CYCLE] > 0
        runs = is_long and 0 < now[PATTERN] < FREE
        told = dict(zip(["pattern", "cycle_s", "offset_s"], now.values(), strict=True))
        rows[-1].update(told if runs else dict.fromkeys(told, pd.NA))
    rows[-1]["end"] = last + 1
    names = ["begin", "end", "pattern", "cycle_s", "offset_s"]
    found: pd.DataFrame = table_of(rows, names, [])
    return found


def cycles(events: pd.DataFrame, offsets_from: int | None = None) -> pd.DataFrame:
    """Each whole cycle: `begin`, `end` (the next one's begin), `cycle_s`, and the
    `pattern` that runs, NA in free operation.

    Cycles of a pattern begin at local zero (`in_cycle`). In free operation, and where
    no event says when that is, one begins where a barrier is crossed to the side of the
    lowest number (code 31); where no event has a crossing, with each green of the phase
    that has the most of them, the lowest of such.
    """
    free = _free_begins(events)
    rows: list[Row] = []
    for it, counter in _stretches(events, offsets_from):
        if counter is None:
            begins = free[(free >= it.begin) & (free <= it.end)]
        else:
            begins = counter.zeros()
        pairs = zip(begins[:-1].tolist(), begins[1:].tolist(), strict=True)
        rows += [{"begin": b, "end": e, "pattern": it.pattern} for b, e in pairs]
    found: pd.DataFrame = table_of(rows, ["begin", "end", "pattern"], [])
    return found.assign(cycle_s=seconds(found["end"], found["begin"]))


def _free_begins(events: pd.DataFrame) -> Any:
    """The ticks at which cycles of free operation begin: an array."""
    of = events[events["code"] == BARRIER]
    first = of["parameter"].min()
    if of.empty:
        of = events[events["code"] == GREEN]
        counts = of["parameter"].value_counts()
        first = counts[counts == counts.max()].index.min()
    return np.unique(of.loc[of["parameter"] == first, "tick"].to_numpy(np.int64))


def in_cycle(
    events: pd.DataFrame, ticks: "pd.Series[int]", offsets_from: int | None = None
) -> "pd.Series[float]":
    """The place of each tick in the cycle of the pattern that runs then: seconds
    since local zero, NA in free operation and where it is not known.

    Local zero is where events have it (code 150, parameter 5), and in step a whole
    number of cycles before the first of a pattern. A counter that comes into step goes
    on from the last pattern's place. An offset (133) is a length, and no event says from
    which moment and to which point of the cycle it is counted. So in a pattern without
    such a local zero a place is NA, or with `offsets_from` it counts from the offset after
    that tick: 0 for the bench without a clock, and midnight's tick for most streets.
    """
    found = pd.Series(pd.NA, ticks.index, dtype="Float64")
    for it, counter in _stretches(events, offsets_from):
        if counter is not None and counter.length is not None:
            within = (ticks >= it.begin) & (ticks < it.end)
            since = counter.since_zero(ticks[within].to_numpy(np.int64))
            found[within] = pd.array(since / 10, "Float64")
    return found


class _Told(NamedTuple):
    """The local counter in a run's events: the ticks of local zero, and each state with
    its tick."""

    zeros: Any
    ticks: Any
    states: Any

    def is_in_step(self, ticks: Any) -> Any:
        """Whether the counter is in step in each tick, by the last state."""
        place = np.searchsorted(self.ticks, ticks, "right")
        return ~np.isin(np.append(0, self.states)[place], NOT_IN_STEP)

    def stays_in_step(self, ticks: Any, until: int) -> Any:
        """Whether it is in step from each tick up to a later one."""
        out = self.ticks[np.isin(self.states, NOT_IN_STEP)]
        since = np.append(-1, out[out < until])[-1]
        return self.is_in_step(ticks) & (ticks >= since)


def _told(events: pd.DataFrame) -> _Told:
    """The local counter in these events."""
    of = events[events["code"] == CYCLE_STATE].sort_values("tick", kind="stable")
    at_zero = of["parameter"] == LOCAL_ZERO
    zeros = np.unique(of.loc[at_zero, "tick"].to_numpy(np.int64))
    ticks, states = (
        of.loc[~at_zero, it].to_numpy(np.int64) for it in ("tick", "parameter")
    )
    return _Told(zeros, ticks, states)


class _Counter(NamedTuple):
    """The local counter of a stretch in which a pattern runs. Its `length` is not known
    where no event has the cycle. As long as it comes into step it goes on as if it was 0
    at `zero`. In step it is 0 at `base`, and each `length` later, where no event has a
    local zero. Either may not be known."""

    told: _Told
    begin: int
    end: int
    length: int | None
    zero: int | None
    base: int | None

    def zeros(self) -> Any:
        """The ticks from `begin` up to `end` at which it is 0."""
        place = self.since_zero(np.array([self.begin]))[0]
        if len(self.told.zeros):
            own = self._own()
            return np.append(self.begin, own) if place == 0 else own
        assert self.length is not None  # (its place is known)
        first = self.begin + int(-place % self.length)
        return np.arange(first, self.end + 1, self.length)

    def is_known(self) -> bool:
        """Whether events have its local zeros, or its place where it begins."""
        place = self.since_zero(np.array([self.begin]))[0]
        return len(self.told.zeros) > 0 or not np.isnan(place)

    def _own(self) -> Any:
        """The local zeros that events have after `begin`."""
        zeros = self.told.zeros
        return zeros[(zeros > self.begin) & (zeros <= self.end)]

    def since_zero(self, ticks: Any) -> Any:
        """How many ticks each of these ticks is after the newest zero before it, NaN
        where that is not known."""
        own = self._own()
        place = np.searchsorted(own, ticks, "right")
        since = ticks - np.append(np.nan, own)[place]
        return np.where(place == 0, self._before(ticks, own), since)

    def _before(self, ticks: Any, own: Any) -> Any:
        """The same for ticks before the first of its own zeros."""
        unknown = np.full(len(ticks), np.nan)
        if self.length is None:
            return unknown
        going = unknown if self.zero is None else (ticks - self.zero) % self.length
        in_step = unknown if self.base is None else (ticks - self.base) % self.length
        if len(own):
            stays = self.told.stays_in_step(ticks, own[0])
            in_step = np.where(stays, (ticks - own[0]) % self.length, in_step)
        return np.where(self.told.is_in_step(ticks), in_step, going)


def _stretches(
    events: pd.DataFrame, offsets_from: int | None
) -> Iterator[tuple[Any, _Counter | None]]:
    """The stretches of patterns, each with its local counter: none in free operation,
    and where it is not known. One that is not in step goes on from the place of the one
    before it."""
    told = _told(events)
    before: _Counter | None = None
    for it in patterns(events).itertuples(index=False):
        counter = None
        if it.pattern is not pd.NA:
            length = None if it.cycle_s is pd.NA else 10 * it.cycle_s
            base = None if offsets_from is None else offsets_from + 10 * it.offset_s
            zero = base
            if before and not told.is_in_step(it.begin):
                place = before.since_zero(np.array([it.begin]))[0]
                zero = None if np.isnan(place) else it.begin - int(place)
            counter = _Counter(told, it.begin, it.end, length, zero, base)
        before = counter
        yield it, counter if counter and counter.is_known() else None


def greens_a_cycle(
    events: pd.DataFrame, offsets_from: int | None = None
) -> pd.DataFrame:
    """How often each phase is green in a cycle: a row for a phase. It has how many
    whole `cycles` there are, the `greens` that begin in them, and `a_cycle`. Then come
    how many cycles have none (`without`) and more than one (`with_more`)."""
    whole = cycles(events, offsets_from)
    begins, ends = (whole[it].to_numpy(np.int64) for it in ("begin", "end"))
    rows: list[Row] = []
    begun = events[events["code"] == GREEN]
    for phase, of in begun.groupby("parameter"):
        ticks = of["tick"].to_numpy(np.int64)
        place = np.searchsorted(begins, ticks, "right") - 1
        counts = place[(place >= 0) & (ticks < ends[place] if len(ends) else False)]
        each = np.bincount(counts, minlength=len(whole))
        rows.append(
            {
                "phase": phase,
                "cycles": len(whole),
                "greens": each.sum(),
                "without": (each == 0).sum(),
                "with_more": (each > 1).sum(),
            }
        )
    names = ["phase", "cycles", "greens", "without", "with_more"]
    found: pd.DataFrame = table_of(rows, names, []).set_index("phase")
    share = found["greens"] / found["cycles"].where(found["cycles"] > 0)
    return found.assign(a_cycle=share.astype("Float64"))
