"""What differs between two runs: waits first, by the seconds of all who waited."""

from collections.abc import Iterator
from dataclasses import dataclass, replace
from math import sqrt
from typing import Any

import pandas as pd

from tsb.report.numbers import Numbers

TICK = 0.1  # seconds: what times deviate by at least


@dataclass(frozen=True)
class Difference:
    """A number that two runs have, `a` and `b`: `what` it is, `of` which phase,
    preempt or detector, its `unit` ("s", "%" of a share of 1, or "" of a count), how
    many standard `errors` it differs by, and of a wait the seconds times actuations
    that are `lost` by it, None of a number that is no wait."""

    what: str
    of: str
    unit: str
    a: float
    b: float
    errors: float
    lost: float | None = None


def of_counts(a: float, b: float) -> float:
    """The standard errors by which two counts differ: their difference for the root
    of their sum."""
    return (b - a) / sqrt(a + b) if a + b else 0.0


def of_shares(a: float, all_a: float, b: float, all_b: float) -> float:
    """The standard errors by which two shares differ, `a` of `all_a` and `b` of
    `all_b`, with the share of both together as that of each."""
    if not all_a or not all_b:
        return 0.0
    both = (a + b) / (all_a + all_b)
    error = sqrt(both * (1 - both) * (1 / all_a + 1 / all_b))
    return (b / all_b - a / all_a) / error if error else 0.0


def of_means(a: "pd.Series[float]", b: "pd.Series[float]") -> float:
    """The standard errors by which the means of some times differ, each with its own
    deviation, a tick at least; 0 where there are less than two of one."""
    if min(len(a), len(b)) < 2:
        return 0.0
    variances = (max(float(it.std()), TICK) ** 2 / len(it) for it in (a, b))
    return float(b.mean() - a.mean()) / sqrt(sum(variances))


def differences(a: Numbers, b: Numbers) -> list[Difference]:
    """All numbers that differ: waits by seconds times actuations, then the others by
    their standard errors, each the greatest first."""
    found = [*_waits(a, b), *_counts(a, b), *_shares(a, b), *_means(a, b)]
    unlike = [it for it in found if it.errors]
    return sorted(unlike, key=_place)


def _place(it: Difference) -> tuple[float, float, str, str]:
    """The place of a difference in their order: the least comes first."""
    lost = -1.0 if it.lost is None else abs(it.lost)
    return -lost, -abs(it.errors), it.what, it.of


def _number(table: pd.DataFrame, key: Any, column: str) -> float:
    """A value of a table, 0 where it has no such row."""
    return float(table[column].get(key, 0))


def _keys(a: pd.DataFrame, b: pd.DataFrame) -> list[int]:
    return sorted({*map(int, a.index), *map(int, b.index)})


def _counts(a: Numbers, b: Numbers) -> Iterator[Difference]:
    """How many greens, calls that wait at the end, preempts and alarms there are."""
    for what, of_a, of_b, column in [
        ("greens", a.ended, b.ended, "greens"),
        ("calls that wait at the end", a.waits, b.waits, "still"),
        ("presses that wait at the end", a.walks, b.walks, "still"),
    ]:
        for phase in _keys(of_a, of_b):
            counts = (_number(it, phase, column) for it in (of_a, of_b))
            yield _count(what, f"phase {phase}", *counts)
    for what, name, events_a, events_b in [
        ("services", "preempt", a.preempts, b.preempts),
        ("alarms", "detector", a.alarms, b.alarms),
    ]:
        found = [
            it[name].value_counts().to_frame("count") for it in (events_a, events_b)
        ]
        for key in _keys(*found):
            counts = (_number(it, key, "count") for it in found)
            yield _count(what, f"{name} {key}", *counts)


def _count(what: str, of: str, a: float, b: float) -> Difference:
    return Difference(what, of, "", a, b, of_counts(a, b))


def _shares(a: Numbers, b: Numbers) -> Iterator[Difference]:
    """What share of greens ended by a maximum or a force-off, of actuations came on
    green, of cycles had no green: of phases that have some in both runs."""
    asked = [
        (f"greens that end by {cause}", a.ended, b.ended, cause, "greens")
        for cause in ("gap", "maximum", "force-off")
    ]
    asked += [
        ("actuations on green", a.arrivals, b.arrivals, "on_green", "arrivals"),
        ("cycles without a green", a.a_cycle, b.a_cycle, "without", "cycles"),
    ]
    for what, of_a, of_b, column, of in asked:
        for phase in _keys(of_a, of_b):
            some = [
                (_number(it, phase, column), _number(it, phase, of))
                for it in (of_a, of_b)
            ]
            (x, all_x), (y, all_y) = some
            if all_x and all_y:
                errors = of_shares(x, all_x, y, all_y)
                yield Difference(
                    what, f"phase {phase}", "%", x / all_x, y / all_y, errors
                )


def _waits(a: Numbers, b: Numbers) -> Iterator[Difference]:
    """How long waits for green and for walk and the way to a preempt's green are. What
    is lost is the mean times how many waited, in `b` less in `a`: actuations of
    detectors (`Numbers.waited`; where a plan is not known, calls), of buttons, and
    requests."""
    known = bool(a.run.phases and b.run.phases)
    for what, of_a, of_b, name in [
        ("wait from call to green, mean", a.each_wait, b.each_wait, "phase"),
        ("wait from button to walk, mean", a.each_walk, b.each_walk, "phase"),
        ("request to green, mean", a.preempts, b.preempts, "preempt"),
    ]:
        for key, x, y in _pairs(of_a, of_b, "wait_s", name):
            waited = len(x), len(y)
            if known and of_a is a.each_wait:
                waited = a.waited(key), b.waited(key)
            found = _mean(what, f"{name} {key}", x, y)
            yield replace(found, lost=found.b * waited[1] - found.a * waited[0])


def _means(a: Numbers, b: Numbers) -> Iterator[Difference]:
    """How long services and cycles are."""
    for phase, x, y in _pairs(a.each_split, b.each_split, "split_s", "phase"):
        yield _mean("split, mean", f"phase {phase}", x, y)
    lengths = [it.cycles["cycle_s"] for it in (a, b)]
    if all(map(len, lengths)):
        yield _mean("cycle, mean", "all", *lengths)


def _pairs(
    a: pd.DataFrame, b: pd.DataFrame, column: str, name: str
) -> Iterator[tuple[int, "pd.Series[float]", "pd.Series[float]"]]:
    """The values of a column for each phase or preempt that has some in both runs."""
    known = [it.dropna(subset=[column]) for it in (a, b)]
    for key in sorted({int(k) for it in known for k in it[name].unique()}):
        x, y = (it.loc[it[name] == key, column] for it in known)
        if len(x) and len(y):
            yield key, x, y


def _mean(
    what: str, of: str, a: "pd.Series[float]", b: "pd.Series[float]"
) -> Difference:
    return Difference(what, of, "s", float(a.mean()), float(b.mean()), of_means(a, b))
