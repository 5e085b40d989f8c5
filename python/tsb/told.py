"""The codes of events (docs/use/FIELD.md), and how tables of them are gone through."""

from collections.abc import Collection, Iterable, Iterator
from typing import Any

import pandas as pd

GREEN, GREEN_ENDS, YELLOW, YELLOW_ENDS = 1, 7, 8, 9
RED_CLEARANCE, RED_CLEARANCE_ENDS, OVER = 10, 11, 12
CAUSES = {4: "gap", 5: "maximum", 6: "force-off"}
# How a green ended that has none of these: a preempt or the monitor ended it.
OTHER = "other"
WALK, CALL, CALL_GOES, PEDESTRIAN_CALL = 21, 43, 44, 45
DETECTOR_ON, PREEMPT_ON, PREEMPT_OFF = 82, 102, 104
SERVICE, TRACK, DWELL, EXIT = 105, 106, 107, 111
BARRIER, PATTERN, CYCLE, OFFSET = 31, 131, 132, 133
# A flashing yellow arrow begins to flash, and ends.
ARROW, ARROW_ENDS = 32, 33
# How the local counter goes: the numbers for "not in step yet", with a street's 6 for the
# begin of a pickup, and for "a cycle begins"; other numbers are other states.
CYCLE_STATE, NOT_IN_STEP, LOCAL_ZERO = 150, (2, 3, 4, 6), 5
FREE = 254  # a pattern's number: free operation, and above it flash
# An alarm of a detector goes; the bench's own comes, or one of those that a street's
# controller reports apart: watchdog, open loop, shorted loop, excessive change.
ALARM_GOES, ALARMS = 83, range(84, 89)

Row = dict[str, Any]


def ordered(
    events: pd.DataFrame, codes: Collection[int]
) -> Iterator[tuple[int, int, int]]:
    """Tick, code and parameter of events of these codes, by tick, then by code."""
    counts = events[events["code"].isin(list(codes))]
    found = counts.sort_values(["tick", "code", "parameter"], kind="stable")
    columns = (found[name].tolist() for name in ("tick", "code", "parameter"))
    return zip(*columns, strict=True)


def table_of(rows: Iterable[Row], ticks: Iterable[str], words: Iterable[str]) -> Any:
    """The table of rows: whole numbers, NA where there is none, and words."""
    names = [*ticks, *words]
    found = pd.DataFrame(list(rows), columns=names)
    return found.astype({name: "Int64" for name in ticks})


def seconds(later: "pd.Series[int]", earlier: "pd.Series[int]") -> "pd.Series[float]":
    """The seconds between ticks."""
    return (later - earlier).astype("Float64") / 10


def by_tick(
    events: pd.DataFrame, codes: Collection[int]
) -> Iterator[tuple[int, list[tuple[int, int]]]]:
    """The events of these codes, of each tick that has some: codes and parameters."""
    last = 0
    moment: list[tuple[int, int]] = []
    for tick, code, parameter in ordered(events, codes):
        if tick != last and moment:
            yield last, moment
            moment = []
        last = tick
        moment.append((code, parameter))
    if moment:
        yield last, moment
