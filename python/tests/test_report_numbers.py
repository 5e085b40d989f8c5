"""The numbers of a report, each on a case that was worked by hand."""

from dataclasses import replace
from math import sqrt
from pathlib import Path

import numpy as np
import pandas as pd
import pytest

from tsb import Event, Plan, frames
from tsb.report import runs
from tsb.report.charts import greens_in_cycles, terminations
from tsb.report.differences import (
    Difference,
    differences,
    of_counts,
    of_means,
    of_shares,
)
from tsb.report.numbers import Numbers, period_of
from tsb.report.page import glance, unlike
from tsb.report.runs import Run, whole_minutes

LOST_BY_ALL = "call to green (seconds × actuations)"
START = np.datetime64("2026-11-22T07:00:00", "ns")


def plan() -> Plan:
    """Phase 2 is coordinated by table 3; detectors 2 and 12 call it, 4 calls 4."""
    found = Plan()
    found["vehicleDetectorCallPhase"] = {2: 2, 12: 2, 4: 4, 5: 0}
    found["patternSplitNumber"] = {1: 3}
    found["splitCoordPhase"] = {(3, 2): 1, (1, 6): 1}
    found["preemptTrackPhase"] = {1: {4}}
    return found


def numbers(
    *events: tuple[int, int, int], ticks: int = 1000, place: int = 0, of: int = 1,
    consecutive: int = 1, known: Plan | None = None,
) -> Numbers:  # fmt: skip
    """The numbers of events of tick, code and parameter."""
    table = frames.of_events(Event(*it) for it in events)
    run = Run("hand", table, START, ticks, known or plan())
    return Numbers(run, place, of, consecutive)


def observed(*events: tuple[int, int, int]) -> Numbers:
    """The numbers of a street's events, whose offsets count from midnight."""
    return Numbers(replace(numbers(*events).run, is_observed=True))


def rows(found: pd.DataFrame) -> list[tuple[object, ...]]:
    """The rows of a table with its index, and None for what is not known."""
    named = found.reset_index()
    plain = named.astype(object).where(named.notna(), None)
    return [tuple(it) for it in plain.itertuples(index=False)]


# Two greens of phase 2 in the first minute, of which one ends at tick 600 and so in
# that minute, and one that ends by its maximum at 601.
GREENS = [
    (1, 1, 2), (100, 4, 2), (100, 7, 2), (300, 1, 2), (600, 7, 2),
    (600, 1, 4), (601, 5, 4), (601, 7, 4), (700, 1, 4),
]  # fmt: skip


def test_why_greens_ended() -> None:
    """Gap, maximum, force-off, other, all; the last green goes on."""
    of = numbers(*GREENS)
    assert rows(of.ended) == [(2, 1, 0, 0, 1, 2), (4, 0, 1, 0, 0, 1)]


def test_why_greens_ended_by_time() -> None:
    """Minutes, as the run is short: tick 600 is the last of the first one, and has a
    walk. In the second one phase 6 has a walk and no green that ends."""
    of = numbers(*GREENS, (600, 21, 4), (900, 21, 6))
    assert rows(of.marked_by_time) == [
        (0, 2, 1, 0, 0, 1, 2, 0), (0, 4, 0, 0, 0, 0, 0, 1),
        (1, 4, 0, 1, 0, 0, 1, 0), (1, 6, 0, 0, 0, 0, 0, 1),
    ]  # fmt: skip


# Six greens of phase 2, by gap, three times by maximum, by gap and by maximum; between
# them two of phase 4 by force-offs. The last green of phase 2 goes on.
IN_A_ROW = [
    (begin + more, code, phase)
    for begin, cause, phase in [
        (0, 4, 2), (100, 5, 2), (150, 6, 4), (200, 5, 2), (300, 5, 2), (350, 6, 4),
        (400, 4, 2), (500, 5, 2), (600, 0, 2),
    ]
    for more, code in ((1, 1), (40, cause), (40, 7))
    if cause or code == 1
]  # fmt: skip


@pytest.mark.parametrize(
    ("consecutive", "ends"),
    [
        (1, [40, 140, 190, 240, 340, 390, 440, 540]),
        (2, [240, 340, 390]),
        (3, [340]),
        (4, []),
    ],
)
def test_ends_in_a_row(consecutive: int, ends: list[int]) -> None:
    """Of each phase by itself; shares are those of all greens, whatever is marked."""
    of = numbers(*IN_A_ROW, (600, 21, 2), consecutive=consecutive)
    assert of.marked["end"].to_list() == ends
    assert of.marked_by_time["walks"].sum() == 1
    assert terminations([of]).startswith("<svg")
    assert of.marked_by_time["greens"].sum() == len(ends)
    assert rows(of.ended) == [(2, 2, 4, 0, 0, 6), (4, 0, 0, 2, 0, 2)]


@pytest.mark.parametrize(
    ("hours", "minutes"), [(0.1, 1), (0.4, 1), (1, 5), (2, 5), (6, 15), (24, 60)]
)
def test_periods(hours: float, minutes: int) -> None:
    """There are 24 of them at most."""
    assert period_of(int(36000 * hours)) == 600 * minutes


def test_a_run_has_whole_minutes() -> None:
    """It lasts to the end of the minute that has its last row."""
    assert [whole_minutes(it) for it in (1, 600, 601, 35994)] == [600, 600, 1200, 36000]


def test_splits() -> None:
    """Services of 9, 12 and 30 s; the split of phase 2 was 40 s and is 35 s now."""
    told = [(1, 134 + 1, 40), (1, 134 + 3, 0), (2, 134 + 1, 35)]
    services = [
        (begin + more, code, 2)
        for begin, length in ((100, 90), (300, 120), (500, 300))
        for more, code in ((0, 1), (length - 40, 7), (length - 10, 10), (length, 12))
    ]
    found = numbers(*told, *services).splits
    assert rows(found) == [(2, 3, 17.0, 9.0, 12.0, 30.0, 30.0, 35.0)]


def test_programmed_splits() -> None:
    """Of phase 2 one service of 9 s before a split is told, two of 40 s programmed (12
    and 30 s; a gap and a force-off), and one where it is 35 s, that a preempt ends. A
    split that is told as a green begins counts for it; with 0 there is none."""
    told = [(300, 134 + 1, 40), (300, 134 + 3, 20), (899, 134 + 1, 35), (1500, 135, 0)]
    services = [
        (begin + more, code, 2)
        for begin, length, cause in [
            (100, 90, 4), (300, 120, 4), (500, 300, 6), (900, 200, 0), (1500, 50, 5)
        ]
        for more, code in (
            (0, 1), (length - 40, cause), (length - 40, 7), (length, 12)
        )
        if code
    ]  # fmt: skip
    assert rows(numbers(*told, *services, (1600, 1, 2)).programmed)[:3] == [
        (0, 2, 35.0, 1, 20.0, 20.0, 0.0, 0.0, 0.0),
        (1, 2, 40.0, 2, 21.0, 30.0, 0.5, 0.0, 0.5),
        (2, 2, None, 2, 7.0, 9.0, 0.5, 0.5, 0.0),
    ]


def test_waits() -> None:
    """Waits of 5 and 8 s for phase 4; calls of 400 and 900 wait at the end, 1000."""
    found = numbers(
        (10, 43, 4), (60, 1, 4), (60, 44, 4), (120, 43, 4), (200, 1, 4), (200, 44, 4),
        (400, 43, 4), (900, 43, 6),
    ).waits  # fmt: skip
    assert rows(found) == [
        (4, 2, 6.5, 5.0, 5.0, 8.0, 8.0, 1, 60.0),
        (6, 0, None, None, None, None, None, 1, 10.0),
    ]


def test_walks() -> None:
    """A wait of 34.5 s."""
    found = numbers((70, 45, 4), (415, 21, 4)).walks
    assert rows(found) == [(4, 1, 34.5, 34.5, 34.5, 34.5, 34.5, 0, None)]


# A pattern of 20 s with local zero at 100, 300, 500 ..: phase 2 is green from 250 to
# 350, and from 400 to 950, which is over three zeros. Cars come at 255, 360, 400, 490.
PATTERN = [
    (1, 131, 1), (1, 132, 20), (1, 133, 10),
    (250, 1, 2), (350, 7, 2), (350, 8, 2), (380, 9, 2), (400, 1, 2), (950, 7, 2),
    (255, 82, 2), (360, 82, 12), (399, 82, 2), (490, 82, 12), (495, 82, 5),
]  # fmt: skip


def test_arrivals() -> None:
    """Two of four actuations on green, which 650 of 1000 ticks are: a platoon ratio of
    0.77."""
    found = numbers(*PATTERN).arrivals
    assert list(found.columns[-2:]) == ["time_green", "platoon_ratio"]
    (row,) = rows(found)
    assert row[:7] == (2, 2, 1, 1, 4, 0.5, 0.65)
    assert row[7] == pytest.approx(0.5 / 0.65)


def test_arrivals_over_the_cycle() -> None:
    """15.5, 6, 9.9 and 19 s behind local zero, in parts of a second: 16, 7, 10, 20."""
    of = observed(*PATTERN)
    assert of.arriving["in_cycle_s"].to_list() == [15.5, 6.0, 9.9, 19.0]
    assert rows(of.folded) == [
        (2, 7, 0, 1, 0), (2, 10, 0, 0, 1), (2, 16, 1, 0, 0), (2, 20, 1, 0, 0),
    ]  # fmt: skip
    assert of.coordinated == [2]


def test_greens_over_the_cycle() -> None:
    """Each is cut where a cycle ends; what reaches out of the last whole one is not
    shown, that is from 900 on."""
    begin, low, end, high = greens_in_cycles(observed(*PATTERN), 2)
    assert [*zip(begin, low, end, high, strict=True)] == [
        (250, 150, 300, 200), (300, 0, 350, 50),
        (400, 100, 500, 200), (500, 0, 700, 200), (700, 0, 900, 200),
    ]  # fmt: skip


def test_midnight_before_a_run() -> None:
    """At 7:00:50 a pattern of 20 s, whose offset is 3 s, is 7 s behind its local zero by
    a street's events. Those of a bench have local zeros, and without one say nothing."""
    late = replace(observed(*PATTERN).run, start=START + np.timedelta64(50, "s"))
    told = (1, 131, 1), (1, 132, 20), (1, 133, 3), (1, 150, 1), (10, 82, 2)
    run = replace(late, events=numbers(*told).run.events)
    assert Numbers(run).arriving["in_cycle_s"].to_list() == [8.0]
    assert Numbers(replace(run, is_observed=False)).arriving["in_cycle_s"].isna().all()
    zero = numbers(*told, (5, 150, 5)).run.events
    assert Numbers(replace(run, events=zero)).arriving["in_cycle_s"].to_list() == [0.5]
    # (and of another pattern in events that have local zeros nothing is supposed)
    later = numbers(*told, (5, 150, 5), (100, 131, 2), (100, 132, 30), (110, 82, 2)).run
    places = Numbers(replace(run, events=later.events)).arriving["in_cycle_s"]
    assert places[0] == 0.5 and places[1] is pd.NA


def test_no_cycle_of_a_pattern() -> None:
    """Without one nothing is folded and no phase is coordinated."""
    of = numbers(*GREENS)
    assert not len(of.folded) and of.coordinated == []


def test_preempts() -> None:
    """A request at 100, service 3 s later, the track green at 160, dwell at 300, exit
    at 420. The second is a switch: its request is not known."""
    found = numbers(
        (100, 102, 1), (130, 105, 1), (130, 106, 1), (160, 1, 4), (290, 7, 4),
        (300, 107, 1), (420, 104, 1), (420, 111, 1),
        (600, 105, 1), (600, 106, 1), (650, 1, 4), (660, 107, 1),
    ).preempts  # fmt: skip
    spans = ["wait_s", "delay_s", "to_dwell_s", "dwell_s", "service_s"]
    assert rows(found[spans]) == [
        (0, 6.0, 3.0, 20.0, 12.0, 29.0),
        (1, None, None, None, None, None),
    ]


def test_arrows() -> None:
    """In 100 s overlap 1 flashes for 4.0 s and 16.0 s, and overlap 2 for the last 5.0 s:
    with no end, that is in no mean. The least value that half of 4 and 16 don't exceed is
    4, and 85 per cent of them 16."""
    found = numbers((21, 32, 1), (61, 33, 1), (201, 32, 1), (361, 33, 1), (951, 32, 2))
    assert rows(found.arrows) == [
        (1, 2, 10.0, 4.0, 4.0, 16.0, 16.0, 0.2),
        (2, 0, None, None, None, None, None, 0.05),
    ]
    assert numbers((1, 32, 1), ticks=1).arrows["flashing"].to_list() == [1.0]


def test_at_a_glance() -> None:
    """All phases together: three greens; calls of 3 and 5 s for phase 4, for which two
    actuations waited, and one that waits on; a walk after 2 s; one of four actuations
    on green; whole cycles of 30 and 40 s."""
    of = numbers(
        *GREENS, (100, 31, 1), (400, 31, 1), (800, 31, 1), (850, 84, 9),
        (570, 43, 4), (650, 43, 2), (650, 43, 4), (40, 45, 2), (60, 21, 2),
        (90, 82, 2), (400, 82, 4), (610, 82, 12), (620, 82, 4), (630, 82, 5),
    )  # fmt: skip
    assert {name: told for name, told in glance([of]).rows} == {
        "greens": "3",
        "of them by gap": "33.3 %",
        "of them by maximum": "33.3 %",
        "of them by force-off": "0.0 %",
        "of them by other": "33.3 %",
        "whole cycles": "2",
        "cycle, mean (s)": "35.0",
        LOST_BY_ALL: "8",
        "call to green, mean (s)": "4.0",
        "call to green, longest (s)": "5.0",
        "calls that wait at the end": "1",
        "button to walk, mean (s)": "2.0",
        "button to walk, longest (s)": "2.0",
        "actuations on green": "25.0 %",
        "services of preempts": "0",
        "detector alarms": "1",
    }


def test_counts_differ() -> None:
    """From 9 to 16: 7 for the root of 25."""
    assert of_counts(9, 16) == 1.4
    assert of_counts(0, 0) == 0


def test_shares_differ() -> None:
    """10 of 50 and 30 of 50: both together 40 of 100, so 0.4 for a root of 0.0096."""
    assert of_shares(10, 50, 30, 50) == pytest.approx(0.4 / sqrt(0.0096))
    assert of_shares(5, 5, 7, 7) == 0 == of_shares(0, 0, 1, 7)


def test_means_differ() -> None:
    """Means 2 and 6; variances 1 of three values and 8 of two: 4 for the root of a
    third and 4. What never varies varies by a tick; of one value nothing is known."""
    a, b = pd.Series([1.0, 2.0, 3.0]), pd.Series([4.0, 8.0])
    assert of_means(a, b) == pytest.approx(4 / sqrt(1 / 3 + 4))
    same = pd.Series([5.0, 5.0])
    assert of_means(same, same + 1) == pytest.approx(1 / 0.1)
    assert of_means(a, pd.Series([4.0])) == 0


def test_waits_by_seconds_and_actuations() -> None:
    """Two calls of phase 4 wait for 2 and 4 s, and in B for 5 and 9 s. In A four and in
    B three actuations came on red: 3 s for each of four, then 7 s for each of three.
    Two presses wait for a second less each. What is no wait comes last."""
    red = [(begin, 82, 4) for begin in (10, 12, 14, 500)]
    a = numbers(
        *red, (10, 43, 4), (30, 1, 4), (40, 7, 4), (500, 43, 4), (540, 1, 4),
        (10, 45, 4), (30, 21, 4), (100, 45, 4), (540, 21, 4), of=2,
    )  # fmt: skip
    b = numbers(
        *red[1:], (10, 43, 4), (60, 1, 4), (70, 7, 4), (500, 43, 4), (590, 1, 4),
        (10, 45, 4), (20, 21, 4), (100, 45, 4), (530, 21, 4), (600, 43, 6),
        place=1, of=2,
    )  # fmt: skip
    assert [(it.what, it.of, it.lost) for it in differences(a, b)] == [
        ("wait from call to green, mean", "phase 4", 9.0),
        ("wait from button to walk, mean", "phase 4", -2.0),
        ("calls that wait at the end", "phase 6", None),
    ]
    assert [a.lost, b.lost] == [12.0, 21.0]
    head, first = unlike(a, b)[0].head, unlike(a, b)[0].rows
    assert head[2] == "seconds × actuations" and head[-1] == "standard errors"
    assert [it[2] for it in first] == ["+9", "−2", "–"]


def test_waits_without_a_plan() -> None:
    """Which phase a detector counts for is not known: the calls count, two and two."""
    calls = [(10, 43, 4), (500, 43, 4), (10, 82, 4)]
    a = numbers(*calls, (30, 1, 4), (40, 7, 4), (540, 1, 4), of=2, known=Plan())
    b = numbers(*calls, (60, 1, 4), (70, 7, 4), (590, 1, 4), of=2, known=Plan())
    assert [it.lost for it in differences(a, b)] == [8.0]
    assert a.lost is None and [LOST_BY_ALL, "–"] in glance([a]).rows
    with_plan = numbers(*calls, (30, 1, 4), (40, 7, 4), (540, 1, 4), of=2)
    assert with_plan.lost == 3.0, "one actuation, for 3 s at the mean"
    assert [it.lost for it in differences(with_plan, b)] == [8.0], "B has none"


def test_what_differs() -> None:
    """By standard errors what is no wait: phase 2 has 4 greens and then 1, of which all
    and then none end by a gap. Of one split nothing is known of how splits spread."""
    greens = [
        (begin + more, code, 2)
        for begin in (0, 200, 400, 600)
        for more, code in ((1, 1), (91, 4), (91, 7), (101, 12))
    ]
    root = round(sqrt(5), 9)
    a = numbers(*greens, of=2)
    b = numbers((1, 1, 2), (81, 5, 2), (81, 7, 2), (91, 12, 2), place=1, of=2)
    found = [replace(it, errors=round(it.errors, 9)) for it in differences(a, b)]
    assert found == [
        Difference("greens that end by gap", "phase 2", "%", 1, 0, -root),
        Difference("greens that end by maximum", "phase 2", "%", 0, 1, root),
        Difference("greens", "phase 2", "", 4, 1, round(-3 / sqrt(5), 9)),
    ]
    assert differences(a, a) == []


def test_rows_before_the_begin() -> None:
    """The last of each code that says which pattern runs is as of the begin; others are
    left out."""
    seven = pd.Timestamp("2026-11-30 07:00:00")
    rows = [
        (-6000, 131, 1), (-3000, 131, 2), (-3000, 132, 90), (-1, 149, 7), (-1, 150, 1),
        (-1, 130, 3), (-1, 1, 2), (0, 82, 4), (0, 133, 5), (1, 131, 3),
    ]  # fmt: skip
    table = pd.DataFrame(rows, columns=["tick", "code", "parameter"])
    times = seven + pd.to_timedelta(100 * table["tick"], unit="ms")
    export = table.drop(columns="tick").assign(time=times, device="7")
    run = runs.of_rows(Path("street.csv"), export, str(seven), 600, None)
    found = run.events[["tick", "code", "parameter"]]
    kept = [(1, 131, 2), (1, 132, 90), (1, 149, 7), (1, 82, 4), (1, 133, 5), (2, 131, 3)]
    assert list(found.itertuples(index=False, name=None)) == kept
    later = runs.of_rows(Path("street.csv"), export[7:], str(seven), 600, None)
    assert list(later.events["code"]) == [82, 133, 131]


def test_ticks_before_the_begin() -> None:
    """A bench that ran before: the same of its events."""
    rows = [
        (1, 131, 1), (5, 131, 2), (10, 149, 3), (10, 150, 1), (10, 130, 9), (10, 1, 2),
        (11, 82, 4), (11, 132, 90), (12, 131, 5),
    ]  # fmt: skip
    events = pd.DataFrame(rows, columns=["tick", "code", "parameter"])
    found = runs._after(events, 10)
    kept = [(1, 131, 2), (1, 149, 3), (1, 82, 4), (1, 132, 90), (2, 131, 5)]
    assert list(found.itertuples(index=False, name=None)) == kept
    assert list(found.index) == [0, 1, 2, 3, 4]
    assert runs.earlier("2026-11-30 07:00:00", 600) == "2026-11-30 06:59:00"
    assert runs.earlier("2026-11-30 07:00:00", 0) == "2026-11-30 07:00:00"
