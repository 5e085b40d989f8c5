"""Measures, cycles, frames, numbers and differences at their boundaries: first and last
ticks, equal times, nothing on one side; each worked by hand, or against a plain way to
the same answer."""

from dataclasses import replace
from pathlib import Path

import numpy as np
import pandas as pd
import pytest
from hypothesis import HealthCheck, given, settings
from hypothesis import strategies as some

from tsb import Error, Event, Log, Plan, frames, measures
from tsb.cycles import _told
from tsb.report.differences import Difference, differences, of_counts, of_means
from tsb.report.numbers import Numbers, period_of
from tsb.report.page import _facts
from tsb.report.runs import Run, Session, moment, of_plan, of_rows, with_inputs_of
from tsb.report.sections import _lengths
from tsb.report.sources import _rows
from tsb.spread import percentile
from tsb.told import by_tick, ordered

START = "2026-11-22 07:00:00"


def table(*events: tuple[int, int, int]) -> pd.DataFrame:
    """Events of tick, code and parameter."""
    return frames.of_events(Event(*it) for it in events)


def rows(found: pd.DataFrame) -> list[tuple[object, ...]]:
    """The rows of a table, with None for what is not known."""
    plain = found.astype(object).where(found.notna(), None)
    return [tuple(it) for it in plain.itertuples(index=False)]


EVENTS = some.lists(
    some.tuples(
        some.integers(0, 30),
        some.sampled_from((1, 4, 5, 7, 8, 9, 10, 12, 21, 43, 44, 45, 82)),
        some.integers(1, 3),
    ),
    max_size=25,
)


# Events in their order


@given(EVENTS)
@settings(max_examples=15, deadline=None)
def test_events_are_gone_through_in_order(events: list[tuple[int, int, int]]) -> None:
    """By tick, code and parameter, whatever order the table has."""
    codes = {1, 7, 43}
    wanted = sorted(it for it in events if it[1] in codes)
    assert list(ordered(table(*events), codes)) == wanted
    moments = list(by_tick(table(*events), codes))
    assert [(t, c, p) for t, of in moments for c, p in of] == wanted
    assert len({t for t, _ in moments}) == len(moments)


# Measures


def test_a_wait_is_from_the_first_call() -> None:
    """A second code 43 before the green changes nothing, a call in the tick of the
    green is served in it, and one that goes is none."""
    events = table((10, 43, 4), (30, 43, 4), (91, 1, 4), (91, 43, 4), (95, 44, 4))
    assert rows(measures.waits(events)) == [(4, 10, 91, 8.1)]
    assert rows(measures.waits(table((5, 1, 2), (5, 43, 2), (7, 1, 2)))) == [
        (2, 5, 7, 0.2)
    ]
    # of two phases: the served ones first, then those that wait still
    events = table((1, 43, 2), (2, 43, 4), (9, 1, 4), (10, 43, 4))
    assert rows(measures.waits(events)) == [
        (4, 2, 9, 0.7), (2, 1, None, None), (4, 10, None, None)
    ]  # fmt: skip


@given(EVENTS)
@settings(max_examples=15, deadline=None)
def test_waits_are_those_of_a_plain_way(events: list[tuple[int, int, int]]) -> None:
    """Phase by phase: the first call that stays, up to the next green."""
    served, open_ = [], []
    for phase in (1, 2, 3):
        call = None
        for tick, code, _ in sorted(it for it in events if it[2] == phase):
            if code == 43 and call is None:
                call = tick
            elif code == 1 and call is not None:
                served.append((phase, call, tick))
                call = None
            elif code == 44:
                call = None
        if call is not None:
            open_.append((phase, call))
    found = rows(measures.waits(table(*events)))
    assert sorted(it[:3] for it in found if it[2] is not None) == sorted(served)
    assert sorted(it[:2] for it in found if it[2] is None) == sorted(open_)
    assert all(it[3] == (it[2] - it[1]) / 10 for it in found if it[2] is not None)  # type: ignore[operator]


def test_a_green_that_began_before_has_no_row() -> None:
    """And a cause, an end or a clearance of a phase that was never green none."""
    events = table((1, 4, 2), (2, 7, 2), (3, 10, 2), (4, 12, 2))
    assert rows(measures.services(events)) == []
    # each service by itself: the second has its own cause, and no red clearance
    events = table(
        (1, 1, 2), (5, 4, 2), (5, 7, 2), (8, 10, 2), (9, 12, 2), (10, 1, 2), (20, 7, 2)
    )  # fmt: skip
    assert rows(measures.services(events)) == [
        (2, 1, 5, 8, None, 9, "gap"), (2, 10, 20, None, None, None, "other")
    ]  # fmt: skip
    for code, cause in ((4, "gap"), (5, "maximum"), (6, "force-off")):
        events = table((1, 1, 2), (5, code, 2), (5, 7, 2))
        assert rows(measures.greens(events)) == [(2, 1, 5, 0.4, cause)]


def test_splits_without_a_part() -> None:
    """Without red clearance yellow goes to the end; what goes on has no length."""
    events = table((1, 1, 2), (51, 7, 2), (81, 12, 2), (90, 1, 4), (99, 7, 4))
    assert rows(measures.splits(events)) == [
        (2, 1, 81, 5.0, 3.0, 0.0, 8.0), (4, 90, None, 0.9, None, None, None)
    ]  # fmt: skip


def test_ends_in_a_row_by_phase() -> None:
    """Another cause of the phase begins anew, another phase does not."""
    ended = pd.DataFrame(
        {"phase": [2, 4, 2, 2, 4, 2], "cause": ["a", "a", "a", "b", "a", "a"]}
    )
    assert measures.in_a_row(ended).to_list() == [1, 1, 2, 1, 2, 1]


def test_actuations_by_what_is_shown() -> None:
    """In the tick of an event the new light counts; before the first one it is red.
    Detectors that call nothing don't count, and equal ticks are by detector."""
    events = table(
        (9, 82, 3), (9, 82, 2), (10, 1, 2), (10, 82, 2), (19, 82, 2), (20, 7, 2),
        (20, 82, 2), (29, 82, 2), (30, 9, 2), (30, 82, 2), (9, 82, 5), (12, 81, 2),
    )  # fmt: skip
    leads = {2: 2, 3: 4, 5: 0}
    assert rows(measures.arriving(events, leads)) == [
        (2, 2, 9, "red"), (4, 3, 9, "red"), (2, 2, 10, "green"), (2, 2, 19, "green"),
        (2, 2, 20, "yellow"), (2, 2, 29, "yellow"), (2, 2, 30, "red"),
    ]  # fmt: skip
    found = measures.arrivals(events, leads)
    assert rows(found.reset_index()) == [(2, 2, 2, 2, 6, 2 / 6), (4, 0, 0, 1, 1, 0.0)]
    none = measures.arrivals(table(), {1: 6})
    assert rows(none.reset_index()) == [(6, 0, 0, 0, 0, None)]


def test_actuations_of_events_in_any_order() -> None:
    """By tick, and within a tick by code; phases are in their order."""
    events = table((20, 7, 2), (10, 1, 2), (15, 82, 2), (30, 7, 2), (30, 1, 2), (30, 82, 2))
    assert rows(measures.arriving(events, {2: 2})) == [
        (2, 2, 15, "green"), (2, 2, 30, "yellow")
    ]  # fmt: skip
    found = measures.arrivals(table(), {2: 16, 3: 1, 4: 8})
    assert list(found.index) == [1, 8, 16]


def preempted(*events: tuple[int, int, int]) -> list[tuple[object, ...]]:
    """The services of preempts 1 (track 4, dwell 2) and 2 (dwell 2 and 6)."""
    plan = Plan()
    plan["preemptTrackPhase"][1] = {4}
    plan["preemptDwellPhase"] = {1: {2}, 2: {2, 6}}
    return rows(measures.preempts(table(*events), plan))


def test_a_green_behind_the_exit_is_none() -> None:
    """Code 111 ends the way to it; in its tick the green still is one."""
    before = ((10, 102, 1), (10, 105, 1), (10, 106, 1), (30, 107, 1))
    assert preempted(*before, (40, 111, 1), (41, 1, 4)) == [
        (1, 10, 10, 10, None, 30, 40, None)
    ]
    assert preempted(*before, (40, 111, 1), (50, 105, 1), (60, 1, 4))[0][4] is None
    assert preempted(*before, (39, 1, 4), (40, 111, 1))[0][4] == 39


def test_services_of_preempts_by_themselves() -> None:
    """Each has its own request and stages; a green that ended is none, all phases have
    to be green, and the stage that comes first counts."""
    assert preempted(
        (1, 1, 2), (5, 7, 2), (10, 102, 2), (12, 105, 2), (12, 107, 2), (20, 1, 2),
        (25, 1, 6), (30, 107, 2), (40, 111, 2), (41, 111, 2), (45, 104, 2),
        (50, 105, 1), (51, 1, 4),
    ) == [
        (2, 10, 12, None, 25, 12, 40, 1.5), (1, None, 50, None, 51, None, None, None)
    ]  # fmt: skip
    # a request that went is none, and a stage without a service is passed over
    assert preempted((1, 106, 1), (2, 102, 1), (3, 104, 1), (4, 105, 1)) == [
        (1, None, 4, None, None, None, None, None)
    ]
    # an input that goes in the tick of the service
    assert preempted((2, 102, 1), (9, 104, 1), (9, 105, 1))[0][1] is None
    # a preempt that takes over
    assert preempted((1, 1, 4), (2, 105, 2), (5, 105, 1), (9, 107, 1)) == [
        (2, None, 2, None, None, None, None, None),
        (1, None, 5, None, 5, 9, None, None),
    ]


def test_a_green_before_the_service_that_ended_is_none() -> None:
    """And a preempt that no plan has is for no phases, the last one of a plan is."""
    assert preempted((1, 1, 4), (5, 7, 4), (10, 105, 1), (20, 1, 4))[0][4] == 20
    plan = Plan()
    plan["preemptDwellPhase"] = {1: {2}, 4: {6}}
    for number, green in ((0, None), (1, 15), (4, 20), (5, None), (99999, None)):
        events = table((10, 105, number), (15, 1, 2), (20, 1, 6))
        assert rows(measures.preempts(events, plan))[0][4] == green


def test_alarms_at_once() -> None:
    """Code 83 in the tick of another alarm is the end of the one before it."""
    events = table((10, 84, 3), (20, 83, 3), (20, 88, 3), (30, 83, 4), (31, 89, 3))
    assert rows(measures.alarms(events)) == [
        (3, 10, 20, 84, 1.0), (3, 20, None, 88, None)
    ]  # fmt: skip


@given(some.lists(some.integers(0, 9), min_size=1, max_size=30), some.integers(1, 100))
@settings(max_examples=20, deadline=None)
def test_percentiles_are_nearest_ranks(values: list[int], share: int) -> None:
    found = percentile(pd.Series(values, dtype=float), share)
    least = [v for v in values if 100 * sum(w <= v for w in values) >= share * len(values)]
    assert found == min(least)


# Patterns and cycles


def in_pattern(end: int, offset: int = 0) -> pd.DataFrame:
    """Pattern 1 of 30 s from tick 1 up to a tick, free after it."""
    told = [(1, 131, 1), (1, 132, 30), (1, 133, offset)]
    return table(*told, (end, 131, 254), (end + 9, 7, 2))


def test_the_last_cycle_of_a_pattern() -> None:
    """It is whole where the pattern ends at its local zero, and not a tick before."""
    assert rows(measures.cycles(in_pattern(900), 0))[-1:] == [(600, 900, 1, 30.0)]
    assert rows(measures.cycles(in_pattern(899), 0))[-1:] == [(300, 600, 1, 30.0)]
    # and the first where it begins at it
    events = table((300, 131, 1), (300, 132, 30), (300, 133, 0), (900, 7, 2))
    both = [(300, 600, 1, 30.0), (600, 900, 1, 30.0)]
    assert rows(measures.cycles(events, 0)) == both
    events = table((301, 131, 1), (301, 132, 30), (301, 133, 0), (900, 7, 2))
    assert rows(measures.cycles(events, 0)) == [(600, 900, 1, 30.0)]
    assert rows(measures.cycles(in_pattern(900, 4), 0)) == [
        (40, 340, 1, 30.0), (340, 640, 1, 30.0)
    ]  # fmt: skip


def test_what_is_no_pattern() -> None:
    """0 and 254 and above are none, nor is one without a cycle; 253 is one."""
    for number, cycle, runs in (
        (0, 30, False), (1, 30, True), (253, 30, True), (254, 30, False),
        (255, 30, False), (1, 0, False), (1, 1, True),
    ):  # fmt: skip
        events = table((1, 131, number), (1, 132, cycle), (1, 133, 0), (5, 1, 2))
        wanted = (1, 6, number, cycle, 0) if runs else (1, 6, None, None, None)
        assert rows(measures.patterns(events)) == [wanted]


@pytest.mark.parametrize(
    "told, wanted",
    [
        ([(1, 132, 30), (1, 133, 4)], (None, None, None)),
        ([(1, 131, 1), (1, 133, 4)], (1, None, 4)),
        ([(1, 131, 1), (1, 132, 30)], (1, 30, 0)),
    ],
)
def test_a_pattern_of_which_a_part_is_not_told(
    told: list[tuple[int, int, int]], wanted: tuple[int | None, ...]
) -> None:
    """Without its number it is none; without a cycle that is not known, and without an
    offset that is 0."""
    assert rows(measures.patterns(table(*told, (5, 7, 2)))) == [(1, 6, *wanted)]


def test_cycles_of_free_operation_at_its_ends() -> None:
    """A crossing in the first and in the last tick of a stretch counts, and those of a
    pattern do not."""
    events = table(
        (1, 31, 1), (100, 31, 1), (100, 131, 1), (100, 132, 30), (100, 133, 0),
        (250, 31, 1), (1000, 131, 254), (1000, 31, 1), (1100, 31, 1), (1100, 1, 2),
    )  # fmt: skip
    free = [it for it in rows(measures.cycles(events)) if it[2] is None]
    assert free == [(1, 100, None, 9.9), (1000, 1100, None, 10.0)]
    # without crossings: the phase of the most greens, the lowest of such
    events = table((1, 1, 5), (2, 1, 3), (7, 1, 5), (9, 1, 3), (9, 1, 3), (9, 7, 2))
    assert rows(measures.cycles(events)) == [(2, 9, None, 0.7)]
    events = table((1, 1, 5), (2, 1, 3), (7, 1, 5), (9, 1, 3))
    assert rows(measures.cycles(events)) == [(2, 9, None, 0.7)]


def test_states_of_a_counter_in_their_order() -> None:
    """By tick, and within one as the events come."""
    states = [(10, 150, it % 5) for it in range(40)] + [(5, 150, it % 4) for it in range(40)]
    told = _told(table(*states))
    assert told.ticks.tolist() == [5] * 40 + [10] * 40
    assert told.states.tolist() == [it % 4 for it in range(40)] + [it % 5 for it in range(40)]


def test_greens_in_cycles_at_their_ends() -> None:
    """A green in the last tick of a cycle is of it, one at its end of the next; those
    before the first and after the last are of none."""
    crossings = [(100, 31, 1), (300, 31, 1), (500, 31, 1)]
    for tick, counts in ((99, 0), (100, 1), (299, 1), (300, 1), (499, 1), (500, 0)):
        found = measures.greens_a_cycle(table(*crossings, (tick, 1, 2)))
        assert rows(found.reset_index()) == [
            (2, 2, counts, 2 - counts, 0, counts / 2)
        ]
    found = measures.greens_a_cycle(table((1, 1, 2), (1, 1, 4)))
    assert rows(found.reset_index()) == [(2, 0, 0, 0, 0, None), (4, 0, 0, 0, 0, None)]
    once = measures.greens_a_cycle(table(*crossings[:2], (100, 1, 2)))
    assert rows(once.reset_index()) == [(2, 1, 1, 0, 0, 1.0)]
    twice = measures.greens_a_cycle(table(*crossings, (100, 1, 2), (299, 1, 2)))
    assert rows(twice.reset_index()) == [(2, 2, 2, 1, 1, 1.0)]


def test_places_in_a_cycle_at_its_ends() -> None:
    """In a pattern from 40 to 700 with local zero at 40, 340, 640."""
    events = table((40, 131, 2), (40, 132, 30), (40, 133, 4), (700, 131, 254), (800, 7, 1))
    ticks = pd.Series([39, 40, 41, 339, 340, 699, 700], index=range(10, 17))
    found = measures.in_cycle(events, ticks, 0)
    assert rows(found.reset_index()) == [
        (10, None), (11, 0.0), (12, 0.1), (13, 29.9), (14, 0.0), (15, 5.9), (16, None)
    ]  # fmt: skip


# Frames


def test_an_event_before_the_first_tick_has_its_time() -> None:
    """As in a record: tick 0 and tick 1 begin at the start."""
    export = frames.export_of_events(table((0, 131, 1), (1, 1, 2), (12, 7, 2)), START, "7")
    begins = [str(it)[11:] for it in export["time"]]
    assert begins == ["07:00:00", "07:00:00", "07:00:01.100000"]
    back = frames.events_of_export(export, START)
    assert rows(back) == [(1, 131, 1), (1, 1, 2), (12, 7, 2)]


@pytest.mark.parametrize(
    "text",
    ["07:00:00.0", "07:00:00.000123", "07:00:10.5", "07:00:00.123456789", "23:59:59.9"],
)
def test_parts_of_a_second_are_kept(tmp_path: Path, text: str) -> None:
    export = pd.DataFrame(
        {"device": "7", "time": pd.to_datetime([f"2026-11-22 {text}"]), "code": 1, "parameter": 2}
    )
    path = tmp_path / "e.csv"
    frames.write_export(export, path)
    assert path.read_text().splitlines()[1:] == [f"7,2026-11-22 {text},1,2"]
    pd.testing.assert_frame_equal(frames.read_export(path), export, check_dtype=False)


def test_rows_of_one_moment_act_in_their_order() -> None:
    """In a table that is not in the order of time, too: what comes last holds."""
    many = [(33, code, it) for code in (82, 81, 82, 81) for it in range(1, 17)]
    export = frames.export_of_events(table(*many, (33, 82, 4), (5, 82, 2)), START, "7")
    log = frames.log_of_export(export, START)
    assert log.ticks == (5, 33, 34)  # (what goes on and off in a tick is on in it)
    assert log.rows[1:] == (row_of((1 << 28) - (1 << 12)), row_of(1 << 24))


def test_an_export_from_a_start_on() -> None:
    """The moment itself is tick 1, what is before it is left out, and so are the
    rows of other devices."""
    times = ["06:59:59.9", "07:00:00.0", "07:00:00.09", "07:00:00.1", "07:00:01.0"]
    export = pd.DataFrame(
        {
            "device": ["7", "7", "7", "8", "7"],
            "time": pd.to_datetime([f"2026-11-22 {it}" for it in times]),
            "code": [1, 2, 3, 4, 5],
            "parameter": [1, 1, 1, 1, 1],
        }
    )
    every = frames.events_of_export(export.assign(device="7"), START)
    assert rows(every) == [(1, 2, 1), (1, 3, 1), (2, 4, 1), (11, 5, 1)]
    assert list(every.index) == [0, 1, 2, 3]
    with pytest.raises(Error, match="rows of 2 devices: name one"):
        frames.events_of_export(export, START)
    with pytest.raises(Error, match="devices: 2 in these rows: .*: name one"):
        frames.log_of_export(export, START, allow_empty=True)
    assert rows(frames.events_of_export(export, START, "8")) == [(2, 4, 1)]
    assert rows(frames.events_of_export(export, START, "9")) == []


def test_a_gap_in_an_export_is_told() -> None:
    """The longest, of a quarter of an hour at least, in whatever order rows are."""

    def of(*clocks: str) -> str | None:
        times = pd.to_datetime([f"2026-11-22 {it}" for it in clocks])
        return frames.gap_told(pd.DataFrame({"time": times}))

    assert of() is None and of("07:00:00") is None
    assert of("07:00:00", "07:14:59.9") is None
    told = "no row from 2026-11-22 {} to 2026-11-22 {}: what changed in between is not known"
    assert of("07:15:00", "07:00:00") == told.format("07:00:00", "07:15:00")
    assert of("03:00:00", "12:00:00", "02:00:00") == told.format("03:00:00", "12:00:00")
    assert of("03:00:00", "03:00:01", "12:00:00") == told.format("03:00:01", "12:00:00")


def row_of(number: int) -> str:
    """The row whose digits are those of a number."""
    digits = f"{number:028b}"
    return f"{digits[:16]} {digits[16:24]} {digits[24:]}"


ROW = some.integers(0, (1 << 28) - 1).map(row_of)


@given(some.lists(some.tuples(some.integers(1, 6_000_000), ROW), max_size=8))
@settings(
    max_examples=15, deadline=None,
    suppress_health_check=[HealthCheck.too_slow, HealthCheck.data_too_large],
)  # fmt: skip
def test_logs_there_and_back(entries: list[tuple[int, str]]) -> None:
    log = Log.of(sorted(dict(entries).items()))
    made = frames.of_log(log)
    for tick, row in zip(log.ticks, log.rows, strict=True):
        digits = row.replace(" ", "")
        assert [str(int(it)) for it in made.loc[tick]] == list(digits)
    assert list(made.columns) == (
        [f"V{it}" for it in range(1, 17)]
        + [f"B{it}" for it in range(1, 9)]
        + [f"I{it}" for it in range(1, 5)]
    )
    assert frames.to_log(made) == log
    assert frames.to_log(made.drop(columns=["V1", "B8", "I4"])) == Log.of(
        (tick, f"0{row[1:24]}0 {row[26:29]}0")
        for tick, row in zip(log.ticks, log.rows, strict=True)
    )


def test_a_table_in_any_order_is_an_export() -> None:
    """Columns by their names, others left out; without devices all are the same."""
    text = pd.DataFrame(
        {
            "Note": ["a", "b"], "event code": ["1", "7"], "TimeStamp": ["2026-11-22 07:00:00.1"] * 2,
            "Event_Param": [2, 2],
        }
    )  # fmt: skip
    found = frames.export_of_table(text)
    assert list(found.columns) == ["device", "time", "code", "parameter"]
    assert rows(found[["device", "code", "parameter"]]) == [("", 1, 2), ("", 7, 2)]
    assert str(found["time"].iloc[0]) == "2026-11-22 07:00:00.100000"
    for code in (81, 82, 89, 90, 102, 104):
        rest = text.assign(**{"event code": [1, code], "Event_Param": ["2", "x"]})
        with pytest.raises(Error, match="line 1: parameter 'x' is no whole number"):
            frames.export_of_table(rest)
    with pytest.raises(Error, match="line 0: code 'x' is no whole number"):
        frames.export_of_table(text.assign(**{"event code": ["x", "1"]}))


# Runs of a report


def of_street(*events: tuple[float, int, int]) -> pd.DataFrame:
    """Rows of a street: seconds after the start, code, parameter."""
    begin = pd.Timestamp(START)
    return pd.DataFrame(
        {
            "device": "7",
            "time": [begin + pd.Timedelta(f"{it[0]}s") for it in events],
            "code": [it[1] for it in events],
            "parameter": [it[2] for it in events],
        }
    )


def test_an_event_in_the_last_tick_counts() -> None:
    rows_of = of_street((0.0, 1, 2), (9.9, 7, 2), (10.0, 1, 4))
    run = of_rows(Path("s.csv"), rows_of, START, 100, None)
    assert rows(run.events) == [(1, 1, 2), (100, 7, 2)]
    assert run.ticks == 100 and run.name == "s"
    whole = of_rows(Path("s.csv"), rows_of, None, None, None, "street")
    assert whole.ticks == 101 and whole.name == "street"
    assert whole.start == np.datetime64(START)
    assert whole.time(1) == pd.Timestamp(START)
    assert whole.time(11) == pd.Timestamp("2026-11-22 07:00:01")
    with pytest.raises(Error, match="s.csv: no events from 2026-11-23 on"):
        of_rows(Path("s.csv"), rows_of, "2026-11-23", None, None)
    with pytest.raises(Error, match="no events"):
        of_rows(Path("s.csv"), rows_of.iloc[2:], START, 100, None)
    for text in ("nothing", "NaT", ""):
        with pytest.raises(Error, match="is no time as 2026-11-22 07:00:00"):
            moment(text)


def test_rows_of_one_moment_stay_in_their_order() -> None:
    """In a run of rows, and in one that has the inputs of another: those come last."""
    events = [(1.0, 1 + it * 37 % 60, it) for it in range(60)]
    run = of_rows(Path("s.csv"), of_street(*events), START, None, None)
    assert rows(run.events) == [(11, code, of) for _, code, of in events]
    cars = [(11, 82, it * 37 % 60) for it in range(60)]
    bench = replace(run, events=table(*cars), is_observed=False)
    both = with_inputs_of(run, bench)
    assert rows(both.events) == rows(run.events) + cars and both.is_observed


def test_a_run_of_a_plan(examples: Path) -> None:
    """It has the ticks that it is said to have, or up to its last event."""

    def of(commands: str, ticks: int | None, path: str = "quad.json") -> Run:
        log = Log.of([(10, "0001000000000000 00000000 0000")])
        session = Session(log, START, commands, ticks, True, True)
        return of_plan("x", examples / path, session, "", ["more"])

    run = of("step 500\n", None)
    assert run.ticks == run.events["tick"].max() > 90 and run.plan is not None
    assert (run.name, run.plan.version, run.is_observed) == ("x", 2, False)
    assert run.facts == ["plan quad.json, on the bench from power-up", "more"]
    assert of("step 500\n", 777).ticks == 777
    # its clock is that of its start, unless it has none: 7:00:10 is 10 s into a cycle of 80 s
    log, commands = Log(), "step 900\n"
    for has_clock, lead, zero in ((True, 0, 700), (True, 600, 700), (False, 0, 800)):
        start = "2026-11-22 07:00:10"
        session = Session(log, start, commands, 900, True, has_clock, lead)
        run = of_plan("x", examples / "quad.json", session, "pattern 1\n", [])
        told = run.events
        assert told.query("code == 150 and parameter == 5")["tick"].to_list() == [zero]
        assert told["tick"].min() == 1 and run.ticks == 900
        assert run.facts[0].endswith("1 min before, by the clock" if lead else "power-up")
    none = of("", None, "first_plan.json")
    assert none.ticks == 0 and none.events.empty
    with pytest.raises(Error, match=r"quad.json: command 2: pattern 9: refused E9 \w+$"):
        of("step 5\npattern 9\n", None)


def test_rows_of_an_export_with_a_gap(tmp_path: Path) -> None:
    """A report says where it has none, with the file's name."""
    path = tmp_path / "day.csv"
    frames.write_export(of_street((0, 1, 2), (1, 7, 2), (901, 1, 2), (902, 7, 2)), path)
    with pytest.warns(UserWarning, match="^day.csv: no row from 2026-11-22 07:00:01 to "):
        assert len(_rows(path, None)) == 4


def test_rows_out_of_order_are_in_order_in_a_run() -> None:
    """So the planned split is that of the last time, and not of the last row."""
    told = of_street((5.0, 135, 30), (1.0, 135, 20), (0.0, 1, 2), (9.0, 7, 2), (9.5, 12, 2))
    run = of_rows(Path("s.csv"), told, START, None, None)
    assert list(run.events["tick"]) == sorted(run.events["tick"])
    assert Numbers(run).splits["planned_s"].to_list() == [30.0]


def test_a_street_with_the_inputs_of_the_bench() -> None:
    """The inputs of the street go, those of the bench come, by tick; all else stays."""
    plan = Plan()
    plan["vehicleDetectorCallPhase"][2] = 2
    codes = (81, 82, 89, 90, 102, 104)
    street = of_rows(
        Path("s.csv"), of_street((0, 1, 2), (0.5, 82, 9), (2, 7, 2), *[(1, it, 5) for it in codes]),
        START, 50, None, "street",
    )  # fmt: skip
    bench = Run(
        "bench", table((1, 1, 4), (4, 82, 2), (9, 81, 2), (21, 82, 3), (30, 7, 4)),
        np.datetime64(START, "ns"), 60, plan, ["made"],
    )  # fmt: skip
    both = with_inputs_of(street, bench)
    assert rows(both.events) == [(1, 1, 2), (4, 82, 2), (9, 81, 2), (21, 7, 2), (21, 82, 3)]
    assert (both.name, both.ticks, both.plan) == ("street", 50, plan)
    assert (both.events["code"] == 82).sum() == (bench.events["code"] == 82).sum()
    assert list(both.facts) == ["events of s.csv", "inputs as the bench has them"]
    assert both.phases == {2: 2} and street.phases == {}


# Numbers and differences


def numbers(*events: tuple[int, int, int], ticks: int = 1000, place: int = 0) -> Numbers:
    """The numbers of events, where detector 2 calls phase 2, and 4 phase 4."""
    plan = Plan()
    plan["vehicleDetectorCallPhase"] = {2: 2, 4: 4}
    run = Run("hand", table(*events), np.datetime64(START, "ns"), ticks, plan)
    return Numbers(run, place, 2)


SERVICE = [(100, 1, 2), (150, 4, 2), (150, 7, 2), (180, 10, 2), (190, 12, 2)]


@pytest.mark.parametrize("code", [134, 149])
def test_a_planned_split_of_0_is_none(code: int) -> None:
    """For the first and for the last phase, whatever came before."""
    phase = code - 133
    service = [(tick, it, phase) for tick, it, _ in SERVICE]
    for split, planned in ((0, None), (1, 1.0)):
        of = numbers((1, code, 50), (2, code, split), *service)
        assert rows(of.splits[["planned_s"]]) == [(planned,)]
        assert rows(of.programmed)[0][:3] == (phase, planned, 1)
    for other in (133, 150):
        assert rows(numbers((1, other, 50), *service).splits[["planned_s"]]) == [(None,)]
    # in the tick of the green it counts, a tick later not
    assert rows(numbers((100, code, 9), *service).programmed)[0][1] == 9
    assert rows(numbers((101, code, 9), *service).programmed)[0][1] is None


def test_periods_of_a_day() -> None:
    """The first length that fits 24 times at most, and the last one anyway."""
    day = 864_000
    for ticks, period in (
        (0, 600), (14_400, 600), (14_401, 3000), (72_000, 3000), (72_001, 9000),
        (216_001, 36_000), (day, 36_000), (day + 1, 144_000), (4 * day, 144_000),
        (4 * day + 1, day), (25 * day, day),
    ):  # fmt: skip
        assert period_of(ticks) == period


def test_names_of_a_run_among_others() -> None:
    run = Run("_hand", table(), np.datetime64(START, "ns"), 9, None)
    alone = Numbers(run)
    assert (alone.letter, alone.label, alone.key) == ("", "_hand", "hand")
    first, second = Numbers(run, of=2), Numbers(run, 1, 2)
    assert (first.letter, first.label) == ("A", "A: _hand")
    assert (second.letter, second.label, second.key) == ("B", "B: _hand", "B: _hand")
    assert Numbers(replace(run, name="__")).key == "run"
    assert alone.consecutive == 1 and alone.lost is None


def test_greens_and_walks_by_time() -> None:
    """What ends or begins in the last tick of a period is of it."""
    of = numbers(
        (10, 1, 2), (600, 4, 2), (600, 7, 2), (600, 21, 4), (601, 21, 4),
        (601, 1, 2), (605, 5, 2), (1200, 7, 2), (1201, 1, 4), (1201, 7, 4),
        ticks=1300,
    )  # fmt: skip
    found = of.marked_by_time
    assert rows(found.reset_index()) == [
        (0, 2, 1, 0, 0, 0, 1, 0), (0, 4, 0, 0, 0, 0, 0, 1),
        (1, 2, 0, 1, 0, 0, 1, 0), (1, 4, 0, 0, 0, 0, 0, 1),
        (2, 4, 0, 0, 0, 1, 1, 0),
    ]  # fmt: skip
    assert list(of.walked.columns) == ["phase", "tick"]
    assert rows(of.walked) == [(4, 600), (4, 601)]
    assert len(of.marked) == 3


def test_planned_splits_in_any_order() -> None:
    """Events of a table whose rows are not in order; of one tick the last row counts."""
    of = numbers((300, 135, 40), (1, 135, 20), *SERVICE)
    assert rows(of.splits[["planned_s"]]) == [(40.0,)]
    assert rows(of.programmed)[0][1] == 20.0
    for code in (133, 150):
        assert numbers((1, code, 50))._planned().empty
    many = numbers(*((5, 135, it) for it in range(1, 90)), *SERVICE)
    assert many._planned()["planned_s"].to_list() == list(range(1, 90))
    assert rows(many.splits[["planned_s"]]) == [(89.0,)]


def test_the_85th_of_a_hundred_services() -> None:
    """The seventeenth of twenty."""
    each = [
        (1000 * k + tick, code, 2)
        for k in range(20)
        for tick, code in ((0, 1), (50, 4), (50, 7), (80 + 10 * k, 12))
    ]
    of = numbers(*each, ticks=30_000)
    assert rows(of.programmed[["count", "mean", "p85"]]) == [(20, 17.5, 24.0)]


def test_shares_of_a_run_that_was_green() -> None:
    """In a run of one tick; for a phase that was green for none, or had no detector."""
    short = numbers((1, 1, 2), (1, 82, 2), (2, 7, 2), ticks=1).arrivals
    assert rows(short[["green", "time_green", "platoon_ratio"]]) == [(1.0, 1.0, 1.0)]
    of = numbers((5, 1, 2), (5, 7, 2), (9, 82, 2), (9, 82, 4))
    assert of.arrivals["time_green"].to_list()[0] == 0.0
    assert of.arrivals["platoon_ratio"].isna().all()
    assert [of.waited(it) for it in (2, 4, 6)] == [1, 1, 0]


def test_actuations_by_parts_of_a_cycle() -> None:
    """Each in the cycle of the pattern that runs then, from its first tick on."""
    of = numbers(
        (1, 131, 1), (1, 132, 10), (1, 133, 0), (1, 1, 2), (1, 82, 2), (99, 82, 2),
        (100, 82, 4), (200, 131, 2), (200, 132, 20), (200, 82, 2), (399, 82, 2),
        (400, 131, 254), (400, 82, 2), (450, 82, 2),
    )  # fmt: skip
    of = Numbers(replace(of.run, is_observed=True))
    assert rows(of.folded.reset_index()) == [
        (2, 1, 2, 0, 0), (2, 20, 2, 0, 0), (4, 1, 0, 0, 1)
    ]  # fmt: skip
    assert of.coordinated == [2, 4]


def test_an_actuation_behind_the_length_of_a_cycle() -> None:
    """While the counter comes into step by longer cycles, it is of the last part."""
    of = numbers(
        (1, 131, 1), (1, 132, 10), (1, 133, 0), (1, 150, 2), (100, 150, 5), (199, 82, 2),
        (200, 82, 2), (230, 82, 2), (240, 150, 5), (240, 82, 2), (400, 7, 4),
    )  # fmt: skip
    assert of.arriving["in_cycle_s"].to_list() == [9.9, 10.0, 13.0, 0.0]
    assert rows(of.folded.reset_index()) == [(2, 1, 0, 0, 1), (2, 20, 0, 0, 3)]


def test_what_ran_before_the_events_is_not_known() -> None:
    """Where a run was observed, up to its first code 131; a bench begins free."""
    bench = numbers(
        (5, 1, 2), (300, 131, 1), (300, 132, 30), (390, 131, 1), (400, 7, 2)
    )  # fmt: skip
    for events, known in ((bench.run.events, 300), (table((5, 1, 2)), 1001)):
        run = replace(bench.run, events=events)
        assert Numbers(run).known_from == 0
        assert Numbers(replace(run, is_observed=True)).known_from == known
    told = "pattern 1 (cycle 30 s, offset 0 s)"
    unknown = "not known before the export's first pattern (code 131)"
    for observed, first in ((False, "free operation"), (True, unknown)):
        of = Numbers(replace(bench.run, is_observed=observed))
        offset = "no offset (code 133)" if observed else "offset 0 s"
        assert dict(_facts(of))["operation"] == f"{first}, {told.replace('offset 0 s', offset)}"
    # of a street a length and an offset are known only by their events
    street = [((5, 131, 3), (9, 1, 2)), ((5, 131, 254), (9, 1, 2)), ((5, 1, 2), (9, 7, 2))]
    said = [
        "pattern 3: the export has no cycle (code 132)", "free operation",
        "not known: the export has no pattern (code 131)",
    ]  # fmt: skip
    for told_of, operation in zip(street, said, strict=True):
        of = Numbers(replace(bench.run, events=table(*told_of), is_observed=True))
        assert dict(_facts(of))["operation"] == operation
    three = (*street[0], (5, 132, 30), (5, 133, 7))
    of = Numbers(replace(bench.run, events=table(*three), is_observed=True))
    assert dict(_facts(of))["operation"] == "pattern 3 (cycle 30 s, offset 7 s)"
    crossings = [(100, 31, 1), (200, 31, 1), (300, 31, 1), (300, 131, 254), (420, 31, 1)]
    seen = Numbers(replace(bench.run, events=table(*crossings), is_observed=True))
    lengths = _lengths(seen).reset_index()[["pattern", "count", "longest"]]
    assert rows(lengths) == [("free", 1, 12.0), ("not known", 2, 10.0)]


def test_coordinated_phases() -> None:
    """Those of the split tables of the patterns that ran, in their order."""
    plan = Plan()
    plan["patternSplitNumber"] = {1: 2, 2: 3}
    for table_, phase in ((1, 3), (2, 16), (2, 1), (2, 8), (3, 1), (3, 5), (4, 7)):
        plan["splitCoordPhase"][table_, phase] = 1
    one = [(1, 131, 1), (1, 132, 30), (1, 133, 0), (50, 7, 2)]
    two = [(60, 131, 2), (60, 132, 40), (70, 7, 2)]
    for events, found in ((one, [1, 8, 16]), (one + two, [1, 5, 8, 16]), (one[3:], [])):
        run = Run("hand", table(*events), np.datetime64(START, "ns"), 99, plan)
        assert Numbers(run).coordinated == found
    # where the plan names none, or there is none: those that have an actuation
    plain = Plan()
    plain["vehicleDetectorCallPhase"] = {2: 16, 3: 1, 4: 8}
    cars = [(9, 82, it) for it in (2, 3, 4)]
    run = Run("hand", table(*one, *cars), np.datetime64(START, "ns"), 99, plain)
    run = replace(run, is_observed=True)
    assert Numbers(run).coordinated == [1, 8, 16]
    assert Numbers(replace(run, plan=None)).coordinated == []


def test_a_phase_of_one_run_alone_is_told() -> None:
    """In either run: its greens and calls, preempts and alarms are 0 in the other."""
    a = numbers(*SERVICE, (5, 105, 1), (9, 84, 3))
    b = numbers((100, 1, 4), (150, 7, 4), (400, 43, 6), (401, 45, 8), place=1)
    found = {(it.what, it.of): (it.a, it.b) for it in differences(a, b)}
    assert found == {
        ("greens", "phase 2"): (1, 0), ("greens", "phase 4"): (0, 1),
        ("calls that wait at the end", "phase 6"): (0, 1),
        ("presses that wait at the end", "phase 8"): (0, 1),
        ("services", "preempt 1"): (1, 0), ("alarms", "detector 3"): (1, 0),
    }  # fmt: skip
    again = {(it.what, it.of): (it.a, it.b) for it in differences(b, a)}
    assert again == {key: pair[::-1] for key, pair in found.items()}
    assert differences(a, a) == []


def test_shares_and_means_need_both() -> None:
    """A share where both runs have some, a mean where both have two values."""
    two = [(t + 300 * k, c, 2) for k in (0, 1) for t, c, _ in SERVICE]
    slow = [(t if c == 1 else t + 30, c if c != 4 else 5, 2) for t, c, _ in two]
    found = {(it.what, it.of): it for it in differences(numbers(*two), numbers(*slow))}
    split = found["split, mean", "phase 2"]
    assert (split.a, split.b, split.unit, split.lost) == (9.0, 12.0, "s", None)
    gap = found["greens that end by gap", "phase 2"]
    assert (gap.a, gap.b, gap.unit) == (1.0, 0.0, "%")
    assert found["greens that end by maximum", "phase 2"].errors > 0 > gap.errors
    assert ("split, mean", "phase 2") not in {
        (it.what, it.of) for it in differences(numbers(*two), numbers(*slow[:5]))
    }


def test_shares_of_actuations_and_of_cycles() -> None:
    """Each run has its own; a mean cycle is there where both have one."""
    crossings = [(100 * k, 31, 1) for k in range(1, 6)]
    green = [(110, 1, 2), (150, 7, 2)]
    a = numbers(*crossings, *green, *((it, 82, 2) for it in (120, 130, 160, 170)))
    slow = [(150 * k, 31, 1) for k in range(1, 4)]
    b = numbers(*slow, *green, *((it, 82, 2) for it in (120, 160, 170, 180)), (451, 1, 2))
    found = {(it.what, it.of): (it.a, it.b) for it in differences(a, b)}
    assert found["actuations on green", "phase 2"] == (0.5, 0.25)
    assert found["cycles without a green", "phase 2"] == (0.75, 1.0)
    assert found["cycle, mean", "all"] == (10.0, 15.0)
    alone = {it.what for it in differences(a, numbers(*green))}
    assert "cycle, mean" not in alone and "cycles without a green" not in alone


def test_the_order_of_differences() -> None:
    """Waits first, by what is lost, then by errors; equal ones by name."""
    a = numbers(*SERVICE, (5, 84, 3), (5, 84, 2))
    b = numbers((5, 105, 2), (5, 105, 1), place=1)
    told = [(it.what, it.of) for it in differences(a, b)]
    assert told == [
        ("alarms", "detector 2"), ("alarms", "detector 3"), ("greens", "phase 2"),
        ("services", "preempt 1"), ("services", "preempt 2"),
    ]  # fmt: skip
    calls = [(tick + 300 * k, c, 2) for k in (0, 1) for tick, c in ((10, 43), (20, 82))]
    soon = [(t + 300 * k, c, p) for k in (0, 1) for t, c, p in SERVICE]
    later = [(t + 50, c, p) for t, c, p in soon]
    first = differences(numbers(*calls, *soon), numbers(*calls, *later))[0]
    assert (first.what, first.of) == ("wait from call to green, mean", "phase 2")
    assert (first.a, first.b, first.lost) == (9.0, 14.0, 10.0)


def test_errors_of_counts_and_means() -> None:
    assert of_counts(0, 0) == 0 and of_counts(4, 12) == 2 and of_counts(12, 4) == -2
    short, two = pd.Series([1.0]), pd.Series([1.0, 1.0])
    assert of_means(short, two) == of_means(two, short) == 0
    assert of_means(two, two + 0.1) == pytest.approx(1.0)
    assert of_means(two + 0.1, two) == pytest.approx(-1.0)


def test_calls_that_wait_still() -> None:
    """The longest of them, up to the last tick."""
    of = numbers((10, 43, 2), (400, 43, 4), (900, 1, 4), (1000, 43, 4))
    assert rows(of.waits.reset_index()[["phase", "count", "still", "still_s"]]) == [
        (2, 0, 1, 99.0), (4, 1, 1, 0.0)
    ]  # fmt: skip
    assert replace(Difference("a", "b", "s", 1, 2, 3), a=5).a == 5
