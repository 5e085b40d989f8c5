"""Patterns, cycles, places in a cycle, alarms and percentiles, worked by hand."""

import pandas as pd
import pytest

from tsb import Event, frames, measures


def table(*events: tuple[int, int, int]) -> pd.DataFrame:
    """Events of tick, code and parameter."""
    return frames.of_events(Event(*it) for it in events)


def rows(found: pd.DataFrame) -> list[tuple[object, ...]]:
    """The rows of a table, with None for what is not known."""
    plain = found.astype(object).where(found.notna(), None)
    return [tuple(it) for it in plain.itertuples(index=False)]


# Free from tick 1 on; pattern 1 from tick 100, of 30 s with an offset of 4 s; pattern
# 2 from tick 1000, of 30 s as well, with an offset of 10 s; free from tick 1500 on.
PATTERNS = table(
    (1, 1, 2), (100, 131, 1), (100, 132, 30), (100, 133, 4),
    (1000, 131, 2), (1000, 133, 10),
    (1500, 131, 254), (1500, 132, 0), (1500, 133, 0),
    (1700, 7, 2),
)  # fmt: skip


def test_patterns() -> None:
    """What has no new event stays: pattern 2 has the cycle of pattern 1."""
    assert rows(measures.patterns(PATTERNS)) == [
        (1, 100, None, None, None),
        (100, 1000, 1, 30, 4),
        (1000, 1500, 2, 30, 10),
        (1500, 1701, None, None, None),
    ]


def test_cycles_of_patterns() -> None:
    """Local zero of pattern 1 is at 340, 640 and 940, that of pattern 2 at 1000 and
    1300; the cycles that a change cuts are not whole."""
    found = measures.cycles(PATTERNS, 0)
    assert rows(found) == [
        (340, 640, 1, 30.0),
        (640, 940, 1, 30.0),
        (1000, 1300, 2, 30.0),
    ]


def test_places_in_the_cycle() -> None:
    """Seconds since local zero: tick 100 is 6 s after the zero of 40."""
    ticks = pd.Series([99, 100, 339, 340, 999, 1000, 1500])
    found = measures.in_cycle(PATTERNS, ticks, 0)
    assert found.isna().to_list() == [True, *[False] * 5, True]
    assert found.dropna().to_list() == [6.0, 29.9, 0.0, 5.9, 0.0]


# Pattern 1 of 80 s is in step, and pattern 2 of 60 s comes into step by shorter cycles
# from tick 851 on, where the local counter is at 51. At 1651 it is in step. Free from
# tick 2000 on. Offsets are 0, and local zero has events, 5 of code 150.
CORRECTED = (
    (1, 131, 1), (1, 132, 80), (1, 150, 1), (800, 150, 5),
    (851, 131, 2), (851, 132, 60), (851, 150, 3), (1291, 150, 5), (1651, 150, 1),
    (1800, 150, 5), (2000, 131, 254), (2000, 132, 0), (2000, 150, 0),
)  # fmt: skip


def test_cycles_by_told_zeros() -> None:
    """The cycle from 1291 to 1800 is whole, and has 50.9 s and not 60; by the sums of
    the cycle and the offset it would be that from 1200 to 1800."""
    assert rows(measures.cycles(table(*CORRECTED))) == [(1291, 1800, 2, 50.9)]
    untold = table(*(it for it in CORRECTED if it[1] != 150))
    assert rows(measures.cycles(untold, 0)) == [(1200, 1800, 2, 60.0)]


def test_places_by_told_zeros() -> None:
    """In pattern 1 by its offset and then from 800 on; in pattern 2 on from 5.1 s at
    851, from 1291 on and from 1800 on. 1790 is 49.9 s behind 1291."""
    ticks = pd.Series([1, 799, 800, 850, 851, 1290, 1291, 1790, 1800, 1999, 2000])
    found = measures.in_cycle(table(*CORRECTED), ticks)
    assert found.isna().to_list() == [False] * 10 + [True]
    told = [0.1, 79.9, 0.0, 5.0, 5.1, 49.0, 0.0, 49.9, 0.0, 19.9]
    assert found.dropna().to_list() == told
    untold = table(*(it for it in CORRECTED if it[1] != 150))
    by_sums = [0.1, 79.9, 0.0, 5.0, 25.1, 9.0, 9.1, 59.0, 0.0, 19.9]
    assert measures.in_cycle(untold, ticks, 0).dropna().to_list() == by_sums


def test_places_of_events_in_any_order() -> None:
    """Rows need no order: the last comes first here."""
    mixed = table(*CORRECTED[::-1])
    ticks = pd.Series([850, 851, 1290, 1291, 1790])
    assert measures.in_cycle(mixed, ticks).to_list() == [5.0, 5.1, 49.0, 0.0, 49.9]
    assert rows(measures.cycles(mixed)) == [(1291, 1800, 2, 50.9)]


def test_a_pattern_while_the_last_one_comes_into_step() -> None:
    """Local zero is no state: at 1400 the counter of pattern 2 still gets shorter, and
    that of pattern 3 goes on from its 10.9 s."""
    begun = CORRECTED[: CORRECTED.index((1291, 150, 5)) + 1]
    events = table(*begun, (1400, 131, 3), (1400, 132, 90), (1600, 1, 2))
    ticks = pd.Series([1399, 1400, 1500])
    assert measures.in_cycle(events, ticks).to_list() == [10.8, 10.9, 20.9]


def test_a_zero_of_the_pattern_before() -> None:
    """Told in the tick in which another is selected, it ends a cycle of the old one. It
    begins one of a new one that goes on from there, and of none that is in step."""
    before = ((1, 131, 1), (1, 132, 30), (300, 150, 5), (600, 150, 5), (1100, 1, 2))
    after = ((600, 131, 2), (600, 132, 40), (600, 133, 10), (1000, 150, 5))
    found = measures.cycles(table(*before, *after, (600, 150, 2), (900, 150, 1)))
    assert rows(found) == [(300, 600, 1, 30.0), (600, 1000, 2, 40.0)]
    found = measures.cycles(table(*before, *after[:-1], (900, 150, 5)))
    assert rows(found) == [(300, 600, 1, 30.0)]


def test_a_counter_that_comes_into_step_before_a_zero() -> None:
    """From then on its place is 21 s of 30 before the zero at 310."""
    events = table(
        (1, 131, 1), (1, 132, 80), (50, 131, 2), (50, 132, 30), (50, 133, 1),
        (50, 150, 4), (100, 150, 1), (310, 150, 5), (400, 1, 2),
    )  # fmt: skip
    ticks = pd.Series([49, 50, 99, 100, 150, 309, 310])
    found = measures.in_cycle(events, ticks, 0)
    assert found.to_list() == [4.9, 5.0, 9.9, 9.0, 14.0, 29.9, 0.0]
    # (without a zero of pattern 1 its place is not known)
    found = measures.in_cycle(events, ticks)
    assert rows(found.to_frame())[:3] == [(None,)] * 3
    assert found.to_list()[3:] == [9.0, 14.0, 29.9, 0.0]


# A street's pattern of 80 s, selected at tick 101 with an offset of 10 s: a controller
# that counts from midnight to its yield, so that local zero is at 451 and 1251.
STREET = [(101, 131, 3), (101, 132, 80), (101, 133, 10), (101, 150, 1)]
ZEROS = [(451, 150, 5), (1251, 150, 5), (1300, 1, 2)]


def test_an_offset_says_no_moment() -> None:
    """A place before the first zero counts back from it, and not from an offset after
    some tick. Without a zero it is not known, unless the caller knows that tick."""
    ticks = pd.Series([100, 101, 450, 451, 1250, 1251])
    told = measures.in_cycle(table(*STREET, *ZEROS), ticks, 0)
    assert rows(told.to_frame()) == [
        (None,), (45.0,), (79.9,), (0.0,), (79.9,), (0.0,)
    ]  # fmt: skip
    events = table(*STREET, ZEROS[-1])
    assert measures.in_cycle(events, ticks).isna().all()
    by_offset = measures.in_cycle(events, ticks, -50).dropna()
    assert by_offset.to_list() == [5.1, 40.0, 40.1, 40.0, 40.1]


def test_cycles_of_a_pattern_without_local_zero() -> None:
    """They begin at crossings, as in free operation, and have the pattern's number."""
    crossings = [(200, 31, 1), (600, 31, 2), (990, 31, 1), (1300, 31, 1)]
    events = table(*STREET, *crossings)
    assert rows(measures.cycles(events)) == [(200, 990, 3, 79.0), (990, 1300, 3, 31.0)]
    assert rows(measures.cycles(events, -400)) == [(500, 1300, 3, 80.0)]
    assert rows(measures.cycles(table(*STREET, *crossings, *ZEROS))) == [
        (451, 1251, 3, 80.0)
    ]


def test_a_cycle_that_no_event_has() -> None:
    """A selection has event 132 only where the cycle becomes another. So no event
    may say the cycle of a pattern that runs, and it is not free operation."""
    events = table((101, 131, 3), (101, 133, 10), *ZEROS)
    assert rows(measures.patterns(events)) == [(101, 1301, 3, None, 10)]
    assert rows(measures.cycles(events)) == [(451, 1251, 3, 80.0)]
    assert measures.in_cycle(events, pd.Series([101, 500])).isna().all()
    assert rows(measures.cycles(events[events["code"] != 150], 0)) == []


def test_a_pickup_is_not_in_step() -> None:
    """Code 150 with 6 begins the way into step; what came before it is not known."""
    events = table(*STREET, (201, 150, 6), (301, 150, 2), (401, 150, 1), *ZEROS)
    found = measures.in_cycle(events, pd.Series([150, 201, 301, 400, 401, 451]))
    assert rows(found.to_frame()) == [
        (None,), (None,), (None,), (None,), (75.0,), (0.0,)
    ]  # fmt: skip


def test_states_of_one_tick() -> None:
    """The last of them holds from there on. One that comes with local zero says nothing
    of the cycle before it."""
    events = table(*STREET, (201, 150, 2), (201, 150, 1), (451, 150, 2), *ZEROS)
    found = measures.in_cycle(events, pd.Series([200, 201, 450, 451]))
    assert rows(found.to_frame()) == [(None,), (55.0,), (79.9,), (0.0,)]


def test_cycles_of_free_operation() -> None:
    """From one crossing to side 1 to the next; the ends are not whole."""
    events = table((1, 1, 2), (90, 31, 2), (200, 31, 1), (350, 31, 2), (480, 31, 1))
    assert rows(measures.cycles(events)) == [(200, 480, None, 28.0)]


def test_cycles_without_a_barrier() -> None:
    """Phase 3 has the most greens: its cycles are from 50 to 150 to 400."""
    events = table((1, 1, 2), (50, 1, 3), (150, 1, 3), (180, 1, 4), (400, 1, 3))
    assert rows(measures.cycles(events)) == [
        (50, 150, None, 10.0),
        (150, 400, None, 25.0),
    ]


def test_greens_a_cycle() -> None:
    """Of two cycles, from 100 to 300 to 600: phase 2 is green in both, twice in the
    second; phase 4 in the first alone; phase 5 in none that is whole."""
    events = table(
        (1, 1, 5), (100, 31, 1), (300, 31, 1), (600, 31, 1), (700, 1, 5),
        (100, 1, 2), (310, 1, 2), (599, 1, 2), (600, 1, 2), (299, 1, 4),
    )  # fmt: skip
    found = measures.greens_a_cycle(events)
    assert rows(found.reset_index()) == [
        (2, 2, 3, 0, 1, 1.5),
        (4, 2, 1, 1, 0, 0.5),
        (5, 2, 0, 2, 0, 0.0),
    ]


def test_alarms() -> None:
    """An open loop comes within the alarm of detector 3; that of 5 goes on."""
    events = table((10, 84, 3), (50, 86, 3), (70, 84, 5), (310, 83, 3), (400, 83, 4))
    assert rows(measures.alarms(events)) == [
        (3, 10, 310, 84, 30.0),
        (5, 70, None, 84, None),
    ]


def test_arriving() -> None:
    """A car of detector 12 comes in the green of phase 2, and one before it."""
    events = table((1, 82, 12), (5, 1, 2), (9, 82, 12), (9, 82, 3))
    assert rows(measures.arriving(events, {12: 2, 3: 0})) == [
        (2, 12, 1, "red"),
        (2, 12, 9, "green"),
    ]


@pytest.mark.parametrize(
    ("share", "wanted"), [(5, 15), (30, 20), (40, 20), (41, 35), (50, 35), (100, 50)]
)
def test_percentiles(share: int, wanted: float) -> None:
    """Of 15, 20, 35, 40 and 50: the nearest ranks, as books have them."""
    values = pd.Series([50.0, 20.0, float("nan"), 15.0, 40.0, 35.0])
    found = measures.percentile(values, share)
    assert found == wanted


def test_spread() -> None:
    """Of 1, 2, 3 and 10 the median is the second of four, as two don't exceed it."""
    values = pd.Series([10.0, 1.0, None, 3.0, 2.0, None], dtype="Float64")
    by = pd.Series([4, 4, 4, 4, 4, 6], name="phase")
    found = measures.spread(values, by)
    assert rows(found.reset_index()) == [
        (4, 4, 4.0, 1.0, 2.0, 10.0, 10.0),
        (6, 0, None, None, None, None, None),
    ]


def test_nothing_was_told() -> None:
    """Empty tables have their columns."""
    assert len(measures.patterns(table())) == 0
    assert list(measures.in_cycle(table(), pd.Series([], dtype="Int64"))) == []
    nothing = pd.Series([], dtype="Float64")
    assert (
        len(measures.spread(nothing, pd.Series([], name="phase", dtype="Int64"))) == 0
    )
