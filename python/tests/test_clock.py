"""Times of a bench's clock, with the real program."""

from collections.abc import Callable
from datetime import UTC, date, datetime, time, timedelta
from pathlib import Path

import pytest
import tsb
from tsb import Bench, Log, clock
from tsb.clock import Moment

SEVEN = datetime(2026, 11, 22, 7)
TENTH = timedelta(milliseconds=100)


@pytest.fixture
def quad(examples: Path) -> Path:
    """The plan of eight phases."""
    return examples / "quad.json"


@pytest.mark.parametrize(
    ("moment", "said"),
    [
        ("7:42", "07:42:00"),
        (" 07:42:10.5 ", "07:42:10.5"),
        ("2026-11-22 7:42", "2026-11-22 07:42:00"),
        ("2026-11-22T07:42:10.0", "2026-11-22 07:42:10"),
        (time(23, 59, 59, 900_000), "23:59:59.9"),
        (SEVEN + TENTH, "2026-11-22 07:00:00.1"),
        ("2099-12-31 23:59:59.9", "2099-12-31 23:59:59.9"),
    ],
)
def test_words_of_a_command(moment: Moment, said: str) -> None:
    """A time is typed, or given as a value."""
    assert clock.words(moment) == said


@pytest.mark.parametrize(
    "wrong",
    [
        "", "7", "7:4", "7:42:1", "24:00", "7:60", "7:42:10.55", "2026-02-29 7:42",
        "1999-12-31 7:42", "2026-11-22", "\u0667:42", "7:42\n8:00",
        date(2026, 11, 22), 7, None, True, datetime(2026, 11, 22, tzinfo=UTC),
        datetime(2100, 1, 1), time(7, 42, 0, 1), time(7, 42, tzinfo=UTC),
    ],
)  # fmt: skip
def test_what_is_no_time(quad: Path, wrong: Moment) -> None:
    """It is named, and nothing is asked."""
    with Bench(quad) as bench:
        bench.set_clock(SEVEN)
        calls: list[Callable[..., object]] = [bench.set_clock, bench.at, bench.tick_at]
        for call in calls:
            with pytest.raises(tsb.OutOfRange):
                call(wrong)
        assert bench.time == SEVEN and bench.undo() == "clock" and bench.undo() is None


def test_the_clock_of_a_bench(quad: Path) -> None:
    """It shows when the next tick begins, to the tenth; the way back takes it along."""
    with Bench(quad) as bench:
        assert bench.time is None and bench.status.global_time is None
        bench.step(3)
        bench.set_clock("2026-11-22 23:59:59.8")
        midnight = datetime(2026, 11, 23)
        for tick in range(3, 25):
            assert bench.now == tick and bench.time == midnight + (tick - 5) * TENTH
            second = bench.status.global_time
            assert second == (midnight + (tick - 5) * TENTH).replace(microsecond=0)
            bench.tick()
        bench.set_clock(SEVEN)
        assert bench.time == SEVEN and bench.now == 25
        assert bench.undo() == "clock" and bench.time == midnight + 20 * TENTH
        bench.seek(2)
        assert bench.time is None


@pytest.mark.parametrize("second", ["2000-01-01 00:00:00", "2099-12-31 23:59:59.9"])
def test_the_first_and_the_last_day(quad: Path, second: str) -> None:
    """A run may go on into the year 2100; its clock then has whole seconds."""
    with Bench(quad) as bench:
        bench.set_clock(second)
        bench.step(20)
        found = bench.time
        assert found is not None
        since = found - datetime.fromisoformat(second)
        assert timedelta(seconds=1) < since <= timedelta(seconds=2)


@pytest.mark.parametrize("has_log", [False, True])
def test_going_to_a_time(quad: Path, has_log: bool) -> None:
    """On as by `step`, with the rows of a log if there is one, and back as by `seek`."""
    log = Log((1, 40), ("0001000000000000 00000000 0000", "0" * 16 + " 00000000 0000"))
    with Bench(quad, log if has_log else None) as bench:
        with Bench(quad, log if has_log else None) as other:
            bench.set_clock(SEVEN)
            assert bench.at("7:00") == bench.show() and bench.now == 0
            lines = other.step(130)
            assert bench.at("7:00:13") == lines[-1] and bench.now == 130
            assert bench.at(time(7, 0, 9)) == lines[89]
            assert bench.at(SEVEN + 95 * TENTH) == lines[94]
            assert bench.seek("7:00:02.5") == lines[24] and bench.now == 25
            with pytest.raises(tsb.NoSuchTick):
                bench.seek("7:00:02.6")
            assert bench.tick_at("6:00") == 0 and bench.tick_at("7:01") == 600
            assert bench.tick_at("2026-11-23 7:00") == 864_000 and bench.now == 25


def test_without_a_clock(quad: Path) -> None:
    """Times are refused, as is one for which no tick is left; the bench is as it was."""
    calls: list[Callable[[Bench], object]] = [
        lambda bench: bench.at("7:42"),
        lambda bench: bench.seek("7:42"),
        lambda bench: bench.tick_at("2026-11-22 7:42"),
    ]
    with Bench(quad) as bench:
        bench.step(5)
        for call in calls:
            with pytest.raises(tsb.NoSuchTick, match="no clock is set"):
                call(bench)
        assert bench.give("clock 2026-11-22 07:00:00") == "ok"
        with pytest.raises(tsb.Refused, match="E11 TickLimit"):
            bench.at("2026-11-30 7:00")
        assert bench.now == 5 and bench.time == SEVEN


def test_a_clock_is_saved(quad: Path) -> None:
    """With the tick at which it was set."""
    with Bench(quad) as bench:
        bench.step(5)
        bench.set_clock(SEVEN)
        assert bench.save().commands == "step 5\nclock 2026-11-22 07:00:00.0\n"
