"""Plans whose schedule selects patterns, with the real programs: a bench, its events, a
week, records and reports."""

import resource
from collections.abc import Iterator
from contextlib import suppress
from datetime import date, datetime, timedelta
from pathlib import Path
from typing import Any

import pandas as pd
import pytest
import tsb
from hypothesis import given, settings
from hypothesis import strategies as st
from tsb import Bench, Event, Log, Plan, frames
from tsb.report.command import main
from tsb.tasks import Day, recorded

#: A Monday, half a second before pattern 1; tick number 5 ends at 7:00.
BEFORE_SEVEN = "2026-11-30 06:59:59.5"
SELECTED = 131


@pytest.fixture
def plan(examples: Path) -> Plan:
    """Pattern 1 from 7:00 and 2 from 9:00 on weekdays, 2 from 10:00 on weekends, and
    free operation from 19:00 and 18:00."""
    return Plan.read(examples / "schedule.json")


@pytest.fixture
def bench(plan: Plan) -> Iterator[Bench]:
    """A bench before 7:00."""
    with Bench(plan) as made:
        made.set_clock(BEFORE_SEVEN)
        yield made


def selections(bench: Bench) -> list[Event]:
    """The events by which a pattern was selected."""
    return [it for it in bench.events if it.code == SELECTED]


def test_a_pattern_comes_at_its_minute(bench: Bench) -> None:
    """After the tick that ends then: its line is that of before."""
    shown = bench.step(6)
    assert [it.local for it in shown] == [None] * 5 + [1]
    assert selections(bench) == [Event(5, SELECTED, 1)]
    assert bench.given == 1 and bench.time == datetime(2026, 11, 30, 7, 0, 0, 100_000)


def test_it_is_taken_back_alone(bench: Bench) -> None:
    """With its events. The free operation that the clock selects has none."""
    bench.step(5)
    before = bench.events[: bench.events.index(Event(5, SELECTED, 1))]
    assert bench.undo() == "pattern" and bench.events == before
    assert bench.show().local is None and bench.given == 1
    assert bench.step(1)[-1].local is None, "it comes by a change of the action alone"
    assert bench.undo() == "tick" and bench.undo() == "tick"
    assert bench.step(2)[-1].local == 1 and selections(bench) == [Event(5, SELECTED, 1)]


def test_all_is_taken_back(bench: Bench) -> None:
    """To power-up, and the same again."""
    bench.step(5)
    bench.set_pattern(0)
    kinds = [bench.undo() for _ in range(10)]
    assert kinds == ["pattern", "pattern", *["tick"] * 5, "pattern", "clock", None]
    assert bench.events == [] and bench.given == 0 and bench.time is None


def test_seek_and_step_take_it_once(bench: Bench) -> None:
    """However often a change of the action is passed."""
    bench.step(8)
    for tick in (7, 5, 4, 0):
        bench.seek(tick)
        bench.step(8 - tick)
        assert selections(bench) == [Event(5, SELECTED, 1)] and bench.show().local == 3


def test_the_operator_has_the_last_word(bench: Bench) -> None:
    """Up to the next change of the action."""
    bench.step(5)
    bench.set_pattern(0)
    assert bench.at("2026-11-30 08:59:59.9").local is None
    bench.step(1)
    assert [it.parameter for it in selections(bench)] == [1, 254, 2]


def test_a_commit_selects(bench: Bench) -> None:
    """Where another action comes into force by it; it is taken back with what followed."""
    bench.set_clock("2026-11-30 12:00:00")
    assert [it.parameter for it in selections(bench)] == [2]
    with bench.transaction() as edits:
        edits["dayPlanActionNumber", (1, 2)] = 1
    assert [it.parameter for it in selections(bench)] == [2, 1]
    kinds = [bench.undo() for _ in range(2)]
    assert kinds == ["pattern", "commit"]
    assert [it.parameter for it in selections(bench)] == [2]


def test_a_pattern_that_runs_is_selected_again(bench: Bench) -> None:
    """By an operator, and by the clock: the second has no 131, and it alone is undone."""
    bench.step(3)
    bench.set_pattern(2)
    bench.set_clock("2026-11-30 09:30:00")
    before = bench.events
    assert bench.undo() == "pattern" and bench.events == before
    assert [bench.undo() for _ in range(2)] == ["clock", "pattern"]
    assert selections(bench) == [] and bench.now == 3


def test_what_a_pattern_does_besides_is_undone(plan: Plan) -> None:
    """A phase on recall has no call in the events: here that of phase 4 goes (44), before
    the pattern is selected (131), and is there again once that is undone."""
    plan["splitMode"][1, 4] = 1
    with Bench(plan) as bench:
        bench.set_clock(BEFORE_SEVEN)
        bench.tick(vehicles=[4])
        bench.step(4)
        assert Event(5, 44, 4) in bench.events
        assert bench.undo() == "pattern"
        assert [it for it in bench.events if it.tick == 5] == []
        assert bench.step(1)[-1].tick == 6


def by_minutes() -> Plan:
    """From 7:00 on each minute of a weekday has another action: of pattern 1, of pattern
    2, of pattern 2 again, of free operation and of pattern 1. Both come into step by the
    short way in cycles that divide no day, and pattern 2 recalls phases 4 and 8."""
    plan = Plan.read(Path(__file__).parents[2] / "examples/schedule.json")
    for table in (1, 2):
        times = (15, 47, 18, 30, 15, 47, 18, 30)
        plan["splitTime"].update({16 * (table - 1) + n: it for n, it in enumerate(times, 1)})
    plan["splitMode"] = {(2, 4): 2, (2, 8): 1}
    plan["splitCoordPhase"] = {(table, phase): 1 for table in (1, 2) for phase in (2, 6)}
    plan["patternCycleTime"] = {1: 110, 2: 110}
    plan["patternSplitNumber"] = {1: 1, 2: 2}
    plan["patternLeadLag"], plan["patternSequenceNumber"] = {}, {1: 1, 2: 1}
    plan["coordCorrectionMode"][1], plan["coordCorrectionLimit"][1] = 2, 17
    plan["timebaseAscPattern"] = {1: 1, 2: 2, 3: 2, 4: 254, 5: 1}
    plan["dayPlanHour"] = {event: 7 for event in range(1, 6)}
    plan["dayPlanMinute"] = {event: event - 1 for event in range(1, 6)}
    plan["dayPlanActionNumber"] = {event: event for event in range(1, 6)}
    plan["timeBaseScheduleDayPlan"] = {1: 1}
    return plan


#: A plan whose schedule acts often, and the same without its entry.
MINUTES, TIMELESS = by_minutes(), by_minutes()
TIMELESS["timeBaseScheduleDayPlan"] = {}

CLOCKS = st.builds(
    lambda minute, tenth: f"2026-11-30 {7 + minute // 60:02}:{minute % 60:02}:59.{tenth}",
    st.sampled_from([-1, 0, 1, 2, 3, 300]), st.integers(0, 9),
)  # fmt: skip
DONE: st.SearchStrategy[tuple[str, Any]] = st.one_of(
    st.tuples(st.just("ticks"), st.lists(st.sets(st.integers(1, 8)), min_size=1, max_size=12)),
    st.tuples(st.just("step"), st.integers(1, 700)),
    st.tuples(st.just("clock"), CLOCKS),
    st.tuples(st.just("pattern"), st.integers(0, 2)),
    st.tuples(st.just("undo"), st.integers(1, 6)),
    st.tuples(st.just("back"), st.integers(0, 15)),
    st.tuples(st.just("action"), st.tuples(st.integers(1, 5), st.integers(1, 5))),
    st.tuples(st.just("lamp"), st.sampled_from(["P4", None])),
    st.tuples(st.just("reset"), st.none()),
)


def do(bench: Bench, word: str, of: Any) -> None:
    """What is done to a bench; a refusal does nothing."""
    match word:
        case "ticks":
            for vehicles in of:
                bench.tick(vehicles=vehicles)
        case "step":
            bench.step(of)
        case "clock":
            bench.set_clock(of)
        case "pattern":
            bench.set_pattern(of)
        case "undo":
            for _ in range(of):
                bench.undo()
        case "back":
            bench.back(min(of, bench.now))
        case "action":
            with bench.transaction() as edits:
                edits["dayPlanActionNumber", of[0]] = of[1]
        case "lamp":
            bench.fault(of, "G" if of else "")
        case "reset":
            bench.reset()


def replayed(bench: Bench) -> list[Event]:
    """The events of the inputs that remain, by a bench whose schedule does nothing: the
    patterns of the schedule are among the commands that are saved."""
    saved = bench.save()
    with Bench(TIMELESS, Log.of_text(saved.log)) as again:
        for line in saved.commands.splitlines():
            word, _, count = line.partition(" ")
            again.step(int(count)) if word == "step" else again.give(line)
        assert again.show() == bench.show()
        return again.events


@settings(max_examples=60, deadline=None, database=None, derandomize=True)
@given(st.lists(DONE, min_size=1, max_size=12))
def test_the_events_of_what_remains(done: list[tuple[str, Any]]) -> None:
    """Whatever was selected, by whom, in a trip or not, and undone."""
    with Bench(MINUTES) as bench:
        do(bench, "clock", "2026-11-30 06:59:59.5")
        for word, of in done:
            with suppress(tsb.Refused):
                do(bench, word, of)
            if word in ("undo", "back"):
                assert bench.events == replayed(bench)
        assert bench.events == replayed(bench)
        while (kind := bench.undo()) is not None:
            if kind != "tick":
                assert bench.events == replayed(bench)
        assert bench.events == [] and bench.given == 0


def filled(plan: Plan, begin: datetime) -> Bench:
    """A bench on a plan that has run for some hours and gets no more memory."""
    bench = Bench(plan)
    bench.set_clock(begin)
    bench.step(300_000)
    pages = int(Path(f"/proc/{bench.process}/statm").read_text().split()[0])
    limit_memory(bench, pages * resource.getpagesize())
    return bench


def limit_memory(bench: Bench, size: int) -> None:
    """Gives a bench no more memory than that."""
    _, most = resource.prlimit(bench.process, resource.RLIMIT_AS)
    resource.prlimit(bench.process, resource.RLIMIT_AS, (size, most))


def test_a_pattern_for_which_there_is_no_memory(plan: Plan) -> None:
    """The tick before it was taken. With memory it is given as if nothing had been. Before
    Monday at 7:00 the schedule does nothing for days, so both runs take as much."""
    seven = datetime(2026, 11, 30, 7)
    plan["timeBaseScheduleDayPlan"], plan["timeBaseScheduleDay"][1] = {1: 1}, {2}
    with filled(plan, seven - timedelta(days=1)) as bench:
        with pytest.raises(tsb.Refused, match="^a tick: refused E1 Memory"):
            bench.step(400_000)
        last = bench.now
    begin = seven - last * tsb.values.TENTH
    with filled(plan, begin) as bench:
        bench.step(last - 1 - bench.now)
        said = "^the schedule's pattern: refused E1 Memory: .*; all before it remains; "
        with pytest.raises(tsb.Refused, match=said):
            bench.tick()
        assert bench.now == last and bench.time == seven and bench.given == 1
        limit_memory(bench, resource.RLIM_INFINITY)
        bench.back(1)
        bench.step(1)
        assert selections(bench) == [Event(last, SELECTED, 1)]
    with filled(plan, begin) as bench:
        bench.step(last - 1 - bench.now)
        with pytest.raises(tsb.Refused):
            bench.step(2)
        assert bench.now == last and bench.show().local is None


def test_the_week_of_a_plan(plan: Plan) -> None:
    """Wednesday the 9th of December is as a weekend."""
    first, *rows = plan.week("2026-12-06")
    assert first == (datetime(2026, 12, 6), 3, 0, 2, 2)
    assert plan.week(date(2026, 12, 6)) == [first, *rows]
    of_wednesday = [it for it in rows if it.begin.day == 9]
    assert [(it.begin.hour, it.pattern, it.entry) for it in of_wednesday] == [
        (0, 0, 3), (10, 2, 3), (18, 0, 3),
    ]  # fmt: skip
    plan["timeBaseScheduleDayPlan"].clear()
    assert [it.action for it in plan.week("2026-12-06")] == [0] * 7
    with pytest.raises(tsb.ProgramDied, match="a date is YYYY-MM-DD"):
        plan.week("2026-12-32")
    with pytest.raises(tsb.PlanFault, match="rule K1"):
        Plan().week("2026-12-06")


def test_days_are_sets() -> None:
    """Months, weekdays and days of the month, whose two halves have their own index."""
    plan = Plan(3)
    plan["timeBaseScheduleMonth"][1] = range(1, 13)
    plan["timeBaseScheduleDay"][1] = {2, 3, 4, 5, 6}
    plan["timeBaseScheduleDate"][1, 1] = range(1, 16)
    plan["timeBaseScheduleDate"][2, 1] = range(16, 32)
    plan["dayPlanHour"][2, 1] = 10
    assert dict(plan["timeBaseScheduleMonth"]) == {1: 8190}
    assert dict(plan["timeBaseScheduleDay"]) == {1: 124}
    assert dict(plan["timeBaseScheduleDate"]) == {1: 65534, 33: 65535}
    assert dict(plan["dayPlanHour"]) == {17: 10}
    for name, wrong in [
        ("timeBaseScheduleMonth", {13}), ("timeBaseScheduleDay", {0}),
        ("timeBaseScheduleDate", {15, 16}), ("dayPlanHour", {7}),
    ]:  # fmt: skip
        with pytest.raises(tsb.OutOfRange):
            plan[name][1] = wrong


def test_a_record_follows_its_clock(examples: Path, tmp_path: Path) -> None:
    """From its begin on, which tick 1 shows; with no clock nothing is selected."""
    plan, log = examples / "schedule.json", Log.read(examples / "empty.log")
    cases: list[tuple[str | None, list[tuple[int, int]]]] = [
        ("2026-11-30 11:30:00", [(1, 2)]),
        ("2026-11-30 08:59:59", [(1, 1), (10, 2)]),
        (None, []),
    ]
    for begin, selected in cases:
        events = recorded(plan, log, "step 20\n", begin=begin)
        found = events[events["code"] == SELECTED][["tick", "parameter"]]
        assert list(found.itertuples(index=False, name=None)) == selected


@pytest.mark.parametrize(
    ("begin", "since"),
    [
        ("2026-11-30 08:30:00", "2026-11-30 08:30:00"),
        ("2026-11-30 08:20:00", "2026-11-30 08:45:00"),
        ("2026-11-30 08:56:00", "2026-11-30 09:04:00"),
    ],
)
def test_an_hour_of_a_street(
    begin: str, since: str, examples: Path, tmp_path: Path
) -> None:
    """The street runs the same plan, whose pattern changes at 9:00. The bench selects the
    pattern by itself, and has run for some minutes where the street has."""
    plan, street = examples / "schedule.json", tmp_path / "street.csv"
    log = Log.read(examples / "hour_of_traffic.log")
    events = recorded(plan, log, "step 36000\n", begin=begin)
    table = events.assign(time=datetime.fromisoformat(begin), device="7")
    table["time"] += pd.to_timedelta(100 * (events["tick"] - 1), unit="ms")
    frames.write_export(table.drop(columns="tick"), street)
    page = tmp_path / "page.html"
    words = ["--street", "--plan-a", plan, "--from", since, "--export", street]
    more = ["--device=7", "--seconds=2000", f"--out={page}"]
    assert main([*map(str, words), *more]) == 0
    text = page.read_text()
    assert "Nothing differs.</p>" in text and "not known: the" not in text
    assert ("min before, by the clock" in text) == (since != begin)
    numbers = [it.parameter for it in events.itertuples() if it.code == SELECTED]
    assert numbers == [1, 2]


def test_a_report_without_a_day(
    examples: Path, tmp_path: Path, capsys: pytest.CaptureFixture[str]
) -> None:
    """A schedule acts by a clock. Where none is asked for, it is that of a Saturday, on
    which pattern 2 comes into force at ten; with `--no-clock` the run is free."""
    page = tmp_path / "page.html"
    words = ["--plan-a", str(examples / "schedule.json"), "--seconds=36060"]
    words += ["--log", str(examples / "empty.log"), f"--out={page}"]
    day = "a Saturday, 2000-01-01 00:00:00"
    cases: list[tuple[list[str], str, str]] = [
        ([], f"no day is named: tick 1 begins on {day}", "free operation, pattern 2 ("),
        (["--no-clock"], "", "free operation</td>"),
    ]
    for more, told, ran in cases:
        assert main([*words, *more]) == 0
        said, text = capsys.readouterr().err, page.read_text()
        assert told in said and bool(told) == bool(said) and ran in text
        assert ("its clock set to 2000-01-01 00:00:00" in text) == bool(told)


def selected_first(events: pd.DataFrame, plan: Plan) -> pd.DataFrame:
    """A measure: the pattern that was selected first."""
    found = events[events["code"] == SELECTED]
    return pd.DataFrame({"pattern": found["parameter"].head(1)})


def test_a_day_has_its_weekday(examples: Path, tmp_path: Path) -> None:
    """That of the file's name: pattern 1 at eight on a Monday, none on a Saturday, whose
    events have no 131, as free operation follows free operation."""
    for name, patterns in (("2026-11-30", [1]), ("2026-12-05", [])):
        source = tmp_path / f"{name}.log"
        Log.read(examples / "empty.log").write(source)
        plan = str(examples / "schedule.json")
        day = Day(plan, str(source), "08:00:00", 60, None, 0)
        ((_, table),) = day.tables([selected_first])
        assert list(table["pattern"]) == patterns
