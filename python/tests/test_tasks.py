"""The runs of a sweep and its words, at their boundaries: in this process, or in one."""

import inspect
import os
import resource
import signal
import subprocess
import sys
import warnings
from collections.abc import Iterator
from dataclasses import replace
from pathlib import Path
from typing import Any

import pandas as pd
import pytest
from tsb import Error, Log, Plan, PlanFault, ProgramDied, measures, programs, tasks
from tsb.processes import local
from tsb.sumo import Intersection, Loop, crossroads, read_trips, summary
from tsb.sumo.command import log_of
from tsb.sweep import (
    Runs,
    SweepFailed,
    _client,
    _ended_by_terms,
    _traffic,
    _words,
    main,
    sweep,
    tasks_of,
    workers_of,
)
from tsb.tasks import (
    Day,
    Seed,
    Traffic,
    events_of_record,
    key_of,
    one_run,
    record,
    recorded,
    tried,
)

SECONDS = 60


@pytest.fixture(scope="module")
def one() -> Iterator[Any]:
    """A process."""
    with local(1) as client:
        yield client


@pytest.fixture
def plan(examples: Path) -> Path:
    return examples / "quad.json"


@pytest.fixture
def log(examples: Path, tmp_path: Path) -> Path:
    """A log of inputs, named by a day."""
    path = tmp_path / "2026-11-22.log"
    path.write_bytes((examples / "hour_of_traffic.log").read_bytes())
    return path


@pytest.fixture
def day(plan: Path, log: Path) -> Day:
    return Day(str(plan), str(log), "00:00:00", SECONDS, None, 0)


def told(events: pd.DataFrame, plan: Plan) -> pd.DataFrame:
    """A measure that is the events."""
    return events


def full(events: pd.DataFrame, plan: Plan) -> pd.DataFrame:
    """A measure that meets a full disk, somewhere."""
    raise OSError(28, "No space left on device")


def tells(events: pd.DataFrame, plan: Plan) -> pd.DataFrame:
    """A measure that warns twice, and of what is for nobody."""
    for it in ("this is told", "and this", "this is told"):
        warnings.warn(it, stacklevel=1)
    warnings.warn("of a program", RuntimeWarning, stacklevel=1)
    return events


def fails(events: pd.DataFrame, plan: Plan) -> pd.DataFrame:
    raise ValueError("it fails")


# Tasks


def test_a_day_of_inputs(day: Day, plan: Path, log: Path) -> None:
    """A log of inputs begins with its tick 1; a measure by its name, or a function. The
    calls of recalls count."""
    wanted = record(plan, Log.read(log), SECONDS, recalls=True)
    assert wanted.equals(record(plan, Log.read(log), SECONDS, 0, recalls=True))
    assert len(wanted) > len(record(plan, Log.read(log), SECONDS))
    tables = dict(day.tables(["terminations", told]))
    pd.testing.assert_frame_equal(tables["told"], wanted)
    by_hand = measures.terminations(wanted)
    assert by_hand.sum().sum() > 3 and by_hand.index.name == "phase"
    pd.testing.assert_frame_equal(tables["terminations"], by_hand.reset_index())
    assert dict(day.tables([])) == {}
    # its clock is that of its first tick, unless it has none: 10 s into a cycle of 80 s
    for begin, no_clock, zero in (
        ("07:00:10", False, 700), ("2026-11-22 07:00:10", False, 700),
        ("07:00:10", True, 800), ("00:00:00", False, 800),
    ):  # fmt: skip
        own = replace(day, begin=begin, no_clock=no_clock, pattern=1, seconds=90)
        (it,) = dict(own.tables([told])).values()
        assert it.query("code == 150 and parameter == 5")["tick"].to_list() == [zero]
    assert key_of(day, []) != key_of(replace(day, no_clock=True), [])
    # in a pattern the first tick has its event
    (pattern,) = dict(replace(day, pattern=1).tables([told])).values()
    assert [1, 131, 1] in pattern.to_numpy().tolist()
    assert [1, 131, 1] not in wanted.to_numpy().tolist()


def test_records_of_each_kind(examples: Path) -> None:
    """Without a word calls of recalls and outputs are in none."""
    plan, log = examples / "main_and_oak.json", Log.read(examples / "hour_of_traffic.log")
    plain = recorded(plan, log, "step 600\n", recalls=False, outputs=False)
    for recalls in (True, False):
        said = recorded(plan, log, "step 600\n", recalls=recalls, outputs=not recalls)
        assert not said.equals(plain)
        said = record(plan, log, 60, recalls=recalls, outputs=not recalls)
        assert not said.equals(plain)
    assert recorded(plan, log, "step 600\n").equals(plain)
    assert record(plan, log, 60).equals(plain)


def named(events: pd.DataFrame, plan: Plan) -> pd.DataFrame:
    """A measure whose rows have a name and a number."""
    index = pd.MultiIndex.from_tuples([("a", 1)], names=["which", None])
    return pd.DataFrame({"count": [len(events)]}, index)


def test_rows_that_have_names(day: Day) -> None:
    """Names are columns; numbers of rows that have no name are not."""
    tables = dict(day.tables([named, told]))
    assert "which" in tables["named"].columns
    assert list(tables["told"].columns) == ["tick", "code", "parameter"]


def test_a_day_of_events(day: Day, plan: Path, log: Path, tmp_path: Path) -> None:
    """By its name, or by a whole time; a clock alone needs a day's name."""
    words = ["record", "--from=2026-11-22 07:00:00", "--device=7", str(plan), str(log)]
    text = programs.run("tsb_field", words, b"step 600\n").stdout
    named, other = tmp_path / "2026-11-22.csv", tmp_path / "street.csv"
    named.write_bytes(text)
    other.write_bytes(text)
    begun = replace(day, source=str(named), begin="07:00:00", device="7")
    whole = replace(day, source=str(other), begin="2026-11-22 07:00:00", device="7")
    (first,), (second,) = (dict(it.tables([told])).values() for it in (begun, whole))
    pd.testing.assert_frame_equal(first, second)
    assert len(first) > 20
    with pytest.raises(Error, match="street.csv: name it by its day, or begin with a"):
        list(replace(whole, begin="07:00:00").tables([told]))
    # all events of a record, the first too
    lines = text.decode().splitlines()[1:]
    found = events_of_record(text, "2026-11-22 07:00:00")
    assert len(found) == len(lines) and list(found.columns) == ["tick", "code", "parameter"]
    code, parameter = map(int, lines[0].split(",")[2:])
    assert found.iloc[0].to_list() == [1, code, parameter]


def test_what_a_record_is_refused_by(
    plan: Path, tmp_path: Path, monkeypatch: pytest.MonkeyPatch
) -> None:
    bad = tmp_path / "bad.json"
    bad.write_text('{"version": 2}\n')
    with pytest.raises(PlanFault, match="plan: rule K1"):
        recorded(bad, Log(), "step 1\n")
    with pytest.raises(ProgramDied, match="refused E9"):
        recorded(plan, Log(), "pattern 9\n")
    # what is said of a record that ends well is a fault too
    other = tmp_path / "tsb_field"
    other.write_text("#!/bin/sh\necho odd >&2\n")
    other.chmod(0o755)
    monkeypatch.setenv("TSB_BIN", str(tmp_path))
    with pytest.raises(Error, match="quad.json: odd$"):
        recorded(plan, Log(), "step 1\n")


def test_the_table_of_a_run(day: Day, tmp_path: Path) -> None:
    """Plan, day and measure come first, and rows have no number."""
    tmp_path = tmp_path / "out"
    tmp_path.mkdir()
    name = one_run(day, str(tmp_path), "x", ["splits", "terminations"])
    lines = (tmp_path / name).read_text().splitlines()
    assert lines[0].startswith("plan,day,measure,phase,begin,over,green_s,")
    assert lines[0].count("measure") == 1 and lines[1].startswith("quad,2026-11-22,splits,")
    assert len(key_of(day, ["splits"])) == 10


def test_what_went_wrong_with_a_run(day: Day, tmp_path: Path) -> None:
    """The line of a full disk names the folder, that of a missing file the file."""
    out = tmp_path / "out"
    out.mkdir()
    assert tried(day, str(out), "x", ["splits"]) == (None, ())
    assert len(list(out.iterdir())) == 1
    said = "No space left on device"
    assert tried(day, str(out), "y", [full]) == (f"{out}: {said}", ())
    gone = replace(day, source=str(tmp_path / "gone.log"))
    missing = "No such file or directory"
    assert tried(gone, str(out), "y", [told]) == (f"{gone.source}: {missing}", ())
    none = tmp_path / "none"
    assert tried(day, str(none), "y", [told]) == (f"{none}: {missing}", ())
    assert tried(day, str(out), "y", [fails]) == ("ValueError: it fails", ())
    notes = ("this is told", "and this")
    assert tried(day, str(out), "z", [tells]) == (None, notes)
    assert tried(day, str(out), "y", [tells, fails]) == ("ValueError: it fails", notes)


ROWS = "SignalID,Timestamp,EventCode,EventParam\n"


def test_what_is_told_of_a_day(
    day: Day, one: Any, tmp_path: Path, capsys: pytest.CaptureFixture[str]
) -> None:
    """One of several devices has to be named. Each run has notes of a gap and of what is
    left out, with the file; and a day is read once for many plans."""
    path = tmp_path / "2026-11-22.csv"
    clocks = [("7", "00:00:00.0", 82), ("8", "00:00:01.0", 82), ("7", "09:00:00.0", 81)]
    lines = [f"{of},2026-11-22 {at},{code},2\n" for of, at, code in clocks]
    path.write_text(ROWS + "".join([*lines, "7,2026-11-22 09:00:00.0,82,40\n"]))
    both = replace(day, source=str(path))
    with pytest.raises(Error, match="2026-11-22.csv: rows of 2 devices: name one by --d"):
        list(both.tables([told]))
    seven = replace(both, device="7")
    gap = "no row from 2026-11-22 00:00:00 to 2026-11-22 09:00:00: what changed in"
    with warnings.catch_warnings():  # (where nobody asks, they are kept all the same)
        warnings.simplefilter("ignore")
        list(seven.tables([told]))
    before = tasks._log_of_day.cache_info().hits
    for name in ("x", "y"):
        with warnings.catch_warnings():  # (whatever else is done with warnings)
            warnings.simplefilter("ignore")
            fault, notes = tried(seven, str(tmp_path), name, [told])
        assert fault is None and len(notes) == 2
        assert "2026-11-22.csv: left out: 0 rows of other devices, 1 event" in notes[0]
        assert notes[1].startswith(f"2026-11-22.csv: {gap}")
    assert tasks._log_of_day.cache_info().hits == before + 2
    # a device has no gap that it was not there for
    assert tried(replace(both, device="8"), str(tmp_path), "z", [told]) == (None, ())
    asked: Any = {"seconds": 10, "device": "7"}
    other = tmp_path / "other.json"
    other.write_bytes(Path(day.plan).read_bytes())
    with pytest.warns(UserWarning) as warned:
        sweep([day.plan, other], [path], ["greens"], one, **asked)
    # each comes once, however many runs have it, and names the line that asked
    left, paused = (str(it.message) for it in warned)
    assert left.startswith("2026-11-22.csv: left out: ")
    assert paused.startswith(f"2026-11-22.csv: {gap}")
    assert {it.filename for it in warned} == {__file__}
    words = [day.plan, "--days", str(path), "--seconds", "10", "--out", str(tmp_path)]
    assert main([*words, "--device", "7", "--workers", "1"]) == 0
    assert f"2026-11-22.csv: {gap}" in capsys.readouterr().err
    assert main([*words, "--workers", "1"]) == 1
    assert "rows of 2 devices: name one by --device" in capsys.readouterr().err


@pytest.mark.parametrize(
    "begin, is_read",
    [("07:00", True), ("2026-11-22 07:00", True), ("7:00", False), ("7", False)],
)
def test_when_a_day_begins(
    day: Day, tmp_path: Path, begin: str, is_read: bool
) -> None:
    """Seconds may be left out; what is no time is named with its word."""
    path = tmp_path / "2026-11-22.csv"
    path.write_text(f"{ROWS}7,2026-11-22 07:00:00.0,82,4\n")
    of = replace(day, source=str(path), begin=begin)
    if is_read:
        assert of._log() == Log.of([(1, "0001000000000000 00000000 0000")])
    else:
        with pytest.raises(Error, match=f"^--begin: '2026-11-22 {begin}' is no time as"):
            of._log()


@pytest.fixture
def traffic(tmp_path: Path) -> Traffic:
    """Traffic with a seed, whose names end with a comma."""
    crossroads.build(tmp_path)
    crossroads.demand(tmp_path / "1.rou.xml", "heavy", 1, 60)
    crossroads.plan(pattern=True).write(tmp_path / "free.json")
    files = ("net.xml", "{seed}.rou.xml,", "mapping.json", ",detectors.xml")
    return Traffic(*(str(tmp_path / it) if it[0] != "," else f",{tmp_path}/{it[1:]}" for it in files))


@pytest.mark.parametrize("pattern", [0, 1])
def test_a_run_of_traffic(traffic: Traffic, tmp_path: Path, pattern: int) -> None:
    """Its trips and its events are those of a loop of so many seconds."""
    seconds = 60 if pattern else 30  # (the pattern shows at 38.4 s)
    seed = Seed(str(tmp_path / "free.json"), traffic, 1, seconds, pattern)
    assert seed.reads == [
        str(tmp_path / it)
        for it in ("free.json", "net.xml", "mapping.json", "1.rou.xml", "detectors.xml")
    ]
    tables = dict(seed.tables([told, "trips"]))
    assert list(tables) == ["trips", "told"]
    at = Intersection.of(traffic.net, None, traffic.mapping, seed.plan)
    trips = tmp_path / "trips.xml"
    with Loop(
        traffic.net, str(tmp_path / "1.rou.xml"), at,
        additional=str(tmp_path / "detectors.xml"), seed=1, trips=trips,
    ) as loop:  # fmt: skip
        if pattern:
            loop.benches[at.tls].set_pattern(pattern)
        loop.run(10 * seconds)
        rows = log_of(loop.rows(at.tls))
    wanted = summary(read_trips(trips)).rename_axis("kind").reset_index()
    pd.testing.assert_frame_equal(tables["trips"], wanted)
    assert wanted["under_way"].sum() > 3
    recorded = record(seed.plan, rows, seconds, pattern, recalls=True)
    pd.testing.assert_frame_equal(tables["told"], recorded)
    alone = dict(seed.tables(["terminations"]))
    assert list(alone) == ["terminations"]


def with_schedule(path: Path, weekdays: set[int], hour: int) -> Path:
    """The same plan with a schedule: on these weekdays its pattern 1 from an hour on, and
    free operation from 12:00 on, which lasts over the other days."""
    plan = Plan.read(path).wide(3)
    plan["timeBaseScheduleMonth"][1] = range(1, 13)
    plan["timeBaseScheduleDay"][1] = weekdays
    plan["timeBaseScheduleDate"] = {(1, 1): range(1, 16), (2, 1): range(16, 32)}
    plan["timeBaseScheduleDayPlan"] = {1: 1}
    plan["dayPlanHour"] = {1: hour, 2: 12}
    plan["dayPlanActionNumber"], plan["timebaseAscPattern"] = {1: 1, 2: 2}, {1: 1, 2: 254}
    scheduled = path.with_name("scheduled.json")
    plan.write(scheduled)
    return scheduled


def selected(events: pd.DataFrame, plan: Plan) -> pd.DataFrame:
    """A measure: the patterns that were selected."""
    return events[events["code"] == 131]


SATURDAY = "scheduled.json has a schedule, and no day is named: tick 1 begins on a Saturday,"
FRIDAYS, ALL_DAYS = {6}, set(range(1, 8))


@pytest.mark.parametrize(
    "weekdays, hour, more, patterns, notes",
    [
        (ALL_DAYS, 0, {}, 1, (f"{SATURDAY} 2000-01-01 00:00:00",)),
        (FRIDAYS, 0, {}, 0, (f"{SATURDAY} 2000-01-01 00:00:00",)),
        (ALL_DAYS, 7, {"begin": "07:00"}, 1, (f"{SATURDAY} 2000-01-01 07:00:00",)),
        (ALL_DAYS, 7, {"begin": "2026-11-30 07:00:00"}, 1, ()),
        (ALL_DAYS, 7, {"begin": "2026-11-30 06:00:00"}, 0, ()),
        (FRIDAYS, 7, {"begin": "2026-11-27 06:59:59"}, 1, ()),
        (ALL_DAYS, 0, {"no_clock": True}, 0, ()),
        (ALL_DAYS, 7, {"begin": "2026-11-30 07:00:00", "no_clock": True}, 0, ()),
    ],
)
def test_a_schedule_in_traffic(
    traffic: Traffic,
    tmp_path: Path,
    weekdays: set[int],
    hour: int,
    more: dict[str, Any],
    patterns: int,
    notes: tuple[str, ...],
) -> None:
    """It acts with no more words, and by the day that is named. A note says which day it
    is where none is."""
    plan = with_schedule(tmp_path / "free.json", weekdays, hour)
    seed = Seed(str(plan), traffic, 1, 5, 0, **more)
    assert tried(seed, str(tmp_path), "x", [selected, "trips"]) == (None, notes)
    kept = pd.read_csv(next(tmp_path.glob("x*.csv")))
    assert (kept["measure"] == "selected").sum() == patterns


def test_the_clock_of_traffic(traffic: Traffic, tmp_path: Path) -> None:
    """With a begin it is that of the loop and of its record: with an offset of 44 s local zero
    comes 34 s after 7:00, as 25200 s are 229 cycles of 110 s and 10 s. Without one there
    is none, and the run is named as it was."""
    seed = Seed(str(tmp_path / "free.json"), traffic, 1, 45, 1)
    begun = replace(seed, begin="07:00:00")
    zeros = []
    for it in (seed, begun, replace(begun, no_clock=True)):
        (events,) = dict(it.tables([told])).values()
        zeros.append(events.query("code == 150 and parameter == 5")["tick"].to_list())
    assert zeros == [[440], [340], [440]]
    assert tried(begun, str(tmp_path), "x", ["trips"]) == (None, ())
    assert seed.asked == [1, 45, 1]
    names = {key_of(it, []) for it in (seed, begun, replace(seed, no_clock=True))}
    assert len(names) == 3


def test_the_weekday_of_a_log(day: Day, plan: Path, tmp_path: Path) -> None:
    """A log of inputs that is named by no day has that of power-up, which a note says of
    a plan with a schedule."""
    copy = tmp_path / "quad.json"
    copy.write_bytes(plan.read_bytes())
    scheduled = with_schedule(copy, {7}, 0)
    unnamed = tmp_path / "some.log"
    unnamed.write_bytes(Path(day.source).read_bytes())
    of = replace(day, plan=str(scheduled), source=str(unnamed), seconds=5)
    note = (f"{SATURDAY} 2000-01-01 00:00:00",)
    sunday = {"begin": "2026-11-22 00:00:00"}
    for it, found, notes in (
        (of, 1, note), (replace(of, plan=str(copy)), 0, ()), (replace(of, **sunday), 0, ()),
        (replace(of, source=day.source), 0, ()), (replace(of, no_clock=True), 0, ()),
    ):  # fmt: skip
        assert tried(it, str(tmp_path), "x", [selected, "splits"]) == (None, notes)
        kept = pd.read_csv(next(tmp_path.glob("x*.csv")))
        assert (kept["measure"] == "selected").sum() == found


# A sweep


def test_the_tables_of_all_runs(one: Any, plan: Path, log: Path, tmp_path: Path) -> None:
    """In the order of the runs, with a row for each; whole numbers stay whole."""
    out = tmp_path / "a" / "b"
    other = tmp_path / "other.json"
    other.write_bytes(plan.read_bytes())
    asked: dict[str, Any] = {"out": out, "seconds": SECONDS}
    table = sweep([plan, other], [log], ["terminations", "waits"], one, **asked)
    assert list(table.index) == list(range(len(table)))
    assert table["plan"].unique().tolist() == ["quad", "other"]
    assert table["phase"].dtype == "Int64" and table["gap"].dtype == "Int64"
    kept = {it: it.stat().st_mtime_ns for it in out.iterdir()}
    assert len(kept) == 2
    again = sweep([plan, other], [log], ["waits", "terminations"], one, **asked)
    assert set(again["measure"]) == {"terminations", "waits"}
    assert {it: it.stat().st_mtime_ns for it in out.iterdir()} == kept
    # a run that fails has no rows, and the others have
    with pytest.raises(SweepFailed, match="^1 runs failed; of none.2026-11-22.*: PlanFault") as failed:
        bad = tmp_path / "none.json"
        bad.write_text('{"version": 2}')
        sweep([bad, plan], [log], ["terminations", "waits"], one, **asked)
    assert set(failed.value.table["plan"]) == {"quad"} and len(failed.value.failures) == 1
    with pytest.raises(SweepFailed) as failed:
        sweep([bad], [log], ["terminations"], one, **asked)
    assert list(failed.value.table.columns) == ["plan", "day", "measure"]
    assert len(failed.value.table) == 0


def test_a_sweep_of_its_own_processes(
    plan: Path, log: Path, tmp_path: Path, monkeypatch: pytest.MonkeyPatch
) -> None:
    """Without a client and a folder it has its own, and leaves nothing."""
    room = tmp_path / "room"
    room.mkdir()
    monkeypatch.chdir(room)
    monkeypatch.setattr("tempfile.tempdir", str(room))
    table = sweep([plan], [log], ["splits"], seconds=SECONDS)
    assert len(table) > 5 and list(room.iterdir()) == []
    found = inspect.signature(sweep).parameters
    assert (found["seconds"].default, found["pattern"].default) == (86400, 0)


def test_what_a_sweep_is_refused_by(day: Day, traffic: Traffic, tmp_path: Path) -> None:
    """A measure that there is not, trips of days, a run or a name that comes twice."""
    out = tmp_path / "out"
    seed = Seed(str(tmp_path / "free.json"), traffic, 1, 30, 0)
    with pytest.raises(Error, match="there is no measure nothing: greens, splits, "):
        Runs([seed], ["trips", "nothing"], out)
    with pytest.raises(Error, match="trips: a day has none"):
        Runs([day, seed], ["trips"], out)
    with pytest.raises(Error, match="the same run comes twice"):
        Runs([seed, seed], ["trips"], out)
    for members in ("plan", "source"):
        every = [tmp_path / it / "x.log" for it in "abcdefgh"]
        for it in every:
            it.parent.mkdir(exist_ok=True)
            it.write_bytes(Path(day.plan).read_bytes())
        what = {"plan": "plans", "source": "days"}[members]
        message = f"two {what} of one name: {every[0]} and {every[1]}: rename one"
        for names in (every, every[:2], every[::-1]):
            tasks = [replace(day, **{members: str(it)}) for it in names]
            with pytest.raises(Error) as told_of:
                Runs([*tasks], ["splits"], out)
            assert str(told_of.value) == message
    assert not out.exists()
    found = Runs([day, seed], [told, "splits"], out)
    assert found.missing == list(found.names) and len(found.missing) == 2
    assert out.is_dir() and found.table().empty
    # parts of files that a process left go
    part = out / f".{'0' * 32}.part"
    part.write_bytes(b"some")
    os.utime(part, (1, 1))
    assert Runs([day], [told], out).missing and not part.exists()
    assert Runs([seed], ["trips"], out).missing  # (a folder that is there)


def test_the_traffic_of_a_sweep(traffic: Traffic, tmp_path: Path) -> None:
    """Each plan with each seed, with whole names; without traffic seeds are none."""
    plans: list[str | Path] = [tmp_path / "free.json", "other.json"]
    asked: dict[str, Any] = {"begin": "", "seconds": 5, "device": None, "pattern": 2}
    found = tasks_of(plans, [], traffic=traffic, seeds=[1, 2], **asked)
    assert [(Path(it.plan).stem, it.name) for it in found] == [
        ("free", "seed1"), ("free", "seed2"), ("other", "seed1"), ("other", "seed2")
    ]  # fmt: skip
    assert {it.no_clock for it in found} == {False}
    assert inspect.signature(sweep).parameters["no_clock"].default is False
    whole = found[0].traffic  # type: ignore[union-attr]
    assert whole.routes == str(tmp_path / "{seed}.rou.xml")
    assert whole.additional == str(tmp_path / "detectors.xml")
    assert tasks_of(plans, [], traffic=None, seeds=[1, 2], **asked) == []
    asked |= {"begin": "07:00", "no_clock": True}
    clocked = tasks_of(plans, ["x.log"], traffic=traffic, seeds=[1], **asked)
    assert [(it.begin, it.no_clock) for it in clocked] == [("07:00", True)] * 4
    asked["begin"] = None
    unsaid = tasks_of(plans[:1], ["x.log"], traffic=traffic, seeds=[1], **asked)
    assert [it.begin for it in unsaid] == ["00:00:00", None]


ALL = [
    "a.json", "b.json", "--days", "x.csv", "y.csv", "--out", "out", "--measure",
    "splits", "--measure", "waits", "--begin", "07:00:00", "--seconds", "60",
    "--device", "7", "--pattern", "3", "--no-clock", "--sumo", "net.xml", "--routes", "r.xml",
    "--mapping", "m.json", "--additional", "d.xml", "--seeds", "1", "2",
    "--scheduler", "tcp://x:1", "--workers", "1",
]  # fmt: skip


def test_the_words_of_a_sweep(capsys: pytest.CaptureFixture[str]) -> None:
    """All of them, and what is meant without them."""
    assert vars(_words().parse_args(ALL)) == {
        "plans": ["a.json", "b.json"], "days": ["x.csv", "y.csv"], "out": Path("out"),
        "measure": ["splits", "waits"], "begin": "07:00:00", "seconds": 60,
        "device": "7", "pattern": 3, "no_clock": True, "sumo": "net.xml", "routes": "r.xml",
        "mapping": "m.json", "additional": "d.xml", "seeds": [1, 2],
        "scheduler": "tcp://x:1", "workers": 1,
    }  # fmt: skip
    assert vars(_words().parse_args(["a.json", "--out", "o"])) == {
        "plans": ["a.json"], "days": [], "out": Path("o"), "measure": None,
        "begin": None, "seconds": 86400, "device": None, "pattern": 0,
        "no_clock": False, "sumo": None, "routes": "", "mapping": "", "additional": "", "seeds": [],
        "scheduler": None, "workers": None,
    }  # fmt: skip
    for words in (["a.json"], ["--out", "o"], ["a.json", "--out", "o", "--workers", "0"]):
        with pytest.raises(SystemExit):
            _words().parse_args(words)
    assert "--workers: invalid whole number above 0 value: '0'" in capsys.readouterr().err
    assert workers_of("1") == 1 and workers_of("12") == 12
    for text in ("0", "-1", "x"):
        with pytest.raises(ValueError):
            workers_of(text)
    of = _traffic(_words().parse_args(ALL))
    assert of == Traffic("net.xml", "r.xml", "m.json", "d.xml")
    assert _traffic(_words().parse_args(["a.json", "--out", "o"])) is None
    for word in ("--routes", "--mapping", "--seeds"):
        at = ALL.index(word)
        rest = ALL[:at] + ALL[at + (3 if word == "--seeds" else 2) :]
        with pytest.raises(Error, match=f"--sumo needs {word} as well"):
            _traffic(_words().parse_args(rest))


def test_the_command_of_a_sweep(
    plan: Path, log: Path, tmp_path: Path, capsys: pytest.CaptureFixture[str]
) -> None:
    """What it prints and writes; runs of one fault have one line."""
    before = signal.getsignal(signal.SIGTERM)
    out, bad = tmp_path / "out", [tmp_path / "bad.json", tmp_path / "worse.json"]
    for it in bad:
        it.write_text('{"version": 2}')
    words = ["--days", str(log), "--out", str(out), "--workers", "1", "--seconds", "60"]
    assert main([str(plan), *map(str, bad), *words]) == 1
    said = capsys.readouterr()
    assert said.out == f"1 runs done, 1 of them now, 2 failed\nall tables: {out}/all_runs.txt\n"
    (line,) = said.err.splitlines()
    names = line.split(": ")[0].split(", ")
    assert sorted(it.split(".")[0] for it in names) == ["bad", "worse"]
    assert ": PlanFault: plan: rule K1" in line
    lines = (out / "all_runs.txt").read_text().splitlines()
    assert lines[0].startswith("plan,day,measure,phase") and lines[1].startswith("quad,2026-")
    assert ",terminations," in lines[1]
    assert main([str(plan), *words]) == 0
    assert capsys.readouterr().out.startswith("1 runs done, 0 of them now, 0 failed\n")
    assert main([str(plan), *words, "--measure", "splits"]) == 0
    assert ",splits," in (out / "all_runs.txt").read_text().splitlines()[1]
    with pytest.raises(Error, match="there is nothing to run: name --days, or --sumo"):
        main([str(plan), "--out", str(out)])
    assert signal.getsignal(signal.SIGTERM) == before
    with pytest.raises(KeyboardInterrupt), _ended_by_terms():
        signal.raise_signal(signal.SIGTERM)
    assert signal.getsignal(signal.SIGTERM) == before


def test_the_command_on_traffic(traffic: Traffic, tmp_path: Path) -> None:
    """Without a measure it is that of trips."""
    words = [str(tmp_path / "free.json"), "--sumo", traffic.net, "--seeds", "1"]
    words += ["--routes", traffic.routes, "--mapping", traffic.mapping]
    words += ["--additional", traffic.additional, "--seconds", "10"]
    assert main([*words, "--out", str(tmp_path / "o"), "--workers", "1"]) == 0
    found = pd.read_csv(tmp_path / "o/all_runs.txt")
    assert set(found["measure"]) == {"trips"} and set(found["day"]) == {"seed1"}


def test_processes_of_ones_own() -> None:
    with _client(None, 1) as client:
        assert client._free and len(client._all) == 1


def test_a_summary_that_a_full_disk_does_not_take(
    plan: Path, log: Path, tmp_path: Path, capsys: pytest.CaptureFixture[str]
) -> None:
    """It is as it was, and the line names it."""
    out = tmp_path / "out"
    words = [str(plan), "--days", str(log), "--out", str(out), "--seconds", "60"]
    assert main([*words, "--workers", "1"]) == 0
    path = out / "all_runs.txt"
    size = path.stat().st_size
    path.write_text("before\n")
    for most, said in ((size - 1, "File too large; it is as it was\n"), (size, "")):
        done = subprocess.run(
            [sys.executable, "-m", "tsb", "sweep", *words],
            capture_output=True, text=True,
            # (nor is a part of a compiled module kept)
            env={**os.environ, "PYTHONDONTWRITEBYTECODE": "1"},
            preexec_fn=lambda: resource.setrlimit(resource.RLIMIT_FSIZE, (most, most)),
        )  # fmt: skip
        assert done.returncode == bool(said) and done.stderr.endswith(said)
        assert (path.read_text() == "before\n") == bool(said)


SCRIPT = """import sys
from tsb import measures, sweep
def mine(events, plan): return measures.greens(events)
if __name__ == "__main__":
    table = sweep.sweep(sys.argv[1:2], sys.argv[2:3], [mine], seconds=60)
    print(set(table["measure"]), len(table) > 0)
"""
SESSION = """import sys
from tsb import measures, sweep
if __name__ == "__main__":
    found = sweep.sweep(sys.argv[1:2], sys.argv[2:3], [measures.preempts], seconds=60)
    print("preempt" in found.columns)
"""


def test_measures_that_processes_find(plan: Path, log: Path, tmp_path: Path) -> None:
    """Those of a script that is run, and in a session those of a module."""
    script = tmp_path / "script.py"
    script.write_text(SCRIPT)
    for words, said in (
        ([str(script)], "{'mine'} True\n"), (["-c", SESSION], "True\n"),
    ):  # fmt: skip
        done = subprocess.run(
            [sys.executable, *words, str(plan), str(log)],
            capture_output=True, text=True,
        )
        assert (done.stdout, done.stderr) == (said, "")
