"""A made-up arterial of 24 detectors: stop bars with delays, advance zones with extensions
of their own, and counts. An export of its channels goes through `tsb_field log`, `record`,
a report and the panel."""

import random
from collections import Counter
from collections.abc import Iterator
from pathlib import Path

import pytest

import tsb
from tsb import Bench, Log, Plan, frames
from tsb.lines import Event
from tsb.panel.keep import Source
from tsb.panel.requests import Hold
from tsb.panel.run import Run
from tsb.panel.state import plan_told, state_of
from tsb.programs import run
from tsb.report.command import main
from tsb.rows import fields, numbers
from tsb.tasks import POWER_UP, events_of_record

START = "2026-11-22 07:00:00"
TICKS = 6_000
DEVICE = "1001"
#: Of each through phase the advance zones of its two lanes, and the counts behind them.
ADVANCE = {2: (9, 10), 4: (11, 12), 6: (13, 14), 8: (15, 16)}
COUNTED = {2: (17, 18), 4: (19, 20), 6: (21, 22), 8: (23, 24)}
#: Where the controller has each detector: channels 33 to 56.
CHANNELS = {32 + detector: detector for detector in range(1, 25)}
ON, OFF = 82, 81


def arterial(quad: Path) -> Plan:
    """The plan: a stop bar for each phase, that of a left turn with a delay, advance zones
    that extend, and counts, which call no phase."""
    plan = Plan.read(quad).wide(3)
    for name in ("vehicleDetectorCallPhase", "vehicleDetectorDelay"):
        plan[name] = {}
    for phase in range(1, 9):
        plan["vehicleDetectorCallPhase"][phase] = phase
        plan["vehicleDetectorDelay"][phase] = 30 if phase % 2 else 0
    for phase, zones in ADVANCE.items():
        for lane, zone in enumerate(zones):
            plan["vehicleDetectorCallPhase"][zone] = phase
            plan["vehicleDetectorExtend"][zone] = 25 + 10 * lane
    for zones in COUNTED.values():
        for zone in zones:
            plan["vehicleDetectorNoActivity"][zone] = 5
    # a count at the far end calls, too, and has a number that plans of version 2 have not
    plan["vehicleDetectorCallPhase"][24] = 8
    plan["vehicleDetectorDelay"][24] = 50
    return plan


def crossings(rng: random.Random) -> Iterator[tuple[int, int, int]]:
    """The tick, the detector, and the ticks for which a car is on it: a car comes by its
    counts, then by an advance zone, and waits at the stop bar."""
    now = 1
    while now < TICKS - 200:
        now += rng.randint(5, 40)
        phase = rng.choice([*ADVANCE, 2, 6, 2, 6])
        lane = rng.randrange(2)
        yield now, COUNTED[phase][lane], rng.randint(2, 4)
        yield now + 30, ADVANCE[phase][lane], rng.randint(3, 5)
        yield now + 60, phase, rng.randint(5, 80)
        if rng.random() < 0.3:
            yield now, phase - 1, rng.randint(10, 120)


@pytest.fixture
def quad(examples: Path) -> Path:
    """The plan of eight phases."""
    return examples / "quad.json"


@pytest.fixture(scope="module")
def events() -> list[Event]:
    """What the controller logs: each detector goes on and off, by its channel."""
    held: dict[int, int] = {}
    found = []
    for tick, detector, ticks in sorted(crossings(random.Random("arterial"))):
        if tick <= held.get(detector, 0):
            continue
        held[detector] = tick + ticks
        found += [Event(tick, ON, 32 + detector), Event(tick + ticks, OFF, 32 + detector)]
    return sorted(found)


@pytest.fixture(scope="module")
def log(events: list[Event]) -> Log:
    """The log that `tsb_field log` makes of the export."""
    export = frames.export_of_events(frames.of_events(events), START, DEVICE)
    return frames.log_of_export(export, START, DEVICE, vehicles=CHANNELS)


def test_the_log_has_lists(events: list[Event], log: Log, tmp_path: Path) -> None:
    """It has what the events switch, in lists, and reads back."""
    on: dict[int, set[int]] = {}
    lit: set[int] = set()
    for tick, code, channel in events:
        lit = lit | {channel - 32} if code == ON else lit - {channel - 32}
        on[tick] = lit
    assert {it: set(numbers(fields(log.at(it))[0])) for it in on} == on
    assert any(row.startswith("V") for row in log.rows)
    log.write(tmp_path / "log")
    first = (tmp_path / "log").read_text().splitlines()[0]
    assert first.split(" ")[1].startswith("V") and Log.read(tmp_path / "log") == log


def test_the_record_has_all_24(quad: Path, events: list[Event], log: Log, tmp_path: Path) -> None:
    """Each detector goes on as often as its channel; the outputs of those with a delay or an
    extension go otherwise; a bench that is given the rows has the same events."""
    arterial(quad).write(tmp_path / "plan.json")
    log.write(tmp_path / "log")
    asked = ["record", f"--from={POWER_UP}", "--device=7", "--no-clock", tmp_path / "plan.json", tmp_path / "log"]
    record = run("tsb_field", [str(it) for it in asked], f"step {TICKS}\n".encode()).stdout
    told = frames.to_events(events_of_record(record))
    rises = Counter(it.parameter for it in told if it.code == ON)
    wanted = Counter(it.parameter - 32 for it in events if it.code == ON)
    assert rises == wanted and set(rises) == set(range(1, 25))
    with Bench(tmp_path / "plan.json", log) as bench:
        bench.step(TICKS)
        inputs = [it for it in bench.events if it.code in (ON, OFF)]
        assert sorted(inputs) == sorted(it for it in told if it.code in (ON, OFF))
        greens = Counter(it.parameter for it in bench.events if it.code == 1)
        assert all(greens[phase] > 3 for phase in (2, 4, 6, 8))
        saved = bench.save()
    assert Log.of_text(saved.log) == Log(log.ticks, log.rows)


def test_delays_and_extensions_act_each_by_itself(quad: Path) -> None:
    """Detector 24 calls phase 8 after its own delay; those of one phase extend each by its
    own time; a count calls nothing, and has failed where nothing comes."""
    plan = arterial(quad)
    with Bench(plan) as bench:
        bench.step(100)
        begun = bench.now + 1
        for _ in range(60):
            bench.tick(vehicles=[24])
        assert bench.when("output", 24) == begun + 50
        assert 8 in bench.status.phases.veh_calls
        assert bench.when("call", 8) == begun + 50
        bench.tick(vehicles=[17])
        assert bench.when("output", 17) == bench.now and bench.when("input", 17) == bench.now
    with Bench(plan) as bench:
        bench.step(3_100)
        assert bench.status.detectors.alarms == {*range(17, 25)}
    with Bench(plan) as bench:
        bench.step(61)
        for zone, extend in ((9, 25), (10, 35)):
            bench.tick(vehicles=[zone])
            bench.tick(vehicles=[])
            fell = bench.now
            while zone in bench.status.detectors.active:
                bench.tick(vehicles=[])
            assert bench.now - fell == extend


def test_the_report_and_the_panel(quad: Path, log: Log, tmp_path: Path) -> None:
    """The report of a run has its phases; the panel shows each detector's row, its output
    and its lane, and gives an input by hand that rows in digits have not."""
    plan = arterial(quad)
    plan.write(tmp_path / "plan.json")
    log.write(tmp_path / "log")
    (tmp_path / "commands").write_text(f"step {TICKS}\n")
    words = {
        "--plan-a": "plan.json", "--log": "log",
        "--commands": "commands", "--out": "report.html",
    }  # fmt: skip
    given = [it for word, name in words.items() for it in (word, str(tmp_path / name))]
    assert main(given) == 0
    page = (tmp_path / "report.html").read_text()
    assert "<svg" in page and "alarm" in page
    panel = Run(Source.read(tmp_path / "plan.json", tmp_path / "log"))
    try:
        while panel.now < 600:
            panel.advance(600)
        state = state_of(panel)
        assert len(state["row"]) == 88
        wanted = numbers(fields(log.at(601))[0])
        assert {at for at, it in enumerate(state["row"][:64], 1) if it == "1"} == wanted
        told = plan_told(panel, None)
        assert len(told["detectors"]) == 17 and told["detectors"][24] == 8
        panel.grasp(Hold("vehicle", 40, True))
        panel.advance(603)
        assert panel.bench.when("input", 40) == 601
        assert 40 in numbers(fields(panel.tape.row(602))[0])
    finally:
        panel.close()


def test_version_2_has_no_such_detector(quad: Path) -> None:
    """A plan of version 2 is refused it; the same plan in version 3 is taken."""
    plan = arterial(quad)
    assert plan.fault() is None and plan.wide().version == 3
    text = plan.text.replace('"version": 3', '"version": 2')
    with pytest.raises(tsb.NoSuchObject, match="vehicleDetectorCallPhase.24: its indices are 1 to 16"):
        Plan.of_text(text)
