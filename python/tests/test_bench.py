"""A bench with the real program: ticks, the way back, transactions, refusals."""

import json
import os
import random
import re
import signal
import threading
import time
from collections.abc import Callable, Iterator
from pathlib import Path

import pytest
import tsb
from tsb import Bench, Event, Log, frames, programs
from tsb.rows import ALL_OFF, On, row

START = "2026-11-22 07:00:00"


@pytest.fixture
def quad(examples: Path) -> Path:
    """The plan of eight phases."""
    return examples / "quad.json"


def a_log(seed: str, ticks: int) -> Log:
    """A log at random."""
    rng = random.Random(seed)
    counts = [(16, 0.2), (8, 0.1), (4, 0.02)]
    ticks_of = sorted(rng.sample(range(1, ticks), ticks // 20))
    rows = [[some(rng, *it) for it in counts] for _ in ticks_of]
    return Log.of(zip(ticks_of, (row(*it) for it in rows), strict=True))


def some(rng: random.Random, count: int, share: float) -> list[int]:
    """Some of so many inputs."""
    return [it for it in range(1, count + 1) if rng.random() < share]


def run(words: list[str | Path], commands: str) -> str:
    """What `tsb` answers to commands."""
    return programs.run("tsb", words, commands.encode()).stdout.decode()


def test_the_session_of_the_readme(quad: Path) -> None:
    """A car on detector 4, a preempt, and back."""
    with Bench(quad) as bench:
        assert bench.now == 0
        first = bench.tick()
        assert first.line == "0000001 RGRRRGRR-------- -D-------------- G--- 0 ----"
        assert first.greens == {2, 6} and first.head("W2") == "D"
        bench.step(8)
        bench.tick(vehicles=[4])
        bench.step(20)
        bench.preempt(1)
        lines = list(bench.changes(41))
        assert [it.tick for it in lines] == [31, 61, 71]
        assert lines[-1].preempt == 1 and lines[-1].greens == {3, 8}
        assert bench.when("stage") == 31
        assert bench.seek(30).tick == bench.now == 30
        assert bench.undo() == "switch"
        assert [it.tick for it in bench.changes(61)] == [51, 81, 91]
        assert bench.show().greens == {4, 8}


def test_inputs_are_named_by_numbers_or_digits(quad: Path) -> None:
    """What is not named is off; `step` holds the row."""
    with Bench(quad) as bench:
        bench.tick(vehicles=[2, 4], pedestrians="01", preempts="1")
        status = bench.status
        assert status.detectors.active == {2, 4} and status.phases.ped_calls == {2}
        bench.step(2)
        assert bench.status.detectors.active == {2, 4}
        bench.tick(vehicles="0001")
        assert bench.status.detectors.active == {4}
        bench.tick()
        assert bench.status.detectors.active == set()
        wrongs: list[On] = [[65], [0], "2", "0" * 65]
        for wrong in wrongs:
            with pytest.raises(tsb.OutOfRange):
                bench.tick(vehicles=wrong)
        assert bench.now == 5


@pytest.mark.parametrize("name", ["quad", "main_and_oak", "tee", "railroad"])
def test_a_log_acts_in_the_ticks(examples: Path, tmp_path: Path, name: str) -> None:
    """The lines are those of `tsb run`, there and back again."""
    plan, log = examples / f"{name}.json", a_log(name, 900)
    log.write(tmp_path / "log")
    said = run(["run", plan, tmp_path / "log"], "step 900\n").encode()
    with Bench(plan, tmp_path / "log") as bench:
        assert bench.step(300).text == said[: 300 * 54]
        assert bench.tick().line == said.decode().splitlines()[300]
        bench.back(201)
        assert (bench.step(100) + bench.step(700)).text == said[100 * 54 :]
        bench.seek(0)
        changes = list(bench.changes(900))
    shown = list(tsb.Lines(said))
    pairs = zip([tsb.Display.of(DARK[name]), *shown], shown)
    wanted = [it for was, it in pairs if it[1:5] != was[1:5] or it is shown[-1]]
    assert changes == wanted


# The display of tick 0.
DARK = {
    "quad": "0000000 RRRRRRRR-------- -D-------------- R--- 0 ----",
    "main_and_oak": "0000000 RRRRRRRR-------- -D-D---D-------- R--- 0 ----",
    "tee": "0000000 RR-R-R-R-------- ---D------------ R--- 0 ----",
    "railroad": "0000000 RRRRRRRR-------- -D-D-D-D-------- ---- 0 ----",
}


def test_what_is_named_takes_the_place_of_the_logs(examples: Path) -> None:
    """With a log, what is not named is as the log has it."""
    log = Log.of([(1, row([2], preempts=[1])), (3, row([4]))])
    with Bench(examples / "quad.json", log) as bench:
        assert bench.tick(vehicles=[8]).preempt == 1
        assert bench.status.detectors.active == {8}
        bench.tick()
        assert bench.status.detectors.active == {2}
        bench.step()
        assert bench.status.detectors.active == {4}


def test_rows_many_ahead(quad: Path) -> None:
    """They are answered as one at a time, and a day of them goes both ways."""
    rng = random.Random("ahead")
    rows = [row(some(rng, 16, 0.1)) for _ in range(500)]
    with Bench(quad, events=False) as one, Bench(quad, events=False) as other:
        lines = other.ticks(rows)
        singly = [one.tick(*it.split(" ")) for it in rows]
        assert singly == list(lines)
        begun = time.monotonic()
        lines = other.ticks(rows * 400)
        assert len(lines) == 200_000 and lines[-1].tick == other.now == 200_500
        assert time.monotonic() - begun < 20
        with pytest.raises(tsb.OutOfRange):
            other.ticks([ALL_OFF, "0001"])
        assert other.now == 200_500 and len(other.step(0)) == 0


def test_the_way_back(quad: Path) -> None:
    """`back`, `seek` and `undo`, and what there is not to go back to."""
    with Bench(quad) as bench:
        assert bench.undo() is None
        bench.step(100)
        assert bench.back(40).tick == 60 and bench.seek(50).tick == 50
        with pytest.raises(tsb.NoSuchTick, match="seek 51: the bench is at tick 50"):
            bench.seek(51)
        with pytest.raises(tsb.NoSuchTick):
            bench.back(51)
        ways: list[Callable[[int], object]]
        ways = [bench.back, bench.seek, bench.step, bench.changes]
        for way in ways:
            with pytest.raises(tsb.OutOfRange, match="-1: give a .*, 0 or more; a second"):
                way(-1)
        assert bench.undo() == "tick" and bench.now == 49
        assert bench.seek(0).tick == 0


@pytest.mark.parametrize(
    "wrong, said",
    [
        (lambda bench: bench.step(10.5), "step 10.5: give a number of ticks, as a whole"
         " number; a second has 10 ticks"),
        (lambda bench: bench.back(-3), "back -3: give a number of ticks, 0 or more; a"
         " second has 10 ticks"),
        (lambda bench: bench.seek(7.5), "seek 7.5: give a tick, counted from"
         " power-up, as a whole number; a second has 10 ticks, or a time of the clock,"
         " as '7:42'"),
        (lambda bench: bench.step("7:42"), "step '7:42': give a number of ticks, as a"
         " whole number; a second has 10 ticks"),
        (lambda bench: bench.tick(vehicles=4), "4: give the numbers of inputs in a list,"
         " as [4], or a digit for each"),
        (lambda bench: bench.tick(preempts=["a"]), "['a']: give the numbers of inputs in"
         " a list, as [1, 4], or a digit for each"),
    ],
)  # fmt: skip
def test_a_wrong_call_says_what_to_give(
    quad: Path, wrong: Callable[[Bench], object], said: str
) -> None:
    """And the bench is as it was."""
    with Bench(quad) as bench:
        bench.step(5)
        with pytest.raises(tsb.OutOfRange) as told:
            wrong(bench)
        assert str(told.value) == said and bench.now == 5


def test_when(quad: Path) -> None:
    """The last change of each watch; None for never."""
    with Bench(quad) as bench:
        bench.step(9)
        bench.tick(vehicles=[4], pedestrians=[2], preempts=[1])
        bench.step(80)
        assert bench.when("interval", 2) == 61 and bench.when("call", 4) == 10
        assert bench.when("output", 4) == 10 and bench.when("alarm", 4) is None
        assert bench.when("stage") == 10 and bench.when("trip") is None
        assert bench.when("ped", 2) is None
        with pytest.raises(tsb.BadCommand, match="when output 65"):
            bench.when("output", 65)


def test_when_of_inputs(quad: Path) -> None:
    """An input, a button and a preempt's input have watches too."""
    with Bench(quad) as bench:
        bench.step(50)
        bench.tick(vehicles=[4], pedestrians=[2], preempts=[1])
        assert bench.when("input", 4) == bench.when("button", 2) == 51
        assert bench.when("preempt", 1) == 51 and bench.when("preempt", 2) is None


def test_the_operator(quad: Path) -> None:
    """Patterns, switches, lamps, and the trip that a lamp makes."""
    with Bench(quad) as bench:
        bench.set_pattern(1)
        assert bench.show().local is not None
        assert bench.status.coord_pattern_status == 1
        bench.set_pattern(0)
        bench.step(60)
        bench.preempt(1)
        bench.step(1)
        assert bench.show().preempt == 1
        bench.preempt(1, on=False)
        bench.fault("P4", "G")
        assert bench.when("trip") == 61 and bench.show().vehicles[:8] == "F" * 8
        bench.fault(None)
        bench.reset()
        assert bench.show().greens == frozenset()
        kinds = [bench.undo() for _ in range(4)]
        assert kinds == ["reset", "fault", "fault", "switch"]


def test_refusals_leave_all_as_it_was(quad: Path) -> None:
    """Each has its number, its name and the manual's cure."""
    with Bench(quad) as bench:
        bench.step(5)
        before = bench.status
        with pytest.raises(tsb.Refused) as told:
            bench.set_pattern(9)
        assert (told.value.number, told.value.name) == (9, "NoSuchPattern")
        assert told.value.cure == "give it, or another pattern; 0 is free operation"
        with pytest.raises(tsb.Refused, match="E10 NoSuchPreempt"):
            bench.preempt(4)
        with pytest.raises(tsb.BadCommand, match="fault P17 G: bad command"):
            bench.fault("P17", "G")
        with pytest.raises(tsb.BadCommand):
            bench.fault("P2", "G\nundo")
        assert bench.status == before and bench.undo() == "tick"


def test_the_last_tick(examples: Path) -> None:
    """A step past tick 6,000,000 keeps the ticks before it."""
    with Bench(examples / "first_plan.json", Log.of([(5_999_990, row([1]))])) as bench:
        assert bench.changes(5_999_980)[-1].tick == bench.now
        with pytest.raises(tsb.Refused, match="E11 TickLimit"):
            bench.step(50)
        assert bench.now == 6_000_000
        with pytest.raises(tsb.Refused, match="E11 TickLimit"):
            bench.tick()
        bench.back(3)
        with pytest.raises(tsb.Refused, match="E11 TickLimit"):
            bench.ticks([ALL_OFF] * 5)
        assert bench.now == 6_000_000


def test_a_transaction_commits_at_its_end(quad: Path) -> None:
    """All at once; and one undo takes it back."""
    with Bench(quad) as bench:
        with bench.transaction() as edits:
            edits["phaseMaximum1", 2] = 40
            edits["phaseYellowChange", 2] = tsb.seconds(4.5)
            edits["splitTime", (8, 16)] = 3
            assert bench.plan["phaseMaximum1"][2] == 20
            assert [it.value for it in bench.edits.edits] == [40, 45, 3]
            assert bench.edits.owner == 1
        plan = bench.plan
        assert plan["phaseMaximum1"][2] == 40 and plan["phaseYellowChange"][2] == 45
        assert plan["splitTime"][128] == 3 and bench.edits.owner is None
        assert bench.undo() == "commit" and bench.plan["phaseMaximum1"][2] == 20


def test_a_transaction_that_raises_is_aborted(quad: Path) -> None:
    """Whatever it is: a rule, a refusal, a value, or the caller's own."""
    with Bench(quad) as bench:
        before = bench.plan
        with pytest.raises(tsb.PlanFault, match="rule K8") as told:
            with bench.transaction(2) as edits:
                edits["phaseYellowChange", 2] = 20
        assert told.value.cure == "give tenths: 40 for 4.0 s"
        with pytest.raises(tsb.OutOfRange, match="0 to 255"):
            with bench.transaction() as edits:
                edits["phaseYellowChange", 2] = 300
        with pytest.raises(ZeroDivisionError):
            with bench.transaction() as edits:
                edits["phaseMaximum1", 2] = 1 // 0
        bench.step(5)
        with pytest.raises(tsb.Refused, match="E12 InService"):
            with bench.transaction() as edits:
                edits["overlapIncludedPhases", 1] = {2}
        assert bench.plan == before and bench.edits.owner is None


def test_a_transaction_may_end_before(quad: Path) -> None:
    """By its own commit or abort, or because its begin is taken back."""
    with Bench(quad) as bench:
        bench.step(3)
        with bench.transaction() as edits:
            edits["phaseMaximum1", 2] = 41
            edits.commit()
            bench.step(1)
        assert bench.plan["phaseMaximum1"][2] == 41
        with bench.transaction() as edits:
            edits["phaseMaximum1", 2] = 42
            edits.verify()
            edits.abort()
        assert bench.plan["phaseMaximum1"][2] == 41 and bench.edits.owner is None
        with pytest.raises(tsb.Refused, match="E6 NotOpen"):
            with bench.transaction():
                bench.seek(1)


def test_a_station_that_has_the_desk(quad: Path) -> None:
    """Another is refused, and the answer names the one that has it."""
    with Bench(quad) as bench:
        with bench.transaction(3):
            with pytest.raises(tsb.Refused) as told:
                with bench.transaction(1):
                    pass
            assert told.value.name == "Busy" and told.value.station == 3
        with pytest.raises(tsb.Refused, match="E8 TooManyEdits"):
            with bench.transaction() as edits:
                for index in range(1, 66):
                    edits["splitTime", index] = index


def names_of(value: object) -> set[str]:
    """All names of members in a value of JSON."""
    if isinstance(value, list):
        return set().union(*map(names_of, value))
    if isinstance(value, dict):
        return set(value).union(*map(names_of, value.values()))
    return set()


def test_the_status(quad: Path) -> None:
    """Each member of the line is in the object, by its name."""
    with Bench(quad) as bench:
        bench.tick(vehicles=[4])
        status, line = bench.status, bench._ask("status")
        assert status.tick == 1 and status.phases.greens == {2, 6}
        assert status.overlaps.greens == {1} and status.phases.veh_calls == {4}
        assert status.rings[0].ring_status == "minimumGreen"
        assert status.rings[0].initial_left == 50 and status.rings[0].phase == 2
        assert status.waits[4].cause == "barrier" and status.waits[4].of == 2
        said = "phase 4 waits for the barrier, which phase 2 keeps"
        assert str(status.waits[4]) == said
        assert status.preempt_state == ("notActive",) * 8
        assert status.local_free_status == "commandFree" and status.desk.owner is None
        told = json.loads(line)
        rings, groups = told.pop("rings"), repr(status)
        for name in names_of(told) | names_of(rings):
            snake = re.sub("[A-Z]", lambda it: "_" + it[0].lower(), name)
            known = {"phase_status_group", "overlap_status_group", "for",
                     "vehicle_detector_status_group"}  # fmt: skip
            assert snake in known or f"{snake}=" in groups


def test_events_are_those_of_a_record(examples: Path, tmp_path: Path) -> None:
    """The events of the bench are those that `tsb_field record` writes of the inputs
    that remain, with ticks and commands that were taken back."""
    plan, log = examples / "main_and_oak.json", a_log("events", 900)
    log.write(tmp_path / "log")
    commands = ["step 300", "pattern 1", "step 200", "undo", "back 260", "preempt 1 on",
                "step 30", "undo", "fault P4 G", "undo", "pattern 0", "step 500", "begin 1",
                "set 1 unitMax2 1 1", "verify 1", "commit 1", "step 100", "back 50",
                "preempt 1 off", "undo", "undo", "undo"]  # fmt: skip
    with Bench(plan, log) as bench:
        for it in commands:
            word, *more = it.split()
            match word:
                case "step":
                    bench.step(int(more[0]))
                case "back":
                    bench.back(int(more[0]))
                case "undo":
                    bench.undo()
                case _:
                    bench._do(it)
        found = frames.of_events(bench.events)
    words: list[str | Path] = ["record", f"--from={START}", "--device=7", plan]
    text = "".join(f"{it}\n" for it in commands).encode()
    done = programs.run("tsb_field", [*words, tmp_path / "log"], text)
    (tmp_path / "record.csv").write_bytes(done.stdout)
    wanted = frames.read_export(tmp_path / "record.csv")
    export = frames.export_of_events(found, START, "7")
    assert export.equals(wanted) and len(wanted) > 100


def test_events_of_switches_and_recalls(quad: Path) -> None:
    """A switch asks for a preempt, if its input does not; the calls of recalls
    have no events."""
    with Bench(quad) as bench:
        bench.tick()
        assert {it.code for it in bench.events} == {0, 1, 61}
        bench.preempt(1)
        bench.tick(preempts=[1])
        bench.preempt(1, on=False)
        bench.tick()
        asked = [it for it in bench.events if it.code in (102, 104)]
        assert asked == [Event(1, 102, 1), Event(3, 104, 1)]
        bench.preempt(1)
        assert bench.events[-1] == Event(3, 102, 1)
        bench.undo()
        assert bench.events[-1] == Event(3, 104, 1)


def test_events_of_changes_and_single_ticks(quad: Path) -> None:
    """They are those of a step."""
    log = a_log("told", 700)
    with Bench(quad, log) as one, Bench(quad, log) as two, Bench(quad, log) as three:
        one.step(700)
        two.changes(700)
        for _ in range(700):
            three.tick()
        assert one.events == two.events == three.events
        assert Event(1, 1, 2) in one.events


def test_a_bench_without_events(quad: Path) -> None:
    """It says so."""
    with Bench(quad, events=False) as bench:
        bench.step(3)
        with pytest.raises(tsb.Error, match="events"):
            bench.events  # noqa: B018


def test_a_state_is_saved(examples: Path, tmp_path: Path) -> None:
    """`tsb run` makes the state again from the log and the commands."""
    plan = examples / "main_and_oak.json"
    with Bench(plan, a_log("saved", 600)) as bench:
        bench.set_pattern(1)
        bench.step(300)
        bench.back(100)
        bench.preempt(1)
        bench.step(150)
        with bench.transaction() as edits:
            edits["phaseMaximum1", 2] = 31
        bench.step(50)
        saved, shown = bench.save(), bench.show()
    (tmp_path / "log").write_text(saved.log)
    again = run(["run", plan, tmp_path / "log"], saved.commands + "show\n")
    assert again.splitlines()[-1] == shown.line


@pytest.fixture
def ctrl_c() -> Iterator[None]:
    """Ctrl-C as Python has it, also where whatever started the tests passes it over."""
    before = signal.signal(signal.SIGINT, signal.default_int_handler)
    yield
    signal.signal(signal.SIGINT, before)


@pytest.mark.usefixtures("ctrl_c")
def test_an_interrupt_keeps_the_ticks_so_far(quad: Path) -> None:
    """Ctrl-C stops a long step between two ticks, and a loop of single ones."""
    log = a_log("interrupt", 4000)
    with Bench(quad, log) as bench, Bench(quad, log) as other:
        for run in (long_step, *[forever] * 20):
            timer = threading.Timer(0.1, signal.raise_signal, [signal.SIGINT])
            timer.start()
            with pytest.raises(KeyboardInterrupt):
                run(bench)
            assert 0 < bench.now < 3_000_000
            other.step(bench.now - other.now)
            assert bench.show() == other.show() and bench.events == other.events
            bench.back(1)
            other.back(1)


def long_step(bench: Bench) -> None:
    """More ticks than a tenth of a second has."""
    bench.step(3_000_000)


def forever(bench: Bench) -> None:
    """Single ticks without an end."""
    while True:
        bench.tick()


def test_a_plan_that_is_not_there(tmp_path: Path) -> None:
    """It is an error as for any file."""
    with pytest.raises(FileNotFoundError):
        Bench(tmp_path / "none.json")


def test_a_bench_is_killed_from_another_thread(quad: Path) -> None:
    """Who waits for an answer gets an error that says so."""
    with Bench(quad) as bench:
        threading.Timer(0.1, bench.kill).start()
        with pytest.raises(tsb.ProgramDied, match="tsb_live ended by signal 9"):
            while True:
                bench.changes(10_000)


def test_a_bench_leaves_nothing_behind(quad: Path) -> None:
    """Its program ends with it, and closing it twice does nothing more."""
    with Bench(quad) as bench:
        bench.step(3)
        number = bench.process
    bench.close()
    with pytest.raises(ProcessLookupError):
        os.kill(number, 0)
    with pytest.raises(tsb.Error, match="this bench is closed"):
        bench.tick()
    with pytest.raises(tsb.Error, match="this bench is closed"):
        bench.step(5)


def test_a_bench_that_a_fork_has_too(quad: Path) -> None:
    """It can be closed while the other process lives."""
    with Bench(quad) as bench:
        bench.step(3)
        child = os.fork()
        if child == 0:
            time.sleep(30)
            os._exit(0)
    os.kill(child, signal.SIGKILL)
    os.waitpid(child, 0)


LOGS = {
    "0000001 0001000000000000 00000000 000\n": "log line 1: malformed",
    "# one\n\n0000000 0001000000000000 00000000 0000": "log line 3: malformed",
    "6000001 0001000000000000 00000000 0000": "log line 1: malformed",
    "0000005 0001000000000000 00000000 0000\n" * 2: "log line 2: tick order",
    " 0000005 0001000000000000 00000000 0000": "log line 1: malformed",
}


@pytest.mark.parametrize("text", LOGS)
def test_logs_that_are_refused(examples: Path, tmp_path: Path, text: str) -> None:
    """In the words of `tsb run`."""
    with pytest.raises(tsb.LogFault) as told:
        Log.of_text(text)
    assert told.value.line == LOGS[text]
    (tmp_path / "log").write_text(text)
    with pytest.raises(tsb.ProgramDied, match=LOGS[text]):
        programs.run("tsb", ["run", examples / "two.json", tmp_path / "log"])


def test_logs_that_are_read(examples: Path) -> None:
    """Comments, blank lines and carriage returns; each example's rows."""
    for path in sorted(examples.glob("*.log")):
        if path.name in ("same_tick.log", "tick_zero.log", "cut_short.log"):
            continue
        log = Log.read(path)
        assert Log.of_text(log.text) == log
    log = Log.of_text(b"# \xff\r\n  \r\n0000005 0100000000000000 00000000 0000\r\n")
    assert log.at(4) == ALL_OFF and log.at(5) == log.at(99) == row([2])
    assert list(log.stretches(3, 7)) == [(ALL_OFF, 2), (row([2]), 3)]
    assert list(log.stretches(6, 7)) == [(row([2]), 2)] and not list(
        log.stretches(6, 5)
    )


def test_a_log_that_takes_the_place_of_another(quad: Path) -> None:
    """It acts from the next tick on."""
    with Bench(quad) as bench:
        bench.step(4)
        bench.follow(Log.of([(2, row([4])), (6, row([8]))]))
        bench.step(1)
        assert bench.status.detectors.active == {4}
        bench.changes(5)
        assert bench.status.detectors.active == {8}
        bench.follow(None)
        bench.step(1)
        assert bench.status.detectors.active == {8}


def test_inputs_as_commands(quad: Path) -> None:
    """Each answers as the manual has it, and no other command is one."""
    with Bench(quad) as bench:
        bench.step(3)
        assert [bench.give(it) for it in ["begin 1", "verify 1"]] == ["ok", "ok"]
        assert bench.give("set 1 phaseYellowChange 2 20") == "ok"
        assert bench.give("verify 1") == "rule K8"
        with pytest.raises(tsb.Refused, match="E7 NotVerified"):
            bench.give("commit 1")
        for wrong in ["step 3", "undo", "quit", "", "abort 1\nquit"]:
            with pytest.raises(tsb.BadCommand):
                bench.give(wrong)
        assert [bench.undo() for _ in range(4)] == ["verify", "set", "verify", "begin"]
