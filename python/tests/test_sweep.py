"""Tests of tsb.sweep with the programs of the bench, on processes of this machine."""

import importlib
import os
import resource
import signal
import subprocess
import sys
import tempfile
import threading
import time
from collections.abc import Iterator
from contextlib import suppress
from dataclasses import replace
from pathlib import Path
from typing import Any

import pandas as pd
import pytest

from tsb import Error, Plan, frames, kept, measures, programs
from tsb.processes import local
from tsb.sumo import crossroads
from tsb.sweep import Runs, SweepFailed, main, sweep
from tsb.tasks import Day, Seed, Task, Traffic, key_of, one_run, record

SECONDS = 600


@pytest.fixture(scope="session")
def cluster() -> Iterator[Any]:
    """Four processes."""
    with local(4) as client:
        yield client


@pytest.fixture
def dask() -> Iterator[Any]:
    """A cluster of Dask that runs already, with a process."""
    distributed = importlib.import_module("distributed")
    with (
        distributed.LocalCluster(
            n_workers=1, threads_per_worker=1, processes=True, silence_logs=50,
            dashboard_address=None, worker_dashboard_address="127.0.0.1:0",
        ) as cluster,
        distributed.Client(cluster) as client,
    ):  # fmt: skip
        yield client


@pytest.fixture
def plans(examples: Path) -> list[Path]:
    """Two plans."""
    return [examples / "quad.json", examples / "main_and_oak.json"]


@pytest.fixture(scope="session")
def days(tmp_path_factory: pytest.TempPathFactory) -> list[Path]:
    """Two days of a controller's events, each from 7:00 on."""
    folder = tmp_path_factory.mktemp("days")
    examples = Path(__file__).resolve().parents[2] / "examples"
    found = []
    for day, plan in (("2026-11-22", "quad"), ("2026-11-23", "main_and_oak")):
        words = ["record", f"--from={day} 07:00:00", "--device=7"]
        words += [str(examples / f"{plan}.json"), str(examples / "hour_of_traffic.log")]
        done = programs.run("tsb_field", words, b"step 9000\n")
        found.append(folder / f"{day}.csv")
        found[-1].write_bytes(done.stdout)
    return found


HOURS: Any = {"begin": "07:00:00", "seconds": SECONDS, "device": "7"}


def slow(events: pd.DataFrame, plan: Plan) -> pd.DataFrame:
    """A measure that takes its time, and says who begins it: how many events there
    are."""
    if begun := os.environ.get("TSB_TEST_BEGUN"):
        with open(begun, "a") as file:
            file.write(f"{os.getpid()}\n")
    time.sleep(0.7)
    return pd.DataFrame({"events": [len(events)]})


def none_with_delays(events: pd.DataFrame, plan: Plan) -> pd.DataFrame:
    """A measure that fails for a plan with a delay of a preempt."""
    if plan["preemptDelay"]:
        raise ValueError("it has a delay")
    return pd.DataFrame({"events": [len(events)]})


def test_a_sweep_is_each_plan_on_each_day(
    cluster: Any, plans: list[Path], days: list[Path], tmp_path: Path
) -> None:
    asked = ["terminations", "waits"]
    table = sweep(plans, days, asked, cluster, out=tmp_path, **HOURS)
    assert set(zip(table["plan"], table["day"], strict=True)) == {
        (plan.stem, day.stem) for plan in plans for day in days
    }
    # one of them by hand
    export = frames.read_export(days[1])
    log = frames.log_of_export(export, "2026-11-23 07:00:00", "7")
    events = record(plans[0], log, SECONDS, recalls=True)
    one = table[(table["plan"] == "quad") & (table["day"] == "2026-11-23")]
    ended = one[one["measure"] == "terminations"].set_index("phase")
    hand = measures.terminations(events)
    assert list(ended["gap"]) == list(hand["gap"]) and sum(hand["gap"]) > 20
    waited = one[one["measure"] == "waits"]["wait_s"]
    assert waited.mean() == pytest.approx(measures.waits(events)["wait_s"].mean())


def test_a_sweep_goes_on_where_it_was(
    cluster: Any, plans: list[Path], days: list[Path], tmp_path: Path
) -> None:
    mine = tmp_path / "plan.json"
    mine.write_bytes(plans[0].read_bytes())
    out = tmp_path / "out"
    first = sweep([mine], days, ["splits"], cluster, out=out, **HOURS)
    made = {it: it.stat().st_mtime_ns for it in out.iterdir()}
    assert len(made) == 2
    # a run that is missing is run, and the other is not
    lost = sorted(made)[0]
    lost.unlink()
    again = sweep([mine], days, ["splits"], cluster, out=out, **HOURS)
    pd.testing.assert_frame_equal(first, again)
    assert {it: it.stat().st_mtime_ns for it in out.iterdir()} != made
    assert sorted(made)[1].stat().st_mtime_ns == made[sorted(made)[1]]
    # another plan of the same name is another run
    changed = Plan.read(mine)
    changed["phaseMinimumGreen"][2] = 9
    changed.write(mine)
    sweep([mine], days[:1], ["splits"], cluster, out=out, **HOURS)
    assert len(list(out.iterdir())) == 3


def test_a_worker_that_is_killed_costs_nothing(
    cluster: Any,
    plans: list[Path],
    days: list[Path],
    tmp_path: Path,
    monkeypatch: pytest.MonkeyPatch,
) -> None:
    wanted = sweep(plans, days, [slow], cluster, **HOURS)
    assert (wanted["events"] > 1000).all() and len(wanted) == 4
    logs = []
    for number in range(4):
        day = tmp_path / f"2026-12-0{number + 1}.csv"
        text = days[number % 2].read_text()
        day.write_text(text.replace(f"{days[number % 2].stem} ", f"{day.stem} "))
        logs.append(day)
    begun, out, killed = tmp_path / "begun", tmp_path / "out", []
    monkeypatch.setenv("TSB_TEST_BEGUN", str(begun))

    def kill() -> None:
        """Kills a worker in the middle of a run, once another run is done."""
        while not list(out.glob("*.csv")):
            time.sleep(0.01)
        before = len(begun.read_text().split())
        while len(begun.read_text().split()) == before:
            time.sleep(0.01)
        killed.append(int(begun.read_text().split()[before]))
        os.kill(killed[0], signal.SIGKILL)

    with local(4) as client:
        killer = threading.Thread(target=kill)
        killer.start()
        table = sweep(plans, logs, [slow], client, out=out, **HOURS)
        killer.join()
    # the run that it had was begun again, by another
    runs = begun.read_text().split()
    assert len(runs) > 8 and len(set(runs)) >= 4
    assert len(table) == 8 and len(list(out.iterdir())) == 8
    assert sorted(table["events"]) == sorted([*wanted["events"]] * 2)


def test_a_run_that_fails_is_told_and_the_others_are_done(
    cluster: Any, plans: list[Path], days: list[Path], tmp_path: Path
) -> None:
    asked = [none_with_delays]
    with pytest.raises(SweepFailed) as failed:
        sweep(plans, days, asked, cluster, out=tmp_path, **HOURS)
    assert len(failed.value.failures) == 2 and len(failed.value.table) == 2
    name, said = next(iter(failed.value.failures.items()))
    assert name.startswith("main_and_oak.2026-11-2")
    assert said == "ValueError: it has a delay"
    assert len(list(tmp_path.iterdir())) == 2


def test_what_is_wrong_is_told_first(plans: list[Path], days: list[Path]) -> None:
    with pytest.raises(Error, match="there is no measure wait: greens, splits"):
        sweep(plans, days, ["wait"])
    with pytest.raises(Error, match="the same run comes twice"):
        sweep([plans[0], plans[0]], days)
    with pytest.raises(Error, match="trips: a day has none"):
        sweep(plans, days, ["trips"])
    words = [str(plans[0]), "--out", str(plans[0].parent)]
    with pytest.raises(Error, match="nothing to run: name --days"):
        main(words)
    with pytest.raises(Error, match="--sumo needs --routes as well"):
        main([*words, "--sumo", "net.xml"])
    with pytest.raises(Error, match="name it by its day"):
        task = Day(str(plans[0]), str(plans[0]), "07:00:00", 60, None, 0)
        list(task.tables(["greens"]))


def test_a_sweep_over_seeds_of_traffic(cluster: Any, tmp_path: Path) -> None:
    mapping = crossroads.build(tmp_path)
    for seed in (1, 2):
        crossroads.demand(tmp_path / f"{seed}.rou.xml", "light", seed, 150)
    plan = tmp_path / "free.json"
    crossroads.plan().write(plan)
    traffic = Traffic(
        str(tmp_path / "net.xml"),
        str(tmp_path / "{seed}.rou.xml"),
        str(tmp_path / "mapping.json"),
        str(tmp_path / "detectors.xml"),
    )
    table = sweep(
        [plan], (), ["trips", "terminations"], cluster,
        seconds=150, traffic=traffic, seeds=[1, 2],
    )  # fmt: skip
    assert mapping.tls == "C"
    trips = table[table["measure"] == "trips"]
    assert list(trips["day"]) == ["seed1", "seed2"] and (trips["ended"] > 3).all()
    ended = table[table["measure"] == "terminations"].groupby("day")["gap"].sum()
    assert (ended > 5).all()


def test_the_command(
    cluster: Any,
    plans: list[Path],
    days: list[Path],
    tmp_path: Path,
    capsys: pytest.CaptureFixture[str],
) -> None:
    bad = tmp_path / "bad.json"
    bad.write_text('{"version": 2}\n')
    words = [
        "--days",
        *map(str, days),
        "--out",
        str(tmp_path / "out"),
        "--workers",
        "2",
    ]
    words += ["--begin", "07:00:00", "--seconds", str(SECONDS), "--device", "7"]
    assert main([str(plans[0]), str(bad), *words]) == 1
    told = capsys.readouterr()
    assert told.out.startswith("2 runs done, 2 of them now, 2 failed\n")
    assert told.err.count("PlanFault: plan: rule K1: ") == 1  # (of both days)
    assert told.err.count("bad.2026-11-2") == 2 and "cure: " in told.err
    assert main([str(plans[0]), *words]) == 0
    assert capsys.readouterr().out.startswith("2 runs done, 0 of them now, 0 failed\n")
    table = pd.read_csv(tmp_path / "out" / "all_runs.txt")
    assert set(table["plan"]) == {"quad"} and set(table["measure"]) == {"terminations"}


def unread() -> None:
    """What reads the measure that no process can read."""
    raise ValueError("nobody reads it")


class Unread:
    """A measure that no process can read."""

    __name__ = "unread"

    def __call__(self, events: pd.DataFrame, plan: Plan) -> pd.DataFrame:
        return events

    def __reduce__(self) -> Any:
        return unread, ()


def test_the_command_on_a_cluster_that_runs_already(
    dask: Any, plans: list[Path], days: list[Path], tmp_path: Path
) -> None:
    """Its workers do the runs, and it lives on afterwards."""
    words = [str(plans[0]), "--days", str(days[0]), "--out", str(tmp_path)]
    words += ["--begin", "07:00:00", "--seconds", "60", "--device", "7"]
    assert main([*words, "--scheduler", dask.scheduler.address]) == 0
    table = pd.read_csv(tmp_path / "all_runs.txt")
    assert set(table["day"]) == {days[0].stem} and len(table) > 0
    assert dask.submit(os.getpid).result() != os.getpid()
    out = tmp_path / "failed"
    with pytest.raises(SweepFailed, match="ValueError: it has a delay"):
        sweep(plans, days[:1], [none_with_delays], dask, out=out, **HOURS)
    with pytest.raises(SweepFailed, match="ValueError: nobody reads it"):
        sweep(plans, days[:1], [Unread()], dask, out=out, **HOURS)


def test_a_run_is_safe_to_run_twice(
    plans: list[Path], days: list[Path], tmp_path: Path
) -> None:
    task = Day(str(plans[0]), str(days[0]), "07:00:00", SECONDS, "7", 0)
    (name,) = Runs([task], ["greens"], tmp_path).missing
    path = tmp_path / one_run(task, str(tmp_path), name, ["greens"])
    before = path.read_bytes()
    one_run(task, str(tmp_path), name, ["greens"])
    assert path.read_bytes() == before and len(list(tmp_path.iterdir())) == 1
    assert Runs([task], ["greens"], tmp_path).missing == []


def test_a_run_is_told_by_all_that_is_asked(plans: list[Path], days: list[Path]) -> None:
    """Another value of anything makes another run; the order of measures does not."""
    day = Day(str(plans[0]), str(days[0]), "07:00:00", 60, "7", 0)
    traffic = Traffic(str(plans[0]), str(plans[0]), str(plans[1]))
    seed = Seed(str(plans[0]), traffic, 1, 60, 0)
    tasks: list[Task] = [
        day, replace(day, begin="07:00:01"), replace(day, seconds=61),
        replace(day, device=None), replace(day, device="8"), replace(day, pattern=1),
        replace(day, plan=str(plans[1])), replace(day, source=str(days[1])),
        seed, replace(seed, seed=2), replace(seed, seconds=61), replace(seed, pattern=1),
        replace(seed, traffic=replace(traffic, routes=str(plans[1]))),
        replace(seed, traffic=replace(traffic, additional=str(plans[1]))),
    ]  # fmt: skip
    assert len({key_of(it, ["greens"]) for it in tasks}) == len(tasks)
    asked = [key_of(day, it) for it in (["greens"], ["waits"], ["greens", "waits"])]
    assert len(set(asked)) == 3 and key_of(day, ["waits", "greens"]) == asked[2]
    with pytest.raises(Error, match="none.json: there is no such file"):
        key_of(replace(day, plan="none.json"), ["greens"])


def test_a_result_that_is_not_whole_is_made_again(
    cluster: Any, plans: list[Path], days: list[Path], tmp_path: Path
) -> None:
    def swept() -> pd.DataFrame:
        asked = ["splits"]
        return sweep(plans[:1], days[:1], asked, cluster, out=tmp_path, **HOURS)

    table = swept()
    (path,) = tmp_path.iterdir()
    text = path.read_bytes()
    lines = text.splitlines(keepends=True)
    others = [b"", text[:-1], b"".join(lines[:-1]), b"\0" * len(text), b"a,b\n1,2\n"]
    for other in others:
        path.write_bytes(other)
        pd.testing.assert_frame_equal(swept(), table)
        assert [it.read_bytes() for it in tmp_path.iterdir()] == [text]
    # one that was made by something else under the name of this run goes
    path.rename(path.with_name(path.name[:-5] + "0.csv"))
    pd.testing.assert_frame_equal(swept(), table)
    assert list(tmp_path.iterdir()) == [path]
    # a folder in its place is reported
    path.unlink()
    path.mkdir()
    with pytest.raises(SweepFailed, match=f"{tmp_path}: Is a directory"):
        swept()
    assert list(tmp_path.iterdir()) == [path]


def too_large(events: pd.DataFrame, plan: Plan) -> pd.DataFrame:
    """A measure whose table the disk does not take: no file may be over 64 KiB."""
    resource.setrlimit(resource.RLIMIT_FSIZE, (1 << 16, resource.RLIM_INFINITY))
    return pd.DataFrame({"row": range(100_000)})


def test_a_disk_that_is_full_is_told_and_nothing_is_left(
    plans: list[Path], days: list[Path], tmp_path: Path
) -> None:
    out = tmp_path / "out"
    with local(1) as client, pytest.raises(SweepFailed) as failed:
        sweep(plans[:1], days, [too_large], client, out=out, **HOURS)
    assert len(failed.value.failures) == 2 and list(out.iterdir()) == []
    assert set(failed.value.failures.values()) == {f"{out}: File too large"}


def test_the_summary_is_there_as_a_whole_or_as_it_was(tmp_path: Path) -> None:
    path = tmp_path / "all_runs.txt"
    kept.write(path, b"before\n")
    words = "import resource, sys; from pathlib import Path; from tsb import kept\n"
    words += "resource.setrlimit(resource.RLIMIT_FSIZE, (4096, 4096))\n"
    words += "kept.write(Path(sys.argv[1]), bytes(5000))\n"
    done = subprocess.run([sys.executable, "-c", words, path], stderr=subprocess.PIPE)
    assert done.returncode == 1 and b"File too large" in done.stderr
    assert list(tmp_path.iterdir()) == [path] and path.read_bytes() == b"before\n"


def test_parts_that_a_dead_process_left_go(tmp_path: Path) -> None:
    old, young, other = (
        tmp_path / name for name in (f".{'0' * 32}.part", f".{'1' * 32}.part", ".part")
    )
    for path in (old, young, other):
        path.write_bytes(b"some")
        if path is not young:
            os.utime(path, (1, 1))
    kept.tidy(tmp_path)
    assert sorted(tmp_path.iterdir()) == sorted([young, other])


def heard(events: pd.DataFrame, plan: Plan) -> pd.DataFrame:
    """A measure of the processes: how many sockets of it and of its parent wait for
    callers, and whether Ctrl-C comes to it."""
    ends = set()
    for pid in (os.getpid(), os.getppid()):
        for it in Path(f"/proc/{pid}/fd").iterdir():
            with suppress(FileNotFoundError):
                ends.add(os.readlink(it))
    waiting = 0
    for name in ("tcp", "tcp6"):
        for line in Path(f"/proc/net/{name}").read_text().splitlines()[1:]:
            fields = line.split()
            waiting += fields[3] == "0A" and f"socket:[{fields[9]}]" in ends
    named = [it for it in Path("/proc/net/unix").read_text().split() if "tsb" in it]
    is_deaf = signal.SIGINT in signal.pthread_sigmask(signal.SIG_BLOCK, ())
    return pd.DataFrame({"heard": [waiting + len(named)], "is_deaf": [is_deaf]})


def test_nobody_else_hears_a_sweep(
    plans: list[Path], days: list[Path], tmp_path: Path
) -> None:
    table = sweep(plans[:1], days, [heard], **HOURS)
    assert list(table["heard"]) == [0, 0] and list(table["is_deaf"]) == [True, True]


def dies(events: pd.DataFrame, plan: Plan) -> pd.DataFrame:
    """A measure that ends its process, for a plan without a delay of a preempt."""
    if not plan["preemptDelay"]:
        os.kill(os.getpid(), signal.SIGKILL)
    return pd.DataFrame({"events": [len(events)]})


def test_a_run_that_kills_its_process_is_told(
    plans: list[Path], days: list[Path]
) -> None:
    """It is tried three times, and the runs beside it are done."""
    with local(2) as client, pytest.raises(SweepFailed) as failed:
        sweep(plans, days, [dies], client, **HOURS)
    assert set(failed.value.failures.values()) == {"its process died, 3 times"}
    assert all(it.startswith("quad.") for it in failed.value.failures)
    assert list(failed.value.table["plan"]) == ["main_and_oak"] * 2


def test_what_processes_cannot_find(plans: list[Path], days: list[Path]) -> None:
    words = "import sys, tsb.sweep as s\n"
    words += "def mine(events, plan): pass\n"
    words += "s.sweep(sys.argv[1:2], sys.argv[2:3], [mine])\n"
    done = subprocess.run(
        [sys.executable, "-c", words, plans[0], days[0]], capture_output=True
    )
    assert b"Error: mine: write this measure into a module" in done.stderr
    with local(1) as client, pytest.raises(SweepFailed, match="pickle"):
        sweep(plans[:1], days[:1], [lambda events, plan: events], client, **HOURS)


def test_a_file_is_written_through(
    tmp_path: Path, monkeypatch: pytest.MonkeyPatch
) -> None:
    """To the disk before it is renamed, and its name after it."""
    done: list[str] = []
    replace, fsync = os.replace, os.fsync

    def synced(file: int) -> None:
        done.append(Path(f"/proc/self/fd/{file}").resolve().suffix)
        fsync(file)

    def renamed(*words: Any) -> None:
        done.append("renamed")
        replace(*words)

    monkeypatch.setattr(os, "fsync", synced)
    monkeypatch.setattr(os, "replace", renamed)
    kept.write(tmp_path / "table", b"whole")
    assert done == [".part", "renamed", ""]


def writes_slowly(folder: str) -> None:
    """Work that takes a second in the middle of writing a file."""

    def slowly(_file: int) -> None:
        Path(folder, "begun").touch()
        time.sleep(1)

    setattr(os, "fsync", slowly)
    kept.write(Path(folder) / "table", b"whole")


def test_a_file_that_is_being_written_leaves_no_part(tmp_path: Path) -> None:
    """Where its process ends in the middle: it is written to its end."""

    def work() -> None:
        with suppress(OSError):  # (there are no processes any more to try it again)
            list(workers.done(writes_slowly, [(str(tmp_path),)]))

    with local(1) as workers:
        thread = threading.Thread(target=work)
        thread.start()
        until = time.monotonic() + 60
        while not (tmp_path / "begun").exists():
            assert time.monotonic() < until, "it is not written through to the disk"
            time.sleep(0.01)
    thread.join()
    assert {it.name for it in tmp_path.iterdir()} == {"begun", "table"}
    assert (tmp_path / "table").read_bytes() == b"whole"


def test_a_room_that_is_just_made_is_not_left(
    tmp_path: Path, monkeypatch: pytest.MonkeyPatch
) -> None:
    """Ctrl-C as its folder is made comes once it is known that there is one."""
    made = tempfile.mkdtemp

    def interrupted(*words: Any) -> str:
        folder: str = made(*words)
        os.kill(os.getpid(), signal.SIGINT)
        return folder

    monkeypatch.setattr(tempfile, "tempdir", str(tmp_path))
    monkeypatch.setattr(tempfile, "mkdtemp", interrupted)
    with pytest.raises(KeyboardInterrupt), local(1):
        pass
    assert list(tmp_path.iterdir()) == []


@pytest.mark.parametrize("number", [signal.SIGINT, signal.SIGTERM, signal.SIGKILL])
def test_a_sweep_that_is_stopped_leaves_nothing(
    plans: list[Path], days: list[Path], tmp_path: Path, number: signal.Signals
) -> None:
    """Ctrl-C and SIGTERM are a line; and whoever kills it finds the room empty."""
    out, room = tmp_path / "out", tmp_path / "room"
    room.mkdir()
    words = [sys.executable, "-m", "tsb", "sweep", *map(str, plans), "--workers", "2"]
    words += ["--days", *map(str, days), "--begin", "07:00:00", "--device", "7"]
    begun = subprocess.Popen(
        [*words, "--out", str(out)], start_new_session=True, text=True,
        stdout=subprocess.PIPE, stderr=subprocess.PIPE,
        env={**os.environ, "TMPDIR": str(room)},
    )  # fmt: skip
    until = time.monotonic() + 60
    while not list(room.glob("*/*")) and time.monotonic() < until:
        time.sleep(0.01)
    if number == signal.SIGKILL:
        begun.kill()
    else:  # (Ctrl-C goes to all processes of a terminal)
        os.killpg(begun.pid, number)
    said = begun.communicate(timeout=60)[1]
    while list(room.iterdir()) and time.monotonic() < until:
        time.sleep(0.01)
    assert list(room.iterdir()) == [] and list(out.glob(".*")) == []
    if number != signal.SIGKILL:
        assert begun.returncode == 130
        assert said.startswith("stopped: ") and said.count("\n") == 1
        assert "of 4 runs are kept, the same command does the others" in said


def test_words_that_cannot_be(
    plans: list[Path],
    days: list[Path],
    tmp_path: Path,
    capsys: pytest.CaptureFixture[str],
) -> None:
    words = [str(plans[0]), "--days", str(days[0]), "--out"]
    for count in ("-1", "0"):
        with pytest.raises(SystemExit):
            main([*words, str(tmp_path), "--workers", count])
        assert "--workers: invalid" in capsys.readouterr().err
    with pytest.raises(Error, match="-1 processes do nothing"), local(-1):
        pass
    for out, said in (
        (plans[0], "File exists"),
        (plans[0] / "below", "Not a directory"),
        (Path("/proc/tsb"), "No such file"),
    ):
        with pytest.raises(Error, match=f"{out}: {said}"):
            main([*words, str(out)])
    # names part runs in the tables
    other = tmp_path / plans[0].name
    other.write_bytes(plans[1].read_bytes())
    with pytest.raises(Error, match="two plans of one name: .*quad.json: rename one"):
        sweep([plans[0], other], days)
    day = tmp_path / days[0].name
    day.write_bytes(days[1].read_bytes())
    with pytest.raises(Error, match="two days of one name: "):
        sweep(plans, [days[0], day])
