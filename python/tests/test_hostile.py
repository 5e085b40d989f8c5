"""What a hostile hand gives: files without an end, names with controls, long lines."""

import os
import resource
import subprocess
import sys
import threading
from pathlib import Path
from typing import Any

import numpy as np
import pandas as pd
import pytest
import tsb
from tsb import Bench, Error, Log, Plan, files, frames, measures
from tsb.panel.keep import COMMANDS, LOG, PLAN, Keep
from tsb.panel.layout import Layout
from tsb.panel.requests import BadRequest, given_of
from tsb.sumo import command, crossroads
from tsb.sumo.mapping import Mapping
from tsb.tasks import recorded


def limited(call: str, *words: object) -> str:
    """What a call says that has 2 GB of memory."""
    code = f"import sys, resource, tsb; from tsb import *; from tsb import frames\n{call}"

    def limit() -> None:
        resource.setrlimit(resource.RLIMIT_AS, (2 << 30, 2 << 30))

    done = subprocess.run(
        [sys.executable, "-c", code, *map(str, words)], preexec_fn=limit,
        capture_output=True, text=True, timeout=60,
    )  # fmt: skip
    return done.stderr.splitlines()[-1] if done.stderr else ""


@pytest.mark.parametrize(
    "call, said",
    [
        ("Bench(sys.argv[1], '/dev/zero')", "tsb.errors.LogFault: log: too large"),
        ("Plan.read('/dev/zero')", "tsb.errors.PlanFault: plan: too large"),
        ("frames.read_export('/dev/zero')", "tsb.errors.Error: /dev/zero: it has a byte 0"),
    ],
)  # fmt: skip
def test_files_without_an_end(examples: Path, call: str, said: str) -> None:
    assert limited(call, examples / "quad.json").startswith(said)


def test_files_that_are_too_large(tmp_path: Path) -> None:
    path = tmp_path / "some"
    path.write_bytes(bytes(20))
    assert files.read(path, 20) == bytes(20)
    with pytest.raises(Error, match="some: too large: over 0 MiB"):
        files.read(path, 19)
    assert len(files.up_to(path, 9)) == 10
    with path.open("ab") as file:
        file.truncate((1 << 30) + 1)
    assert "Error: " in limited(f"frames.log_of_export({str(path)!r}, '2026-11-22')")
    with pytest.raises(tsb.PlanFault, match="plan: too large"):
        Plan.of_text(" " * (1 << 20) + "{}")
    assert Plan.of_text(b'{"version": 2}'.ljust(1 << 20)).version == 2
    text = tmp_path / "mapping.json"
    text.write_text(" " * (1 << 20) + "{}")
    with pytest.raises(Error, match="mapping.json: too large"):
        Mapping.read(text)
    text.write_text("[" * 100_000)
    with pytest.raises(Error, match="mapping.json: not JSON"):
        Mapping.read(text)
    with pytest.raises(Error, match="over 64 KiB"):
        Layout.read(path)


def test_names_are_shown_without_controls(tmp_path: Path) -> None:
    path = tmp_path / "p.json"
    for name, told in (
        ("x\\nplan ok\\nphaseWalk", "x?plan ok?phaseWalk"),
        ("\\u001b[31mRED", "?[31mRED"),
        ("\\u009b2J", "?2J"),
        ("\\u202eabc", "?abc"),
        ("\\u2028x", "?x"),
        ("caf\u00e9", "caf\u00e9"),
    ):
        path.write_text('{"version": 2, "' + name + '": {}}', encoding="utf-8")
        with pytest.raises(Error) as read:
            Plan.read(path)
        assert str(read.value).endswith(f"no object {told}")
        with pytest.raises(tsb.PlanFault) as fault:
            Bench(path)
        assert fault.value.line.isprintable() and "\n" not in fault.value.line
    assert str(Error("two\nlines\x1b[0m")) == "two\nlines?[0m"
    words = [sys.executable, "-m", "tsb", "sweep", "a\x1b[31m\nb.json", "--days", "c"]
    done = subprocess.run([*words, "--out", tmp_path / "out"], capture_output=True)
    assert done.returncode == 1 and b"\x1b" not in done.stderr


HEADER = "DeviceId,Timestamp,EventId,Parameter\n"


def test_no_event_is_dropped_without_a_word(tmp_path: Path) -> None:
    path = tmp_path / "e.csv"
    rows = ["7,2026-11-22 07:00:00.0,1,2", "7,2026-11-22 07:00:05.0,7,x"]
    path.write_text(HEADER + "\n".join(rows) + "\n")
    with pytest.warns(UserWarning) as told:
        found = frames.read_export(path)
    assert len(found) == 1 and [str(it.message) for it in told] == [
        "left out: 1 row whose parameter is no whole number, first line 3: 'x'"
    ]
    path.write_text(HEADER + "\n".join([*rows, rows[1].replace("x", "\x1b")]) + "\n")
    with pytest.warns(UserWarning, match="left out: 2 rows whose parameter is no"):
        frames.read_export(path)


def test_a_preempt_that_no_plan_has(examples: Path) -> None:
    """Its service is there, and has no phases to wait for."""
    events = pd.DataFrame(
        [(10, 102, 99999), (20, 105, 99999), (20, 1, 4), (30, 105, 0)],
        columns=["tick", "code", "parameter"],
    )
    found = measures.preempts(events, Plan.read(examples / "main_and_oak.json"))
    assert list(found["preempt"]) == [99999, 0] and found["green"].isna().all()


def test_long_lines_and_odd_ones(examples: Path) -> None:
    with Bench(examples / "quad.json") as bench:
        watch = threading.Timer(60, bench.kill)  # (one that waits for ever ends so)
        watch.start()
        for line in ("begin " + "1" * 200_000, "begin \ud800", "begin \u0661"):
            with pytest.raises(tsb.BadCommand):
                bench.give(line)
        for count in (1.5, True, "3", None, np.float64(2)):
            for call in (bench.step, bench.changes, bench.back, bench.seek):
                with pytest.raises(tsb.OutOfRange, match="as a whole number; a"):
                    call(count)  # type: ignore[operator]
        for on in (4, ["a"], [1.5], [None]):
            with pytest.raises(tsb.OutOfRange, match="give the numbers of .* list, as"):
                bench.tick(vehicles=on)  # type: ignore[arg-type]
        for row in (1, None, b"0001000000000000 00000000 0000"):
            with pytest.raises(tsb.OutOfRange, match="is no row: "):
                bench.ticks([row])  # type: ignore[list-item]
        assert bench.now == 0
        assert len(bench.step(np.int64(3))) == 3 and bench.now == 3  # type: ignore
        watch.cancel()


def test_many_open_files(examples: Path) -> None:
    """A bench goes on above the files that `select` can have."""
    soft, hard = resource.getrlimit(resource.RLIMIT_NOFILE)
    if hard < 1500:
        pytest.skip("this machine has too few files")
    resource.setrlimit(resource.RLIMIT_NOFILE, (1500, hard))
    held = [os.open(os.devnull, os.O_RDONLY) for _ in range(1100)]
    try:
        with Bench(examples / "quad.json") as bench:
            assert len(bench.step(5)) == 5
    finally:
        for it in held:
            os.close(it)
        resource.setrlimit(resource.RLIMIT_NOFILE, (soft, hard))


def test_a_name_that_looks_like_an_option(
    examples: Path, tmp_path: Path, monkeypatch: pytest.MonkeyPatch
) -> None:
    monkeypatch.chdir(tmp_path)
    (tmp_path / "-x.json").write_bytes((examples / "quad.json").read_bytes())
    names: list[str | Path] = ["-x.json", "./-x.json", Path("-x.json")]
    for name in names:
        with Bench(name) as bench:
            assert bench.tick().tick == 1
    assert len(recorded("-x.json", Log(), "step 600\n"))


def test_a_run_that_gives_nothing(examples: Path, tmp_path: Path) -> None:
    run = tmp_path / "run"
    run.mkdir()
    (run / PLAN).write_bytes((examples / "quad.json").read_bytes())
    (run / COMMANDS).write_bytes(b"step 3\n")
    os.mkfifo(run / LOG)
    fault: list[Any] = []

    def load() -> None:
        with pytest.raises(Error) as told:
            Keep(tmp_path).load("run")
        fault.append(told.value)

    loader = threading.Thread(target=load, daemon=True)
    loader.start()
    loader.join(10)
    assert fault and str(fault[0]).endswith("run.log: no file as others are")
    (run / LOG).unlink()
    (run / LOG).write_bytes(b"")
    (run / COMMANDS).write_bytes(b"step 3\nbegin " + b"1" * 5000 + b"\n")
    with pytest.raises(Error, match="run.commands, line 2: not a whole number"):
        Keep(tmp_path).load("run")
    with pytest.raises(BadRequest):
        given_of("begin \u0661")


@pytest.mark.parametrize("name", ["../x", "a/b", "..", ".x", "x\n", "/x", "\x1b"])
def test_the_name_of_a_light_leads_nowhere(tmp_path: Path, name: str) -> None:
    with pytest.raises(Error, match="cannot name a file: rename it"):
        command._file(tmp_path, name, ".log")
    assert command._file(tmp_path, "C", ".log") == tmp_path / "C.log"
    text = crossroads.build(tmp_path / "net").text.replace('"C"', f'"{name}"', 1)
    assert '"tls": "C"' not in text


def test_a_run_stays_in_its_folder(
    tmp_path: Path, capsys: pytest.CaptureFixture[str]
) -> None:
    crossroads.build(tmp_path)
    crossroads.demand(tmp_path / "routes.xml", "light", 1, 10)
    crossroads.plan().write(tmp_path / "plan.json")
    for name in ("net.xml", "mapping.json", "detectors.xml"):
        path = tmp_path / name
        text = path.read_text()
        for mark in ('tl="C"', '<tlLogic id="C"', '"tls": "C"'):
            text = text.replace(mark, mark.replace("C", "../../x"))
        path.write_text(text)
    at = [str(tmp_path / it) for it in ("net.xml", "routes.xml")]
    words = [*at, "--plan", str(tmp_path / "plan.json"), "--seconds", "2"]
    words += ["--mapping", str(tmp_path / "mapping.json")]
    words += ["--additional", str(tmp_path / "detectors.xml")]
    before = set(tmp_path.rglob("*"))
    assert command.main([*words, "--out", str(tmp_path / "a/b")]) == 1
    assert "'../../x' cannot name a file" in capsys.readouterr().err
    assert set(tmp_path.rglob("*")) == before
    drafted = ["propose", at[0], "../../x", "--out", str(tmp_path / "a/b")]
    assert command.main(drafted) == 1 and set(tmp_path.rglob("*")) == before


def test_nothing_is_imported_from_the_folder(tmp_path: Path) -> None:
    """`python3 -m tsb` takes what it needs from where it was set up."""
    for name in ("jinja2", "pandas", "numpy"):
        (tmp_path / f"{name}.py").write_text("print('mine')\n")
    words = [sys.executable, "-m", "tsb", "report", "--events-a", "nothing.csv"]
    done = subprocess.run(
        [*words, "--out", "o.html"], cwd=tmp_path, capture_output=True, text=True
    )
    assert "mine" not in done.stdout and "nothing.csv" in done.stderr
