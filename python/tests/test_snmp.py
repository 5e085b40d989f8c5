"""An agent of the bench, asked by Debian's snmpget, snmpwalk and snmpset, and by pull."""

import os
import re
import signal
import socket
import subprocess
import sys
from collections.abc import Iterator
from contextlib import contextmanager
from pathlib import Path

import pytest
from hypothesis import given, settings
from hypothesis import strategies as st
from pyasn1.codec.ber import encoder
from pysnmp.proto import api
from tsb import Bench, Error, Plan
from tsb.__main__ import main
from tsb.exchange import mib, oids, pull, snmp, walk
from tsb.exchange.agent import (
    CLOCK,
    PATTERN_CONTROL,
    PREEMPT_CONTROL,
    TRANSACTION,
    VERIFY_ERROR,
    VERIFY_STATUS,
    Agent,
    Fault,
    Refusal,
)
from tsb.exchange.forms import Value
from tsb.exchange.messages import MOST, V1, V2C, Communities, answer, reply, request
from tsb.exchange.objects import ASC, TIME

ROOT = ".1.3.6.1.4.1.1206.4.2.1"
TIMES = ".1.3.6.1.4.1.1206.4.2.6.3"
GREEN = (*ASC, 1, 2, 1, 4)
YELLOW = (*ASC, 1, 2, 1, 8)
KNOWN = Communities(b"reader", b"writer")


@contextmanager
def served(plan: Path, folder: Path, *words: str) -> Iterator[str]:
    """An agent in a process of its own: where it listens."""
    (folder / "communities").write_text("reader\nwriter\n")
    more = ["--communities", str(folder / "communities"), *words]
    process = subprocess.Popen(
        [sys.executable, "-m", "tsb", "snmp", str(plan), *more], text=True,
        stdout=subprocess.PIPE, stderr=subprocess.PIPE,
    )  # fmt: skip
    assert process.stdout is not None
    line = process.stdout.readline()
    found = re.fullmatch(rf"(?:UNPROVED: )?{plan}: SNMP at (127\.0\.0\.1:\d+)\n", line)
    assert found is not None, (line, process.communicate())
    try:
        yield found[1]
    finally:
        process.send_signal(signal.SIGINT)
        assert process.communicate(timeout=60) == ("", "")
        assert process.returncode == 0


@pytest.fixture(scope="module")
def names(tmp_path_factory: pytest.TempPathFactory) -> Path:
    """A folder with the MIB file."""
    folder = tmp_path_factory.mktemp("mib")
    (folder / f"{mib.NAME}.txt").write_text(mib.text())
    return folder


def tool(name: str, at: str, *words: str, version: str = "1") -> str:
    """What one of Debian's tools prints, whatever its status."""
    community = "writer" if name == "snmpset" else "reader"
    done = subprocess.run(
        [name, f"-v{version}", "-c", community, "-r", "0", "-t", "20", *words[:-1], at,
         *words[-1].split(" ")],
        capture_output=True, text=True, env={**os.environ, "MIBS": ""}, check=False,
    )  # fmt: skip
    # (a machine's first tool says which folders it makes)
    lines = (done.stdout + done.stderr).splitlines(keepends=True)
    return "".join(it for it in lines if not it.startswith("Created directory: "))


def walked_by(name: str, at: str, version: str = "1") -> str:
    """A walk of all that a plan has: of actuated controllers, and of their time."""
    texts = (tool(name, at, "-On", it, version=version) for it in (ROOT, TIMES))
    lines = "".join(texts).splitlines(keepends=True)
    return "".join(it for it in lines if it[:-1] != walk.END and walk.PAST not in it)


def test_tools_on_an_agent(examples: Path, tmp_path: Path, names: Path) -> None:
    """A walk, values by name, values set, refusals, and a transaction."""
    with served(examples / "main_and_oak.json", tmp_path, "--speed", "0") as at:
        _walked(at, examples, tmp_path)
        _named(at, names)
        _transacted(at, names)


def _walked(at: str, examples: Path, folder: Path) -> None:
    """A walk has the very lines of `oids`, and is read back as the plan."""
    plan = Plan.read(examples / "main_and_oak.json")
    text = walked_by("snmpwalk", at)
    walked = text.splitlines()
    lines = list(oids.lines_of(plan))
    assert [it for it in walked if it in set(lines)] == lines
    (folder / "walk.txt").write_text(text)
    out = folder / "again.json"
    assert main(["plan", str(folder / "walk.txt"), "--out", str(out)]) == 0
    assert list(oids.lines_of(Plan.read(out))) == lines
    assert walked_by("snmpbulkwalk", at, version="2c") == text


def _named(at: str, names: Path) -> None:
    """Names of the MIB file, and what is refused: by both versions."""
    by = ["-M", str(names), "-m", mib.NAME]

    def got(*what: str) -> list[str]:
        given_names = " ".join(f"{mib.NAME}::{it}" for it in what)
        return tool("snmpget", at, *by, given_names).splitlines()

    def put(what: str, version: str = "1") -> str:
        return tool("snmpset", at, *by, f"{mib.NAME}::{what}", version=version)

    assert got("phaseMinimumGreen.2", "splitMode.1.2", "coordForceMode.0") == [
        f"{mib.NAME}::phaseMinimumGreen.2 = INTEGER: 10",
        f"{mib.NAME}::splitMode.1.2 = INTEGER: none(2)",
        f"{mib.NAME}::coordForceMode.0 = INTEGER: fixed(3)",
    ]
    assert put("phaseMinimumGreen.2 i 8") == f"{mib.NAME}::phaseMinimumGreen.2 = INTEGER: 8\n"
    for what, one, two in (
        ("phaseMinimumGreen.17 i 8", "noSuchName", "notWritable"),
        ("phaseMinimumGreen.2 i 256", "badValue", "wrongValue"),
        ("phaseYellowChange.2 i 20", "genError", "genError"),
        ("phaseOptions.2 i 4097", "badValue", "wrongValue"),
        ("phaseStatusGroupReds.1 i 1", "noSuchName", "notWritable"),
        ("systemPatternControl.0 i 2", "genError", "genError"),
        ("systemPatternControl.0 i 255", "badValue", "wrongValue"),
        ("preemptControlState.1 i 2", "badValue", "wrongValue"),
        ("dbVerifyStatus.0 i 1", "noSuchName", "notWritable"),
    ):
        said = [put(what, it) for it in ("1", "2c")]
        assert [one in said[0], two in said[1]] == [True, True], (what, said)
    # (with the MIB file snmpset does not send these)
    for value in ("i -1", "s 8", "a 127.0.0.1", "o .1.3", "n none"):
        assert "badValue" in tool("snmpset", at, f"{ROOT}.1.2.1.4.2 {value}")
    assert got("phaseMinimumGreen.2", "phaseYellowChange.2") == [
        f"{mib.NAME}::phaseMinimumGreen.2 = INTEGER: 8",
        f"{mib.NAME}::phaseYellowChange.2 = INTEGER: 40",
    ]
    assert "noSuchName" in tool("snmpget", at, f"{ROOT}.1.2.1.4.17")
    assert "No Such Instance" in tool("snmpget", at, f"{ROOT}.1.2.1.4.17", version="2c")


def _transacted(at: str, names: Path) -> None:
    """The desk's begin, verify, commit and abort."""
    by = ["-M", str(names), "-m", mib.NAME]

    def put(*what: str) -> str:
        return tool("snmpset", at, *by, " ".join(f"{mib.NAME}::{it}" for it in what))

    def state() -> list[str]:
        of = ("dbCreateTransaction.0", "dbVerifyStatus.0", "dbVerifyError.0")
        told = tool("snmpget", at, *by, " ".join(f"{mib.NAME}::{it}" for it in of))
        return [it.partition(" = ")[2] for it in told.splitlines()]

    assert state() == ["INTEGER: normal(1)", "INTEGER: notDone(1)", '""']
    assert "badValue" in put("dbCreateTransaction.0 i 3")
    put("dbCreateTransaction.0 i 2")
    assert state()[0] == "INTEGER: transaction(2)"
    put("phaseYellowChange.2 i 20", "phaseYellowChange.6 i 45")
    put("dbCreateTransaction.0 i 3")
    assert state() == ["INTEGER: done(6)", "INTEGER: doneWithError(2)", 'STRING: "rule K8"']
    assert "genError" in put("phaseYellowChange.2 i 45")
    put("dbCreateTransaction.0 i 2")
    put("phaseYellowChange.2 i 45")
    put("dbCreateTransaction.0 i 3")
    assert state()[1] == "INTEGER: doneWithNoError(3)"
    assert "INTEGER: 40" in tool("snmpget", at, f"{ROOT}.1.2.1.8.2")
    put("dbCreateTransaction.0 i 1")
    assert "INTEGER: 45" in tool("snmpget", at, f"{ROOT}.1.2.1.8.2")
    put("dbCreateTransaction.0 i 2", "phaseYellowChange.2 i 50", "dbCreateTransaction.0 i 1")
    assert "INTEGER: 45" in tool("snmpget", at, f"{ROOT}.1.2.1.8.2")


def test_pull(
    examples: Path, tmp_path: Path, capsys: pytest.CaptureFixture[str]
) -> None:
    """It reads the plan, by either version, and shows no community. What a plan has no
    place for, and what it has, is all that was read."""
    plan = Plan.read(examples / "tee.json")
    (tmp_path / "community").write_text("reader\n")
    with served(examples / "tee.json", tmp_path, "--speed", "0") as at:
        host, port = at.split(":")
        for version in ("1", "2c"):
            out, walked = tmp_path / f"{version}.json", tmp_path / f"{version}.txt"
            words = ["--port", port, "--community", str(tmp_path / "community"),
                     "--version", version, "--walk", str(walked)]  # fmt: skip
            assert main(["pull", host, "--out", str(out), *words]) == 0
            told = capsys.readouterr()
            assert list(oids.lines_of(Plan.read(out))) == list(oids.lines_of(plan))
            assert dict(Plan.read(out)["phaseSide"]) == dict(plan["phaseSide"])
            assert told.out.splitlines()[-1] == "tsb check: plan ok"
            assert "reader" not in told.out + told.err
            assert walked.read_text() == walked_by("snmpwalk", at, version="2c")
        (tmp_path / "wrong").write_text("nobody\n")
        with pytest.MonkeyPatch.context() as patch:
            patch.setattr(pull, "TIMEOUT", 0.1)
            words = ["--port", port, "--community", str(tmp_path / "wrong")]
            assert main(["pull", host, "--out", str(tmp_path / "no.json"), *words]) == 1
        told = capsys.readouterr()
        said = "no answer: is the community right, and the version?"
        assert (told.out, told.err) == ("", f"{host}:{port}: {said}\n")
    assert not (tmp_path / "no.json").exists()


def test_a_schedule_by_tools(
    examples: Path, tmp_path: Path, names: Path, capsys: pytest.CaptureFixture[str]
) -> None:
    """What a schedule is and what it runs: by names, in a transaction, and by a pull. Two
    seconds before 7:00 of a Monday its third action is in force, of the first day plan."""
    by = ["-M", str(names), "-m", mib.NAME]
    name = f"{mib.NAME}::"

    def got(*what: str) -> list[str]:
        told = tool("snmpget", at, *by, " ".join(name + it for it in what))
        return [it.removeprefix(name) for it in told.splitlines()]

    def put(*what: str, version: str = "1") -> str:
        return tool("snmpset", at, *by, " ".join(name + it for it in what), version=version)

    action, date = "dayPlanActionNumberOID", "timeBaseScheduleDate"
    row = f"{ROOT}.5.3.1.1"
    begin = ("--speed", "0", "--from", "2026-11-23 6:59:58")
    with served(examples / "schedule.json", tmp_path, *begin) as at:
        assert got(f"{date}.1", f"{date}.3", f"{action}.1.3", f"{action}.1.4") == [
            f"{date}.1 = Gauge32: 4294967294", f"{date}.3 = Gauge32: 512",
            f"{action}.1.3 = OID: {name}timebaseAscActionNumber.3",
            f"{action}.1.4 = OID: ccitt.0",
        ]  # fmt: skip
        now = ("globalTime.0", "timebaseAscActionStatus.0", "dayPlanStatus.0")
        assert got(*now, "timeBaseScheduleTableStatus.0") == [
            "globalTime.0 = Gauge32: 1795417198", "timebaseAscActionStatus.0 = INTEGER: 3",
            "dayPlanStatus.0 = INTEGER: 1", "timeBaseScheduleTableStatus.0 = INTEGER: 1",
        ]  # fmt: skip
        assert put("globalTime.0 u 1795417200") == f"{name}globalTime.0 = Gauge32: 1795417200\n"
        assert got(*now[:2])[1] == "timebaseAscActionStatus.0 = INTEGER: 1"
        for what, one, two in (
            (f"{action}.1.4 o .1.3", "badValue", "wrongValue"),
            (f"{action}.1.4 o {row}.33", "badValue", "wrongValue"),
            (f"{action}.1.4 o {row}.4", "genError", "genError"),
            (f"{action}.1.17 o {row}.1", "noSuchName", "notWritable"),
            (f"{date}.33 u 8", "noSuchName", "notWritable"),
            ("timeBaseScheduleMonth.33 i 8", "noSuchName", "notWritable"),
            ("timeBaseScheduleDay.1 i 256", "badValue", "wrongValue"),
            ("timebaseAscPattern.1 i 255", "badValue", "wrongValue"),
            ("timebaseAscPattern.1 i 0", "genError", "genError"),
            ("globalTime.0 u 5", "badValue", "wrongValue"),
            ("dayPlanStatus.0 i 1", "noSuchName", "notWritable"),
        ):
            said = [put(what, version=it) for it in ("1", "2c")]
            assert [one in said[0], two in said[1]] == [True, True], (what, said)
        # (with the MIB file snmpset does not send this)
        assert "badValue" in tool("snmpset", at, f"{TIMES}.3.5.1.5.1.4 i 3")
        put("dbCreateTransaction.0 i 2")
        put(f"{action}.1.4 o {row}.2", "dayPlanHour.1.4 i 22", f"{date}.3 u 2147483650")
        assert got(f"{action}.1.4")[0].endswith("ccitt.0")
        put("dbCreateTransaction.0 i 3")
        assert got("dbVerifyStatus.0")[0].endswith("doneWithNoError(3)")
        put("dbCreateTransaction.0 i 1")
        assert got(f"{action}.1.4", "dayPlanHour.1.4", f"{date}.3") == [
            f"{action}.1.4 = OID: {name}timebaseAscActionNumber.2",
            "dayPlanHour.1.4 = INTEGER: 22", f"{date}.3 = Gauge32: 2147483650",
        ]  # fmt: skip
        put(f"{date}.3 i -2147483646")
        assert got(f"{date}.3") == [f"{date}.3 = Gauge32: 2147483650"]
        (tmp_path / "community").write_text("reader\n")
        host, port = at.split(":")
        words = ["--port", port, "--community", str(tmp_path / "community")]
        out = tmp_path / "again.json"
        assert main(["pull", host, "--out", str(out), *words]) == 0
    told = capsys.readouterr().out.splitlines()
    assert "globalTime = Gauge32: 1795417200: it is a status, and no part of a plan" in [
        it.partition(": ")[2] for it in told
    ]
    plan = Plan.read(examples / "schedule.json")
    assert [str(it) for it in plan.diff(Plan.read(out))][1:] == [
        "timeBaseScheduleDate.3 (half 1, entry 3): 512 -> 2",
        "timeBaseScheduleDate.35 (half 2, entry 3): 0 -> 32768",
        "dayPlanHour.4 (day plan 1, event 4): 0 -> 22",
        "dayPlanActionNumber.4 (day plan 1, event 4): 0 -> 2",
    ]


def test_nobody_is_there(
    tmp_path: Path, capsys: pytest.CaptureFixture[str]
) -> None:
    """One line says so."""
    with socket.socket(socket.AF_INET, socket.SOCK_DGRAM) as taken:
        taken.bind(("127.0.0.1", 0))
        port = str(taken.getsockname()[1])
    words = ["127.0.0.1", "--out", str(tmp_path / "plan.json"), "--port", port]
    assert main(["pull", *words]) == 1
    assert capsys.readouterr().err == f"127.0.0.1:{port}: nobody answers at this port\n"
    (tmp_path / "plan.json").touch()
    assert main(["pull", *words]) == 1
    assert "there is such a file" in capsys.readouterr().err


def test_time_by_the_clock(examples: Path, tmp_path: Path) -> None:
    """A hundred times as fast as the clock: greens change within seconds. Without a car
    only phase 2 of the built-in plan's kind comes and goes with phase 4."""
    with served(examples / "two.json", tmp_path, "--speed", "100") as at:
        greens = set()
        for _ in range(200):
            greens.add(tool("snmpget", at, f"{ROOT}.1.4.1.4.1").strip()[-1])
            if {"2", "8"} <= greens:
                break
    assert {"2", "8"} <= greens


# The agent by itself


@pytest.fixture
def agent(examples: Path) -> Iterator[Agent]:
    """An agent on a bench."""
    with Bench(examples / "quad.json", events=False) as bench:
        yield Agent(bench)


def test_status_groups(agent: Agent) -> None:
    """At tick 1 phases 2 and 6 are green, without a walk; at tick 51 nothing has ended
    them, as nobody is there. A pattern runs from the tick after its selection on."""
    agent.step(1)

    def group(number: int, of: int = 1) -> object:
        return agent.get((*ASC, 1, 4, 1, number, of))

    assert [group(2), group(3), group(4)] == [0b11011101, 0, 0b00100010]
    assert [group(5), group(6), group(7), group(10)] == [2, 0, 0, 0b00100010]
    assert group(4, 2) == 0 and agent.get((*ASC, 9, 4, 1, 4, 1)) == 1
    assert agent.get((*ASC, 4, 10, 0)) == 254 and agent.get((*ASC, 4, 11, 0)) == 3
    assert agent.get((*ASC, 4, 12, 0)) == 0 and agent.get((*ASC, 3, 6, 0)) == 2
    assert agent.get((*ASC, 6, 2, 1, 16, 1)) == 2
    assert agent.set([(PATTERN_CONTROL, 1), ((*PREEMPT_CONTROL, 1), 1)]) is None
    assert agent.get(PATTERN_CONTROL) == 1 and agent.get((*PREEMPT_CONTROL, 1)) == 1
    agent.step(1)
    assert agent.get((*ASC, 4, 10, 0)) == 1
    assert agent.get((*ASC, 6, 2, 1, 16, 1)) == 4
    cycle, passed = agent.get((*ASC, 4, 7, 1, 2, 1)), agent.get((*ASC, 4, 12, 0))
    assert isinstance(cycle, int) and isinstance(passed, int) and 0 <= passed <= cycle
    assert agent.set([(PATTERN_CONTROL, 254), ((*PREEMPT_CONTROL, 1), 0)]) is None
    agent.step(1)
    assert agent.get((*ASC, 4, 10, 0)) == 254 and agent.get((*PREEMPT_CONTROL, 1)) == 0


def test_what_a_schedule_runs(examples: Path) -> None:
    """Nothing without a clock. With one the action in force selects its pattern in the
    tick with which its minute begins; on the 9th of December, a Wednesday, the third entry holds. A
    clock that was set is taken back with what else of its request is refused."""
    rows = [(*ASC, 5, 4, 0), (*TIME, 3, 6, 0), (*TIME, 3, 7, 0), (*ASC, 4, 10, 0)]
    eve = 1796860799  # 2026-12-09 23:59:59
    with Bench(examples / "schedule.json", events=False) as bench:
        agent = Agent(bench)

        def now() -> list[Value | None]:
            return [agent.get(it) for it in rows]

        agent.step(1)
        assert agent.get(CLOCK) == 0 and now() == [0, 0, 0, 254]
        assert agent.set([(CLOCK, eve - 86400 + 25_200)]) is None  # 6:59:59 of that day
        agent.step(1)
        assert agent.get(CLOCK) == eve - 86400 + 25_200 and now() == [3, 2, 3, 254]
        assert agent.set([(CLOCK, eve - 86400), ((*GREEN, 2), 300)]) == Refusal(
            Fault.BAD_VALUE, 2
        )
        assert agent.get(CLOCK) == eve - 86400 + 25_200
        assert agent.set([(CLOCK, eve)]) is None
        agent.step(10)
        assert now() == [3, 1, 1, 254]  # midnight: Thursday
        assert agent.set([(CLOCK, eve + 25_200)]) is None
        agent.step(9)
        assert now() == [3, 1, 1, 254]
        agent.step(1)
        assert now() == [1, 1, 1, 1] and agent.get(CLOCK) == eve + 25_201
        none: list[Value] = [0, 946_684_799, 4_102_444_800, -1, 1 << 32, b"", (1, 3)]
        for bad in none:
            assert agent.set([(CLOCK, bad)]) == Refusal(Fault.BAD_VALUE, 1)
        for fine in (946_684_800, 4_102_444_799):  # from 2000 to the end of 2099
            assert agent.set([(CLOCK, fine)]) is None and agent.get(CLOCK) == fine


@pytest.mark.parametrize(
    ("values", "refusal"),
    [
        ([((*GREEN, 2), 9), ((*GREEN, 4), 9)], None),
        ([((*GREEN, 2), 9), ((*GREEN, 4), 300)], Refusal(Fault.BAD_VALUE, 2)),
        ([((*GREEN, 2), 9), ((*GREEN, 99), 9)], Refusal(Fault.NO_SUCH_NAME, 2)),
        ([((*GREEN, 2), 9), ((*YELLOW, 2), 20)], Refusal(Fault.GENERAL, 1)),
        ([(PATTERN_CONTROL, 1), ((*GREEN, 4), 300)], Refusal(Fault.BAD_VALUE, 2)),
        ([(TRANSACTION, 2), ((*GREEN, 4), 300)], Refusal(Fault.BAD_VALUE, 2)),
        ([((*ASC, 4, 9, 1, 3, 1, 17), 9)], Refusal(Fault.NO_SUCH_NAME, 1)),
        ([((*ASC, 7, 3, 1, 3, 1, 3), b"\x01")], Refusal(Fault.NO_SUCH_NAME, 1)),
        ([((1, 3, 6), 1)], Refusal(Fault.NO_SUCH_NAME, 1)),
        ([((*GREEN, 2), 2**40)], Refusal(Fault.BAD_VALUE, 1)),
        ([((*ASC, 1, 2, 1, 23, 1), b"\x11")], Refusal(Fault.BAD_VALUE, 1)),
        ([((*ASC, 1, 2, 1, 23, 1), 5)], Refusal(Fault.BAD_VALUE, 1)),
        ([(VERIFY_ERROR, b""), (VERIFY_STATUS, 1)], Refusal(Fault.NO_SUCH_NAME, 1)),
        ([(TRANSACTION, b"")], Refusal(Fault.BAD_VALUE, 1)),
    ],
)
def test_all_values_of_a_request_or_none(
    agent: Agent, values: list[tuple[tuple[int, ...], int | bytes]], refusal: Refusal | None
) -> None:
    """What is refused has changed nothing: not the plan, the pattern or the desk."""
    agent.step(30)
    names = [oid for oid, _ in values if agent.get(oid) is not None]
    before = [agent.get(it) for it in (*names, TRANSACTION, PATTERN_CONTROL)]
    assert agent.set(values) == refusal
    after = [agent.get(it) for it in (*names, TRANSACTION, PATTERN_CONTROL)]
    assert (before == after) == (refusal is not None)
    # The desk is nobody's: a transaction can begin and end.
    assert agent.set([(TRANSACTION, 2), (TRANSACTION, 1)]) is None


def test_a_structure_that_is_in_service(agent: Agent) -> None:
    """A commit that the bench refuses leaves the transaction as it was; it can be taken
    back to its edits, and ended without a check."""
    agent.step(1)
    overlap = (*ASC, 9, 2, 1, 3, 1)
    assert agent.set([(overlap, b"\x08")]) == Refusal(Fault.GENERAL, 1)
    assert agent.set([(TRANSACTION, 2), (overlap, b"\x08"), (TRANSACTION, 3)]) is None
    assert [agent.get(TRANSACTION), agent.get(VERIFY_STATUS)] == [6, 3]
    assert agent.set([(TRANSACTION, 1)]) == Refusal(Fault.GENERAL, 1)
    assert agent.get(TRANSACTION) == 6
    assert agent.set([(TRANSACTION, 2), (TRANSACTION, 2), (TRANSACTION, 1)]) is None
    assert agent.set([(TRANSACTION, 1)]) is None and agent.get(TRANSACTION) == 1


def test_a_plan_that_breaks_a_rule_is_dropped(agent: Agent) -> None:
    """To end a transaction that was found wrong drops its edits."""
    assert agent.set([(TRANSACTION, 2), ((*YELLOW, 2), 20), (TRANSACTION, 3)]) is None
    assert agent.get(VERIFY_ERROR) == b"rule K8" and agent.get(VERIFY_STATUS) == 2
    assert agent.set([(TRANSACTION, 1)]) is None
    assert agent.get((*YELLOW, 2)) == 30 and agent.get(VERIFY_ERROR) == b""


# Messages


def test_what_has_no_answer(agent: Agent) -> None:
    """Another community, another version, no request, and no message."""
    oid = (*GREEN, 2)
    fine = request("GetRequestPDU", V1, b"reader", 7, [oid])
    told = answer(agent, fine, KNOWN)
    assert told is not None and reply(told).values[0][:2] == (oid, 5)
    assert answer(agent, request("GetRequestPDU", V1, b"writer", 7, [oid]), KNOWN)
    for bad in (
        request("GetRequestPDU", V1, b"nobody", 7, [oid]),
        request("SetRequestPDU", V1, b"reader", 7, [oid]),
        fine.replace(b"\x02\x01\x00\x04", b"\x02\x01\x03\x04", 1),
        told.replace(b"writer", b"reader"),
        b"",
        fine[:-3],
    ):
        assert answer(agent, bad, KNOWN) is None


def test_too_many_values(agent: Agent) -> None:
    """A request of more than there may be in one is too big."""
    oid = (*GREEN, 2)
    for count in (MOST, MOST + 1):
        told = answer(agent, request("GetRequestPDU", V2C, b"reader", 7, [oid] * count), KNOWN)
        assert told is not None
        assert (reply(told).error, len(reply(told).values)) == (
            (0, MOST) if count == MOST else (1, 0)
        )


@settings(max_examples=300, deadline=None, database=None, derandomize=True)
@given(st.data())
def test_any_bytes(data: st.DataObject) -> None:
    """Whatever comes in, there is an answer or none; a bench is asked nothing that it
    does not know."""
    kinds = ["GetRequestPDU", "GetNextRequestPDU"]
    version = data.draw(st.sampled_from([V1, V2C]))
    oid = (1, 3, *data.draw(st.lists(st.integers(0, 2**32 - 1), max_size=6)))
    fine = request(data.draw(st.sampled_from(kinds)), version, b"reader", 7, [oid])
    cut = data.draw(st.integers(0, len(fine)))
    more = data.draw(st.binary(max_size=20))
    for it in (fine[:cut] + more + fine[cut + len(more) :], more, fine + more):
        told = answer(Nothing(), it, KNOWN)
        assert told is None or reply(told).request is not None


class Nothing(Agent):
    """An agent that has no value."""

    def __init__(self) -> None:
        self._oids = []

    def get(self, oid: tuple[int, ...]) -> None:
        """None."""


def test_bulk_requests(agent: Agent) -> None:
    """The next one of the first values, and so many turns of the others, until there is
    no more room or nothing more."""
    module = api.protoModules[V2C]

    def asked(once: int, turns: int, *oids_asked: tuple[int, ...]) -> list[object]:
        pdu = module.GetBulkRequestPDU()
        module.apiBulkPDU.setDefaults(pdu)
        module.apiBulkPDU.setNonRepeaters(pdu, once)
        module.apiBulkPDU.setMaxRepetitions(pdu, turns)
        module.apiBulkPDU.setVarBinds(pdu, [(it, module.Null("")) for it in oids_asked])
        message = module.Message()
        module.apiMessage.setDefaults(message)
        module.apiMessage.setCommunity(message, b"reader")
        module.apiMessage.setPDU(message, pdu)
        told = answer(agent, bytes(encoder.encode(message)), KNOWN)
        assert told is not None
        return [oid for oid, _, _ in reply(told).values]

    first, second = (*GREEN, 2), (*YELLOW, 5)
    assert asked(1, 2, first, second) == [(*GREEN, 3), (*YELLOW, 6), (*YELLOW, 7)]
    assert asked(0, 2, first, second) == [
        (*GREEN, 3), (*YELLOW, 6), (*GREEN, 4), (*YELLOW, 7),
    ]  # fmt: skip
    assert len(asked(0, 10_000, first)) == MOST
    last = (*TIME, 3, 7, 0)
    assert asked(0, 10, (*TIME, 3, 6, 0)) == [last] and asked(0, 10, last) == []
    assert asked(5, 10, first) == [(*GREEN, 3)]
    assert asked(0, 0, first) == []


@pytest.mark.parametrize(
    ("text", "said"),
    [
        ("one\n", "it has two lines, a community of 1 to 255 bytes in each"),
        ("one\n\n", "it has two lines, a community of 1 to 255 bytes in each"),
        ("secret\n" + "x" * 256, "it has two lines, a community of 1 to 255 bytes in each"),
        ("x" * 2000, "too large: over 0 MiB"),
    ],
)
def test_files_of_communities(text: str, said: str, tmp_path: Path) -> None:
    """An error has no text of the file."""
    path = tmp_path / "communities"
    path.write_text(text)
    with pytest.raises(Error) as fault:
        snmp.communities(path)
    assert str(fault.value) == f"{path}: {said}"
    path.write_text("")
    with pytest.raises(Error, match="no community in its first line"):
        pull.community(path)


@pytest.mark.parametrize(
    "words", [["--speed", "-1"], ["--speed", "nan"], ["--ticks", "-1"], ["--port", "70000"]]
)
def test_bad_words(words: list[str], examples: Path) -> None:
    """They are named."""
    done = subprocess.run(
        [sys.executable, "-m", "tsb", "snmp", str(examples / "two.json"), *words],
        capture_output=True, text=True,
    )  # fmt: skip
    assert done.returncode == 2 and words[0] in done.stderr


def test_a_schedule_without_a_clock(examples: Path) -> None:
    """A line says that it does not act; and a time that is none is named."""
    words = [sys.executable, "-m", "tsb", "snmp", "schedule.json", "--speed", "0"]
    with subprocess.Popen(
        words, cwd=examples, text=True, stdout=subprocess.PIPE, stderr=subprocess.PIPE
    ) as process:
        assert process.stdout is not None
        assert "SNMP at" in process.stdout.readline()
        process.send_signal(signal.SIGINT)
        assert process.communicate(timeout=60)[1] == f"schedule.json: {snmp.NO_CLOCK}\n"
    done = subprocess.run(
        [*words, "--from", "7:00"], cwd=examples, capture_output=True, text=True
    )
    assert done.returncode == 1 and done.stderr.startswith("7:00: a clock is set to a day")


def test_plans_that_are_refused(examples: Path) -> None:
    """One line, with the file's name."""
    done = subprocess.run(
        [sys.executable, "-m", "tsb", "snmp", "two_short_yellow.json"], cwd=examples,
        capture_output=True, text=True,
    )  # fmt: skip
    assert done.returncode == 1 and done.stderr.count("\n") == 1
    assert done.stderr.startswith("two_short_yellow.json: plan: rule K8: ")
