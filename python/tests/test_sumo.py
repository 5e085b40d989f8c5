"""Tests of tsb.sumo on simulations of SUMO, with the programs of the bench."""

import contextlib
import io
import itertools
import json
import re
import signal
import subprocess
import sys
import time
from collections.abc import Callable
from dataclasses import replace
from datetime import datetime
from pathlib import Path
from typing import Any

import pytest

from tsb import (
    Bench,
    Display,
    Error,
    Event,
    NoSuchTick,
    OutOfRange,
    Plan,
    programs,
    seconds,
)
from tsb.sumo import (
    Diverged,
    Intersection,
    Loop,
    Mapping,
    MappingFault,
    NetFault,
    SumoFailed,
    crossroads,
    peers,
    propose,
    read_nema,
    read_trips,
    summary,
)
from tsb.sumo import net as net_module
from tsb.sumo.command import log_of, main
from tsb.sumo.nema import NemaFault, nema_of
from tsb.sumo.net import light, read_net
from tsb.sumo.propose import zones
from tsb.sumo.simulation import binary
from tsb.tasks import recorded

SECONDS = 200
SELECTED = 131


@pytest.fixture(scope="session")
def cars(tmp_path_factory: pytest.TempPathFactory) -> Path:
    """An intersection for cars, with medium traffic of 200 s."""
    folder = tmp_path_factory.mktemp("cars")
    crossroads.build(folder)
    crossroads.demand(folder / "routes.xml", "medium", 1, SECONDS)
    return folder


@pytest.fixture(scope="session")
def walks(tmp_path_factory: pytest.TempPathFactory) -> Path:
    """The same with crossings, with light traffic and people."""
    folder = tmp_path_factory.mktemp("walks")
    crossroads.build(folder, pedestrians=True)
    crossroads.demand(folder / "routes.xml", "light", 1, SECONDS, pedestrians=True)
    return folder


def loop_of(folder: Path, plan: Plan | None = None, **more: object) -> Loop:
    """A loop on a folder, with the free plan."""
    plan = crossroads.plan() if plan is None else plan
    at = Intersection.of(folder / "net.xml", "C", folder / "mapping.json", plan)
    words: Any = {"additional": folder / "detectors.xml", "seed": 1, **more}
    return Loop(folder / "net.xml", folder / "routes.xml", at, **words)


def trips_of(path: Path) -> str:
    """SUMO's file of trips without what it says of when it was made."""
    return re.sub(r"<!--.*?-->", "", path.read_text(), flags=re.S)


# Mappings


def test_a_mapping_reads_what_it_wrote(cars: Path) -> None:
    mapping = Mapping.read(cars / "mapping.json")
    mapping.write(cars / "again.json")
    assert Mapping.read(cars / "again.json") == mapping
    assert json.loads(mapping.text)["phases"]["2"] == [10, 11, 12]


@pytest.mark.parametrize(
    "said, fault",
    [
        ([], "a mapping is an object"),
        ({"phases": {}}, "a mapping is an object"),
        ({"tls": "C", "phase": {}}, "phase: a mapping has no such member"),
        ({"tls": "C", "phases": {"17": [1]}}, "phases.17: 1 to 16"),
        ({"tls": "C", "phases": {"2": "1"}}, "phases.2: not a list of numbers"),
        ({"tls": "C", "channels": {"2": [1]}}, "channels.2: not a list of names"),
        ({"tls": "C", "preempts": {"1": {}}}, 'preempts.1: an object with "classes"'),
    ],
)
def test_a_mapping_names_its_fault(said: object, fault: str) -> None:
    with pytest.raises(MappingFault, match=re.escape(fault)):
        Mapping.of(said)


Change = Callable[[Mapping], Mapping]


@pytest.mark.parametrize(
    "change, fault",
    [
        (lambda it: replace(it, tls="D"), "the mapping is of D, not of C"),
        (lambda it: replace(it, phases={2: (99,)}), "there is no link 99"),
        (lambda it: replace(it, free=(), phases={2: (10,)}), "link 0 has no head"),
        (lambda it: replace(it, overlaps={1: (10,)}), "link 10 is of phases.2"),
        (lambda it: replace(it, buttons={1: (":C_c9",)}), "no crossing :C_c9"),
        (lambda it: replace(it, permissive={9: (10,)}), "phases.9: the plan does not"),
        (lambda it: replace(it, pedestrians={2: ()}), "the plan gives it no walk"),
    ],
)
def test_a_mapping_has_to_fit(cars: Path, change: Change, fault: str) -> None:
    mapping = change(Mapping.read(cars / "mapping.json"))
    with pytest.raises(MappingFault, match=fault):
        Intersection.of(cars / "net.xml", "C", mapping, crossroads.plan())


def test_a_net_without_the_light_names_those_it_has(cars: Path) -> None:
    with pytest.raises(NetFault, match="no traffic light X; it has C"):
        light(cars / "net.xml", "X")


def test_a_detector_that_is_not_there_is_named(cars: Path) -> None:
    mapping = replace(Mapping.read(cars / "mapping.json"), channels={2: ("W9",)})
    at = Intersection.of(cars / "net.xml", "C", mapping, crossroads.plan())
    with pytest.raises(MappingFault, match="channels.2: there is no detector W9"):
        Loop(cars / "net.xml", cars / "routes.xml", at)


@pytest.mark.parametrize("api", ["libsumo", "traci"])
def test_a_step_is_a_tick(cars: Path, api: str) -> None:
    with pytest.raises(MappingFault, match="a step of SUMO is 1.0 s: a tick is 0.1 s"):
        loop_of(cars, options=["--step-length", "1"], api=api)


@pytest.mark.parametrize("api", ["libsumo", "traci"])
def test_a_loop_is_closed_twice(cars: Path, api: str) -> None:
    """The second time does nothing, also after a fault."""
    loop = loop_of(cars, api=api)
    loop.run(3)
    loop.close()
    loop.close()
    with pytest.raises(SumoFailed) as told, loop_of(cars, options=["--no-such"]) as loop:
        loop.run(1)
    assert "no-such" in str(told.value) and "Warning" not in str(told.value)


def test_sumo_that_does_not_start_says_why(cars: Path) -> None:
    at = Intersection.of(cars / "net.xml", "C", cars / "mapping.json")
    words = cars / "net.xml", cars / "no_routes.xml", at
    with pytest.raises(SumoFailed, match="no_routes.xml' is not accessible"):
        Loop(*words, api="libsumo")
    with pytest.raises(SumoFailed, match="SUMO did not start"):
        Loop(*words, api="traci")


def test_states_by_hand(walks: Path) -> None:
    at = Intersection.of(walks / "net.xml", "C", walks / "mapping.json")
    # right turns of 8, 6, 4, 2 are links 0, 3, 7, 10 and yield; crossings are 14 to 17,
    # of phases 6, 4, 2, 8
    shown = Display.of("0000001 RGRRRGRR-------- -W-D-C-D-------- ---- 0 ----")
    assert at.state(shown) == "rrrgGGrrrrgGGrrrGr"
    shown = Display.of("0000001 RRRYGRRG-------- -D-D-D-W-------- ---- 0 ----")
    assert at.state(shown) == "gGrrrrryyrrrrGrrrG"
    shown = Display.of("0000001 FFFFFFFF-------- ---------------- ---- 0 ----")
    assert at.state(shown) == "ssssssssssssssrrrr"


def test_a_link_with_several_heads_by_hand(cars: Path) -> None:
    """(link 6 is protected by phase 1 and goes beside phase 2; link 10 is of overlap 1,
    and link 3 is free)"""
    mapping = Mapping.read(cars / "mapping.json")
    phases = dict(mapping.phases) | {2: (11, 12), 6: (4, 5)}
    changed = replace(
        mapping, phases=phases, permissive={2: (6,)}, overlaps={1: (10,)}, free=(3,)
    )
    at = Intersection.of(cars / "net.xml", "C", changed)
    shown = "0000001 {} ---------------- {}--- 0 ----"
    for heads, overlap, wanted in (
        ("GRRRRRRR", "Y", "rrrgrrGrrryrrr"),
        ("RGRRRGRR", "G", "rrrgGGgrrrGGGr"),
        ("YGRRRGRR", "R", "rrrgGGgrrrrGGr"),
        ("RYRRRGRR", "R", "rrrgGGyrrrryyr"),
    ):
        display = Display.of(shown.format(f"{heads}--------", overlap))
        assert at.state(display) == wanted


def test_trips_by_hand(tmp_path: Path) -> None:
    (tmp_path / "trips.xml").write_text(
        """<tripinfos>
        <tripinfo id="a" vType="car" depart="10.0" departDelay="2.5" departLane="W_far_1"
          arrival="70.0" arrivalLane="E_out_0" duration="60.0" waitingTime="7.0"
          timeLoss="20.0" routeLength="900.0"/>
        <tripinfo id="b" vType="car" depart="50.0" departDelay="0.0" departLane="W_far_0"
          arrival="-1.0" arrivalLane="" duration="9.0" waitingTime="0.0" timeLoss="1.0"
          routeLength="90.0"/>
        <personinfo id="c"><walk depart="5.0" arrival="65.0" duration="60.0"
          routeLength="80.0" timeLoss="9.0"/></personinfo>
        <personinfo id="d"><walk depart="-1.0" arrival="-1.0" duration="-1.0"
          routeLength="-1.0" timeLoss="-1.0"/></personinfo></tripinfos>"""
    )
    trips = read_trips(tmp_path / "trips.xml").set_index("trip")
    assert list(trips.index) == ["a", "b", "c"]
    assert trips.loc["a", "lost"] == 22.5 and trips.loc["a", "from"] == "W_far"
    assert trips.loc["a", "to"] == "E_out" and trips.loc["b", "to"] == ""
    told = summary(trips.reset_index())
    assert list(told.loc["car", ["ended", "under_way", "lost"]]) == [1, 1, 22.5]
    assert told.loc["person", "waiting"] == 9.0
    assert list(summary(trips.reset_index(), begin=6).index) == ["car"]


# The loop


def test_a_loop_is_a_session_on_its_rows(cars: Path, tmp_path: Path) -> None:
    with loop_of(cars) as loop:
        shown = [loop.step()["C"].line for _ in range(1500)]
        log_of(loop.rows("C")).write(tmp_path / "rows.log")
        states, at = loop.states("C"), loop.intersections[0]
    crossroads.plan().write(tmp_path / "plan.json")
    words = ["run", str(tmp_path / "plan.json"), str(tmp_path / "rows.log")]
    done = programs.run("tsb", words, b"step 1500\n")
    assert done.stdout.decode().splitlines() == shown
    assert [at.heads(it) for it in states] == [it[8:16] for it in shown]
    assert len(set(states)) > 5


def scheduled(weekdays: set[int], hour: int, minute: int) -> Plan:
    """The plan whose schedule selects its pattern on these weekdays alone, up to noon."""
    plan = crossroads.plan(pattern=True).wide(3)
    plan["timeBaseScheduleMonth"][1] = range(1, 13)
    plan["timeBaseScheduleDay"][1] = weekdays
    plan["timeBaseScheduleDate"] = {(1, 1): range(1, 16), (2, 1): range(16, 32)}
    plan["timeBaseScheduleDayPlan"] = {1: 1}
    plan["dayPlanHour"], plan["dayPlanMinute"] = {1: hour, 2: 12}, {1: minute}
    plan["dayPlanActionNumber"], plan["timebaseAscPattern"] = {1: 1, 2: 2}, {1: 1, 2: 254}
    return plan


BEFORE_SEVEN = "2026-11-30 06:59:30"  # a Monday


def test_a_schedule_acts_in_a_loop(cars: Path, tmp_path: Path) -> None:
    """At its minute, by the clock of tick 1: so it does in the replay of the rows, in their
    record, and after the way back. A cycle of 110 s with an offset of 44 s is at 76.1 s at
    7:00:00.1, as 252001 - 440 is 228 cycles and 761 tenths."""
    plan, log = scheduled({2}, 7, 0), tmp_path / "rows.log"
    with loop_of(cars, plan, begin=BEFORE_SEVEN) as loop:
        shown = [loop.step()["C"] for _ in range(1500)]
        bench, at = loop.benches["C"], loop.intersections[0]
        events, states, rows = bench.events, loop.states("C"), loop.rows("C")
        loop.back(1400)
        loop.run(200)
        loop.checkpoint()
        loop.run(1200)
        loop.back(1200)
        assert [loop.step()["C"] for _ in range(1200)] == shown[300:]
        assert (loop.states("C"), bench.events) == (states, events)
        loop.seek(0)
        assert bench.time == datetime.fromisoformat(BEFORE_SEVEN)
    assert [it for it in events if it.code == SELECTED] == [Event(300, SELECTED, 1)]
    assert [it.local for it in shown[:300]] == [None] * 300
    assert [it.local for it in shown[300:302]] == [761, 762]
    plan.write(tmp_path / "plan.json")
    log_of(rows).write(log)
    words = ["run", str(tmp_path / "plan.json"), str(log)]
    done = programs.run("tsb", words, f"clock {BEFORE_SEVEN}\nstep 1500\n".encode())
    assert done.stdout.decode().splitlines() == ["ok", *(it.line for it in shown)]
    heads = [at.heads(it) for it in states]
    assert heads == peers.answers(rows, plan, begin=BEFORE_SEVEN)
    assert heads != peers.answers(rows, plan)
    kept = recorded(tmp_path / "plan.json", log_of(rows), "step 1500\n", begin=BEFORE_SEVEN)
    assert [tuple(it) for it in kept.to_numpy().tolist()] == [tuple(it) for it in events]


def test_a_loop_without_a_clock(cars: Path) -> None:
    """Nothing is selected, and its bench is as one of the plan without a schedule. What is
    no time of a clock is refused, and leaves no program."""
    found = []
    for plan in (scheduled({2}, 7, 0), crossroads.plan(pattern=True)):
        with loop_of(cars, plan) as loop:
            loop.run(400)
            bench = loop.benches["C"]
            found.append((loop.rows("C"), loop.states("C"), bench.events))
            assert bench.time is None and bench.given == 0
    assert found[0] == found[1]
    for begin in ("7:00", "1999-12-31 23:59:59"):
        with pytest.raises(OutOfRange):
            loop_of(cars, begin=begin)


def test_trips_are_the_same_after_going_back(cars: Path, tmp_path: Path) -> None:
    def run(name: str, *ways: tuple[str, int]) -> tuple[list[str], list[str], str]:
        trips = tmp_path / f"{name}.xml"
        with loop_of(cars, trips=trips) as loop:
            for way, ticks in ways:
                loop.checkpoint() if way == "keep" else getattr(loop, way)(ticks)
            assert loop.tick == 1400
            told = loop.rows("C"), loop.states("C")
        return *told, trips_of(trips)

    straight = run("straight", ("run", 1400))
    assert straight[2].count("<tripinfo ") > 30
    # a checkpoint that is gone back to three times, over a later one that is lost
    kept = [("run", 500), ("keep", 0), ("run", 400), ("keep", 0), ("run", 300)]
    kept += [("back", 500), ("run", 500), ("back", 600), ("run", 500)]
    assert run("forks", *kept, ("seek", 500), ("run", 900)) == straight
    # and without one, where SUMO is run again from the start
    assert run("again", ("run", 700), ("back", 300), ("run", 1000)) == straight


def test_back_with_another_plan(cars: Path) -> None:
    with loop_of(cars) as loop:
        loop.run(600)
        loop.checkpoint()
        loop.run(800)
        before = loop.rows("C"), loop.states("C")
        loop.back(800)
        with loop.benches["C"].transaction() as edits:
            edits["phaseMaximum1", 2] = edits["phaseMaximum1", 6] = seconds(12)
        loop.run(800)
        after = loop.rows("C"), loop.states("C")
        assert after[0][:600] == before[0][:600] and after[1][:600] == before[1][:600]
        assert after[1] != before[1] and after[0] != before[0]
        loop.seek(600)
        assert loop.benches["C"].undo() == "commit"
        for _ in range(4):  # verify, two sets, begin
            loop.benches["C"].undo()
        loop.run(800)
        assert (loop.rows("C"), loop.states("C")) == before
        with pytest.raises(NoSuchTick):
            loop.back(1401)


def test_a_run_again_that_parts_says_so(cars: Path) -> None:
    with loop_of(cars) as loop:
        loop.run(300)
        for it in loop.call("vehicle.getIDList"):
            loop.call("vehicle.setMaxSpeed", it, 3.0)
        loop.run(700)
        with pytest.raises(Diverged, match="after step"):
            loop.back(100)


def test_traci_reads_what_libsumo_reads(cars: Path) -> None:
    told = []
    for api in ("libsumo", "traci"):
        with loop_of(cars, api=api) as loop:
            loop.run(500)
            told.append((loop.rows("C"), loop.states("C")))
            if api == "traci":
                assert loop.checkpoint() == 500  # (nothing is kept)
                loop.back(200)
                loop.run(200)
                assert (loop.rows("C"), loop.states("C")) == told[-1]
    assert told[0] == told[1] and len(set(told[0][0])) > 5


def test_people_press_and_walk(walks: Path, tmp_path: Path) -> None:
    plan = crossroads.with_pedestrians(crossroads.plan())
    with loop_of(walks, plan, trips=tmp_path / "trips.xml") as loop:
        shown = [loop.step()["C"] for _ in range(10 * SECONDS)]
        rows, states = loop.rows("C"), loop.states("C")
    pressed = {it for row in rows for it in (2, 4, 6, 8) if row[16 + it] == "1"}
    walked = {
        it for at in shown for it in (2, 4, 6, 8) if at.pedestrians[it - 1] == "W"
    }
    assert pressed == walked == {2, 4, 6, 8}
    # the crossing of phase 4 is link 15: it is green for the 7 s of its walk
    walk = [it.pedestrians[3] == "W" for it in shown]
    assert [it[15] == "G" for it in states] == walk and sum(walk) % 70 == 0
    trips = read_trips(tmp_path / "trips.xml")
    done = trips[(trips["kind"] == "person") & (trips["arrival"] >= 0)]
    assert len(done) >= 4 and (done["waiting"] > 0).any()


def test_a_fire_engine_preempts(cars: Path, tmp_path: Path) -> None:
    crossroads.demand(tmp_path / "fire.xml", "medium", 1, SECONDS, engines=60)
    at = Intersection.of(
        cars / "net.xml", "C", cars / "mapping.json", crossroads.plan()
    )
    with Loop(
        cars / "net.xml", tmp_path / "fire.xml", at,
        additional=cars / "detectors.xml", seed=1,
    ) as loop:  # fmt: skip
        shown = [loop.step()["C"] for _ in range(1300)]
        rows = loop.rows("C")
    asked = [row[26] == "1" for row in rows]
    begun = asked.index(True)
    assert 600 <= begun <= 603  # (the first engine comes after 60 s)
    assert shown[begun].preempt == 1
    greens = {it.vehicles[3] + it.vehicles[6] for it in shown if it.preempt == 1}
    assert "GG" in greens  # phases 4 and 7, where it comes from
    assert not all(asked[begun:])


def test_two_intersections_in_one_loop(tmp_path: Path) -> None:
    """(of a net that SUMO made, with the plans that were proposed)"""
    words = "--grid --grid.x-number 2 --grid.y-number 1 --grid.attach-length 200 -L 2"
    words += " --grid.length 250 --turn-lanes 1 --default-junction-type traffic_light"
    words += " --no-turnarounds true -o net.xml"
    subprocess.run(
        [binary("netgenerate"), *words.split()],
        cwd=tmp_path, check=True, capture_output=True,
    )  # fmt: skip
    net, at, files = tmp_path / "net.xml", [], []
    for tls in ("A0", "B0"):
        draft = propose(net, tls)
        at.append(Intersection.of(net, tls, draft.mapping, draft.plan))
        files.append(tmp_path / f"{tls}.xml")
        files[-1].write_text(zones(net, tls))
    flows = [("left0A0", "B0right0"), ("bottom0A0", "A0top0"), ("top1B0", "A0left0")]
    (tmp_path / "routes.xml").write_text(
        "<routes>"
        + "".join(
            f'<flow id="{number}" from="{start}" to="{to}" vehsPerHour="600"'
            ' begin="0" end="100" departSpeed="max"/>'
            for number, (start, to) in enumerate(flows)
        )
        + "</routes>"
    )
    with Loop(
        net, tmp_path / "routes.xml", at,
        additional=files, seed=1, begin="2026-11-30 07:00:00",
    ) as loop:  # fmt: skip
        loop.run(500)
        times = {it: bench.time for it, bench in loop.benches.items()}
        assert times == dict.fromkeys(("A0", "B0"), datetime(2026, 11, 30, 7, 0, 50))
        loop.checkpoint()
        loop.run(300)
        told = [(loop.rows(it), loop.states(it)) for it in ("A0", "B0")]
        assert loop.states("A0") != loop.states("B0")
        assert all(len(set(states)) > 4 for _, states in told)
        loop.back(250)
        loop.run(250)
        assert [(loop.rows(it), loop.states(it)) for it in ("A0", "B0")] == told
        loop.benches["B0"].tick()
        with pytest.raises(Error, match="B0: the bench was at 801"):
            loop.step()


def test_a_row_can_be_changed_before_the_bench_has_it(cars: Path) -> None:
    """(detector 2 has failed, and is on)"""

    def failed(tick: int, tls: str, row: str) -> str:
        return f"{row[0]}1{row[2:]}" if tick > 50 else row

    with loop_of(cars, change=failed) as loop:
        loop.run(200)
        loop.back(50)
        loop.run(50)
        rows = loop.rows("C")
    assert all(row[1] == "1" for row in rows[50:])
    assert any(row[1] == "0" for row in rows[:50])


def test_lead_and_lag(cars: Path) -> None:
    with loop_of(cars, crossroads.lagging()) as loop:
        greens = [it.greens for it in (loop.step()["C"] for _ in range(1600))]
    # in ring 1 the left turn 1 follows 2, in ring 2 the left turn 5 leads 6
    begun = [
        (tick, phase)
        for tick, (a, b) in enumerate(zip(greens, greens[1:], strict=False), 1)
        for phase in b - a
    ]
    order = {ring: [p for _, p in begun if (p > 4) == (ring == 2)] for ring in (1, 2)}
    assert {1, 2, 5, 6} <= {phase for _, phase in begun}
    assert all(order[1][at - 1] == 2 for at, p in enumerate(order[1]) if p == 1 and at)
    assert all(order[2][at + 1] == 6 for at, p in enumerate(order[2][:-1]) if p == 5)


def test_volume_density(cars: Path) -> None:
    with loop_of(cars, crossroads.density()) as loop:
        loop.run(1600)
        rows, states = loop.rows("C"), loop.states("C")
        at = loop.intersections[0]
    assert any(row[8] == "1" for row in rows)  # (the loops before the bay)
    heads = [at.heads(it) for it in states]
    found = list(peers.greens(rows, heads, crossroads.plan()))
    # an initial green by the cars that came is longer than the least one of 7 s
    assert max(it.ticks for it in found if it.phase in (4, 8)) > 70


# Drafts


def test_a_proposal_is_what_a_hand_made(walks: Path) -> None:
    draft = propose(walks / "net.xml", "C", walks / "detectors.xml")
    made = Mapping.read(walks / "mapping.json")
    advance = {it for at in range(9, 13) for it in made.channels[at]}
    stop_line = {at: set(it) for at, it in made.channels.items() if at < 9}
    assert draft.plan.fault() is None
    assert {at: set(it) for at, it in draft.mapping.channels.items()} == stop_line
    for table in ("phases", "permissive", "pedestrians", "buttons"):
        assert getattr(draft.mapping, table) == getattr(made, table)
    left = next(it for it in draft.notes if "at no stop line" in it)
    assert all(it in left for it in advance)
    assert "guessed: the main street is W_near and E_near" in draft.notes


def test_a_proposal_runs_with_zones_of_its_own(walks: Path, tmp_path: Path) -> None:
    draft = propose(walks / "net.xml", "C")
    (tmp_path / "zones.xml").write_text(zones(walks / "net.xml", "C"))
    at = Intersection.of(walks / "net.xml", "C", draft.mapping, draft.plan)
    with Loop(
        walks / "net.xml", walks / "routes.xml", at, additional=tmp_path / "zones.xml"
    ) as loop:
        loop.run(600)
        assert len(set(loop.states("C"))) > 3


def test_a_proposal_for_a_net_with_three_legs(tmp_path: Path) -> None:
    words = "--grid --grid.x-number 3 --grid.y-number 2 --grid.length 200 -L 2"
    words += " --turn-lanes 1 --default-junction-type traffic_light -o net.xml"
    words += " --no-turnarounds true --sidewalks.guess --crossings.guess"
    subprocess.run(
        [binary("netgenerate"), *words.split()],
        cwd=tmp_path, check=True, capture_output=True,
    )  # fmt: skip
    draft = propose(tmp_path / "net.xml", "B0")
    assert draft.plan.fault() is None
    # the street from the west (2) to the east (6), and the one from the north (4),
    # which turns left with its through phase: it has none that faces it
    found = {at: set(it) for at, it in draft.mapping.phases.items()}
    assert found == {2: {6, 7}, 4: {2}, 5: {8}, 6: {4, 5}}
    assert draft.mapping.permissive == {4: (0, 1), 6: (3,)}
    # nobody turns right over the crossing of the east leg
    assert draft.mapping.pedestrians == {4: (":B0_c2",), 6: (":B0_c0",)}
    assert "crossing :B0_c1: its phase could not be told" in draft.notes


def made_net(folder: Path, words: str) -> Path:
    """A net of netgenerate."""
    command = [binary("netgenerate"), *words.split(), "-o", "made.net.xml"]
    subprocess.run(command, cwd=folder, check=True, capture_output=True)
    return folder / "made.net.xml"


def test_no_draft_has_greens_that_meet(tmp_path: Path) -> None:
    """A turn back from a lane that goes straight too yields; and a mapping in which it
    does not is refused, by the net's own word."""
    words = "--grid --grid.number 3 --grid.length 200 -L 1 --no-turnarounds false"
    words += " --default-junction-type traffic_light"
    net = made_net(tmp_path, words)
    met, foes, shared = 0, 0, 0
    for name in (it.getID() for it in read_net(net).getTrafficLights()):
        draft = propose(net, name)
        at = Intersection.of(net, name, draft.mapping, draft.plan)
        turns = {it.index: it.turn for it in at.light.links}
        foes += len(at.light.foes)
        # each is named for its lane, whether or not it meets another in this net
        straight = {it.from_edge for it in at.light.links if it.turn == "s"}
        turned = (it for it in at.light.links if it.turn == "t")
        back = {it.index for it in turned if it.from_edge in straight}
        assert back.isdisjoint(it for of in draft.mapping.phases.values() for it in of)
        shared += len(back)
        for link in back:
            said = f"link {link} turns back from a lane that it shares: permissive with"
            assert any(it.startswith(said) for it in draft.notes)
        for phase, links in draft.mapping.permissive.items():
            for link in (it for it in links if turns[it] == "t"):
                phases = {**draft.mapping.phases}
                phases[phase] = (*phases.get(phase, ()), link)
                with contextlib.suppress(MappingFault):
                    own = replace(draft.mapping, phases=phases)
                    Intersection.of(net, name, own, draft.plan)
                    continue
                met += 1
    assert met > 3 and foes > 20 and shared > 3


def test_foes_by_hand(cars: Path) -> None:
    """Through from the north crosses through from the west, and not that from the
    south; a pair in one phase, or in phases that go at once, is refused."""
    at = Intersection.of(cars / "net.xml", "C", cars / "mapping.json")
    straight = {it.index for it in at.light.links if it.turn == "s"}
    through = {
        phase: next(it for it in at.mapping.phases[phase] if it in straight)
        for phase in (2, 4, 6, 8)
    }
    pairs = {
        (one, two)
        for one, two in itertools.combinations(through, 2)
        if tuple(sorted((through[one], through[two]))) in at.light.foes
    }
    assert pairs == {(2, 4), (2, 8), (4, 6), (6, 8)}
    plan = crossroads.plan()
    assert Intersection.of(cars / "net.xml", "C", at.mapping, plan)
    phases = dict(at.mapping.phases)
    phases[2] = (*phases[2], through[4])
    phases[4] = tuple(it for it in phases[4] if it != through[4])
    moved = replace(at.mapping, phases={k: v for k, v in phases.items() if v})
    with pytest.raises(MappingFault, match="are green at once, and meet in the net"):
        Intersection.of(cars / "net.xml", "C", moved, plan)
    plan["phaseConcurrency"][2] = {4, 5, 6}
    with pytest.raises(MappingFault, match="are green at once"):
        Intersection.of(cars / "net.xml", "C", at.mapping, plan)


def test_a_proposal_for_five_legs_is_no_mapping_that_is_refused(tmp_path: Path) -> None:
    words = "--spider --spider.arm-number 5 --spider.circle-number 1 -L 2 --tls.set A1"
    words += " --spider.space-radius 150 --default-junction-type traffic_light"
    net, name = made_net(tmp_path, words), "A1"
    draft = propose(net, name)
    assert len({it.from_edge for it in light(net, name).links}) == 5
    assert Intersection.of(net, name, draft.mapping, draft.plan)
    said = [it for it in draft.notes if "could not be numbered: its links [" in it]
    links = {it.index for it in light(net, name).links}
    of_phases = (draft.mapping.phases, draft.mapping.permissive)
    mapped = {link for table in of_phases for it in table.values() for link in it}
    assert said and set(draft.mapping.free) == links - mapped
    # the main street can be named
    edges = sorted({it.from_edge for it in light(net, name).links})
    for edge in edges:
        other = propose(net, name, (), edge)
        assert any(
            it.startswith("named: the main street is ") and edge in it
            for it in other.notes
        )
    with pytest.raises(NetFault, match=f"no edge X comes to {name}: "):
        propose(net, name, (), "X")


def test_the_main_street_of_a_corridor_is_named(walks: Path) -> None:
    draft = propose(walks / "net.xml", "C", (), "N_near")
    said = [it for it in draft.notes if it.startswith("named: the main street is ")]
    assert len(said) == 1 and "N_near" in said[0] and "S_near" in said[0]
    guessed = propose(walks / "net.xml", "C", ()).mapping.phases
    named = draft.mapping.phases
    assert {named[2], named[6]} == {guessed[4], guessed[8]}


def test_a_light_of_crossings_alone(walks: Path) -> None:
    net = read_net(walks / "net.xml")
    crossing = next(iter(light(net, "C").crossings))
    for edge in net.getEdges():
        for it in itertools.chain.from_iterable(edge.getOutgoing().values()):
            ends = {it.getFrom().getID(), it.getTo().getID()}
            if it.getTLSID() == "C" and crossing in ends:
                it._tls = "X"
    try:
        with pytest.raises(NetFault, match="light X has crossings alone"):
            light(net, "X")
    finally:
        net_module._read.cache_clear()


def test_cycles_of_programs_of_type_nema(cars: Path, tmp_path: Path) -> None:
    """Each key that SUMO reads for a cycle, and none; what is none is a fault."""
    at = Intersection.of(cars / "net.xml", "C", cars / "mapping.json")
    text = nema_of(crossroads.plan(pattern=True), at, pattern=1)
    said = '<param key="total-cycle-length" value="110"/>'
    assert said in text
    path = tmp_path / "nema.xml"
    for more, cycle in (
        (said, 110),
        ('<param key="cycle-length" value="100"/>', 100),
        ('<param key="cycleTime" value="90"/>', 90),
        (said + '<param key="cycleTime" value="90"/>', 110),
        ("", 60),
    ):
        path.write_text(text.replace(said, more))
        draft = read_nema(cars / "net.xml", path, "C")
        assert draft.plan["patternCycleTime"][1] == cycle
        assert draft.plan["patternOffsetTime"][1] < cycle
    for cycle_s in ("0", "-5", "some", "nan", "inf"):
        path.write_text(text.replace('value="110"', f'value="{cycle_s}"'))
        with pytest.raises(NemaFault, match=f"a cycle of .*{cycle_s}.* is none"):
            read_nema(cars / "net.xml", path, "C")
    path.write_text(text.replace('value="110"', 'value="90.4"'))
    notes = read_nema(cars / "net.xml", path, "C").notes
    assert "the cycle of 90.4 s is 90 s: whole seconds" in notes


def test_phases_of_nema_in_no_ring(cars: Path, tmp_path: Path) -> None:
    """They are left out, and noted, and the draft fits its plan."""
    at = Intersection.of(cars / "net.xml", "C", cars / "mapping.json")
    text = nema_of(crossroads.plan(), at)
    path = tmp_path / "nema.xml"
    text = text.replace('"ring1" value="1,2,3,4"', '"ring1" value="0,2,0,4"')
    more = '<param key="crossPhaseSwitching" value="true"/>'
    path.write_text(text.replace('<param key="ring1"', f'{more}<param key="ring1"'))
    draft = read_nema(cars / "net.xml", path, "C")
    assert "phases [1, 3] are in no ring, and left out" in draft.notes
    assert "crossPhaseSwitching of 'true' is left out" in draft.notes
    assert draft.plan.fault() is None and not {1, 3} & set(draft.mapping.phases)
    left = {link for it in (1, 3) for link in at.mapping.phases[it]}
    own = replace(draft.mapping, free=tuple(sorted(left)))
    assert Intersection.of(cars / "net.xml", "C", own, draft.plan)


def test_a_program_of_type_nema_is_read_back(cars: Path, tmp_path: Path) -> None:
    at = Intersection.of(cars / "net.xml", "C", cars / "mapping.json")
    for pattern, floating in ((0, False), (1, False), (1, True)):
        plan = crossroads.plan(pattern=bool(pattern))
        if floating:
            plan["coordForceMode"][1] = 2
        (tmp_path / "nema.xml").write_text(nema_of(plan, at, pattern=pattern))
        draft = read_nema(cars / "net.xml", tmp_path / "nema.xml", "C")
        assert draft.plan.fault() is None
        # what SUMO does not have, and in a pattern its maximums are those of splits
        lacking = {"preemptDwellPhase", "preemptExitPhase", "preemptMinimumGreen"}
        lacking |= {"phaseMaximum1", "phaseMaximum2"} if pattern else set()
        mine = {name: dict(it) for name, it in plan.items() if name not in lacking}
        read = {name: dict(it) for name, it in draft.plan.items()}
        assert {name: it for name, it in read.items() if name not in lacking} == mine
        assert draft.mapping.phases == at.mapping.phases
    plan = crossroads.plan(pattern=True)
    plan.set_sequence(1, 2, [6, 5, 7, 8])
    with pytest.raises(NemaFault, match="phase 6 is coordinated, and not last"):
        nema_of(plan, at, pattern=1)
    with pytest.raises(NemaFault, match="no tlLogic of type NEMA for X"):
        read_nema(cars / "net.xml", tmp_path / "nema.xml", "X")


# SUMO's own controller


def test_sumos_controller_shows_the_same_on_its_rows(
    cars: Path, tmp_path: Path
) -> None:
    """(docs/trust/PEERS.md has longer ones; what parts them there comes later)"""
    plan = crossroads.plan(latched=True)
    at = Intersection.of(cars / "net.xml", "C", cars / "mapping.json")
    (tmp_path / "nema.xml").write_text(nema_of(plan, at))
    with Loop(
        cars / "net.xml", cars / "routes.xml", at,
        additional=[cars / "detectors.xml", tmp_path / "nema.xml"], seed=1,
    ) as loop:  # fmt: skip
        loop.run(10 * SECONDS)
        heads = [at.heads(it) for it in loop.states("C")]
        rows = ["1000100000000000 00000000 0000", *loop.rows("C")[1:]]
    assert peers.spells(heads, peers.answers(rows, plan)) == []
    assert len(set(heads)) > 10


def test_spells_by_hand() -> None:
    theirs = ["RGRRRGRR"] * 5 + ["RYRRRYRR"] * 4 + ["RRRGRRRG"] * 3
    ours = ["RGRRRGRR"] * 4 + ["RYRRRYRR"] * 5 + ["RRRGRRGR"] * 3
    later, *more = peers.spells(theirs, ours)
    assert later == peers.Spell(5, 4, "later", "stays", "2Y 6Y") and more == []
    theirs, ours = theirs[5:], ours[5:]
    assert [it.cause for it in peers.spells(theirs, ours)] == ["choice"]
    rows = ["0100000000000000"] * 2 + ["0000000000000000"] * 10
    plan = Plan()
    plan["phasePassage"][2] = 3
    found = list(peers.greens(rows, ["RGRRRRRR"] * 6 + ["RRRRRRRR"] * 6, plan))
    assert found == [peers.Green(2, 1, 6, True)]
    assert peers.longest_without(["RGRRRRRR"] + ["RRRRRRRR"] * 6, (2, 6)) == 6


# The document and the command

BLOCK = re.compile(
    r"^```python\n(.*?)^```\n\nIt prints\n\n```\n(.*?)^```\n", re.M | re.S
)


def test_the_document_prints_what_it_says(
    top: Path, tmp_path: Path, monkeypatch: pytest.MonkeyPatch
) -> None:
    monkeypatch.chdir(tmp_path)
    blocks = BLOCK.findall((top / "docs/use/SUMO.md").read_text())
    assert len(blocks) == 2
    names: dict[str, Any] = {}
    for code, wanted in blocks:
        told = io.StringIO()
        with contextlib.redirect_stdout(told):
            exec(code, names)
        assert told.getvalue() == wanted, code


def test_the_command_runs_a_plan(
    cars: Path, tmp_path: Path, capsys: pytest.CaptureFixture[str]
) -> None:
    crossroads.plan(pattern=True).write(tmp_path / "plan.json")
    words = [str(cars / "net.xml"), str(cars / "routes.xml"), "--plan"]
    words += [str(tmp_path / "plan.json"), "--mapping", str(cars / "mapping.json")]
    words += ["--additional", str(cars / "detectors.xml"), "--seed", "1"]
    words += ["--seconds", "90", "--pattern", "1", "--out", str(tmp_path / "out")]
    assert main(words) == 0
    told = json.loads((tmp_path / "out" / "summary.json").read_text())
    assert told["seconds"] == 90 and told["trips"]["car"]["ended"] > 5
    assert "90 s; of the trips" in capsys.readouterr().out
    events = (tmp_path / "out" / "C.events.csv").read_text()
    assert "2000-01-01 00:00:00.0,131,1\n" in events  # (the pattern)
    trips = read_trips(tmp_path / "out" / "trips.xml")
    assert len(trips) == len((tmp_path / "out" / "trips.csv").open().readlines()) - 1
    assert summary(trips).loc["car", "ended"] == told["trips"]["car"]["ended"]


Called = Callable[..., tuple[int, str, str]]


@pytest.fixture
def called(
    cars: Path, tmp_path: Path, capsys: pytest.CaptureFixture[str]
) -> Called:
    """Runs the command on a plan: its status, and what it prints."""

    def call(plan: Plan, *words: str) -> tuple[int, str, str]:
        plan.write(tmp_path / "plan.json")
        asked = [str(cars / "net.xml"), str(cars / "routes.xml"), "--plan"]
        asked += [str(tmp_path / "plan.json"), "--mapping", str(cars / "mapping.json")]
        asked += ["--additional", str(cars / "detectors.xml"), "--seed", "1"]
        status = main([*asked, "--out", str(tmp_path / "out"), *words])
        said = capsys.readouterr()
        return status, said.out, said.err

    return call


def selections(out: Path) -> list[str]:
    """When each pattern was selected, and its number."""
    rows = (out / "C.events.csv").read_text().splitlines()
    return [it.removeprefix("C,") for it in rows if f",{SELECTED}," in it]


def shown_again(out: Path, *commands: str) -> list[Display]:
    """What a bench shows on the log that a run wrote, after these commands."""
    with Bench(out.parent / "plan.json", out / "C.log") as bench:
        for it in commands:
            bench.give(it)
        return list(bench.step(700))


def test_the_command_sets_the_clock(called: Called, tmp_path: Path) -> None:
    """With `--from`; the schedule then has the last word after its minute."""
    words = ("--seconds", "70", "--from", "2026-11-30 06:59:10")
    status, printed, _ = called(scheduled({2}, 7, 0), *words)
    assert status == 0 and printed.startswith("70 s; of the trips")
    out = tmp_path / "out"
    assert selections(out) == ["2026-11-30 06:59:59.9,131,1"]
    assert json.loads((out / "summary.json").read_text())["from"] == words[-1]
    local = [it.local for it in shown_again(out, "clock 2026-11-30 06:59:10")]
    assert local[:500] == [None] * 500 and local[500] == 761
    # another pattern holds up to the minute
    plan = scheduled({2}, 7, 0)
    plan["timebaseAscPattern"][1] = 254
    assert called(plan, *words, "--pattern", "1")[0] == 0
    found = ["2026-11-30 06:59:10.0,131,1", "2026-11-30 06:59:59.9,131,254"]
    assert selections(out) == found


def test_a_schedule_needs_no_word(called: Called, tmp_path: Path) -> None:
    """Without one tick 1 begins at midnight, on a Saturday, which a line says."""
    out, begin = tmp_path / "out", "2000-01-01 00:00:00"
    status, printed, _ = called(scheduled({7}, 0, 1), "--seconds", "70")
    first, second = printed.splitlines()[:2]
    assert status == 0 and second.startswith("70 s; of the trips")
    assert first == (
        f"plan.json has a schedule, and no day is named: tick 1 begins on a Saturday,"
        f" {begin}; --from names another, --no-clock none"
    )
    assert selections(out) == ["2000-01-01 00:00:59.9,131,1"]
    local = [it.local for it in shown_again(out, f"clock {begin}")]
    assert local[599:602] == [None, 161, 162]
    # on Fridays alone there is none
    assert called(scheduled({6}, 0, 1), "--seconds", "70")[0] == 0
    assert selections(out) == []


@pytest.mark.parametrize("more", [(), ("--from", "1999-11-30 07:00:00", "--no-clock")])
@pytest.mark.parametrize("pattern", [0, 1])
def test_a_command_without_a_clock(
    called: Called, cars: Path, tmp_path: Path, more: tuple[str, ...], pattern: int
) -> None:
    """Its files are those of a loop and of a record that have none."""
    out = tmp_path / "out"
    plan = scheduled({7}, 0, 0) if more else crossroads.plan(pattern=True)
    words = ["--seconds", "70", *more, "--pattern", str(pattern)]
    status, printed, _ = called(plan, *words)
    assert status == 0 and printed.startswith("70 s; of the trips")
    assert "from" not in json.loads((out / "summary.json").read_text())
    asked = ["record", "--no-clock", f"--from={more[1] if more else '2000-01-01 00:00:00'}"]
    asked += ["--device=C", str(tmp_path / "plan.json"), str(out / "C.log")]
    commands = f"pattern {pattern}\n" * bool(pattern) + "step 700\n"
    wanted = programs.run("tsb_field", asked, commands.encode()).stdout
    assert (out / "C.events.csv").read_bytes() == wanted
    with loop_of(cars, plan) as loop:
        if pattern:
            loop.benches["C"].set_pattern(pattern)
        loop.run(700)
        assert log_of(loop.rows("C")).text == (out / "C.log").read_text()


@pytest.mark.parametrize(
    "begin, fault",
    [
        ("7:00", "--from: '7:00' is no time as 2026-11-22 07:00:00"),
        ("1999-11-30 07:00", "years 2000 to 2099; with --no-clock any time will do"),
        ("2026-11-30 07:00:00.05", "'2026-11-30 07:00:00.05' is no time of the clock"),
    ],
)
def test_a_time_that_no_clock_has(
    called: Called, tmp_path: Path, begin: str, fault: str
) -> None:
    """It is refused before SUMO begins."""
    status, printed, said = called(crossroads.plan(), "--from", begin)
    assert (status, printed) == (1, "") and fault in said and said.count("\n") == 1
    assert not (tmp_path / "out").exists()


def test_a_run_that_is_stopped(cars: Path, tmp_path: Path) -> None:
    """Ctrl-C ends a command with one line."""
    crossroads.plan().write(tmp_path / "plan.json")
    words = [sys.executable, "-m", "tsb", "sumo", str(cars / "net.xml")]
    words += [str(cars / "routes.xml"), "--plan", str(tmp_path / "plan.json")]
    words += ["--mapping", str(cars / "mapping.json"), "--out", str(tmp_path / "out")]
    words += ["--additional", str(cars / "detectors.xml")]
    # (a run of a whole day, which is not over before this looks again)
    words += ["--seconds", "86400"]
    with subprocess.Popen(
        words,
        stderr=subprocess.PIPE,
        text=True,
        preexec_fn=lambda: signal.signal(signal.SIGINT, signal.SIG_DFL),
    ) as process:
        while not (tmp_path / "out/trips.xml").exists():
            assert process.poll() is None
            time.sleep(0.05)
        process.send_signal(signal.SIGINT)
        _, told = process.communicate(timeout=60)
    assert (process.returncode, told) == (130, "stopped\n")


def test_the_other_commands(tmp_path: Path, capsys: pytest.CaptureFixture[str]) -> None:
    folder = tmp_path / "example"
    assert main(["example", str(folder), "--pedestrians", "--seconds", "60"]) == 0
    assert Plan.read(folder / "plan.json").fault() is None
    net = str(folder / "net.xml")
    assert main(["propose", net]) == 0
    assert capsys.readouterr().out.endswith("\nC\n")
    assert main(["propose", net, "C", "--out", str(tmp_path)]) == 0
    assert (tmp_path / "C.zones.xml").exists()
    assert Plan.read(tmp_path / "C.plan.json").fault() is None
    assert main(["propose", net, "D", "--out", str(tmp_path)]) == 1
    assert "no traffic light D; it has C" in capsys.readouterr().err

# Flashing yellow arrows


@pytest.fixture(scope="session")
def turns(tmp_path_factory: pytest.TempPathFactory) -> Path:
    """The intersection for cars whose left turns have arrows."""
    folder = tmp_path_factory.mktemp("turns")
    crossroads.build(folder, arrows=True)
    crossroads.demand(folder / "routes.xml", "medium", 1, SECONDS)
    return folder


def test_states_of_arrows_by_hand(turns: Path) -> None:
    """Links 2, 6, 9 and 13 turn left from the north, the east, the south and the west:
    they are those of phases 3, 1, 7 and 5, and so of overlaps 2, 1, 4 and 3."""
    plan = crossroads.with_arrows(crossroads.plan())
    mapping = Mapping.read(turns / "mapping.json")
    assert mapping.overlaps == {1: (6,), 2: (2,), 3: (13,), 4: (9,)}
    assert sorted(mapping.phases) == [2, 4, 6, 8]
    at = Intersection.of(turns / "net.xml", "C", mapping, plan)
    shown = "0000001 {}-------- ---------------- {} 0 ----"
    for heads, overlaps, wanted in (
        ("RGRRRGRR", "PRPR", "rrrGGGgrrrGGGg"),
        ("GRRRRGRR", "GRPR", "rrrGGGGrrrrrrg"),
        ("RRRYRRRY", "RYRY", "yyyrrrryyyrrrr"),
        ("FFFFFFFF", "FFFF", "ssssssssssssss"),
    ):
        assert at.state(Display.of(shown.format(heads, overlaps))) == wanted


def test_a_green_arrow_that_meets_a_green_is_refused(turns: Path) -> None:
    """The turn of phase 1 and the through traffic of phase 2 meet in the net: where a plan
    lets both be green, an arrow of that turn can't be protected."""
    plan = crossroads.with_arrows(crossroads.plan())
    plan["overlapModifierPhases"][1] = {5}
    mapping = turns / "mapping.json"
    with pytest.raises(MappingFault, match="links 6 and 10 are green at once, and meet"):
        Intersection.of(turns / "net.xml", "C", mapping, plan)


def test_arrows_among_cars(turns: Path) -> None:
    """A link of a left turn yields only while the through traffic across is green, and is
    green only with its turn. Cars turn while it yields, and back and on is the same."""
    plan = crossroads.with_arrows(crossroads.plan())
    with loop_of(turns, plan) as loop:
        loop.run(900)
        loop.checkpoint()
        loop.run(700)
        states, rows = loop.states("C"), loop.rows("C")
        loop.back(700)
        loop.run(700)
        assert (loop.states("C"), loop.rows("C")) == (states, rows)
    across = {6: 10, 13: 3, 2: 7, 9: 0}
    yielding = 0
    for state in states:
        for turn, through in across.items():
            if state[turn] == "g":
                assert state[through] == "G"
                yielding += 1
            assert state[turn] != "G" or state[through] == "r"
    assert yielding > 500


def test_left_turns_lose_less_with_arrows(cars: Path, turns: Path, tmp_path: Path) -> None:
    """On the same traffic, with the same times: cars that turn left wait less."""
    stood = []
    for folder, plan in (
        (cars, crossroads.plan()),
        (turns, crossroads.with_arrows(crossroads.plan())),
    ):
        trips = tmp_path / f"{folder.name}.xml"
        with loop_of(folder, plan, trips=trips) as loop:
            loop.run(10 * SECONDS)
        table = read_trips(trips)
        of_lefts = table[
            [
                crossroads.LEFT[start[0]] == end[:1]
                for start, end in zip(table["from"], table["to"], strict=True)
            ]
        ]
        assert len(of_lefts) >= 5
        stood.append(float(of_lefts["waiting"].mean()))
    assert stood[1] < stood[0]


def test_the_example_with_arrows(tmp_path: Path) -> None:
    """Its plan is one that `tsb check` takes, with a mapping that fits it."""
    with contextlib.redirect_stdout(io.StringIO()):
        assert main(["example", str(tmp_path), "--arrows", "--seconds", "60"]) == 0
    plan = Plan.read(tmp_path / "plan.json")
    assert plan.version == 3 and plan.fault() is None
    assert {it: plan.turn_of(it) for it in range(1, 5)} == {1: 1, 2: 3, 3: 5, 4: 7}
    Intersection.of(tmp_path / "net.xml", "C", tmp_path / "mapping.json", plan)
