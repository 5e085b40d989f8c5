"""What a panel is made of, with the real programs and no browser."""

import random
import re
from collections.abc import Callable, Iterator
from pathlib import Path
from typing import Any

import pytest
import tsb
from tsb import Log, Plan, programs
from tsb.lines import Lines
from tsb.manual import LAST_TICK
from tsb.panel import keep as kept
from tsb.panel.keep import Keep, NotKept, Source
from tsb.panel.layout import Lane, Layout, LayoutFault, layout_of
from tsb.panel.requests import (
    COLUMNS_MOST,
    BadRequest,
    Free,
    Given,
    Hold,
    Lamp,
    Mark,
    Pattern,
    Pulse,
    Reset,
    View,
    given_of,
    request_of,
    view_of,
)
from tsb.panel.run import Run
from tsb.panel.session import Session
from tsb.panel.state import state_of
from tsb.rows import ALL_OFF, numbers, row
from tsb.status import LACKS, Wait

TICKS = 1200


@pytest.fixture
def source(examples: Path) -> Source:
    """The plan of eight phases, without a log."""
    return Source.read(examples / "quad.json", None)


@pytest.fixture
def run(source: Source) -> Iterator[Run]:
    """A run on it."""
    found = Run(source)
    yield found
    found.close()


# What a page may ask


@pytest.mark.parametrize(
    "told",
    [
        None,
        [],
        {},
        {"do": "quit"},
        {"do": ["look"]},
        {"do": "look", "more": 1},
        {"do": "advance"},
        {"do": "advance", "ticks": 0},
        {"do": "advance", "ticks": 100_001},
        {"do": "advance", "ticks": 1.0},
        {"do": "advance", "ticks": True},
        {"do": "advance", "ticks": "1"},
        {"do": "go", "tick": -1},
        {"do": "go", "tick": 6_000_001},
        {"do": "hold", "kind": "vehicle", "number": 65, "on": True},
        {"do": "hold", "kind": "pedestrian", "number": 17, "on": True},
        {"do": "hold", "kind": "preempt", "number": 9, "on": True},
        {"do": "hold", "kind": "train", "number": 1, "on": True},
        {"do": "hold", "kind": "vehicle", "number": 1, "on": 1},
        {"do": "pulse", "kind": "vehicle", "number": 1, "ticks": 36_001},
        {"do": "pattern", "number": 17},
        {"do": "switch", "number": 1, "to": "on\nquit"},
        {"do": "lamp", "head": "P17", "lamp": "G"},
        {"do": "lamp", "head": "P4", "lamp": "GY"},
        {"do": "omit", "number": 65536},
        {"do": "omit", "number": "1"},
        {"do": "begin", "station": 5},
        {"do": "set", "station": 1, "name": "undo", "index": 1, "value": 1},
        {"do": "set", "station": 1, "name": "phaseWalk", "index": 1, "value": 1 << 32},
        {"do": "mark", "watch": "call", "number": 0, "on": True},
        {"do": "mark", "watch": "stage", "number": 1, "on": True},
        {"do": "save", "name": "../away"},
        {"do": "save", "name": ".hidden"},
        {"do": "save", "name": "a" * 41},
        {"do": "save", "name": "run\n"},
        {"do": "load", "name": ""},
    ],
)
def test_requests_that_are_none(told: Any) -> None:
    """Nothing of them reaches a bench."""
    with pytest.raises(BadRequest):
        request_of(told)


def test_requests_and_the_commands_that_they_are() -> None:
    """Each input that is no tick is read back from its command."""
    told: list[dict[str, Any]] = [
        {"do": "pattern", "number": 16},
        {"do": "switch", "number": 4, "to": "off"},
        {"do": "lamp", "head": "W16", "lamp": "C"},
        {"do": "lamp", "head": "O16", "lamp": "P"},
        {"do": "nolamp"},
        {"do": "omit", "number": 65535},
        {"do": "reset"},
        {"do": "begin", "station": 4},
        {"do": "set", "station": 1, "name": "phaseWalk", "index": 0, "value": 999},
        {"do": "verify", "station": 1},
        {"do": "commit", "station": 2},
        {"do": "abort", "station": 3},
    ]
    lines = [
        "pattern 16",
        "preempt 4 off",
        "fault W16 C",
        "fault O16 P",
        "fault none",
        "omit 65535",
        "reset",
        "begin 4",
        "set 1 phaseWalk 0 999",
        "verify 1",
        "commit 2",
        "abort 3",
    ]
    for it, line in zip(told, lines, strict=True):
        assert request_of(it) == given_of(line) and given_of(line).line == line
    for wrong in ["", "step 3", "undo", "pattern 17", "fault none now", "quit"]:
        with pytest.raises(BadRequest):
            given_of(wrong)


def test_views_are_bounded() -> None:
    """No page asks for more columns than a screen has."""
    assert view_of(None) is None
    assert view_of({"first": 0, "last": 9, "columns": 10}) == View(0, 9, 10)
    for wrong in [
        [],
        {"first": 0, "last": 9},
        {"first": 9, "last": 0, "columns": 10},
        {"first": 0, "last": 9, "columns": COLUMNS_MOST + 1},
        {"first": -1, "last": 9, "columns": 10},
    ]:
        with pytest.raises(BadRequest):
            view_of(wrong)


# Where phases are


def test_the_usual_places(examples: Path) -> None:
    """2 and 6 on one street, 4 and 8 on the other, left turns beside 6, 8, 2, 4."""
    found = layout_of(Plan.read(examples / "main_and_oak.json"))
    assert {it: lane.leg for it, lane in found.lanes.items()} == {
        2: "west", 5: "west", 6: "east", 1: "east",
        4: "north", 7: "north", 8: "south", 3: "south",
    }  # fmt: skip
    assert {it.turn for at, it in found.lanes.items() if at % 2} == {"left"}
    # (overlap 1 turns right from Main Street, into the leg without a crossing)
    assert found.overlaps == {1: Lane("east", "right")}
    assert found.crossings == {2: "south", 4: "west", 8: "east"}


@pytest.mark.parametrize(
    ("included", "lane"),
    [
        ({2, 3}, Lane("west", "right")),
        ({4, 5}, Lane("north", "right")),
        ({6, 7}, Lane("east", "right")),
        ({8, 1}, Lane("south", "right")),
        ({1, 4}, Lane("beside", "right")),
        ({1, 2}, Lane("beside", "right")),
        ({2, 3, 6}, Lane("beside", "right")),
        ({2}, Lane("beside", "right")),
    ],
)
def test_where_overlaps_are(examples: Path, included: set[int], lane: Lane) -> None:
    """Those of a through phase and the left turn that swaps legs with it turn right."""
    plan = Plan.read(examples / "main_and_oak.json")
    plan["overlapIncludedPhases"][1] = included
    assert layout_of(plan).overlaps == {1: lane}


def test_the_manual_has_these_places(examples: Path) -> None:
    """What A56 takes for usual is where the panel draws phases and crossings."""
    plan = Plan.read(examples / "no_advice.json")
    plan["phaseWalk"][6] = 7
    layout = layout_of(plan)
    manual = (examples.parent / "docs/use/REVIEW.md").read_text()
    told = {
        name: [it.strip() for it in cells.split("|")]
        for name, cells in re.findall(r"^\| (.*?) \|(.*)\|$", manual, re.M)
    }
    comes = [layout.lanes[it].leg for it in range(1, 9)]
    goes = [_leg_out(layout.lanes[it]) for it in range(1, 9)]
    assert told["comes from the"] == comes
    assert told["goes into the"] == goes
    assert told["its crosswalk is over the"] == [
        layout.crossings.get(it, "") for it in range(1, 9)
    ]


def _leg_out(lane: Lane) -> str:
    """The leg that a lane goes into: a left turn into the next one clockwise, a through
    lane into the one across."""
    circle = ("west", "north", "east", "south")
    steps = {"left": 1, "through": 2}[lane.turn]
    return circle[(circle.index(lane.leg) + steps) % 4]


def test_a_lane_has_one_head(examples: Path, tmp_path: Path) -> None:
    """An overlap whose lane is taken is listed beside the intersection."""
    plan = Plan.read(examples / "main_and_oak.json")
    plan["overlapIncludedPhases"][3] = {6, 7}
    beside = Lane("beside", "right")
    assert layout_of(plan).overlaps == {1: Lane("east", "right"), 3: beside}
    path = tmp_path / "layout.json"
    path.write_text('{"overlaps": {"3": {"leg": "east", "turn": "right"}}}')
    found = layout_of(plan, Layout.read(path))
    assert found.overlaps == {1: beside, 3: Lane("east", "right")}
    path.write_text('{"phases": {"8": {"leg": "east", "turn": "right"}}}')
    assert set(layout_of(plan, Layout.read(path)).overlaps.values()) == {beside}


def test_an_arrow_is_in_the_lane_of_its_turn(examples: Path, tmp_path: Path) -> None:
    """So are the arrows of phases 1, 5 and 3; overlap 4 is no arrow. A second arrow of a
    turn has no place, and a layout file can give one another."""
    plan = Plan.read(examples / "arrows.json")
    found = layout_of(plan)
    assert found.overlaps == {
        1: Lane("east", "left"), 2: Lane("west", "left"), 3: Lane("south", "left"),
        4: Lane("beside", "right"),
    }  # fmt: skip
    assert [plan.turn_of(it) for it in (1, 2, 3, 4, 5)] == [1, 5, 3, 0, 0]
    for name in ("overlapType", "overlapIncludedPhases", "overlapModifierPhases"):
        plan[name][4] = plan[name][1]
    assert layout_of(plan).overlaps[4] == Lane("beside", "left")
    path = tmp_path / "layout.json"
    path.write_text('{"overlaps": {"1": {"leg": "north", "turn": "left"}}}')
    moved = layout_of(plan, Layout.read(path)).overlaps
    assert moved[1] == Lane("north", "left") and moved[4] == Lane("east", "left")


def test_other_plans_have_places_too(examples: Path) -> None:
    """A T-junction, and a phase for pedestrians alone."""
    tee = layout_of(Plan.read(examples / "tee.json"))
    assert tee.lanes[1] == Lane("east", "left") and tee.crossings == {4: "west"}
    assert tee.overlaps == {1: Lane("south", "right")}
    pair = layout_of(Plan.read(examples / "one_way_pair.json"))
    assert pair.crossings == {9: "all"} and pair.lanes[9].leg == "beside"


def test_through_phases_of_one_side_are_a_street() -> None:
    """Where 2 and 4 share a side, they come from opposite legs."""
    plan = Plan()
    for phase, ring, side in [(2, 1, 1), (4, 2, 1), (6, 1, 2), (10, 1, 3), (11, 2, 3)]:
        plan["phaseEnabled"][phase] = 1
        plan["phaseRing"][phase] = ring
        plan["phaseSide"][phase] = side
    legs = {it: lane.leg for it, lane in layout_of(plan).lanes.items()}
    assert legs == {2: "west", 4: "east", 6: "north", 10: "beside", 11: "beside"}


def test_a_layout_file(examples: Path, tmp_path: Path) -> None:
    """What it names takes the place of the usual; the rest stays."""
    path = tmp_path / "layout.json"
    path.write_text(
        '{"streets": {"west": "Main Street"}, "crossings": {"4": "east"},'
        ' "phases": {"1": {"leg": "south", "turn": "right"}},'
        ' "overlaps": {"1": {"leg": "east", "turn": "right"}}}'
    )
    plan = Plan.read(examples / "main_and_oak.json")
    found = layout_of(plan, Layout.read(path))
    assert found.lanes[1] == Lane("south", "right") and found.lanes[2].leg == "west"
    assert found.crossings[4] == "east" and found.overlaps[1].leg == "east"
    assert found.told()["streets"] == {"west": "Main Street"}


@pytest.mark.parametrize(
    ("text", "said"),
    [
        ("", "not JSON"),
        ("[]", "the layout: no object"),
        ('{"lanes": {}}', "lanes: not in"),
        ('{"phases": {"17": {"leg": "west"}}}', "phases.17: not 1 to 16"),
        ('{"phases": {"2": {"leg": "up"}}}', "phases.2.leg: none of west"),
        ('{"phases": {"2": {}}}', "phases.2.leg: none of west"),
        ('{"phases": {"2": {"leg": "west", "turn": "back"}}}', "phases.2.turn"),
        ('{"crossings": {"2": "middle"}}', "crossings.2: none of"),
        ('{"overlaps": {"17": {"leg": "west"}}}', "overlaps.17: not 1 to 16"),
        ('{"streets": {"west": 1}}', "streets.west: no name"),
    ],
)
def test_layouts_that_are_none(tmp_path: Path, text: str, said: str) -> None:
    """The message says where."""
    path = tmp_path / "layout.json"
    path.write_text(text)
    with pytest.raises(LayoutFault, match=f"layout.json: .*{said}"):
        Layout.read(path)


# A run


def to(run: Run, tick: int) -> None:
    """Goes to a tick, however many requests it takes."""
    run.go(tick)
    while run.now != tick:
        run.go(tick)


def letters(run: Run, tick: int) -> list[str]:
    """What the track has of a tick: a letter for each head that is ever lit."""
    picture = run.track.picture(View(tick, tick, 10))
    drawn = [(it["head"], it["bands"][0][1]) for it in picture["heads"]]
    lit = [it for it in drawn if it[0] != "preempt" and it[1] != "-"]
    return [f"{head}{letter}" for head, letter in lit]


def inputs_on(run: Run, tick: int) -> list[str]:
    """The inputs that the track has on in a tick."""
    picture = run.track.picture(View(tick, tick, 10), inputs=True)
    drawn = [(it["head"], it["bands"][0][1]) for it in picture["heads"]]
    return [head for head, digit in drawn if head[0] in "DBI" and digit == "1"]


def on(row: str) -> list[str]:
    """The same of a row."""
    kinds = zip("DBI", row.split(" "), strict=True)
    return [f"{kind}{it}" for kind, part in kinds for it in sorted(numbers(part))]


def heads(line: str) -> list[str]:
    """The same of a display line."""
    shown = tsb.Display.of(line)
    names = [f"P{it}" for it in range(1, 17)] + [f"W{it}" for it in range(1, 17)]
    names += [f"O{it}" for it in range(1, 5)]
    return [f"{it}{shown.head(it)}" for it in names if shown.head(it) != "-"]


def replayed(run: Run, tmp_path: Path) -> Lines:
    """The display lines that `tsb run` gives of what is saved."""
    plan, saved = run.source.plan, run.bench.save()
    kept.write(tmp_path, plan, saved)
    words = ["run", str(tmp_path / kept.PLAN), str(tmp_path / kept.LOG)]
    done = programs.run("tsb", words, saved.commands.encode())
    lines = [it for it in done.stdout.splitlines(True) if it[:7].isdigit()]
    return Lines(b"".join(lines))


def test_hands_and_a_pulse(run: Run) -> None:
    """A hand holds an input, a pulse ends by itself, and both can be let go."""
    to(run, 3)
    run.grasp(Hold("vehicle", 4, True))
    run.grasp(Pulse("vehicle", 8, 2))
    to(run, 10)
    assert [run.tape.row(it) for it in (3, 4, 6)] == [
        ALL_OFF, row([4, 8]), row([4])
    ]  # fmt: skip
    assert run.bench.when("input", 8) == 6
    run.grasp(Hold("vehicle", 4, False))
    run.grasp(Free("vehicle", 8))
    to(run, 11)
    assert run.tape.row(11) == ALL_OFF and len(run.tape.hands(run.now)) == 1


def test_a_log_acts_until_a_hand_takes_over(examples: Path) -> None:
    """And again once it is let go."""
    log = Log.of([(2, row([4])), (6, row([4, 7])), (9, row([2]))])
    source = Source("quad", (examples / "quad.json").read_bytes(), log)
    run = Run(source)
    to(run, 3)
    run.grasp(Hold("vehicle", 4, False))
    to(run, 7)
    assert run.tape.row(7) == row([7])
    run.grasp(Free("vehicle", 4))
    to(run, 8)
    assert run.tape.row(8) == row([4, 7])
    to(run, 12)
    assert [run.tape.row(it) for it in (1, 2, 9)] == [ALL_OFF, row([4]), row([2])]
    run.close()


def test_a_log_alone_makes_a_session_on_it(examples: Path) -> None:
    """The lines are those of `tsb run` on the plan and the log."""
    plan, log = examples / "main_and_oak.json", examples / "main_and_oak.log"
    said = programs.run("tsb", ["run", plan, log], b"step 1100\n").stdout
    lines = Lines(said)
    run = Run(Source.read(plan, log))
    to(run, 1100)
    for tick in range(1, 1101):
        assert letters(run, tick) == heads(lines[tick - 1].line)
    for tick in [1100, 987, 415, 1]:
        to(run, tick)
        assert run.bench.show() == lines[tick - 1]
    run.close()


def test_what_lies_ahead_is_taken_again(run: Run, tmp_path: Path) -> None:
    """There and back: the same lines, the same plan, the same history."""
    rng = random.Random("ahead")
    for tick in range(60, TICKS, 60):
        to(run, tick)
        run.grasp(Hold("vehicle", rng.randint(1, 8), rng.random() < 0.6))
        if tick % 300 == 0:
            for line in ["begin 1", f"set 1 phaseMaximum1 2 {30 + tick // 60}"]:
                run.give(given_of(line))
            run.give(given_of("verify 1"))
            run.give(given_of("commit 1"))
        if tick == 600:
            run.give(given_of("preempt 1 on"))
        if tick == 720:
            run.give(given_of("preempt 1 off"))
    to(run, TICKS)
    line, saved, plan = run.bench.show().line, run.bench.save(), run.plan
    lines = replayed(run, tmp_path)
    assert len(lines) == TICKS and lines[-1].line == line
    for tick in [0, *rng.sample(range(TICKS), 25), TICKS]:
        to(run, tick)
        shown = run.bench.show().line
        assert shown == (lines[tick - 1].line if tick else shown)
        assert letters(run, tick) == heads(shown)
    assert run.bench.save() == saved and run.plan == plan


def test_a_change_drops_what_lies_ahead(run: Run) -> None:
    """And the track ends there."""
    to(run, 200)
    to(run, 50)
    assert (run.tape.end, run.track.end) == (200, 200)
    run.give(Pattern(1))
    assert (run.tape.end, run.track.end) == (50, 50)
    to(run, 90)
    to(run, 60)
    run.grasp(Hold("vehicle", 4, True))
    assert (run.tape.end, run.track.end) == (60, 60)


def test_a_refusal_drops_nothing(run: Run) -> None:
    """What is refused is no input."""
    to(run, 200)
    to(run, 50)
    with pytest.raises(tsb.Refused, match="E9 NoSuchPattern"):
        run.give(Pattern(9))
    assert (run.tape.end, run.track.end, run.tape.given) == (200, 200, [])


def test_undo(run: Run) -> None:
    """Takes commands and ticks back, and what they showed."""
    to(run, 60)
    before = run.bench.show().line
    run.give(Lamp("P4", "G"))
    assert run.bench.show().vehicles.startswith("FF") and run.tape.lamp(60)
    assert letters(run, 60)[0] == "P1F"
    run.give(Reset())
    assert run.tape.lamp(60) is None
    assert [run.undo(), run.undo()] == ["reset", "fault"]
    assert run.bench.show().line == before and letters(run, 60) == heads(before)
    assert run.undo() == "tick" and run.now == 59 and run.tape.end == 60
    to(run, 60)
    assert run.bench.show().line == before
    to(run, 0)
    with pytest.raises(tsb.NoSuchTick):
        run.undo()


def test_switches_are_those_that_were_given(run: Run) -> None:
    """At each tick."""
    run.give(given_of("preempt 1 on"))
    to(run, 5)
    run.give(given_of("preempt 2 on"))
    run.give(given_of("preempt 1 off"))
    assert run.tape.switches(5) == {2} and run.tape.switches(4) == {1}


def test_one_change_is_said_as_one(run: Run) -> None:
    """Phase 2 starts in tick 1."""
    to(run, 1)
    said = run.mark(Mark("interval", 2, True))
    assert said == "interval 2: 1 change up to tick 1"


def test_marks_are_all_changes(run: Run, tmp_path: Path) -> None:
    """Found as ticks pass, and of a run that has passed: those that the lines show."""
    early = run.mark(Mark("interval", 2, True))
    assert early == "interval 2: 0 changes up to tick 0"
    for tick in range(100, TICKS + 1, 100):
        run.grasp(Pulse("vehicle", 4 if tick % 300 else 3, 5))
        to(run, tick)
    run.mark(Mark("call", 4, True))
    run.mark(Mark("ped", 2, True))
    passing, late = run.watched[0].ticks, run.watched[1].ticks
    run.mark(Mark("interval", 2, False))
    run.mark(Mark("interval", 2, True))
    assert run.watched[-1].ticks == passing and run.now == TICKS
    lines = replayed(run, tmp_path)
    pairs = list(zip([run.bench.seek(0), *lines], lines, strict=False))
    shown = [it.tick for was, it in pairs if was.vehicles[1] != it.vehicles[1]]
    # (from red clearance to red is a change that no line shows)
    assert set(shown) < set(passing) and len(passing) <= 2 * len(shown)
    assert late[0] == 1 and len(late) > 8
    to(run, 640)
    run.give(Pattern(1))
    assert all(max(it.ticks, default=0) <= 640 for it in run.watched)


def test_the_last_tick_of_a_run(run: Run) -> None:
    """It is gone to, and a tick after it is refused in the bench's own words."""
    while run.now < LAST_TICK:
        run.go(LAST_TICK)
    run.go(LAST_TICK)
    with pytest.raises(tsb.Refused, match="E11"):
        run.advance(LAST_TICK)
    assert run.now == LAST_TICK == run.tape.end


def test_a_watch_is_bounded(run: Run) -> None:
    """No more than eight at a time."""
    for number in range(1, 9):
        run.mark(Mark("call", number, True))
    with pytest.raises(BadRequest, match="8 values"):
        run.mark(Mark("stage", 0, True))


def test_a_column_tells_the_share_of_green(run: Run, tmp_path: Path) -> None:
    """Where a picture has more bands than columns."""
    run.grasp(Hold("vehicle", 4, True))
    to(run, 4000)
    picture = run.track.picture(View(0, 3999, 20))
    found = {it["head"]: it["shares"] for it in picture["heads"] if "shares" in it}
    lines = replayed(run, tmp_path)
    for phase in (2, 4):
        for at, share in enumerate(found[f"P{phase}"]):
            ticks = range(200 * at, 200 * at + 200)
            green = sum(phase in lines[it - 1].greens for it in ticks if it)
            assert abs(share - green / 2) <= 1


# Words


def test_every_state_has_its_words() -> None:
    """No name of the status line is shown as it is."""
    causes = (
        "flash due clears redRevert across beside omitted preempted next crossing"
        " barrier green conflict turn trails"
    ).split()
    told = [Wait(4, it, of=2, preempt=1, left=13).words for it in causes]
    assert len(set(told)) == len(causes) and not set(told) & set(causes)
    assert told[2] == "phase 2 to clear: 1.3 s left"
    lacks = [Wait(4, "green", 2, lack=it).words for it in LACKS]
    assert len(set(lacks)) == len(LACKS) and not set(lacks) & set(LACKS)
    assert lacks[0] == "the green of phase 2, which lacks its walk"
    assert Wait(4, "crossing").words == "the rings to cross"


@pytest.mark.parametrize(
    ("wait", "sentence"),
    [
        (Wait(4, "barrier", 2), "phase 4 waits for the barrier, which phase 2 keeps"),
        (Wait(4, "redRevert", left=0),
         "phase 4 waits for its own red revert: 0.0 s left"),
        (Wait(4, "trails", 2, left=55, overlap=3),
         "phase 4 waits for overlap 3, which trails and holds phase 2: 5.5 s left"),
        (Wait(16, "across", 2, left=6005),
         "phase 16 waits for phase 2 of the other ring to clear: 600.5 s left"),
        (Wait(4, "green", 3, lack="initial", left=44),
         "phase 4 waits for the green of phase 3, which lacks its minimum: 4.4 s left"),
    ],
)  # fmt: skip
def test_a_wait_is_a_sentence(wait: Wait, sentence: str) -> None:
    """That of the panel, with the phase that waits, by its text."""
    assert str(wait) == sentence


def test_the_panel_has_the_words_of_a_wait(run: Run) -> None:
    """Those of the status, of each phase that waits."""
    run.grasp(Hold("vehicle", 4, True))
    run.grasp(Hold("vehicle", 3, True))
    to(run, 40)
    waits = run.bench.status.waits.values()
    found = state_of(run)["waits"]
    assert [f"phase {it['phase']} waits for {it['says']}" for it in found] == [
        str(it) for it in waits
    ]
    assert len(found) > 1


# Keeping


def test_a_run_is_saved_and_loaded(run: Run, tmp_path: Path) -> None:
    """The files give the same lines by `tsb run`, and the same state here."""
    keep = Keep(tmp_path / "runs")
    run.grasp(Hold("vehicle", 3, True))
    to(run, 300)
    run.give(given_of("preempt 1 on"))
    to(run, 500)
    path = keep.save("first", run.source.plan, run.bench.save())
    assert keep.names() == ["first"]
    files = sorted(it.name for it in path.iterdir())
    assert files == ["plan.json", "run.commands", "run.log"]
    again = Run(keep.load("first"))
    assert again.bench.status == run.bench.status and again.now == 500
    assert again.bench.save() == run.bench.save()
    assert replayed(again, tmp_path) == replayed(run, tmp_path)
    again.close()
    with pytest.raises(NotKept, match="there is a run first already"):
        keep.save("first", b"", run.bench.save())
    assert (path / "plan.json").read_bytes() == run.source.plan


def test_runs_that_cannot_be_loaded(source: Source, tmp_path: Path) -> None:
    """The session goes on with its own run."""
    keep = Keep(tmp_path)
    session = Session(source, keep, None)
    session.do(request_of({"do": "advance", "ticks": 5}))
    path = keep.save("good", source.plan, session.run.bench.save())
    for name, text, said in [
        ("run.commands", "step 3\nfly 2\n", "line 2: fly 2"),
        ("run.commands", "pattern 9\n", "E9 NoSuchPattern"),
        ("run.log", "0000001 000\n", "log line 1: malformed"),
        ("plan.json", "{}", "plan: version"),
    ]:
        was = (path / name).read_bytes()
        (path / name).write_text(text)
        with pytest.raises(tsb.Error, match=said):
            session.do(request_of({"do": "load", "name": "good"}))
        (path / name).write_bytes(was)
        assert session.run.now == 5
    with pytest.raises(NotKept, match="No such file"):
        session.do(request_of({"do": "load", "name": "none"}))
    assert session.do(request_of({"do": "load", "name": "good"})).endswith("tick 5")
    session.close()


# Anything after anything


def acted(run: Run, rng: random.Random) -> None:
    """Does one thing, at random; a refusal or a bound counts as one too."""
    station, phase = rng.randint(1, 2), rng.randint(1, 8)
    lines = [
        f"pattern {rng.randint(0, 3)}",
        f"preempt {rng.randint(1, 3)} {rng.choice(['on', 'off'])}",
        f"fault P{phase} {rng.choice('GYR')}",
        "fault none",
        "reset",
        f"begin {station}",
        f"set {station} phaseMaximum1 {phase} {rng.randint(15, 60)}",
        f"set {station} phaseYellowChange {phase} {rng.choice([29, 30, 40])}",
        f"verify {station}",
        f"commit {station}",
        f"abort {station}",
    ]
    watch: Any = rng.choice(["interval", "call", "output", "ped"])
    acts: list[Callable[[], object]] = [
        lambda: to(run, run.now + rng.choice([1, 1, 7, 60, 300])),
        lambda: to(run, run.now + rng.choice([1, 7, 60])),
        lambda: to(run, rng.randint(0, run.tape.end)),
        lambda: run.undo(),
        lambda: run.grasp(Hold("vehicle", phase, rng.random() < 0.7)),
        lambda: run.grasp(Pulse("pedestrian", 2, rng.randint(1, 30))),
        lambda: run.grasp(Free("vehicle", phase)),
        lambda: run.give(given_of(rng.choice(lines))),
        lambda: run.give(given_of(rng.choice(lines))),
        lambda: run.mark(Mark(watch, phase, rng.random() < 0.8)),
    ]
    try:
        rng.choice(acts)()
    except (tsb.Refused, tsb.NoSuchTick, BadRequest):
        pass


def marked_anew(run: Run) -> list[list[int]]:
    """The marks up to now, found on a bench that takes the saved run again."""
    saved, found = run.bench.save(), []
    for it in run.watched:
        other = Run(Source("", run.source.plan, Log.of_text(saved.log), *inputs(saved)))
        other.mark(Mark(it.watch, it.number, True))
        found.append(other.watched[0].ticks)
        other.close()
    return found


def inputs(saved: tsb.Saved) -> tuple[tuple[tuple[int, Given], ...], int]:
    """The inputs of a saved run, and its last tick."""
    given, end = [], 0
    for line in saved.commands.splitlines():
        if line.startswith("step "):
            end += int(line[5:])
        else:
            given.append((end, given_of(line)))
    return tuple(given), end


@pytest.mark.parametrize("seed", range(3))
def test_anything_after_anything(examples: Path, tmp_path: Path, seed: int) -> None:
    """The run is always what `tsb run` makes of what is saved, with the same marks."""
    rng = random.Random(seed)
    log = Log.of((it, row([rng.randint(1, 8)])) for it in range(5, 4000, 37))
    source = Source("quad", (examples / "quad.json").read_bytes(), log)
    run = Run(source)
    for _ in range(6):
        for _ in range(25):
            acted(run, rng)
            shown = run.bench.show().line
            assert letters(run, run.now) == heads(shown)
            assert run.track.end == run.tape.end >= run.now
            assert run.plan == run.bench.plan
        lines = replayed(run, tmp_path)
        assert not lines or lines[-1].tick == run.now
        marks = [[tick for tick in it.ticks if tick <= run.now] for it in run.watched]
        assert marks == marked_anew(run)
        for tick in rng.sample(range(1, run.now + 1), min(9, run.now)):
            if not run.tape.given_at(tick):
                assert letters(run, tick) == heads(lines[tick - 1].line)
            assert inputs_on(run, tick) == on(run.tape.row(tick))
    run.close()
