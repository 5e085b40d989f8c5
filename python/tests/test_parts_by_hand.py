"""Parts of the panel and of tsb.sumo at their boundaries, worked by hand: first and last
ticks, pulses of one tick, gaps of just a time."""

import os
import subprocess
import tempfile
from collections.abc import Iterator
from dataclasses import replace
from pathlib import Path
from typing import Any

import numpy as np
import pandas as pd
import pytest
from hypothesis import example, given, settings
from hypothesis import strategies as some

from tsb import Bench, Error, NoSuchTick, Refused
from tsb.lines import Display
from tsb.panel.keep import GIVEN_MOST, Source
from tsb.panel.marks import MARKS_MOST, Watched, walk_back
from tsb.manual import LAST_TICK
from tsb.panel.requests import (
    BadRequest,
    Begin,
    Commit,
    Free,
    Given,
    Hold,
    Lamp,
    Mark,
    NoLamp,
    Pattern,
    Pulse,
    Reset,
    Set,
    Switch,
    Verify,
    View,
)
from tsb.panel.run import Run
from tsb.panel.tape import Entry, Hand, Tape, ends_trip, place
from tsb.panel.track import Band, Track
from tsb.rows import ALL_OFF, Log, row
from tsb.sumo import crossroads, peers, read_trips, summary
from tsb.sumo.mapping import Mapping
from tsb.sumo.nema import _offset

# Marks


def marked(*ticks: int) -> Watched:
    """A value that changed at these ticks."""
    found = Watched("interval", 2, until=100)
    for tick in ticks:
        found.add(tick)
    return found


def test_marks_at_the_ends_of_a_view() -> None:
    """Those at its first and its last tick are given, and none outside."""
    of = marked(9, 10, 20, 30, 31)
    told = of.told(View(10, 30, 100))
    assert told["ticks"] == [10, 20, 30] and told["count"] == 5
    assert of.told(View(10, 10, 1))["ticks"] == [10]
    assert of.told(View(11, 19, 5))["ticks"] == [] == of.told(None)["ticks"]
    # one for a column at most: of 30 ticks in 3 columns
    assert of.told(View(1, 30, 3))["ticks"] == [9, 20, 30]
    assert marked(10, 19, 20).told(View(1, 30, 3))["ticks"] == [10, 20]
    assert (told["name"], told["watch"], told["number"]) == ("interval 2", "interval", 2)
    assert Watched("stage", 0).name == "stage"


def test_marks_of_a_column() -> None:
    """A column has one; where a tick has a column of its own, all are given."""
    assert marked(3, 4).told(View(0, 9, 100))["ticks"] == [3, 4]
    assert marked(100, 105, 109).told(View(100, 119, 4))["ticks"] == [100, 105]
    assert marked(0, 4).told(View(0, 18, 4))["ticks"] == [0, 4]
    assert Watched("stage", 0).until == 0 and MARKS_MOST == 20_000


@given(some.lists(some.integers(0, 20), max_size=20), some.integers(0, 20))
@settings(max_examples=40, deadline=None)
def test_marks_are_kept_in_order(ticks: list[int], cut: int) -> None:
    of = marked(*ticks)
    assert of.ticks == sorted(set(ticks))
    of.cut(cut)
    assert of.ticks == sorted(it for it in set(ticks) if it <= cut) and of.until == cut
    of.cut(1000)
    assert of.until == cut


def test_the_newest_marks_are_kept() -> None:
    of = Watched("trip", 0, ticks=list(range(MARKS_MOST)))
    of.add(MARKS_MOST)
    assert len(of.ticks) == MARKS_MOST and of.ticks[0] == 1 and of.ticks[-1] == MARKS_MOST


class Changes:
    """In place of a bench: values that changed at these ticks, up to the tick `now`."""

    def __init__(self, at: dict[int, list[int]], now: int) -> None:
        self.at, self.now = at, now

    def when(self, _watch: str, number: int) -> int | None:
        """The tick of the last change of a value."""
        return max((it for it in self.at[number] if it <= self.now), default=None)

    def seek(self, tick: int) -> None:
        """Goes back."""
        assert 0 <= tick <= self.now
        self.now = tick


TICKS = some.lists(some.integers(0, 9), max_size=6)


@given(some.tuples(TICKS, TICKS), some.integers(-1, 9), some.integers(1, 12))
@example(([0], [3, 0]), -1, 12)
@settings(max_examples=40, deadline=None)
def test_changes_are_found_by_going_back(
    at: tuple[list[int], list[int]], low: int, most: int
) -> None:
    """The newest so many ticks with a change after a tick, of all values; the bench is
    left before the first of them, as far as there is such a tick."""
    bench: Any = Changes(dict(enumerate(at, 1)), 9)
    watched = [Watched("interval", it) for it in (1, 2)]
    walk_back(bench, watched, low, most)
    found = sorted({it for of in at for it in of if it > low})[-most:]
    assert [it.ticks for it in watched] == [
        [it for it in found if it in of] for of in at
    ]
    assert bench.now == min((it for it in found if it), default=10) - 1


# The tape


def rows_of(tape: Tape, now: int, count: int) -> list[str]:
    """The rows of the next ticks, one for each."""
    return [row for row, ticks in tape.next_rows(now, count) for _ in range(ticks)]


@pytest.mark.parametrize("ticks", [1, 2, 3])
def test_a_pulse_is_over_after_its_ticks(ticks: int) -> None:
    """On in each of them, and off in the next."""
    tape = Tape()
    tape.grasp(10, place("vehicle", 2), Hand(True, 10 + ticks))
    found = rows_of(tape, 10, 5)
    assert found == [row({2})] * ticks + [ALL_OFF] * (5 - ticks)
    # what is asked in two parts is the same
    tape.take(tape.next_rows(10, 5))
    assert [tape.row(it) for it in range(1, 6)] == found


def test_hands_over_a_log() -> None:
    """A hand that is off hides the log, one that lets go shows it again."""
    tape = Tape(Log((3, 5), (row({1, 2}), row({1}))))
    assert rows_of(tape, 0, 6) == [ALL_OFF] * 2 + [row({1, 2})] * 2 + [row({1})] * 2
    tape.grasp(0, place("vehicle", 1), Hand(False))
    assert rows_of(tape, 0, 6) == [ALL_OFF] * 2 + [row({2})] * 2 + [ALL_OFF] * 2
    tape.grasp(0, place("pedestrian", 8), Hand(True))
    assert rows_of(tape, 3, 1) == [row({2}, {8})]
    tape.grasp(0, place("preempt", 1), Hand(True, 4))
    assert rows_of(tape, 3, 2) == [row({2}, {8}, {1}), row((), {8})]
    tape.grasp(0, place("vehicle", 1), None)
    assert rows_of(tape, 4, 1) == [row({1}, {8})]
    assert tape.hands(0).keys() == {71, 80} and tape.hands(0)[80].at(4)


def test_rows_that_were_taken() -> None:
    """Equal ones are one stretch; what lies ahead of a cut is gone."""
    tape = Tape()
    tape.take([(row({1}), 2), (row({1}), 1), (row({2}), 3)])
    assert tape.end == 6
    assert tape.taken(1, 6) == Log((1, 4), (row({1}), row({2})))
    assert tape.taken(2, 3) == Log((1,), (row({1}),))
    assert tape.taken(4, 4) == Log((4,), (row({2}),))
    assert [tape.row(it) for it in (0, 1, 3, 4, 6)] == [
        ALL_OFF, row({1}), row({1}), row({2}), row({2})
    ]  # fmt: skip
    tape.cut(4)
    assert tape.end == 4 and tape.taken(1, 9) == Log((1, 4), (row({1}), row({2})))
    tape.cut(3)
    assert tape.end == 3 and tape.taken(1, 9) == Log((1,), (row({1}),))
    tape.cut(9)
    assert tape.end == 3
    tape.grasp(2, 0, Hand(True))
    assert tape.end == 2 and tape.hands(1) == {} and tape.hands(2)[0].on


def test_hands_behind_a_cut_and_pulses_beside_one_another() -> None:
    """What a hand did after a cut is gone; pulses end in the order of their ticks."""
    tape = Tape()
    tape.grasp(5, 0, Hand(True))
    tape.cut(3)
    assert tape.hands(9) == {}
    tape.grasp(0, place("vehicle", 1), Hand(True, 16))
    tape.grasp(0, place("vehicle", 2), Hand(True, 9))
    found = list(tape.next_rows(0, 20))
    assert found == [(row({1, 2}), 9), (row({1}), 7), (ALL_OFF, 4)]


def test_a_pulse_that_ends_with_what_is_taken() -> None:
    """It leaves nothing behind: no row of no ticks, and none of less."""
    tape = Tape()
    tape.grasp(0, place("vehicle", 1), Hand(True, 5))
    assert list(tape.next_rows(0, 5)) == [(row({1}), 5)]
    tape.take(tape.next_rows(0, 5))
    tape.grasp(5, place("vehicle", 2), Hand(True))
    assert list(tape.next_rows(5, 3)) == [(row({2}), 3)]
    tape.take(tape.next_rows(5, 3))
    assert tape.taken(1, 8) == Log((1, 6), (row({1}), row({2})))


def test_inputs_that_are_no_ticks() -> None:
    """By their ticks; those at a cut stay, those after it go."""
    tape, on, off = Tape(), Switch(1, "on"), Switch(1, "off")
    inputs: list[Given] = [on, Lamp("P2", "R"), off, NoLamp()]
    for tick, what in zip((0, 5, 5, 8), inputs, strict=True):
        tape.give(tick, what, False)
    assert [it.tick for it in tape.before(5)] == [0, 5, 5] and len(tape.before(4)) == 1
    assert [tape.next_given(it) for it in (0, 4, 5, 8)] == [5, 5, 8, None]
    assert [len(tape.given_at(it)) for it in (0, 4, 5, 8)] == [1, 0, 2, 1]
    assert [sorted(tape.switches(it)) for it in (0, 4, 5)] == [[1], [1], []]
    assert [tape.lamp(it) for it in (4, 5, 8)] == [None, Lamp("P2", "R"), None]
    tape.give(6, Reset(), True)
    assert [it.tick for it in tape.given] == [0, 5, 5, 6] and tape.lamp(6) is None
    tape.cut(5)
    assert [it.tick for it in tape.given] == [0, 5, 5]
    assert ends_trip(Reset(), True) and not ends_trip(Reset(), False)
    assert not ends_trip(on, True)


# The track


def test_a_band_by_columns() -> None:
    """Green from 10 to 19 and from 30 on, of 40 ticks."""
    band = Band(ord("R"))
    for tick, letter in ((10, "G"), (20, "Y"), (23, "R"), (30, "G")):
        band.put(tick, ord(letter))
    assert list(band.ticks) == [0, 10, 20, 23, 30]
    assert band.shares(np.array([0.0, 10, 15, 20, 40]), 39) == [0, 100, 100, 50]
    assert band.shares(np.array([5.0, 15, 35, 40]), 39) == [50, 50, 100]
    assert [band.bands(*it) for it in ((0, 9), (9, 10), (10, 29), (30, 30))] == [
        (0, 1), (0, 2), (1, 4), (4, 5)
    ]  # fmt: skip
    band.put(30, ord("R"))  # (another letter from the same tick on)
    assert list(band.ticks) == [0, 10, 20, 23] and not band.is_dark()
    band.cut(19)
    assert list(band.ticks) == [0, 10]
    assert Band(ord("-")).is_dark() and Band(ord("0")).is_dark()


def test_a_band_that_is_put_again() -> None:
    """The letter of its newest tick is another; what begins a tick before stays."""
    band = Band(ord("R"))
    for tick, letter in ((5, "G"), (6, "R"), (6, "Y")):
        band.put(tick, ord(letter))
    assert list(band.ticks) == [0, 5, 6] and band.letters == b"RGY"


def test_shares_where_a_run_ends_in_a_column() -> None:
    """The column has the ticks that there are; one after the run has none. A head
    that is green all the time has all of the only column."""
    first = Display(0, "G" + "-" * 15, "-" * 16, "----", 0, None)
    track = Track(first)
    red, green = (first._replace(tick=it) for it in (5, 7))
    track.add([red._replace(vehicles="R" + "-" * 15), green], 7)
    shown = track.picture(View(0, 19, 4))["heads"][0]
    assert shown == {"head": "P1", "shares": [100, 33, 0, 0]}
    # a view that ends before the newest letter
    assert track.picture(View(0, 5, 2))["heads"][0]["shares"] == [100, 67]
    always = Track(first)
    always.add([], 9)
    assert always.picture(View(0, 9, 1))["heads"][0]["shares"] == [100]


def test_few_changes_in_view_are_bands() -> None:
    """However many there were before it: two columns for a band."""
    first = Display(0, "G" + "-" * 15, "-" * 16, "----", 0, None)
    track = Track(first)
    for tick in range(1, 21):
        letter = "GR"[tick % 2]
        track.add([first._replace(tick=tick, vehicles=letter + "-" * 15)], tick)
    for columns, name in ((4, "bands"), (3, "shares")):
        (shown,) = track.picture(View(19, 20, columns))["heads"]
        assert [*shown] == ["head", name]
    assert track.picture(View(19, 20, 4))["heads"][0]["bands"] == [[19, "R"], [20, "G"]]


def test_a_picture_of_a_track() -> None:
    """Heads that are never lit are left out, what is not known is not drawn."""
    dark = ALL_OFF.replace(" ", "")
    first = Display(0, "R" + "-" * 15, "-" * 16, "----", 0, None)
    track = Track(first)
    lit = first._replace(tick=5, vehicles="G" + "-" * 15)
    track.add([lit, lit._replace(tick=8, preempt=2)], 9)
    track.take(Log((4,), (row({3}),)))
    told = track.picture(View(0, 20, 100), inputs=True)
    assert (told["first"], told["last"], told["known"], told["columns"]) == (0, 20, 9, 100)
    assert told["heads"] == [
        {"head": "P1", "bands": [[0, "R"], [5, "G"]]},
        {"head": "preempt", "bands": [[0, "0"], [8, "2"]]},
        {"head": "D3", "bands": [[0, "0"], [4, "1"]]},
    ]
    assert len(dark) == 28
    # a view that begins in a band begins it there; more bands than half of the
    # columns are shares
    assert track.picture(View(6, 9, 100))["heads"][0] == {"head": "P1", "bands": [[6, "G"]]}
    assert track.picture(View(0, 9, 4))["heads"][0] == {
        "head": "P1", "bands": [[0, "R"], [5, "G"]]
    }  # fmt: skip
    assert track.picture(View(0, 9, 2))["heads"][0] == {"head": "P1", "shares": [0, 100]}
    track.cut(7)
    assert track.end == 7 and [it["head"] for it in track.picture(View(0, 9, 9))["heads"]] == ["P1"]
    track.cut(4)
    assert track.picture(View(0, 9, 9))["heads"] == [{"head": "P1", "bands": [[0, "R"]]}]
    track.add([lit._replace(tick=2)], 3)  # (known already)
    assert track.end == 4 and len(track.picture(View(0, 9, 9))["heads"][0]["bands"]) == 1


# A run


@pytest.fixture
def run(examples: Path) -> Iterator[Run]:
    """A run of eight phases without a log."""
    found = Run(Source.read(examples / "quad.json", None))
    yield found
    found.close()


def benches() -> int:
    """How many benches this process has that run."""
    words = ["ps", "-o", "stat=,comm=", "--ppid", str(os.getpid())]
    told = subprocess.run(words, capture_output=True, text=True).stdout.splitlines()
    return sum("tsb_live" in it and not it.startswith("Z") for it in told)


def test_a_run_that_cannot_be_taken_leaves_no_bench(examples: Path) -> None:
    """Its pattern is none; and a run that is closed has none either."""
    before = benches()
    source = Source.read(examples / "quad.json", None)
    with pytest.raises(Refused):
        Run(replace(source, given=((3, Pattern(9)),), end=5))
    assert benches() == before
    found = Run(replace(source, given=((3, Pattern(1)),), end=5))
    assert benches() == before + 1 and found.now == 5 and found.is_saved
    assert [it.tick for it in found.tape.given] == [3]
    found.close()
    assert benches() == before


def test_a_request_takes_ticks_for_a_while(run: Run) -> None:
    """Not as many as were asked for, if they are too many; else just those."""
    run.advance(LAST_TICK)
    assert 500 <= run.now < LAST_TICK
    was = run.now
    run.advance(was + 3)
    assert run.now == was + 3 and run.tape.end == was + 3
    run.go(10)
    assert run.now == 10 and run.tape.end == was + 3
    run.go(12)
    assert run.now == 12 and run.tape.end == was + 3
    assert run.drop() == was - 9 and run.tape.end == 12 and run.drop() == 0


def test_the_plan_at_a_tick(run: Run) -> None:
    """It is another after a commit, and the old one before it, forward and back."""
    first, serial = run.plan, run.serial
    run.advance(5)
    commands: list[Given] = [
        Begin(1), Set(1, "phaseWalk", 2, 9), Verify(1), Commit(1)
    ]  # fmt: skip
    for it in commands:
        run.give(it)
    assert run.plan["phaseWalk"][2] == 9 and run.serial > serial
    serial = run.serial
    run.advance(9)
    assert run.serial == serial
    run.go(3)
    assert run.plan == first and run.serial > serial
    run.go(9)
    assert run.plan["phaseWalk"][2] == 9
    run.go(5)
    assert run.undo() == "commit" and run.plan == first
    assert [it.what.line for it in run.tape.given] == [it.line for it in commands[:3]]
    run.undo()
    assert run.tape.end == 5 and len(run.tape.given) == 2


def test_what_is_refused_leaves_a_run(run: Run) -> None:
    """Nothing lies ahead that was not there, and nothing is dropped."""
    run.advance(15)
    assert not run.is_saved
    run.go(10)
    run.advance(20)
    assert run.now == run.tape.end == 20
    run.go(10)
    run.is_saved = True
    with pytest.raises(Refused):
        run.give(Pattern(9))
    assert run.tape.end == 20 and run.is_saved and run.tape.given == []
    run.give(Pattern(1))
    assert run.tape.end == 10 and not run.is_saved
    for _ in range(11):
        kind = run.undo()
    assert kind == "tick" and run.now == 0
    with pytest.raises(NoSuchTick, match="there is no input to take back"):
        run.undo()


def test_a_run_has_so_many_inputs(run: Run) -> None:
    """The last of them is taken, and one more is refused."""
    run.tape.given = [Entry(0, NoLamp(), False)] * (GIVEN_MOST - 1)
    run.give(NoLamp())
    assert len(run.tape.given) == GIVEN_MOST == 100_000
    with pytest.raises(BadRequest, match="this run has 100000 inputs already"):
        run.give(NoLamp())
    assert len(run.tape.given) == GIVEN_MOST


def test_hands_of_a_run(run: Run) -> None:
    """A pulse is on in just its ticks, whatever was asked before."""
    run.advance(4)
    run.grasp(Pulse("vehicle", 4, 3))
    run.advance(12)
    on = [tick for tick in range(1, 13) if run.tape.row(tick)[3] == "1"]
    assert on == [5, 6, 7]
    run.go(6)  # (what lies ahead is taken again, from its first tick on)
    run.go(12)
    assert run.bench.when("input", 4) == 8
    run.grasp(Hold("pedestrian", 2, True))
    run.advance(14)
    assert run.tape.row(13)[18] == "1" == run.tape.row(14)[18]
    run.go(13)
    run.grasp(Free("pedestrian", 2))
    assert run.tape.end == 13 and not run.is_saved
    run.advance(15)
    assert run.tape.row(14) == ALL_OFF


def test_marks_of_a_run(run: Run) -> None:
    """Eight values at most; those of a reset and of ticks that are taken again."""
    run.grasp(Hold("vehicle", 4, True))
    run.advance(60)
    assert run.mark(Mark("interval", 2, True)) == "interval 2: 2 changes up to tick 60"
    assert run.watched[0].ticks == [1, 51] and run.watched[0].until == 60
    assert run.now == 60
    run.advance(95)
    assert run.watched[0].ticks == [1, 51, 81, 91] and run.watched[0].until == 95
    run.mark(Mark("interval", 2, True))
    assert len(run.watched) == 1
    for number in range(3, 10):
        run.mark(Mark("interval", number, True))
    with pytest.raises(BadRequest, match="8 values are marked already"):
        run.mark(Mark("interval", 10, True))
    assert run.mark(Mark("interval", 9, False)) == "interval 9: marked no more"
    assert len(run.watched) == 7
    run.give(Lamp("P4", "R"))
    run.advance(130)
    trip = run.mark(Mark("trip", 0, True))
    assert trip.startswith("trip: 1 change up")
    run.give(Reset())
    assert run.watched[-1].ticks[-1] == 130
    run.undo()
    assert run.watched[-1].ticks[-1] < 130
    ticks, now = [it.ticks[:] for it in run.watched], run.now
    run.go(0)
    run.go(now)
    assert [it.ticks for it in run.watched] == ticks


def test_marks_of_what_is_taken_again(run: Run) -> None:
    """Those of ticks that lie ahead of where the mark was made."""
    run.grasp(Hold("vehicle", 4, True))
    run.advance(95)
    run.go(60)
    run.mark(Mark("interval", 2, True))
    assert run.watched[0].ticks == [1, 51]
    run.go(95)
    assert run.watched[0].ticks == [1, 51, 81, 91]
    run.go(52)
    run.give(NoLamp())
    assert run.undo() == "fault" and run.watched[0].ticks == [1, 51]


def test_what_a_watch_takes_back_is_taken_again(run: Run, examples: Path) -> None:
    """In the ticks and with the rows that there were: a pulse of one tick too, at which
    the watched value changes."""
    plain = Run(Source.read(examples / "quad.json", None))
    run.mark(Mark("input", 4, True))
    for it in (run, plain):
        it.advance(5)
        it.grasp(Pulse("vehicle", 4, 1))
        it._take(60)
        assert it.now == 65
    assert run.watched[0].ticks == [6, 7]
    assert run.bench.status == plain.bench.status
    assert run.bench.when("call", 4) == plain.bench.when("call", 4) == 6
    plain.close()


def test_a_reset_that_ends_a_trip(run: Run) -> None:
    """It is known which did."""
    run.give(Reset())
    run.advance(60)
    run.give(Lamp("P4", "G"))
    run.advance(90)
    run.give(Reset())
    assert [it.ended_trip for it in run.tape.given] == [False, False, True]


def test_places_of_a_broken_rule(run: Run) -> None:
    """Those of the last verify, of the rule that is asked for; also of an edit that the
    plan's own version has not."""
    edits: list[Given] = [
        Begin(1), Set(1, "phaseYellowChange", 2, 20), Set(1, "phaseRedRevert", 4, 1)
    ]  # fmt: skip
    for it in edits:
        run.give(it)
    assert run.places("K8") == []
    assert run.verify(Verify(1)) == "rule K8"
    assert run.places("K8") == ["phase 2: its yellow is 2 s, under 3 s"]
    assert run.places("K9") == run.places(None) == []
    run.give(Set(1, "overlapAcrossRings", 1, 1))
    run.verify(Verify(1))
    assert run.places("K8") == ["phase 2: its yellow is 2 s, under 3 s"]
    run.give(Set(1, "phaseYellowChange", 2, 30))
    assert run.verify(Verify(1)) == "ok" and run.places("K8") == []


def test_ticks_that_are_refused_are_not_taken(
    run: Run, monkeypatch: pytest.MonkeyPatch
) -> None:
    """The run is at the tick before all of them, as what was taken is."""
    run.advance(5)

    def refused(_count: int) -> None:
        run.bench.step(3)
        raise Refused("refused E1 Memory", "a tick")

    monkeypatch.setattr(run.bench, "changes", refused)
    with pytest.raises(Refused):
        run.advance(20)
    assert run.now == run.tape.end == 5


def test_a_run_that_is_begun_again(run: Run) -> None:
    """All that was given is given again, up to the tick at which it was."""
    run.give(Pattern(1))
    run.advance(30)
    run.give(Lamp("P2", "R"))
    run.advance(50)
    line, given = run.bench.show().line, list(run.tape.given)
    run.bench.kill()
    run.again()
    assert (run.now, run.bench.show().line, run.tape.given) == (50, line, given)
    run.advance(51)
    assert run.now == 51


def test_benches_that_are_left_are_ended(
    run: Run, monkeypatch: pytest.MonkeyPatch
) -> None:
    """The old one where the run was begun again, the new one where it was not."""
    run.advance(5)
    opened: list[Bench] = [run.bench]
    monkeypatch.setattr(Source, "open", lambda it: _kept(opened, it))
    run.again()
    assert run.bench is opened[1] and opened[0]._talk._in.closed

    def fails(_target: int) -> None:
        raise Error("it fails")

    monkeypatch.setattr(run, "_take_again", fails)
    with pytest.raises(Error, match="it fails"):
        run.again()
    assert run.bench is opened[1] and opened[2]._talk._in.closed
    assert not opened[1]._talk._in.closed and run.bench.show().tick == 5


def _kept(opened: list[Bench], source: Source) -> Bench:
    """A bench on the plan of a source, which is kept."""
    with tempfile.NamedTemporaryFile(suffix=".json") as file:
        file.write(source.plan)
        file.flush()
        opened.append(Bench(file.name, events=False))
    return opened[-1]


def test_marks_after_an_undo(examples: Path) -> None:
    """A watch of a fault that is taken back by its reset: its marks are those that a
    new watch finds."""
    run = Run(Source.read(examples / "quad.json", None))
    try:
        run.advance(50)
        run.mark(Mark("interval", 2, True))
        run.give(Lamp("P2", "R"))
        run.advance(run.now + 30)
        run.give(Reset())
        run.undo()
        kept = list(run.watched[0].ticks)
        run.mark(Mark("interval", 2, True))
        assert run.watched[0].ticks == kept
    finally:
        run.close()


# SUMO


def test_the_offset_of_a_program_of_type_nema() -> None:
    """The cycle of SUMO begins with the coordinated green, a tenth before."""
    plan = crossroads.plan(pattern=True)
    table = plan["patternSplitNumber"][1]
    split, cycle = plan["splitTime"][table, 2], plan["patternCycleTime"][1]
    for offset in (0, 1, split, split + 1, cycle - 1):
        plan["patternOffsetTime"][1] = offset
        assert _offset(plan, 1) == pytest.approx((offset - split) % cycle - 0.1)
    plan["patternOffsetTime"][1] = split
    assert _offset(plan, 1) == pytest.approx(-0.1)


def heads_of(letters: str) -> list[str]:
    """The heads in which phase 2 alone is lit so."""
    return [f"R{it}RRRRRR" for it in letters]


def test_a_gap_by_what_is_off_to_its_end() -> None:
    """An input that is on in the tick after the green ends no gap; one that was off
    in all of a green was off for as long as the green."""
    plan = crossroads.plan()
    plan["phasePassage"] = {it: 3 for it in range(1, 9)}
    off, on = "00000000", "11111111"
    for phase in range(1, 9):
        green = "".join("G" if it == phase else "R" for it in range(1, 9))
        heads = ["RRRRRRRR"] * 2 + [green] * 7 + ["RRRRRRRR"] * 2
        for rows, gapped in (
            ([on] * 11, False),
            ([on] * 4 + [off] * 5 + [on] * 2, False),
            ([off] * 11, True),
        ):
            assert list(peers.greens(rows, heads, plan)) == [
                peers.Green(phase, 3, 7, gapped)
            ]
        for passage, gapped in ((6, True), (7, False), (8, False)):
            plan["phasePassage"][phase] = passage
            (found,) = peers.greens([off] * 11, heads, plan)
            assert found.gapped is gapped


def test_a_gap_of_just_the_passage_has_not_passed() -> None:
    """Phase 2 of a passage of 3 ticks is green in ticks 3 to 9, and is off in its last
    ones; what is off a tick longer has passed."""
    plan = crossroads.plan()
    plan["phasePassage"][2] = 3
    heads = heads_of("RRGGGGGGGYYY")
    for off, passed in ((0, False), (2, False), (3, False), (4, True), (7, True)):
        rows = ["01000000"] * (10 - off) + ["00000000"] * off + ["01000000"] * 2
        (found,) = peers.greens(rows, heads, plan)
        assert found == peers.Green(2, 3, 7, passed), off
    # a green that goes on is none
    assert list(peers.greens(["0" * 8] * 4, heads_of("RGGG"), plan)) == []
    assert len(list(peers.greens(["0" * 8] * 5, heads_of("RGGGY"), plan))) == 1


def test_times_without_green() -> None:
    heads = heads_of("RRGRRRGR")
    assert [peers.longest_without(heads, it) for it in ((2,), (1,), (1, 2))] == [3, 8, 3]
    assert peers.longest_without(heads_of("GG"), (2,)) == 0
    assert peers.longest_without([], (2,)) == 0


def test_spells_and_their_calm() -> None:
    """A spell ends when both were alike for 100 ticks, and not for 99."""
    ours = heads_of("G" * 300)
    for calm, count in ((99, 1), (100, 2)):
        theirs = list(ours)
        theirs[10] = theirs[11 + calm] = "RYRRRRRR"
        found = peers.spells(theirs, ours)
        assert [it.begin for it in found] == [11, 12 + calm][:count]
        assert sum(it.ticks for it in found) == 2
        assert (found[0].theirs, found[0].ours, found[0].cause) == ("2Y", "stays", "end")
    assert peers.spells(ours, ours) == []


def test_causes_of_spells() -> None:
    """What each did in the first tick that differs, of both greens 2 and 6."""
    green, yellow = "RGRRRGRR", "RYRRRYRR"
    for theirs, ours, cause in (
        ([green, yellow, yellow], [green, green, green], "both"),
        ([green, green, yellow], [green, yellow, yellow], "later"),
        ([green, green, green], [green, yellow, yellow], "hold"),
        ([green, "RYRRRGRR", green], [green, green, green], "end"),
        ([green, "RYRRRGRR", "GRRRRGRR"], [green, green, green], "return"),
        (["RRRRRRRR", green], ["RRRRRRRR", "RRRGRRRR"], "choice"),
    ):
        found = peers.spells(theirs, ours)
        assert [it.cause for it in found] == [cause]
        assert peers.causes(found) == {cause: 1}
    # before the first tick all is red
    (first,) = peers.spells(["YRRRRRRR"], ["RRRRRRRR"])
    assert (first.begin, first.cause, first.theirs) == (1, "end", "1Y")


def test_returns_to_the_left_turn_of_a_ring() -> None:
    """From each through phase, whatever the other ring does; a phase that is green
    again is no other, and a left turn that ends goes back to none."""
    for through, left in ((2, 1), (4, 3), (6, 5), (8, 7)):
        theirs = [
            lit(**{f"P{through}": letter, **{f"P{it}": "G" for it in others}})
            for letter, others in (
                ("G", []), ("Y", []), ("R", [5 if through < 5 else 4]), ("G", []),
                ("R", [left]),
            )
        ]  # fmt: skip
        ours = [theirs[0]] * len(theirs)
        found = peers.spells(theirs, ours)
        assert [it.cause for it in found] == ["return"], through
        # (the ring has no other green after it)
        assert peers.spells(theirs[:4], ours[:4])[0].cause == "end"
        lefts = [lit(**{f"P{left}": letter}) for letter in "GYR"]
        assert peers.spells(lefts, lefts[:1] * 3)[0].cause == "end"


def lit(**heads: str) -> str:
    """Heads, with all others red."""
    return "".join(heads.get(f"P{it}", "R") for it in range(1, 9))


def test_what_each_did_in_the_first_tick() -> None:
    """Against the tick before, and before the first tick all are red."""
    red, green, both = lit(), lit(P2="G"), lit(P2="G", P6="G")
    (found,) = peers.spells([green, green], [both, green])
    assert (found.begin, found.ticks) == (1, 1)
    assert (found.theirs, found.ours, found.cause) == ("2G", "2G 6G", "choice")
    # what was yellow before has not ended now
    before, now = lit(P2="G", P6="Y"), lit(P2="Y", P6="Y")
    (found,) = peers.spells([both, before, now, now], [both, before, before, before])
    assert (found.theirs, found.ours, found.cause) == ("2Y", "stays", "end")
    # theirs ends in the tick after, and goes on with it
    yellow = lit(P2="Y")
    (found,) = peers.spells([green, green, yellow, red], [green, yellow, yellow, red])
    assert (found.begin, found.ticks, found.cause) == (2, 1, "later")
    (found,) = peers.spells([green] * 2 + [yellow] * 2, [green] + [yellow] * 2 + [red])
    assert (found.ticks, found.cause) == (2, "later")


@pytest.mark.parametrize("begin", [None, "2026-11-30 07:00:00"])
@pytest.mark.parametrize("pattern", [0, 1])
def test_answers_are_those_of_a_bench(pattern: int, begin: str | None) -> None:
    """By the first eight inputs; what is beside them is off. With a begin it has a clock."""
    plan = crossroads.plan(pattern=True)
    rows = ["0001000000"] * 400 + ["1000000000"] * 900
    with Bench(plan) as bench:
        if begin is not None:
            bench.set_clock(begin)
        if pattern:
            bench.set_pattern(pattern)
        shown = bench.ticks(it + ALL_OFF[10:] for it in rows)
        wanted = [it.vehicles[:8] for it in shown]
    assert peers.answers(rows, plan, pattern, begin) == wanted
    if not pattern:
        assert peers.answers(rows, plan) == wanted
    elif begin is None:
        assert peers.answers(rows, plan, 1) == wanted
    else:
        assert peers.answers(rows, plan, 1) != wanted
    assert (peers.answers(rows, plan, 1 - pattern) != wanted) and len(wanted[0]) == 8


TRIPS = """<tripinfos>
<tripinfo id="a" depart="0" departLane="W_0" departDelay="1.5" arrival="10"
 arrivalLane="E_out_1" duration="10" routeLength="100" waitingTime="2" timeLoss="3" vType="car"/>
<tripinfo id="b" depart="5" departLane="W_0" departDelay="0" arrival="0" arrivalLane="E_1"
 duration="0" routeLength="0" waitingTime="4" timeLoss="5" vType="car"/>
<tripinfo id="c" depart="4.9" departLane="W_0" departDelay="0" arrival="-1" arrivalLane=""
 duration="90" routeLength="50" waitingTime="80" timeLoss="80" vType="car"/>
<personinfo id="p"><walk depart="-1" arrival="-1" duration="1" routeLength="1"/>
<walk depart="0" arrival="9" duration="9" routeLength="12" timeLoss="2"/></personinfo>
</tripinfos>"""


def test_trips_that_did_not_end_have_lost_nothing(tmp_path: Path) -> None:
    """The one that is under way lost the most, and is not counted; one that ends at
    time 0 is. A walk that never began is none."""
    path = tmp_path / "trips.xml"
    path.write_text(TRIPS)
    trips = read_trips(path)
    assert list(trips["lost"]) == [4.5, 5.0, 80.0, 2.0]
    assert list(trips["from"]) == ["W", "W", "W", ""] and trips["to"][0] == "E_out"
    found = summary(trips)
    assert found.loc["car"].to_dict() == {
        "ended": 2, "under_way": 1, "lost": 4.75, "lost_95": 4.97, "lost_most": 5.0,
        "waiting": 3.0,
    }  # fmt: skip
    assert found.loc["person", "ended"] == 1 and found.loc["person", "lost"] == 2.0
    assert list(summary(trips, 5).index) == ["car"]
    assert summary(trips, 4.9).loc["car", "under_way"] == 1
    assert summary(trips, 5).loc["car", "ended"] == 1
    assert Mapping("C").json() == {"tls": "C"}
    assert isinstance(trips, pd.DataFrame)
