"""Scenario files: their text, what is met and what comes in its place. Runs are those
of the real programs; what is expected of them was worked by hand."""

import os
import re
import signal
import subprocess
import sys
from collections.abc import Callable, Iterator
from dataclasses import replace
from pathlib import Path

import pytest
from hypothesis import given, settings
from hypothesis import strategies as st
from tsb import Bench, Error, Event, Log, Plan
from tsb.lines import Display, Lines
from tsb.panel.run import Run
from tsb.rows import ALL_OFF, fields, row
from tsb.scenario import Scenario, ScenarioFault, play, source_of
from tsb.scenario.expect import (
    Always,
    Came,
    Missed,
    Never,
    Once,
    Played,
    Shown,
    Span,
    Stretch,
    Waits,
)
from tsb.scenario.faults import Place, Word
from tsb.scenario.play import _rows, newest
from tsb.scenario.text import LINE_LONGEST, LONGEST
from tsb.scenario.times import Term, Time, Times
from tsb.test import main

#: Phases 2 and 6 rest in green; a car at phase 4 ends them after their minimum of 5 s.
CAR = "plan quad.json\nat 10 V4 on\n"
Write = Callable[[str], Path]


@pytest.fixture
def write(tmp_path: Path, examples: Path, monkeypatch: pytest.MonkeyPatch) -> Write:
    """Writes a scenario into a folder that has the plan, and goes there."""
    (tmp_path / "quad.json").write_bytes((examples / "quad.json").read_bytes())
    monkeypatch.chdir(tmp_path)

    def written(text: str) -> Path:
        Path("a.scenario").write_text(text)
        return Path("a.scenario")

    return written


def played(path: Path) -> list[tuple[int, int, str]]:
    """The lines that are not met, with the tick to look at and what came."""
    return [(it.line, it.tick, it.came) for it in play(Scenario.read(path)).misses]


# The text of a file

FAULTS = {
    "walk 4\nexpect P2 G": "a.scenario:1: walk: no line begins so: plan, log, include,"
    " needs, set, let, until, at, expect do",
    "expcet P2 G": "a.scenario:1: expcet: no line begins so: did you mean expect? plan,"
    " log, include, needs, set, let, until, at, expect do",
    "plan": "a.scenario:1: plan: the line ends here: give the file of a plan",
    "plan a\n\n# b\nplan b": "a.scenario:4: b: there is such a line before",
    "log a\nlog b c": "a.scenario:2: b c: there is such a line before",
    "until 5\nuntil 6": "a.scenario:2: 6: there is such a line before",
    "include none": "a.scenario:1: none: No such file or directory",
    "at 5 V65 on": "a.scenario:1: V65: no input: V1 to V64, B1 to B16 and I1 to I8 are"
    " inputs",
    "at 5 V0 on": "a.scenario:1: V0: no input: V1 to V64, B1 to B16 and I1 to I8 are"
    " inputs",
    "at 5 P2 on": "a.scenario:1: P2: no input: V1 to V64, B1 to B16 and I1 to I8 are"
    " inputs",
    "at 5 V4": "a.scenario:1: V4: the line ends here: give on or off",
    "at 5 V4 on off": "a.scenario:1: off: no word belongs here",
    "at 5": "a.scenario:1: 5: the line ends here: give inputs with on or off, or a"
    " command",
    "at 5 step 3": "a.scenario:1: step: no input and no command: V1 to V64, B1 to B16 and"
    " I1 to I8 are inputs",
    "at soon V4 on": "a.scenario:1: soon: no line before has `let soon ..`",
    "at 5+ V4 on": "a.scenario:1: 5+: no time: give a tick, as 120, a sum as"
    " 1+phaseMinimumGreen.2, or 7:42 of the clock",
    "at 12345678901 V4 on": "a.scenario:1: 12345678901: no time: give a tick, as 120,"
    " a sum as 1+phaseMinimumGreen.2, or 7:42 of the clock",
    "at 7:4 V4 on": "a.scenario:1: 7:4: no time: give a tick, as 120, a sum as"
    " 1+phaseMinimumGreen.2, or 7:42 of the clock",
    "at 2026-02-30T7:42 V4 on": "a.scenario:1: 2026-02-30T7:42: '2026-02-30T7:42': day is"
    " out of range for month: give a time as 7:42 or 7:42:10.5, with a day as 2026-11-22"
    " 7:42",
    "at 1+phaseWlak.2 V4 on": "a.scenario:1: phaseWlak.2: version 3 has no object"
    " phaseWlak: did you mean phaseWalk?",
    "at phaseWalk.17 V4 on": "a.scenario:1: phaseWalk.17: phaseWalk.17: its indices are"
    " 1 to 16",
    "at phaseRing.2 V4 on": "a.scenario:1: phaseRing.2: phaseRing is no time",
    "at phaseWalk V4 on": "a.scenario:1: phaseWalk: a value of the plan is OBJECT.INDEX,"
    " as phaseWalk.2",
    "let Green 5": "a.scenario:1: Green: a name has small letters, digits and _",
    "let a 5\nlet a 6": "a.scenario:2: a: there is such a time before",
    "needs phaseWalk": "a.scenario:1: phaseWalk: a value of the plan is OBJECT.INDEX, as"
    " phaseWalk.2",
    "needs phaseWalk.2 x": "a.scenario:1: x: give a number",
    "needs phaseWalk.2 4294967296": "a.scenario:1: 4294967296: give a number of 0 to"
    " 4294967295",
    "set phaseWalk.2 256": "a.scenario:1: 256: phaseWalk: 256 is not in 0 to 255"
    " (seconds)",
    "set phaseWalk.2 -1": "a.scenario:1: -1: a value of the plan is OBJECT.INDEX, as"
    " phaseWalk.2",
    "set phaseWalk.** 1": "a.scenario:1: phaseWalk.**: a value of the plan is"
    " OBJECT.INDEX, as phaseWalk.2",
    "expect P17 G": "a.scenario:1: P17: no head: P1 to P16, W1 to W16 and O1 to O16 are"
    " heads",
    "expect P02 G": "a.scenario:1: P02: no head: P1 to P16, W1 to W16 and O1 to O16 are"
    " heads",
    "expect W17 W": "a.scenario:1: W17: no head: P1 to P16, W1 to W16 and O1 to O16 are"
    " heads",
    "expect O17 G": "a.scenario:1: O17: no head: P1 to P16, W1 to W16 and O1 to O16 are"
    " heads",
    "expect X1 G": "a.scenario:1: X1: no head: P1 to P16, W1 to W16 and O1 to O16 are"
    " heads",
    "expect event 5 65536": "a.scenario:1: 65536: give its parameter of 0 to 65535",
    "expect V4 on": "a.scenario:1: V4: no head: P1 to P16, W1 to W16 and O1 to O16 are"
    " heads",
    "expect P2 W at 5": "a.scenario:1: W: P2 shows one of GYRF-",
    "expect W2 not G at 5": "a.scenario:1: G: W2 shows one of WCD-",
    "expect preempt 9 at 5": "a.scenario:1: 9: preempt shows one of 012345678",
    "expect P2": "a.scenario:1: P2: the line ends here: give what P2 shows: one of GYRF-",
    "expect P2 G from 5": "a.scenario:1: 5: the line ends here: give to",
    "expect P2 G until 5": "a.scenario:1: until: give from here",
    "expect P2 G from 5 to 6 7": "a.scenario:1: 7: no word belongs here",
    "expect never P2 G with": "a.scenario:1: with: the line ends here: give a head, as"
    " P2",
    "expect event 5": "a.scenario:1: 5: the line ends here: give its parameter",
    "expect event x 4": "a.scenario:1: x: give a code of an event",
    "expect event 256 4": "a.scenario:1: 256: give a code of an event of 0 to 255",
    "expect event 12345678901 4": "a.scenario:1: 12345678901: give a code of an event",
    "expect no walk 4": "a.scenario:1: no: no head: P1 to P16, W1 to W16 and O1 to O16 are"
    " heads",
    "expect wait 17 at most 5": "a.scenario:1: 17: give a phase of 1 to 16",
    "expect wait 4 over 5": "a.scenario:1: over: give at here",
    "plan \x1b[31m": "a.scenario:1: a sign that is not shown",
    "include a\0b": "a.scenario:1: a sign that is not shown",
    "# nothing": "a.scenario: it expects nothing: give a line `expect ..`",
    "x" * (LINE_LONGEST + 1): "a.scenario:1: over 1000 characters",
}


@pytest.mark.parametrize("text", FAULTS)
def test_a_fault_names_file_line_and_word(text: str, write: Write) -> None:
    with pytest.raises(Error) as fault:
        Scenario.read(write(text))
    assert str(fault.value) == FAULTS[text]


#: What only a run finds: the plan has to be known.
LATER = {
    "expect P2 G by 15\nuntil 14": "a.scenario:4: 14: a line names tick 15, which is"
    " later",
    "expect P2 G from 6 to 5": "a.scenario:3: 6: from tick 6 to 5 there is no tick",
    "at 5-5 V4 on\nexpect P2 G": "a.scenario:3: 5-5: it is 0: a tick is 1 to 6000000",
    "let a 1-phaseYellowChange.2\nexpect P2 G at a": "a.scenario:4: a: it is -29: a tick"
    " is 1 to 6000000",
    "at 6000001 V4 on\nexpect P2 G": "a.scenario:3: 6000001: it is 6000001: a tick is 1"
    " to 6000000",
    "at 5+5 V4 off\nexpect P2 G": "a.scenario:3: 5+5: V4 goes on and off there",
    "at 20 pattern x\nexpect P2 G": "a.scenario:3: pattern x: bad command:"
    " docs/use/MANUAL.md, chapter 6, has the commands with their ranges, and"
    " docs/use/LIVE.md those of a live run",
    "set phaseYellowChange.2 29\nexpect P2 G": "a.scenario on quad.json: plan: rule K8:"
    " The yellow of a phase is at least 30, that is 3.0 s. usual cause: it is missing, or"
    " given in seconds; cure: give tenths: 40 for 4.0 s",
    "set phaseEnabled.2 phaseMinimumGreen.2\nexpect P2 G": "a.scenario:3: phaseEnabled: 5"
    " is not in 0 to 1 (yes or no)",
    "log none.log\nexpect P2 G": "none.log: No such file or directory",
    "log quad.json\nexpect P2 G": "quad.json: log line 1: malformed",
}


@pytest.mark.parametrize("text", LATER)
def test_a_fault_that_a_run_finds(text: str, write: Write) -> None:
    with pytest.raises(Error) as fault:
        play(Scenario.read(write(CAR + text)))
    assert str(fault.value) == LATER[text]


def test_faults_of_plans(write: Write, tmp_path: Path) -> None:
    """A file that is missing, no plan, none at all, and what never ends."""
    os.mkfifo("pipe")
    Path("bad.json").write_text("[]")
    for plan, told in {
        "plan none.json": "none.json: No such file or directory",
        "plan bad.json": "bad.json: plan: not a table: JSON, but no object",
        "plan pipe": "pipe: no file as others are",
        "plan /dev/zero": "/dev/zero: no file as others are",
        "": "a.scenario: it names no plan, and --plan gives none",
    }.items():
        with pytest.raises(Error) as fault:
            play(Scenario.read(write(f"{plan}\nexpect P2 G at 1")))
        assert str(fault.value) == told
    with pytest.raises(
        Error, match="^a.scenario: it names no tick: give a line `until"
    ):
        play(Scenario.read(write("plan quad.json\nexpect P2 G")))


def test_files_of_strangers(write: Write) -> None:
    """Too large, no text, a folder, a pipe: one line each, and no wait."""
    for made, told in {
        b"#" * (LONGEST + 1): "a.scenario: too large: over 1 MiB",
        b"plan a\n\xff": "a.scenario:2: no text in UTF-8",
    }.items():
        Path("a.scenario").write_bytes(made)
        with pytest.raises(Error) as fault:
            Scenario.read(Path("a.scenario"))
        assert str(fault.value) == told
    os.mkfifo("b.scenario")
    with pytest.raises(Error, match="no file as others are"):
        Scenario.read(Path("b.scenario"))
    with pytest.raises(Error, match="No such file"):
        Scenario.read(Path("c.scenario"))


@settings(max_examples=300, deadline=None, database=None, derandomize=True)
@given(st.text(max_size=60) | st.lists(st.sampled_from(
    "plan log include needs set let until at expect P2 G V4 on from to by with 5 6 event"
    " no never wait most phaseWalk.2 phaseWalk.* + 5+a a quad.json pattern".split()
), max_size=8).map(" ".join))  # fmt: skip
def test_any_text_has_one_fault_or_none(text: str) -> None:
    """Whatever a file has, it is read, or refused in one line."""
    import tempfile

    with tempfile.TemporaryDirectory() as folder:
        path = Path(folder, "a.scenario")
        path.write_text(text, encoding="utf-8", errors="replace")
        try:
            Scenario.read(path)
        except Error as fault:
            assert str(fault) and "\n" not in str(fault)


def test_comments_ends_of_lines_and_spaces(write: Write) -> None:
    text = (
        "  plan   quad.json  # the plan\r\n\t# nothing\r\n\r\nexpect  P2 G at 1 # a\r\n"
    )
    (found,) = Scenario.read(write(text + "#" * LINE_LONGEST)).expectations
    assert (found.text, found.place.number) == ("expect P2 G at 1", 4)


# Times

PLACE = Place("a.scenario", 1)
TERMS = st.lists(
    st.tuples(st.sampled_from("+-"), st.integers(0, 999) | st.sampled_from("abc")),
    min_size=1,
    max_size=6,
)


@given(TERMS, st.fixed_dictionaries({it: st.integers(0, 999) for it in "abc"}))
@settings(max_examples=200, deadline=None, database=None, derandomize=True)
def test_a_sum_is_what_its_terms_are(
    terms: list[tuple[str, int | str]], values: dict[str, int]
) -> None:
    """As Python adds it up."""
    text = "".join(f"{sign}{what}" for sign, what in terms)
    named = {
        name: Time(Word(str(value), PLACE), (Term(1, value),))
        for name, value in values.items()
    }
    time = Time.of(Word(text, PLACE), named)
    told = [(s, values[it] if isinstance(it, str) else it) for s, it in terms]
    wanted = sum(it if s == "+" else -it for s, it in told)
    times = Times(Plan(3), named)
    if 1 <= wanted <= 6_000_000:
        assert times.of(time) == wanted
    else:
        with pytest.raises(ScenarioFault, match=f"it is {wanted}: "):
            times.of(time)


def test_values_count_by_their_units(examples: Path) -> None:
    """Minutes, seconds and tenths of a second, of a plan of version 1 by the indices of
    version 3."""
    plan = newest(Plan.read(examples / "quad.json"))
    plan["vehicleDetectorMaxPresence"][3] = 2
    for text, ticks in {
        "vehicleDetectorMaxPresence.3": 1200,
        "phaseMinimumGreen.2": 50,
        "phaseYellowChange.2": 30,
        "splitTime.2": 250,
        "patternOffsetTime.2-patternCycleTime.2+100": 90,
        "6000000": 6_000_000,
    }.items():
        assert Times(plan, {}).of(Time.of(Word(text, PLACE), {})) == ticks, text


#: A car at phase 4 from the tick on with which 7:00:01 comes: phase 4 is green from the
#: tick after its minimum of 5 s, yellow and red clearance of 4 s. A pattern comes later.
CLOCKED = """\
plan quad.json
at 0 clock 2026-11-22 07:00:00
let car 7:00:01
at car V4 on
at 07:00:11.5+5 pattern 1
expect P4 G by 2026-11-22T7:00:09.1
expect P4 R from 7:00:00.1 to 7:00:09
expect P4 G at car+phaseMinimumGreen.2+31
until 7:00:20
"""


def test_times_of_the_clock(write: Write) -> None:
    """A time is the tick that the bench gives it by the clock set at tick 0. A clock that
    is set later gives none."""
    scenario = Scenario.read(write(CLOCKED))
    assert played(write(CLOCKED)) == []
    source = source_of(scenario, 100)
    assert source.end == 200 and [it for it, _ in source.given] == [0, 120]
    later = f"at 50 clock 2026-11-22 12:00:00\n{CLOCKED}"
    assert source_of(Scenario.read(write(later)), 100).end == 200
    found = played(write(CLOCKED.replace("to 7:00:09\n", "to 7:00:09.1\n")))
    assert found == [(7, 91, "P4 R from 1 to 90, G at 91")]


@pytest.mark.parametrize(
    ("lines", "said"),
    [
        ("expect P2 G by 7:42", "1: 7:42: give a line `at 0 clock 2026-11-22 07:00:00`"),
        ("at 1 clock 2026-11-22 07:00:00\nexpect P2 G by 7:42",
         "2: 7:42: give a line `at 0 clock 2026-11-22 07:00:00`"),
        ("at 0 clock 2026-11-22 07:42:00\nexpect P2 G by 7:42",
         "2: 7:42: it is 0: a tick is 1 to 6000000"),
        ("at 0 clock 2026-11-22 07:42:00\nexpect P2 G by 2026-12-22T7:42",
         "2: 2026-12-22T7:42: no tick is so late"),
        ("at 0 clock today\nexpect P2 G by 7:42",
         "1: clock today: bad command: "),
    ],
)  # fmt: skip
def test_times_without_their_clock(lines: str, said: str, write: Write) -> None:
    """The word is named, and what it lacks."""
    path = write(f"{lines}\nplan quad.json\n")
    with pytest.raises(ScenarioFault) as fault:
        play(Scenario.read(path))
    assert str(fault.value).startswith(f"a.scenario:{said}"), str(fault.value)


def test_a_schedule_in_a_scenario(examples: Path, write: Write) -> None:
    """At 7:00 of a Monday pattern 1 is selected."""
    path = write("").with_name("quad.json")
    path.write_bytes((examples / "schedule.json").read_bytes())
    text = """\
plan quad.json
at 0 clock 2026-11-23 06:59:30
expect no event 131 1 from 1 to 6:59:59.9
expect event 131 1 at 7:00
"""
    assert played(write(text)) == []


# What is met

NONE = "-" * 16


def display(tick: int, letter: str, preempt: int = 0) -> Display:
    """A display in which phase 2 has a letter, and phase 4 is red."""
    return Display(tick, f"-{letter}-R{'-' * 12}", NONE, "G---", preempt, None)


#: Green from 1 to 50, yellow to 80, red to 100; a preempt from 81 on.
RUN = Played(
    [
        Stretch(1, 20, display(1, "G")),
        Stretch(21, 50, display(21, "G")),
        Stretch(51, 80, display(51, "Y")),
        Stretch(81, 100, display(81, "R", 1)),
    ],
    [
        Event(10, 43, 4), Event(51, 4, 2), Event(60, 43, 3), Event(61, 44, 3),
        Event(70, 1, 4), Event(70, 44, 4), Event(90, 4, 2), Event(95, 43, 4),
    ],
    100,
)  # fmt: skip
TIMES = Times(Plan(3), {})


def ticks(first: int | None, last: int | None) -> Span:
    """A span of these ticks."""
    found = (
        None if it is None else Time.of(Word(str(it), PLACE), {})
        for it in (first, last)
    )
    return Span(*found)


def most(count: int) -> Time:
    """So many ticks."""
    return Time.of(Word(str(count), PLACE), {})


GREEN, OVERLAP = Shown("P2", "G"), Shown("O1", "G")
NOT_GREEN, SERVED = Shown("P2", "G", True), Shown("preempt", "1")
BANDS = "P2 G from 1 to 50, Y from 51 to 80, R from 81 to 100"


@pytest.mark.parametrize(
    ("kind", "missed"),
    [
        (Always(GREEN, ticks(1, 50)), None),
        (Always(GREEN, ticks(1, 51)),
         Missed(51, "P2 G in each tick from 1 to 51", "P2 G from 1 to 50, Y at 51")),
        (Always(GREEN, ticks(60, 60)), Missed(60, "P2 G in each tick at 60", "P2 Y at 60")),
        (Always(NOT_GREEN, ticks(51, 100)), None),
        (Always(NOT_GREEN, ticks(50, 100)),
         Missed(50, "P2 not G in each tick from 50 to 100",
                "P2 G at 50, Y from 51 to 80, R from 81 to 100")),
        (Always(SERVED, ticks(81, 100)), None),
        (Always(SERVED, ticks(80, 100)),
         Missed(80, "preempt 1 in each tick from 80 to 100",
                "preempt 0 at 80, 1 from 81 to 100")),
        (Always(OVERLAP, ticks(None, None)), None),
        (Once(Shown("P2", "R"), ticks(None, 81)), None),
        (Once(Shown("P2", "R"), ticks(None, 80)),
         Missed(80, "P2 R in a tick from 1 to 80", "P2 G from 1 to 50, Y from 51 to 80")),
        (Once(GREEN, ticks(50, 100)), None),
        (Once(GREEN, ticks(51, 100)),
         Missed(100, "P2 G in a tick from 51 to 100",
                "P2 Y from 51 to 80, R from 81 to 100")),
        (Never((GREEN, SERVED), ticks(None, None)), None),
        (Never((GREEN, OVERLAP), ticks(21, None)),
         Missed(21, "in no tick from 21 to 100: P2 G with O1 G",
                "P2 G with O1 G from 21 to 50")),
        # (the first of two such stretches)
        (Never((Shown("P2", "Y", True),), ticks(None, None)),
         Missed(1, "in no tick from 1 to 100: P2 not Y", "P2 not Y from 1 to 50")),
        (Never((Shown("P2", "R"),), ticks(1, 80)), None),
        (Came(4, 2, ticks(51, 51)), None),
        (Came(4, 2, ticks(52, 89)),
         Missed(89, "an event 4 2 from 52 to 89", "event 4 2 at 51, 90")),
        (Came(5, 2, ticks(None, None)), Missed(100, "an event 5 2 from 0 to 100", "none")),
        (Came(5, 2, ticks(None, None), is_not=True), None),
        (Came(4, 2, ticks(52, None), is_not=True),
         Missed(90, "no event 4 2 from 52 to 100", "event 4 2 at 51, 90")),
        (Waits(4, most(60)), None),
        (Waits(4, most(59)),
         Missed(69, "no call of phase 4 waits for over 59 ticks",
                "a call waits from 10 to 70, for 60 ticks")),
        # (a call that goes without a green is none)
        (Waits(3, most(99)),
         Missed(100, "no call of phase 3 waits for over 99 ticks",
                "no call of it that was served")),
    ],
)  # fmt: skip
def test_what_is_met(
    kind: Always | Once | Never | Came | Waits, missed: Missed | None
) -> None:
    """On a run that is made by hand."""
    assert kind.missed(RUN, TIMES) == missed


def test_a_call_that_still_waits() -> None:
    """It counts by how long it has waited: 5 ticks from 95 to the end."""
    one = replace(RUN, events=[Event(1, 43, 4), Event(2, 1, 4), Event(95, 43, 4)])
    assert Waits(4, most(6)).missed(one, TIMES) is None
    told = "a call waits from 95 to the end, for 5 ticks"
    expected = "no call of phase 4 waits for over 5 ticks"
    assert Waits(4, most(5)).missed(one, TIMES) == Missed(100, expected, told)


def test_the_greatest_and_the_least_of_each(write: Write) -> None:
    """Heads, codes and parameters; in `quad` phases 9 to 16 are not enabled."""
    path = write(
        "plan quad.json\nexpect P16 - at 1\nexpect W16 - at 1\nexpect O4 - at 1\n"
        "expect preempt not 4 at 1\nexpect no event 0 0\nexpect no event 255 65535"
    )
    assert played(path) == []


def test_two_heads_and_the_last_tick(write: Write) -> None:
    """The run ends with the last tick that a line names, in any part of it."""
    path = write(
        "plan quad.json\nexpect never P2 G with P6 G from 5 to 30\nexpect P2 G by 7"
    )
    assert played(path) == [(2, 5, "P2 G with P6 G from 5 to 30")]
    assert source_of(Scenario.read(path), 0).end == 30
    for line, end in {"at 40 pattern 0": 40, "at 50 V4 on": 50, "until 60": 60}.items():
        path = write(f"plan quad.json\n{line}\nexpect P2 G by 7")
        assert source_of(Scenario.read(path), 0).end == end


def test_long_lists_are_cut() -> None:
    """Six bands, or ticks, and how many more there are."""
    letters = [Stretch(it, it, display(it, "GY"[it % 2])) for it in range(1, 11)]
    many = Played(letters, [Event(it, 4, 2) for it in range(1, 11)], 10)
    missed = Always(GREEN, ticks(2, 10)).missed(many, TIMES)
    assert missed is not None and missed.came == (
        "P2 G at 2, Y at 3, G at 4, Y at 5, G at 6, Y at 7, and 3 more"
    )
    for last, more in {7: "", 8: ", and 1 more"}.items():
        missed = Always(GREEN, ticks(2, last)).missed(many, TIMES)
        told = "P2 G at 2, Y at 3, G at 4, Y at 5, G at 6, Y at 7"
        assert missed is not None and missed.came == f"{told}{more}"
    came = Came(4, 2, Span(), is_not=True).missed(many, TIMES)
    assert came is not None and came.came == "event 4 2 at 1, 2, 3, 4, 5, 6, and 4 more"


@pytest.fixture(scope="module")
def quad_lines() -> Lines:
    """Each line of 300 ticks with a car at phase 4, and a preempt later on."""
    top = Path(__file__).resolve().parents[2]
    with Bench(top / "examples/quad.json", Log.of(CARS), events=False) as bench:
        return bench.step(300)


CARS = [(1, row([], [2])), (10, row([4])), (40, ALL_OFF), (150, row([], [], [1]))]
HEADS = st.sampled_from(["P2", "P4", "P6", "P8", "W2", "O1"])
TICKS = st.integers(1, 300)
SPANS = st.tuples(TICKS, TICKS).map(lambda it: (min(it), max(it)))


def as_it_reads(lines: Lines, words: list[str]) -> bool:
    """Whether a line about one head is met: each tick looked at, one after another."""
    _, head, letter, kind, *numbers = words
    first, last = 1 if kind == "by" else int(numbers[0]), int(numbers[-1])
    letters = [it.head(head) for it in lines if first <= it.tick <= last]
    return letter in letters if "by" in words else set(letters) == {letter}


@settings(max_examples=15, deadline=None, database=None, derandomize=True)
@given(st.lists(st.tuples(HEADS, st.sampled_from("GYRWCD"), SPANS, st.integers(0, 2)),
                min_size=20, max_size=40))  # fmt: skip
def test_many_lines_on_one_run(
    quad_lines: Lines, asked: list[tuple[str, str, tuple[int, int], int]]
) -> None:
    """Each is met or not as a reading of all display lines says."""
    import tempfile

    lines = []
    for head, letter, (first, last), form in asked:
        if letter in ("WCD" if head[0] == "W" else "GYR"):
            ends = [f"from {first} to {last}", f"by {last}", f"from {first} by {last}"]
            lines.append(f"expect {head} {letter} {ends[form]}")
    if not lines:
        return
    with tempfile.TemporaryDirectory() as folder:
        path = Path(folder, "a.scenario")
        plan = Path(__file__).resolve().parents[2] / "examples/quad.json"
        head_lines = [f"plan {plan}", "until 300", "at 1 B2 on", "at 10 B2 off"]
        head_lines += ["at 10 V4 on", "at 40 V4 off", "at 150 I1 on"]
        path.write_text("\n".join([*head_lines, *lines]))
        missed = {it.line - len(head_lines) for it in play(Scenario.read(path)).misses}
    wanted = {
        at for at, it in enumerate(lines, 1) if not as_it_reads(quad_lines, it.split())
    }
    assert missed == wanted


# Inputs

TURNS = st.dictionaries(
    st.integers(1, 40),
    st.dictionaries(st.sampled_from([0, 3, 15, 16, 63, 64, 72, 80, 87]), st.sampled_from("01")),
    max_size=8,
)
BASES = st.dictionaries(
    st.integers(1, 40), st.sets(st.integers(1, 16)).map(lambda it: row(it)), max_size=8
)


@given(BASES, TURNS)
@settings(max_examples=200, deadline=None, database=None, derandomize=True)
def test_rows_have_what_lines_turn(
    base: dict[int, str], turned: dict[int, dict[int, str]]
) -> None:
    """In each tick a digit is what the last line before it has turned it to, or else
    that of the log."""
    log = Log.of(sorted(base.items()))
    found = Log.of(_rows(log, turned))
    for tick in range(1, 45):
        for place in range(88):
            given = [
                turned[it][place]
                for it in sorted(turned)
                if it <= tick and place in turned[it]
            ]
            wanted = given[-1] if given else "".join(fields(log.at(tick)))[place]
            assert "".join(fields(found.at(tick)))[place] == wanted


def test_an_input_acts_in_its_tick_and_a_command_in_the_next(write: Write) -> None:
    """A switch at 60 is seen at 61; an input at 61 is seen there."""
    for line in ("at 60 preempt 1 on", "at 61 I1 on"):
        path = write(
            f"plan quad.json\n{line}\nexpect preempt 1 at 61\nexpect preempt 0 at 60"
        )
        assert played(path) == []


def test_lines_take_the_place_of_the_log(write: Write) -> None:
    """The log's car on detector 4 is off from tick 5 on, and that on 3 stays."""
    Path("two.log").write_text(f"0000003 {row([3, 4])}\n0000007 {row([3, 4, 1])}\n")
    path = write(
        "plan quad.json\nlog two.log\nuntil 20\nat 5 V4 off\nexpect event 82 4 at 3\n"
        "expect event 81 4 at 5\nexpect no event 82 4 from 4 to 20\nexpect event 82 1 at 7"
        "\nexpect no event 81 3"
    )
    assert played(path) == []


def test_commands_by_tick(write: Write) -> None:
    """Whatever the order of their lines."""
    path = write(
        "plan quad.json\nat 80 preempt 1 off\nat 60 preempt 1 on\nexpect preempt 1 at 61"
    )
    assert played(path) == []


def test_commands_of_a_session(write: Write) -> None:
    """A commit at 40: phase 2 has a minimum of 8 s, and yellow from 81 on."""
    path = write(
        f"{CAR}at 40 begin 1\nat 40 set 1 phaseMinimumGreen 2 8\nat 40 verify 1\n"
        "at 40 commit 1\nexpect P2 G from 1 to 80\nexpect P2 Y at 81"
    )
    assert played(path) == []


def test_events_before_the_first_tick(write: Write) -> None:
    """A pattern that is selected at tick 0 has its event there."""
    path = write(
        "plan quad.json\nuntil 5\nat 0 pattern 1\nexpect event 131 1\nexpect P2 G\n"
        "expect event 131 1 at 0\nexpect no event 131 1 from 1 to 5"
    )
    assert played(path) == []


def test_a_lamp_trips_after_its_tick(write: Write) -> None:
    """The display line of 60 is as before; from 61 on all flashes, until the reset."""
    path = write(
        "plan quad.json\nat 60 fault P3 G\nat 70 reset\nexpect P2 G from 1 to 60\n"
        "expect P2 F from 61 to 70\nexpect P2 G at 71\nexpect W2 - from 61 to 70\n"
        "expect P2 G at 61"
    )
    assert played(path) == [(8, 61, "P2 F at 61")]


@pytest.mark.parametrize(
    ("line", "tick", "answer"),
    [
        ("at 5 pattern 9", 5, "refused E9 NoSuchPattern: `pattern`: over 16, or its cycle is 0"),
        ("at 0 commit 1", 0, "refused E6 NotOpen: `set`, `verify`, `commit`, `abort`: no"
         " station has the desk"),
    ],
)  # fmt: skip
def test_a_refused_command_ends_the_run(
    line: str, tick: int, answer: str, write: Write
) -> None:
    path = write(f"plan quad.json\n{line}\nexpect P2 R at 100")
    (miss,) = play(Scenario.read(path)).misses
    assert (miss.line, miss.tick, miss.text) == (2, tick, line)
    assert (miss.expected, miss.came) == ("ok", answer)


def test_a_verify_that_finds_a_rule_broken(write: Write) -> None:
    path = write(
        "plan quad.json\nat 0 begin 1\nat 0 set 1 phaseYellowChange 2 20\nat 0 verify 1\n"
        "expect P2 R at 100"
    )
    assert played(path) == [(4, 0, "rule K8")]


# Values that are laid over the plan


def test_values_of_the_plan(write: Write) -> None:
    """A number, a value of the plan, all indices; the last line counts. Yellow of phase
    2 is 4.0 s, that of 6 as long, and red clearance 2.0 s."""
    path = write(
        f"{CAR}set phaseYellowChange.2 40\nset phaseYellowChange.6 phaseYellowChange.2\n"
        "set phaseRedClear.* 25\nset phaseRedClear.* 20\nexpect P2 Y from 51 to 90\n"
        "expect P6 Y from 51 to 90\nexpect P4 R from 1 to 110\nexpect P4 G at 111"
    )
    assert played(path) == []


def test_one_index_and_all_of_them(write: Write) -> None:
    """Phases 1 to 16, phase 3 alone; and the last input of each kind."""
    path = write(
        "plan quad.json\nset phaseMaximum2.* 30\nset phaseMaximum2.3 40\n"
        "at 5 V16 B8 I4 on\nexpect event 82 16 at 5\nexpect event 90 8 at 5\n"
        "expect event 102 4 at 5"
    )
    laid = Plan.of_text(source_of(Scenario.read(path), 0).plan)["phaseMaximum2"]
    assert dict(laid) == {it: 40 if it == 3 else 30 for it in range(1, 17)}
    assert played(path) == []


def test_the_plan_of_version_1_is_the_same_with_a_value_laid_over(write: Write) -> None:
    """Splits and sequences are at other indices in version 3."""
    path = write(
        "plan quad.json\nset phaseWalk.4 0\nat 0 pattern 1\nat 100 V3 on\n"
        "expect P2 G from 1 to 759\nexpect P2 Y at 760\nexpect P3 G at 800"
    )
    assert played(path) == []


def test_needs(write: Write) -> None:
    """The first that the plan lacks is the reason; what is laid over it does not count."""
    text = (
        "plan quad.json\nneeds phaseWalk.2\nneeds phaseSide.4 2\n{}\nexpect P2 R at 1\n"
    )
    for line, reason in {
        "needs phaseWalk.4": "phaseWalk.4 is 0",
        "needs phaseRing.4 2": "phaseRing.4 is 1, not 2",
        "set phaseWalk.4 7\nneeds phaseWalk.4": "phaseWalk.4 is 0",
        "needs phaseWalk.4 4294967295": "phaseWalk.4 is 0, not 4294967295",
        "needs phaseWalk.4 0": None,
        "needs phaseWalk.4\nat 1-phaseWalk.2 V4 on": "phaseWalk.4 is 0",
    }.items():
        result = play(Scenario.read(write(text.format(line))))
        assert result.left_out == reason
        assert bool(result.misses) == (reason is None)


def test_included_settings(write: Write) -> None:
    """Their faults name their own file and line; they have no other lines."""
    Path("more.settings").write_text("# more\nlet long 51\nset phaseRedClear.* 0\n")
    path = write(
        "include more.settings\nplan quad.json\nat 10 V4 on\nexpect P2 Y at long"
    )
    assert played(path) == []
    Path("more.settings").write_text("# more\nexpect P2 G\n")
    with pytest.raises(
        ScenarioFault, match="^more.settings:2: expect: no line begins so"
    ):
        Scenario.read(path)


# What is printed

FAILED = """\
a.scenario:3: not met: expect P4 G by 90
  expected: P4 G in a tick from 1 to 90
  came: P4 R from 1 to 90
  tick 90: 0000090 RRRRRRRR-------- -D-------------- R--- 0 ----
  phase 2 waits for phase 4, to which its ring is committed
  phase 4 waits for nothing more: it starts in the next tick
  phase 6 waits for phase 8, to which its ring is committed
  panel: python3 -m tsb test a.scenario --panel=90
a.scenario:5: not met: expect P2 Y at 5
  expected: P2 Y in each tick at 5
  came: P2 G at 5
  tick 5: 0000005 RGRRRGRR-------- -D-------------- G--- 0 ----
  no phase waits
  panel: python3 -m tsb test a.scenario --panel=5
1 run: 1 not met
"""


def test_the_text_of_a_failure(
    write: Write, capsys: pytest.CaptureFixture[str]
) -> None:
    """By the papers' times of `quad`: yellow at 51, green of 4 at 91."""
    path = write(f"{CAR}expect P4 G by 90\nexpect P4 G by 91\nexpect P2 Y at 5\n")
    assert main([str(path)]) == 1
    assert capsys.readouterr() == (FAILED, "")


def test_failures_are_in_the_order_of_their_lines(write: Write) -> None:
    """Each with the display line of its own tick."""
    path = write(f"{CAR}expect P2 Y at 5\nexpect P4 G by 90\nexpect P2 R at 50\n")
    misses = play(Scenario.read(path)).misses
    assert [it.line for it in misses] == [3, 4, 5]
    assert [int(it.display[:7]) for it in misses] == [5, 90, 50]


def test_another_plan_is_in_the_command(
    write: Write, capsys: pytest.CaptureFixture[str]
) -> None:
    path = write(f"{CAR}expect P4 G by 90\n")
    Path("two plans").mkdir()
    Path("two plans/b.json").write_bytes(Path("quad.json").read_bytes())
    assert main([str(path), "--plan", "two plans/b.json"]) == 1
    told = (
        "  panel: python3 -m tsb test a.scenario --panel=90 '--plan=two plans/b.json'\n"
    )
    assert told in capsys.readouterr().out


def test_statuses(write: Write, capsys: pytest.CaptureFixture[str]) -> None:
    """All files run, whatever one of them has."""
    good, bad = Path("good.scenario"), Path("bad.scenario")
    good.write_text(f"{CAR}expect P4 G by 91\n")
    bad.write_text("at 5 V65 on\n")
    missed = write(f"{CAR}needs phaseWalk.4\nexpect P4 G by 91\n")
    assert main([str(good), str(missed)]) == 0
    assert capsys.readouterr().out == (
        "good.scenario on quad.json: 1 met\n"
        "a.scenario on quad.json: left out: phaseWalk.4 is 0\n"
        "2 runs: 1 met, 1 left out\n"
    )
    missed = write(f"{CAR}expect P4 G by 90\n")
    assert (
        main([str(bad), str(missed), str(good), "--plan=quad.json", "--plan=none"]) == 2
    )
    told = capsys.readouterr()
    assert told.err == (
        "bad.scenario:1: V65: no input: V1 to V64, B1 to B16 and I1 to I8 are inputs\n"
        "none: No such file or directory\nnone: No such file or directory\n"
    )
    assert told.out.endswith(
        "good.scenario on quad.json: 1 met\n5 runs: 1 met, 1 not met, 3 with a fault\n"
    )
    with pytest.raises(SystemExit) as ended:
        main([str(good), str(missed), "--panel", "5"])
    assert ended.value.code == 2


# The panel at a tick


def test_a_panel_begins_at_the_tick(write: Write) -> None:
    """It shows what the run had there, and gives what lies ahead on the way forward: a
    switch at 60, and a car at 70."""
    path = write(
        "plan quad.json\nat 60 preempt 1 on\nat 70 V4 on\nat 0 preempt 2 off\n"
        "expect P3 G at 120\n"
    )
    run = Run(source_of(Scenario.read(path), 30))
    try:
        assert run.now == 30 and run.bench.show().preempt == 0 and run.tape.end == 120
        run.go(61)
        assert (
            run.bench.show().line
            == "0000061 RYRRRYRR-------- -D-------------- Y--- 1 ----"
        )
        run.go(120)
        assert run.bench.show().head("P3") == "G"
        assert run.bench.when("input", 4) == 70
    finally:
        run.close()


def test_a_panel_of_a_refused_command(write: Write) -> None:
    """It goes up to that command, and no further."""
    path = write(
        "plan quad.json\nat 5 preempt 1 on\nat 20 pattern 9\nexpect P2 R at 100\n"
    )
    run = Run(source_of(Scenario.read(path), 90))
    assert (run.now, run.tape.end, len(run.tape.given)) == (20, 20, 1)
    run.close()


def test_the_command_serves_a_panel(write: Write) -> None:
    path = write(f"{CAR}expect P4 G by 91\n")
    words = [sys.executable, "-m", "tsb", "test", str(path), "--panel", "40"]
    with subprocess.Popen(words, stdout=subprocess.PIPE, text=True) as process:
        assert process.stdout is not None
        said = process.stdout.readline()
        process.send_signal(signal.SIGINT)
        # (130 where the server was still beginning)
        assert process.wait(60) in (0, 130)
    told = r"quad\.json with a\.scenario: http://127\.0\.0\.1:\d+/\S+\n"
    assert re.fullmatch(f"(UNPROVED: )?{told}", said)


# The acceptance set

ACCEPTANCE = sorted(
    (Path(__file__).resolve().parents[2] / "examples/acceptance").glob("*.scenario")
)
#: Files that expect that nothing happens, however long.
NOTHING = {"minimum_without_call", "no_pedestrian_call", "non_locking", "preempt_delay"}


def others(examples: Path) -> Iterator[Path]:
    """Plans of the examples that have phases 2 and 4, in any form."""
    names = "quad main_and_oak no_advice tee railroad coordination right_turns two first_plan"
    yield from (examples / f"{it}.json" for it in names.split())


def test_the_acceptance_set_is_met() -> None:
    """Each file on its own plan, none left out; the first line names the section."""
    assert len(ACCEPTANCE) >= 30
    for path in ACCEPTANCE:
        result = play(Scenario.read(path))
        assert (result.text, result.left_out) == ("", None)
        first = path.read_text().split("\n")[0]
        assert re.match(
            r"# NEMA TS 2, section 3\.[567] \(|# NEMA TS 2, section 3\.5, and", first
        )


def test_the_acceptance_set_on_other_plans(examples: Path) -> None:
    """It is met there, or left out; and each file is met on some."""
    for path in ACCEPTANCE:
        results = [play(Scenario.read(path), it) for it in others(examples)]
        assert [it.text for it in results if it.misses] == []
        assert [it for it in results if it.left_out is None], path


@pytest.mark.parametrize("by", [-1, 1])
def test_the_acceptance_set_is_exact_to_the_tick(by: int) -> None:
    """With all ticks of its expectations a tick later, or a tick earlier, no file is
    met."""

    def moved(time: Time | None) -> Time | None:
        return None if time is None else replace(time, terms=(*time.terms, Term(by, 1)))

    for path in ACCEPTANCE:
        scenario = Scenario.read(path)
        for at, it in enumerate(scenario.expectations):
            span = it.kind.span
            if not isinstance(it.kind, Waits) and span.first is not None:
                other = Span(moved(span.first), moved(span.last))
                kind = replace(it.kind, span=other)
                scenario.expectations[at] = replace(it, kind=kind)
        try:
            is_met = not play(scenario).misses
        except ScenarioFault:  # (tick 0)
            continue
        assert not is_met or path.stem in NOTHING, path


def test_each_file_of_the_set_is_in_the_readme(examples: Path) -> None:
    text = (examples / "README.md").read_text()
    assert [it.stem for it in ACCEPTANCE if f"`{it.stem}`" not in text] == []
