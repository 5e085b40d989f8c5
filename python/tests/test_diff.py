"""What differs between two plans: lines, what follows from them, and the command."""

from itertools import islice
from pathlib import Path
from typing import NamedTuple

import pytest
import tsb
from hypothesis import given, settings
from hypothesis import strategies as st
from tsb import Plan, seconds
from tsb.__main__ import main
from tsb.diff import Change, following, laid_over, lines_of, timing_lines
from tsb.manual import NEWEST, OBJECTS
from tsb.patterns import Timing, timings_of


@st.composite
def plans(draw: st.DrawFn) -> Plan:
    """A plan with a few values, of any version; it need not keep the rules."""
    version = draw(st.integers(1, NEWEST))
    plan = Plan(version)
    names = [name for name, it in OBJECTS.items() if it.counts(version)]
    for name in draw(st.lists(st.sampled_from(names), max_size=9)):
        what = OBJECTS[name]
        index = draw(st.integers(1, what.counts(version)))
        plan[name][index] = draw(st.integers(0, what.most(version)))
    return plan


@settings(max_examples=150, deadline=None)
@given(plans(), plans())
def test_laid_over_a_the_lines_give_b(a: Plan, b: Plan) -> None:
    """Whatever the versions of their texts are; and none are there where, and only
    where, the plans are the same."""
    lines = [str(it) for it in a.diff(b)]
    assert laid_over(a, map(Change.of, lines)) == b.wide(NEWEST)
    assert (lines == []) == (a.wide(NEWEST) == b.wide(NEWEST))
    assert a.diff(a) == []


def test_each_kind_of_line(examples: Path) -> None:
    """In the order of the manual; an index of several parts has their names, and a
    value its time or its phases."""
    a = Plan.read(examples / "main_and_oak.json")
    b = a.wide()
    b["sequenceData"][1, 2, 1] = 6
    b["splitTime"][2, 3] = 7
    b["phasePassage"][2] = seconds(2.5)
    b["phaseConcurrency"][2] = {5}
    b["phaseConcurrency"][1] = ()
    b["phaseWalk"][2], b["phaseWalk"][16] = 0, 5
    b["overlapIncludedPhases"][2] = {16, 1}
    b["vehicleDetectorMaxPresence"][2] = 5
    b["overlapType"][1] = 1
    assert list(map(str, a.diff(b))) == [
        "phaseConcurrency.1: 48 -> 0 (no phase)",
        "phaseConcurrency.2: 48 -> 16 (phase 5)",
        "phaseWalk.2: 7 -> 0 (0 s)",
        "phaseWalk.16: 0 -> 5 (5 s)",
        "phasePassage.2: 30 -> 25 (2.5 s)",
        "vehicleDetectorMaxPresence.2: 0 -> 5 (5 min)",
        "overlapIncludedPhases.2: 0 -> 32769 (phases 1, 16)",
        "overlapType.1: 0 -> 1",
        "splitTime.19 (table 2, phase 3): 0 -> 7 (7 s)",
        "sequenceData.17 (sequence 1, ring 2, place 1): 5 -> 6",
    ]
    assert a.diff(b)[2] == Change("phaseWalk", 2, 7, 0)
    assert str(b.diff(a)[1]) == "phaseConcurrency.2: 16 -> 48 (phases 5, 6)"


def test_texts_of_two_versions(examples: Path) -> None:
    """An index is that of versions 2 and 3: split table 2 of version 1 begins at 9."""
    a = Plan.read(examples / "quad.json")
    assert a.version == 1 and a.diff(a.wide()) == []
    b = a.wide(NEWEST)
    b["splitTime"][2, 1] = 20
    assert list(map(str, a.diff(b))) == [
        "splitTime.17 (table 2, phase 1): 0 -> 20 (20 s)"
    ]


@pytest.mark.parametrize(
    "line, said",
    [
        ("", ": no line as phasePassage.2: 20 -> 25 (2.5 s)"),
        ("phaseWalk.2: 7 -> -1", "phaseWalk.2: 7 -> -1: no line as phasePassage.2: 20"
         " -> 25 (2.5 s)"),
        ("phaseWalk.17: 0 -> 1 (1 s)", "phaseWalk.17: its indices are 1 to 16"),
        ("phaseWlak.2: 0 -> 1", "version 3 has no object phaseWlak: did you mean"
         " phaseWalk?"),
        ("phaseWalk.2: 8 -> 9 (9 s)", "phaseWalk.2: 8 -> 9 (9 s): this plan has 7"),
        ("phaseWalk.2: 7 -> 256 (256 s)", "phaseWalk: 256 is not in 0 to 255 (seconds)"),
    ],
)  # fmt: skip
def test_lines_that_are_none(examples: Path, line: str, said: str) -> None:
    """They are refused, and so are those of another plan."""
    plan = Plan.read(examples / "main_and_oak.json")
    with pytest.raises(tsb.Error) as told:
        laid_over(plan, [Change.of(line)])
    assert str(told.value) == said


# What the bench says of patterns


def test_force_off_instants_of_the_manual(examples: Path) -> None:
    """Chapter 8 works them out by hand for this plan, with the green of each split."""
    timing = timings_of(Plan.read(examples / "coordination.json"))[1]
    assert timing.force_offs == {
        1: 550, 2: 950, 3: 100, 4: 400, 5: 550, 6: 950, 7: 100, 8: 400
    }  # fmt: skip
    assert timing.yields == {2: 950, 6: 950}
    greens = {1: 100, 2: 350, 3: 100, 4: 250}
    assert timing.greens == {
        **greens,
        **{it + 4: green for it, green in greens.items()},
    }
    assert timing.splits == {it: green + 50 for it, green in timing.greens.items()}


def test_force_off_of_a_long_crosswalk(examples: Path) -> None:
    """The manual has that of its left turns: 605, whatever recalls and modes are."""
    plan = Plan.read(examples / "late_force_off.json")
    assert timings_of(plan)[1].force_offs[1] == 605
    plan["coordForceMode"][1], plan["coordCorrectionMode"][1] = 2, 3
    plan["coordCorrectionLimit"][1] = 10
    assert timings_of(plan)[1].force_offs[5] == 605


def test_tenths(examples: Path) -> None:
    """The split of phase 4 has 25 s, 5.1 s of them yellow and red clearance. It ends 40
    s after that of phase 2, so the instant is 10 × 40 - 51."""
    timing = timings_of(Plan.read(examples / "main_and_oak.json"))[1]
    assert (timing.greens[4], timing.force_offs[4]) == (199, 349)


def test_lead_and_lag(examples: Path) -> None:
    """In pattern 2 phase 6 comes before 5: its split ends 15 s before that of 2, so its
    instant is 10 × (40 - 55) - 50, which is 800 in a cycle of 100 s. That of 5 is 950.
    """
    timing = timings_of(Plan.read(examples / "coordination.json"))[2]
    assert timing.yields == {2: 950, 6: 800} and timing.force_offs[5] == 950


def test_a_phase_that_others_keep_out(examples: Path) -> None:
    """With all called, 6 is served beside 1, and 5 not at all: 5 is asked for alone."""
    plan = Plan.read(examples / "coordination.json")
    plan["phaseConcurrency"][1], plan["phaseConcurrency"][5] = {6}, {2}
    plan["splitMode"] = dict.fromkeys(range(1, 9), 2)  # (maximum recall)
    instants = timings_of(plan)[1].force_offs
    assert (instants[1], instants[5], len(instants)) == (550, 550, 8)


def test_a_phase_that_a_pattern_omits_has_no_instant(examples: Path) -> None:
    """Nor has one a green of its split; a plan without patterns has no times."""
    plan = Plan.read(examples / "coordination.json")
    table = plan["patternSplitNumber"][1]
    plan["splitMode"][table, 3] = 5
    timing = timings_of(plan)[1]
    assert 3 not in timing.force_offs and 3 not in timing.greens
    assert timing.force_offs[7] == 100 and timing.splits[3] == 150
    assert timings_of(Plan.read(examples / "first_plan.json")) == {}


# The command


class Done(NamedTuple):
    """How a command ended."""

    status: int
    stdout: str
    stderr: str


def called(capsys: pytest.CaptureFixture[str], *words: str | Path) -> Done:
    """`python3 -m tsb` with these words."""
    try:
        status = main(list(map(str, words)))
    except SystemExit as ended:  # (as argparse ends for bad words)
        status = int(str(ended.code))
    return Done(status, *capsys.readouterr())


def test_what_follows(
    examples: Path, tmp_path: Path, capsys: pytest.CaptureFixture[str]
) -> None:
    """5 s more for the left turns 3 and 7, taken from 4 and 8: by hand the instants of
    3 and 7 come 5 s later, as their splits end so much later. A faster yellow of 2, by
    0.5 s, moves its yield by so much."""
    plan = Plan.read(examples / "coordination.json")
    table = plan["patternSplitNumber"][1]
    for phase, split in ((3, 20), (7, 20), (4, 25), (8, 25)):
        plan["splitTime"][table, phase] = split
    plan["phaseYellowChange"][2] = 35
    plan["patternCycleTime"][2] = 0
    for name in ("CycleTime", "SplitNumber", "SequenceNumber"):
        plan[f"pattern{name}"][8] = plan[f"pattern{name}"][1]
    plan.write(tmp_path / "b.json")
    done = called(capsys, "diff", examples / "coordination.json", tmp_path / "b.json")
    assert (done.status, done.stderr) == (1, "")
    assert done.stdout.partition("\n\n")[2].splitlines() == [
        "pattern 1, phase 3: split 15.0 s -> 20.0 s",
        "pattern 1, phase 4: split 30.0 s -> 25.0 s",
        "pattern 1, phase 7: split 15.0 s -> 20.0 s",
        "pattern 1, phase 8: split 30.0 s -> 25.0 s",
        "pattern 1, phase 2: force-off at 95.0 s -> 95.5 s",
        "pattern 1, phase 3: force-off at 10.0 s -> 15.0 s",
        "pattern 1, phase 7: force-off at 10.0 s -> 15.0 s",
        "pattern 1, phase 2: yield at 95.0 s -> 95.5 s",
        "pattern 2: not in use",
        "pattern 8: in use",
    ]


def test_times_of_a_pattern() -> None:
    """Phase by phase, of splits first; a phase that has no such time has none."""
    a = Timing({2: 400, 8: 300}, {2: 350}, {2: 950, 8: 0}, {2: 950})
    b = Timing({2: 355, 8: 345}, {8: 250}, {2: 950, 1: 5}, {})
    assert list(timing_lines(a, b)) == [
        "phase 2: split 40.0 s -> 35.5 s",
        "phase 8: split 30.0 s -> 34.5 s",
        "phase 1: force-off at none -> 0.5 s",
        "phase 8: force-off at 0.0 s -> none",
        "phase 2: yield at 95.0 s -> none",
    ]


def test_concurrency_by_phases(examples: Path) -> None:
    """Each pair once, by its numbers, and whether it goes together now."""
    a = Plan.read(examples / "quad.json")
    b = a.wide()
    for name in ("phaseConcurrency", "patternCycleTime"):
        b[name] = {}
    b["phaseConcurrency"] = {1: {5}, 5: {1}, 2: {6}, 6: {2}, 3: {7}, 7: {3}}
    pairs = [(1, 6), (2, 5), (3, 8), (4, 7), (4, 8)]
    told = list(islice(following(a, b), len(pairs)))
    assert told == [f"phases {p} and {q} are no longer concurrent" for p, q in pairs]
    told = list(islice(following(b, a), len(pairs)))
    assert told == [f"phases {p} and {q} are concurrent" for p, q in pairs]


def test_jumpers_of_the_card(examples: Path) -> None:
    """Overlap 4, channel 12 where a plan names none, includes phase 8 beside 4. Phase 3
    goes with 8 and not with 4; what else does was paired by phase 4."""
    a = Plan.read(examples / "arrows.json")
    b = a.wide()
    b["overlapIncludedPhases"][4] = {4, 8}
    assert list(following(a, b)) == ["card of the monitor: add 3-12"]
    assert list(following(b, a)) == ["card of the monitor: remove 3-12"]


def test_jumpers_are_in_their_order(examples: Path) -> None:
    """With phase 2 overlap 4 goes beside 5 and 6 too: their heads, the arrows of 1 and 5
    (channels 9 and 10) and the crosswalks of 2 and 6 (13 and 15)."""
    a = Plan.read(examples / "arrows.json")
    b = a.wide()
    b["overlapIncludedPhases"][4] = {2, 4}
    pairs = "2-12, 5-12, 6-12, 9-12, 10-12, 12-13, 12-15"
    assert list(following(a, b)) == [f"card of the monitor: add {pairs}"]


def test_statuses(
    examples: Path, tmp_path: Path, capsys: pytest.CaptureFixture[str]
) -> None:
    """0 for plans that are alike, 1 for others, 2 after a fault, which names the
    file."""
    quad, refused = examples / "quad.json", examples / "two_short_yellow.json"
    Plan.read(quad).wide().write(tmp_path / "wide.json")
    done = called(capsys, "diff", quad, tmp_path / "wide.json")
    assert done == (0, "", "")
    (tmp_path / "none.json").write_text('{"version": 2, "phaseWalk": {"2": 300}}')
    for path, said in (
        (tmp_path / "none.json", ": phaseWalk: 300 is not in 0 to 255 (seconds)"),
        (tmp_path / "gone.json", ": No such file or directory"),
    ):
        done = called(capsys, "diff", quad, path)
        assert done == (2, "", f"python3 -m tsb diff: {path}{said}\n")
    assert called(capsys, "diff", quad).status == 2
    assert called(capsys, "diff", refused, refused) == (0, "", "")
    done = called(capsys, "diff", examples / "two.json", refused)
    assert done.status == 1
    assert done.stdout.endswith(f"\n\n{refused}: plan: rule K8\n")


def test_a_plan_that_is_refused_has_its_fault(examples: Path) -> None:
    """In place of what follows; the lines of values come all the same."""
    a = Plan.read(examples / "coordination.json")
    b = a.wide()
    b["phaseYellowChange"][2] = 20
    assert list(lines_of(a, b, ("a", "b"))) == [
        f"phaseYellowChange.2: {a['phaseYellowChange'][2]} -> 20 (2.0 s)",
        "",
        "b: plan: rule K8",
    ]
