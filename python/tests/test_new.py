"""Plans to begin with: the real programs judge and run them, for choices of phases that
hypothesis makes."""

import re
import subprocess
import sys
import tempfile
from collections.abc import Iterator, Sequence
from contextlib import contextmanager
from pathlib import Path

import pytest
from hypothesis import example, given, settings
from hypothesis import strategies as st
from tsb import Log, NoProgram, Plan, programs, row
from tsb.manual import OBJECTS
from tsb.measures import greens_a_cycle
from tsb.new import FILL_IN, PROGRAM, main
from tsb.tasks import recorded

EIGHT = ["--phases", "2,4,6,8", "--lefts", "1,3,5,7"]
THROUGH, LEFT = "phases", "lefts"
#: What phases 1 to 8 are.
CHOICES = st.tuples(*[st.sampled_from(["", THROUGH, LEFT])] * 8).filter(any)
ALL_LEFTS = (LEFT,) * 8
ALL_THROUGHS = (THROUGH,) * 8
#: One approach alone: the through and the left of one street in one direction.
APPROACH = ("", THROUGH, "", "", LEFT, "", "", "")


def phases_of(choice: Sequence[str], kind: str) -> list[int]:
    """The phases of a kind."""
    return [phase for phase, it in enumerate(choice, 1) if it == kind]


@contextmanager
def made(words: Sequence[str]) -> Iterator[Path]:
    """The plan that the words make."""
    with tempfile.TemporaryDirectory() as folder:
        out = Path(folder) / "plan.json"
        assert main([*words, "--out", str(out)]) == 0
        yield out


def words_of(choice: Sequence[str]) -> list[str]:
    """The words for a choice."""
    of = {kind: phases_of(choice, kind) for kind in (THROUGH, LEFT)}
    return [f"--{kind}={','.join(map(str, it))}" for kind, it in of.items() if it]


def any_choice(runs: int) -> settings:
    """So many choices, the same each time."""
    return settings(max_examples=runs, deadline=None, database=None, derandomize=True)


@any_choice(40)
@given(CHOICES)
@example(ALL_LEFTS)
@example(ALL_THROUGHS)
@example(APPROACH)
def test_each_choice_passes(choice: Sequence[str]) -> None:
    """`tsb check` takes it and `tsb_field review` has no advice; only what was asked
    for is enabled, and throughs alone have crosswalks."""
    with made(words_of(choice)) as out:
        plan = Plan.read(out)
        assert plan.fault() is None
        assert programs.run("tsb_field", ["review", out]).stdout == b""
    throughs, lefts = (phases_of(choice, it) for it in (THROUGH, LEFT))
    assert plan.phases == {*throughs, *lefts}
    assert list(plan["phaseWalk"]) == throughs
    assert dict(plan["pedestrianDetectorCallPhase"]) == {it: it for it in throughs}
    assert dict(plan["vehicleDetectorCallPhase"]) == {it: it for it in plan.phases}


@any_choice(15)
@given(CHOICES)
@example(ALL_LEFTS)
@example(ALL_THROUGHS)
@example(APPROACH)
def test_each_choice_serves_all(choice: Sequence[str]) -> None:
    """With cars on all detectors and all buttons pressed each phase has greens in free
    operation. In the pattern each that conflicts with another has one in each cycle."""
    with made(words_of(choice)) as out:
        plan = Plan.read(out)
        log = Log.of([(1, row(vehicles="1" * 8, pedestrians="1" * 8))])
        free = recorded(out, log, "step 8000\n")
        in_step = recorded(out, log, "pattern 1\nstep 12000\n")
    assert set(free.loc[free["code"] == 1, "parameter"]) == plan.phases
    of_pattern = in_step["code"].between(131, 149)
    told = in_step["tick"].mask(of_pattern, 4000)
    cycles = greens_a_cycle(in_step.assign(tick=told).query("tick >= 4000"))
    for phase in plan.phases:
        beside = plan["phaseConcurrency"].phases(phase)
        if plan.phases - beside - {phase}:
            counts = cycles.loc[phase, ["cycles", "without", "with_more"]]
            assert counts[0] > 3 and counts[1] == counts[2] == 0, phase


def test_the_plan_of_eight_phases(capsys: pytest.CaptureFixture[str]) -> None:
    """Its values are those of docs/use/PYTHON.md, all others are 0."""
    with made(EIGHT) as out:
        plan = Plan.read(out)
    lefts, mains, sides = (1, 3, 5, 7), (2, 6), (4, 8)
    throughs = sorted(mains + sides)

    def each(left: int, main_street: int, side: int) -> dict[int, int]:
        kinds = ((lefts, left), (mains, main_street), (sides, side))
        return {it: value for of, value in kinds for it in of if value}

    wanted = {
        "phaseEnabled": each(1, 1, 1),
        "phaseNonLock": each(1, 0, 0),
        "phaseMinRecall": each(0, 1, 0),
        "phaseDualEntry": each(0, 1, 1),
        "phaseRing": {it: 1 if it < 5 else 2 for it in range(1, 9)},
        "phaseSide": {1: 1, 2: 1, 5: 1, 6: 1, 3: 2, 4: 2, 7: 2, 8: 2},
        "phaseConcurrency": {
            1: 48, 2: 48, 3: 192, 4: 192, 5: 3, 6: 3, 7: 12, 8: 12,
        },
        "phaseWalk": each(0, 7, 7),
        "phasePedestrianClear": each(0, 15, 20),
        "phaseMinimumGreen": each(5, 10, 7),
        "phaseMaximum1": each(20, 40, 30),
        "phaseMaximum2": each(25, 60, 40),
        "phasePassage": each(20, 30, 25),
        "phaseMinimumGap": each(20, 30, 25),
        "phaseYellowChange": each(40, 40, 40),
        "phaseRedClear": each(20, 15, 15),
        "unitRedRevert": {1: 20},
        "vehicleDetectorCallPhase": {it: it for it in range(1, 9)},
        "pedestrianDetectorCallPhase": {it: it for it in throughs},
        "sequenceData": {
            1: 1, 2: 2, 3: 3, 4: 4, 17: 5, 18: 6, 19: 7, 20: 8,
        },
        "coordForceMode": {1: 1},
        "coordCorrectionMode": {1: 2},
        "coordCorrectionLimit": {1: 17},
        "patternCycleTime": {1: 110},
        "patternSplitNumber": {1: 1},
        "patternSequenceNumber": {1: 1},
        "patternPermissiveTime": {1: 5},
        "splitTime": each(16, 45, 33),
        "splitCoordPhase": each(0, 1, 0),
    }  # fmt: skip
    assert {name: dict(it) for name, it in plan.items()} == wanted
    told = capsys.readouterr().out.splitlines()
    assert told[0].endswith(
        "plan.json: through 2 4 6 8, left 1 3 5 7; pattern 1 has a cycle of 110 s"
    )
    assert told[1] == "tsb check: plan ok; tsb_field review: no advice"


def test_what_is_to_be_filled_in(capsys: pytest.CaptureFixture[str]) -> None:
    """The closing lines name objects. The plan has all of them but the offset."""
    with made(EIGHT) as out:
        plan = Plan.read(out)
    told = capsys.readouterr().out
    named = [name for objects, _ in FILL_IN for name in objects.split(", ")]
    assert set(named) <= set(OBJECTS) and all(f"{name}" in told for name in named)
    assert [it for it in named if not plan[it]] == ["patternOffsetTime"]
    for what in ("distance", "speed"):
        assert what in told
    assert max(map(len, told.splitlines()[1:])) <= 120


BAD_WORDS = [
    ([], "name a phase of 1 to 8 by --phases or --lefts, at least"),
    (["--phases", "9"], "argument --phases: '9' is no phase of 1 to 8"),
    (["--phases", "2,,4"], "argument --phases: '' is no phase of 1 to 8"),
    (["--lefts", "0"], "argument --lefts: '0' is no phase of 1 to 8"),
    (["--lefts", "one"], "argument --lefts: 'one' is no phase of 1 to 8"),
    (["--phases", "02"], "argument --phases: '02' is no phase of 1 to 8"),
    (["--phases", "2,6,2"], "phase 2 is named twice"),
    (["--phases", "2,6", "--lefts", "5,6"], "phase 6 is named twice"),
    (["--phases", "2", "4"], "unrecognized arguments: 4"),
    (["--phases"], "argument --phases: expected one argument"),
]


@pytest.mark.parametrize(("words", "fault"), BAD_WORDS)
def test_bad_words(
    words: list[str], fault: str, tmp_path: Path, capsys: pytest.CaptureFixture[str]
) -> None:
    """One line, status 2, and nothing is written."""
    out = tmp_path / "plan.json"
    with pytest.raises(SystemExit) as ended:
        main([*words, "--out", str(out)])
    assert ended.value.code == 2
    assert capsys.readouterr() == ("", f"{PROGRAM}: {fault}\n")
    assert not out.exists()


def test_no_file_is_named(capsys: pytest.CaptureFixture[str]) -> None:
    """It has to be."""
    with pytest.raises(SystemExit) as ended:
        main(EIGHT)
    fault = "the following arguments are required: --out"
    assert ended.value.code == 2
    assert capsys.readouterr().err == f"{PROGRAM}: {fault}\n"


def test_a_file_that_is_there_stays(
    tmp_path: Path, capsys: pytest.CaptureFixture[str]
) -> None:
    """Status 1, as for a folder that is not there."""
    out = tmp_path / "plan.json"
    out.write_text("kept")
    assert main([*EIGHT, "--out", str(out)]) == 1
    assert out.read_text() == "kept"
    fault = f"{out}: there is such a file: name another"
    assert capsys.readouterr() == ("", f"{PROGRAM}: {fault}\n")
    none = tmp_path / "no" / "plan.json"
    assert main([*EIGHT, "--out", str(none)]) == 1
    assert capsys.readouterr() == (
        "", f"{PROGRAM}: {none}: No such file or directory\n"
    )  # fmt: skip


def test_without_the_programs(tmp_path: Path, monkeypatch: pytest.MonkeyPatch) -> None:
    """Nothing is written that they have not judged."""
    monkeypatch.setattr(programs, "REPOSITORY", tmp_path)
    monkeypatch.setenv("TSB_BIN", "")
    monkeypatch.setenv("PATH", str(tmp_path))
    out = tmp_path / "plan.json"
    with pytest.raises(NoProgram):
        main([*EIGHT, "--out", str(out)])
    assert not out.exists()


CLOSING = """\
plan.json: through 2 4 6 8, left 1 3 5 7; pattern 1 has a cycle of 110 s
tsb check: plan ok; tsb_field review: no advice
Fill in what only the street can say; these values hold its place:
  phaseYellowChange: speed of the approach, grade
  phaseRedClear: speed, distance through the intersection
  phasePedestrianClear: distance from curb to curb, at 3.5 feet a second
  phasePassage, phaseMinimumGap: length and distance of the detectors, speed
  vehicleDetectorCallPhase, pedestrianDetectorCallPhase: channels of the cabinet (now n calls phase n)
  patternCycleTime, patternOffsetTime, splitTime: counts of vehicles, distances to the next signals
No advice asks for these, since a plan has no speeds and distances. But as they
grow, a review says what no longer fits: a walk in its split (A12) or its
maximum (A13), a minimum green in its split (A27, A43).
"""


def test_the_words_of_the_documents(top: Path, tmp_path: Path) -> None:
    """The page has the command, which writes the plan of eight phases and says what to
    fill in; the listing of commands has it."""
    (command,) = re.findall(
        r"^python/\.venv/bin/python -m tsb new .*$",
        (top / "docs/use/PYTHON.md").read_text(), re.M,
    )  # fmt: skip
    words = command.split()[1:]
    done = subprocess.run(
        [sys.executable, *words], cwd=tmp_path, capture_output=True, text=True,
        check=True,
    )  # fmt: skip
    assert done.stdout == CLOSING
    with made(EIGHT) as out:
        assert (tmp_path / words[-1]).read_text() == out.read_text()
    listed = subprocess.run(
        [sys.executable, "-m", "tsb"], capture_output=True, text=True, check=True
    )
    assert "  new       A plan of up to eight phases with" in listed.stdout
