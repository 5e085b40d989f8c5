"""How long a preempt waits for its green, whatever its moment: `python3 -m tsb preempt`."""

import json
import subprocess
import sys
from pathlib import Path

import pytest
from tsb import Bench, Log, Plan, preempt, programs
from tsb.__main__ import main
from tsb.lines import Display
from tsb.preempt import (
    PEDESTRIAN,
    VEHICLE,
    Conflict,
    Tries,
    conflict_of,
    first_stage,
    rows,
    tries,
)
from tsb.worksheet import Entry

#: What a try of a moment waits for here, at most.
WITHIN = 300


def anew(examples: Path, folder: Path, option: int) -> Path:
    """The plan at the railroad, with the option to choose anew or without."""
    plan = json.loads((examples / "railroad.json").read_text())
    plan |= {"version": 3, "preemptChoosesAnew": {"1": option}}
    path = folder / "plan.json"
    path.write_text(json.dumps(plan))
    return path


@pytest.mark.parametrize(("option", "longest", "at"), [(0, 163, 171), (1, 118, 625)])
def test_the_worst_moment_of_a_train(
    examples: Path, tmp_path: Path, option: int, longest: int, at: int
) -> None:
    """It waits for 16.3 s. Where the preempt chooses anew it waits for the 11.8 s that a
    worksheet adds up: 6 s of pedestrian clearance, 5.8 s of yellow and red clearance. Then
    the vehicles' row is that of a worksheet too, with the 5 s of the preempt's green."""
    path = anew(examples, tmp_path, option)
    with Bench(path, examples / "railroad.log", events=False) as bench:
        found = tries(bench, 1, frozenset({4, 7}), 900, WITHIN)
    assert found.worst == (longest, at) and not found.in_service
    if option:
        clearance = {"yellow": 43, "red": 15}
        assert found.longest == {
            VEHICLE: (624, Conflict(2, {"green": 50, **clearance})),
            PEDESTRIAN: (625, Conflict(6, {"clearance": 60, **clearance})),
        }
    entry = Plan.read(path).worksheet().entries[1]
    assert longest <= entry.delay + entry.longest == (122 if option else 171)
    assert found.waits[171] == (59 if option else 163)
    assert sorted(found.waits) == list(range(1, 901))


def test_tries_beside_sessions(examples: Path) -> None:
    """Some moments, each as a session of its own by `tsb run`."""
    plan, log = examples / "railroad.json", examples / "railroad.log"
    with Bench(plan, log, events=False) as bench:
        found = tries(bench, 1, frozenset({4, 7}), 200, WITHIN)
    for at in (1, 57, 171, 172, 200):
        commands = f"step {at}\npreempt 1 on\nstep {WITHIN}\n"
        done = programs.run("tsb", ["run", plan, log], commands.encode())
        lines = [it.split() for it in done.stdout.decode().splitlines()[at + 1 :]]
        first = next(i for i, it in enumerate(lines)
                     if it[4] == "1" and it[1][3] + it[1][6] == "GG")  # fmt: skip
        assert found.waits[at] == first


def test_the_lines(examples: Path, capsys: pytest.CaptureFixture[str]) -> None:
    """The rows are of the tries that took longest. From tick 171 on phases 2 and 6 clear
    for 5.7 s, and phase 8, to which ring 2 is committed, has its 5 s of green before
    phase 7. The moments with a walk or its clearance are shorter."""
    files = [str(examples / it) for it in ("railroad.json", "railroad.log")]
    assert main(["preempt", files[0], "1", files[1], "--ticks", "300"]) == 0
    assert capsys.readouterr().out.removeprefix("UNPROVED: ") == """\
preempt 1: the wait for the green of track phases 4 and 7
delay                       0.0 s
conflicting vehicle        16.3 s  from tick 171, phase 8: before it 5.7, green 5.0, yellow 3.6, red 2.0
conflicting pedestrian     11.6 s  from tick 229, phase 8: clearance 6.0, yellow 3.6, red 2.0
proved bound               17.1 s  delay 0.0, longest entry 17.1
worst found                16.3 s  from tick 171
300 moments tried, 300 with the green
phase 8 turned green in service: see preemptChoosesAnew, docs/use/MANUAL.md
"""


def test_moments_in_service_and_moments_without_a_green(
    examples: Path, tmp_path: Path, capsys: pytest.CaptureFixture[str]
) -> None:
    """They are counted apart, and the status is 1 where a green did not come in time."""
    row = "0000000000000000 00000000"
    (tmp_path / "day.log").write_text(f"0000101 {row} 1000\n0000111 {row} 0000\n")
    files = [str(examples / "railroad.json"), "1", str(tmp_path / "day.log")]
    assert main(["preempt", *files, "--within", "1"]) == 1
    told = capsys.readouterr().out.splitlines()[-6:]
    assert told == [
        "proved bound               17.1 s  delay 0.0, longest entry 17.1",
        "100 moments tried, 0 with the green",
        "not within 1 s: 100 moments, as tick 1",
        "left out, as a preempt was in service: 11 moments, as tick 101",
        "conflicting vehicle: no moment has one, so give a log that does",
        "conflicting pedestrian: no moment has one, so give a log that does",
    ]


def test_a_pattern_and_a_delay(
    examples: Path, capsys: pytest.CaptureFixture[str]
) -> None:
    """A pattern is selected before the first tick. A delay is part of the wait, and of no
    row: phase 2 begins its 4 s of walk with tick 1, and ends it within the delay."""
    files = [str(examples / it) for it in ("main_and_oak.json", "main_and_oak.log")]
    words = ["preempt", files[0], "1", files[1], "--pattern", "1", "--ticks", "100"]
    assert main(words) == 0
    told = capsys.readouterr().out.splitlines()
    assert told[0].endswith("preempt 1: the wait for the green of dwell phases 4 and 7")
    assert told[1] == "delay                       1.0 s"
    clearance = "clearance 8.0, yellow 4.0, red 1.5"
    walk = "conflicting pedestrian     16.4 s  from tick 1, phase 2: walk 2.9, "
    assert told[2] == walk + clearance
    bound = "proved bound               18.9 s  delay 1.0, longest entry 17.9"
    assert told[3] == bound
    with Bench(files[0], files[1], events=False) as bench:
        bench.set_pattern(1)
        found = tries(bench, 1, frozenset({4, 7}), 100, WITHIN)
    assert found.worst is not None
    wait, at = found.worst
    said = f"worst found             {wait // 10:>5}.{wait % 10} s  from tick {at}"
    assert told[4] == said and 164 + 10 == wait


def test_seconds_within_which_a_green_has_to_come(
    examples: Path, capsys: pytest.CaptureFixture[str]
) -> None:
    """In the pattern more moments are late than in free operation."""
    files = [str(examples / it) for it in ("main_and_oak.json", "main_and_oak.log")]
    late = []
    for pattern in (0, 1):
        with Bench(files[0], files[1], events=False) as bench:
            bench.set_pattern(pattern)
            found = tries(bench, 1, frozenset({4, 7}), 400, 100)
        late.append(sum(it is None for it in found.waits.values()))
    words = ["--pattern", "1", "--ticks", "400", "--within", "10"]
    assert main(["preempt", files[0], "1", files[1], *words]) == 1
    told = capsys.readouterr().out
    assert late[0] < late[1]
    assert f"\n400 moments tried, {400 - late[1]} with the green\n" in told
    assert f"\nnot within 10 s: {late[1]} moments, as tick 1\n" in told


def display(vehicles: str, pedestrians: str = "-" * 8, preempt: int = 1) -> Display:
    """A display of eight phases."""
    return Display(0, vehicles, pedestrians, "----", preempt, None)


def test_conflicts_by_hand() -> None:
    """The phase whose yellow ends last. What comes before the service is no part of it,
    and what it shows up to the green is all of it."""
    stage = frozenset({4, 7})
    shown = {
        11: display("RGRRRGRR", "-W---D--", 0),
        14: display("RGRRRGRR", "-W---D--"),
        20: display("RGRRRYRR", "-C---D--"),
        50: display("RGRRRRRR", "-C---D--"),
        71: display("RGRRRRRR", "-D---D--"),
        78: display("RYRRRRRR", "-D---D--"),
        100: display("RRRGRRRR", "-D---D--"),
        109: display("RRRGRRGR", "-D---D--"),
    }
    parts = {"walk": 6, "clearance": 51, "green": 7, "yellow": 22, "red": 9}
    assert conflict_of(shown, 1, stage) == Conflict(2, parts)
    assert Conflict(2, parts).total == 109 - 14 and Conflict(2, parts).row == PEDESTRIAN
    said = "phase 2: walk 0.6, clearance 5.1, green 0.7, yellow 2.2, red 0.9"
    assert str(Conflict(2, dict(reversed(parts.items())))) == said
    # Phase 8 comes in service, and has nothing of a pedestrian.
    late = {
        7: display("RYRRRYRR"), 9: display("RRRRRRRR"), 12: display("RRRGRRRG"),
        20: display("RRRGRRRY"), 31: display("RRRGRRRR"), 33: display("RRRGRRGR"),
    }  # fmt: skip
    found = conflict_of(late, 1, stage)
    assert found == Conflict(8, {"before it": 5, "green": 8, "yellow": 11, "red": 2})
    assert found.row == VEHICLE and found.total == 26
    # Together, the lower one counts, or the one with a walk; and none has to end.
    for pedestrians, phase in (("-" * 8, 2), ("-C---C--", 2), ("-D---C--", 6)):
        both = {1: display("RGRRRGRR", pedestrians), 5: display("RRRGRRGR")}
        found = conflict_of(both, 1, stage)
        assert found is not None and found.phase == phase
    # (also where the lower one came later)
    after = {1: display("RRRRRGRR"), 3: display("RGRRRGRR"), 5: display("RRRGRRGR")}
    assert conflict_of(after, 1, stage) == Conflict(2, {"before it": 2, "green": 2})
    assert conflict_of({1: display("RRRGRRRR"), 5: display("RRRGRRGR")}, 1, stage) is None
    assert conflict_of({1: display("RGRRRGRR", preempt=2)}, 1, stage) is None
    plan = Plan(3)
    plan["preemptDwellPhase"][1] = {4}
    assert first_stage(plan, 1) == ("dwell", frozenset({4}))
    plan["preemptTrackPhase"][1] = {2}
    assert first_stage(plan, 1) == ("track", frozenset({2}))


def test_the_longest_of_each_row() -> None:
    """Moments come from the last one down, so of equal ones the first one stays."""
    found = Tries({}, [])
    long, short = Conflict(2, {"yellow": 30, "red": 9}), Conflict(4, {"yellow": 38})
    for at, it in ((9, short), (8, long), (7, None), (6, long), (5, short)):
        found.take(at, it)
    walks = Conflict(2, {"walk": 4})
    found.take(3, walks)
    assert found.longest == {VEHICLE: (6, long), PEDESTRIAN: (3, walks)}
    assert found.totals == [39, 4]


def test_rows_of_a_plan_without_conflicts() -> None:
    """A worst one without a conflict; and FIELD.md says in how many seconds a green has
    to come without another word."""
    plan = Plan(3)
    plan["preemptDwellPhase"][1] = {1, 8}
    found = Tries({77: 20}, [])
    first, *others = rows(plan, 1, found, WITHIN, Entry(20, 0))
    assert first.endswith("preempt 1: the wait for the green of dwell phases 1 and 8")
    assert others == [
        "delay                       2.0 s",
        "proved bound                2.0 s  delay 2.0, longest entry 0.0",
        "worst found                 2.0 s  from tick 77",
        "1 moments tried, 1 with the green",
        "conflicting vehicle: no moment has one, so give a log that does",
        "conflicting pedestrian: no moment has one, so give a log that does",
    ]
    assert preempt.WITHIN == 600
    # a phase that came in service is named if it is that of the longest
    found.take(9, Conflict(2, {"walk": 9, "red": 9}))
    found.take(8, Conflict(4, {"before it": 5, "red": 12}))
    assert [*rows(plan, 1, found, WITHIN, Entry(20, 0))][-1].startswith("1 moments")
    found.take(7, Conflict(4, {"before it": 6, "red": 12}))
    *_, last = rows(plan, 1, found, WITHIN, Entry(20, 0))
    assert last.startswith("phase 4 turned green in service: see preemptChoosesAnew")


def test_words_are_not_cut(examples: Path, capsys: pytest.CaptureFixture[str]) -> None:
    """A word that is nearly right is refused, with the right one."""
    files = [str(examples / it) for it in ("railroad.json", "railroad.log")]
    with pytest.raises(SystemExit) as ended:
        main(["preempt", files[0], "1", files[1], "--tick", "5"])
    assert ended.value.code == 2 and "--ticks" in capsys.readouterr().err
    for words in (["--ticks", "0"], ["--within", "0"]):
        with pytest.raises(SystemExit) as ended:
            main(["preempt", files[0], "1", files[1], *words])
        assert ended.value.code == 2
        assert "--ticks and --within are 1 or more" in capsys.readouterr().err
    with pytest.raises(SystemExit):
        main(["preempt", files[0], "9", files[1]])
    assert "invalid choice: 9" in capsys.readouterr().err
    assert main(["preempt", files[0], "1", files[1], "--ticks", "1"]) == 0
    assert "\n1 moments tried, 1 with the green\n" in capsys.readouterr().out


def test_no_tries() -> None:
    """Nothing was found then."""
    assert Tries({}, [3]).worst is None
    assert Tries({1: None, 2: 5, 3: 5}, []).worst == (5, 2)


@pytest.mark.parametrize(
    ("plan", "number", "log", "said"),
    [
        ("railroad.json", "4", "railroad.log", "preempt 4 has no track phases and no dwell phases"),
        ("railroad.json", "1", "empty.log", "empty.log: it has no rows: give --ticks"),
        ("two_short_yellow.json", "1", "empty.log", "two_short_yellow.json: plan: rule K8: "),
        ("railroad.json", "1", "cut_short.log", "cut_short.log: log line 1: malformed"),
        ("railroad.json", "1", "none.log", "none.log: No such file or directory"),
    ],
)  # fmt: skip
def test_files_that_are_refused(
    plan: str, number: str, log: str, said: str, examples: Path
) -> None:
    """One line on standard error, with the file's name."""
    words = ["preempt", plan, number, log]
    done = subprocess.run(
        [sys.executable, "-m", "tsb", *words], cwd=examples, capture_output=True, text=True
    )
    assert (done.returncode, done.stdout) == (1, "")
    assert done.stderr.startswith(said) and done.stderr.count("\n") == 1


def test_rows_of_the_log_act_in_each_try(examples: Path, tmp_path: Path) -> None:
    """A try from a moment sees the rows after it, and leaves nothing for the next: with
    another order of moments each waits as long."""
    log = Log.read(examples / "railroad.log")
    with Bench(examples / "railroad.json", log, events=False) as bench:
        whole = tries(bench, 1, frozenset({4, 7}), 60, WITHIN)
    for at in (60, 30, 1):
        with Bench(examples / "railroad.json", log, events=False) as bench:
            found = tries(bench, 1, frozenset({4, 7}), at, WITHIN)
        assert found.waits[at] == whole.waits[at]


DEPOT = Path(__file__).parent / "data" / "depot.json"


@pytest.mark.parametrize(
    ("name", "number", "log", "pattern"),
    [
        ("quad", 1, "hour_of_traffic", 0), ("quad", 2, "hour_of_traffic", 1),
        ("main_and_oak", 1, "main_and_oak", 0), (DEPOT, 2, "main_and_oak", 0),
    ],
)  # fmt: skip
def test_no_moment_is_worse_than_what_is_proved(
    examples: Path, name: str | Path, number: int, log: str, pattern: int
) -> None:
    """Plans with times of pedestrians, with a delay, in a pattern and in free operation.
    Tries count from the input on, so the delay is part of them."""
    plan = Plan.read(name if isinstance(name, Path) else examples / f"{name}.json")
    _, phases = first_stage(plan, number)
    with Bench(plan, examples / f"{log}.log", events=False) as bench:
        if pattern:
            bench.set_pattern(pattern)
        found = tries(bench, number, phases, 300, 600)
    entry = plan.worksheet().entries[number]
    assert found.worst is not None and None not in found.waits.values()
    assert entry.delay < found.worst[0] <= entry.delay + entry.longest
