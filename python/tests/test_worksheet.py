"""The worksheet of a plan, and what runs and reviews say of its times."""

import re
from pathlib import Path

import pytest
from tsb import Bench, Plan, PlanFault, ProgramDied
from tsb.patterns import timings_of
from tsb.worksheet import Crossing, Entry, Share, Worksheet, worksheet_of

# Plans with patterns.
PATTERNS = ["main_and_oak", "coordination", "late_force_off", "no_advice", "quad"]


def test_a_worksheet_by_hand(examples: Path) -> None:
    """Preempt 1 leaves 4 s of walk and 8 s of clearance, which is longer than 5.5 s of
    clearance, 5 s of green and a tick; then come 5.5 s and four ticks. Phase 4 has 25 s less
    5.1 s that clear: 19.9 s for 7 s of walk and 12 s of clearance."""
    found = Plan.read(examples / "main_and_oak.json").worksheet()
    assert found.entries == {1: Entry(10, 120 + 55 + 4)}
    assert found.shares[1][4] == Share(250, 199, 349, Crossing(190, 9))
    assert found.shares[1][6] == Share(350, 295, 845, None)
    assert sorted(found.shares) == [1] and sorted(found.shares[1]) == [*range(1, 9)]


def test_a_plan_that_is_refused(examples: Path) -> None:
    with pytest.raises(PlanFault, match="rule K8"):
        Plan.read(examples / "two_short_yellow.json").worksheet()
    with pytest.raises(ProgramDied):
        Plan()._asked("worksheet", "--count")
    assert worksheet_of([]) == Worksheet({}, {})


@pytest.mark.parametrize("line", ["", "preempt 1", "pattern 1, phase 2: split 15.0 s"])
def test_lines_of_no_worksheet(line: str) -> None:
    with pytest.raises(ValueError, match="no line of a worksheet"):
        worksheet_of([line])


@pytest.mark.parametrize("walk", [None, 1, 60, 255])
@pytest.mark.parametrize("name", PATTERNS)
def test_what_does_not_fit_is_below_0(
    examples: Path, name: str, walk: int | None
) -> None:
    """A margin is below 0 where advice A12 says that walk and clearance do not fit."""
    plan = Plan.read(examples / f"{name}.json")
    if walk is not None:
        plan["phaseWalk"] = dict.fromkeys(plan.phases, walk)
    lacking = {
        (int(pattern), int(told[1]))
        for line in plan.review()
        if (told := re.fullmatch(r"A12 phase (\d+): .* in pattern ([\d, ]+)", line))
        for pattern in told[2].split(", ")
    }
    shares = plan.worksheet().shares
    assert lacking == {
        (pattern, phase)
        for pattern, of in shares.items()
        for phase, it in of.items()
        if it.crossing is not None and it.crossing.margin < 0
    }


@pytest.mark.parametrize("name", ["main_and_oak", "coordination"])
def test_instants_are_those_of_a_run(examples: Path, name: str) -> None:
    """In a run with all called, the status of each green says in how many ticks its
    force-off comes; the local counter is then at the instant of the worksheet."""
    plan = Plan.read(examples / f"{name}.json")
    plan["phaseMaxRecall"] = dict.fromkeys(plan.phases, 1)
    cycle = 10 * plan["patternCycleTime"][1]
    found: dict[int, int] = {}
    with Bench(plan, events=False) as bench:
        bench.set_pattern(1)
        bench.step(2 * cycle)
        for _ in range(cycle):
            bench.step(1)
            local = bench.show().local
            for ring in bench.status.rings:
                if local is not None and ring.force_off_in is not None and ring.phase:
                    found[ring.phase] = (local + ring.force_off_in) % cycle
    assert found == dict(timings_of(plan)[1].force_offs) and len(found) == 8
