"""What the package has of the documents is what they say."""

import importlib
import pickle
import re
import subprocess
import sys
from pathlib import Path

import pytest
from tsb import OutOfRange, Plan, PlanFault, ProgramDied, Refused
from tsb.manual import LAST_TICK, OBJECTS, REFUSALS, RULES


def test_the_file_is_as_the_documents(top: Path) -> None:
    """tools/pages/python_manual.py would write it as it is."""
    words = [sys.executable, "-m", "tools.pages.python_manual", "--check"]
    done = subprocess.run(words, cwd=top, capture_output=True, text=True, check=False)
    assert done.returncode == 0, done.stdout


def test_objects_are_those_of_the_source(
    top: Path, monkeypatch: pytest.MonkeyPatch
) -> None:
    """Names, ranges and units are those that tools/pages/manual_table.py reads from the
    source of tsb_plan."""
    monkeypatch.chdir(top)
    monkeypatch.syspath_prepend(str(top))
    source = importlib.import_module("tools.pages.manual_table").objects()
    assert set(source) == set(OBJECTS) and len(OBJECTS) == 87
    for name, (_, _, values, unit, structural) in source.items():
        found = OBJECTS[name]
        assert found.unit == unit and found.structural == (structural == "S")
        assert values.startswith(f"0 to {found.greatest}")
        before = found.most(2)
        assert (f"({before} before version 3)" in values) == (before != found.greatest)


def test_each_refusal_has_its_cure(top: Path) -> None:
    """The twelve lines of the manual's chapter 7, with their meaning and cure."""
    text = (top / "docs/use/MANUAL.md").read_text()
    assert sorted(REFUSALS) == list(range(1, 13))
    for number, refusal in REFUSALS.items():
        station = " 3" if refusal.name == "Busy" else ""
        fault = Refused(f"refused E{number} {refusal.name}{station}", "what was asked")
        assert (fault.number, fault.name) == (number, refusal.name)
        assert fault.station == (3 if station else None)
        assert f"| {fault.meaning} | {fault.cause} | {fault.cure} |" in text
        assert fault.cure in str(fault) and "what was asked" in str(fault)


def test_each_rule_has_its_cure(top: Path) -> None:
    """The rules of the manual's chapter 4."""
    text = (top / "docs/use/MANUAL.md").read_text()
    assert list(RULES) == [f"K{it}" for it in range(1, 30)]
    for name in RULES:
        fault = PlanFault(f"plan: rule {name}")
        assert fault.rule is not None
        row = [name, fault.rule.holds, fault.rule.cause, fault.cure]
        assert f"| {' | '.join(map(str, row))} |" in text and str(fault.cure) in str(
            fault
        )


def test_other_faults_say_when_they_come() -> None:
    """Those of a text that is no plan."""
    line = "plan: phaseWalk.2: out of range"
    assert str(PlanFault(line)) == f"{line}: over the greatest value of the object"
    assert PlanFault("plan: not JSON").rule is None
    swapped = PlanFault(
        "plan: too large\nplan line 1, column 1: it looks like an input log"
    )
    assert swapped.place == "line 1, column 1: it looks like an input log"
    placed = PlanFault("plan: not JSON\nplan line 1, column 2: expected nothing more")
    assert placed.line == "plan: not JSON"
    assert placed.place == "line 1, column 2: expected nothing more"
    assert str(placed).endswith("; line 1, column 2: expected nothing more")
    assert "\n" not in str(placed)
    named = PlanFault("plan: a\nb: no such object")
    assert (named.line, named.place) == ("plan: a?b: no such object", None)


def test_errors_are_told_to_other_processes() -> None:
    """With all that they have."""
    faults = [
        Refused("refused E4 Busy 3", "begin 1"),
        PlanFault("plan: rule K8"),
        ProgramDied("tsb", 3, "memory"),
    ]
    for fault in faults:
        again = pickle.loads(pickle.dumps(fault))
        assert type(again) is type(fault) and str(again) == str(fault)
        assert vars(again) == vars(fault) and again.args == fault.args


def test_ranges_are_told() -> None:
    """Each object names its range where a value is over it."""
    for name, it in OBJECTS.items():
        plan = Plan(it.since_index(it.count))
        plan[name][it.count] = it.greatest
        said = re.escape(f"0 to {it.greatest} ({it.unit})")
        with pytest.raises(OutOfRange, match=said):
            plan[name][it.count] = it.greatest + 1


def test_a_value_that_version_3_alone_has() -> None:
    """An overlap of type 2 is an arrow, which only plan texts of version 3 have."""
    what = OBJECTS["overlapType"]
    assert [what.most(it) for it in (1, 2, 3)] == [0, 1, 2]
    assert [what.since_value(it) for it in (0, 1, 2)] == [2, 2, 3]
    with pytest.raises(OutOfRange, match=re.escape("0 to 1 (0 normal")):
        Plan(2)["overlapType"][1] = 2
    plan = Plan(3)
    plan["overlapType"][1] = 2
    assert plan.wide().version == 3 and plan.wide()["overlapType"][1] == 2
    plan["overlapType"][1] = 1
    assert plan.wide().version == 2


def test_the_last_tick() -> None:
    """As in the manual's chapter 9."""
    assert LAST_TICK == 6_000_000
