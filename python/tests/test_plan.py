"""Plans: by names and units, to the text and back, and as `tsb check` judges them."""

import json
from datetime import timedelta
from pathlib import Path
from typing import Any

import pandas as pd
import pytest
import tsb
from tsb import Plan, seconds

PLANS = ["two", "first_plan", "quad", "main_and_oak", "tee", "one_way_pair", "railroad"]


@pytest.mark.parametrize("name", PLANS)
def test_a_text_and_back(examples: Path, name: str) -> None:
    """An example is read, passes, and its text gives the same plan."""
    plan = Plan.read(examples / f"{name}.json")
    plan.check()
    again = Plan.of_text(plan.text)
    assert again == plan and again.version == plan.version


@pytest.mark.parametrize("name", PLANS)
def test_the_bench_has_the_same_plan(examples: Path, name: str) -> None:
    """The plan in effect is the plan that was given, in version 2."""
    plan = Plan.read(examples / f"{name}.json")
    with tsb.Bench(plan) as bench:
        assert bench.plan == plan.wide()
    with tsb.Bench(examples / f"{name}.json") as bench:
        assert bench.plan == plan.wide()


def test_version_3_is_version_2_with_another_number(examples: Path) -> None:
    """The bench has the same plan, which it gives in version 2."""
    plan = Plan.read(examples / "main_and_oak.json").wide()
    text = plan.text.replace('"version": 2', '"version": 3')
    newest = Plan.of_text(text)
    assert newest.version == 3 and newest.text == text
    with tsb.Bench(newest) as bench:
        assert bench.plan == plan == newest.wide()


def test_a_plan_with_what_version_3_alone_has() -> None:
    """It stays one of version 3, with the reference of its offsets."""
    plan = Plan.of_text('{"version":3,"coordReference":{"1":3},"phaseWalk":{"2":7}}')
    wide = plan.wide()
    assert wide.version == 3 and wide["coordReference"][1] == 3
    assert wide["phaseWalk"][2] == 7


NOTES = {"site": "Elm é", "phaseWalk.2": "a school"}
NOTED = json.dumps({"version": 3, "phaseWalk": {"2": 7}, "notes": NOTES})


def test_notes_are_kept(tmp_path: Path) -> None:
    """Through texts, files and wide plans; two plans with other notes differ."""
    plan = Plan.of_text(NOTED)
    assert plan.notes == NOTES
    plan.write(tmp_path / "plan.json")
    for it in (Plan.read(tmp_path / "plan.json"), plan.wide(), Plan.of_text(plan.text)):
        assert it == plan and it.version == 3 and it.notes == plan.notes
    plan.notes = {}
    assert "notes" not in plan.text and plan != Plan.of_text(NOTED)


def test_the_bench_keeps_notes(examples: Path, tmp_path: Path) -> None:
    """Those of a plan, and those of a file."""
    plan = Plan.read(examples / "main_and_oak.json").noted(NOTES)
    plan.write(tmp_path / "plan.json")
    given: list[Plan | Path] = [plan, tmp_path / "plan.json"]
    for it in given:
        with tsb.Bench(it) as bench:
            assert bench.plan == plan and bench.plan.notes == NOTES


@pytest.mark.parametrize(
    "text, said",
    [
        ('{"version":3,"notes":[]}', "plan: notes: not a table"),
        ('{"version":3,"notes":{"site":1}}', "plan: notes.site: not a text"),
        ('{"version":2,"notes":{}}', "notes"),
    ],
)
def test_notes_that_are_none(text: str, said: str) -> None:
    """As the program says it; versions 1 and 2 have no notes."""
    with pytest.raises(tsb.Error, match=said):
        Plan.of_text(text)


def test_written_and_read(examples: Path, tmp_path: Path) -> None:
    """A file of a plan."""
    plan = Plan.read(examples / "tee.json")
    plan.write(tmp_path / "tee.json")
    assert Plan.read(tmp_path / "tee.json") == plan


def first_plan() -> Plan:
    """The manual's first plan, by names and units."""
    plan = Plan()
    for phase, side, maximum in [(2, 1, 20), (4, 2, 15)]:
        plan["phaseEnabled"][phase] = True
        plan["phaseRing"][phase] = 1
        plan["phaseSide"][phase] = side
        plan["phaseMinimumGreen"][phase] = seconds(5)
        plan["phaseMaximum1"][phase] = plan["phaseMaximum2"][phase] = maximum
        plan["phasePassage"][phase] = plan["phaseMinimumGap"][phase] = seconds(2.0)
        plan["phaseYellowChange"][phase] = seconds(3.0)
        plan["phaseRedClear"][phase] = seconds(1.0)
    plan.set_sequence(1, 1, [2, 4])
    plan["phaseMinRecall"] = {2: 1}
    plan["vehicleDetectorCallPhase"][1] = 4
    return plan


def test_built_by_names_and_units(examples: Path) -> None:
    """It is the manual's text."""
    plan = first_plan()
    assert plan == Plan.read(examples / "first_plan.json")
    assert plan.phases == {2, 4} and plan.sequence(1, 1) == [2, 4]
    assert plan["phaseYellowChange"].time(2) == timedelta(seconds=3)
    assert plan["phaseYellowChange"][2] == 30


def test_lists_and_tables(examples: Path) -> None:
    """Lists are given as phases; splits and sequences by what their index counts."""
    plan = Plan.read(examples / "main_and_oak.json")
    assert plan["phaseConcurrency"].phases(2) == {5, 6}
    plan["overlapIncludedPhases"][1] = {2, 3}
    assert plan["overlapIncludedPhases"][1] == 6
    plan["splitTime"][2, 6] = seconds(25)
    assert plan["splitTime"][22] == 25
    plan.set_sequence(2, 2, [5, 6, 7, 8])
    assert dict(plan["sequenceData"])[32 + 16 + 1] == 5
    old = Plan.read(examples / "quad.json")
    assert old.version == 1 and old.sequence(1, 2) == [5, 6, 7, 8]
    assert old["sequenceData"][1, 2, 1] == old["sequenceData"][9] == 5


def test_values_out_of_range_are_told_at_once() -> None:
    """With the range and the unit."""
    plan = Plan()
    with pytest.raises(
        tsb.OutOfRange, match=r"phaseWalk: 256 is not in 0 to 255 \(sec"
    ):
        plan["phaseWalk"][2] = 256
    with pytest.raises(tsb.OutOfRange, match="phaseWalk: -1 is not in"):
        plan["phaseWalk"][2] = -1
    with pytest.raises(tsb.OutOfRange, match="takes whole seconds: 4.5 s"):
        plan["phaseWalk"][2] = seconds(4.5)
    with pytest.raises(tsb.OutOfRange, match="phaseRing is no time: 0 to 2"):
        plan["phaseRing"][2] = seconds(1)
    with pytest.raises(tsb.OutOfRange, match="phaseWalk is no list of phases"):
        plan["phaseWalk"][2] = {1, 2}
    with pytest.raises(tsb.OutOfRange, match="there is no phase 17"):
        plan["phaseConcurrency"][2] = {17}
    with pytest.raises(tsb.OutOfRange, match=r"0 to 2 \(1 to 4, 0 for none\)"):
        Plan(1)["phaseSide"][2] = 3
    with pytest.raises(tsb.OutOfRange, match=r"4.5 is no .*; seconds are tsb.seconds"):
        plan["phaseYellowChange"][2] = 4.5  # type: ignore[assignment]
    with pytest.raises(
        tsb.OutOfRange, match=r"phaseRing: 1.0 is no whole .*for none\)$"
    ):
        plan["phaseRing"][2] = 1.0  # type: ignore[assignment]
    assert "phaseWalk" not in plan.text


@pytest.mark.parametrize(
    "name, value, said",
    [
        ("phasePassage", "4.0 s", "phasePassage: '4.0 s' is a text: 0 to 255 (tenths of"
         " a second); seconds are tsb.seconds(4.0)"),
        ("preemptDwellPhase", "4,7", "preemptDwellPhase: '4,7' is a text: 0 to 65535"
         " (list of phases); a list of phases is {4, 7}"),
        ("phaseRing", "1", "phaseRing: '1' is a text: 0 to 2 (1 or 2, 0 for none)"),
        ("preemptDwellPhase", [None], "preemptDwellPhase: [None] is no list: 0 to 65535"
         " (list of phases); a list of phases is {4, 7}"),
        ("preemptDwellPhase", None, "preemptDwellPhase: None is no list: 0 to 65535"
         " (list of phases); a list of phases is {4, 7}"),
    ],
)  # fmt: skip
def test_a_value_that_is_no_value(name: str, value: Any, said: str) -> None:
    """The message has how one is written."""
    with pytest.raises(tsb.OutOfRange) as told:
        Plan()[name][1] = value
    assert str(told.value) == said


def test_where_a_text_stops_being_json(tmp_path: Path) -> None:
    """As the programs have it, by line and column."""
    for text, place in (
        ('{\n  "version" 2}', "line 2, column 13: expecting ':' delimiter"),
        ("\ufeff{}", "line 1, column 1: a byte order mark"),
        ("", "line 1, column 1: expecting value"),
    ):
        with pytest.raises(tsb.PlanFault) as told:
            Plan.of_text(text)
        assert (told.value.line, told.value.place) == ("plan: not JSON", place)
    with pytest.raises(tsb.PlanFault) as told:
        Plan.of_text("[" * 100_000)
    assert (told.value.line, told.value.place) == ("plan: not JSON", None)


def test_numbers_of_tables_are_values() -> None:
    """Those of numpy and pandas too."""
    plan, table = Plan(), pd.DataFrame({"phase": [2, 4], "yellow": [40, 35]})
    for phase, yellow in zip(table["phase"], table["yellow"], strict=True):
        plan["phaseYellowChange"][phase] = yellow
    plan["phaseConcurrency"][2] = table["phase"].to_numpy()
    assert dict(plan["phaseYellowChange"]) == {2: 40, 4: 35}
    assert plan["phaseConcurrency"][2] == 10
    assert Plan.of_text(plan.text) == plan


@pytest.mark.parametrize(
    "name, meant",
    [
        ("phaseYelowChange", "phaseYellowChange"),
        ("phaseMinGreen", "phaseMinimumGreen"),
        ("PHASEWALK", "phaseWalk"),
        ("spliTtime", "splitTime"),
        ("Walk", None),
        ("overlapAcrossRing", None),  # (an object of another version)
        ("overlapAcrossRings", 3),
        ("notes", 3),
    ],
)
def test_an_object_that_is_misspelt(
    name: str, meant: str | int | None, tmp_path: Path
) -> None:
    """The nearest right name is given, by the package and for a file too; of a name that
    only later texts have, their version."""
    with pytest.raises(tsb.NoSuchObject) as told:
        Plan()[name]
    question = f": did you mean {meant}?" if meant else f"has no object {name}"
    question = f": texts have it from version {meant} on" if meant == 3 else question
    assert str(told.value).endswith(question)
    path = tmp_path / "p.json"
    path.write_text(json.dumps({"version": 2, name: {}}))
    with pytest.raises(tsb.PlanFault) as fault:
        tsb.Bench(path)
    assert fault.value.line == f"plan: {name}: no such object"
    if meant:
        assert str(fault.value).endswith(question)


def test_a_plan_is_reviewed(examples: Path) -> None:
    """The lines are those of the program: places of a rule, or advices."""
    plan = Plan.read(examples / "quad.json")
    advices = plan.review()
    assert advices and all(it.startswith("A") for it in advices)
    plan["phaseYellowChange"] = {it: 30 for it in range(1, 9)}
    for phase in (2, 4):
        plan["phaseYellowChange"][phase] = 20
    assert plan.review() == [
        "plan: rule K8",
        "K8 phase 2: its yellow is 2 s, under 3 s",
        "K8 phase 4: its yellow is 2 s, under 3 s",
    ]


def test_a_value_of_0_and_one_that_is_deleted() -> None:
    """Both are as if it was never given, in the table, the text and its count."""
    plan, other = Plan(), Plan()
    values = plan["phaseWalk"]
    values[2], values[4] = 7, 9
    values[2] = 0
    assert dict(values) == {4: 9} and values[2] == 0 and 2 not in values
    del values[4]
    assert dict(values) == {} and len(values) == 0 and not values
    assert plan == other and plan.text == other.text and list(plan.items()) == []
    del values[4]  # (what is not there stays so)
    values[3] = 0
    assert dict(values) == {} and plan == other
    values[3] = 5
    assert plan != other and dict(values) == {3: 5}
    plan["phaseWalk"] = {3: 0}
    assert plan == other


def test_names_and_indices_that_there_are_not() -> None:
    """Each says what there is."""
    plan = Plan()
    with pytest.raises(tsb.NoSuchObject, match="version 2 has no object Walk"):
        plan["Walk"]
    with pytest.raises(tsb.NoSuchObject, match="version 1 has no object overlapType"):
        Plan(1)["overlapType"]
    with pytest.raises(tsb.NoSuchObject, match="version 2 has no object overlapAcr"):
        plan["overlapAcrossRings"]
    with pytest.raises(tsb.NoSuchObject, match="phaseWalk.17: its indices are 1 to 16"):
        plan["phaseWalk"][17] = 1
    with pytest.raises(tsb.NoSuchObject, match="splitTime: table 9: it is 1 to 8"):
        plan["splitTime"][9, 1] = 1
    with pytest.raises(tsb.NoSuchObject, match="phaseWalk: an index is a number"):
        plan["phaseWalk"][1, 2] = 1


TEXTS = {
    "": tsb.PlanFault,
    "[]": tsb.PlanFault,
    "{}": tsb.PlanFault,
    '{"version":4}': tsb.PlanFault,
    '{"version":1,"Walk":{}}': tsb.NoSuchObject,
    '{"version":1,"phaseWalk":5}': tsb.PlanFault,
    '{"version":1,"phaseWalk":{"02":1}}': tsb.NoSuchObject,
    '{"version":1,"phaseWalk":{"9":1}}': tsb.NoSuchObject,
    '{"version":1,"phaseWalk":{"2":30.0}}': tsb.PlanFault,
    '{"version":1,"phaseWalk":{"2":true}}': tsb.PlanFault,
    '{"version":1,"phaseWalk":{"2":256}}': tsb.OutOfRange,
    '{"version":1,"phaseWalk":{"2":-1}}': tsb.OutOfRange,
}


@pytest.mark.parametrize("text", TEXTS)
def test_texts_that_are_no_plan(tmp_path: Path, text: str) -> None:
    """The package refuses what the bench refuses."""
    with pytest.raises(TEXTS[text]):
        Plan.of_text(text)
    path = tmp_path / "plan.json"
    path.write_text(text)
    with pytest.raises(tsb.PlanFault) as told:
        tsb.Bench(path)
    assert "rule" not in told.value.line


def test_rules_are_judged_by_the_bench(examples: Path) -> None:
    """The rule is given with its cure, by `check` and where a bench is to run it."""
    plan = Plan.read(examples / "two_short_yellow.json")
    fault = plan.fault()
    assert fault is not None and fault.rule is not None and fault.rule.name == "K8"
    assert fault.cure == "give tenths: 40 for 4.0 s"
    with pytest.raises(tsb.PlanFault, match="plan: rule K8"):
        plan.check()
    with pytest.raises(tsb.PlanFault, match="plan: rule K8"):
        tsb.Bench(plan)
    assert Plan.read(examples / "two.json").fault() is None
