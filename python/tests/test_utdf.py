"""Sections of UTDF out and in, and a file that was written by hand from what is known of
the form: no file of Synchro was at hand."""

from collections.abc import Sequence
from pathlib import Path

import pytest
from hypothesis import given, settings
from hypothesis import strategies as st
from tsb import Error, Plan
from tsb.__main__ import main
from tsb.exchange import utdf
from tsb.exchange.remarks import lines_of
from tsb.manual import OBJECTS
from tsb.new import Choice, plan_of

DATA = Path(__file__).parent / "data"
CHOICES = st.tuples(*[st.sampled_from(["", "through", "left"])] * 8).filter(any)
#: Objects that sections have of each phase in free operation, and those of a pattern.
OF_PHASES = {
    "phaseEnabled", "phaseRing", "phaseSide", "phaseConcurrency", "sequenceData",
    "phaseMinimumGreen", "phasePassage", "phaseTimeBeforeReduction",
    "phaseTimeToReduce", "phaseMinimumGap", "phaseYellowChange", "phaseRedClear",
    "phaseWalk", "phasePedestrianClear", "phaseDualEntry", "phaseMinRecall",
    "phasePedRecall", "phaseMaxRecall", "coordMaximumMode",
}  # fmt: skip
OF_PATTERNS = {
    "patternCycleTime", "patternOffsetTime", "patternSplitNumber",
    "patternSequenceNumber", "splitTime", "splitCoordPhase",
}  # fmt: skip


def made(kinds: Sequence[str]) -> Plan:
    """The plan of a choice of phases."""
    of = {kind: {at for at, it in enumerate(kinds, 1) if it == kind} for kind in kinds}
    return plan_of(Choice(*(frozenset(of.get(it, ())) for it in ("through", "left"))))


def text_of(plan: Plan, pattern: int) -> tuple[str, list[str]]:
    """The sections of a plan, and the lines of what they have no place for."""
    sections = utdf.Sections(plan, pattern, "7")
    text = "".join(f"{it}\n" for it in sections.lines())
    return text, list(lines_of(sections.remarks))


@settings(max_examples=60, deadline=None, database=None, derandomize=True)
@given(CHOICES, st.sampled_from([0, 1]), st.integers(0, 2), st.data())
def test_plans_out_and_in(
    kinds: Sequence[str], pattern: int, mode: int, data: st.DataObject
) -> None:
    """Out and in is the plan for what the sections have; what they don't have is named,
    or was not in the plan."""
    plan = made(kinds)
    plan["coordMaximumMode"][1] = mode
    for phase in plan.phases:
        recall = data.draw(st.sampled_from(["", *utdf.RECALLS.values()]))
        for name in utdf.RECALLS.values():
            plan[name][phase] = int(name == recall and not (
                recall == "phasePedRecall" and not plan["phaseWalk"][phase]
            ))  # fmt: skip
        plan["phaseYellowChange"][phase] = data.draw(st.integers(30, 60))
    plan["patternOffsetTime"][1] = data.draw(st.integers(0, 10))
    text, named = text_of(plan, pattern)
    found = utdf.plan_of(text, None).plan
    wanted = OF_PHASES | (OF_PATTERNS if pattern else {"phaseMaximum1"})
    for name in wanted - {"coordMaximumMode"}:
        assert dict(found[name]) == dict(plan[name]), name
    if mode < 2:
        assert found["coordMaximumMode"][1] == mode
    objects = {it.partition(".")[0] for it in named}
    for name, values in plan.items():
        is_there = dict(found[name]) == dict(values)
        assert is_there or name in objects, name


def test_sections_by_hand(examples: Path, capsys: pytest.CaptureFixture[str]) -> None:
    """The manual's intersection in its pattern. The maximum green is what the split
    leaves: 15 - 3.0 - 1.0 = 11.0 s of phase 1, and 25 - 3.6 - 1.5 = 19.9 s of phase 4."""
    plan = str(examples / "main_and_oak.json")
    assert main(["utdf", plan, "--pattern", "1", "--node", "12"]) == 0
    told = capsys.readouterr()
    assert told.out == """\
[Timeplans]
Timing Plan Settings
RECORDNAME,INTID,DATA
Control Type,12,3
Cycle Length,12,90.0
Reference Phase,12,206
Offset,12,40.0

[Phases]
Phasing Data
RECORDNAME,INTID,D1,D2,D3,D4,D5,D6,D7,D8
BRP,12,111,112,211,212,121,122,221,222
MinGreen,12,5,10,5,7,5,10,5,7
MaxGreen,12,11.0,29.5,11.0,19.9,11.0,29.5,11.0,19.9
VehExt,12,2.0,3.0,2.0,2.5,2.0,3.0,2.0,2.5
TimeBeforeReduce,12,0,10,0,0,0,10,0,0
TimeToReduce,12,0,10,0,0,0,10,0,0
MinGap,12,2.0,2.0,2.0,2.5,2.0,2.0,2.0,2.5
Yellow,12,3.0,4.0,3.0,3.6,3.0,4.0,3.0,3.6
AllRed,12,1.0,1.5,1.0,1.5,1.0,1.5,1.0,1.5
Walk,12,0,7,0,7,0,0,0,7
DontWalk,12,0,12,0,12,0,0,0,12
Recall,12,0,2,0,0,0,1,0,0
DualEntry,12,0,1,0,1,0,1,0,1
InhibitMax,12,1,1,1,1,1,1,1,1

"""
    lines = told.err.splitlines()
    assert lines[0].startswith("patternOffsetTime.1 = 40: its zero is that of ")
    for line in (
        "phaseMaximum1.4 = 20: MaxGreen is what the split leaves",
        "phaseMinRecall.2 = 1: Recall has one number",
        "phaseRestInWalk.2 = 1: these sections have no place for it",
        "vehicleDetectorDelay.8 = 50: these sections have no place for it",
    ):
        assert line in lines


def test_a_file_by_hand(tmp_path: Path, capsys: pytest.CaptureFixture[str]) -> None:
    """What a plan has of a node, and a line for all else."""
    out = tmp_path / "plan.json"
    path = str(DATA / "main_street.csv")
    assert main(["plan", path, "--node", "12", "--out", str(out)]) == 0
    told = capsys.readouterr().out.splitlines()
    assert told[0] == f"{out}: node 12 of a UTDF file"
    assert told[1:-1] == """\
lines 2 to 5: [network]: a plan has no place for it
lines 8 to 11: [nodes]: a plan has no place for it
line 16: Phase1 = NBL 5, NBT 2, NBR 2, SBL 1, SBT 6, EBT 4, WBT 8: a plan has no place for it
line 17: PermPhase1 = NBL 2, SBL 6: a plan has no place for it
line 18: DetectPhase1 = NBR 2: it is of no detector with a phase
line 19: numDetects = NBR 0: it is of no detector with a phase
line 20: DetectExtend1 EBT = 2.55: vehicleDetectorExtend takes whole ones: 26 is given
line 22: DetectExtend2 = NBT 1.5: a plan has no place for it
line 23: Volume = NBL 120, NBT 800, NBR 60, SBL 90, SBT 750, EBT 200, WBT 180: a plan has no place for it
line 30: Lock Timings = 0: a plan has no place for it
line 31: Referenced To = 0: a plan has no place for it
line 33: Offset = 10.0: it is not converted: docs/use/MANUAL.md, chapter 8, has its zero
line 34: [timeplans]: it is of another node
line 41: MaxGreen D2 = 44.5: phaseMaximum1 takes whole ones: 45 is given
line 41: MaxGreen D4 = 24.9: phaseMaximum1 takes whole ones: 25 is given
line 41: MaxGreen D6 = 44.5: phaseMaximum1 takes whole ones: 45 is given
line 41: MaxGreen D8 = 24.9: phaseMaximum1 takes whole ones: 25 is given
line 41: MaxGreen D17 = 9: a plan has phases 1 to 16
line 44: TimeToReduce D2 = 10.5: phaseTimeToReduce takes whole ones: 11 is given
line 48: Recall D8 = 4: no recall has this number
line 51: MinSplit D1 = 10: a plan has no place for it
line 51: MinSplit D2 = 27: a plan has no place for it
line 51: MinSplit D4 = 30: a plan has no place for it
line 51: MinSplit D5 = 10: a plan has no place for it
line 51: MinSplit D6 = 27: a plan has no place for it
line 51: MinSplit D8 = 30: a plan has no place for it
line 54: Start D1 = 0: Synchro works it out
line 54: Start D2 = 20: Synchro works it out
line 54: Start D3 = 5: BRP has no place of this phase
line 54: Start D4 = 70: Synchro works it out
line 54: Start D5 = 0: Synchro works it out
line 54: Start D6 = 20: Synchro works it out
line 54: Start D8 = 70: Synchro works it out
line 55: [phases]: it is of another node
vehicleDetectorCallPhase.1 = 5: given, for NBL
vehicleDetectorCallPhase.2 = 2: given, for NBT
vehicleDetectorCallPhase.3 = 1: given, for SBL
vehicleDetectorCallPhase.4 = 6: given, for SBT
vehicleDetectorCallPhase.5 = 4: given, for EBT
vehicleDetectorCallPhase.6 = 8: given, for WBT
phaseMaximum2.1 = 15: given, as phaseMaximum1
phaseMaximum2.2 = 45: given, as phaseMaximum1
phaseMaximum2.4 = 25: given, as phaseMaximum1
phaseMaximum2.5 = 15: given, as phaseMaximum1
phaseMaximum2.6 = 45: given, as phaseMaximum1
phaseMaximum2.8 = 25: given, as phaseMaximum1
phaseMinimumGap.4 = 25: given, as phasePassage
""".splitlines()
    assert told[-1] == "tsb check: plan ok"
    assert Plan.read(out) == by_hand()


def by_hand() -> Plan:
    """The plan of node 12 of that file."""
    plan = Plan()
    plan["phaseEnabled"] = dict.fromkeys((1, 2, 4, 5, 6, 8), 1)
    plan["phaseRing"] = {1: 1, 2: 1, 4: 1, 5: 2, 6: 2, 8: 2}
    plan["phaseSide"] = {1: 1, 2: 1, 5: 1, 6: 1, 4: 2, 8: 2}
    plan["phaseConcurrency"] = {
        1: {5, 6}, 2: {5, 6}, 5: {1, 2}, 6: {1, 2}, 4: {8}, 8: {4},
    }  # fmt: skip
    plan.set_sequence(1, 1, [1, 2, 4])
    plan.set_sequence(1, 2, [5, 6, 8])
    plan["phaseMinimumGreen"] = {1: 5, 2: 10, 4: 7, 5: 5, 6: 10, 8: 7}
    for name in ("phaseMaximum1", "phaseMaximum2"):
        plan[name] = {1: 15, 2: 45, 4: 25, 5: 15, 6: 45, 8: 25}
    plan["phasePassage"] = {1: 20, 2: 30, 4: 25, 5: 20, 6: 30, 8: 25}
    plan["phaseMinimumGap"] = {1: 20, 2: 20, 4: 25, 5: 20, 6: 20, 8: 25}
    plan["phaseTimeBeforeReduction"] = {2: 15, 6: 15}
    plan["phaseTimeToReduce"] = {2: 11, 6: 10}
    plan["phaseYellowChange"] = {1: 30, 2: 40, 4: 36, 5: 30, 6: 40, 8: 36}
    plan["phaseRedClear"] = {1: 20, 2: 15, 4: 15, 5: 20, 6: 15, 8: 15}
    plan["phaseMinRecall"] = {2: 1, 6: 1}
    plan["phaseWalk"] = dict.fromkeys((2, 4, 6, 8), 7)
    plan["phasePedestrianClear"] = {2: 12, 4: 15, 6: 12, 8: 15}
    plan["phaseDualEntry"] = dict.fromkeys((2, 4, 6, 8), 1)
    plan["vehicleDetectorCallPhase"] = {1: 5, 2: 2, 3: 1, 4: 6, 5: 4, 6: 8}
    plan["vehicleDetectorExtend"] = {1: 20, 2: 30, 3: 20, 4: 30, 5: 26, 6: 10}
    plan["vehicleDetectorDelay"] = {1: 50, 6: 30}
    plan["patternCycleTime"][1] = 100
    plan["patternOffsetTime"][1] = 10
    plan["patternSplitNumber"][1] = plan["patternSequenceNumber"][1] = 1
    for phase, split in {1: 20, 2: 50, 4: 30, 5: 20, 6: 50, 8: 30}.items():
        plan["splitTime"][1, phase] = split
    plan["splitCoordPhase"][1, 2] = plan["splitCoordPhase"][1, 6] = 1
    return plan


@pytest.mark.parametrize(
    ("text", "node", "said"),
    [
        ("[Phases]\n", None, "[Phases] has nodes none: name one by --node"),
        ("[Phases]\nRECORDNAME,INTID,D1\nBRP,1,111\nBRP,2,111\n", None,
         "[Phases] has nodes 1 2: name one by --node"),
        ("[Phases]\nRECORDNAME,INTID,D1\nBRP,1,111\n", "3", "[Phases] has nodes 1: not 3"),
        ("[Phases]\nRECORDNAME,INTID,D1\nBRP,,111\n", None,
         "UTDF line 3: a row of [phases] without a node, or before RECORDNAME"),
        ("[Phases]\nBRP,1\n", None,
         "UTDF line 2: a row of [phases] without a node, or before RECORDNAME"),
        ("[Phases]\n" + "x" * 200_000 + "\n", None,
         "UTDF line 2: field larger than field limit (131072)"),
    ],
)  # fmt: skip
def test_files_that_are_refused(text: str, node: str | None, said: str) -> None:
    """One line says why."""
    assert utdf.is_utdf(text)
    with pytest.raises(Error) as fault:
        utdf.plan_of(text, node)
    assert str(fault.value) == said


def test_numbers_and_places_that_are_none() -> None:
    """Each is named, and what is left is read."""
    text = """\
[Phases]
Phasing Data
RECORDNAME,INTID,D1,D2,D3,D4,DX
BRP,1,111,531,,11,
MinGreen,1,5,7,9,,1
VehExt,1,many,,,,
Yellow,1,30.0,,,,
AllRed,1,-1,,,,
InhibitMax,1,0.5,,,,
DualEntry,1,2,,,,
MinGreen,1,6
Walk,1,,,,,,3
[Timeplans]
RECORDNAME,INTID,DATA
Control Type,1,3
Cycle Length,1,300
Reference Phase,1,106
"""
    reading = utdf.plan_of(text, None)
    assert list(lines_of(reading.remarks)) == """\
line 4: BRP D2 = 531: a plan has rings 1 and 2, and sides 1 to 4
line 4: BRP D4 = 11: it is no such place
line 5: MinGreen D2 = 7: BRP has no place of this phase
line 5: MinGreen D3 = 9: BRP has no place of this phase
line 5: MinGreen DX = 1: a plan has phases 1 to 16
line 6: VehExt D1 = many: it is no number
line 7: Yellow D1 = 30.0: phaseYellowChange: 300 is not in 0 to 255 (tenths of a second)
line 8: AllRed D1 = -1: phaseRedClear: -10 is not in 0 to 255 (tenths of a second)
line 9: InhibitMax D1 = 0.5: it is no whole number
line 9: InhibitMax D1 = 0.5: a plan has one mode for all phases: no maximum in a pattern
line 10: DualEntry D1 = 2: phaseDualEntry: 2 is not in 0 to 1 (yes or no)
line 11: MinGreen = 6: a line before has it too, and counts
line 12: Walk = 3: no column is named for it
line 16: Cycle Length = 300: patternCycleTime: 300 is not in 0 to 255 (seconds, 0 for a pattern that is not used)
line 17: Reference Phase = 106: there is no phase 6
""".splitlines()
    assert dict(reading.plan["phaseMinimumGreen"]) == {1: 5}
    assert reading.plan.phases == {1}


def test_cells_at_their_bounds() -> None:
    """The title of a section may end as a section's own line does. A row may have no
    value, a number nine digits, a phase the number 16 and the side 4. A negative number
    is rounded up too. A split needs all of its parts, and whole seconds."""
    text = """\
[Phases]
Phasing Data [all]
RECORDNAME,INTID,D1,D2,D3,D4,D16
BRP,1,111,121,131,521,411
MinGreen,1,5,7,,,8
MaxGreen,1,20.5,20,,,30
VehExt,1,1000000000,999999999,,,
Yellow,1,3.5,3.5,,,3
AllRed,1,0.05,-0.55,,,
Walk,1
[Timeplans]
RECORDNAME,INTID,DATA
Control Type,1,3
Cycle Length,1,90
Offset,1,
Control Type,7,1
[Lanes]
RECORDNAME,INTID,NBT
Volume,8,90
"""
    reading = utdf.plan_of(text, None)
    assert list(lines_of(reading.remarks))[:-3] == """\
line 4: BRP D3 = 131: a plan has rings 1 and 2, and sides 1 to 4
line 4: BRP D4 = 521: a plan has rings 1 and 2, and sides 1 to 4
line 6: MaxGreen D1 = 20.5: phaseMaximum1 takes whole ones: 21 is given
line 6: split of D1 = 24.05: a split has whole seconds
line 6: split of D2 = 22.95: a split has whole seconds
line 7: VehExt D1 = 1000000000: it is no number
line 7: VehExt D2 = 999999999: phasePassage: 9999999990 is not in 0 to 255 (tenths of a second)
line 9: AllRed D1 = 0.05: phaseRedClear takes whole ones: 1 is given
line 9: AllRed D2 = -0.55: phaseRedClear takes whole ones: -5 is given
line 9: AllRed D2 = -0.55: phaseRedClear: -5 is not in 0 to 255 (tenths of a second)
line 16: [timeplans]: it is of another node
line 19: [lanes]: it is of another node
""".splitlines()
    assert dict(reading.plan["phaseSide"]) == {1: 1, 2: 1, 16: 4}
    assert not dict(reading.plan["splitTime"]) and not dict(reading.plan["splitCoordPhase"])


def test_a_file_that_runs_free() -> None:
    """Its timing plan is named and not taken."""
    text = "[Phases]\nRECORDNAME,INTID,D1\nBRP,1,111\n[Timeplans]\nRECORDNAME,INTID,DATA\n"
    reading = utdf.plan_of(f"{text}Control Type,1,1\nCycle Length,1,90\nLock,1,0\n", None)
    assert list(lines_of(reading.remarks)) == [
        "line 6: Control Type = 1: the plan runs free: Control Type is not 3",
        "line 7: Cycle Length = 90: the plan runs free: Control Type is not 3",
        "line 8: Lock = 0: a plan has no place for it",
    ]
    assert not dict(reading.plan["patternCycleTime"])


def lanes_of(count: int) -> str:
    """A file of a phase whose movements have detectors, and one of a phase that no plan has."""
    names = [f"M{it}" for it in range(count + 1)]
    lanes = "".join(
        f"{row},1,{','.join([first, *[value] * count])}\n"
        for row, first, value in (
            ("DetectPhase1", "99", "1"), ("numDetects", "1", "2"), ("DetectExtend1", "1", "1.5")
        )
    )  # fmt: skip
    phases = "[Phases]\nRECORDNAME,INTID,D1\nBRP,1,111\n"
    return f"{phases}[Lanes]\nRECORDNAME,INTID,{','.join(names)}\n{lanes}"


def test_more_movements_than_detectors() -> None:
    """The last detector has its extension. The next is named, as is one whose phase no
    plan has: neither is said to be given."""
    reading = utdf.plan_of(lanes_of(65), None)
    extend = dict(reading.plan["vehicleDetectorExtend"])
    assert extend == dict.fromkeys(range(1, 65), 15)
    none = "it is of no detector with a phase"
    assert list(lines_of(reading.remarks)) == [
        "line 6: DetectPhase1 M0 = 99: vehicleDetectorCallPhase: 99 is not in 0 to 16 (phase, 0 for none)",
        "line 6: DetectPhase1 M65 = 1: vehicleDetectorCallPhase.65: its indices are 1 to 64",
        f"line 6: DetectPhase1 = M0 99, M65 1: {none}",
        f"line 7: numDetects = M0 1, M65 2: {none}",
        f"line 8: DetectExtend1 = M0 1, M65 1.5: {none}",
        *(f"vehicleDetectorCallPhase.{it} = 1: given, for M{it}" for it in range(1, 65)),
    ]


@pytest.mark.parametrize(("count", "version"), [(0, 2), (16, 2), (17, 3), (64, 3)])
def test_the_version_that_has_the_detectors(count: int, version: int) -> None:
    """A plan is of version 3 only where it has a detector that version 2 has not."""
    plan = utdf.plan_of(lanes_of(count), None).plan
    assert plan.version == version
    assert len(plan["vehicleDetectorCallPhase"]) == count
    assert Plan.of_text(plan.text) == plan


def pattern_of(*coordinated: int) -> Plan:
    """Phases 1 and 8 with a pattern on table 2 and sequence 2."""
    plan = Plan()
    plan["phaseEnabled"] = {1: 1, 8: 1}
    plan["phaseRing"], plan["phaseSide"] = {1: 1, 8: 2}, {1: 1, 8: 1}
    plan["phaseMaximum1"] = {1: 20, 8: 9}
    plan["phaseYellowChange"], plan["phaseRedClear"] = {1: 36, 8: 90}, {1: 14, 8: 15}
    plan["patternCycleTime"][3] = 60
    plan["patternSplitNumber"][3] = plan["patternSequenceNumber"][3] = 2
    plan["splitTime"][2, 1], plan["splitTime"][2, 8] = 25, 10
    for it in coordinated:
        plan["splitCoordPhase"][2, it] = 1
    return plan


@pytest.mark.parametrize(
    ("coordinated", "wanted"), [((), "0"), ((8,), "8"), ((1, 8), "108")]
)
def test_reference_phases(coordinated: Sequence[int], wanted: str) -> None:
    """Two, one alone, or none. What a split leaves is no green in phase 8, and just the
    maximum of phase 1."""
    text, told = text_of(pattern_of(*coordinated), 3)
    assert f"\nReference Phase,7,{wanted}\n" in text
    assert "\nMaxGreen,7,20.0,,,,,,,-0.5\n" in text and "\nVehExt,7,0.0,,,,,,,0.0\n" in text
    maximums = [it for it in told if it.startswith("phaseMaximum1")]
    assert maximums == ["phaseMaximum1.8 = 9: MaxGreen is what the split leaves"]


def test_what_sections_have_no_place_for() -> None:
    """Other patterns, tables and sequences, phases that are not enabled, and lists of
    concurrent phases that no barrier gives; a mode of maximums that is neither 0 nor 1."""
    plan = pattern_of(1, 8)
    plan["phaseEnabled"][16] = plan["phaseSide"][16] = plan["phaseRing"][16] = 1
    plan["phaseConcurrency"] = {1: {8}, 8: {1}, 16: {8}}
    plan["phaseWalk"] = {2: 7, 16: 7}
    plan["splitTime"] = {(1, 16): 5, (2, 1): 25, (2, 2): 6, (2, 16): 7, (3, 1): 8}
    for sequence in (1, 2, 3):
        plan["sequenceData"][sequence, 1, 1] = plan["sequenceData"][sequence, 2, 16] = 1
    plan["patternCycleTime"][4] = 70
    plan["coordMaximumMode"][1] = 1
    no_place = "these sections have no place for it"
    told = [it for it in text_of(plan, 3)[1] if "phaseMaximum1" not in it]
    assert sorted(told[1:]) == sorted([
        f"phaseWalk.2 = 7: {no_place}",
        "phaseConcurrency.8 = 1: BRP makes all phases of a barrier and two rings concurrent",
        f"splitTime.16 = 5: {no_place}", f"splitTime.18 = 6: {no_place}",
        f"splitTime.33 = 8: {no_place}", f"patternCycleTime.4 = 70: {no_place}",
        *(f"sequenceData.{it} = 1: {no_place}" for it in (1, 32, 65, 96)),
    ])  # fmt: skip
    plan["coordMaximumMode"][1] = 2
    assert f"coordMaximumMode.1 = 2: {no_place}" in text_of(plan, 3)[1]
    free = text_of(plan, 0)
    assert free[0].startswith("[Timeplans]\nTiming Plan Settings\nRECORDNAME,INTID,DATA\nControl Type,7,1\n\n")
    of = [it for it in free[1] if it.startswith("sequenceData")]
    assert of == [f"sequenceData.{it} = 1: {no_place}" for it in (33, "64 to .65", 96)]


def test_words_of_utdf(examples: Path, capsys: pytest.CaptureFixture[str]) -> None:
    """Free operation without a pattern, for a plan of version 1 as well. No word is cut."""
    plan = str(examples / "quad.json")
    assert main(["utdf", plan]) == 0
    assert "\nControl Type,1,1\n" in capsys.readouterr().out
    for words in (["--pattern", "17"], ["--pat", "1"]):
        with pytest.raises(SystemExit) as ended:
            main(["utdf", plan, *words])
        assert ended.value.code == 2
    capsys.readouterr()
    assert main(["utdf", plan, "--pattern", "16"]) == 1
    assert capsys.readouterr().err.endswith("the plan has no pattern 16\n")


def test_a_plan_that_breaks_a_rule(
    examples: Path, capsys: pytest.CaptureFixture[str]
) -> None:
    """It has no sections, and nor has a pattern that is not used."""
    assert main(["utdf", str(examples / "two_short_yellow.json")]) == 1
    told = capsys.readouterr()
    assert told.out == "" and "plan: rule K8" in told.err
    assert main(["utdf", str(examples / "quad.json"), "--pattern", "9"]) == 1
    said = f"{examples / 'quad.json'}: the plan has no pattern 9\n"
    assert capsys.readouterr().err == said


def test_objects_of_sections() -> None:
    """All of them are objects of a plan."""
    assert utdf.COVERED <= set(OBJECTS) and OF_PATTERNS | OF_PHASES <= (
        utdf.COVERED | {"coordMaximumMode"}
    )
