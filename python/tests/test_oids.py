"""Plans as lines of OIDs, and back: the columns are those of NTCIP 1202 v02, and what
is expected of them is worked by hand."""

import subprocess
import sys
from collections.abc import Sequence
from pathlib import Path

import pytest
from hypothesis import example, given, settings
from hypothesis import strategies as st
from tsb import Error, Plan
from tsb.__main__ import main
from tsb.exchange import forms, objects, oids, sides, walk
from tsb.exchange.forms import Value
from tsb.exchange.objects import ASC
from tsb.exchange.remarks import Remark, lines_of
from tsb.manual import OBJECTS
from tsb.new import Choice, plan_of

ROOT = ".1.3.6.1.4.1.1206.4.2.1"
TIME = ".1.3.6.1.4.1.1206.4.2.6.3"
PROFILE = {
    "phaseSide", "phaseVariableInitial", "phasePedestrianRecycle", "unitMax2",
    "overlapAcrossRings", "coordCorrectionLimit", "patternPermissiveTime",
    "patternLeadLag", "preemptChoosesAnew", "coordReference", "overlapArrowDelay",
    "overlapArrowPedestrian", "actionArrowOmit",
}  # fmt: skip
#: Objects of which any value leaves the structure of a plan as it is.
FREE = sorted(
    set(OBJECTS) - PROFILE - {
        "phaseEnabled", "phaseRing", "phaseConcurrency", "sequenceData",
        "overlapIncludedPhases", "overlapModifierPhases", "vehicleDetectorCallPhase",
        "pedestrianDetectorCallPhase", "coordForceMode", "phaseMinimumGap",
    }
)  # fmt: skip


def runs(count: int) -> settings:
    """So many, the same each time."""
    return settings(max_examples=count, deadline=None, database=None, derandomize=True)


def read(text: str) -> oids.Reading:
    """What is made of a walk."""
    return oids.plan_of(walk.lines_of(text))


def alike(one: Plan, other: Plan) -> list[str]:
    """The objects in which two plans differ, without those of the profile."""
    names = [it for it in OBJECTS if it not in PROFILE]
    one, other = one.wide(3), other.wide(3)
    return [it for it in names if dict(one[it]) != dict(other[it])]


# What is printed


@pytest.mark.parametrize("version", [2, 3])
def test_rows_of_all_versions(version: int, examples: Path) -> None:
    """A walk has all rows that a bench has, whatever the version of the plan's text; what is
    made of it is of version 3 only where a row beyond version 2 says something."""
    plan = Plan.read(examples / "quad.json").wide(version)
    if version == 3:
        plan["vehicleDetectorDelay"][40] = 25
    lines = list(oids.lines_of(plan))
    for column, last in (("2.2.1.6", 64), ("2.7.1.2", 16), ("9.2.1.2", 16), ("6.2.1.4", 8)):
        rows = [it for it in lines if it.startswith(f"{ROOT}.{column}.")]
        assert len(rows) == last
    made = read("\n".join(lines)).plan
    assert made.version == version and not alike(plan, made)


def test_the_objects_of_the_profile() -> None:
    """Those that NTCIP 1202 v02 has no object for: all others are printed."""
    assert oids.profile_objects() == PROFILE


#: Values of the manual's intersection, worked by hand from its plan and the columns.
HAND = """\
.1.2.1.2.2 = INTEGER: 7
.1.2.1.3.4 = INTEGER: 12
.1.2.1.4.2 = INTEGER: 10
.1.2.1.8.4 = INTEGER: 36
.1.2.1.17.2 = INTEGER: 20
.1.2.1.21.1 = INTEGER: 1
.1.2.1.21.2 = INTEGER: 9537
.1.2.1.21.6 = INTEGER: 1089
.1.2.1.22.5 = INTEGER: 2
.1.2.1.23.1 = Hex-STRING: 05 06\x20
.1.2.1.23.9 = ""
.2.2.1.4.8 = INTEGER: 8
.2.2.1.6.8 = INTEGER: 50
.2.7.1.2.4 = INTEGER: 4
.3.4.0 = INTEGER: 20
.4.2.0 = INTEGER: 1
.4.3.0 = INTEGER: 4
.4.4.0 = INTEGER: 3
.4.7.1.2.1 = INTEGER: 90
.4.7.1.3.1 = INTEGER: 40
.4.9.1.3.1.2 = INTEGER: 35
.4.9.1.4.1.2 = INTEGER: 2
.4.9.1.5.1.6 = INTEGER: 1
.6.2.1.4.1 = INTEGER: 1
.6.2.1.11.1 = INTEGER: 120
.6.2.1.13.1 = Hex-STRING: 04 07\x20
.6.2.1.15.1 = Hex-STRING: 02 06\x20
.7.3.1.3.1.1 = Hex-STRING: 01 02 03 04\x20
.7.3.1.3.1.2 = Hex-STRING: 05 06 07 08\x20
.9.2.1.2.1 = INTEGER: 2
.9.2.1.3.1 = Hex-STRING: 06 07\x20
"""


def test_lines_by_hand(examples: Path) -> None:
    """Lines as `snmpwalk -On` prints them, in ascending order."""
    plan = Plan.read(examples / "main_and_oak.json")
    lines = list(oids.lines_of(plan))
    places = [it.oid for it in walk.lines_of("\n".join(lines))]
    assert places == sorted(places) and len(set(places)) == len(lines)
    wanted = [f"{ROOT}{it}" for it in HAND.splitlines()]
    assert [it for it in wanted if it not in lines] == []


#: Of the plan with a schedule: its entries hold on all days, the last one on the 9th of
#: December, and its day plans have three events and two.
SCHEDULE = f"""\
{ROOT}.5.3.1.2.1 = INTEGER: 1
{ROOT}.5.3.1.2.3 = INTEGER: 254
{ROOT}.5.3.1.2.4 = INTEGER: 0
{TIME}.3.2.1.2.1 = INTEGER: 8190
{TIME}.3.2.1.2.3 = INTEGER: 4096
{TIME}.3.2.1.3.2 = INTEGER: 130
{TIME}.3.2.1.4.1 = Gauge32: 4294967294
{TIME}.3.2.1.4.3 = Gauge32: 512
{TIME}.3.2.1.4.32 = Gauge32: 0
{TIME}.3.2.1.5.2 = INTEGER: 2
{TIME}.3.5.1.3.1.3 = INTEGER: 19
{TIME}.3.5.1.3.2.1 = INTEGER: 10
{TIME}.3.5.1.4.2.1 = INTEGER: 30
{TIME}.3.5.1.5.1.2 = OID: {ROOT}.5.3.1.1.2
{TIME}.3.5.1.5.2.2 = OID: {ROOT}.5.3.1.1.3
{TIME}.3.5.1.5.16.16 = OID: .0.0
"""


def test_lines_of_a_schedule_by_hand(examples: Path) -> None:
    """Both halves of the days of the month are one number, and an event names its action
    by the OID of the action's row."""
    plan = Plan.read(examples / "schedule.json")
    plan["dayPlanMinute"][2, 1] = 30
    lines = list(oids.lines_of(plan))
    assert [it for it in SCHEDULE.splitlines() if it not in lines] == []
    places = [it.oid for it in walk.lines_of("\n".join(lines))]
    assert places == sorted(places) and len(set(places)) == len(lines)
    assert [it.name for it in oids.without_place(plan)][-1] == "patternLeadLag"


@pytest.mark.parametrize(
    ("date", "halves"),
    [
        ("Gauge32: 4294967294", {1: 65534, 33: 65535}),
        ("INTEGER: 4294967294", {1: 65534, 33: 65535}),
        ("INTEGER: -2", {1: 65534, 33: 65535}),
        ("INTEGER: -2147483648", {33: 32768}),
        ("INTEGER: 98306", {1: 32770, 33: 1}),
        ("Gauge32: 4294967296", {}),
        ("INTEGER: -2147483649", {}),
    ],
)
def test_days_of_the_month_by_hand(date: str, halves: dict[int, int]) -> None:
    """32 bits, as an INTEGER of SNMP has them too, whose greatest one is its sign."""
    reading = read(f"{TIME}.3.2.1.4.1 = {date}\n")
    assert dict(reading.plan.wide(3)["timeBaseScheduleDate"]) == halves
    told = [(it.name, it.row, it.why) for it in reading.remarks]
    lost = ("timeBaseScheduleDate", (1,), "timeBaseScheduleDate has 32 bits")
    assert told == ([] if halves else [lost])


@pytest.mark.parametrize(
    ("value", "action", "why"),
    [
        (f"OID: {ROOT}.5.3.1.1.7", 7, ""),
        ("OID: iso.3.6.1.4.1.1206.4.2.1.5.3.1.1.32", 32, ""),
        ("OID: SNMPv2-SMI::enterprises.1206.4.2.1.5.3.1.1.1", 1, ""),
        ("OID: .0.0", 0, ""),
        ("OID: ccitt.0", 0, ""),
        ("OID: SNMPv2-SMI::zeroDotZero", 0, ""),
        (f"OID: {ROOT}.5.3.1.1.0", 0, ""),
        (f"OID: {ROOT}.5.3.1.1.33", 0, "dayPlanActionNumber: 33 is not in 0 to 32"),
        (f"OID: {ROOT}.5.3.1.2.7", 0, "it names no row of timebaseAscActionTable"),
        (f"OID: {ROOT}.5.3.1.1", 0, "it names no row of timebaseAscActionTable"),
        ("OID: .2.999", 0, "it names no row of timebaseAscActionTable"),
        ("OID: .1.3.99999999999", 0, "it is not an OID"),
        ("OID: .3.3", 0, "it is not an OID"),
        ("OID: action", 0, "it is not an OID"),
        ("INTEGER: 3", 0, "it is not an OID"),
        ('STRING: "3"', 0, "it is not an OID"),
    ],
)
def test_actions_of_events_by_hand(value: str, action: int, why: str) -> None:
    """The OID of an action's row, or 0.0."""
    reading = read(f"{TIME}.3.5.1.5.2.16 = {value}\n")
    assert reading.plan.wide(3)["dayPlanActionNumber"][2, 16] == action
    told = [it.why.partition(" (")[0] for it in reading.remarks]
    assert told == [why] * bool(why) and (reading.taken == set()) is bool(why)


def test_what_of_a_schedule_has_no_place() -> None:
    """Rows that a plan does not have, other objects of the time, and flash."""
    text = f"""\
{ROOT}.5.1.0 = INTEGER: 0
{ROOT}.5.1.0 = INTEGER: 65535
{ROOT}.5.2.0 = INTEGER: 255
{ROOT}.5.3.1.1.3 = INTEGER: 3
{ROOT}.5.3.1.2.3 = INTEGER: 255
{ROOT}.5.3.1.3.3 = INTEGER: 1
{ROOT}.5.3.1.4.3 = INTEGER: 0
{ROOT}.5.4.0 = INTEGER: 3
{TIME}.1.0 = Counter32: 1795417199
{TIME}.2.0 = INTEGER: 3
{TIME}.3.4.0 = INTEGER: 24
{TIME}.3.2.1.1.33 = INTEGER: 33
{TIME}.3.2.1.4.33 = Gauge32: 0
{TIME}.3.2.1.2.5 = INTEGER: 65534
{TIME}.3.5.1.5.16.17 = OID: .0.0
{TIME}.3.5.1.5.17.1 = OID: {ROOT}.5.3.1.1.3
{TIME}.3.6.0 = INTEGER: 1
"""
    reading = read(text)
    assert list(lines_of(reading.remarks)) == f"""\
line 1: timebaseAscPatternSync = INTEGER: 0: a plan has no place for it; as it is, it does nothing
line 2: timebaseAscPatternSync = INTEGER: 65535: a plan has no place for it
line 3: maxTimebaseAscActions = INTEGER: 255: it is a size, and no part of a plan
line 5: timebaseAscPattern.3 = INTEGER: 255: timebaseAscPattern: 255 is not in 0 to 254 (pattern, 254 for free operation, 0 for none)
line 6: timebaseAscAuxillaryFunction.3 = INTEGER: 1: a plan has no place for it
line 7: timebaseAscSpecialFunction.3 = INTEGER: 0: a plan has no place for it; as it is, it does nothing
line 8: timebaseAscActionStatus = INTEGER: 3: it is a status, and no part of a plan
line 9: globalTime = Counter32: 1795417199: it is a status, and no part of a plan
line 10: globalDaylightSaving = INTEGER: 3: a plan has no place for it
line 11: maxDayPlanEvents = INTEGER: 24: it is a size, and no part of a plan
line 13: timeBaseScheduleDate.33 = Gauge32: 0: a plan has 32 of them; as it is, it does nothing
line 14: timeBaseScheduleMonth.5 = INTEGER: 65534: timeBaseScheduleMonth: 65534 is not in 0 to 8190 (sum of `2^month` over its months, January 1)
line 15: dayPlanActionNumberOID.16.17 = OID: .0.0: a plan has 16 x 16 of them; as it is, it does nothing
line 16: dayPlanActionNumberOID.17.1 = OID: {ROOT}.5.3.1.1.3: a plan has 16 x 16 of them
line 17: dayPlanStatus = INTEGER: 1: it is a status, and no part of a plan
""".splitlines()
    assert reading.taken == {4, 12} and reading.plan == Plan()


def test_notes_have_no_place(examples: Path) -> None:
    """They are printed with the rest of what a walk has no place for."""
    plan = Plan.read(examples / "two.json").noted({"site": "Main and\nOak"})
    *_, last = lines_of(oids.without_place(plan))
    assert last == "notes.site = Main and?Oak: NTCIP 1202 v02 has no object for it"


@pytest.mark.parametrize(
    ("name", "bit"),
    [("phaseEnabled", 0), ("phaseNonLock", 5), ("phaseMinRecall", 6),
     ("phaseMaxRecall", 7), ("phasePedRecall", 8), ("phaseSoftRecall", 9),
     ("phaseDualEntry", 10), ("phaseSimGapDisable", 11), ("phaseRestInWalk", 13)],
)  # fmt: skip
def test_options_by_hand(name: str, bit: int) -> None:
    """Each is a bit of phaseOptions."""
    plan = Plan()
    plan[name][3] = 1
    assert f"{ROOT}.1.2.1.21.3 = INTEGER: {2**bit}" in list(oids.lines_of(plan))


def test_what_a_walk_has_no_place_for(
    examples: Path, capsys: pytest.CaptureFixture[str], tmp_path: Path
) -> None:
    """The lines go to standard output, and what has no place to standard error."""
    plan = Plan.read(examples / "two.json").wide()
    plan["coordForceMode"][1] = 1
    plan["patternPermissiveTime"][3] = 4
    plan["phaseMinimumGap"][2] = 0
    plan["phasePassage"][2] = 20
    plan.write(tmp_path / "plan.json")
    assert main(["oids", str(tmp_path / "plan.json")]) == 0
    told = capsys.readouterr()
    assert told.out.splitlines() == list(oids.lines_of(plan))
    assert told.err == """\
phaseSide.2 = 1: NTCIP 1202 v02 has no object for it
phaseSide.4 = 2: NTCIP 1202 v02 has no object for it
coordForceMode.1 = 1: it is written as fixed, as 0 is
patternPermissiveTime.3 = 4: NTCIP 1202 v02 has no object for it
phaseMinimumGap.2 = 0: no time reduces a gap there, and here it is the minimum gap at once
"""


# Out and in


@pytest.mark.parametrize(
    "name",
    ["main_and_oak", "tee", "one_way_pair", "railroad", "right_turns", "two", "quad",
     "coordination", "no_advice", "late_force_off", "first_plan", "schedule"],
)  # fmt: skip
def test_examples_out_and_in(name: str, examples: Path) -> None:
    """Out and in is the plan, and so are the sides, which no line has."""
    plan = Plan.read(examples / f"{name}.json")
    plan = plan.wide() if plan.version == 1 else plan
    reading = read("\n".join(oids.lines_of(plan)))
    again = reading.plan
    assert again.version == (3 if plan.has_schedule else 2)
    assert alike(plan, again) == [] and dict(plan["phaseSide"]) == dict(again["phaseSide"])
    assert {it.why for it in reading.remarks} <= {
        "given, by lists of concurrent phases and sequences"
    }


CHOICES = st.tuples(*[st.sampled_from(["", "through", "left"])] * 8).filter(any)
VALUES = st.lists(
    st.tuples(st.sampled_from(FREE), st.integers(0, 10**6), st.integers(0, 10**6)),
    max_size=40,
)


def made(kinds: Sequence[str], values: Sequence[tuple[str, int, int]]) -> Plan:
    """A plan of phases with these values besides."""
    of = {kind: {at for at, it in enumerate(kinds, 1) if it == kind} for kind in kinds}
    throughs, lefts = (frozenset(of.get(it, ())) for it in ("through", "left"))
    plan = plan_of(Choice(throughs, lefts)).wide(3)
    for name, index, value in values:
        what = OBJECTS[name]
        plan[name][1 + index % what.counts(plan.version)] = value % (what.greatest + 1)
    return plan


@runs(100)
@given(CHOICES, VALUES)
@example(("through",) * 8, [("phaseAddedInitial", 1, 15)])
def test_plans_out_and_in(
    kinds: Sequence[str], values: Sequence[tuple[str, int, int]]
) -> None:
    """Whatever the phases and the values: out and in is the plan, but where the page of
    volume density of a phase is blank."""
    plan = made(kinds, values)
    blank = set(oids.blank_density(plan))
    reading = read("\n".join(oids.lines_of(plan)))
    assert reading.taken == set(range(1, reading.lines + 1))
    for phase in blank:
        assert reading.plan["phaseMinimumGap"][phase] == plan["phasePassage"][phase]
        plan["phaseMinimumGap"][phase] = plan["phasePassage"][phase]
    plan["coordForceMode"][1] = 0
    assert alike(plan, reading.plan) == []


# What is read


#: Any lines: of the tables, with rows that a plan has and those that it does not have.
PLACES = st.one_of(
    st.builds(
        lambda table, number, row: (*table.root, number, *row),
        st.sampled_from(objects.TABLES),
        st.integers(1, 25),
        st.lists(st.integers(0, 20), min_size=1, max_size=2),
    ),
    st.builds(
        lambda more: (1, 3, 6, 1, *more), st.lists(st.integers(0, 70_000), min_size=1)
    ),
)
ANY = st.one_of(
    st.integers(-(2**31), 2**31 - 1),
    st.integers(0, 2**32 - 1).map(forms.Unsigned),
    st.binary(max_size=40),
    st.integers(0, 40).map(lambda it: (*ASC, 5, 3, 1, 1, it)),
    st.lists(st.integers(0, 2**32 - 1), min_size=1, max_size=6).map(lambda it: (1, *it)),
)


@runs(200)
@given(st.lists(st.tuples(PLACES, ANY), max_size=30))
def test_nothing_is_dropped(given_lines: list[tuple[forms.Oid, Value]]) -> None:
    """What is read and what is named as without place is all of a walk; and the lines
    of what has no place say it all."""
    text = "\n".join(walk.printed(oid, value) for oid, value in given_lines)
    reading = read(text)
    lines = {it.number for it in walk.lines_of(text)}
    assert len(lines) == len(given_lines) == reading.lines
    assert reading.taken | {it.line for it in reading.remarks if it.line} == lines
    assert all(lines_of(reading.remarks))


@runs(200)
@given(PLACES, ANY)
@example((1, 3, 6), b'a "quote" and \\ and\nanother line')
@example((1, 3, 6), bytes(range(40)))
@example((1, 3, 6), b"\t\n")
@example((1, 3, 6), (0, 0))
@example((1, 3, 6), (2, 999))
def test_a_line_is_read_as_it_is_printed(oid: forms.Oid, value: Value) -> None:
    """An OID and its value come back, also over several lines."""
    text = walk.printed(oid, value)
    for end in ("\n", "\r\n"):
        if isinstance(value, bytes) and b"\n" in value or b"\r" in bytes(str(value), "utf8"):
            end = "\n"
        found = list(walk.lines_of(text.replace("\n", end) + end + "\n"))
        assert [(it.oid, it.value) for it in found] == [(oid, value)]
        assert type(found[0].value) is type(value)


STREET = f"""\
.1.3.6.1.2.1.1.1.0 = STRING: "a controller"
{ROOT}.1.1.0 = INTEGER: 16
{ROOT}.1.2.1.1.2 = INTEGER: 2
{ROOT}.1.2.1.4.2 = INTEGER: 10
{ROOT}.1.2.1.4.17 = INTEGER: 9
{ROOT}.1.2.1.4.18 = INTEGER: 0
{ROOT}.1.2.1.5.2 = INTEGER: 300
{ROOT}.1.2.1.5.4 = INTEGER: 25
{ROOT}.1.2.1.11.4 = INTEGER: 15
{ROOT}.1.2.1.16.1 = INTEGER: 0
{ROOT}.1.2.1.16.2 = INTEGER: 0
{ROOT}.1.2.1.16.3 = INTEGER: 5
{ROOT}.1.2.1.21.2 = INTEGER: 4097
{ROOT}.1.2.1.21.4 = INTEGER: 1
{ROOT}.1.2.1.22.2 = INTEGER: 1
{ROOT}.1.2.1.22.4 = INTEGER: 1
{ROOT}.1.2.1.23.2 = Hex-STRING: 06 14\x20
{ROOT}.1.2.1.23.9 = Hex-STRING: 0D\x20
{ROOT}.1.4.1.2.1 = INTEGER: 255
{ROOT}.2.2.1.4.3 = INTEGER: 6
{ROOT}.4.3.0 = INTEGER: other(1)
{ROOT}.4.9.1.4.1.2 = INTEGER: minimumVehicleRecall(3)
{ROOT}.7.3.1.3.1.1 = Hex-STRING: 02 03 04\x20
{ROOT}.7.3.1.3.1.3 = ""
"""


def test_a_walk_of_a_street(
    tmp_path: Path, capsys: pytest.CaptureFixture[str]
) -> None:
    """A walk that was written by hand: what a plan has of it, and a line for what it
    has no place for."""
    (tmp_path / "walk.txt").write_text(STREET)
    out = tmp_path / "plan.json"
    assert main(["plan", str(tmp_path / "walk.txt"), "--out", str(out)]) == 0
    told = capsys.readouterr().out.splitlines()
    assert told[0] == f"{out}: 13 of 24 values of a walk"
    assert told[1:-1] == """\
line 1: .1.3.6.1.2.1.1.1.0 = STRING: "a controller": it is no object of a plan
line 2: maxPhases = INTEGER: 16: it is a size, and no part of a plan
line 5: phaseMinimumGreen.17 = INTEGER: 9: a plan has 16 of them
line 6: phaseMinimumGreen.18 = INTEGER: 0: a plan has 16 of them; as it is, it does nothing
line 7: phasePassage.2 = INTEGER: 300: phasePassage: 300 is not in 0 to 255 (tenths of a second)
lines 10 to 11: phaseReduceBy.1 to .2 = INTEGER: 0: a plan has no place for it; as it is, it does nothing
line 12: phaseReduceBy.3 = INTEGER: 5: a plan has no place for it
line 13: phaseOptions.2 = INTEGER: 4097: bit 12 (guaranteed passage) has no object
line 17: phaseConcurrency.2 = Hex-STRING: 06 14: there is no phase 20 here: it is left out
line 19: phaseStatusGroupReds.1 = INTEGER: 255: it is a status, and no part of a plan
line 21: coordMaximumMode = INTEGER: other(1): coordMaximumMode has nothing of this kind
line 24: sequenceData.1.3 = "": a plan has 4 x 2 of them; as it is, it does nothing
phaseConcurrency.2 = 6: only phases that are enabled are in lists: it is left out
phaseConcurrency.9 = 13: only phases that are enabled are in lists: it is left out
sequenceData.1 = 3: phase 3 is not enabled, so ring 1 leaves it out
vehicleDetectorCallPhase.3 = 6: phase 6 is not enabled, so it calls none
phaseSide.2 = 1: given, by lists of concurrent phases and sequences
phaseSide.4 = 2: given, by lists of concurrent phases and sequences
phaseMinimumGap.4 = 25: given, as phasePassage: no time reduces a gap
phaseVariableInitial.4 = 1: given, as phaseAddedInitial is 15
""".splitlines()
    assert told[-1].startswith("tsb check: plan: rule K8: ")
    plan = Plan.read(out)
    assert dict(plan["phaseMinimumGreen"]) == {2: 10}
    assert plan.sequence(1, 1) == [2, 4] and dict(plan["splitMode"]) == {2: 1}
    assert main(["plan", str(tmp_path / "walk.txt"), "--out", str(out)]) == 1
    assert capsys.readouterr().err == f"{out}: there is such a file: name another\n"


NO_FORM = (
    "it has none of these forms: lines of snmpwalk -On, UTDF, "
    "tables of python3 -m tsb sheet --csv"
)


@pytest.mark.parametrize(
    ("text", "said"),
    [
        (f"{ROOT}.1.2.1.4.2 = INTEGER: 1\nwalk\n", "walk line 2: it is no line of snmpwalk -On"),
        (".1.99999999999 = 1", NO_FORM),
        (".1.4294967296 = INTEGER: 1", "walk line 1: it has no OID"),
        (f"{'.1' * 129} = INTEGER: 1", "walk line 1: it has no OID"),
        ("", NO_FORM),
    ],
)  # fmt: skip
def test_files_that_are_no_walk(
    text: str, said: str, tmp_path: Path, capsys: pytest.CaptureFixture[str]
) -> None:
    """One line on standard error, and nothing is written."""
    path, out = tmp_path / "walk.txt", tmp_path / "plan.json"
    path.write_text(text)
    assert main(["plan", str(path), "--out", str(out)]) == 1
    told = capsys.readouterr()
    assert (told.out, told.err) == ("", f"{path}: {said}\n") and not out.exists()


def test_octets_as_they_are_printed() -> None:
    """As a text where all of them are letters, blanks or ends of lines, and else in
    lines of sixteen."""
    for value, text in (
        (b" ", 'STRING: " "'), (b"~", 'STRING: "~"'), (b"\t", 'STRING: "\t"'),
        (b"\r", 'STRING: "\r"'), (b"\x1f", "Hex-STRING: 1F "), (b"\x7f", "Hex-STRING: 7F "),
        (b"\x08", "Hex-STRING: 08 "), (b"\x0e", "Hex-STRING: 0E "),
        (bytes(17), f"Hex-STRING: {'00 ' * 16}\n00 "),
    ):  # fmt: skip
        assert walk.printed((1, 3), value) == f".1.3 = {text}"


def test_oids_at_their_bounds() -> None:
    """128 numbers, and 2^32 - 1 after the first; and blank lines before them."""
    for oid in ((1, *[3] * 127), (1, (1 << 32) - 1)):
        text = f"\n \n{walk.printed(oid, 5)}"
        (line,) = walk.lines_of(text)
        assert walk.is_walk(text) and (line.number, line.oid, line.value) == (3, oid, 5)
    for oid in ((1, *[3] * 128), (1, 1 << 32)):
        with pytest.raises(Error, match="^walk line 1: it has no OID$"):
            list(walk.lines_of(walk.printed(oid, 5)))


def test_other_ways_to_print_an_oid() -> None:
    """As snmpwalk prints them without -On."""
    for begin in ("iso.3.6.1.4.1.", "SNMPv2-SMI::enterprises.", "1.3.6.1.4.1."):
        (line,) = walk.lines_of(f"{begin}1206.4.2.1.1.2.1.4.2 = INTEGER: 10 seconds")
        assert line.oid == (*ASC, 1, 2, 1, 4, 2) and line.value == 10
    # (what a walk ends with is no value)
    (line,) = walk.lines_of(f".1.3 = Timeticks: (5) 0:00:00.05\n.1.3{walk.PAST}\n{walk.END}")
    assert line.value is None and line.text == "Timeticks: (5) 0:00:00.05"


def test_a_walk_that_is_too_long(
    tmp_path: Path, capsys: pytest.CaptureFixture[str]
) -> None:
    """It is not read."""
    path = tmp_path / "walk.txt"
    with path.open("wb") as file:
        file.truncate((16 << 20) + 1)
    assert main(["plan", str(path), "--out", str(tmp_path / "plan.json")]) == 1
    assert capsys.readouterr().err == f"{path}: too large: over 16 MiB\n"


# Sides


@pytest.mark.parametrize(
    ("rings", "concurrent", "orders", "wanted"),
    [
        # Phases in turn in one ring: each is a side.
        ({2: 1, 4: 1}, {}, [[2, 4]], {2: 1, 4: 2}),
        # More than four in one ring: the first ones are one side.
        ({it: 1 for it in range(1, 6)}, {}, [[1, 2, 3, 4, 5]],
         {1: 1, 2: 1, 3: 2, 4: 3, 5: 4}),
        # Eight phases of two streets, where one list goes one way only.
        ({1: 1, 2: 1, 3: 1, 4: 1, 5: 2, 6: 2, 7: 2, 8: 2},
         {1: [5, 6], 2: [5, 6], 3: [7, 8], 4: [7], 8: [4]},
         [[1, 2, 3, 4], [5, 6, 7, 8]],
         {1: 1, 2: 1, 5: 1, 6: 1, 3: 2, 4: 2, 7: 2, 8: 2}),
        # The side street comes first.
        ({2: 1, 4: 1, 6: 2, 8: 2}, {2: [6], 4: [8]}, [[4, 2], [8, 6]],
         {4: 1, 8: 1, 2: 2, 6: 2}),
        # A phase that is not there is passed over.
        ({2: 1, 4: 1}, {}, [[9, 4, 2, 7]], {4: 1, 2: 2}),
        # Groups that come before one another in two sequences are one side.
        ({1: 1, 3: 1, 6: 2, 2: 2}, {1: [6]}, [[1, 3], [3, 1]],
         {1: 1, 3: 1, 6: 1, 2: 2}),
        # So are three, each before the next.
        ({1: 1, 2: 1, 3: 1}, {}, [[1, 2], [2, 3], [3, 1]], {1: 1, 2: 1, 3: 1}),
        # Where there are five groups, two of one ring that follow one another are one.
        ({1: 1, 2: 2, 3: 1, 4: 1, 5: 1, 8: 2}, {5: [8]}, [[1, 3, 4, 5], [2, 8]],
         {1: 1, 2: 2, 3: 3, 4: 3, 5: 4, 8: 4}),
        # Groups that come in turns are one side.
        ({1: 1, 2: 1, 3: 1, 5: 2}, {1: [5], 3: [5]}, [[1, 2, 3], [5]],
         {1: 1, 2: 1, 3: 1, 5: 1}),
        # Five groups of two rings: the last one has no side.
        ({1: 1, 2: 1, 3: 1, 4: 1, 9: 1, 5: 2, 6: 2, 7: 2, 8: 2, 10: 2},
         {1: [5], 2: [6], 3: [7], 4: [8], 9: [10]},
         [[1, 2, 3, 4, 9], [5, 6, 7, 8, 10]],
         {1: 1, 5: 1, 2: 2, 6: 2, 3: 3, 7: 3, 4: 4, 8: 4, 9: 0, 10: 0}),
    ],
)  # fmt: skip
def test_sides_by_hand(
    rings: dict[int, int],
    concurrent: dict[int, list[int]],
    orders: list[list[int]],
    wanted: dict[int, int],
) -> None:
    """Where lists and sequences put phases."""
    lists = {it: concurrent.get(it, []) for it in rings}
    assert sides.sides_of(rings, lists, orders) == wanted


# The rest


def test_remarks_that_follow_one_another() -> None:
    """They are one line only where nothing but line and row differ, by one."""
    of = [
        Remark(3, "phaseReduceBy", (1,), "0", "no place"),
        Remark(4, "phaseReduceBy", (2,), "0", "no place"),
        Remark(5, "phaseReduceBy", (4,), "0", "no place"),
        Remark(6, "phaseReduceBy", (5,), "1", "no place"),
        Remark(8, "phaseReduceBy", (6,), "1", "no place"),
        Remark(0, "unitMax2", (1,), "1", "no place"),
        Remark(9, "[links]", (), "", "no place"),
        Remark(10, "[links]", (), "", "no place"),
        Remark(11, "text", (), "x" * 300 + "\x1b", "no place"),
        Remark(12, "text", (), "x" * 200, "no place"),
        Remark(0, "splitTime", (1, 15), "9", "given"),
        Remark(0, "splitTime", (1, 16), "9", "given"),
        Remark(0, "splitTime", (2, 17), "9", "given"),
        Remark(0, "text", (), "", "no place"),
        Remark(0, "text", (), "", "no place"),
    ]
    assert list(lines_of(of)) == [
        "lines 3 to 4: phaseReduceBy.1 to .2 = 0: no place",
        "line 5: phaseReduceBy.4 = 0: no place",
        "line 6: phaseReduceBy.5 = 1: no place",
        "line 8: phaseReduceBy.6 = 1: no place",
        "unitMax2.1 = 1: no place",
        "lines 9 to 10: [links]: no place",
        f"line 11: text = {'x' * 200}.. (301 characters): no place",
        f"line 12: text = {'x' * 200}: no place",
        "splitTime.1.15 to .16 = 9: given",
        "splitTime.2.17 = 9: given",
        "text: no place",
        "text: no place",
    ]


@pytest.mark.parametrize("name", ["main_and_oak", "schedule"])
def test_what_forms_read_back(name: str, examples: Path) -> None:
    """Each value that a plan has asks for the values that it is of, and no others."""
    plan = Plan.read(examples / f"{name}.json").wide(3)
    for leaf in objects.plan_leaves().values():
        form = leaf.column.form
        assert form is not None
        sets, lost = form.read(form.written(plan, objects.row_of(leaf)), objects.row_of(leaf))
        assert lost == [] and sets
        for of, at, number in sets:
            assert of in form.names and plan[of][at] == number


def test_numbers_that_stand_for_nothing() -> None:
    """Each is said once, and what can be read is."""
    order = forms.Order("sequenceData")
    sets, lost = order.read(bytes([1, 0, 2, 77, *[3] * 16]), (1, 1))
    assert [it.number for it in sets] == [1, 2, *[3] * 14] and len(lost) == 3
    # in the order of their numbers, which is not that of a set of Python
    other = [f"there is no phase {it} here: it is left out" for it in (17, 24)]
    assert order.read(bytes([24, 17, *[3] * 13]), (1, 1)).lost == other
    assert order.read(bytes([3] * 16), (1, 1)).lost == []
    phases = forms.Phases("phaseConcurrency")
    assert phases.read(bytes([24, 8, 17, 1]), (2,)) == (
        [("phaseConcurrency", 2, 0x81)], other
    )  # fmt: skip
    plan = Plan()
    plan["phaseConcurrency"][2] = {8, 1}
    assert phases.written(plan, (2,)) == bytes([1, 8])


@pytest.mark.parametrize("words", [[], ["a.json", "--mib"]])
def test_words_of_oids(words: list[str]) -> None:
    """A plan, or the MIB file."""
    done = subprocess.run(
        [sys.executable, "-m", "tsb", "oids", *words], capture_output=True, text=True
    )
    assert done.returncode == 2 and "name a plan, or give --mib" in done.stderr
