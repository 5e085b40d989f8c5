"""Programs of type NEMA by hand: what is written of a plan, and what is read."""

import xml.etree.ElementTree as ElementTree
from dataclasses import replace
from pathlib import Path
from typing import Any

import pytest
from tsb import Plan
from tsb.sumo import Intersection, crossroads, read_nema
from tsb.sumo.draft import Draft
from tsb.sumo.mapping import Mapping
from tsb.sumo.nema import NemaFault, _detectors, _offset, nema_of


@pytest.fixture(scope="module")
def folder(tmp_path_factory: pytest.TempPathFactory) -> Path:
    """A crossroads, with its mapping."""
    found = tmp_path_factory.mktemp("nema")
    crossroads.build(found)
    return found


@pytest.fixture
def at(folder: Path) -> Intersection:
    return Intersection.of(folder / "net.xml", "C", folder / "mapping.json")


class Program:
    """A program that is written by hand: its keys, and its phases' attributes."""

    def __init__(self, folder: Path, at: Intersection) -> None:
        self.folder, self.offset = folder, ""
        self.keys = {"ring1": "1,2,3,4", "ring2": "5,6,7,8", "barrierPhases": "4,8"}
        self.keys["barrier2Phases"] = "2,6"
        size = at.light.size
        self.phases: dict[int, dict[str, str]] = {
            phase: {"state": "".join("G" if it in of else "r" for it in range(size))}
            for phase, of in at.mapping.phases.items()
        }

    def read(self) -> Draft:
        """The draft of it."""
        keys = [f'<param key="{it}" value="{of}"/>' for it, of in self.keys.items()]
        phases = []
        for phase, of in self.phases.items():
            more = "".join(f' {name}="{it}"' for name, it in of.items())
            phases.append(f'<phase duration="99" name="{phase}"{more}/>')
        rows = "\n".join([*keys, *phases])
        path = self.folder / "hand.xml"
        path.write_text(
            f'<additional><tlLogic id="C" programID="N" type="NEMA"{self.offset}>\n'
            f"{rows}\n</tlLogic></additional>\n"
        )
        return read_nema(self.folder / "net.xml", path, "C")


@pytest.fixture
def program(folder: Path, at: Intersection) -> Program:
    return Program(folder, at)


def noted(draft: Draft, word: str) -> list[str]:
    """The notes that have a word."""
    return [it for it in draft.notes if word in it]


# Written


@pytest.mark.parametrize("pattern", [0, 1])
def test_what_is_written(at: Intersection, pattern: int) -> None:
    """Phases in their order, each with its times; the keys of both rings."""
    plan = crossroads.plan(pattern=bool(pattern))
    root = ElementTree.fromstring(nema_of(plan, at, pattern=pattern))
    keys = {it.get("key"): it.get("value") for it in root.iter("param")}
    cycle = plan["patternCycleTime"][1] if pattern else 130
    assert keys["total-cycle-length"] == str(cycle)
    assert keys["coordinate-mode"] == ("true" if pattern else "false")
    assert (keys["ring1"], keys["ring2"]) == ("1,2,3,4", "5,6,7,8")
    assert (keys["barrierPhases"], keys["coordinatePhases"]) == ("4,8", "2,6")
    assert keys["minRecall"] == "2,6" and keys["latchingDetectors"] == ""
    phases = [it.attrib for it in root.iter("phase")]
    assert [it["name"] for it in phases] == [str(it) for it in range(1, 9)]
    for it in phases:
        phase = int(it["name"])
        yellow, red = plan["phaseYellowChange"][phase], plan["phaseRedClear"][phase]
        assert (float(it["yellow"]), float(it["red"])) == (yellow / 10, red / 10)
        assert float(it["vehext"]) == (plan["phasePassage"][phase] + 1) / 10
        assert int(it["minDur"]) == plan["phaseMinimumGreen"][phase]
        split = plan["splitTime"][1, phase] - (yellow + red) / 10
        assert float(it["maxDur"]) == (split if pattern else plan["phaseMaximum1"][phase])
        links = {k for k, letter in enumerate(it["state"]) if letter == "G"}
        assert links == set(at.mapping.phases[phase])


def test_phases_are_written_in_their_order(at: Intersection) -> None:
    """Also those of a plan that has only some of them."""
    plan = Plan()
    for phase in (8, 2, 6, 4):
        plan["phaseEnabled"][phase] = plan["phaseMinRecall"][phase] = 1
        plan["phaseSide"][phase] = 1 if phase in (2, 6) else 2
    plan.set_sequence(1, 1, [2, 4])
    plan.set_sequence(1, 2, [6, 8])
    text = nema_of(plan, at)
    root = ElementTree.fromstring(text)
    assert [it.get("name") for it in root.iter("phase")] == ["2", "4", "6", "8"]
    keys = {str(it.get("key")): it.get("value") for it in root.iter("param")}
    assert keys["minRecall"] == keys["latchingDetectors"] == "2,4,6,8"
    # (lanes of the through phases, from the west, the south, the east and the north)
    assert "".join(it[0] for it in keys if "_near_" in it) == "WWSEEN"


def test_each_lane_has_its_detector(at: Intersection) -> None:
    """In the order of both, in whatever order the mapping has them."""
    found = _detectors(crossroads.plan(), at)
    assert found == {
        f"{name}_near_{lane}": f"{name}{lane}"
        for name, it in crossroads.APPROACHES.items()
        for lane in range(it.near)
    }
    turned = {it: tuple(reversed(of)) for it, of in at.mapping.channels.items()}
    other = Mapping("C", phases=at.mapping.phases, channels=turned)
    assert _detectors(crossroads.plan(), replace(at, mapping=other)) == found


def test_the_offset_is_that_of_the_first_ring() -> None:
    """Where the rings give their coordinated phases other splits."""
    plan = crossroads.plan(pattern=True)
    table = plan["patternSplitNumber"][1]
    plan["splitTime"][table, 6] = plan["splitTime"][table, 2] + 7
    plan["patternOffsetTime"][1] = plan["splitTime"][table, 2]
    assert _offset(plan, 1) == pytest.approx(-0.1)
    plan.version = 3
    plan["coordReference"][1] = 1
    with pytest.raises(NemaFault, match="coordReference is not 0"):
        _offset(plan, 1)


# Read


def test_times_that_are_not_said(program: Program) -> None:
    """They are those that SUMO takes, and its maximum counts otherwise."""
    draft = program.read()
    for phase in range(1, 9):
        read = {
            name: draft.plan[name][phase]
            for name in (
                "phaseMinimumGreen", "phaseMaximum1", "phaseMaximum2", "phasePassage",
                "phaseMinimumGap", "phaseYellowChange", "phaseRedClear", "phaseMinRecall",
                "phaseNonLock", "phaseDualEntry", "phaseMaxRecall",
            )
        }  # fmt: skip
        dual = phase in (2, 4, 6, 8)
        assert list(read.values()) == [5, 50, 50, 19, 19, 30, 10, 1, 1, dual, 0]
    assert len(noted(draft, "maximums count from when a conflict began")) == 1
    assert noted(draft, "whole seconds") == noted(draft, "yellow of") == []
    assert noted(draft, "names no detectors")[0].startswith("phase 1: ")
    assert len(noted(draft, "names no detectors")) == 8
    assert draft.plan["phaseSide"].items() == dict(
        zip(range(1, 9), (1, 1, 2, 2, 1, 1, 2, 2), strict=True)
    ).items()
    assert draft.plan["phaseConcurrency"].phases(1) == {5, 6}
    assert draft.plan["phaseConcurrency"].phases(8) == {3, 4}


def test_times_that_a_plan_has_otherwise(program: Program) -> None:
    """Seconds are whole ones, yellow is 3 s at least, and a gap no less than 0."""
    program.phases[2] |= {"minDur": "5.2", "maxDur": "30.5", "yellow": "2.5"}
    program.phases[4] |= {"minDur": "8", "maxDur": "7", "yellow": "3.0", "vehext": "0"}
    program.phases[6] |= {"minDur": "6.0000000001", "vehext": "0.1", "yellow": "2.9"}
    program.phases[8] |= {"vehext": "0.2", "red": "2.3", "yellow": "3.1"}
    draft = program.read()
    plan = draft.plan
    assert [plan["phaseMinimumGreen"][it] for it in (2, 4, 6, 8)] == [6, 8, 6, 5]
    assert [plan["phaseMaximum1"][it] for it in (2, 4, 6, 8)] == [31, 8, 50, 50]
    assert [plan["phasePassage"][it] for it in (2, 4, 6, 8)] == [19, 0, 0, 1]
    assert [plan["phaseYellowChange"][it] for it in (2, 4, 6, 8)] == [30, 30, 30, 31]
    assert plan["phaseRedClear"][8] == 23
    assert noted(draft, "whole seconds") == [
        "phase 2: minDur of 5.2 s is 6 s: whole seconds",
        "phase 2: maxDur of 30.5 s is 31 s: whole seconds",
    ]
    assert noted(draft, "a yellow of") == [
        "phase 2: a yellow of 2.5 s is 3.0 s", "phase 6: a yellow of 2.9 s is 3.0 s"
    ]  # fmt: skip


def test_keys_that_are_read(program: Program) -> None:
    """Recalls and locks; without a second barrier it is that of coordination."""
    program.keys |= {
        "minRecall": "2, 6,", "maxRecall": "4", "latchingDetectors": "1,3",
        "cabinetType": "TS2",
    }  # fmt: skip
    del program.keys["barrier2Phases"]
    program.keys["coordinatePhases"] = "2,6"
    draft = program.read()
    assert set(draft.plan["phaseMinRecall"]) == {2, 6}
    assert set(draft.plan["phaseMaxRecall"]) == {4}
    assert set(draft.plan["phaseNonLock"]) == {2, 4, 5, 6, 7, 8}
    assert draft.plan["phaseSide"][3] == 2
    assert noted(draft, "left out") == ["cabinetType of 'TS2' is left out"]
    assert not draft.plan["patternCycleTime"]


@pytest.mark.parametrize(
    "keys, said",
    [
        ({"ring1": ""}, "the program has no ring1"),
        ({"ring2": "5,6,7,9"}, "ring has phase 9, which is not described"),
        (
            {"coordinate-mode": "true", "coordinatePhases": "6"},
            "the program is coordinated, and ring 1 has no such phase",
        ),
    ],
)
def test_programs_that_no_plan_can_be_made_of(
    program: Program, keys: dict[str, str], said: str
) -> None:
    program.keys |= keys
    with pytest.raises(NemaFault, match=said):
        program.read()


def test_notes_are_by_phase(program: Program) -> None:
    """Whatever their numbers are; and the plan is one of version 2."""
    state = program.phases[2]["state"]
    program.phases = {
        it: {"state": state, "yellow": "2.0", "maxDur": "20.5"} for it in (16, 2)
    }
    program.keys = {"ring1": "16,2", "barrierPhases": "2", "barrier2Phases": "16"}
    program.keys |= {"coordinate-mode": "true", "coordinatePhases": "16"}
    draft = program.read()
    for word in ("a yellow of", "split of"):
        assert [it.split()[1] for it in noted(draft, word)] == ["2:", "16:"]
    assert draft.plan.version == 2 and draft.plan.sequence(1, 1) == [16, 2]


def test_a_phase_without_a_link_of_its_own(program: Program, at: Intersection) -> None:
    """What phases share is the first one's by number, wherever it is described; one
    that has nothing then is not mapped."""
    mine = at.mapping.phases[2]
    program.phases[5]["state"] = program.phases[2]["state"]
    program.phases = dict(reversed(program.phases.items()))
    mapping = program.read().mapping
    assert mapping.phases[2] == mine and 5 not in mapping.phases
    assert mapping.permissive[5] == mine


def test_phases_of_no_ring_in_their_order(program: Program) -> None:
    program.keys |= {"ring1": "2,4", "ring2": "6,7"}
    assert noted(program.read(), "in no ring") == [
        "phases [1, 3, 5, 8] are in no ring, and left out"
    ]


@pytest.mark.parametrize(
    "more, offset, behind",
    [({}, "", 36), ({}, ' offset="12"', 36), ({"controllerType": "Type170"}, "", 6)],
)
def test_a_pattern_is_read(
    program: Program, more: dict[str, str], offset: str, behind: int
) -> None:
    """Its splits have yellow and red clearance, and its offset is after the first
    ring's coordinated green; of type 170 after its clearance."""
    program.keys |= {
        "coordinate-mode": "true", "cycleTime": "100", "coordinatePhases": "2,6",
        "fixForceOff": "true", **more,
    }  # fmt: skip
    program.offset = offset
    for phase in program.phases.values():
        phase |= {"maxDur": "30", "yellow": "4.0", "red": "2.0"}
    program.phases[4]["maxDur"] = "20.2"
    del program.phases[8]["maxDur"]
    draft = program.read()
    plan = draft.plan
    assert [plan["splitTime"][1, it] for it in (2, 4, 8)] == [36, 27, 56]
    assert noted(draft, "whole seconds") == [
        "phase 4: split of 26.2 s is 27 s: whole seconds"
    ]
    assert plan["phaseMaximum1"][4] == 21
    assert plan["patternOffsetTime"][1] == (12 if offset else 0) + behind
    assert [plan["splitCoordPhase"][1, it] for it in (1, 2, 6)] == [0, 1, 1]
    assert plan["coordForceMode"][1] == 0 and noted(draft, "floating") == []


def test_a_pattern_by_its_barrier(program: Program) -> None:
    """Without phases of coordination it is those of the second barrier; force-offs
    float where nothing else is said, and offsets of SUMO are a tenth before."""
    program.keys |= {"coordinate-mode": "true", "cycleTime": "100"}
    for text, tenths in (("-0.1", 0), ("9.9", 10), ("10.4", 10), ("10.39", 10), ("10.41", 11)):
        program.offset = f' offset="{text}"'
        draft = program.read()
        assert draft.plan["patternOffsetTime"][1] == (tenths + 54) % 100, text
    program.keys["cycleTime"] = "1"
    assert program.read().plan["patternCycleTime"][1] == 1
    assert set(draft.plan["splitCoordPhase"]) == {2, 6}
    assert draft.plan["coordForceMode"][1] == 2
    assert noted(draft, "floating force-off is late here too") != []
    assert [draft.plan[it][1] for it in ("patternSplitNumber", "patternSequenceNumber")] == [1, 1]


def test_links_of_several_phases(program: Program, at: Intersection) -> None:
    """The first phase has them as its own, the others beside; small letters too."""
    mine = at.mapping.phases
    link = mine[2][0]

    def lit(phase: int, which: int, letter: str) -> None:
        state = program.phases[phase]["state"]
        program.phases[phase]["state"] = state[:which] + letter + state[which + 1 :]

    lit(6, link, "G")
    lit(5, mine[2][-1], "g")
    mapping: Any = program.read().mapping
    assert mapping.phases == mine
    assert dict(mapping.permissive) == {5: (mine[2][-1],), 6: (link,)}


def test_detectors_that_a_program_names(program: Program) -> None:
    """Those of a phase's lanes, in their order; some are enough."""
    program.keys |= {"W_near_1": "b", "W_near_0": "a", "N_near_1": "c"}
    draft = program.read()
    named = {phase: it for phase, it in draft.mapping.channels.items() if it}
    calls = dict(draft.plan["vehicleDetectorCallPhase"])
    assert sorted(sum(named.values(), ())) == ["a", "b", "c"]
    assert ("a", "b") in named.values() and calls == {it: it for it in named}
    assert len(noted(draft, "names no detectors")) == 8 - len(named)


def test_crossings_have_no_times(tmp_path: Path) -> None:
    """The notes say so of a program that lights one."""
    crossroads.build(tmp_path, pedestrians=True)
    at = Intersection.of(tmp_path / "net.xml", "C", tmp_path / "mapping.json")
    program = Program(tmp_path, at)
    crossing = min(it for of in at.light.crossings.values() for it in of.links)
    state = program.phases[2]["state"]
    program.phases[2]["state"] = state[:crossing] + "G" + state[crossing + 1 :]
    draft = program.read()
    (note,) = noted(draft, "are crossings")
    assert note.startswith(f"phase 2: links [{crossing}] are crossings")
    assert crossing not in draft.mapping.phases[2]
