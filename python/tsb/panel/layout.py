"""Where each phase of a plan is at the intersection.

Without a layout file the places are the usual ones of NEMA: even phases go through,
odd ones turn left. A street is the phases of one side of the barriers: 2 enters from
the west and 6 from the east, 4 from the north and 8 from the south. Phases 1, 3, 5, 7
turn left beside 6, 8, 2 and 4. The crossing of a phase lies beside its through lanes,
at their right. An overlap of 2 and 3, 4 and 5, 6 and 7 or 8 and 1 is a right turn: that
of the through phase, which swaps legs with the left turn. A flashing yellow arrow is the
head of its turn, in the lane of that phase. Any other overlap has no place.

A layout file names other places, and streets:

    {"streets": {"west": "Main Street"},
     "phases": {"9": {"leg": "north", "turn": "right"}},
     "crossings": {"9": "all"}, "overlaps": {"1": {"leg": "south", "turn": "right"}}}
"""

import json
from collections.abc import Iterator, Mapping
from dataclasses import dataclass, field
from os import PathLike
from pathlib import Path
from typing import Any

from tsb.errors import Error
from tsb.files import up_to
from tsb.plan import Plan
from tsb.values import phases_of

LEGS = ("west", "north", "east", "south")
TURNS = ("left", "through", "right")
# Where what has no other place is drawn, and a crossing over all legs.
BESIDE, ALL = "beside", "all"
# The legs of the through phases by their numbers, and the streets that they make.
USUAL = {2: "west", 6: "east", 4: "north", 8: "south"}
STREETS = (("west", "east"), ("north", "south"))
# Beside which through phase a left turn enters.
PARTNERS = {1: 6, 3: 8, 5: 2, 7: 4}
# The leg at the right of who enters by one: it has the crossing beside a movement, and
# right turns go into it.
RIGHT_OF = {"west": "south", "north": "west", "east": "north", "south": "east"}
OPPOSITE = {"west": "east", "east": "west", "north": "south", "south": "north"}
LONGEST, LONGEST_NAME = 64 << 10, 40
PARTS = ("phases", "crossings", "overlaps", "streets")


class LayoutFault(Error):
    """A layout file that is none: the message says where."""


@dataclass(frozen=True)
class Lane:
    """Where a phase or an overlap enters, and where it turns to."""

    leg: str
    turn: str


@dataclass(frozen=True)
class Layout:
    """The places of phases, overlaps and crossings, by number, and names of streets
    by leg."""

    lanes: Mapping[int, Lane] = field(default_factory=dict)
    crossings: Mapping[int, str] = field(default_factory=dict)
    overlaps: Mapping[int, Lane] = field(default_factory=dict)
    streets: Mapping[str, str] = field(default_factory=dict)

    @classmethod
    def read(cls, path: str | PathLike[str]) -> "Layout":
        """The layout of a file; `LayoutFault` says what is wrong with it."""
        text = up_to(path, LONGEST)
        if len(text) > LONGEST:
            raise LayoutFault(f"{path}: over 64 KiB")
        try:
            told = json.loads(text)
        except (ValueError, RecursionError):
            raise LayoutFault(f"{path}: not JSON") from None
        try:
            return _layout_of(told)
        except LayoutFault as fault:
            raise LayoutFault(f"{path}: {fault}") from None

    def told(self) -> dict[str, Any]:
        """The layout as a page gets it."""
        return {
            "lanes": {it: vars(lane) for it, lane in sorted(self.lanes.items())},
            "crossings": dict(sorted(self.crossings.items())),
            "overlaps": {it: vars(lane) for it, lane in sorted(self.overlaps.items())},
            "streets": dict(self.streets),
        }


def _layout_of(told: Any) -> Layout:
    """The layout of an object of JSON."""
    parts: dict[str, Any] = {it: {} for it in PARTS}
    _table("the layout", told, list(PARTS))
    parts |= told
    for name, members in parts.items():
        _table(name, members)
    for leg, street in parts["streets"].items():
        _among(f"streets.{leg}", leg, LEGS)
        if type(street) is not str or not 0 < len(street) <= LONGEST_NAME:
            raise LayoutFault(f"streets.{leg}: no name of 1 to {LONGEST_NAME} letters")
    crossings = {}
    for text, leg in parts["crossings"].items():
        _among(f"crossings.{text}", leg, (*LEGS, ALL, BESIDE))
        crossings[_number("crossings", text, 16)] = leg
    return Layout(
        lanes=dict(_lanes("phases", parts["phases"], 16)),
        crossings=crossings,
        overlaps=dict(_lanes("overlaps", parts["overlaps"], 16)),
        streets=parts["streets"],
    )


def _lanes(name: str, told: Any, most: int) -> Iterator[tuple[int, Lane]]:
    for text, lane in told.items():
        where = f"{name}.{text}"
        _table(where, lane, ["leg", "turn"])
        _among(f"{where}.leg", lane.get("leg"), (*LEGS, BESIDE))
        _among(f"{where}.turn", lane.get("turn", "through"), TURNS)
        number = _number(name, text, most)
        yield number, Lane(lane["leg"], lane.get("turn", "through"))


def _table(where: str, told: Any, names: list[str] | None = None) -> None:
    if type(told) is not dict:
        raise LayoutFault(f"{where}: no object")
    for name in told:
        if names is not None and name not in names:
            raise LayoutFault(f"{where}: {name[:LONGEST_NAME]}: not in {names}")


def _among(where: str, value: Any, names: tuple[str, ...]) -> None:
    if value not in names:
        raise LayoutFault(f"{where}: none of {', '.join(names)}")


def _number(name: str, text: str, most: int) -> int:
    if not text.isascii() or not text.isdecimal() or not 1 <= int(text) <= most:
        raise LayoutFault(f"{name}.{text[:LONGEST_NAME]}: not 1 to {most}")
    return int(text)


def layout_of(plan: Plan, given: Layout | None = None) -> Layout:
    """The layout of a plan: its usual places where none is given."""
    given = given or Layout()
    lanes = _usual_lanes(plan)
    lanes |= {it: lane for it, lane in given.lanes.items() if it in plan.phases}
    crossings = {
        phase: _crossing(plan, phase, lanes)
        for phase in sorted(plan.phases)
        if plan["phaseWalk"][phase]
    }
    crossings |= {it: leg for it, leg in given.crossings.items() if it in crossings}
    numbers = plan["overlapIncludedPhases"]
    overlaps = {it: lane for it, lane in given.overlaps.items() if it in numbers}
    taken = [*overlaps.values()]
    for number in sorted(set(numbers) - set(overlaps)):
        turn = plan.turn_of(number)
        lane = lanes[turn] if turn else _overlap(plan, number, lanes)
        is_taken = lane in taken or (lane in lanes.values() and not turn)
        overlaps[number] = Lane(BESIDE, lane.turn) if is_taken else lane
        taken.append(overlaps[number])
    return Layout(lanes, crossings, overlaps, given.streets)


def is_for_walkers(plan: Plan, phase: int) -> bool:
    """Whether a phase is for pedestrians alone: it has a walk, and neither a detector
    nor another phase beside it."""
    called = set(plan["vehicleDetectorCallPhase"].values())
    alone = phase not in called and not plan["phaseConcurrency"][phase]
    return bool(plan["phaseWalk"][phase]) and alone and phase not in USUAL


def _usual_lanes(plan: Plan) -> dict[int, Lane]:
    """The lanes of the phases of a plan that have a usual place."""
    phases = [it for it in sorted(plan.phases) if not is_for_walkers(plan, it)]
    legs = dict(_through_legs(plan, [it for it in phases if it % 2 == 0]))
    lanes = {it: Lane(leg, "through") for it, leg in legs.items()}
    for phase in phases:
        if phase % 2:
            taken = {it.leg for it in lanes.values() if it.turn == "left"}
            leg = _left_leg(plan, phase, legs)
            lanes[phase] = Lane(BESIDE if leg in taken else leg, "left")
    for phase in plan.phases - set(phases):
        lanes[phase] = Lane(BESIDE, "through")
    return lanes


def _through_legs(plan: Plan, phases: list[int]) -> Iterator[tuple[int, str]]:
    """The legs of through phases: those of one side are a street."""
    sides = sorted({plan["phaseSide"][it] for it in phases})
    streets = list(STREETS)
    for side in sides:
        here = [it for it in phases if plan["phaseSide"][it] == side]
        usual = {USUAL[it] for it in here if it in USUAL}
        street = next((it for it in streets if usual & set(it)), None)
        street = street or next(iter(streets), None)
        if street is None:
            yield from ((it, BESIDE) for it in here)
            continue
        streets.remove(street)
        yield from _along(here, street)


def _along(phases: list[int], street: tuple[str, str]) -> Iterator[tuple[int, str]]:
    """The legs of the through phases of a street: the usual ones where they can."""
    free = list(street)
    for phase in sorted(phases, key=lambda it: (USUAL.get(it) not in street, it)):
        leg = USUAL.get(phase)
        leg = leg if leg in free else next(iter(free), BESIDE)
        if leg in free:
            free.remove(leg)
        yield phase, leg


def _left_leg(plan: Plan, phase: int, legs: Mapping[int, str]) -> str:
    """The leg of a left turn: that of the through phase beside it, or across from
    the one that it turns in front of."""
    beside = [PARTNERS.get(phase, 0), *sorted(_beside(plan, phase))]
    for partner in beside:
        if partner in legs and legs[partner] != BESIDE:
            return legs[partner]
    if legs.get(phase + 1, BESIDE) != BESIDE:
        return OPPOSITE[legs[phase + 1]]
    usual = USUAL.get(PARTNERS.get(phase, 0), BESIDE)
    return BESIDE if usual in legs.values() else usual


def _beside(plan: Plan, phase: int) -> frozenset[int]:
    """The phases that may be served together with one."""
    return phases_of(plan["phaseConcurrency"][phase])


def _crossing(plan: Plan, phase: int, lanes: Mapping[int, Lane]) -> str:
    """The leg of a phase's crossing."""
    if is_for_walkers(plan, phase):
        return ALL
    return RIGHT_OF.get(lanes[phase].leg, BESIDE)


def _overlap(plan: Plan, number: int, lanes: Mapping[int, Lane]) -> Lane:
    """The lane of an overlap: a right turn, where it includes the through phase of that
    leg, the left turn that swaps legs with it, and no other phase."""
    included = phases_of(plan["overlapIncludedPhases"][number])
    found = {lanes.get(it) for it in included}
    for leg, turned in RIGHT_OF.items():
        if len(included) == 2 and found == {Lane(leg, "through"), Lane(turned, "left")}:
            return Lane(leg, "right")
    return Lane(BESIDE, "right")
