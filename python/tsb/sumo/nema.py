"""SUMO's own NEMA controllers: a `tlLogic` of type NEMA read as a plan, and written
of one.

What SUMO means by a value is not always what the bench means by it. Each difference is
in docs/trust/PEERS.md; those that were met in a program are among the notes of its
draft.
"""

import math
from os import PathLike
from typing import Any
from xml.sax.saxutils import quoteattr

from tsb.errors import Error
from tsb.plan import Plan
from tsb.sumo.draft import Draft
from tsb.sumo.intersection import Intersection
from tsb.sumo.mapping import Mapping


# coordForceMode with floating force-off.
FLOATING = 2
# The keys that SUMO reads for a cycle, in this order, and what it takes without one.
CYCLES, DEFAULT = ("total-cycle-length", "cycle-length", "cycleTime"), "60"


class NemaFault(Error):
    """A program that is none of type NEMA, or that no plan can be made of."""


# Writing


def nema_of(plan: Plan, at: Intersection, *, pattern: int = 0) -> str:
    """The additional file with the program of type NEMA for a plan of two rings and
    two sides, free or in a pattern. Its detectors are those of the mapping's channels,
    of which that of a phase has its number, one for each lane."""
    keys = {**_keys(plan, pattern), **_detectors(plan, at)}
    offset = _offset(plan, pattern) if pattern else 0.0
    name = quoteattr(at.tls)
    rows = [
        f'<tlLogic id={name} offset="{offset}" programID="NEMA" type="NEMA">',
        *(f'  <param key="{key}" value={quoteattr(it)}/>' for key, it in keys.items()),
        *(_phase(plan, at, phase, pattern) for phase in sorted(plan.phases)),
    ]
    return "<additional>\n" + "\n".join(rows) + "\n</tlLogic>\n</additional>\n"


def _detectors(plan: Plan, at: Intersection) -> dict[str, str]:
    """The detector of each lane."""
    lanes = {it.index: (it.from_edge, it.from_lane) for it in at.light.links}
    found = {}
    for phase in sorted(plan.phases):
        edges = {lanes[link] for link in at.mapping.phases.get(phase, ())}
        names = at.mapping.channels.get(phase, ())
        for (edge, lane), name in zip(sorted(edges), sorted(names), strict=True):
            found[f"{edge}_{lane}"] = name
    return found


def _offset(plan: Plan, pattern: int) -> float:
    """SUMO's offset: its cycle begins with the coordinated green. (Tick k + 1 of the
    bench is SUMO's time k / 10.)"""
    if plan.version == 3 and plan["coordReference"][1]:
        raise NemaFault("coordReference is not 0: give the offset to the end of a split")
    table = plan["patternSplitNumber"][pattern]
    ends = []
    for ring in (plan.sequence(1, 1), plan.sequence(1, 2)):
        side = [it for it in ring if plan["phaseSide"][it] == 1]
        ends += side[-1:]
        for it in ring:
            if plan["splitCoordPhase"][table, it] and it not in ends:
                raise NemaFault(f"phase {it} is coordinated, and not last of side 1")
    behind = plan["splitTime"][table, ends[0]]
    cycle = plan["patternCycleTime"][pattern]
    return (plan["patternOffsetTime"][pattern] - behind) % cycle - 0.1


def _phase(plan: Plan, at: Intersection, phase: int, pattern: int) -> str:
    """The line of a phase."""
    links = at.mapping.phases.get(phase, ())
    state = "".join("G" if it in links else "r" for it in range(at.light.size))
    yellow, red = plan["phaseYellowChange"][phase], plan["phaseRedClear"][phase]
    most: float = plan["phaseMaximum1"][phase]
    if pattern:
        table = plan["patternSplitNumber"][pattern]
        most = plan["splitTime"][table, phase] - (yellow + red) / 10
    return (
        f'  <phase duration="99" minDur="{plan["phaseMinimumGreen"][phase]}"'
        f' maxDur="{most}" vehext="{(plan["phasePassage"][phase] + 1) / 10}"'
        f' yellow="{yellow / 10}" red="{red / 10}" name="{phase}" state="{state}"/>'
    )


def _keys(plan: Plan, pattern: int) -> dict[str, str]:
    def listed(name: str, on: int = 1) -> str:
        return ",".join(str(it) for it in sorted(plan.phases) if plan[name][it] == on)

    rings = [plan.sequence(1, ring) for ring in (1, 2)]
    sides = [
        [[p for p in ring if plan["phaseSide"][p] == s] for ring in rings]
        for s in (1, 2)
    ]
    barriers = [",".join(str(ring[-1]) for ring in side) for side in sides]
    cycle = plan["patternCycleTime"][pattern] if pattern else 130
    return {
        "coordinate-mode": str(bool(pattern)).lower(),
        "total-cycle-length": str(cycle),
        "ring1": ",".join(map(str, rings[0])),
        "ring2": ",".join(map(str, rings[1])),
        "barrierPhases": barriers[1],
        "coordinatePhases": barriers[0],
        "minRecall": listed("phaseMinRecall"),
        "maxRecall": listed("phaseMaxRecall"),
        "latchingDetectors": listed("phaseNonLock", 0),
        "fixForceOff": str(plan["coordForceMode"][1] != FLOATING).lower(),
        "controllerType": "TS2",
        "whetherOutputState": "false",
        "show-detectors": "false",
    }


# Reading


def read_nema(net: str | PathLike[str], path: str | PathLike[str], tls: str) -> Draft:
    """The plan and the mapping of a program of type NEMA, which a file (additional, or
    the net itself) has for a traffic light of the net."""
    from sumolib.xml import parse

    from tsb.sumo.net import light

    for it in parse(str(path), "tlLogic"):
        if it.id == tls and it.type == "NEMA":
            return _Program(light(net, tls), it).draft()
    raise NemaFault(f"{path}: no tlLogic of type NEMA for {tls}")


class _Program:
    """A program of type NEMA."""

    def __init__(self, light: Any, logic: Any) -> None:
        self._light, self._logic = light, logic
        self._keys = {it.key: it.value for it in logic.getChild("param") or []}
        self._phases = {int(it.getAttribute("attr_name")): it for it in logic.phase}
        self._coordinated = self._keys.get("coordinate-mode") == "true"
        self.notes: list[str] = []
        self.plan = Plan(2)

    def _list(self, key: str, default: str = "") -> list[int]:
        return [int(it) for it in self._keys.get(key, default).split(",") if it.strip()]

    def _number(self, phase: int, name: str, default: float) -> float:
        return float(self._phases[phase].getAttributeSecure(name, default))

    def draft(self) -> Draft:
        """The draft of it."""
        rings = [[it for it in self._list(f"ring{n}") if it] for n in (1, 2)]
        if not rings[0]:
            raise NemaFault("the program has no ring1")
        for phase in (it for ring in rings for it in ring):
            if phase not in self._phases:
                raise NemaFault(f"ring has phase {phase}, which is not described")
        if left := sorted(set(self._phases) - {it for ring in rings for it in ring}):
            self.notes.append(f"phases {left} are in no ring, and left out")
        self._left_out()
        self._rings(rings)
        self._times()
        if self._coordinated:
            self._pattern(rings)
        mapping = self._mapping()
        return Draft(self.plan, mapping, self.notes)

    def _left_out(self) -> None:
        """Notes what SUMO does by this program, and no plan says."""
        for key in ("crossPhaseSwitching", "cabinetType"):
            if key in self._keys:
                self.notes.append(f"{key} of {self._keys[key]!r} is left out")

    def _rings(self, rings: list[list[int]]) -> None:
        plan = self.plan
        ends = {
            *self._list("barrierPhases"),
            *self._list("barrier2Phases", self._keys.get("coordinatePhases", "")),
        }
        side_of: dict[int, int] = {}
        for number, ring in enumerate(rings, 1):
            side = 1
            for phase in ring:
                plan["phaseEnabled"][phase] = 1
                plan["phaseRing"][phase] = number
                plan["phaseSide"][phase] = side_of[phase] = side
                side += phase in ends
            plan.set_sequence(1, number, ring)
        for at, other in ((0, 1), (1, 0)):
            for phase in rings[at]:
                beside = {it for it in rings[other] if side_of[it] == side_of[phase]}
                plan["phaseConcurrency"][phase] = beside
        used = [it for ring in rings for it in ring]
        for phase in used:
            plan["phaseNonLock"][phase] = 1
            if phase in ends:
                plan["phaseDualEntry"][phase] = 1
        latching = self._list("latchingDetectors")
        for phase in latching:
            plan["phaseNonLock"][phase] = 0
        recalled = self._list("minRecall", ",".join(map(str, used)))
        for phase in recalled:
            plan["phaseMinRecall"][phase] = 1
        for phase in self._list("maxRecall"):
            plan["phaseMaxRecall"][phase] = 1

    def _whole(self, phase: int, name: str, value: float) -> int:
        whole = math.ceil(value - 1e-9)
        if abs(whole - value) > 1e-9:
            self.notes.append(
                f"phase {phase}: {name} of {value} s is {whole} s: whole seconds"
            )
        return whole

    def _times(self) -> None:
        plan = self.plan
        for phase in sorted(plan.phases):
            least = self._whole(phase, "minDur", self._number(phase, "minDur", 5))
            most = self._number(phase, "maxDur", 50)
            if not self._coordinated:
                most = self._whole(phase, "maxDur", most)
            plan["phaseMinimumGreen"][phase] = least
            for name in ("phaseMaximum1", "phaseMaximum2"):
                plan[name][phase] = max(least, math.ceil(most))
            gap = max(0, round(10 * self._number(phase, "vehext", 2)) - 1)
            plan["phasePassage"][phase] = plan["phaseMinimumGap"][phase] = gap
            yellow = round(10 * self._number(phase, "yellow", 3))
            if yellow < 30:
                self.notes.append(
                    f"phase {phase}: a yellow of {yellow / 10} s is 3.0 s"
                )
            plan["phaseYellowChange"][phase] = max(30, yellow)
            plan["phaseRedClear"][phase] = round(10 * self._number(phase, "red", 1))
        self.notes.append(
            "maximums count from when a conflict began, in SUMO from the green's begin"
        )

    def _pattern(self, rings: list[list[int]]) -> None:
        plan = self.plan
        cycle = self._cycle()
        coordinated = self._list(
            "coordinatePhases", self._keys.get("barrier2Phases", "")
        )
        plan["patternCycleTime"][1] = cycle
        plan["patternSplitNumber"][1] = plan["patternSequenceNumber"][1] = 1
        for phase in sorted(plan.phases):
            clearance = (
                plan["phaseYellowChange"][phase] + plan["phaseRedClear"][phase]
            ) / 10
            split = self._number(phase, "maxDur", 50) + clearance
            plan["splitTime"][1, phase] = self._whole(phase, "split", split)
        for phase in coordinated:
            plan["splitCoordPhase"][1, phase] = 1
        first = next((it for it in rings[0] if it in coordinated), None)
        if first is None:
            raise NemaFault("the program is coordinated, and ring 1 has no such phase")
        behind = plan["splitTime"][1, first]
        if self._keys.get("controllerType", "TS2") == "Type170":
            behind = round(
                (plan["phaseYellowChange"][first] + plan["phaseRedClear"][first]) / 10
            )
        # (a tenth is what tick k + 1 is behind time k / 10)
        offset = round(float(self._logic.getAttributeSecure("offset", 0)) + 0.1 - 1e-9)
        plan["patternOffsetTime"][1] = (offset + behind) % cycle
        if self._keys.get("fixForceOff", "false") != "true":
            plan["coordForceMode"][1] = FLOATING
            self.notes.append("floating force-off is late here too, and not in SUMO")

    def _cycle(self) -> int:
        """The cycle in seconds, by the first of the keys that SUMO reads for it."""
        said = next((self._keys[it] for it in CYCLES if it in self._keys), DEFAULT)
        try:
            cycle = float(said)
        except ValueError:
            raise NemaFault(f"a cycle of {said!r} s is none") from None
        whole = round(cycle) if math.isfinite(cycle) else 0
        if whole < 1:
            raise NemaFault(f"a cycle of {said} s is none")
        if whole != cycle:
            self.notes.append(f"the cycle of {said} s is {whole} s: whole seconds")
        return whole

    def _mapping(self) -> Mapping:
        phases: dict[int, tuple[int, ...]] = {}
        beside: dict[int, tuple[int, ...]] = {}
        crossings = {link for it in self._light.crossings.values() for link in it.links}
        own: set[int] = set()
        for phase, it in sorted(self._phases.items()):
            if phase not in self.plan.phases:
                continue
            green = [at for at, letter in enumerate(it.state) if letter in "Gg"]
            links = [at for at in green if at not in crossings]
            taken = [at for at in links if it.state[at] == "G" and at not in own]
            phases[phase] = tuple(taken)
            own |= set(taken)
            if more := tuple(at for at in links if at not in taken):
                beside[phase] = more
            if lost := [at for at in green if at in crossings]:
                self.notes.append(
                    f"phase {phase}: links {lost} are crossings, for which SUMO's"
                    " program has no times: give pedestrians, a walk and a clearance"
                )
        channels = self._channels(phases)
        return Mapping(
            self._light.name,
            phases={at: it for at, it in phases.items() if it},
            permissive=beside,
            channels=channels,
        )

    def _channels(
        self, phases: dict[int, tuple[int, ...]]
    ) -> dict[int, tuple[str, ...]]:
        channels: dict[int, tuple[str, ...]] = {}
        for phase, links in phases.items():
            lanes = {
                f"{it.from_edge}_{it.from_lane}"
                for it in self._light.links
                if it.index in links
            }
            named = [self._keys[it] for it in sorted(lanes) if it in self._keys]
            if named:
                channels[phase] = tuple(named)
                self.plan["vehicleDetectorCallPhase"][phase] = phase
            elif links:
                self.notes.append(
                    f"phase {phase}: the program names no detectors for it: SUMO makes"
                    " its own; give zones of yours as a channel"
                )
        return channels
