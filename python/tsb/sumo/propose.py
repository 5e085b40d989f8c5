"""Proposes a plan and a mapping for a traffic light of a net, by the usual numbers:
through 2 and 6 on the main street, 4 and 8 on the side street, and the left turn across
each of them 1, 5, 3 and 7.

Whatever is a guess, and whatever could not be found, is a note of the draft.
"""

import math
from collections.abc import Iterable, Sequence
from dataclasses import dataclass, field
from os import PathLike
from typing import Any

from tsb.plan import Plan
from tsb.rows import PEDESTRIANS
from tsb.sumo.draft import Draft
from tsb.sumo.intersection import met
from tsb.sumo.mapping import Mapping
from tsb.sumo.net import Light, Link, NetFault, light, read_net

Path = str | PathLike[str]

# Through phases, and the left turn beside each.
THROUGH = (2, 4, 6, 8)
LEFT = {2: 5, 6: 1, 4: 7, 8: 3}
TURNS = {"l": "left", "t": "back"}
OPPOSITE = 45  # degrees by which opposite approaches may miss each other
MINIMUM = {"main": 10, "side": 7, "left": 5}  # seconds of green
MAXIMUM = {"main": 45, "side": 30, "left": 20}
GAP = {"main": 30, "side": 25, "left": 20}  # tenths of a second
WALK, WALKING = 7, 1.0  # seconds; metres a second
STOP_LINE = 5  # metres: a zone that ends so near to the lane's end is at the stop line


@dataclass
class Approach:
    """An edge that comes to the light: its links, and where it heads, in degrees
    against the clock from the east."""

    edge: Any
    heading: float
    links: list[Link] = field(default_factory=list)
    through: int = 0

    @property
    def weight(self) -> tuple[float, int]:
        """How much of a main street it is."""
        return self.edge.getSpeed(), self.edge.getLaneNumber()


def propose(
    net: Path,
    tls: str,
    additional: Path | Sequence[Path] = (),
    main: str | None = None,
) -> Draft:
    """The draft for a traffic light of a net. Detectors of `additional` files become
    channels where they lie on the light's lanes; without such files the mapping has
    the names that `zones` gives to detectors of its own. `main` is an edge of the main
    street, which is guessed without it."""
    read = read_net(net)
    found = light(read, tls)
    if main is not None and main not in {it.from_edge for it in found.links}:
        edges = ", ".join(sorted({it.from_edge for it in found.links}))
        raise NetFault(f"no edge {main} comes to {tls}: {edges} do")
    return _Proposal(read, found, additional, main).draft()


def zones(net: Path, tls: str, length: float = 20) -> str:
    """An additional file with a zone of so many metres at the stop line of each lane
    of a light, named `zone_LANE`."""
    lanes = sorted({(it.from_edge, it.from_lane) for it in light(net, tls).links})
    rows = [
        f'<laneAreaDetector id="zone_{edge}_{lane}" lane="{edge}_{lane}" endPos="-0.1"'
        f' length="{length}" friendlyPos="true" freq="100000" file="NUL"/>'
        for edge, lane in lanes
    ]
    return "<additional>\n" + "\n".join(rows) + "\n</additional>\n"


class _Proposal:
    def __init__(
        self,
        net: Any,
        light: Light,
        additional: Path | Sequence[Path],
        main: str | None,
    ) -> None:
        self._net, self._light, self._main = net, light, main
        if isinstance(additional, str | PathLike):
            additional = [additional]
        self._additional = list(additional)
        self.notes: list[str] = []
        self.phases: dict[int, list[int]] = {}
        self.permissive: dict[int, list[int]] = {}
        self.free: list[int] = []

    def draft(self) -> Draft:
        approaches = self._numbered()
        for it in approaches:
            self._links(it)
        pedestrians = self._crossings(approaches)
        plan = self._plan(approaches, pedestrians)
        self._yield(plan)
        channels = self._channels()
        for phase in channels:
            plan["vehicleDetectorCallPhase"][phase] = phase
        mapping = Mapping(
            self._light.name,
            phases=_sorted(self.phases),
            permissive=_sorted(self.permissive),
            pedestrians=pedestrians,
            channels=channels,
            buttons={at: it for at, it in pedestrians.items() if at <= PEDESTRIANS},
            free=tuple(sorted(self.free)),
        )
        return Draft(plan, mapping, self.notes)

    # Approaches

    def _numbered(self) -> list[Approach]:
        """The approaches, each with the number of its through phase."""
        numbered: list[Approach] = []
        streets = self._streets()
        for name, numbers, street in zip(
            ("main", "side"), ((2, 6), (4, 8)), streets, strict=False
        ):
            # the first of a pair heads between the south-east and the north-west
            street.sort(key=lambda it: (it.heading + 45) % 360)
            for it, number in zip(street, numbers, strict=False):
                it.through = number
                numbered.append(it)
            names = " and ".join(it.edge.getID() for it in street)
            how = "named" if name == "main" and self._main else "guessed"
            self.notes.append(f"{how}: the {name} street is {names}")
        for it in (it for street in streets[2:] for it in street):
            links = [link.index for link in it.links]
            self.free += links
            self.notes.append(
                f"approach {it.edge.getID()} could not be numbered: its links {links}"
                " are free, and yield to all: give them a phase of yours"
            )
        return numbered

    def _streets(self) -> list[list[Approach]]:
        """The approaches, two that face each other together: pairs first, and then by
        their speeds and lanes."""
        of: dict[str, Approach] = {}
        for link in self._light.links:
            if link.from_edge not in of:
                edge = self._net.getEdge(link.from_edge)
                of[link.from_edge] = Approach(edge, _heading(edge))
            of[link.from_edge].links.append(link)
        left = sorted(of.values(), key=lambda it: it.weight, reverse=True)
        streets = []
        while left:
            one = left.pop(0)
            facing = min(left, key=lambda it: _across(one, it), default=None)
            if facing is None or _across(one, facing) > OPPOSITE:
                streets.append([one])
            else:
                left.remove(facing)
                streets.append([one, facing])
        named = [self._main in {it.edge.getID() for it in of} for of in streets]
        order = sorted(
            zip(named, streets, strict=True),
            key=lambda it: (it[0], len(it[1])),
            reverse=True,
        )
        return [of for _, of in order]

    def _links(self, it: Approach) -> None:
        """Gives each link of an approach its phase."""
        lanes: dict[int, set[str]] = {}
        for link in it.links:
            lanes.setdefault(link.from_lane, set()).add(link.turn.lower())
        goes_on = any("s" in turns for turns in lanes.values())
        for link in it.links:
            turn = link.turn.lower()
            alone = lanes[link.from_lane] <= {"l", "t"}
            if turn in "lt" and goes_on and alone:
                self.phases.setdefault(LEFT[it.through], []).append(link.index)
            elif turn in "lt" and goes_on:
                self.permissive.setdefault(it.through, []).append(link.index)
                self.notes.append(
                    f"link {link.index} turns {TURNS[turn]} from a lane that it shares:"
                    f" permissive with phase {it.through}"
                )
            elif turn == "r" and self._light.crossings:
                self.permissive.setdefault(it.through, []).append(link.index)
            else:
                self.phases.setdefault(it.through, []).append(link.index)

    def _yield(self, plan: Plan) -> None:
        """Where two links that are green at once meet in the net, one of them yields:
        the one that turns back, left or right, in this order."""
        turns = {it.index: it.turn.lower() for it in self._light.links}
        while True:
            mapping = Mapping(self._light.name, phases=_sorted(self.phases))
            pair = next(met(self._light, mapping, plan), None)
            if pair is None:
                return
            link = min(pair, key=lambda it: ("tlrs".find(turns[it]), it))
            phase = next(at for at, of in self.phases.items() if link in of)
            self.phases[phase].remove(link)
            self.permissive.setdefault(phase, []).append(link)
            other = pair[0] if link == pair[1] else pair[1]
            self.notes.append(
                f"link {link} meets link {other}: permissive with phase {phase}"
            )

    # Pedestrians

    def _crossings(self, approaches: Iterable[Approach]) -> dict[int, tuple[str, ...]]:
        """The crossings of each through phase: that over the leg to which its right
        turn goes."""
        found: dict[int, list[str]] = {}
        for name, crossing in self._light.crossings.items():
            beside = [
                it.through
                for it in approaches
                for link in it.links
                if link.turn.lower() == "r" and link.to_edge in crossing.crossed
            ]
            if len(set(beside)) == 1:
                found.setdefault(beside[0], []).append(name)
            else:
                self.notes.append(f"crossing {name}: its phase could not be told")
        return {at: tuple(it) for at, it in sorted(found.items())}

    # Detectors

    def _channels(self) -> dict[int, tuple[str, ...]]:
        of_lane = {
            f"{it.from_edge}_{it.from_lane}": self._phase_of(it)
            for it in self._light.links
        }
        channels: dict[int, list[str]] = {}
        if not self._additional:
            for lane, phase in sorted(of_lane.items()):
                if phase:
                    channels.setdefault(phase, []).append(f"zone_{lane}")
            self.notes.append("no detectors were given: write zones of your own")
            return _sorted(channels)
        left = []
        for name, lane, gap in self._detectors():
            phase = of_lane.get(lane, 0)
            if phase and gap <= STOP_LINE:
                channels.setdefault(phase, []).append(name)
            else:
                left.append(name)
        for phase in sorted({*self.phases, *self.permissive} - set(channels)):
            self.notes.append(f"phase {phase}: no detector at its stop line")
        if left:
            self.notes.append(
                "detectors that are at no stop line of the light, and on no channel: "
                + ", ".join(sorted(left))
            )
        return _sorted(channels)

    def _phase_of(self, link: Link) -> int:
        """The phase of a link, the permissive one where it has no other; 0 for none."""
        for table in (self.phases, self.permissive):
            for phase, links in table.items():
                if link.index in links:
                    return phase
        return 0

    def _detectors(self) -> Iterable[tuple[str, str, float]]:
        """Each detector of the files, with its lane, and how many metres of the lane
        are behind it."""
        from sumolib.xml import parse

        kinds = ["laneAreaDetector", "e2Detector", "inductionLoop", "e1Detector"]
        for path in self._additional:
            for it in parse(str(path), kinds):
                lane = it.getAttributeSecure("lane")
                if lane is None:
                    continue
                length = self._net.getLane(lane).getLength()
                place = float(it.getAttributeSecure("pos", 0))
                end = it.getAttributeSecure("endPos")
                if end is not None:
                    place = float(end)
                elif "rea" in it.name or "e2" in it.name:
                    place += float(it.getAttributeSecure("length", 0))
                yield it.id, lane, -place if place < 0 else length - place

    # The plan

    def _plan(
        self,
        approaches: list[Approach],
        pedestrians: dict[int, tuple[str, ...]],
    ) -> Plan:
        plan = Plan(2)
        used = sorted({*self.phases, *self.permissive})
        speeds = {it.through: it.edge.getSpeed() for it in approaches}
        for phase in used:
            through = next(it for it in THROUGH if phase in (it, LEFT[it]))
            _give(plan, phase, speeds[through])
        for ring, phases in ((1, (1, 2, 3, 4)), (2, (5, 6, 7, 8))):
            plan.set_sequence(1, ring, [it for it in phases if it in used])
        for phase in used:
            plan["phaseConcurrency"][phase] = {
                it
                for it in used
                if plan["phaseRing"][it] != plan["phaseRing"][phase]
                and plan["phaseSide"][it] == plan["phaseSide"][phase]
            }
        for phase, names in pedestrians.items():
            lengths = [self._net.getEdge(it).getLength() for it in names]
            plan["phaseWalk"][phase] = WALK
            plan["phasePedestrianClear"][phase] = math.ceil(max(lengths) / WALKING)
            if phase <= 8:
                plan["pedestrianDetectorCallPhase"][phase] = phase
        self.notes.append("guessed: all times of the plan, by the speeds of the edges")
        return plan


def _give(plan: Plan, phase: int, speed: float) -> None:
    """Enables a phase with the usual ring, side and times for a speed in m/s."""
    kind = "left" if phase % 2 else "main" if phase in (2, 6) else "side"
    plan["phaseEnabled"][phase] = 1
    plan["phaseRing"][phase] = 1 + (phase > 4)
    plan["phaseSide"][phase] = 1 + (phase in (3, 4, 7, 8))
    plan["phaseMinimumGreen"][phase] = MINIMUM[kind]
    plan["phaseMaximum1"][phase] = plan["phaseMaximum2"][phase] = MAXIMUM[kind]
    plan["phasePassage"][phase] = plan["phaseMinimumGap"][phase] = GAP[kind]
    plan["phaseYellowChange"][phase] = _yellow(speed)
    plan["phaseRedClear"][phase] = 15
    plan["phaseDualEntry"][phase] = int(kind != "left")
    plan["phaseMinRecall"][phase] = int(kind == "main")


def _sorted(table: dict[int, list[Any]]) -> dict[int, tuple[Any, ...]]:
    return {at: tuple(it) for at, it in sorted(table.items()) if it}


def _heading(edge: Any) -> float:
    """Where an edge heads at its end."""
    (x, y), (to_x, to_y) = edge.getShape()[-2:]
    return math.degrees(math.atan2(to_y - y, to_x - x)) % 360


def _across(one: Approach, other: Approach) -> float:
    """By how many degrees two approaches miss being opposite."""
    return abs((one.heading - other.heading) % 360 - 180)


def _yellow(speed: float) -> int:
    """Tenths of a second: a second to see it, and 3.05 m/s² to stop; 3.0 to 6.0 s."""
    return min(60, max(30, math.ceil(10 * (1 + speed / 6.1))))
