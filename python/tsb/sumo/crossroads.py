"""An intersection to try things on: four approaches, two rings, three levels of demand.

The main street goes west to east with two lanes and a left bay at 72 km/h, the side
street south to north with one lane and a bay at 54 km/h. Each lane has a zone of 20 m
at its stop line, and loops 10 m before the bay. Main through is phases 2 (from the
west) and 6, its lefts are 5 and 1; side through is 4 (from the south) and 8, its lefts
are 7 and 3.
"""

import random
import subprocess
from collections.abc import Iterable
from collections.abc import Mapping as Table
from dataclasses import dataclass
from pathlib import Path
from typing import Any

from tsb.plan import Plan
from tsb.sumo.mapping import Mapping, Preempt
from tsb.sumo.net import light
from tsb.sumo.simulation import binary
from tsb.values import Value


@dataclass(frozen=True)
class Approach:
    """`end` of its far edge and `bay`, the begin of its left bay, in metres; lanes
    before and in the bay; phases of through and left; speed in m/s."""

    end: tuple[int, int]
    bay: tuple[int, int]
    far: int
    near: int
    through: int
    left: int
    speed: float


APPROACHES = {
    "W": Approach((-600, 0), (-100, 0), 2, 3, 2, 5, 20.0),
    "E": Approach((600, 0), (100, 0), 2, 3, 6, 1, 20.0),
    "S": Approach((0, -500), (0, -100), 1, 2, 4, 7, 15.0),
    "N": Approach((0, 500), (0, 100), 1, 2, 8, 3, 15.0),
}
THROUGH = {"W": "E", "E": "W", "S": "N", "N": "S"}
LEFT = {"W": "N", "E": "S", "S": "W", "N": "E"}
RIGHT = {"W": "S", "E": "N", "S": "E", "N": "W"}
# Vehicles an hour of an approach of the main street, and of the side street.
LEVELS = {"light": (300, 120), "medium": (800, 300), "heavy": (1300, 520)}
# The shares that turn left and right.
SHARES = {"W": (0.15, 0.10), "E": (0.15, 0.10), "S": (0.20, 0.15), "N": (0.20, 0.15)}
ZONE, ADVANCE = 20, 10  # metres: of a zone, and of a loop before the bay
WALKERS = 60  # pedestrians an hour over each crossing

PHASES = range(1, 9)
# The left turn of each overlap that is a flashing yellow arrow, and the through phase
# that opposes it.
ARROWS = {1: (1, 2), 2: (3, 4), 3: (5, 6), 4: (7, 8)}
ARROW_DELAY = 20  # tenths of a second

Values = dict[Any, Value]  # of an object of a plan, by index


def build(folder: Path, pedestrians: bool = False, arrows: bool = False) -> Mapping:
    """Writes the net `net.xml`, its detectors `detectors.xml` and its mapping
    `mapping.json`: gives the mapping. With pedestrians it has sidewalks, and a
    crossing with buttons on each leg. With arrows left turns have the heads of
    overlaps, for a plan of `with_arrows`."""
    folder.mkdir(parents=True, exist_ok=True)
    _net(folder, pedestrians)
    channels = _detectors(folder, 1 if pedestrians else 0)
    found = light(folder / "net.xml", "C")
    phases: dict[int, list[int]] = {at: [] for at in range(1, 9)}
    beside: dict[int, list[int]] = {}
    for it in found.links:
        approach = APPROACHES[it.from_edge[0]]
        if it.turn == "r" and pedestrians:
            beside.setdefault(approach.through, []).append(it.index)
        else:
            phases[approach.left if it.turn == "l" else approach.through].append(
                it.index
            )
    crossings = {
        APPROACHES[_before(it.crossed[0][0])].through: (name,)
        for name, it in found.crossings.items()
    }
    lefts = {at: phases.pop(turn) for at, (turn, _) in ARROWS.items() if arrows}
    mapping = Mapping(
        "C",
        phases={at: tuple(it) for at, it in phases.items()},
        overlaps={at: tuple(it) for at, it in lefts.items()},
        permissive={at: tuple(it) for at, it in sorted(beside.items())},
        pedestrians=dict(sorted(crossings.items())),
        channels={at: tuple(it) for at, it in channels.items()},
        buttons=dict(sorted(crossings.items())),
        preempts={1: Preempt(("emergency",), ("S_far", "S_near"))},
    )
    mapping.write(folder / "mapping.json")
    return mapping


def _before(leg: str) -> str:
    """The approach whose right turn goes to a leg: its pedestrians walk over it."""
    return next(it for it, to in RIGHT.items() if to == leg)


def _net(folder: Path, pedestrians: bool) -> None:
    nodes = ['<node id="C" x="0" y="0" type="traffic_light"/>']
    edges, connections = [], []
    walk = ' sidewalkWidth="2"' if pedestrians else ""
    for name, it in APPROACHES.items():
        nodes += [f'<node id="{name}" x="{it.end[0]}" y="{it.end[1]}"/>']
        nodes += [f'<node id="b{name}" x="{it.bay[0]}" y="{it.bay[1]}"/>']
        for kind, start, end, lanes in (
            ("far", name, f"b{name}", it.far),
            ("near", f"b{name}", "C", it.near),
            ("out", "C", name, it.far),
        ):
            edges.append(
                f'<edge id="{name}_{kind}" from="{start}" to="{end}"'
                f' numLanes="{lanes}" speed="{it.speed}"{walk}/>'
            )
        connections += _connections(name, it, 1 if pedestrians else 0)
    if pedestrians:
        connections += [
            f'<crossing node="C" edges="{it}_near {it}_out"/>' for it in APPROACHES
        ]
    kinds = {"nodes": nodes, "edges": edges, "connections": connections}
    for kind, rows in kinds.items():
        text = f"<{kind}>\n" + "\n".join(rows) + f"\n</{kind}>\n"
        (folder / f"{kind}.xml").write_text(text)
    words = ["-n", "nodes.xml", "-e", "edges.xml", "-x", "connections.xml"]
    words += ["-o", "net.xml", "--no-turnarounds", "--tls.layout", "opposites"]
    words += ["--no-warnings", "--xml-validation", "never"]
    subprocess.run(
        [binary("netconvert"), *words], cwd=folder, check=True, capture_output=True
    )


def _connections(name: str, it: Approach, first: int) -> list[str]:
    """The connections of an approach, whose first lane for cars is this one."""

    def row(start: str, end: str, lane: int, to: int) -> str:
        return (
            f'<connection from="{start}" to="{end}"'
            f' fromLane="{lane + first}" toLane="{to + first}"/>'
        )

    far, near = f"{name}_far", f"{name}_near"
    rows = [row(far, near, lane, lane) for lane in range(it.far)]
    rows.append(row(far, near, it.far - 1, it.near - 1))
    rows += [row(near, f"{THROUGH[name]}_out", lane, lane) for lane in range(it.far)]
    rows.append(row(near, f"{RIGHT[name]}_out", 0, 0))
    to = LEFT[name]
    return [*rows, row(near, f"{to}_out", it.near - 1, APPROACHES[to].far - 1)]


def _detectors(folder: Path, first: int) -> dict[int, list[str]]:
    """Writes the detectors: those of each channel, where the zones of a phase are
    on that of its number. `first` is the number of the first lane for cars."""
    rows: list[str] = []
    channels: dict[int, list[str]] = {}
    for channel, (name, it) in enumerate(APPROACHES.items(), 9):
        for lane in range(it.near):
            zone = f"{name}{lane}"
            rows.append(
                f'<laneAreaDetector id="{zone}" lane="{name}_near_{lane + first}"'
                f' endPos="-0.1" length="{ZONE}" freq="100000" file="NUL"'
                ' friendlyPos="true"/>'
            )
            phase = it.left if lane == it.near - 1 else it.through
            channels.setdefault(phase, []).append(zone)
        for lane in range(it.far):
            loop = f"adv{name}{lane}"
            rows.append(
                f'<inductionLoop id="{loop}" lane="{name}_far_{lane + first}"'
                f' pos="-{ADVANCE}" freq="100000" file="NUL"/>'
            )
            channels.setdefault(channel, []).append(loop)
    text = "<additional>\n" + "\n".join(rows) + "\n</additional>\n"
    (folder / "detectors.xml").write_text(text)
    return channels


def demand(
    path: Path,
    level: str,
    seed: int,
    seconds: int = 3600,
    pedestrians: bool = False,
    engines: int = 0,
) -> None:
    """Writes the routes of a level: Poisson arrivals, the same for the same seed. With
    `engines`, a fire engine from the south every so many seconds."""
    draw, rows = random.Random(seed), []
    for name in APPROACHES:
        rate, time = LEVELS[level][name in "SN"] / 3600, 0.0
        while (time := time + draw.expovariate(rate)) < seconds:
            share = draw.random()
            left, right = SHARES[name]
            turns = LEFT if share < left else RIGHT if share < left + right else THROUGH
            rows.append((time, name, turns[name]))
    lines = [
        (time, _vehicle(str(number), "car", time, name, to))
        for number, (time, name, to) in enumerate(sorted(rows))
    ]
    if engines:
        for time in range(engines, seconds, engines):
            lines.append((time, _vehicle(f"fire{time}", "fire", time, "S", "N")))
    if pedestrians:
        lines += _walkers(draw, seconds)
    types = ['<vType id="car" sigma="0.5" tau="1.2"/>']
    types.append('<vType id="fire" sigma="0.5" tau="1.2" vClass="emergency"/>')
    text = "\n".join([*types, *(it for _, it in sorted(lines))])
    path.write_text(f"<routes>\n{text}\n</routes>\n")


def _vehicle(name: str, kind: str, time: float, start: str, to: str) -> str:
    return (
        f'<vehicle id="{name}" type="{kind}" depart="{time:.1f}" departLane="best"'
        f' departSpeed="max"><route edges="{start}_far {start}_near {to}_out"/>'
        "</vehicle>"
    )


def _walkers(draw: random.Random, seconds: int) -> list[tuple[float, str]]:
    """Pedestrians over each crossing, who come from the leg and go on along it."""
    lines = []
    for leg in APPROACHES:
        time, number = 0.0, 0
        while (time := time + draw.expovariate(WALKERS / 3600)) < seconds:
            lines.append((time, _walker(f"{leg}{number}", time, leg)))
            number += 1
    return lines


def _walker(name: str, time: float, leg: str) -> str:
    """From the right hand side of a leg, over its crossing, and away on the other."""
    return (
        f'<person id="walk{name}" depart="{time:.1f}" departPos="60">'
        f'<walk edges="{leg}_near {leg}_out" arrivalPos="40"/></person>'
    )


def plan(pattern: bool = False, latched: bool = False, **more: Table[int, int]) -> Plan:
    """The plan of the intersection: free, or with pattern 1 of a cycle of 110 s.
    `latched`: a phase that gapped out stays so (`phaseSimGapDisable`). `more` are
    objects that are other, by their own units."""
    made = Plan(2)
    made["phaseEnabled"] = _all(PHASES, 1)
    made["phaseRing"] = {at: 1 + (at > 4) for at in PHASES}
    made["phaseSide"] = {at: 1 + (at in (3, 4, 7, 8)) for at in PHASES}
    made["phaseConcurrency"] = {
        1: 48, 2: 48, 3: 192, 4: 192, 5: 3, 6: 3, 7: 12, 8: 12
    }  # fmt: skip
    made.set_sequence(1, 1, [1, 2, 3, 4])
    made.set_sequence(1, 2, [5, 6, 7, 8])
    _times(made)
    made["phaseMinRecall"] = {2: 1, 6: 1}
    made["phaseDualEntry"] = {2: 1, 4: 1, 6: 1, 8: 1}
    made["phaseNonLock"] = _all(PHASES, 1)
    made["vehicleDetectorCallPhase"] = {at: at for at in PHASES}
    made["preemptDwellPhase"] = {1: 72}
    made["preemptExitPhase"] = {1: 34}
    made["preemptMinimumGreen"] = {1: 5}
    if pattern:
        made["patternCycleTime"] = {1: 110}
        made["patternSplitNumber"] = {1: 1}
        made["patternSequenceNumber"] = {1: 1}
        made["patternOffsetTime"] = {1: 44}
        made["splitCoordPhase"] = {2: 1, 6: 1}
        made["splitTime"] = _by(18, 44, 30)
    if latched:
        made["phaseSimGapDisable"] = _all(PHASES, 1)
    for name, values in more.items():
        made[name] = {at: it for at, it in values.items()}
    return made


def _times(made: Plan) -> None:
    """Gives the plan its times."""
    made["phaseMinimumGreen"] = _by(5, 10, 7)
    for name in ("phaseMaximum1", "phaseMaximum2"):
        made[name] = _by(20, 45, 30)
    # the bench's gap counts from the first tick without an output, that of SUMO from
    # the last one with it: 2.0, 3.0 and 2.5 s there
    for name in ("phasePassage", "phaseMinimumGap"):
        made[name] = _by(19, 29, 24)
    made["phaseYellowChange"] = _all(PHASES, 40)
    made["phaseRedClear"] = _all(PHASES, 15)


def _by(left: int, main: int, side: int) -> Values:
    """The values of left turns, of the main street and of the side street."""
    each: Values = {at: left if at % 2 else side for at in PHASES}
    return {**each, 2: main, 6: main}


def _all(phases: Iterable[int], value: int) -> Values:
    """The same value for each phase."""
    return dict.fromkeys(phases, value)


def with_pedestrians(made: Plan) -> Plan:
    """The plan with walks on phases 2, 4, 6 and 8, each with its button."""
    through = (2, 4, 6, 8)
    made["phaseWalk"] = _all(through, 7)
    made["phasePedestrianClear"] = {2: 9, 4: 16, 6: 9, 8: 16}
    made["pedestrianDetectorCallPhase"] = {at: at for at in through}
    return made


def with_arrows(made: Plan) -> Plan:
    """The plan, of version 3, with left turns that are permissive too: each is an
    overlap that flashes yellow beside the through phase across it."""
    found = made.wide(3)
    found["overlapType"] = dict.fromkeys(ARROWS, 2)
    found["overlapModifierPhases"] = {at: {turn} for at, (turn, _) in ARROWS.items()}
    found["overlapIncludedPhases"] = {at: {it} for at, (_, it) in ARROWS.items()}
    found["overlapArrowDelay"] = dict.fromkeys(ARROWS, ARROW_DELAY)
    return found


def lagging(latched: bool = False) -> Plan:
    """The free plan in which the left turn of phase 1 comes after phase 2, and that of
    phase 5 before phase 6."""
    made = plan(latched=latched)
    made.set_sequence(1, 1, [2, 1, 3, 4])
    return made


def density() -> Plan:
    """The free plan with volume density on phases 2, 4, 6 and 8: cars over the loops
    before the bays lengthen the initial green, and call and extend; the gap falls from
    4.0 to 2.0 s."""
    made, through = plan(), (2, 6, 4, 8)
    for channel, phase in enumerate(through, 9):
        made["vehicleDetectorCallPhase"][channel] = phase
    for phase in through:
        made["phaseVariableInitial"][phase] = 1
        made["phaseAddedInitial"][phase] = 15
        made["phaseMaximumInitial"][phase] = 25
        made["phasePassage"][phase] = 40
        made["phaseMinimumGap"][phase] = 20
        made["phaseTimeBeforeReduction"][phase] = 10
        made["phaseTimeToReduce"][phase] = 15
    return made
