"""What a net of SUMO says of one traffic light, read with sumolib."""

import itertools
from collections import defaultdict
from collections.abc import Mapping as Table
from dataclasses import dataclass
from functools import lru_cache
from os import PathLike
from pathlib import Path
from typing import Any

from tsb.errors import Error


class NetFault(Error):
    """A net that has no such traffic light, or is none."""


@dataclass(frozen=True)
class Link:
    """A link of a traffic light: from a lane to a lane. `turn` is SUMO's direction:
    s straight, l and L left, r and R right, t a turn back."""

    index: int
    from_edge: str
    from_lane: int
    to_edge: str
    turn: str


@dataclass(frozen=True)
class Crossing:
    """A crossing of pedestrians: its links, the edges that it crosses, and the areas
    in which pedestrians wait for it."""

    name: str
    links: tuple[int, ...]
    crossed: tuple[str, ...]
    areas: tuple[str, ...]


@dataclass(frozen=True)
class Light:
    """A traffic light: `size` is the length of its state, `crossings` are by name.
    `foes` are pairs of links, the lower first, whose ways meet in the junction, as its
    `request` in the net has them."""

    name: str
    size: int
    links: tuple[Link, ...]
    crossings: Table[str, Crossing]
    foes: frozenset[tuple[int, int]] = frozenset()


@lru_cache(maxsize=4)
def _read(path: str, changed: int) -> Any:
    """The net; `changed` is when the file was written, so that a new one is read."""
    from sumolib.net import readNet

    return readNet(
        path, withInternal=True, withPedestrianConnections=True, withFoes=True
    )


def read_net(path: str | PathLike[str]) -> Any:
    """The net of a file, as sumolib has it, with pedestrians' crossings."""
    file = Path(path).resolve()
    if not file.is_file():
        raise NetFault(f"{path}: there is no such net")
    return _read(str(file), file.stat().st_mtime_ns)


def light(net: Any, tls: str) -> Light:
    """What the net says of a traffic light. `net` is a path, or what sumolib read."""
    if isinstance(net, str | PathLike):
        net = read_net(net)
    links, crossings = [], defaultdict(list)
    places: dict[Any, list[tuple[int, int]]] = {}
    for edge in net.getEdges():
        for connections in edge.getOutgoing().values():
            for it in connections:
                if it.getTLSID() != tls or it.getTLLinkIndex() < 0:
                    continue
                ends = it.getFrom(), it.getTo()
                names = [end.getID() for end in ends]
                kinds = [end.getFunction() for end in ends]
                if "crossing" in kinds:
                    name = names[kinds.index("crossing")]
                    crossings[name].append(it.getTLLinkIndex())
                    continue
                lane = it.getFromLane().getIndex()
                turn = it.getDirection()
                links.append(Link(it.getTLLinkIndex(), names[0], lane, names[1], turn))
                junction = it.getFrom().getToNode()
                place = junction.getLinkIndex(it), it.getTLLinkIndex()
                places.setdefault(junction, []).append(place)
    if not links and crossings:
        raise NetFault(f"the traffic light {tls} has crossings alone, and no phase")
    if not links:
        names_of_all = ", ".join(it.getID() for it in net.getTrafficLights())
        raise NetFault(f"the net has no traffic light {tls}; it has {names_of_all}")
    of = {name: _crossing(net, name, at) for name, at in sorted(crossings.items())}
    found = [it.index for it in links] + [at for it in of.values() for at in it.links]
    links.sort(key=lambda it: it.index)
    return Light(tls, max(found) + 1, tuple(links), of, _foes(places))


def _foes(places: Table[Any, list[tuple[int, int]]]) -> frozenset[tuple[int, int]]:
    """The pairs of links that meet: of each junction, the places of its links in it,
    each with its index in the light's state."""
    found = set()
    for junction, of in places.items():
        known = [it for it in of if it[0] in junction._foes]
        for (one, link), (two, other) in itertools.combinations(known, 2):
            if link != other and junction.areFoes(one, two):
                found.add((min(link, other), max(link, other)))
    return frozenset(found)


def _crossing(net: Any, name: str, links: list[int]) -> Crossing:
    edge = net.getEdge(name)
    beside = {*edge.getIncoming(), *edge.getOutgoing()}
    areas = {it.getID() for it in beside if it.getFunction() == "walkingarea"}
    crossed = tuple(sorted(it.getID() for it in edge.getCrossingEdges()))
    return Crossing(name, tuple(sorted(links)), crossed, tuple(sorted(areas)))
