"""An intersection of a net: what its links show for a display of the bench."""

from collections import defaultdict
from collections.abc import Iterator
from dataclasses import dataclass, field
from os import PathLike
from pathlib import Path
from typing import Any

from tsb.lines import Display
from tsb.plan import Plan
from tsb.sumo.mapping import Mapping, MappingFault
from tsb.sumo.net import Light, light

# A letter of SUMO for a head, and for a link that goes beside a phase and yields. A
# flashing yellow arrow yields, and flashing red is SUMO's s: stop, then go where nobody
# else does.
VEHICLE = {"G": "G", "Y": "y", "R": "r", "P": "g", "F": "s", "-": "r"}
BESIDE = {"G": "g", "Y": "y", "R": "r", "P": "g", "F": "s", "-": "r"}
# People on a crossing walk on in the clearance, and nobody begins to.
WALKER = {"W": "G", "C": "r", "D": "r", "-": "r"}
FIRST = "Ggysr"  # of several letters for a link, the first of these


@dataclass(frozen=True)
class Intersection:
    """A traffic light of a net with its mapping, and the plan that is to run it.

    Without a plan SUMO's own program runs it, and the loop reads what it does.
    """

    light: Light
    mapping: Mapping
    plan: Plan | Path | None = None
    _states: dict[tuple[str, str, str], str] = field(default_factory=dict, repr=False)

    @classmethod
    def of(
        cls,
        net: str | PathLike[str] | Any,
        tls: str | None,
        mapping: Mapping | str | PathLike[str],
        plan: Plan | str | PathLike[str] | None = None,
    ) -> "Intersection":
        """The intersection of a net (a path, or what sumolib read) and a mapping (or
        its path). `tls` is None for that of the mapping.

        `MappingFault` says where they do not fit one another, or the plan.
        """
        if not isinstance(mapping, Mapping):
            mapping = Mapping.read(mapping)
        found = light(net, mapping.tls if tls is None else tls)
        if found.name != mapping.tls:
            raise MappingFault(f"the mapping is of {mapping.tls}, not of {found.name}")
        _check_links(found, mapping)
        if plan is not None and not isinstance(plan, Plan):
            plan = Path(plan)
        it = cls(found, mapping, plan)
        if plan is not None:
            read = plan if isinstance(plan, Plan) else Plan.read(plan)
            _check_plan(read, it)
            for link, other in met(found, mapping, read):
                raise MappingFault(
                    f"links {link} and {other} are green at once, and meet in the net:"
                    " one of them is permissive, or an overlap's"
                )
        return it

    @property
    def tls(self) -> str:
        """The name of the traffic light."""
        return self.light.name

    def state(self, display: Display) -> str:
        """The state of the traffic light, a letter for each link, for a display."""
        shown = display[1:4]
        found = self._states.get(shown)
        if found is None:
            found = self._states[shown] = self._state(display)
        return found

    def _state(self, display: Display) -> str:
        letters = defaultdict(set)
        for at, links in self.mapping.phases.items():
            for link in links:
                letters[link].add(VEHICLE[display.vehicles[at - 1]])
        for at, links in self.mapping.overlaps.items():
            for link in links:
                letters[link].add(VEHICLE[display.overlaps[at - 1]])
        for at, links in self.mapping.permissive.items():
            for link in links:
                letters[link].add(BESIDE[display.vehicles[at - 1]])
        for link in self.mapping.free:
            letters[link].add("g")
        for at, crossings in self.mapping.pedestrians.items():
            for name in crossings:
                for link in self.light.crossings[name].links:
                    letters[link].add(WALKER[display.pedestrians[at - 1]])
        return "".join(
            min(letters[link], key=FIRST.index, default="r")
            for link in range(self.light.size)
        )

    def heads(self, state: str) -> str:
        """The letters G, Y, R of phases 1 to 8 in a state of SUMO, by the first link
        of each; - for a phase without links."""
        told = {"G": "G", "g": "G", "y": "Y", "Y": "Y"}
        return "".join(
            told.get(state[self.mapping.phases[at][0]], "R")
            if self.mapping.phases.get(at)
            else "-"
            for at in range(1, 9)
        )


def _check_links(light: Light, mapping: Mapping) -> None:
    """Each link has one head, and no more than one that protects it."""
    there = {it.index for it in light.links}
    own: dict[int, str] = {}
    all_of = set(mapping.free)
    for table in ("phases", "overlaps", "permissive"):
        for at, links in getattr(mapping, table).items():
            for link in links:
                if link not in there:
                    raise MappingFault(f"{table}.{at}: there is no link {link}")
                if table != "permissive" and link in own:
                    raise MappingFault(f"{table}.{at}: link {link} is of {own[link]}")
                if table != "permissive":
                    own[link] = f"{table}.{at}"
                all_of.add(link)
    if missing := sorted(there - all_of):
        raise MappingFault(f"link {missing[0]} has no head: name it, or call it free")
    for table in ("pedestrians", "buttons"):
        for at, names in getattr(mapping, table).items():
            for name in names:
                if name not in light.crossings:
                    raise MappingFault(f"{table}.{at}: there is no crossing {name}")


def met(light: Light, mapping: Mapping, plan: Plan) -> Iterator[tuple[int, int]]:
    """The pairs of links that the plan gives a protected green at once, though their
    ways meet in the net."""
    phase_of = {link: at for at, links in mapping.phases.items() for link in links}
    # (the green of an arrow is that of its turn)
    for overlap, links in mapping.overlaps.items():
        if turn := plan.turn_of(overlap):
            phase_of |= dict.fromkeys(links, turn)
    phases = set(phase_of.values())
    beside = {at: {at} | plan["phaseConcurrency"].phases(at) for at in phases}
    for link, other in sorted(light.foes):
        one, two = phase_of.get(link), phase_of.get(other)
        if one is not None and two is not None:
            if two in beside[one] or one in beside[two]:
                yield link, other


def _check_plan(plan: Plan, at: Intersection) -> None:
    """The plan has what the mapping names."""
    mapping = at.mapping
    for phase in [*mapping.phases, *mapping.permissive]:
        if phase not in plan.phases:
            raise MappingFault(f"phases.{phase}: the plan does not enable it")
    for phase in mapping.pedestrians:
        if not plan["phaseWalk"][phase]:
            raise MappingFault(f"pedestrians.{phase}: the plan gives it no walk")
    for overlap in mapping.overlaps:
        if not plan["overlapIncludedPhases"][overlap]:
            raise MappingFault(f"overlaps.{overlap}: the plan gives it no phases")
    for input in mapping.preempts:
        if not plan["preemptDwellPhase"][input]:
            raise MappingFault(f"preempts.{input}: the plan gives it no dwell phases")
