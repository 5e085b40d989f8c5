"""Reads the inputs of an intersection from a running simulation, and shows its state.

Under TraCI each get is a message, so everything is subscribed to; under libsumo a get
is a call, and a subscription would only cost.
"""

from collections.abc import Callable, Iterable
from typing import Any, Protocol

from tsb.rows import PEDESTRIANS, PREEMPTS, VEHICLES, of_fields
from tsb.sumo.intersection import Intersection
from tsb.sumo.mapping import MappingFault

TICK = 0.1  # seconds

Test = Callable[[], bool]
Names = Callable[[], Iterable[str]]


class Reader:
    """The eyes of an intersection. `api` is libsumo, or a connection of TraCI."""

    def __init__(self, api: Any, at: Intersection, subscribe: bool) -> None:
        self._api, self._at = api, at
        self._shown: str | None = None
        self._classes: dict[str, str] = {}
        self._get: _Gets = _Plain(api)
        if subscribe:
            self._get = _Subscribed(api)
        mapping = at.mapping
        _check_simulation(api, at)
        areas = set(api.lanearea.getIDList())
        self._vehicles = [
            [
                self._get.count("lanearea" if it in areas else "inductionloop", it)
                for it in mapping.channels.get(channel, ())
            ]
            for channel in range(1, VEHICLES + 1)
        ]
        self._buttons = [
            [self._waiting(name) for name in mapping.buttons.get(button, ())]
            for button in range(1, PEDESTRIANS + 1)
        ]
        self._preempts = [self._coming(at) for at in range(1, PREEMPTS + 1)]

    def row(self) -> str:
        """The row of inputs. A channel is on while a vehicle is on a detector of it (on a
        loop: was in the last step)."""
        self._get.renew()
        return of_fields(
            "".join("1" if any(test() for test in tests) else "0" for tests in inputs)
            for inputs in (self._vehicles, self._buttons, self._preempts)
        )

    def put(self, state: str) -> None:
        """Shows a state."""
        if state != self._shown:
            self._api.trafficlight.setRedYellowGreenState(self._at.tls, state)
            self._shown = state

    def state(self) -> str:
        """The state that SUMO shows."""
        told: str = self._api.trafficlight.getRedYellowGreenState(self._at.tls)
        return told

    def _waiting(self, name: str) -> Test:
        """Whether somebody waits at a crosswalk and wants to cross."""
        crossing, person = self._at.light.crossings[name], self._api.person
        lists = [self._get.persons(area) for area in crossing.areas]

        def test() -> bool:
            return any(
                person.getWaitingTime(it) > 0 and person.getNextEdge(it) == name
                for get in lists
                for it in get()
            )

        return test

    def _coming(self, number: int) -> list[Test]:
        """Whether a vehicle that preempts is on one of its edges."""
        preempt = self._at.mapping.preempts.get(number)
        if preempt is None:
            return []
        classes = preempt.classes
        lists = [self._get.vehicles(edge) for edge in preempt.edges]
        return [
            lambda: any(self._class(it) in classes for get in lists for it in get())
        ]

    def _class(self, vehicle: str) -> str:
        if vehicle not in self._classes:
            self._classes[vehicle] = self._api.vehicle.getVehicleClass(vehicle)
        return self._classes[vehicle]


class _Gets(Protocol):
    """What a reader asks of a simulation."""

    def renew(self) -> None:
        """Asks for what is read next."""

    def count(self, domain: str, name: str) -> Test:
        """Whether vehicles are on a detector."""

    def persons(self, edge: str) -> Names:
        """The people on an edge."""

    def vehicles(self, edge: str) -> Names:
        """The vehicles on an edge."""


class _Plain:
    """Asks the simulation whenever it is asked."""

    def __init__(self, api: Any) -> None:
        self._api = api

    def renew(self) -> None:
        """(there is nothing to renew)"""

    def count(self, domain: str, name: str) -> Test:
        get = getattr(self._api, domain).getLastStepVehicleNumber
        return lambda: bool(get(name))

    def persons(self, edge: str) -> Names:
        get: Callable[[str], Iterable[str]] = self._api.edge.getLastStepPersonIDs
        return lambda: get(edge)

    def vehicles(self, edge: str) -> Names:
        get: Callable[[str], Iterable[str]] = self._api.edge.getLastStepVehicleIDs
        return lambda: get(edge)


class _Subscribed:
    """Subscribes to all that it is asked for; reads the answers of a step at once."""

    def __init__(self, api: Any) -> None:
        from traci import constants

        self._api = api
        self._told: dict[str, Any] = {}
        self._number = constants.LAST_STEP_VEHICLE_NUMBER
        self._vehicle_ids = constants.LAST_STEP_VEHICLE_ID_LIST
        self._person_ids = constants.LAST_STEP_PERSON_ID_LIST
        self._edges: dict[str, set[int]] = {}

    def renew(self) -> None:
        for domain in self._told:
            self._told[domain] = getattr(self._api, domain).getAllSubscriptionResults()

    def count(self, domain: str, name: str) -> Test:
        getattr(self._api, domain).subscribe(name, (self._number,))
        self._told.setdefault(domain, {})
        return lambda: bool(self._told[domain][name][self._number])

    def persons(self, edge: str) -> Names:
        return self._edge(edge, self._person_ids)

    def vehicles(self, edge: str) -> Names:
        return self._edge(edge, self._vehicle_ids)

    def _edge(self, edge: str, what: int) -> Names:
        self._edges.setdefault(edge, set()).add(what)
        self._api.edge.subscribe(edge, sorted(self._edges[edge]))
        self._told.setdefault("edge", {})
        told = self._told

        def names() -> Iterable[str]:
            found: Iterable[str] = told["edge"][edge][what]
            return found

        return names


def _check_simulation(api: Any, at: Intersection) -> None:
    """The simulation has what the mapping names, and steps of a tick."""
    if abs((step := api.simulation.getDeltaT()) - TICK) > 1e-6:
        raise MappingFault(f"a step of SUMO is {step} s: a tick is {TICK} s")
    detectors = {*api.lanearea.getIDList(), *api.inductionloop.getIDList()}
    edges = set(api.edge.getIDList())
    if at.tls not in api.trafficlight.getIDList():
        raise MappingFault(f"the simulation has no traffic light {at.tls}")
    for channel, names in at.mapping.channels.items():
        for name in names:
            if name not in detectors:
                raise MappingFault(f"channels.{channel}: there is no detector {name}")
    for number, it in at.mapping.preempts.items():
        for edge in it.edges:
            if edge not in edges:
                raise MappingFault(f"preempts.{number}: there is no edge {edge}")
