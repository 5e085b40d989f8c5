"""A running simulation of SUMO, stepped by a tenth of a second: the states of its
intersections go in, their rows come out.

`Traci` is SUMO behind TraCI. `Libsumo` (in `tsb.sumo.worker`) is SUMO in a process of
its own that can be forked.
"""

import contextlib
import os
import shutil
import subprocess
import sys
from collections.abc import Sequence
from typing import Any, Protocol

from tsb.errors import Error
from tsb.sumo.intersection import Intersection
from tsb.sumo.reader import Reader

States = Sequence[str | None]  # of each intersection; None to leave it to SUMO


class SumoFailed(Error):
    """SUMO could not be started, or ended by a fault of its own."""


class Simulation(Protocol):
    """What a loop asks of a simulation."""

    #: Whether `checkpoint` is there.
    forks: bool

    def start(self, options: Sequence[str], at: Sequence[Intersection]) -> list[str]:
        """Starts at time 0: the first rows."""

    def step(self, states: States) -> tuple[list[str], list[str]]:
        """One step in these states: the rows after it, and the states in it."""

    def replay(self, states: Sequence[States]) -> list[list[str]]:
        """So many steps: the rows after each."""

    def call(self, name: str, *words: Any) -> Any:
        """A call of SUMO's Python interface, as `vehicle.getSpeed`."""

    def checkpoint(self) -> int:
        """Keeps the present moment: its number, from 0 on."""

    def resume(self, checkpoint: int) -> None:
        """Goes on from a checkpoint, which stays; later ones are gone."""

    def close(self) -> None:
        """Ends SUMO, which writes its output files to the end."""


class Eyes:
    """A simulation in the process in which it is asked for, by `api`: libsumo, or a
    connection of TraCI that was started."""

    def __init__(self, api: Any, at: Sequence[Intersection], subscribe: bool) -> None:
        self._api = api
        self._readers = [Reader(api, it, subscribe) for it in at]

    def rows(self) -> list[str]:
        """The rows of the intersections."""
        return [it.row() for it in self._readers]

    def step(self, states: States) -> tuple[list[str], list[str]]:
        """One step."""
        shown = []
        for reader, state in zip(self._readers, states, strict=True):
            if state is not None:
                reader.put(state)
        self._api.simulationStep()
        for reader, state in zip(self._readers, states, strict=True):
            shown.append(reader.state() if state is None else state)
        return self.rows(), shown

    def call(self, name: str, *words: Any) -> Any:
        """A call of SUMO's Python interface."""
        what = self._api
        for part in name.split("."):
            what = getattr(what, part)
        return what(*words)


class Traci:
    """SUMO behind TraCI. Nothing of it can be kept: a loop goes back by a run again
    from the start."""

    forks = False
    _count = 0

    def __init__(self, program: str = "sumo") -> None:
        self._program = program

    def start(self, options: Sequence[str], at: Sequence[Intersection]) -> list[str]:
        """Starts SUMO at time 0."""
        import traci

        Traci._count += 1
        self._label = f"tsb {os.getpid()} {Traci._count}"
        words = [binary(self._program), *options]
        try:
            with contextlib.redirect_stdout(None):
                traci.start(words, label=self._label, stdout=subprocess.DEVNULL)
            self._api = traci.getConnection(self._label)
        except (
            traci.exceptions.TraCIException,
            traci.exceptions.FatalTraCIError,
        ) as fault:
            raise SumoFailed(f"SUMO did not start: {fault}") from None
        try:
            self._eyes = Eyes(self._api, at, subscribe=True)
        except Error:
            self.close()
            raise
        return self._eyes.rows()

    def step(self, states: States) -> tuple[list[str], list[str]]:
        """One step in these states."""
        return self._eyes.step(states)

    def replay(self, states: Sequence[States]) -> list[list[str]]:
        """So many steps."""
        return [self.step(it)[0] for it in states]

    def call(self, name: str, *words: Any) -> Any:
        """A call of SUMO's Python interface."""
        return self._eyes.call(name, *words)

    def checkpoint(self) -> int:
        """(refused)"""
        raise Error("there is no checkpoint of SUMO behind TraCI")

    def resume(self, checkpoint: int) -> None:
        """(refused)"""
        raise Error("there is no checkpoint of SUMO behind TraCI")

    def close(self) -> None:
        """Ends SUMO."""
        self._api.close()


def binary(name: str) -> str:
    """The path of a program of SUMO: of `SUMO_HOME`, beside Python (where pip puts it),
    or on `PATH`."""
    home = os.environ.get("SUMO_HOME", "/usr/share/sumo")
    beside = os.path.dirname(sys.executable)
    folders = [f"{home}/bin", beside, os.environ.get("PATH", os.defpath)]
    found = shutil.which(name, path=os.pathsep.join(folders))
    if found is None:
        raise SumoFailed(
            f"there is no program {name}: install Debian's sumo, or pip's eclipse-sumo"
        )
    return found
