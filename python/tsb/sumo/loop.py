"""The closed loop: cars of SUMO that react to the heads of benches, and benches that
react to the cars, a tenth of a second at a time."""

from collections.abc import Callable, Iterable, Sequence
from datetime import datetime
from importlib.util import find_spec
from os import PathLike, fspath
from types import TracebackType
from typing import Any, Literal, Self

from tsb.bench import Bench
from tsb.errors import Error, NoSuchTick
from tsb.lines import Display
from tsb.sumo.intersection import Intersection
from tsb.sumo.simulation import Simulation, Traci
from tsb.sumo.worker import Libsumo

Path = str | PathLike[str]
#: What is given to the bench of a traffic light in a tick, of the row that was read.
Change = Callable[[int, str, str], str]

PIECE = 1000  # steps that are replayed at a time
DEFAULTS = {
    "--step-length": "0.1",
    "--time-to-teleport": "-1",
    "--xml-validation": "never",
    "--no-step-log": "true",
    "--no-warnings": "true",
    "--tripinfo-output.write-unfinished": "true",
}


class Diverged(Error):
    """A simulation that was run again did not do the same. The message says where."""


class Loop:
    """A simulation of SUMO with a bench at each intersection that has a plan.

    `routes` and `additional` are files of SUMO; `trips` is the file to which SUMO
    writes its trips (`tsb.sumo.read_trips`). `api` is `libsumo`, which is taken where
    it is installed, or `traci` for SUMO in a program of its own, as `sumo-gui`, the
    `program`. `options` are more of SUMO's own. `change` is asked for the row of each
    tick: it is given the tick, the traffic light and the row that was read, and gives
    the row that the bench takes. A step is a tenth of a second.

    `begin` is the time at which tick 1 begins, to which the clocks of all benches are
    set: offsets count from its midnight, and schedules act. Without it no bench has a
    clock. SUMO's own time is none of it, and begins where `options` have it begin.

    Tick k + 1 of a bench takes the row that was read after k steps, and step k + 1
    shows what it answers.
    """

    def __init__(
        self,
        net: Path,
        routes: Path | Sequence[Path],
        intersections: Intersection | Sequence[Intersection],
        *,
        additional: Path | Sequence[Path] = (),
        seed: int | None = None,
        trips: Path | None = None,
        api: Literal["libsumo", "traci"] | None = None,
        program: str = "sumo",
        options: Sequence[str] = (),
        change: Change | None = None,
        begin: datetime | str | None = None,
    ) -> None:
        if isinstance(intersections, Intersection):
            intersections = [intersections]
        #: The intersections, in their order.
        self.intersections = list(intersections)
        self._words = ["-n", fspath(net), "-r", _list(routes), *options]
        self._words += ["-a", _list(additional)] if additional else []
        self._words += [] if seed is None else ["--seed", str(seed)]
        self._words += [] if trips is None else ["--tripinfo-output", fspath(trips)]
        for name, value in DEFAULTS.items():
            self._words += [] if name in options else [name, value]
        if api is None:
            api = "libsumo" if find_spec("libsumo") else "traci"
        self._api, self._program, self._change = api, program, change
        self._begin = begin
        #: The bench of each traffic light that has one.
        self.benches: dict[str, Bench] = {}
        self._open()

    def _open(self) -> None:
        try:
            for it in self.intersections:
                if it.plan is None:
                    continue
                bench = self.benches[it.tls] = Bench(it.plan)
                if self._begin is not None:
                    bench.set_clock(self._begin)
            self._simulation = self._started()
        except BaseException:
            for bench in self.benches.values():
                bench.close()
            raise

    def _started(self) -> Simulation:
        """A simulation at time 0, and the rows and states of no step yet."""
        simulation: Simulation = Libsumo()
        if self._api == "traci" or self._program != "sumo":
            simulation = Traci(self._program)
        self._read = [simulation.start(self._words, self.intersections)]
        self._given: list[list[str]] = []
        self._states: list[list[str]] = []
        self._kept: list[int] = []  # the tick of each checkpoint
        return simulation

    def __enter__(self) -> Self:
        return self

    def __exit__(
        self,
        kind: type[BaseException] | None,
        fault: BaseException | None,
        trace: TracebackType | None,
    ) -> None:
        self.close()

    def close(self) -> None:
        """Ends SUMO, whose files are whole then, and the benches."""
        try:
            self._simulation.close()
        finally:
            for bench in self.benches.values():
                bench.close()

    # Forward

    @property
    def tick(self) -> int:
        """How many steps were taken: tenths of a second."""
        return len(self._states)

    def step(self) -> dict[str, Display]:
        """One step: what the benches show in it, by traffic light."""
        shown: dict[str, Display] = {}
        given: list[str] = []
        states: list[str | None] = []
        for at, row in zip(self.intersections, self._read[-1], strict=True):
            if self._change is not None:
                row = self._change(self.tick + 1, at.tls, row)
            given.append(row)
            bench = self.benches.get(at.tls)
            if bench is None:
                states.append(None)
                continue
            display = shown[at.tls] = bench.tick(*row.split(" "))
            if display.tick != self.tick + 1:
                raise Error(f"{at.tls}: the bench was at {display.tick - 1}, SUMO not")
            states.append(at.state(display))
        rows, lit = self._simulation.step(states)
        self._given.append(given)
        self._states.append(lit)
        self._read.append(rows)
        return shown

    def run(self, ticks: int) -> None:
        """So many steps."""
        for _ in range(ticks):
            self.step()

    def call(self, name: str, *words: Any) -> Any:
        """A call of SUMO's Python interface: `loop.call("vehicle.getIDList")`. What
        changes the simulation is not taken back where it is run again."""
        return self._simulation.call(name, *words)

    # What was done

    def rows(self, tls: str) -> list[str]:
        """The rows that were given, from tick 1 on."""
        at = self._place(tls)
        return [it[at] for it in self._given]

    def states(self, tls: str) -> list[str]:
        """The states of a traffic light, from tick 1 on."""
        at = self._place(tls)
        return [it[at] for it in self._states]

    def _place(self, tls: str) -> int:
        return [it.tls for it in self.intersections].index(tls)

    # The way back

    def checkpoint(self) -> int:
        """Keeps the present tick, to go back to it at once: the process of libsumo is
        forked. (Under TraCI nothing is kept, and SUMO is run again from the start to go
        back.) Gives the tick."""
        if self._simulation.forks:
            self._simulation.checkpoint()
            self._kept.append(self.tick)
        return self.tick

    def back(self, count: int) -> int:
        """Goes back so many ticks, SUMO and the benches: gives the tick."""
        return self.seek(self.tick - count)

    def seek(self, tick: int) -> int:
        """Goes back to a tick.

        SUMO goes back to the last checkpoint before it, or without one is run again
        from the start, and then takes the steps in between in the states that were
        shown. `Diverged` where a row is another than the one that was read; then
        nothing is left to do but close the loop.
        """
        if not 0 <= tick <= self.tick:
            raise NoSuchTick(f"seek {tick}: the loop is at tick {self.tick}")
        kept = [it for it in self._kept if it <= tick]
        read, given, states = self._read, self._given, self._states
        if kept:
            self._simulation.resume(len(kept) - 1)
        else:
            self._simulation.close()
            self._simulation = self._started()
        self._kept = kept
        self._replay(read, states, kept[-1] if kept else 0, tick)
        self._read, self._states = read[: tick + 1], states[:tick]
        self._given = given[:tick]
        for bench in self.benches.values():
            bench.seek(tick)
        return tick

    def _replay(
        self, read: list[list[str]], states: list[list[str]], first: int, last: int
    ) -> None:
        """Takes these steps again, and compares the rows."""
        benches = [it.tls in self.benches for it in self.intersections]
        for at in range(first, last, PIECE):
            steps = [
                [it if has else None for it, has in zip(shown, benches, strict=True)]
                for shown in states[at : min(at + PIECE, last)]
            ]
            for place, rows in enumerate(self._simulation.replay(steps), at + 1):
                if rows != read[place]:
                    raise Diverged(
                        f"after step {place} SUMO has {rows}, not {read[place]}"
                    )


def _list(files: Path | Iterable[Path]) -> str:
    """The files of an option of SUMO."""
    if isinstance(files, str | PathLike):
        return fspath(files)
    return ",".join(fspath(it) for it in files)
