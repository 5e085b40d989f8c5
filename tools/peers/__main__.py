"""Runs SUMO's own NEMA controller and the bench on the same traffic, and writes what
came of it into docs/trust/PEERS.md: python3 -m tools.peers FOLDER [--write] [--only WORD,..].

The runs are kept in FOLDER: what is there is not run again, so that it can be stopped
and started. All runs take an hour or two. With --only it makes the runs of kinds with
such a word in their name, and writes the tables with such a word in their head. It
needs SUMO, and the programs tsb and tsb_live, built or in a folder that TSB_BIN names.
"""

import argparse
import gzip
import sys
import time
from collections.abc import Callable, Iterator
from dataclasses import dataclass
from pathlib import Path

from tools import TOP

sys.path.insert(0, str(TOP / "python"))

from tools.peers import options, tables  # noqa: E402
from tsb.plan import Plan  # noqa: E402
from tsb.sumo import Intersection, Loop, crossroads  # noqa: E402
from tsb.sumo.nema import nema_of  # noqa: E402
from tsb.sumo.peers import ALL_OFF  # noqa: E402

ALL = ("light", "medium", "heavy")
YELLOW = {1: 35, 2: 43, 3: 35, 4: 39, 5: 35, 6: 43, 7: 35, 8: 39}
PRESS = 2400  # ticks from press to press of the buttons of phases 4 and 8
RED = {1: 10, 2: 15, 3: 10, 4: 15, 5: 10, 6: 15, 7: 10, 8: 15}


@dataclass(frozen=True)
class Kind:
    """A kind of runs: its plan, the levels of demand, and whether SUMO's controller
    runs it, with people on the crossings, in a pattern, or with its buttons pressed."""

    plan: Callable[[], Plan]
    levels: tuple[str, ...] = ALL
    sumos: bool = False
    walks: bool = False
    pattern: int = 0
    presses: bool = False


def _unequal() -> Plan:
    return crossroads.plan(phaseYellowChange=YELLOW, phaseRedClear=RED)


def _pattern(setting: str = "none") -> Plan:
    return crossroads.plan(pattern=True, **options.SETTINGS[setting])


def _buttons(setting: str = "none") -> Plan:
    """With walks on phases 4 and 8 that their splits do not hold."""
    made = _pattern(setting)
    made["phaseWalk"] = {4: 7, 8: 7}
    made["phasePedestrianClear"] = {4: 36, 8: 36}
    made["pedestrianDetectorCallPhase"] = {4: 4, 8: 8}
    return made


KINDS = {
    "sumo free": Kind(crossroads.plan, sumos=True),
    "sumo pattern": Kind(_pattern, sumos=True, pattern=1),
    "sumo unequal": Kind(_unequal, ("light",), sumos=True),
    "sumo lag": Kind(crossroads.lagging, ("medium",), sumos=True),
    "tsb free": Kind(crossroads.plan),
    "tsb latched": Kind(lambda: crossroads.plan(latched=True)),
    "tsb pattern": Kind(_pattern, pattern=1),
    "tsb unequal": Kind(_unequal, ("light",)),
    "tsb lag": Kind(crossroads.lagging, ("medium",)),
    "tsb lag latched": Kind(lambda: crossroads.lagging(latched=True), ("medium",)),
    "tsb density": Kind(crossroads.density, ("heavy",)),
    "tsb late": Kind(lambda: _pattern("late"), pattern=1),
    "tsb permissive": Kind(lambda: _pattern("permissive"), pattern=1),
    "tsb buttons": Kind(_buttons, ("heavy",), pattern=1, presses=True),
    "tsb late buttons": Kind(
        lambda: _buttons("late"), ("heavy",), pattern=1, presses=True
    ),
    "tsb maximum buttons": Kind(
        lambda: _buttons("maximum"), ("heavy",), pattern=1, presses=True
    ),
    "tsb recall buttons": Kind(
        lambda: _buttons("recall"), ("heavy",), pattern=1, presses=True
    ),
    "tsb walks": Kind(
        lambda: crossroads.with_pedestrians(crossroads.plan()), ("medium",), walks=True
    ),
}
TABLES = {
    **tables.TABLES,
    "With the options of coordination": options.figures,
}


def run(folder: Path, kind: str, level: str, seed: int, seconds: int) -> None:
    """One run: `NAME.ticks.gz`, a line of the row and the heads of phases 1 to 8 for
    each tick, and `NAME.trips.xml`."""
    it, name = KINDS[kind], tables.name_of(kind, level, seed)
    net = folder / ("walks" if it.walks else "cars")
    if not (net / "mapping.json").exists():
        crossroads.build(net, it.walks)
    routes = net / f"{level}.{seed}.rou.xml"
    if not routes.exists():
        crossroads.demand(routes, level, seed, seconds, it.walks)
    plan, files = it.plan(), [net / "detectors.xml"]
    at = Intersection.of(
        net / "net.xml", "C", net / "mapping.json", None if it.sumos else plan
    )
    if it.sumos:
        files.append(folder / f"{kind.replace(' ', '_')}.nema.xml")
        files[1].write_text(nema_of(plan, at, pattern=it.pattern))

    begin = ["0"] * 16
    for ring in (1, 2):  # SUMO's controller begins in the first phases of its rings
        begin[plan.sequence(1, ring)[0] - 1] = "1"
    start = f"{''.join(begin)}{ALL_OFF[16:]}"

    def given(tick: int, tls: str, row: str) -> str:
        if it.presses and tick % PRESS == 0:
            return f"{row[:16]} 00010001 {row[26:]}"
        return start if tick == 1 and not it.pattern else row

    trips, ticks = folder / f"{name}.part.xml", folder / f"{name}.part"
    with Loop(
        net / "net.xml", routes, at,
        additional=files, seed=seed, trips=trips, change=given,
    ) as loop:  # fmt: skip
        if it.pattern and not it.sumos:
            loop.benches["C"].set_pattern(it.pattern)
        loop.run(10 * seconds)
        rows, states = loop.rows("C"), loop.states("C")
    with gzip.open(ticks, "wt", compresslevel=1) as file:
        for row, state in zip(rows, states, strict=True):
            file.write(f"{row[:16]} {at.heads(state)}\n")
    trips.rename(folder / f"{name}.trips.xml")
    ticks.rename(folder / f"{name}.ticks.gz")


def runs(seeds: int) -> Iterator[tuple[str, str, int]]:
    """All runs, seed after seed, first of the kinds of all levels."""
    for first in (True, False):
        for seed in range(1, seeds + 1):
            for kind, it in KINDS.items():
                for level in it.levels if (it.levels == ALL) == first else ():
                    yield kind, level, seed


def _has(words: list[str], name: str) -> bool:
    return any(it in name for it in words)


def main() -> int:
    """Runs what is missing, one after another, and writes."""
    words = argparse.ArgumentParser("python3 -m tools.peers", description=__doc__)
    words.add_argument("folder", type=Path)
    words.add_argument("--seconds", type=int, default=3600)
    words.add_argument("--seeds", type=int, default=5)
    words.add_argument("--only", default="", help="words, with commas between")
    words.add_argument("--write", action="store_true", help="write docs/trust/PEERS.md")
    given = words.parse_args()
    only: list[str] = given.only.split(",")
    folder: Path = given.folder
    folder.mkdir(parents=True, exist_ok=True)
    for kind, level, seed in runs(given.seeds):
        name = tables.name_of(kind, level, seed)
        if not _has(only, kind) or (folder / f"{name}.ticks.gz").exists():
            continue
        start = time.perf_counter()
        run(folder, kind, level, seed, given.seconds)
        print(f"{name}: {time.perf_counter() - start:.0f} s", flush=True)
    if given.write:
        found = tables.Runs(folder, given.seeds)
        made = {head: of(found) for head, of in TABLES.items() if _has(only, head)}
        tables.write(TOP / "docs/trust/PEERS.md", made)
    return 0


if __name__ == "__main__":
    sys.exit(main())
