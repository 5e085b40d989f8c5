"""The tables of docs/trust/PEERS.md, of the runs that tools/peers keeps in a folder."""

import gzip
import re
import statistics
from collections import Counter
from collections.abc import Callable, Iterable, Mapping, Sequence
from functools import lru_cache
from pathlib import Path

import pandas as pd

from tsb.plan import Plan
from tsb.sumo import crossroads, peers, read_trips

WARM = 300  # seconds: trips that begin earlier do not count
LEVELS = ("light", "medium", "heavy")
BEGIN, END = "<!-- figures: written by tools/peers -->", "<!-- end of figures -->"
GROUPS = {"left": (1, 3, 5, 7), "main": (2, 6), "side": (4, 8)}
CLOSED = ["sumo free", "tsb free", "tsb latched", "sumo pattern", "tsb pattern"]
PAIRS = [("sumo free", "tsb free", "tsb latched"), ("sumo pattern", "tsb pattern")]
# The kinds of one level, each beside those that it is compared with.
OTHERS = [
    ("light", ("sumo unequal", "tsb unequal")),
    ("medium", ("sumo free", "sumo lag", "tsb lag", "tsb lag latched")),
    ("medium", ("tsb free", "tsb walks")),
    ("heavy", ("tsb free", "tsb density")),
]
# Of the open loop: whose rows, the plan that they are given to, and in a pattern.
OPEN = [
    ("sumo free", "free", crossroads.plan(), 0),
    ("sumo free", "latched", crossroads.plan(latched=True), 0),
    ("sumo pattern", "pattern", crossroads.plan(pattern=True), 1),
    ("sumo pattern", "both", crossroads.plan(pattern=True, latched=True), 1),
]
CAUSES = ("choice", "return", "both", "hold", "end", "later")


def name_of(kind: str, level: str, seed: int) -> str:
    """The name of a run's files."""
    return f"{kind.replace(' ', '_')}.{level}.{seed}"


def table(head: Sequence[object], rows: Iterable[Sequence[object]]) -> str:
    """A table of a document."""
    lines = ["| " + " | ".join(map(str, it)) + " |" for it in [head, *rows]]
    return "\n".join([lines[0], "|---" * len(head) + "|", *lines[1:]])


def spread(values: Sequence[float], digits: int = 1) -> str:
    """A mean, and the least and the greatest value; of one, itself."""
    if not values:
        return ""
    found = (statistics.mean(values), min(values), max(values))
    said = [f"{it:.{digits}f}" for it in found]
    return said[0] if said[1] == said[2] else f"{said[0]} ({said[1]} to {said[2]})"


def counted(seeds: Sequence[object]) -> str:
    """How many seeds there are."""
    return f"{len(seeds)} seed{'' if len(seeds) == 1 else 's'}"


class Runs:
    """The runs of a folder."""

    def __init__(self, folder: Path, seeds: int) -> None:
        self._folder, self._seeds = folder, range(1, seeds + 1)

    def _path(self, kind: str, level: str, seed: int, end: str) -> Path:
        return self._folder / f"{name_of(kind, level, seed)}.{end}"

    def seeds(self, level: str, *kinds: str) -> list[int]:
        """The seeds that have a run of each of these kinds."""
        return [
            seed
            for seed in self._seeds
            if all(self._path(it, level, seed, "ticks.gz").exists() for it in kinds)
        ]

    @lru_cache(maxsize=4)
    def ticks(self, kind: str, level: str, seed: int) -> tuple[list[str], list[str]]:
        """The rows of a run, and its heads."""
        with gzip.open(self._path(kind, level, seed, "ticks.gz"), "rt") as file:
            pairs = [it.split() for it in file]
        return [it[0] for it in pairs], [it[1] for it in pairs]

    @lru_cache(maxsize=None)
    def trips(self, kind: str, level: str, seed: int) -> pd.DataFrame:
        """The trips of a run that count."""
        found = read_trips(self._path(kind, level, seed, "trips.xml"))
        return found[(found["arrival"] >= 0) & (found["depart"] >= WARM)]

    def lost(self, kind: str, level: str, seeds: list[int], of: str) -> list[float]:
        """The seconds that a trip lost, for each seed."""
        found = [self.trips(kind, level, it) for it in seeds]
        return [float(it[it["kind"] == of]["lost"].mean()) for it in found]

    def ended(self, kind: str, level: str, seeds: list[int]) -> list[float]:
        """How many trips of cars ended, for each seed."""
        found = [self.trips(kind, level, it) for it in seeds]
        return [float((it["kind"] == "car").sum()) for it in found]

    def without_main(self, kind: str, level: str, seeds: list[int]) -> list[float]:
        """The longest time without a green of phases 2 and 6, in seconds."""
        found = [self.ticks(kind, level, it) for it in seeds]
        return [peers.longest_without(heads, (2, 6)) / 10 for _, heads in found]

    def greens(self, kind: str, level: str, seeds: list[int]) -> list[peers.Green]:
        """All whole greens."""
        plan = crossroads.plan()
        return [
            green
            for seed in seeds
            for green in peers.greens(*self.ticks(kind, level, seed), plan)
        ]


def closed(runs: Runs) -> str:
    """What trips lost, and how many ended."""
    seeds = {it: runs.seeds(it, *CLOSED) for it in LEVELS}
    lost = [
        [kind, *(spread(runs.lost(kind, it, seeds[it], "car")) for it in LEVELS)]
        for kind in CLOSED
    ]
    ended = [
        [kind, *(spread(runs.ended(kind, it, seeds[it]), 0) for it in LEVELS)]
        for kind in CLOSED
    ]
    more = [
        [
            f"{kind}, beside {other}",
            *(_more(runs, kind, other, it, seeds[it]) for it in LEVELS),
        ]
        for other, *kinds in PAIRS
        for kind in kinds
    ]
    head = ["", *(f"{it}, {counted(seeds[it])}" for it in LEVELS)]
    return "\n\n".join(
        [
            "Seconds that a trip lost:",
            table(head, lost),
            "The same, how many seconds more with the same seed:",
            table(head, more),
            "Trips that ended in the hour:",
            table(head, ended),
        ]
    )


def _more(runs: Runs, kind: str, other: str, level: str, seeds: list[int]) -> str:
    """How many seconds more a trip lost than in another kind of runs."""
    pairs = (runs.lost(it, level, seeds, "car") for it in (kind, other))
    return spread([a - b for a, b in zip(*pairs, strict=True)])


def greens(runs: Runs) -> str:
    """How many greens an hour, how long, and how many ended with their gap passed."""
    rows = []
    for level in LEVELS:
        seeds = runs.seeds(level, *CLOSED)
        for kind in CLOSED if seeds else ():
            found, cells = runs.greens(kind, level, seeds), []
            for phases in GROUPS.values():
                of = [it for it in found if it.phase in phases]
                length = statistics.mean(it.ticks for it in of) / 10
                gapped = 100 * sum(it.gapped for it in of) / len(of)
                cells += [
                    f"{len(of) / len(seeds):.0f} of {length:.1f} s, {gapped:.0f} %"
                ]
            rows.append([f"{level}, {counted(seeds)}", kind, *cells])
    return table(["", "", *(f"{name} {it}" for name, it in GROUPS.items())], rows)


def alike(runs: Runs) -> str:
    """The open loop: SUMO's rows given to the bench."""
    rows = []
    for kind, name, plan, pattern in OPEN:
        for level in LEVELS:
            found = [
                _parted(runs, kind, level, seed, plan, pattern)
                for seed in runs.seeds(level, kind)
            ]
            if found:
                of = f"{level}, {counted(found)}"
                rows.append([f"{kind}; {name}", of, *_parts(found)])
    head = ["rows of; plan of tsb", "", "alike, %", "first difference", "spells"]
    return table([*head, *CAUSES], rows)


def _parted(
    runs: Runs, kind: str, level: str, seed: int, plan: Plan, pattern: int
) -> tuple[int, list[peers.Spell]]:
    rows, theirs = runs.ticks(kind, level, seed)
    return len(rows), peers.spells(theirs, peers.answers(rows, plan, pattern))


def _parts(found: Sequence[tuple[int, list[peers.Spell]]]) -> list[object]:
    alike = [100 * (1 - sum(it.ticks for it in of) / ticks) for ticks, of in found]
    first = [of[0].begin if of else ticks + 1 for ticks, of in found]
    counts: Counter[str] = sum((peers.causes(of) for _, of in found), Counter())
    return [
        spread(alike),
        ", ".join(map(str, first)),
        sum(counts.values()),
        *(counts[it] or "" for it in CAUSES),
    ]


def others(runs: Runs) -> str:
    """The kinds of one level each, beside those that they are compared with."""
    rows: list[list[object]] = []
    for level, kinds in OTHERS:
        seeds = runs.seeds(level, *kinds)
        for kind in kinds if seeds else ():
            walks = "walks" in kind
            rows.append(
                [
                    kind,
                    f"{level}, {counted(seeds)}",
                    spread(runs.lost(kind, level, seeds, "car")),
                    spread(runs.lost(kind, level, seeds, "person")) if walks else "",
                    spread(runs.without_main(kind, level, seeds)),
                ]
            )
    return table(["", "", "lost, car", "lost, walk", "longest without 2 and 6"], rows)


TABLES: dict[str, Callable[[Runs], str]] = {
    "Delay and throughput": closed,
    "Greens": greens,
    "SUMO's rows given to tsb": alike,
    "Other plans": others,
}


def write(document: Path, made: Mapping[str, str]) -> None:
    """Writes these tables into the document, between its marks, each with its head. The
    others stay."""
    before, _, rest = document.read_text(encoding="utf-8").partition(BEGIN)
    inside, _, after = rest.partition(END)
    _, *found = re.split(r"^### (.+)\n", inside, flags=re.MULTILINE)
    kept = zip(found[::2], map(str.strip, found[1::2]), strict=True)
    parts = [f"### {head}\n\n{text}\n" for head, text in {**dict(kept), **made}.items()]
    text = "\n".join([f"{before}{BEGIN}\n", *parts, f"{END}{after}"])
    document.write_text(text, encoding="utf-8")
