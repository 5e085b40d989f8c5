"""The tables of docs/trust/PEERS.md on the options of coordination: of the runs that
tools/peers keeps in a folder, and of short ones without SUMO, whose inputs are told
beforehand."""

import statistics
from collections.abc import Callable, Iterator, Mapping, Sequence
from dataclasses import dataclass, field

from tools.peers.tables import GROUPS, Runs, counted, spread, table
from tsb.bench import Bench
from tsb.sumo import crossroads, peers

TICKS = 4500
ALL_ON = "11111111"
INSTANT = 1485  # the tick of the second cycle in which the main street yields
MOST = [f"longest {it}" for it in GROUPS] + ["without 2 and 6"]

Objects = Mapping[str, Mapping[int, int]]
Commands = Mapping[int, str]

# The options of each setting. A maximum of "maximum" is about the green of its split,
# but that of phases 3 and 7 is what their cars need: walks of 4 and 8 begin sooner. With
# "recall" 3 and 7 are called besides, so that both of these walks begin together.
LATE: Objects = {"coordForceMode": {1: 1}}
MAXIMUMS = {1: 13, 2: 45, 3: 8, 4: 25, 5: 13, 6: 45, 7: 8, 8: 25}
MAXIMUM: Objects = {"coordMaximumMode": {1: 2}, "phaseMaximum2": MAXIMUMS}
SETTINGS: Mapping[str, Objects] = {
    "none": {},
    "late": LATE,
    "permissive": {**LATE, "patternPermissiveTime": {1: 40}},
    "maximum": MAXIMUM,
    "recall": {**MAXIMUM, "phaseMinRecall": dict.fromkeys((2, 3, 6, 7), 1)},
}
# With SUMO: a level, the kind of SUMO's controller beside it if there is one, and the
# kinds of the bench by their setting.
PATTERN = {
    "none": "tsb pattern",
    "late": "tsb late",
    "permissive": "tsb permissive",
}
BUTTONS = {
    "none": "tsb buttons",
    "late": "tsb late buttons",
    "maximum": "tsb maximum buttons",
    "recall": "tsb recall buttons",
}
LOOPS = [
    ("light", "sumo pattern", PATTERN),
    ("medium", "sumo pattern", PATTERN),
    ("heavy", "sumo pattern", PATTERN),
    ("heavy", "", BUTTONS),
]


@dataclass(frozen=True)
class Case:
    """Objects that the plan has besides, and the commands that come after a tick."""

    name: str
    objects: Objects = field(default_factory=dict)
    commands: Commands = field(default_factory=lambda: {0: "pattern 1"})


CASES = [
    Case("pattern from power-up on"),
    Case(
        "a walk of 7 + 36 s on phase 4 in each cycle",
        {
            "phaseWalk": {4: 7},
            "phasePedestrianClear": {4: 36},
            "phasePedRecall": {4: 1},
        },
    ),
    Case("pattern selected behind tick 800", commands={800: "pattern 1"}),
    Case(
        "a preempt from tick 1601 to 2000, with exit to 4 and 8",
        {"preemptExitPhase": {1: 136}},
        {0: "pattern 1", 1600: "preempt 1 on", 2000: "preempt 1 off"},
    ),
]


def _heads(case: Case, setting: str, on: Callable[[int], str]) -> list[str]:
    """The heads of a bench whose detectors are on as told for each tick."""
    plan, heads = crossroads.plan(pattern=True, **SETTINGS[setting]), []
    for name, values in case.objects.items():
        plan[name] = dict(values)
    with Bench(plan, events=False) as bench:
        for tick in range(1, TICKS + 1):
            if tick - 1 in case.commands:
                bench.give(case.commands[tick - 1])
            heads.append(bench.tick(on(tick)).vehicles[:8])
    return heads


def _wait(setting: str, late: int) -> float:
    """The seconds that the only call waits, which is on phase 8 and stays: it comes so
    many ticks after the instant of the main street."""
    first = INSTANT + late
    heads = _heads(CASES[0], setting, lambda tick: f"{tick >= first:08b}")
    green = next(tick for tick, it in enumerate(heads, 1) if it[7] == "G")
    return (green - first) / 10


def _longest(greens: Sequence[peers.Green]) -> list[float]:
    """The seconds of the longest green of each group of phases."""
    return [
        max((it.ticks for it in greens if it.phase in phases), default=0) / 10
        for phases in GROUPS.values()
    ]


def _full(case: Case, setting: str) -> list[float]:
    """With cars on all detectors: the longest greens, and the longest time without
    phases 2 and 6, in seconds."""
    heads = _heads(case, setting, lambda _: ALL_ON)
    greens = list(peers.greens([ALL_ON] * TICKS, heads, crossroads.plan()))
    return [*_longest(greens), peers.longest_without(heads, (2, 6)) / 10]


@dataclass(frozen=True)
class Hours:
    """Runs of a kind at a level: of each seed what a car lost, and as `_full` the
    longest greens and the longest time, in seconds."""

    kind: str
    lost: list[float]
    most: list[list[float]]

    @property
    def mean(self) -> float:
        """What a car lost in the mean."""
        return statistics.mean(self.lost)

    @property
    def green(self) -> float:
        """The longest green of left turns and of the side street."""
        return max(max(it[0], it[2]) for it in self.most)


@dataclass(frozen=True)
class Compared:
    """What is compared at a level: SUMO's controller if it is there, and the bench by
    its settings."""

    level: str
    sumo: Hours | None
    settings: dict[str, Hours]

    @property
    def name(self) -> str:
        """What these runs are called."""
        pressed = "buttons" in self.settings["none"].kind
        return f"{self.level}{', buttons' if pressed else ''}"


def _hours(runs: Runs, level: str, kind: str, seeds: list[int]) -> Hours:
    most = [
        _longest(runs.greens(kind, level, [it])) + runs.without_main(kind, level, [it])
        for it in seeds
    ]
    return Hours(kind, runs.lost(kind, level, seeds, "car"), most)


def _compared(runs: Runs) -> Iterator[Compared]:
    """All that is compared, with the seeds that have a run of each kind."""
    for level, sumo, kinds in LOOPS:
        names = [it for it in (sumo, *kinds.values()) if it]
        if seeds := runs.seeds(level, *names):
            beside = _hours(runs, level, sumo, seeds) if sumo else None
            of = {name: _hours(runs, level, it, seeds) for name, it in kinds.items()}
            yield Compared(level, beside, of)


def _loops(found: Sequence[Compared]) -> str:
    """The table of runs with SUMO."""
    rows: list[list[object]] = []
    for of in found:
        base = of.settings["none"]
        for it in [*([of.sumo] if of.sumo else []), *of.settings.values()]:
            pairs = zip(it.lost, base.lost, strict=True)
            rows.append(
                [
                    f"{of.level}, {counted(it.lost)}",
                    it.kind,
                    spread(it.lost),
                    "" if it is base else spread([a - b for a, b in pairs]),
                    *(spread(seconds) for seconds in zip(*it.most, strict=True)),
                ]
            )
    return table(["", "", "lost, car", "more than with none", *MOST], rows)


def _limit(name: str, limit: float, values: Mapping[str, float]) -> list[object]:
    """A row: the limit, what there is with each setting, and those that meet it."""
    met = [it for it, value in values.items() if value <= limit]
    said = [f"{values[it]:.1f}" if it in values else "" for it in SETTINGS]
    return [name, f"{limit:.1f}", *said, ", ".join(met)]


def _limits(
    full: Mapping[str, Sequence[list[float]]],
    late: Mapping[str, float],
    found: Sequence[Compared],
) -> str:
    """The table of limits. `full` has each setting and case, `late` the wait of the
    late call with each setting."""
    all_on = {name: max(max(it[:-1]) for it in of) for name, of in full.items()}
    rows = [
        _limit("longest green, cars on all detectors", 50, all_on),
        _limit("wait of the call a tick later", 6, late),
    ]
    for of in found:
        greens = {name: it.green for name, it in of.settings.items()}
        rows.append(_limit(f"longest green of left and side, {of.name}", 50, greens))
    for of in found:
        means = {name: it.mean for name, it in of.settings.items()}
        if of.sumo is None:
            rows.append(_limit(f"lost, {of.name}", 56, means))
        elif of.level == "light":
            rows.append(_limit("lost, light; the limit is SUMO's", of.sumo.mean, means))
    return table(["seconds", "limit", *SETTINGS, "met with"], rows)


def figures(runs: Runs) -> str:
    """All of it, of the runs that there are."""
    full = {name: [_full(case, name) for case in CASES] for name in SETTINGS}
    waits = [{name: _wait(name, late) for name in SETTINGS} for late in (0, 1)]
    found = list(_compared(runs))
    cases = [
        [case.name, name, *(f"{it:.1f}" for it in full[name][at])]
        for at, case in enumerate(CASES)
        for name in SETTINGS
    ]
    calls = [
        [name, *(f"{it:.1f}" for it in of.values())]
        for name, of in zip(("at the instant", "a tick later"), waits, strict=True)
    ]
    return "\n\n".join(
        [
            "Without SUMO, cars on all detectors for 450 s; in seconds:",
            table(["", "options", *MOST], cases),
            "Without SUMO, a call on phase 8 alone; the seconds until it is green:",
            table(["it comes", *SETTINGS], calls),
            *(["With SUMO; in seconds:", _loops(found)] if found else []),
            "What was to be reached:",
            _limits(full, waits[1], found),
        ]
    )
