"""A plan of up to eight phases with the defaults of practice, to begin with.

docs/use/PYTHON.md, "A plan to begin with", has its words and its values.
"""

import argparse
import sys
from collections.abc import Iterator, Mapping, Sequence
from dataclasses import dataclass
from functools import cached_property
from pathlib import Path
from typing import NoReturn

from tsb import programs
from tsb.options import Words, called
from tsb.plan import OK, Plan
from tsb.values import seconds

PROGRAM = called("new")
PHASES = range(1, 9)
RINGS = SIDES = (1, 2)
YELLOW, RED_REVERT = seconds(4.0), seconds(2.0)
#: Splits of table 1 and sequence 1 make pattern 1.
PATTERN = TABLE = SEQUENCE = 1
LATE, SHORT_WAY = 1, 2  # coordForceMode, coordCorrectionMode
PERCENT = 17  # of the cycle, by which it is longer or shorter at most
PERMISSIVE = seconds(5)


@dataclass(frozen=True)
class Kind:
    """What phases of a kind have, in seconds: what is 0 they don't have."""

    split: int
    minimum_green: int
    maximum_1: int
    maximum_2: int
    passage: float
    red_clearance: float
    walk: int = 0
    pedestrian_clearance: int = 0


# Cars that turn left are slower than those that go through, so they clear later. Who
# walks along the main street crosses the other one, which is narrower: 52 feet, not 70.
# A through's split holds walk and clearance; a left turn's has the permissive time more
# than its minimum green.
MAIN = Kind(45, 10, 40, 60, 3.0, 1.5, 7, 15)
SIDE = Kind(33, 7, 30, 40, 2.5, 1.5, 7, 20)
LEFT = Kind(16, 5, 20, 25, 2.0, 2.0)

#: What to fill in: the objects, and what their values come from.
FILL_IN = [
    ("phaseYellowChange", "speed of the approach, grade"),
    ("phaseRedClear", "speed, distance through the intersection"),
    ("phasePedestrianClear", "distance from curb to curb, at 3.5 feet a second"),
    ("phasePassage, phaseMinimumGap", "length and distance of the detectors, speed"),
    (
        "vehicleDetectorCallPhase, pedestrianDetectorCallPhase",
        "channels of the cabinet (now n calls phase n)",
    ),
    (
        "patternCycleTime, patternOffsetTime, splitTime",
        "counts of vehicles, distances to the next signals",
    ),
]
#: What a review says once these are filled in.
LONGER = [
    "No advice asks for these, since a plan has no speeds and distances. But as they",
    "grow, a review says what no longer fits: a walk in its split (A12) or its",
    "maximum (A13), a minimum green in its split (A27, A43).",
]


@dataclass(frozen=True)
class Choice:
    """The phases of a plan: throughs, which have crosswalks, and lefts."""

    throughs: frozenset[int]
    lefts: frozenset[int]

    @property
    def phases(self) -> list[int]:
        """All of them."""
        return sorted(self.throughs | self.lefts)

    def order(self, ring: int, side: int) -> list[int]:
        """The phases of a ring on a side as they are served: lefts first."""
        of = [it for it in self.phases if (ring_of(it), side_of(it)) == (ring, side)]
        return sorted(of, key=lambda it: (it in self.throughs, it))

    @cached_property
    def main_side(self) -> int:
        """The side of the main street: the first with a through, or else the first."""
        has_through = {side_of(it) for it in self.throughs}
        return min(has_through or map(side_of, self.phases))

    @cached_property
    def main(self) -> list[int]:
        """The main street's phases: of each ring the last one on its side. They are
        coordinated, and on minimum recall."""
        return self.last_of(self.main_side)

    def last_of(self, side: int) -> list[int]:
        """Of each ring its last phase on a side: a through, if there is one."""
        orders = (self.order(ring, side) for ring in RINGS)
        return [it[-1] for it in orders if it]

    def kind(self, phase: int) -> Kind:
        """The kind of a phase."""
        if phase in self.lefts:
            return LEFT
        return MAIN if side_of(phase) == self.main_side else SIDE

    def splits(self) -> Mapping[int, int]:
        """The split of each phase: those of a side have one sum in both rings. A
        ring's last phase there has what its others leave."""
        found = {it: self.kind(it).split for it in self.phases}
        for side in SIDES:
            length = self.length(side)
            for ring in RINGS:
                if order := self.order(ring, side):
                    found[order[-1]] += length - sum(found[it] for it in order)
        return found

    def length(self, side: int) -> int:
        """The seconds of a side in the cycle: those of the ring that needs more."""
        return max(
            sum(self.kind(it).split for it in self.order(ring, side)) for ring in RINGS
        )

    def __str__(self) -> str:
        parts = (("through", self.throughs), ("left", self.lefts))
        return ", ".join(
            f"{name} {' '.join(map(str, sorted(of)))}" for name, of in parts if of
        )


def ring_of(phase: int) -> int:
    """The ring of a phase: 1 to 4 are in ring 1, 5 to 8 in ring 2."""
    return 1 if phase <= 4 else 2


def side_of(phase: int) -> int:
    """Its side of the barriers: 1 and 2 beside 5 and 6, 3 and 4 beside 7 and 8."""
    return 1 if phase in (1, 2, 5, 6) else 2


def plan_of(choice: Choice) -> Plan:
    """The plan of phases; all that is not given is 0."""
    plan = Plan()
    _place(plan, choice)
    _time(plan, choice)
    _detect(plan, choice)
    _coordinate(plan, choice)
    return plan


def _place(plan: Plan, choice: Choice) -> None:
    """Rings, sides, concurrency and the sequence."""
    phases = choice.phases
    plan["phaseEnabled"] = dict.fromkeys(phases, 1)
    plan["phaseRing"] = {it: ring_of(it) for it in phases}
    plan["phaseSide"] = {it: side_of(it) for it in phases}
    plan["phaseConcurrency"] = {
        it: {
            other for other in phases
            if side_of(other) == side_of(it) and ring_of(other) != ring_of(it)
        }
        for it in phases
    }  # fmt: skip
    for ring in RINGS:
        order = [it for side in SIDES for it in choice.order(ring, side)]
        plan.set_sequence(SEQUENCE, ring, order)


def _time(plan: Plan, choice: Choice) -> None:
    """Greens, gaps, clearances and walks. A minimum gap that is the passage has no
    volume density: no gap is reduced."""
    for phase in choice.phases:
        kind = choice.kind(phase)
        for name, value in (
            ("phaseMinimumGreen", kind.minimum_green),
            ("phaseMaximum1", kind.maximum_1),
            ("phaseMaximum2", kind.maximum_2),
            ("phasePassage", kind.passage),
            ("phaseMinimumGap", kind.passage),
            ("phaseRedClear", kind.red_clearance),
            ("phaseWalk", kind.walk),
            ("phasePedestrianClear", kind.pedestrian_clearance),
        ):
            plan[name][phase] = seconds(value)
        plan["phaseYellowChange"][phase] = YELLOW
    plan["unitRedRevert"][1] = RED_REVERT


def _detect(plan: Plan, choice: Choice) -> None:
    """Detectors, and how calls come about: detector n calls phase n, and so does
    button n. Calls of lefts are not remembered, since who is gone needs no arrow.
    Both rings gap out together to cross a barrier: `phaseSimGapDisable` is 0."""
    plan["vehicleDetectorCallPhase"] = {it: it for it in choice.phases}
    plan["pedestrianDetectorCallPhase"] = {it: it for it in choice.throughs}
    plan["phaseNonLock"] = dict.fromkeys(choice.lefts, 1)
    plan["phaseMinRecall"] = dict.fromkeys(choice.main, 1)
    # (a plan of lefts alone has dual entry for these)
    for side in {side_of(it) for it in choice.throughs or choice.phases}:
        for phase in choice.last_of(side):
            plan["phaseDualEntry"][phase] = 1


def _coordinate(plan: Plan, choice: Choice) -> None:
    """The options of coordination, and a pattern."""
    plan["coordForceMode"][1] = LATE
    plan["coordCorrectionMode"][1] = SHORT_WAY
    plan["coordCorrectionLimit"][1] = PERCENT
    plan["patternCycleTime"][PATTERN] = sum(map(choice.length, SIDES))
    plan["patternSplitNumber"][PATTERN] = TABLE
    plan["patternSequenceNumber"][PATTERN] = SEQUENCE
    plan["patternPermissiveTime"][PATTERN] = PERMISSIVE
    for phase, split in choice.splits().items():
        plan["splitTime"][TABLE, phase] = split
    for phase in choice.main:
        plan["splitCoordPhase"][TABLE, phase] = 1


class _Words(Words):
    """Words. A bad one ends the program with status 2, and its fault is one line."""

    def error(self, message: str) -> NoReturn:
        self.exit(2, f"{self.prog}: {self.with_nearest(message)}\n")


def read_words(words: Sequence[str]) -> tuple[Choice, Path]:
    """The phases that the words choose, and the file for their plan."""
    known = _Words(
        prog=PROGRAM,
        description="Writes a plan of up to eight phases with the defaults of practice,"
        " which `tsb check` passes.",
        epilog='docs/use/PYTHON.md, "A plan to begin with", has its values.',
        allow_abbrev=False,
    )
    for name, which in (
        ("phases", "through phases, each with a crosswalk"),
        ("lefts", "left turn phases, without one"),
    ):
        known.add_argument(
            f"--{name}", type=_listed, default=[], metavar="N,N,..", help=which
        )
    known.add_argument("--out", type=Path, required=True, metavar="PLAN")
    given = known.parse_args(words)
    chosen = [*given.phases, *given.lefts]
    if not chosen:
        known.error("name a phase of 1 to 8 by --phases or --lefts, at least")
    if twice := sorted({it for it in chosen if chosen.count(it) > 1}):
        known.error(f"phase {twice[0]} is named twice")
    return Choice(frozenset(given.phases), frozenset(given.lefts)), given.out


def _listed(text: str) -> list[int]:
    """The phases of a list as `2,4,6,8`."""
    parts = [it.strip() for it in text.split(",")]
    if wrong := [it for it in parts if it not in map(str, PHASES)]:
        raise argparse.ArgumentTypeError(f"{wrong[0]!r} is no phase of 1 to 8")
    return list(map(int, parts))


def main(words: Sequence[str]) -> int:
    """Carries out `python3 -m tsb new ..`; its status: 1 where the plan can't be
    written or a program is missing, 2 for bad words."""
    choice, out = read_words(words)
    plan = plan_of(choice)
    plan.check()
    programs.find("tsb_field")
    try:
        with out.open("x", encoding="utf-8") as file:
            file.write(plan.text)
    except FileExistsError:
        print(f"{PROGRAM}: {out}: there is such a file: name another", file=sys.stderr)
        return 1
    except OSError as fault:
        print(f"{PROGRAM}: {out}: {fault.strerror or fault}", file=sys.stderr)
        return 1
    review = programs.run("tsb_field", ["review", out]).stdout.decode().splitlines()
    print("\n".join(closing(out, choice, plan, review)))
    return 0


def closing(
    out: Path, choice: Choice, plan: Plan, review: Sequence[str]
) -> Iterator[str]:
    """What was written, and what is left to fill in."""
    cycle = plan["patternCycleTime"][PATTERN]
    said = f"{len(review)} advices" if review else "no advice"
    yield f"{out}: {choice}; pattern {PATTERN} has a cycle of {cycle} s"
    yield f"tsb check: {OK}; tsb_field review: {said}"
    yield from (f"  {line}" for line in review)
    yield "Fill in what only the street can say; these values hold its place:"
    yield from (f"  {objects}: {what}" for objects, what in FILL_IN)
    yield from LONGER
