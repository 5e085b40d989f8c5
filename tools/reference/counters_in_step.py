"""Tests of the laws of local counters that come into step, on the runs at random of `test_coordination.py`.

`crates/tsb_coord/specs/Laws.antt` and `crates/tsb_laws/specs/InStep.antt` have what is tested: where a pattern is
selected while another one runs its local counter goes on from where that one stood, but with correction mode 0; from
tick to tick it takes at most one step, or two by the short way; it is in step after as many ticks as its mode and limit
need; and once it is in step it stays so, and is the counter of the cycle and the offset. In these runs the plan stays.
"""
from dataclasses import dataclass, field
from typing import Any

State = Any
DWELL, SHORT_WAY = 1, 2


def in_step(state: State) -> int:
    """The local counter of the pattern that runs, if it were in step: by the cycle and the offset alone."""
    cycle = 10 * state.plan["patternCycleTime"][state.pattern]
    return int((state.now - 10 * state.plan["patternOffsetTime"][state.pattern]) % cycle)


def long_enough(bench: Any, state: State) -> int:
    """How many ticks after the selection a counter is in step at the latest, by its mode and its limit."""
    mode, limit = bench.correction(state)
    cycle, ahead = 10 * state.plan["patternCycleTime"][state.pattern], state.ahead
    if mode == 0 or ahead == 0:
        return 0
    if mode == DWELL:
        most = max(1, cycle * limit // 100) if limit else cycle
        pattern = bench.Pattern(state.plan, state.lim, state.pattern)
        way = (pattern.fo[pattern.first] - 1 - bench.local_at(state, state.since)) % cycle
        return int(way + (ahead - 1) // most * (cycle + most) + (ahead - 1) % most + 1)
    if mode == SHORT_WAY and 2 * ahead > cycle:
        return int(-(-(cycle - ahead) * (100 - limit) // limit))
    return int(-(-ahead * (100 + limit) // limit))


@dataclass
class Counters:
    """Of runs: how many selections went on, how many of their counters came into step, and what was broken."""

    begun: int = 0
    arrived: int = 0
    broken: list[str] = field(default_factory=list)

    def told(self) -> str:
        """As it is printed."""
        some = f", as {self.broken[0]}" if self.broken else ""
        return (f"{self.begun} selections went on, and {self.arrived} of their counters came into step: "
                f"{len(self.broken)} breaches{some}")

    def breach(self, seed: int, state: State, what: str) -> None:
        """Keeps what was broken."""
        self.broken.append(f"pattern {state.pattern} of seed {seed} in tick {state.now}: {what}")

    def select(self, bench: Any, seed: int, before: State, after: State) -> None:
        """A selection: whether the counter goes on where it has to, and is in step where not."""
        cycle = 10 * after.plan["patternCycleTime"][after.pattern]
        stood = bench.local_of(before)
        goes_on = stood is not None and bench.correction(before)[0] != 0
        wanted = stood % cycle if goes_on else in_step(after)
        self.begun += wanted != in_step(after)
        if bench.local_of(after) != wanted:
            self.breach(seed, after, "the counter does not go on")

    def see(self, bench: Any, seed: int, before: State, after: State) -> None:
        """A tick: how many steps the counter takes, and whether it comes into step in time and stays so."""
        cycle, mode = 10 * after.plan["patternCycleTime"][after.pattern], bench.correction(after)[0]
        was, now = bench.local_of(before) == in_step(before), bench.local_of(after) == in_step(after)
        self.arrived += now and not was
        if (bench.local_of(after) - bench.local_of(before)) % cycle > (2 if mode == SHORT_WAY else 1):
            self.breach(seed, after, "it jumps")
        if was and not now:
            self.breach(seed, after, "it leaves step")
        if not now and after.now - after.since >= long_enough(bench, after):
            self.breach(seed, after, "it is late")
