"""Tests of the laws of walks that begin within a green, on the runs at random of `test_coordination.py`.

`crates/tsb_laws/specs/RecycledWalks.antt` has what is tested: a coordinated phase with pedestrian recycle walks
again where it is forced off in none of the ticks that its walk and its pedestrian clearance take, and where the local
counter was in step, and no other walk begins within a green; and such a walk is over in the tick in which its phase is
next forced off. In these runs no preempt is in service, plan and pattern stay, and nothing trips.
"""
from dataclasses import dataclass, field
from typing import Any

State = Any
Row = tuple[tuple[bool, ...], ...]


class ForceOffs:
    """When the coordinated phases of pattern 1 are forced off, once its local counter is in step."""

    def __init__(self, bench: Any, state: State):
        pattern = bench.Pattern(state.plan, state.lim, 1)
        self.cycle, self.start = pattern.cycle, 10 * state.plan["patternOffsetTime"][1]
        permissive = 10 * state.plan["patternPermissiveTime"][1]
        self.ahead: dict[int, list[int]] = {}
        for p in pattern.coord:
            off = [(local - pattern.fo[p]) % self.cycle <= permissive for local in range(self.cycle)]
            self.ahead[p] = self.ticks_ahead(off)

    def ticks_ahead(self, off: list[bool]) -> list[int]:
        """Of each tick of the cycle, how many ticks later the next is in which the phase is forced off."""
        ahead = [0] * self.cycle
        for k in range(2 * self.cycle - 1, -1, -1):
            local = k % self.cycle
            ahead[local] = 0 if off[local] else ahead[(local + 1) % self.cycle] + 1
        return ahead

    def after(self, p: int, tick: int) -> int:
        """How many ticks after this one p is next forced off; 0 where it is in this one."""
        return self.ahead[p][(tick - self.start) % self.cycle]


@dataclass
class Walks:
    """Of runs: how many walks began within a green, how many took all that was left, how many ended; what was broken."""

    begun: int = 0
    exact: int = 0
    over: int = 0
    broken: list[str] = field(default_factory=list)

    def told(self) -> str:
        """As it is printed."""
        some = f", as {self.broken[0]}" if self.broken else ""
        return (f"{self.begun} walks began within a green, {self.exact} of them with no tick to spare, and {self.over} were "
                f"forced off behind them: {len(self.broken)} breaches{some}")


class Watch:
    """The walks of one run."""

    def __init__(self, bench: Any, seed: int, state: State, walks: Walks):
        self.bench, self.seed, self.walks = bench, seed, walks
        self.offs = ForceOffs(bench, state)
        self.walked: set[int] = set()

    def broken(self, p: int, tick: int, what: str) -> None:
        """Keeps what was broken."""
        self.walks.broken.append(f"phase {p} of seed {self.seed} in tick {tick}: {what}")

    def is_called(self, before: State, row: Row, p: int) -> bool:
        """Whether p has a pedestrian call in the tick: by its memory, by a button that is on, or by recall."""
        plan = before.plan
        pressed = any(on and plan["pedestrianDetectorCallPhase"][d] == p for d, on in enumerate(row[1], 1))
        return plan["phaseWalk"][p] > 0 and bool(before.pmem[p] or pressed or plan["phasePedRecall"][p])

    def is_at_limit(self, before: State) -> bool:
        """Whether in the next tick a walk of some phase would take all that is left, or a tick more."""
        plan = before.plan
        spare = (self.offs.after(p, before.now + 1) - 10 * (plan["phaseWalk"][p] + plan["phasePedestrianClear"][p])
                 for p in self.offs.ahead)
        return any(it in (0, -1) for it in spare)

    def see(self, before: State, after: State, row: Row) -> None:
        """A tick of the run."""
        for p in self.offs.ahead:
            self.see_begin(before, after, row, p)
            self.see_end(before, after, p)

    def see_begin(self, before: State, after: State, row: Row, p: int) -> None:
        """Whether a walk of p begins within a green where it should, and only there: not where a force-off is in force."""
        bench, plan = self.bench, before.plan
        if before.interval[p] != bench.G or before.ped[p] != bench.DW:
            return
        time, left = 10 * (plan["phaseWalk"][p] + plan["phasePedestrianClear"][p]), self.offs.after(p, after.now)
        stands = before.forced[p] and (after.forced[p] or after.interval[p] != bench.G)
        may = plan["phasePedestrianRecycle"][p] and self.is_called(before, row, p) and left >= time and not stands
        may = may and bench.ahead_at(before, before.now) == 0
        walks = after.ped[p] == bench.W
        if walks != bool(may):
            self.broken(p, after.now, "a walk that may not begin" if walks else "no walk, though one may begin")
        elif walks:
            self.walks.begun += 1
            self.walks.exact += left == time
            self.walked.add(p)
            if after.pmem[p]:
                self.broken(p, after.now, "its button is not forgotten")

    def see_end(self, before: State, after: State, p: int) -> None:
        """Whether a walk that began within a green is over where its phase is forced off."""
        if p not in self.walked or before.plan["phaseRestInWalk"][p]:
            return
        if self.offs.after(p, after.now) == 0:
            self.walked.discard(p)
            self.walks.over += 1
            if before.interval[p] != self.bench.G or after.ped[p] != self.bench.DW:
                self.broken(p, after.now, "it is not over")
