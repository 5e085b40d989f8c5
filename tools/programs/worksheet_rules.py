"""What `tsb_field worksheet` writes, read a second time: from docs/use/FIELD.md, "The worksheet", and the plan's JSON, and
from nothing of the crates.
"""
from collections.abc import Iterator

from tools.programs.review_rules import OMITTED, OVERLAPS, PATTERNS, PHASES, PREEMPTS, Plan, Table


def time(tenths: int) -> str:
    """A time in seconds with their tenth, and a minus below 0."""
    return f"{'-' if tenths < 0 else ''}{abs(tenths) // 10}.{abs(tenths) % 10}"


class Worksheet(Plan):
    """A plan, as its worksheet sees it. Times are in tenths of a second."""

    def left(self, preempt: int, phase: int) -> int:
        """The walk and the clearance of a phase that a preempt leaves."""
        walk = min(self.phase("Walk", phase), self.value("preemptMinimumWalk", preempt))
        return 10 * (walk + min(self.phase("PedestrianClear", phase), self.value("preemptEnterPedClear", preempt)))

    def revert(self, phase: int) -> int:
        """The red revert of a phase."""
        return max(self.phase("RedRevert", phase), self.value("unitRedRevert", 1))

    def trail(self, phase: int) -> int:
        """The longest yellow and red clearance of an overlap that trails a phase."""
        return max((self.value("overlapTrailYellow", o) + self.value("overlapTrailRed", o) for o in OVERLAPS
                    if self.value("overlapTrailGreen", o) and self.value("overlapIncludedPhases", o) >> phase - 1 & 1), default=0)

    def waits(self, phase: int) -> int:
        """How long a phase is waited for while another one may be green: a trail may begin late in its clearance."""
        trail = self.trail(phase)
        return max(max(self.leaving(phase), trail) + trail, self.revert(phase))

    def entry(self, preempt: int) -> int:
        """The longest entry of a preempt."""
        walks = max(self.left(preempt, p) for p in PHASES)
        reverts = max(map(self.revert, PHASES))
        clears = max(reverts, *map(self.trail, PHASES), *map(self.leaving, PHASES))
        green = 10 * self.value("preemptMinimumGreen", preempt) + 1
        if self.value("preemptChoosesAnew", preempt) and not any(self.value("overlapIncludedPhases", o) for o in OVERLAPS):
            return max(walks, green, reverts) + clears + 4
        return max(walks, max(map(self.waits, PHASES)) + green) + clears + 4

    def instant(self, pattern: int, phase: int) -> int:
        """The force-off instant of a phase: from the end of the split of the coordinated phase of ring 1, or else of the
        first coordinated one."""
        of = [p for p in PHASES if self.coordinated(pattern, p)]
        counted_from = min(of, key=lambda p: (self.phase("Ring", p) != 1, p))
        end = self.split_end(pattern, phase) - self.split_end(pattern, counted_from)
        return (end - self.leaving(phase)) % (10 * self.value("patternCycleTime", pattern))


def preempts(plan: Worksheet) -> Iterator[str]:
    """The lines of preempts with dwell phases."""
    for n in PREEMPTS:
        if plan.value("preemptDwellPhase", n):
            delay = 10 * plan.value("preemptDelay", n)
            yield f"preempt {n}: delay {time(delay)} s, longest entry {time(plan.entry(n))} s"


def patterns(plan: Worksheet) -> Iterator[str]:
    """The lines of the phases that used patterns serve."""
    for n in PATTERNS:
        for p in plan.enabled if n in plan.patterns else []:
            if plan.mode(n, p) == OMITTED:
                continue
            green = plan.green(n, p)
            line = f"pattern {n}, phase {p}: split {time(10 * plan.split('Time', n, p))} s, green {time(green)} s, " \
                   f"force-off at {time(plan.instant(n, p))} s"
            if plan.walks(p):
                needs = plan.crossing(p)
                line += f", walk and clearance {time(needs)} s, margin {time(green - needs)} s"
            yield line


def worksheet(text: Table) -> str:
    """The lines of a worksheet."""
    plan = Worksheet(text)
    return "".join(f"{line}\n" for line in [*preempts(plan), *patterns(plan)])
