"""The advices on a plan, read a second time: from docs/use/REVIEW.md and the plan's JSON, and from nothing of the
crates.

`review(plan)` gives the lines that a review of a plan writes. The plan is a plan text of version 3 that meets the rules
of docs/use/MANUAL.md, as Python reads its JSON. Times are kept in tenths of a second.
"""
import calendar
import collections
import json
import re
from collections.abc import Iterator

from tools import TOP

# The objects of plans: those of version 1 come first.
MANUAL = json.loads((TOP / "python/tsb/manual.json").read_text())["objects"]
OBJECTS = sorted(MANUAL, key=lambda name: MANUAL[name]["since"])
PHASES = range(1, 17)
DETECTORS = range(1, 65)
BUTTONS = range(1, 17)
PATTERNS = range(1, 17)
PREEMPTS = range(1, 9)
OVERLAPS = range(1, 17)
ENTRIES = range(1, 33)
DAY_PLANS = range(1, 17)
EVENTS = range(1, 17)
ACTIONS = range(1, 33)
# What an action asks for that selects free operation.
FREE = 254
# The days of the months of a leap year.
MONTHS = {month: calendar.monthrange(2000, month)[1] for month in range(1, 13)}
# What the modes of a split ask for.
MINIMUM, MAXIMUM, WALK, BOTH, OMITTED = 1, 2, 3, 4, 5
# Correction modes that need a limit.
SHORT_WAY, ADD_ONLY = 2, 3
SETTINGS = ["Delay", "Extend", "NoActivity", "MaxPresence", "ErraticCounts", "FailTime"]
# Where phases 1 to 8 stand as usual: the leg that each comes from, and the one that it goes into.
WAYS = {1: ("east", "south"), 2: ("west", "east"), 3: ("south", "west"), 4: ("north", "south"),
        5: ("west", "north"), 6: ("east", "west"), 7: ("north", "east"), 8: ("south", "north")}
# Over which leg the crossing of a through phase lies; the right turn beside it goes into this leg.
CROSSED = {2: "south", 4: "west", 6: "north", 8: "east"}
STREETS = [{"west", "east"}, {"north", "south"}]
AS_SECONDS = "as if it were given in seconds and not in tenths"
TIMES = ["Delay", "MinimumDuration", "MaximumPresence", "MinimumGreen", "MinimumWalk", "EnterPedClear", "TrackGreen"]

Table = dict[str, dict[str, int]]


def seconds(tenths: int) -> str:
    """A time as the lines have it: whole seconds, or with one decimal."""
    whole, rest = divmod(tenths, 10)
    return f"{whole}.{rest}" if rest else f"{whole}"


def listed(patterns: list[int]) -> str:
    """Patterns in which a line is the same."""
    return ", ".join(map(str, patterns))


class Plan:
    """What a plan says, in the words of the manual."""

    def __init__(self, text: Table) -> None:
        self.text = text
        self.enabled = [p for p in PHASES if self.value("phaseEnabled", p)]
        self.patterns = [n for n in PATTERNS if self.value("patternCycleTime", n)]

    def value(self, name: str, index: int) -> int:
        """The value of an object at an index, 0 where the text gives none."""
        return self.text.get(name, {}).get(str(index), 0)

    def phase(self, name: str, phase: int) -> int:
        """The value of an object of phases."""
        return self.value(f"phase{name}", phase)

    def action(self, day_plan: int, event: int) -> int:
        """The action of an event of a day plan, 0 for an event that is not used."""
        return self.value("dayPlanActionNumber", 16 * (day_plan - 1) + event)

    def events(self, day_plan: int) -> list[int]:
        """The events of a day plan that are used."""
        return [k for k in EVENTS if self.action(day_plan, k)]

    def minute(self, day_plan: int, event: int) -> int:
        """At how many minutes after midnight an event comes."""
        index = 16 * (day_plan - 1) + event
        return 60 * self.value("dayPlanHour", index) + self.value("dayPlanMinute", index)

    def pattern_of(self, day_plan: int, event: int) -> int:
        """The pattern that an event selects, 0 for free operation."""
        asked = self.value("timebaseAscPattern", self.action(day_plan, event))
        return 0 if asked == FREE else asked

    def names_date(self, entry: int, month: int, day: int) -> bool:
        """Whether an entry of the schedule names a month, and a day of it."""
        half, bit = (32, day - 16) if day > 15 else (0, day)
        dates = self.value("timeBaseScheduleDate", half + entry)
        return bool(self.value("timeBaseScheduleMonth", entry) >> month & dates >> bit & 1)

    def names_weekday(self, entry: int, weekday: int) -> bool:
        """Whether an entry names a weekday, Sunday 1."""
        return bool(self.value("timeBaseScheduleDay", entry) >> weekday & 1)

    def entries(self, month: int, day: int, weekday: int) -> list[int]:
        """The entries that are used and name a day."""
        return [e for e in ENTRIES if self.value("timeBaseScheduleDayPlan", e)
                and self.names_date(e, month, day) and self.names_weekday(e, weekday)]

    def together(self, phase: int, other: int) -> bool:
        """Whether two phases are concurrent."""
        return bool(self.phase("Concurrency", phase) >> (other - 1) & 1)

    def rivals(self, phase: int) -> list[int]:
        """The enabled phases that conflict with a phase."""
        return [q for q in self.enabled if q != phase and not self.together(phase, q)]

    def detectors(self, phase: int) -> list[int]:
        """The vehicle detectors that call a phase."""
        return [d for d in DETECTORS if self.value("vehicleDetectorCallPhase", d) == phase]

    def has_button(self, phase: int) -> bool:
        """Whether a button calls the walk of a phase."""
        return any(self.value("pedestrianDetectorCallPhase", d) == phase for d in BUTTONS)

    def recycles(self, phase: int) -> bool:
        """Whether a phase has pedestrian recycle."""
        return self.phase("PedestrianRecycle", phase) == 1

    def walks(self, phase: int) -> bool:
        """Whether a phase is enabled and has a walk."""
        return phase in self.enabled and self.phase("Walk", phase) > 0

    def crossing(self, phase: int) -> int:
        """Walk and clearance of a phase."""
        return 10 * (self.phase("Walk", phase) + self.phase("PedestrianClear", phase))

    def maximum(self, phase: int) -> int:
        """The maximum in use."""
        return 10 * self.phase("Maximum2" if self.value("unitMax2", 1) else "Maximum1", phase)

    def own_recall(self, phase: int) -> bool:
        """Whether a phase has a minimum, maximum or pedestrian recall of its own."""
        return any(self.phase(f"{kind}Recall", phase) for kind in ("Min", "Max", "Ped"))

    def any_recall(self, phase: int) -> bool:
        """Whether a phase has a recall or a soft recall of its own."""
        return self.own_recall(phase) or bool(self.phase("SoftRecall", phase))

    # Of a pattern

    def split(self, name: str, pattern: int, phase: int) -> int:
        """The value of an object of splits."""
        return self.value(f"split{name}", 16 * (self.value("patternSplitNumber", pattern) - 1) + phase)

    def mode(self, pattern: int, phase: int) -> int:
        """The mode of the split of a phase."""
        return self.split("Mode", pattern, phase)

    def coordinated(self, pattern: int, phase: int) -> bool:
        """Whether a phase is a coordinated one."""
        return self.split("CoordPhase", pattern, phase) == 1

    def recall(self, pattern: int, phase: int) -> bool:
        """Whether a phase is recalled in a pattern, by itself, by its split or as a coordinated phase."""
        return self.own_recall(phase) or self.coordinated(pattern, phase) or self.mode(pattern, phase) in range(1, 5)

    def leaving(self, phase: int) -> int:
        """Yellow and red clearance."""
        return self.phase("YellowChange", phase) + self.phase("RedClear", phase)

    def green(self, pattern: int, phase: int) -> int:
        """What yellow and red clearance leave of a split."""
        return max(10 * self.split("Time", pattern, phase) - self.leaving(phase), 0)

    def side_time(self, pattern: int, side: int) -> int:
        """How long a cycle is on a side."""
        for ring in (1, 2):
            here = [p for p in self.enabled if self.phase("Side", p) == side and self.phase("Ring", p) == ring]
            if here:
                return sum(10 * self.split("Time", pattern, p) for p in here)
        return 0

    def split_end(self, pattern: int, phase: int) -> int:
        """When the split of a phase ends, from the begin of side 1."""
        side, ring = self.phase("Side", phase), self.phase("Ring", phase)
        first = 32 * (self.value("patternSequenceNumber", pattern) - 1) + 16 * (ring - 1) + 1
        end = sum(self.side_time(pattern, lower) for lower in range(1, side))
        for place in range(first, first + 16):
            listed = self.value("sequenceData", place)
            if listed in self.enabled and self.phase("Side", listed) == side:
                end += 10 * self.split("Time", pattern, listed)
            if listed == phase:
                break
        return end

    def permissive(self, pattern: int) -> int:
        """The permissive time."""
        return 10 * self.value("patternPermissiveTime", pattern)

    def acting_maximum(self, phase: int) -> int | None:
        """The maximum that acts in patterns on a phase that is not coordinated."""
        mode = self.value("coordMaximumMode", 1)
        return 10 * self.phase(f"Maximum{mode}", phase) if mode else None

    def waiting(self, pattern: int, phase: int) -> list[tuple[int, int]]:
        """The phases that wait for a phase, each with its force-off instant from the end of the split of that phase."""
        cycle = 10 * self.value("patternCycleTime", pattern)
        return [(q, (self.split_end(pattern, q) - self.leaving(q) - self.split_end(pattern, phase)) % cycle)
                for q in self.rivals(phase) if not self.coordinated(pattern, q) and self.mode(pattern, q) != OMITTED]

    def passed(self, pattern: int, phase: int, late: int) -> int | None:
        """The first phase that a phase which ends so late makes begin at its force-off instant or after it, and that
        then lasts as long as its demand: with a force mode or a maximum mode there is none."""
        if self.value("coordForceMode", 1) or self.value("coordMaximumMode", 1):
            return None
        return next((q for q, instant in self.waiting(pattern, phase) if instant <= late), None)

    def short(self, pattern: int, phase: int) -> tuple[int, int] | None:
        """The first phase that begins with less than its minimum green left, where a phase yields at the end of its
        permissive time; with the longest permissive time that leaves it so much, in tenths of a second."""
        time = self.permissive(pattern)
        left = ((q, instant - 10 * self.phase("MinimumGreen", q)) for q, instant in self.waiting(pattern, phase))
        return next(((q, max(most, 0)) for q, most in left if most < time), None)

    # Of a preempt and an overlap

    def listed(self, name: str, index: int, phase: int) -> bool:
        """Whether a list has a phase."""
        return bool(self.value(name, index) >> (phase - 1) & 1)


def service(plan: Plan) -> Iterator[tuple[int, str]]:
    """Advices A1 to A7, A52, A55 and A63."""
    for p in plan.enabled:
        called = plan.detectors(p) or plan.has_button(p) or plan.own_recall(p) or plan.phase("SoftRecall", p)
        if not called and not any(plan.recall(n, p) for n in plan.patterns):
            yield 1, f"phase {p}: no detector, button, recall or split mode calls it"
    for d in DETECTORS:
        if not plan.value("vehicleDetectorCallPhase", d) and any(plan.value(f"vehicleDetector{it}", d) for it in SETTINGS):
            yield 2, f"vehicle detector {d}: it calls no phase, so its settings have no effect"

    def apart(p: int) -> list[int]:
        return [q for q in plan.rivals(p) if plan.phase("Side", p) == plan.phase("Side", q)
                and plan.phase("Ring", p) != plan.phase("Ring", q)]

    for p in plan.enabled:
        for q in apart(p):
            if p < q:
                yield 3, (f"phases {p} and {q}: they are on one side and not concurrent, "
                          "so a call of one can wait for ever while the other rests")
    for n in plan.patterns:
        for p in plan.enabled:
            others = [q for q in apart(p) if plan.mode(n, q) != OMITTED]
            if plan.coordinated(n, p) and others:
                yield 4, (f"phase {p}: it is coordinated in pattern {n} and not concurrent with phase {others[0]} of its side, "
                          "so it may never be served")
    for r in (1, 2):
        phases = [p for p in plan.enabled if plan.phase("Ring", p) == r]
        if phases and all(plan.phase("MaxRecall", p) for p in phases):
            yield 5, f"ring {r}: all its phases have maximum recall, so its times are fixed"
    soft = [p for p in plan.enabled if plan.phase("SoftRecall", p)]
    for p in soft:
        if plan.own_recall(p):
            yield 6, f"phase {p}: its soft recall never acts, since another recall calls it at all times"
    pairs = [(a, b) for a in plan.enabled for b in plan.rivals(a) if plan.own_recall(a) and plan.own_recall(b)]
    for p in soft:
        if pairs and not plan.own_recall(p):
            a, b = pairs[0]
            yield 7, (f"phase {p}: its soft recall never acts in free operation, "
                      f"since phases {a} and {b} are recalled and not concurrent")
    for r in (1, 2):
        for s in range(1, 5):
            here = [p for p in plan.enabled if plan.phase("Side", p) == s]
            entries = [p for p in here if plan.phase("DualEntry", p)]
            own = [p for p in entries if plan.phase("Ring", p) == r]
            if any(plan.phase("Ring", p) == r for p in here) and len(own) != 1 and own != entries:
                yield 52, f"ring {r}, side {s}: {len(own)} of its phases have dual entry, not 1, and the other ring has one there"
    if any(plan.phase("Concurrency", p) for p in plan.enabled) and not any(plan.phase("DualEntry", p) for p in plan.enabled):
        yield 63, "unit: no phase has dual entry, so a ring rests in red while the other serves a phase alone"
    for p in plan.enabled:
        called = plan.detectors(p) or plan.has_button(p) or plan.any_recall(p)
        if called and {plan.mode(n, p) for n in plan.patterns} == {OMITTED}:
            yield 55, f"phase {p}: it has calls of its own, and each used pattern omits it, so in coordination they have no effect"


def pedestrians(plan: Plan) -> Iterator[tuple[int, str]]:
    """Advices A8 to A14."""
    walking = [p for p in plan.enabled if plan.walks(p)]
    for p in walking:
        walk = f"phase {p}: its walk of {plan.phase('Walk', p)} s"
        if not plan.phase("PedestrianClear", p):
            yield 8, f"{walk} has no pedestrian clearance"
        if plan.phase("Walk", p) < 4:
            yield 9, f"{walk} is under 4 s"
        modes = [plan.mode(n, p) for n in plan.patterns]
        if not plan.has_button(p) and not plan.phase("PedRecall", p) and not {WALK, BOTH} & set(modes):
            yield 11, f"{walk} is never shown, since no button and no pedestrian recall calls it"
        if plan.detectors(p) and plan.crossing(p) > plan.maximum(p):
            yield 13, (f"phase {p}: its walk and clearance of {seconds(plan.crossing(p))} s are longer than "
                       f"its maximum of {seconds(plan.maximum(p))} s")
    for p in plan.enabled:
        clear = plan.phase("PedestrianClear", p)
        if p not in walking and clear:
            yield 10, f"phase {p}: its pedestrian clearance of {clear} s is never shown, since it has no walk"
    greens: dict[tuple[int, int], list[int]] = collections.defaultdict(list)
    for n in plan.patterns:
        for p in walking:
            if plan.mode(n, p) != OMITTED and plan.crossing(p) > plan.green(n, p):
                greens[p, plan.green(n, p)].append(n)
            clear = plan.phase("PedestrianClear", p)
            passed = plan.passed(n, p, 10 * clear + plan.permissive(n))
            if plan.phase("RestInWalk", p) and plan.coordinated(n, p) and passed:
                yield 14, (f"phase {p}: it rests in walk, and its clearance of {clear} s can end after "
                           f"the force-off of phase {passed} in pattern {n}")
    for (p, green), alike in greens.items():
        yield 12, (f"phase {p}: its walk and clearance of {seconds(plan.crossing(p))} s are longer than the "
                   f"{seconds(green)} s of green that its split leaves in pattern {listed(alike)}")


def clearance(plan: Plan) -> Iterator[tuple[int, str]]:
    """Advices A15, A16 and A57."""
    sides = {plan.phase("Side", p) for p in plan.enabled}
    for p in plan.enabled:
        if 0 < plan.phase("RedClear", p) < 5:
            yield 57, f"phase {p}: its red clearance of {seconds(plan.phase('RedClear', p))} s is under 0.5 s, {AS_SECONDS}"
        on_foot = plan.walks(p) and not plan.detectors(p) and not plan.phase("MinimumGreen", p)
        if not plan.phase("RedClear", p) and not on_foot and len(sides) > 1:
            yield 15, f"phase {p}: its red clearance is 0 s, and phases across the barrier conflict with it"
    for p in plan.enabled:
        revert = max(plan.phase("RedRevert", p), plan.value("unitRedRevert", 1))
        if revert < 20:
            yield 16, f"unit: red reverts are under 2 s, that of phase {p} is {seconds(revert)} s"
            break


def actuation(plan: Plan) -> Iterator[tuple[int, str]]:
    """Advices A17 to A26, A48, A49, A53 and A58."""
    for p in plan.enabled:
        at = f"phase {p}:"
        passage, gap = plan.phase("Passage", p), plan.phase("MinimumGap", p)
        before, reducing = plan.phase("TimeBeforeReduction", p), plan.phase("TimeToReduce", p)
        cars = plan.phase("CarsBeforeReduction", p)
        extends = [d for d in plan.detectors(p) if plan.value("vehicleDetectorExtend", d)]
        if plan.detectors(p) and not plan.phase("MaxRecall", p) and not passage and not extends:
            yield 17, f"{at} its passage is 0 s and no detector extends it, so any gap between cars ends its green"
        if plan.detectors(p) and not plan.phase("MaxRecall", p) and 0 < passage < 10 and not extends:
            yield 58, f"{at} its passage of {seconds(passage)} s is under 1 s and no detector extends it, {AS_SECONDS}"
        if gap < passage and not before and not reducing:
            yield 18, (f"{at} its gap is {seconds(gap)} s as soon as a conflict begins, and not its passage of "
                       f"{seconds(passage)} s, since its times of reduction are 0 s")
        if gap == passage and (before or reducing or cars):
            yield 19, f"{at} its gap is never reduced, since its minimum gap is its passage of {seconds(passage)} s"
        if gap < passage and not cars and before and 10 * before >= plan.maximum(p):
            yield 20, (f"{at} its time before reduction of {before} s is not below its maximum of "
                       f"{seconds(plan.maximum(p))} s, so its gap is not reduced in time")
        added, most, least = plan.phase("AddedInitial", p), plan.phase("MaximumInitial", p), plan.phase("MinimumGreen", p)
        variable = plan.phase("VariableInitial", p)
        if variable and min(10 * most, 255 * added) <= 10 * least:
            yield 21, f"{at} its variable initial is never over its minimum green of {least} s"
        if not variable and (added or most):
            yield 22, f"{at} its added initial has no effect, since phaseVariableInitial is 0"
        limit, step = plan.phase("DynamicMaxLimit", p), plan.phase("DynamicMaxStep", p)
        if limit and not step:
            yield 23, f"{at} its dynamic maximum has no effect, since its step is 0 s"
        if step and not limit:
            yield 24, f"{at} its dynamic maximum has no effect, since its limit is 0 s"
    for d in DETECTORS:
        p = plan.value("vehicleDetectorCallPhase", d)
        if not p:
            continue
        delay, extend = plan.value("vehicleDetectorDelay", d), plan.value("vehicleDetectorExtend", d)
        rivals = plan.rivals(p)
        if rivals and delay > max(plan.maximum(q) for q in rivals):
            yield 25, (f"vehicle detector {d}: its delay of {seconds(delay)} s is longer than the maximum of each phase "
                       f"that conflicts with phase {p}")
        if extend and plan.phase("MaxRecall", p):
            yield 26, (f"vehicle detector {d}: its extension of {seconds(extend)} s has no effect, "
                       f"since phase {p} has maximum recall")
        diagnosis = any(plan.value(f"vehicleDetector{it}", d) for it in ("NoActivity", "MaxPresence", "ErraticCounts"))
        if diagnosis and not plan.value("vehicleDetectorFailTime", d) and plan.detectors(p) == [d] and not plan.any_recall(p):
            yield 48, f"vehicle detector {d}: while it has an alarm no car calls phase {p}, since its fail time is 0 s"
        presence = 60 * plan.value("vehicleDetectorMaxPresence", d)
        for n in plan.patterns:
            if 0 < presence <= 2 * plan.value("patternCycleTime", n):
                yield 49, (f"vehicle detector {d}: its maximum presence of {presence} s is at most two cycles of "
                           f"{plan.value('patternCycleTime', n)} s in pattern {n}, so a queue can trip it")
                break
    for p in plan.enabled:
        delays = [plan.value("vehicleDetectorDelay", d) for d in plan.detectors(p)]
        if plan.phase("NonLock", p) and delays and min(delays) and not plan.any_recall(p):
            yield 53, f"phase {p}: it is non-locking, and each of its detectors has a delay, so a car that stops beyond them is forgotten"


def coordination(plan: Plan) -> Iterator[tuple[int, str]]:
    """Advices A27 to A29, A42, A43, A45 and A46."""
    shorts: dict[tuple[int, int, int, int], list[int]] = collections.defaultdict(list)
    for n in plan.patterns:
        for p in plan.enabled:
            omitted = plan.mode(n, p) == OMITTED
            spare = max(plan.green(n, p) - 10 * plan.phase("MinimumGreen", p), 0)
            if not omitted and spare < 10:
                yield 27, f"phase {p}: its split leaves {seconds(spare)} s over minimum green, yellow and red clearance in pattern {n}"
            over = plan.crossing(p) - plan.green(n, p)
            passed = plan.passed(n, p, over) if plan.walks(p) and not omitted and over > 0 else None
            if passed:
                yield 28, (f"phase {p}: its walk and clearance can end after the force-off of phase {passed} in pattern {n}, "
                           "which then lasts up to a cycle")
            if omitted and (plan.own_recall(p) or plan.phase("SoftRecall", p)):
                yield 29, f"phase {p}: its recall has no effect in pattern {n}, which omits it"
            most = plan.acting_maximum(p)
            if not omitted and not plan.coordinated(n, p) and most is not None and most < plan.green(n, p):
                yield 42, (f"phase {p}: its maximum of {seconds(most)} s is under the {seconds(plan.green(n, p))} s of green "
                           f"that its split leaves in pattern {n}")
            short = plan.short(n, p) if plan.coordinated(n, p) and plan.permissive(n) else None
            if short:
                shorts[p, plan.permissive(n), *short].append(n)
            called = plan.phase("PedRecall", p) or plan.mode(n, p) in (WALK, BOTH)
            if plan.walks(p) and plan.recycles(p) and plan.coordinated(n, p) and called:
                yield 46, (f"phase {p}: its walk begins again after each clearance in pattern {n}, "
                           "since it has pedestrian recall and pedestrian recycle")
    for (p, time, q, most), alike in shorts.items():
        yield 43, (f"phase {p}: its permissive time of {seconds(time)} s is over the {seconds(most)} s that leave "
                   f"phase {q} its minimum green before its force-off in pattern {listed(alike)}")
    for p in plan.enabled:
        if plan.recycles(p) and not (plan.walks(p) and any(plan.coordinated(n, p) for n in plan.patterns)):
            yield 45, (f"phase {p}: its pedestrian recycle has no effect, "
                       "since no used pattern has it as a coordinated phase with a walk")


def patterns(plan: Plan) -> Iterator[tuple[int, str]]:
    """Advices A30 to A32, A44 and A54."""
    kinds = ["CycleTime", "OffsetTime", "SplitNumber", "SequenceNumber", "PermissiveTime", "LeadLag"]
    for n in plan.patterns:
        cycle = plan.value("patternCycleTime", n)
        same = [m for m in plan.patterns if m < n and all(plan.value(f"pattern{it}", m) == plan.value(f"pattern{it}", n)
                                                          for it in kinds)]
        if same:
            yield 30, f"pattern {n}: it is the same as pattern {same[0]}"
        if not plan.permissive(n) and any(plan.mode(n, p) != OMITTED and not plan.recall(n, p) for p in plan.enabled):
            yield 32, (f"pattern {n}: its coordinated phases yield in one tick of each cycle of {cycle} s, "
                       "so a later call waits for the next one")
        ends = {plan.split_end(n, p) for p in plan.enabled if plan.coordinated(n, p)}
        if plan.value("patternLeadLag", n) and len(ends) == 1:
            yield 44, f"pattern {n}: patternLeadLag has no effect, since the splits of its coordinated phases end at one time"
        if plan.permissive(n) and not plan.value("coordForceMode", 1) and not plan.value("coordMaximumMode", 1):
            yield 54, (f"pattern {n}: its permissive time of {seconds(plan.permissive(n))} s lets greens begin late, "
                       "and one that misses its force-off can last up to a cycle")


def correction(plan: Plan) -> Iterator[tuple[int, str]]:
    """Advice A47."""
    mode, limit = plan.value("coordCorrectionMode", 1), plan.value("coordCorrectionLimit", 1)
    if (mode in (SHORT_WAY, ADD_ONLY) and not limit) or (limit and not mode):
        yield 47, ("unit: local counters come into step at once, "
                   f"since coordCorrectionMode is {mode} and coordCorrectionLimit is {limit}")


def preempts(plan: Plan) -> Iterator[tuple[int, str]]:
    """Advices A33 to A38, A50 and A51."""
    for m in PREEMPTS:
        dwell, track = (plan.value(f"preempt{it}Phase", m) for it in ("Dwell", "Track"))
        times = {it: plan.value(f"preempt{it}", m) for it in TIMES}
        if not dwell:
            if any(times.values()):
                yield 38, f"preempt {m}: it has no dwell phases, so its times have no effect"
            continue
        for p in plan.enabled:
            if plan.listed("preemptTrackPhase", m, p) and plan.listed("preemptDwellPhase", m, p):
                yield 33, f"preempt {m}: phase {p} is a track phase and a dwell phase, so cars go on to come over the track"
            beside = [q for q in plan.enabled if plan.together(p, q)]
            if plan.listed("preemptDwellPhase", m, p) and beside and not any(plan.listed("preemptDwellPhase", m, q) for q in beside):
                yield 51, f"preempt {m}: its dwell serves phase {p} alone, and leaves the other ring without a phase"
            ends = (track and not plan.listed("preemptTrackPhase", m, p)) or not plan.listed("preemptDwellPhase", m, p)
            if plan.walks(p) and ends and not times["MinimumWalk"]:
                yield 36, (f"preempt {m}: it can end a walk of phase {p} at once, as is allowed where a track has to be cleared"
                           if track else f"preempt {m}: its minimum walk is 0 s, so it can end a walk of phase {p} at once")
            if plan.walks(p) and ends and plan.phase("PedestrianClear", p) and not times["EnterPedClear"]:
                yield 37, f"preempt {m}: its pedestrian clearance is 0 s, so phase {p} can end with people on its crossing"
        railroad = times["TrackGreen"] or any(plan.value("preemptTrackPhase", it) for it in PREEMPTS)
        if not track and not times["Delay"] and railroad:
            yield 34, f"preempt {m}: it has no delay and no track phases, so it clears no track"
        if 0 < times["MaximumPresence"] < times["MinimumDuration"]:
            yield 35, (f"preempt {m}: its minimum duration of {times['MinimumDuration']} s is longer than "
                       f"its maximum presence of {times['MaximumPresence']} s")
        if not track and not times["MaximumPresence"]:
            yield 50, f"preempt {m}: it has no maximum presence and no track phases, so an input that stays on holds it for ever"


def turn(included: list[int]) -> int | None:
    """The through phase beside which an overlap of these phases turns right."""
    if len(included) != 2 or not set(included) <= set(WAYS):
        return None
    streets = [next(it for it in STREETS if WAYS[p][0] in it) for p in included]
    through = [p for p in included if p in CROSSED]
    return through[0] if len(through) == 1 and streets[0] != streets[1] else None


def turns(plan: Plan) -> Iterator[tuple[int, str]]:
    """Advice A56."""
    for o in OVERLAPS:
        included = [p for p in PHASES if plan.listed("overlapIncludedPhases", o, p)]
        through = turn(included)
        if through is None:
            continue
        beside = f"overlap {o}: if phases stand as usual, it turns right beside phase {through}"
        for q in (it for it in plan.enabled if not plan.listed("overlapModifierPhases", o, it)):
            if q == through and plan.walks(q):
                yield 56, f"{beside} over its crossing, and is green with its walk"
            if q in WAYS and WAYS[q][1] == CROSSED[through] and any(plan.together(q, p) for p in included):
                yield 56, f"{beside} into the leg that phase {q} goes into, and both can be green"


def overlaps(plan: Plan) -> Iterator[tuple[int, str]]:
    """Advices A39 to A41."""
    for o in OVERLAPS:
        included = [p for p in PHASES if plan.listed("overlapIncludedPhases", o, p)]
        modifiers = [p for p in PHASES if plan.listed("overlapModifierPhases", o, p)]
        ring = {p: plan.phase("Ring", p) for p in included}
        apart = [(p, q) for p in included for q in included if ring[p] != ring[q] and not plan.together(p, q)]
        if apart and not plan.value("overlapAcrossRings", o) and plan.value("overlapType", o) != 2:
            yield 39, (f"overlap {o}: it includes phases {apart[0][0]} and {apart[0][1]} of two rings "
                       "that are not concurrent, so it turns yellow between them")
        for p in included:
            if p in modifiers:
                yield 40, f"overlap {o}: phase {p} is an included and a modifier phase, so it is not green with it"
        followed = any(p != q and ring[p] == ring[q] for p in included for q in included)
        if included and not modifiers and not apart and not followed and not plan.value("overlapTrailGreen", o):
            yield 41, f"overlap {o}: no phase of it follows another in a ring, so it shows what its phases show"


def unused(plan: Plan) -> Iterator[tuple[int, str]]:
    """Advice A59."""
    # (the order of values is that of the plan's objects, and of splits table by table)
    indices = {name: 128 if name.startswith("split") else 16 for name in OBJECTS
               if re.match("phase|split", name) and name not in ("phaseEnabled", "phaseRing", "phaseSide", "phaseConcurrency")}
    for p in PHASES:
        given = [f"{name}.{index}" + (f" of split table {(index + 15) // 16}" if most > 16 else "")
                 for name, most in indices.items() for index in range(p, most + 1, 16) if plan.value(name, index)]
        if p not in plan.enabled and given:
            yield 59, f"phase {p}: it is not enabled, so its values have no effect, such as {given[0]}"


def schedules(plan: Plan) -> Iterator[tuple[int, str]]:
    """Advices A60 to A62."""
    if not any(plan.value("timeBaseScheduleDayPlan", e) for e in ENTRIES):
        return
    days = ((m, d, w) for m, length in MONTHS.items() for d in range(1, length + 1) for w in range(1, 8))
    is_open = next((it for it in days if not plan.entries(*it)), None)
    if is_open is not None:
        yield 60, ("unit: no entry of the schedule holds on day {1} of month {0} where that is weekday {2}, "
                   "so the action of the day before stays").format(*is_open)
    events = [(d, k) for d in DAY_PLANS for k in plan.events(d)]
    for n in plan.patterns:
        if all(plan.pattern_of(*it) != n for it in events):
            yield 61, f"pattern {n}: it is used, and no event of a day plan selects it"
    for d, k in events:
        n = plan.pattern_of(d, k)
        later = [plan.minute(d, j) - plan.minute(d, k) for j in plan.events(d)]
        if n and any(0 < 60 * it < plan.value("patternCycleTime", n) for it in later):
            yield 62, f"day plan {d}, event {k}: another event comes before a cycle of its pattern {n} is over"


PARTS = [service, pedestrians, clearance, actuation, coordination, patterns, correction, preempts, overlaps, turns, unused,
         schedules]


def review(text: Table) -> list[str]:
    """The lines of a review, in the order of the advices and then of the places."""
    plan = Plan(text)
    found = [it for part in PARTS for it in part(plan)]
    return [f"A{number} {line}" for number, line in sorted(found, key=lambda it: it[0])]
