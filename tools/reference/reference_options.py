"""The options that plans have, laid over an independent reference that was written before them.

`with_options` gives the module `tsb_oracle` of a reference the seven objects of docs/use/MANUAL.md, "Coordination
options": `coordForceMode`, `coordMaximumMode`, `coordCorrectionMode`, `coordCorrectionLimit`, `patternPermissiveTime`,
`patternLeadLag` and `phasePedestrianRecycle`, with K23 and what `patternLeadLag` changes of K20. It has
`overlapAcrossRings`, `preemptChoosesAnew` and `coordReference` of the same chapter too, and reads texts of version 3,
which alone have these. All tools that take `--reference FOLDER` do so; a reference that has the options stays as it is.

It replaces the functions that an option changes. The tick of the reference itself is taken as it is. It is not told the
local counter, by which it would force phases off, but which greens the pattern ends for a conflict in this tick: as
though these had been forced off before. What such a tick leaves of that is then put right.

Each rule is that of chapter 8 of docs/use/MANUAL.md. Nothing here is fast, and nothing of it comes from the program.
The options are those of the final numbers of phases and sides alone.
"""
import functools
import json
from collections.abc import Callable, Iterator
from typing import Any, TypeVar

State = Any  # a state of the reference
Limits = Any  # its numbers of phases and sides, and its objects
Row = tuple[tuple[bool, ...], ...]
Given = tuple[Any, ...]
Plan = dict[str, list[int]]
Found = TypeVar("Found")

# The objects of the options, each with how many indices it has and its greatest value. They come last, in this order,
# in the plan that a live session prints (docs/use/LIVE.md).
OBJECTS = {
    "coordForceMode": (1, 2), "coordMaximumMode": (1, 2), "patternPermissiveTime": (16, 255), "patternLeadLag": (16, 1),
    "phasePedestrianRecycle": (16, 1), "coordCorrectionMode": (1, 3), "coordCorrectionLimit": (1, 50),
}
# The objects that plan texts of version 3 alone have, those of them that a commit changes only while nothing is in
# service, and that version.
OF_VERSION_3 = {"overlapAcrossRings": (16, 1), "preemptChoosesAnew": (8, 1), "coordReference": (1, 5)}
STRUCTURAL = {"overlapAcrossRings"}
NEWEST = 3
# The functions of the reference that are replaced.
REPLACED = ("clear", "local_of", "check", "tick", "step", "overlap", "read_plan")

PATTERNS, OVERLAPS = range(1, 17), range(1, 17)
STAGE_LISTS = {"Track": "preemptTrackPhase", "Dwell": "preemptDwellPhase", "Exit": "preemptExitPhase"}
AT_ONCE, DWELL, SHORT_WAY = range(3)
# The numbers of coordReference: what offsets are counted to.
OF_GREEN, OF_YELLOW, OF_RED, OF_LAST = (1, 2), (3, 4), (5,), (2, 4)
LATE, FLOATING = (1, 2), 2
PATTERN_MAXIMUMS = {1: "phaseMaximum1", 2: "phaseMaximum2"}
PEDESTRIAN_RECALLS, OMITTED = (3, 4), 5
COORDINATED_RULE, PERMISSIVE_RULE = 20, 23


class Pattern:
    """A pattern of a plan that runs: its cycle in ticks, its coordinated phases, and the instants of all phases."""

    def __init__(self, bench: Any, plan: Plan, lim: Limits, number: int):
        self.plan, self.number, self.cycle = plan, number, 10 * plan["patternCycleTime"][number]
        self.table: int = lim.phases * (plan["patternSplitNumber"][number] - 1)
        phases: list[int] = bench.enabled(plan, lim)
        held = [p for p in phases if self.of_split("splitCoordPhase", p)]
        # That of ring 1 first: instants are counted from the end of its split.
        self.coord = sorted(held, key=lambda p: plan["phaseRing"][p])
        self.first = self.coord[0]
        order, table = plan["patternSequenceNumber"][number], plan["patternSplitNumber"][number]
        ends: dict[int, int] = {p: bench.ends_at(plan, lim, order, table, p) for p in phases}
        self.fo = {p: (10 * (ends[p] - ends[self.first]) - self.clearance(p)) % self.cycle for p in phases}
        self.zero = self.local_zero({p: 10 * end for p, end in ends.items()})

    def of_split(self, name: str, phase: int) -> int:
        """A value that the split table has for a phase."""
        return self.plan[name][self.table + phase]

    def clearance(self, phase: int) -> int:
        """Yellow and red clearance of a phase."""
        return self.plan["phaseYellowChange"][phase] + self.plan["phaseRedClear"][phase]

    def local_zero(self, ends: dict[int, int]) -> int:
        """The tick at which the local counter is first 0, in step, by the ends of splits in ticks."""
        reference, offset = self.plan["coordReference"][1], 10 * self.plan["patternOffsetTime"][self.number]
        before = {p: self.plan["phaseRedClear"][p] for p in self.coord}
        if reference in OF_YELLOW:
            before = {p: self.clearance(p) for p in self.coord}
        elif reference in OF_GREEN:
            before = {p: 10 * self.of_split("splitTime", p) for p in self.coord}
        elif reference not in OF_RED:
            return offset
        moments = [ends[p] - before[p] for p in self.coord]
        moment = max(moments) if reference in OF_LAST else min(moments)
        return (offset + ends[self.first] - moment) % self.cycle

    def in_step(self, tick: int) -> int:
        """The local counter at a tick, if it is in step then."""
        return (tick - self.zero) % self.cycle

    def behind(self, phase: int, local: int) -> int:
        """How many steps ago a local counter was at the instant of a phase last."""
        return (local - self.fo[phase]) % self.cycle

    def late_steps(self, phase: int) -> int:
        """How many steps it is from the instant of a phase to that of the coordinated phase of its ring, or else of the
        other ring."""
        rings = self.plan["phaseRing"]
        beside = next((c for c in self.coord if rings[c] == rings[phase]), self.first)
        return (self.fo[beside] - self.fo[phase]) % self.cycle

    def split_green(self, phase: int) -> int:
        """The green of the split of a phase: the split less yellow and red clearance, or 0 where these are longer."""
        return max(0, 10 * self.of_split("splitTime", phase) - self.clearance(phase))


# --- how a local counter comes into step ---

def correction(state: State) -> tuple[int, int]:
    """The correction mode of the plan in effect, and its limit in percent: all modes but dwell are 0 with limit 0."""
    plan: Plan = state.plan
    mode, limit = plan["coordCorrectionMode"][1], plan["coordCorrectionLimit"][1]
    return (AT_ONCE if limit == 0 and mode != DWELL else mode), limit


def waited(ticks: int, way: int, most: int, cycle: int) -> int:
    """How many of so many ticks a counter has stood still that dwells: it has a way to go to its waiting place, stands
    there for `most` ticks, and is there again a cycle later."""
    whole, more = divmod(max(0, ticks - way), most + cycle)
    return whole * most + min(more, most)


class Counter:
    """The local counter of a pattern that runs: it comes into step from where it stood at the newest selection."""

    def __init__(self, pattern: Pattern, state: State):
        self.pattern, self.since = pattern, int(state.since)
        self.ahead = int(state.ahead) % pattern.cycle
        self.mode, self.limit = correction(state)

    def ahead_at(self, tick: int) -> int:
        """How many ticks it is ahead of the counter in step at a tick, modulo the cycle."""
        ticks, cycle = tick - self.since, self.pattern.cycle
        if self.mode == AT_ONCE:
            return 0
        if self.mode == SHORT_WAY and 2 * self.ahead > cycle:
            return (self.ahead + min(ticks * self.limit // (100 - self.limit), cycle - self.ahead)) % cycle
        lost = self.dwelled(ticks) if self.mode == DWELL else ticks * self.limit // (100 + self.limit)
        return self.ahead - min(lost, self.ahead)

    def dwelled(self, ticks: int) -> int:
        """How many of so many ticks it has stood still at its waiting place, where it is not in step before."""
        pattern = self.pattern
        most = max(1, pattern.cycle * self.limit // 100) if self.limit else pattern.cycle
        stood = pattern.in_step(self.since) + self.ahead
        return waited(ticks, (pattern.fo[pattern.first] - 1 - stood) % pattern.cycle, most, pattern.cycle)

    def at(self, tick: int) -> int:
        """Where it is at a tick."""
        return (self.pattern.in_step(tick) + self.ahead_at(tick)) % self.pattern.cycle

    def steps(self, tick: int) -> list[int]:
        """Where it is at each step that it takes in a tick: one, or two where it is faster, and where it is if it
        takes none."""
        now = self.at(tick)
        is_twice = (now - self.at(tick - 1)) % self.pattern.cycle == 2
        return [(now - 1) % self.pattern.cycle, now] if is_twice else [now]


# --- which greens a pattern ends ---

def is_forced_off(pattern: Pattern, state: State, phase: int, local: int) -> bool:
    """Whether a green that was one before the tick is forced off at a step of the local counter, conflict or not."""
    plan, behind = pattern.plan, pattern.behind(phase, local)
    if phase in pattern.coord:
        return behind <= 10 * plan["patternPermissiveTime"][pattern.number]
    mode = plan["coordForceMode"][1]
    is_late = mode in LATE and behind < pattern.late_steps(phase)
    has_floated = mode == FLOATING and state.itime[phase] + 1 >= pattern.split_green(phase)
    return behind == 0 or is_late or has_floated


def has_maxed_out(pattern: Pattern, state: State, phase: int) -> bool:
    """Whether a conflict that lasts in this tick has lasted for the maximum that acts in the pattern."""
    name = PATTERN_MAXIMUMS.get(pattern.plan["coordMaximumMode"][1])
    if name is None or phase in pattern.coord:
        return False
    stood: int = 0 if state.conf[phase] is None else state.conf[phase] + 1
    return stood >= 10 * pattern.plan[name][phase]


# --- rules ---

class Following:
    """An overlap, by the phases and the commitments of a state: which of its phases are followed, and what its head
    shows where it has `overlapAcrossRings`."""

    def __init__(self, bench: Any, state: State, number: int):
        self.bench, self.state, self.plan = bench, state, state.plan
        self.included: list[int] = bench.members(self.plan["overlapIncludedPhases"][number])
        self.modifiers: list[int] = bench.members(self.plan["overlapModifierPhases"][number])
        self.is_normal = self.plan["overlapType"][number] == 0
        self.is_across = self.plan["overlapAcrossRings"][number] == 1

    def is_followed(self, phase: int) -> bool:
        """Whether an included phase comes next: of the ring of this one, or with the option of the other ring behind
        the barrier."""
        ring = self.plan["phaseRing"][phase]
        own, other = self.state.commit[ring], self.state.commit[3 - ring]
        if own is None:
            return False
        behind = other in self.included and phase not in self.bench.members(self.plan["phaseConcurrency"][other])
        return own in self.included or (self.is_across and behind)

    def lasts(self) -> bool:
        """Whether one of its phases is in yellow or red clearance and followed."""
        return any(self.state.interval[it] in self.bench.Y + self.bench.C and self.is_followed(it)
                   for it in self.included)

    def some(self, phases: list[int], letters: str) -> bool:
        """Whether one of these phases is in one of these intervals."""
        return any(self.state.interval[phase] in letters for phase in phases)

    def shown(self) -> str:
        """The letter of the head."""
        bench = self.bench
        followed = [it for it in self.included if self.is_followed(it)]
        is_green = self.some(self.included, bench.G) or self.some(followed, bench.Y + bench.C)
        if self.is_normal:
            return "G" if is_green else "Y" if self.some(self.included, bench.Y) else "R"
        if is_green and not self.some(self.modifiers, bench.G):
            return "G"
        last = [it for it in self.included if it not in followed]
        return "Y" if self.some(last, bench.Y) and not self.some(self.modifiers, bench.Y) else "R"


def only_used(plan: Plan, numbers: list[int]) -> Plan:
    """A plan in which no other patterns are used."""
    cycles = plan["patternCycleTime"]
    return plan | {"patternCycleTime": [cycle if number in numbers else 0 for number, cycle in enumerate(cycles)]}


def is_coordinated_well(bench: Any, plan: Plan, lim: Limits, number: int) -> bool:
    """Whether a used pattern has coordinated phases as K20 asks, wherever their splits end."""
    table = lim.phases * (plan["patternSplitNumber"][number] - 1)
    enabled, rings, sides = bench.enabled(plan, lim), plan["phaseRing"], plan["phaseSide"]
    coord = [p for p in range(1, lim.phases + 1) if plan["splitCoordPhase"][table + p]]
    if not coord or any(p not in enabled or plan["splitMode"][table + p] == OMITTED for p in coord):
        return False
    side = sides[coord[0]]
    is_beside = all(bench.conc(plan, p, q) for p in coord for q in coord if p < q)
    there = sorted({rings[p] for p in enabled if sides[p] == side})
    return is_beside and all(sides[p] == side for p in coord) and sorted(rings[p] for p in coord) == there


class Options:
    """A reference with the options: what is laid over its functions, which are kept in `old`."""

    def __init__(self, bench: Any):
        self.bench, self.known = bench, dict[int, Pattern]()
        self.old = {name: getattr(bench, name) for name in REPLACED}

    # --- patterns and their counters ---

    def pattern(self, state: State) -> Pattern | None:
        """The pattern that runs, if one does."""
        if not self.bench.running(state):
            return None
        found = self.known.get(state.pattern)
        if found is None or found.plan is not state.plan:
            found = self.known[state.pattern] = Pattern(self.bench, state.plan, state.lim, state.pattern)
        return found

    def counter(self, state: State) -> Counter | None:
        """The local counter of the pattern that runs, if one does."""
        pattern = self.pattern(state)
        return None if pattern is None else Counter(pattern, state)

    def local_at(self, state: State, tick: int) -> int | None:
        """The local counter at a tick that is not before the selection, by the plan in effect."""
        counter = self.counter(state)
        return None if counter is None else counter.at(tick)

    def ahead_at(self, state: State, tick: int) -> int | None:
        """How many ticks the local counter is ahead at such a tick."""
        counter = self.counter(state)
        return None if counter is None else counter.ahead_at(tick)

    def local_of(self, state: State) -> int | None:
        """The local counter."""
        return None if state.is_blind else self.local_at(state, state.now)

    def clear(self, state: State, count: int) -> None:
        """Makes a state that of power-up."""
        self.old["clear"](state, count)
        state.since, state.ahead, state.is_blind = 0, 0, False

    # --- ticks ---

    def tick(self, before: State, row: Row) -> State:
        """The state after a tick."""
        if before.trip is not None:
            state: State = self.old["tick"](before, row)
            return state
        after = self.moved(before, row)
        if after.service and after.plan["preemptChoosesAnew"][after.service]:
            self.give_up(after)
        return after

    def give_up(self, state: State) -> None:
        """Gives up what rings are committed to outside the list of the stage in service, and a crossing with both of
        its commitments; not while an overlap lasts through a clearance."""
        wanted = self.bench.members(state.plan[STAGE_LISTS[state.stage]][state.service])
        stray = [it for it in state.commit if it is not None and it not in wanted]
        if not stray or any(Following(self.bench, state, number).lasts() for number in OVERLAPS):
            return
        if state.cross is not None:
            state.commit, state.cross = (None, None, None), None
        else:
            state.commit = tuple(None if it in stray else it for it in state.commit)

    def moved(self, before: State, row: Row) -> State:
        """The state after a tick of a controller that has not tripped, in which rings have given nothing up."""
        counter = self.counter(before)
        if counter is None:
            plain: State = self.old["tick"](before, row)
            return plain
        greens = {p for p in counter.pattern.fo if before.interval[p] == self.bench.G}
        off = {p for p in greens for local in counter.steps(before.now + 1)
               if is_forced_off(counter.pattern, before, p, local)}
        maxed = {p for p in greens if has_maxed_out(counter.pattern, before, p)}
        after = self.ticked(before, row, off | maxed)
        after.forced = tuple(self.stands(before, after, off, p) for p in range(len(before.forced)))
        walking = [] if after.service or counter.ahead_at(before.now) else counter.pattern.coord
        walking = [p for p in walking if p not in off and self.may_walk_again(before, after, counter, p)]
        return self.walked(before, after, walking) if walking else after

    def ticked(self, before: State, row: Row, ending: set[int]) -> State:
        """The state after a tick of the reference, in which the pattern ends these greens for a conflict."""
        given = before.copy()
        given.is_blind = True
        given.forced = tuple(forced or p in ending for p, forced in enumerate(before.forced))
        after = self.old["tick"](given, row)
        after.is_blind = False
        return after

    def stands(self, before: State, after: State, off: set[int], phase: int) -> bool:
        """Whether a green goes on for which a conflict has stood since a tick in which it was forced off."""
        green = self.bench.G
        goes_on = before.interval[phase] == green == after.interval[phase] and after.service == 0
        return goes_on and after.conf[phase] is not None and (before.forced[phase] or phase in off)

    def walked(self, before: State, after: State, phases: list[int]) -> State:
        """The state after a tick in which these phases begin a walk within their greens."""
        parts, times, memory = list(after.ped), list(after.ptime), list(after.pmem)
        for p in phases:
            parts[p], times[p], memory[p] = self.bench.W, 0, False
        after.ped, after.ptime, after.pmem = tuple(parts), tuple(times), tuple(memory)
        trip = self.bench.judge(self.bench.field(before), self.bench.field(after), after)
        after.trip = trip and (after.now, *trip)
        return after

    def may_walk_again(self, before: State, after: State, counter: Counter, phase: int) -> bool:
        """Whether a coordinated phase that is not forced off in this tick has a call and the time for a walk, and no
        force-off stands."""
        plan, pattern = before.plan, counter.pattern
        recalled = plan["phasePedRecall"][phase] == 1 or pattern.of_split("splitMode", phase) in PEDESTRIAN_RECALLS
        called = plan["phaseWalk"][phase] > 0 and (after.pmem[phase] or recalled)
        rests = before.interval[phase] == self.bench.G == after.interval[phase] and before.ped[phase] == self.bench.DW
        time = 10 * (plan["phaseWalk"][phase] + plan["phasePedestrianClear"][phase])
        left = -pattern.behind(phase, counter.at(after.now)) % pattern.cycle
        is_on = plan["phasePedestrianRecycle"][phase] == 1
        return is_on and rests and called and not after.forced[phase] and left >= time

    # --- heads, and other inputs ---

    def overlap(self, state: State, number: int) -> str:
        """What an overlap shows: red without asking further where it includes no phase, as most do."""
        if not state.plan["overlapIncludedPhases"][number]:
            return "R"
        if state.plan["overlapAcrossRings"][number]:
            return Following(self.bench, state, number).shown()
        return str(self.old["overlap"](state, number))

    def step(self, before: State, given: Given) -> State:
        """The state after an input."""
        after = self.old["step"](before, given)
        if given[0] == "pattern":
            after.since, after.ahead = before.now, self.ahead_when_selected(before, after)
        return after

    def ahead_when_selected(self, before: State, after: State) -> int:
        """How many ticks a counter is ahead as its pattern is selected: it goes on from where another one's is."""
        stood, pattern = self.local_of(before), self.pattern(after)
        if stood is None or pattern is None or correction(before)[0] == AT_ONCE:
            return 0
        return (stood - pattern.in_step(before.now)) % pattern.cycle

    # --- texts ---

    def read_plan(self, data: bytes, lim: Limits) -> tuple[Plan | None, str | None]:
        """The plan of a text, or its fault: a text of version 3 is one of version 2 with more objects."""
        newest = without_version(data)
        self.bench.OF_TEXTS = self.bench.TEXTS_2 if newest is None else self.bench.V2
        found: tuple[Plan | None, str | None] = self.old["read_plan"](data if newest is None else newest, lim)
        return found

    # --- rules ---

    def rules(self, plan: Plan, lim: Limits) -> Iterator[int | None]:
        """Rules that are broken, among them the first one."""
        used = [number for number in PATTERNS if plan["patternCycleTime"][number]]
        apart = [number for number in used if plan["patternLeadLag"][number]]
        yield self.old["check"](only_used(plan, [number for number in used if number not in apart]), lim)
        for number in apart:
            rule = self.old["check"](only_used(plan, [number]), lim)
            is_well = rule == COORDINATED_RULE and is_coordinated_well(self.bench, plan, lim, number)
            yield None if is_well else rule
        if any(plan["patternPermissiveTime"][number] >= plan["patternCycleTime"][number] for number in used):
            yield PERMISSIVE_RULE

    def check(self, plan: Plan, lim: Limits) -> int | None:
        """The first rule that fails, if one does."""
        return min((rule for rule in self.rules(plan, lim) if rule is not None), default=None)


class OptionState:
    """A state of the reference, with what a state of a controller with options has besides: the tick of the newest
    selection (`since`), how far `ahead` the counter was then, and whether it `is_blind` to the counter."""

    def copy(self) -> "OptionState":
        """Another state with the same fields."""
        made = OptionState.__new__(OptionState)
        made.__dict__.update(self.__dict__)
        return made


def kept(function: Callable[..., Found]) -> Callable[..., Found]:
    """A function of a plan and other things that keeps what it finds, as long as it is asked of one plan: plans stay as
    they are, and lists that are found of them likewise."""
    newest: list[Plan] = [{}]
    found: dict[tuple[Any, ...], Found] = {}

    def asked(plan: Plan, *others: Any) -> Found:
        if plan is not newest[0]:
            newest[0] = plan
            found.clear()
        if others not in found:
            found[others] = function(plan, *others)
        return found[others]

    return asked


def without_version(data: bytes) -> bytes | None:
    """A text of version 3 as one of version 2 that may have all objects; nothing for any other text."""
    try:
        text = json.loads(data)
    except (ValueError, RecursionError):
        return None
    if not isinstance(text, dict) or type(text.get("version")) is not int or text["version"] != NEWEST:
        return None
    return json.dumps(text | {"version": NEWEST - 1}).encode()


def with_options(bench: Any, made: "type[Options] | None" = None) -> Any:
    """The module of a reference, which has the options from now on. One that had them stays as it was."""
    if OBJECTS.keys() <= bench.V2.objects.keys():
        return bench
    options = (made or Options)(bench)
    bench.V2.objects |= OBJECTS | OF_VERSION_3
    bench.TEXTS_2.objects |= OBJECTS
    bench.V2.structural |= STRUCTURAL
    bench.State = OptionState
    for name in (*REPLACED, "local_at", "ahead_at"):
        setattr(bench, name, getattr(options, name))
    # (else these are found anew, many times in a tick)
    bench.members = functools.cache(bench.members)
    bench.enabled, bench.ends_at = kept(bench.enabled), kept(bench.ends_at)
    bench.correction = correction
    bench.Pattern = lambda plan, lim, number: Pattern(bench, plan, lim, number)
    return bench
