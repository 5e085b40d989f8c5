"""Flashing yellow arrows and trailing overlaps, laid over an independent reference: a second reading.

`with_arrows` gives the module `tsb_oracle` of a reference, which has options, clock and schedule from then on. It then
has overlaps of `overlapType` 2, `overlapTrailGreen`, `overlapTrailYellow` and `overlapTrailRed`, and rules K28 and K29;
the list of omitted arrows too, with its command `omit LIST`. It was written from the request and from what NTCIP 1202
and the MUTCD say of such overlaps, before any other code, and nothing of it comes from the program.

The reference has the sizes of docs/use/MANUAL.md, chapter 9, and three hooks. Its `tick` takes no phase in `held` of a
state for over. Its `judge` counts the green of an arrow as right of way of its modifier phase. `read_command` takes the
lamp `P` of an overlap.

A state has `parts`, of each overlap what it is in: an interval, a timer and the phase whose yellow it times. The
intervals are red `R`, green `G`, trailing green `T`, flashing yellow `P`, yellow `Y` and red clearance `C`. Overlaps
that neither trail nor are arrows stay in `R`: their heads are functions of phases, as before.
"""
from typing import Any, NamedTuple

from tools.reference import reference_events, reference_options, reference_status
from tools.reference.reference_clock import Clock, in_force, with_clock
from tools.reference.reference_options import OF_VERSION_3, STRUCTURAL, Following, Limits, Plan, Row, State

RED, GREEN, TRAIL, FLASH, YELLOW, CLEAR = "RGTPYC"
LETTERS = {RED: "R", GREEN: "G", TRAIL: "G", FLASH: "P", YELLOW: "Y", CLEAR: "R"}
ARROW = 2
ARROW_RULE, TRAIL_RULE = 28, 29
# The objects: each with how many indices it has and its greatest value. An index is an overlap, an action or a channel.
OVERLAP_OBJECTS = {
    "overlapArrowDelay": 255, "overlapArrowPedestrian": 1, "overlapTrailGreen": 255, "overlapTrailYellow": 255,
    "overlapTrailRed": 255,
}
OTHER_OBJECTS = {"actionArrowOmit": (32, 65535), "channelControlSource": (16, 16), "channelControlType": (16, 4)}


class Part(NamedTuple):
    """What an overlap is in: its interval, its timer where it times one, and the phase whose yellow it shows."""

    interval: str = RED
    timer: int | None = None
    phase: int | None = None


OFF = Part()


def numbers(plan: Plan) -> range:
    """The numbers of overlaps."""
    return range(1, len(plan["overlapIncludedPhases"]))


def is_arrow(plan: Plan, overlap: int) -> bool:
    """Whether an overlap is a flashing yellow arrow."""
    return plan["overlapType"][overlap] == ARROW and plan["overlapIncludedPhases"][overlap] != 0


def trails(plan: Plan, overlap: int) -> bool:
    """Whether an overlap trails."""
    return plan["overlapTrailGreen"][overlap] > 0 and plan["overlapIncludedPhases"][overlap] != 0


class Arrows(Clock):
    """The options and the clock, with arrows and trailing overlaps."""

    def clear(self, state: State, count: int) -> None:
        """Makes a state that of power-up."""
        super().clear(state, count)
        state.parts = (OFF,) * len(state.plan["overlapIncludedPhases"])
        state.omitted, state.held = 0, frozenset()

    # --- what a tick finds before the rings decide ---

    def run_on(self, before: State, overlap: int, is_preempted: bool) -> Part:
        """What an overlap is in as a tick begins: its timer has run on, and what has lasted its time is over. A trailing
        green is over at once while a preempt is in service. Flashing yellow has no time."""
        part, plan = before.parts[overlap], before.plan
        if part.timer is None:
            return part
        timer = part.timer + 1
        if part.interval == TRAIL and (is_preempted or timer >= 10 * plan["overlapTrailGreen"][overlap]):
            return Part(YELLOW, 0)
        if part.interval == YELLOW and timer >= self.yellow_time(plan, overlap, part):
            # the yellow of an arrow is over; that of an overlap that trails is followed by its red clearance
            return OFF if part.phase or plan["overlapTrailRed"][overlap] == 0 else Part(CLEAR, 0)
        if part.interval == CLEAR and timer >= plan["overlapTrailRed"][overlap]:
            return OFF
        return Part(part.interval, timer, part.phase)

    @staticmethod
    def yellow_time(plan: Plan, overlap: int, part: Part) -> int:
        """How long the yellow of an overlap lasts: an arrow's as that of the phase which ended."""
        return plan["phaseYellowChange"][part.phase] if part.phase else plan["overlapTrailYellow"][overlap]

    def holding(self, plan: Plan, parts: dict[int, Part]) -> dict[int, list[int]]:
        """The overlaps that hold their phases in clearance: those that trail and are not off, each with its phases."""
        return {o: self.bench.members(plan["overlapIncludedPhases"][o]) for o, part in parts.items()
                if trails(plan, o) and part.interval in (TRAIL, YELLOW, CLEAR)}

    def held_next(self, state: State) -> dict[int, list[int]]:
        """The same as a tick finds it that follows a state, if the preempt in service stays as it is."""
        return self.holding(state.plan, {o: self.run_on(state, o, bool(state.service)) for o in numbers(state.plan)})

    # --- the tick ---

    def tick(self, before: State, row: Row) -> State:
        """The state after a tick."""
        if before.trip is not None:
            tripped: State = super().tick(before, row)
            return tripped
        plan, used = before.plan, [o for o in numbers(before.plan) if is_arrow(before.plan, o) or trails(before.plan, o)]
        if not used:
            return super().tick(before, row)
        # (which preempt is in service in this tick does not hang on what the rings do in it)
        service = super().tick(before, row).service
        parts = {o: self.run_on(before, o, bool(service)) for o in used}
        given = before.copy()
        given.held = frozenset(p for phases in self.holding(plan, parts).values() for p in phases)
        after = super().tick(given, row)
        after.held = frozenset()
        found = list(before.parts)
        for o in used:
            found[o] = (self.arrow if is_arrow(plan, o) else self.trailing)(before, after, o, parts[o])
        after.parts = tuple(found)
        trip = self.bench.judge(self.bench.field(before), self.bench.field(after), after)
        after.trip = trip and (after.now, *trip)
        return after

    def trailing(self, before: State, after: State, overlap: int, part: Part) -> Part:
        """What an overlap that trails is in after a tick: green while its phases keep it so; where they end and none is
        next, green for its trailing time, then in its own yellow and red."""
        follows = Following(self.bench, after, overlap)
        followed = [it for it in follows.included if follows.is_followed(it)]
        kept = follows.some(follows.included, self.bench.G) or follows.some(followed, self.bench.Y + self.bench.C)
        if part.interval in (RED, GREEN, TRAIL) and kept:
            return Part(GREEN)
        if part.interval == GREEN:
            return Part(YELLOW if after.service else TRAIL, 0)
        return part

    def arrow(self, before: State, after: State, overlap: int, part: Part) -> Part:
        """What an arrow is in after a tick: green with its modifier; else a yellow that has begun lasts its time; else it
        flashes where it may, and what ends has a yellow."""
        bench, plan = self.bench, after.plan
        turn, = bench.members(plan["overlapModifierPhases"][overlap])
        included = bench.members(plan["overlapIncludedPhases"][overlap])
        if after.interval[turn] == bench.G:
            return Part(GREEN)
        if part.interval == YELLOW:
            return part
        if part.interval == GREEN:
            return Part(YELLOW, 0, turn)
        if self.may_flash(after, overlap, turn, included):
            return Part(FLASH)
        if part.interval == FLASH:
            # (in a run there is one)
            return Part(YELLOW, 0, next((p for p in included if before.interval[p] == bench.G), turn))
        return OFF

    def may_flash(self, state: State, overlap: int, turn: int, included: list[int]) -> bool:
        """Whether an arrow flashes: an included phase has been green for the delay, the protected turn is neither in
        service nor next, no crosswalk forbids it, and it is not omitted."""
        bench, plan = self.bench, state.plan
        is_green = any(state.interval[p] == bench.G and state.itime[p] >= plan["overlapArrowDelay"][overlap]
                       for p in included)
        is_turning = state.interval[turn] != bench.R or turn in state.commit
        walks = plan["overlapArrowPedestrian"][overlap] == 1 and any(state.ped[p] != bench.DW for p in included)
        return is_green and not is_turning and not walks and not state.omitted >> overlap - 1 & 1

    # --- heads, rules, other inputs ---

    def overlap(self, state: State, number: int) -> str:
        """What the head of an overlap shows."""
        if is_arrow(state.plan, number) or trails(state.plan, number):
            return LETTERS[state.parts[number].interval]
        return super().overlap(state, number)

    def check(self, plan: Plan, lim: Limits) -> int | None:
        """The first rule that fails."""
        rule = super().check(plan, lim)
        return rule if rule is not None else min(self.overlap_rules(plan), default=None)

    def overlap_rules(self, plan: Plan) -> "list[int]":
        """The rules of arrows and of trailing overlaps that a plan breaks."""
        found = []
        for o in numbers(plan) if "overlapTrailGreen" in plan else ():
            included, turns = (self.bench.members(plan[name][o]) for name in ("overlapIncludedPhases", "overlapModifierPhases"))
            if plan["overlapType"][o] == ARROW:
                is_well = bool(included) and len(turns) == 1 and turns[0] not in included
                if not is_well or any(self.bench.conc(plan, turns[0], p) for p in included):
                    found.append(ARROW_RULE)
            yellow = plan["overlapTrailYellow"][o]
            if 0 < yellow < 30 or plan["overlapTrailGreen"][o] and (yellow == 0 or plan["overlapType"][o] != 0):
                found.append(TRAIL_RULE)
        return found

    def step(self, before: State, given: tuple[Any, ...]) -> State:
        """The state after an input."""
        if given[0] != "omit":
            return super().step(before, given)
        after = before.copy()
        after.omitted = given[1]
        return after


def omitted_by(plan: Plan, action: int) -> int:
    """The arrows that an action omits."""
    return plan["actionArrowOmit"][action] if action else 0


def with_omissions(bench: Any) -> None:
    """Has sessions omit the arrows of a schedule, after its patterns, and understand `omit`."""
    answer, read_command, verdict = bench.Session.answer, bench.read_command, bench.verdict

    def follow(session: Any, before: State) -> None:
        after = session.states[-1]
        action = in_force(after)
        if after is not before and action is not None and action != in_force(before):
            wanted = omitted_by(after.plan, action)
            if wanted != after.omitted:
                session.apply(("omit", wanted))

    def answered(session: Any, command: tuple[Any, ...], out: list[str]) -> None:
        if command[0] in ("back", "seek", "undo", "show", "when"):
            answer(session, command, out)
            return
        for part in [("step", 1)] * command[1] if command[0] == "step" else [command]:
            before, count = session.states[-1], len(session.states)
            answer(session, part, out)
            if len(session.states) == count:
                return
            follow(session, before)

    def read(line: bytes, lim: Limits) -> tuple[Any, ...] | None:
        words = [it for it in line.split(b" ") if it]
        if len(line) > 200 or words[:1] != [b"omit"]:
            found: tuple[Any, ...] | None = read_command(line, lim)
            return found
        number = bench.number(words[1]) if len(words) == 2 else None
        return None if number is None else ("omit", number)

    def refused(state: State, given: tuple[Any, ...]) -> str | None:
        if given[0] == "omit":
            return "E3 OutOfRange" if given[1] >= 1 << len(numbers(state.plan)) else None
        found: str | None = verdict(state, given)
        return found

    bench.Session.answer, bench.read_command, bench.verdict = answered, read, refused


def widen(bench: Any) -> None:
    """Has events and statuses go over all overlaps of a reference."""
    count, _ = bench.V2.objects["overlapType"]
    for module in (reference_options, reference_events, reference_status):
        setattr(module, "OVERLAPS", range(1, count + 1))


def with_arrows(bench: Any) -> Any:
    """The module of a reference, with arrows and trailing overlaps from now on."""
    if "overlapTrailGreen" in bench.V2.objects:
        return bench
    widen(bench)
    count, _ = bench.V2.objects["overlapType"]
    bench.V2.objects["overlapType"] = (count, ARROW)
    OF_VERSION_3.update({name: (count, most) for name, most in OVERLAP_OBJECTS.items()} | OTHER_OBJECTS)
    STRUCTURAL.add("overlapTrailGreen")
    from tools.reference import reference_clock
    reference_clock.Clock = Arrows  # (what `with_clock` lays over)
    with_clock(bench)
    with_omissions(bench)
    bench.held_next = lambda state: reading(bench).held_next(state)
    return bench


def reading(bench: Any) -> Arrows:
    """The reading that is laid over a reference."""
    found: Arrows = bench.tick.__self__
    return found


# --- the card ---

VEHICLE, PEDESTRIAN, OVERLAP = 2, 3, 4
USUAL = {c: (VEHICLE, c) for c in range(1, 9)} | {8 + o: (OVERLAP, o) for o in range(1, 5)} | {
    12 + n: (PEDESTRIAN, 2 * n) for n in range(1, 5)}


def channels(plan: Plan) -> dict[int, tuple[int, int]]:
    """What each of the 16 channels shows, its type and its source: as is usual where the plan names none."""
    types, sources = plan["channelControlType"], plan["channelControlSource"]
    if not any(types) and not any(sources):
        return USUAL
    return {c: (types[c], sources[c]) for c in range(1, 17)}


def phases_of(bench: Any, plan: Plan, kind: int, source: int) -> list[int]:
    """The phases that light a channel, each by itself: none where it is never lit."""
    if source == 0 or kind not in (VEHICLE, PEDESTRIAN, OVERLAP):
        return []
    if kind == OVERLAP:
        included = plan["overlapIncludedPhases"][source] if source < len(plan["overlapIncludedPhases"]) else 0
        turns = plan["overlapModifierPhases"][source] if included and is_arrow(plan, source) else 0
        return bench.members(included | turns)
    is_there = plan["phaseEnabled"][source] == 1 and (kind == VEHICLE or plan["phaseWalk"][source] > 0)
    return [source] if is_there else []


def card(bench: Any, plan: Plan) -> list[tuple[int, int]]:
    """The pairs of channels that have to be permissive, in order: channels that may be lit together."""
    lit = {c: phases_of(bench, plan, *it) for c, it in channels(plan).items()}
    return [(a, b) for a in lit for b in lit
            if a < b and any(p == q or bench.conc(plan, p, q) for p in lit[a] for q in lit[b])]
