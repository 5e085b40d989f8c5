"""The clock, the offset's reference and the schedule, laid over an independent reference that has the options.

`with_clock` gives the module `tsb_oracle` of a reference the command `clock`, the object `coordReference`, and the
objects of a schedule, with rules K24 to K27. Each rule is that of docs/use/MANUAL.md. Nothing here is fast, and nothing
of it comes from the program.

A moment is counted in tenths of a second from the midnight at which the first day of `datetime.date` begins. `origin` of
a state is the moment of tick number 0, and `base` the tenths from the midnight of the pattern that runs to tick number
0: less than 0 where that midnight came later.
"""
import copy
import datetime
import itertools
import re
from collections.abc import Iterator
from typing import Any

from tools.reference.reference_options import OF_VERSION_3, Limits, Options, Pattern, Plan, State, kept, with_options

DAY, MINUTE = 864_000, 600
YEARS = range(2000, 2100)
ENTRIES, DAY_PLANS, EVENTS, ACTIONS = range(1, 33), range(1, 17), range(1, 17), range(1, 33)
FREE = 254
FREE_OPERATION = 0
CLOCK_OBJECTS = {
    "coordReference": (1, 5),
    "timeBaseScheduleMonth": (32, 8190), "timeBaseScheduleDay": (32, 254), "timeBaseScheduleDate": (64, 65535),
    "timeBaseScheduleDayPlan": (32, 16),
    "dayPlanHour": (256, 23), "dayPlanMinute": (256, 59), "dayPlanActionNumber": (256, 32),
    "timebaseAscPattern": (32, 254),
}
TWICE, WITHOUT_EVENTS, UNDEFINED, UNUSED = 24, 25, 26, 27
MOMENT = re.compile(r"(\d{4})-(\d\d)-(\d\d) (\d\d):(\d\d):(\d\d)(?:\.(\d))?", re.ASCII)


def moment_of(words: list[str]) -> int | None:
    """The moment that the words of a command name, if it is one."""
    found = MOMENT.fullmatch(" ".join(words))
    if found is None:
        return None
    year, month, day, hour, minute, second, tenth = (int(it or 0) for it in found.groups())
    try:
        date = datetime.date(year, month, day)
    except ValueError:
        return None
    if year not in YEARS or hour > 23 or minute > 59 or second > 59:
        return None
    return DAY * (date.toordinal() - 1) + 36_000 * hour + 600 * minute + 10 * second + tenth


# --- the offset, by its reference ---

class ReferredPattern(Pattern):
    """A pattern whose offset has a reference, and whose counter counts from a midnight."""

    base = 0

    def __init__(self, bench: Any, plan: Plan, lim: Limits, number: int):
        super().__init__(bench, plan, lim, number)
        order, table = plan["patternSequenceNumber"][number], plan["patternSplitNumber"][number]
        ends = {p: 10 * bench.ends_at(plan, lim, order, table, p) for p in self.coord}
        self.offset = (10 * plan["patternOffsetTime"][number] + self.later(ends)) % self.cycle

    def later(self, ends: dict[int, int]) -> int:
        """How much later the coordinated split of ring 1 ends than what the offset is of."""
        red = {p: ends[p] - self.plan["phaseRedClear"][p] for p in ends}
        yellow = {p: ends[p] - self.clearance(p) for p in ends}
        green = {p: ends[p] - 10 * self.of_split("splitTime", p) for p in ends}
        instants = [None, min(green.values()), max(green.values()), min(yellow.values()), max(yellow.values()),
                    min(red.values())]
        instant = instants[self.plan["coordReference"][1]]
        return 0 if instant is None else ends[self.first] - instant

    def in_step(self, tick: int) -> int:
        """The local counter at a tick, if it is in step then."""
        return (tick + self.base - self.offset) % self.cycle


# --- the schedule ---

def has(number: int, bit: int) -> bool:
    """Whether a sum of powers of two has this one."""
    return bool(number >> bit & 1)


def holds(plan: Plan, entry: int, date: datetime.date) -> bool:
    """Whether an entry of the schedule holds on a day, by month, day of the week and day of the month."""
    return (plan["timeBaseScheduleDayPlan"][entry] != 0
            and has(plan["timeBaseScheduleMonth"][entry], date.month)
            and has(plan["timeBaseScheduleDay"][entry], date.isoweekday() % 7 + 1)
            and has_date(plan, entry, date.day))


def has_date(plan: Plan, entry: int, day: int) -> bool:
    """Whether an entry names a day of the month: index 32 + entry has those from 16 on."""
    dates = plan["timeBaseScheduleDate"]
    return has(dates[entry] | dates[32 + entry] << 16, day)


@kept
def days_a_year(plan: Plan, entry: int) -> int:
    """How many days of a leap year an entry names by month and day of the month, times how many of the seven
    weekdays it names: seven times its days of a year, on the average."""
    days = [datetime.date(2000, 1, 1) + datetime.timedelta(k) for k in range(366)]
    named = sum(has(plan["timeBaseScheduleMonth"][entry], it.month) and has_date(plan, entry, it.day) for it in days)
    return named * sum(has(plan["timeBaseScheduleDay"][entry], weekday) for weekday in range(1, 8))


def day_plan(plan: Plan, date: datetime.date) -> int:
    """The day plan of a day: that of the entry that holds on the fewest days a year, then of the least number; 0 for
    none."""
    found = [(days_a_year(plan, it), it) for it in ENTRIES if holds(plan, it, date)]
    return plan["timeBaseScheduleDayPlan"][min(found)[1]] if found else 0


def events_of(plan: Plan, number: int) -> list[tuple[int, int]]:
    """The events of a day plan, by their minute: each with its action."""
    places = [16 * (number - 1) + event for event in EVENTS]
    events = [(60 * plan["dayPlanHour"][it] + plan["dayPlanMinute"][it], plan["dayPlanActionNumber"][it])
              for it in places]
    return sorted(it for it in events if it[1])


@kept
def action_at(plan: Plan, minutes: int) -> int:
    """The action in force so many minutes after the first midnight: that of the latest event at or before them, of this
    day or of one of the 365 before; 0 for none."""
    today, now = divmod(minutes, DAY // MINUTE)
    for back in range(366):
        date = datetime.date.fromordinal(today + 1 - back)
        number = day_plan(plan, date)
        events = events_of(plan, number) if number else []
        past = [action for minute, action in events if back or minute <= now]
        if past:
            return past[-1]
    return 0


@kept
def has_schedule(plan: Plan) -> bool:
    """Whether an entry of the schedule names a day plan."""
    return any(plan["timeBaseScheduleDayPlan"])


def in_force(state: State) -> int | None:
    """The action in force as the next tick begins: none without a clock or without a schedule."""
    if state.origin is None or not has_schedule(state.plan):
        return None
    return action_at(state.plan, (state.origin + state.now) // MINUTE)


def pattern_of(plan: Plan, action: int) -> int:
    """The pattern that an action selects; 0 for free operation."""
    number = plan["timebaseAscPattern"][action] if action else 0
    return FREE_OPERATION if number == FREE else number


def schedule_rules(plan: Plan) -> Iterator[int]:
    """The rules of schedules that a plan breaks: none of a text of an earlier version."""
    if not CLOCK_OBJECTS.keys() <= plan.keys():
        return
    for number in DAY_PLANS:
        minutes = [minute for minute, _ in events_of(plan, number)]
        if len(set(minutes)) < len(minutes):
            yield TWICE
    if any(number and not events_of(plan, number) for number in plan["timeBaseScheduleDayPlan"][1:]):
        yield WITHOUT_EVENTS
    if any(action and not plan["timebaseAscPattern"][action] for action in plan["dayPlanActionNumber"][1:]):
        yield UNDEFINED
    patterns = [it for it in plan["timebaseAscPattern"][1:] if it not in (0, FREE)]
    if any(it > 16 or not plan["patternCycleTime"][it] for it in patterns):
        yield UNUSED


# --- what is laid over ---

class Clock(Options):
    """The options, with a clock."""

    def pattern(self, state: State) -> Pattern | None:
        """The pattern that runs, if one does, with the midnight that it counts from."""
        if not self.bench.running(state):
            return None
        found = self.known.get(state.pattern)
        if found is None or found.plan is not state.plan:
            found = self.known[state.pattern] = ReferredPattern(self.bench, state.plan, state.lim, state.pattern)
        made = copy.copy(found)
        made.base = state.base
        return made

    def clear(self, state: State, count: int) -> None:
        """Makes a state that of power-up, with its clock as it was."""
        super().clear(state, count)
        state.base = 0
        state.origin = getattr(state, "origin", None)

    def step(self, before: State, given: tuple[Any, ...]) -> State:
        """The state after an input."""
        if given[0] == "pattern":
            after = self.old["step"](before, given)
            after.base = 0 if after.origin is None else self.since_midnight(after.origin, before.now)
        elif given[0] == "clock":
            after = before.copy()
            after.origin = given[1] - before.now
            after.base = self.since_midnight(after.origin, before.now) if after.pattern else before.base
        else:
            return super().step(before, given)
        after.since, after.ahead = before.now, self.ahead_when_selected(before, after)
        return after

    @staticmethod
    def since_midnight(origin: int, now: int) -> int:
        """The tenths from the midnight at or before a tick number to tick number 0."""
        return origin - (origin + now) // DAY * DAY

    def check(self, plan: Plan, lim: Limits) -> int | None:
        """The first rule that fails, if one does."""
        rule = super().check(plan, lim)
        return rule if rule is not None else min(schedule_rules(plan), default=None)


def with_schedule(bench: Any) -> None:
    """Has sessions take the patterns of a schedule, each after the input by which the action in force became another,
    and understand `clock`."""
    answer, read_command = bench.Session.answer, bench.read_command

    def follow(session: Any, before: State) -> None:
        after = session.states[-1]
        action = in_force(after)
        if after is not before and action is not None and action != in_force(before):
            session.apply(("pattern", pattern_of(after.plan, action)))

    def answered(session: Any, command: tuple[Any, ...], out: list[str]) -> None:
        if command[0] in ("back", "seek", "undo", "show", "when"):
            answer(session, command, out)
            return
        parts = [("step", 1)] * command[1] if command[0] == "step" else [command]
        for part in parts:
            before, count = session.states[-1], len(session.states)
            answer(session, part, out)
            if len(session.states) == count:
                return
            follow(session, before)

    def read(line: bytes, lim: Limits) -> tuple[Any, ...] | None:
        words = [it for it in line.split(b" ") if it]
        if len(line) > 200 or words[:1] != [b"clock"]:
            found: tuple[Any, ...] | None = read_command(line, lim)
            return found
        moment = moment_of([it.decode("ascii", "replace") for it in words[1:]])
        return None if moment is None or len(words) != 3 else ("clock", moment)

    bench.Session.answer, bench.read_command = answered, read


def with_clock(bench: Any) -> Any:
    """The module of a reference, which has options, clock and schedule from now on."""
    if CLOCK_OBJECTS.keys() <= bench.V2.objects.keys():
        return bench
    OF_VERSION_3.update(CLOCK_OBJECTS)
    bench = with_options(bench, Clock)
    with_schedule(bench)
    return bench
