"""Families of sessions with a clock: moments about a midnight, references of offsets, schedules and their commits.

A plan is one of option_plans.py as version 3, with its keys as strings, and `table` the table of its pattern 1. Each
family gives the text of an input log and commands. `with_references` gives sessions for the clock and `coordReference`
alone; `with_schedules` those with a schedule.
"""
import datetime

from tools.reference.option_families import accepted
from tools.reference.option_kit import AT_ONCE, LIMIT, MODE, a_limit, busy, chosen, steps, watched
from tools.reference.session_families import commit

REFERENCE = "coordReference"
EVERY = {"timeBaseScheduleMonth": 8190, "timeBaseScheduleDay": 254}
ALL_DATES = 4294967294
DAYS = [datetime.date(2000, 1, 1), datetime.date(2000, 2, 29), datetime.date(2024, 2, 28), datetime.date(2024, 2, 29),
        datetime.date(2026, 12, 31), datetime.date(2027, 1, 1), datetime.date(2026, 11, 29), datetime.date(2099, 12, 31)]
FREE = 254


# --- moments ---

def clock(date, tenths):
    """The command that sets a clock to so many tenths after the midnight of a day, which may be of another day."""
    days, tenths = divmod(tenths, 864_000)
    date = min(date + datetime.timedelta(days), datetime.date(2099, 12, 31))
    seconds, tenth = divmod(tenths, 10)
    time = f"{seconds // 3600:02}:{seconds // 60 % 60:02}:{seconds % 60:02}"
    return f"clock {date} {time}" + (f".{tenth}" if tenth else "")


def a_moment(rng):
    """A command that sets a clock at random: often shortly before a midnight."""
    date = rng.choice([*DAYS, datetime.date(rng.randint(2000, 2099), rng.randint(1, 12), rng.randint(1, 28))])
    return clock(date, rng.choice([0, rng.randrange(864_000), 864_000 - rng.randint(1, 900), rng.randint(0, 900)]))


def not_a_moment(rng):
    """A command that names no moment."""
    return rng.choice(["clock 2026-02-29 00:00:00", "clock 2100-01-01 00:00:00", "clock 1999-12-31 23:59:59", "clock",
                       "clock 2026-11-29 24:00:00", "clock 2026-11-29 12:60:00", "clock 2026-11-29 12:00:60",
                       "clock 2026-11-29 12:00:00.", "clock 2026-11-29 12:00:00.05", "clock 2026-11-29",
                       "clock 2026-13-01 00:00:00", "clock 2026-00-01 00:00:00", "clock 2026-04-31 00:00:00",
                       "clock 2026-1-01 00:00:00", "clock 2026-11-29 7:00:00", "clock 2026-11-29 07:00:00 Z"])


# --- clocks and references ---

def corrected(rng, plan):
    """Has counters come into step in some way, as often as not."""
    if rng.random() < 0.5:
        plan[MODE], plan[LIMIT] = {"1": rng.randint(AT_ONCE + 1, 3)}, {"1": a_limit(rng)}


def clocks(rng, plan, table):
    """Clocks that are set before, within and after patterns, and taken back."""
    corrected(rng, plan)
    found = rng.choice([[], [f"step {rng.randint(1, 40)}"]])
    for _ in range(rng.randint(2, 5)):
        found += rng.choice([[a_moment(rng)], [f"pattern {rng.randint(0, 2)}"], [a_moment(rng), "pattern 1"],
                             ["pattern 2", a_moment(rng)], [a_moment(rng), "undo"], [not_a_moment(rng)]])
        found += rng.choice([["show"], [], ["step 2", "back 1"]]) + [steps(rng, table, 0.1, 0.3)]
    return [*found, watched(rng, plan), f"seek {rng.randint(0, 60)}", "step 30"]


def midnights(rng, plan, table):
    """A pattern that runs across a midnight, and one that is selected after it."""
    corrected(rng, plan)
    before = rng.randint(1, 5 * table.cycle)
    found = [clock(rng.choice(DAYS[:-1]), -before), "pattern 1", f"step {before + rng.choice([0, 1, 2, 30])}"]
    return found + rng.choice([["pattern 1"], ["pattern 2"], ["undo"], ["pattern 0", "step 1", "pattern 1"]]) + [
        steps(rng, table, 0.3, 0.8), f"seek {before}", "pattern 1", "step 20"]


def references(rng, plan, table):
    """Offsets of each reference, and one that a commit changes."""
    found = rng.choice([[], [a_moment(rng)]]) + ["pattern 1", steps(rng, table, 0.3, 0.7)]
    found += commit(rng.randint(1, 4), [(REFERENCE, 1, rng.randint(0, 6))]) + ["show", steps(rng, table, 0.3, 0.7)]
    return [*found, "pattern 2", steps(rng, table, 0.3)]


# --- schedules ---

def a_list(rng, count):
    """A sum of powers of two of 1 to a count: of all of them, of some, or of one."""
    numbers = rng.choice([range(1, count + 1), range(1, count + 1), rng.sample(range(1, count + 1), count // 2 + 1),
                          [rng.randint(1, count)]])
    return sum(1 << number for number in numbers)


def a_schedule(rng, plan, minute):
    """Gives a plan a schedule, in which something begins at this minute of a day."""
    for name, value in EVERY.items():
        count = value.bit_length() - 1
        plan[name] = {str(entry): a_list(rng, count) if rng.random() < 0.6 else value for entry in range(1, 7)}
    plan["timeBaseScheduleDate"] = {}
    for entry in range(1, 7):
        dates = a_list(rng, 31) if rng.random() < 0.6 else ALL_DATES
        plan["timeBaseScheduleDate"] |= {str(entry): dates % 65536, str(32 + entry): dates >> 16}
    plan["timeBaseScheduleDayPlan"] = {str(entry): rng.choice([1, 1, 2, 3, 0]) for entry in range(1, 7)}
    hours, minutes, actions = {}, {}, {}
    for number in range(1, 4):
        times = {minute, *(rng.choice([minute + 1, (minute + 720) % 1440, rng.randrange(1440)]) % 1440 for _ in range(3))}
        for place, time in zip(rng.sample(range(1, 17), len(times)), times):
            index = str(16 * (number - 1) + place)
            hours[index], minutes[index], actions[index] = time // 60, time % 60, rng.randint(1, 4)
    plan["dayPlanHour"], plan["dayPlanMinute"], plan["dayPlanActionNumber"] = hours, minutes, actions
    plan["timebaseAscPattern"] = {"1": 1, "2": 2, "3": FREE, "4": rng.choice([1, 2, FREE])}


def an_edit(rng, plan, minute):
    """An edit of a schedule, often of an event that is used."""
    place = rng.choice([rng.randint(1, 48), *map(int, plan["dayPlanActionNumber"])])
    return rng.choice([("dayPlanHour", place, minute // 60), ("dayPlanMinute", place, minute % 60),
                       ("dayPlanActionNumber", place, rng.randint(0, 5)), ("timebaseAscPattern", rng.randint(1, 5), rng.choice([0, 1, 2, 3, 16, FREE])),
                       ("timeBaseScheduleDayPlan", rng.randint(1, 6), rng.randint(0, 4)),
                       ("timeBaseScheduleDay", rng.randint(1, 6), a_list(rng, 7))])


def edits(rng, plan, minute):
    """Edits of a schedule: one to three at random, or another action for each event, so that another comes into force."""
    if rng.random() < 0.3:
        return [("dayPlanActionNumber", int(place), action % 4 + 1)
                for place, action in plan["dayPlanActionNumber"].items()]
    return [an_edit(rng, plan, minute) for _ in range(rng.randint(1, 3))]


def schedules(rng, plan, table):
    """A schedule over a change of the action in force: patterns of the operator, commits, and the way back over it."""
    corrected(rng, plan)
    minute = rng.choice([0, 0, 1, 390, 1439, rng.randrange(1440)])
    a_schedule(rng, plan, minute)
    before = rng.randint(0, 300)
    found = [clock(rng.choice(DAYS), 600 * minute - before), *rng.choice([[], ["show"], ["pattern 2"], ["undo", "show"]])]
    found += [f"step {before + rng.choice([-1, 0, 1, 2])}", "show"]
    found += rng.choice([["undo", "show", "step 3"], [f"seek {max(before - 2, 0)}", "step 4"], ["pattern 2", "step 2"],
                         ["back 1", "step 2"], [a_moment(rng), "step 2"], ["undo", "undo", "undo", "step 5"]])
    for _ in range(rng.choice([0, 1, 1, 3])):
        found += commit(rng.randint(1, 4), edits(rng, plan, minute)) + ["show", "step 3"]
    return [*found, f"step {rng.randint(1, 700)}", "show", watched(rng, plan)]


FAMILIES = [clocks, midnights, references]


def clock_session(reference, rng, seed, is_scheduled):
    """The plan, log and commands of a seed."""
    family = schedules if is_scheduled else FAMILIES[seed % len(FAMILIES)]
    plan, table = accepted(reference, rng, None, rng.random() < 0.25)
    plan |= chosen(rng, seed, plan) | {"version": 3}
    if rng.random() < 0.7:
        plan[REFERENCE] = {"1": rng.randint(0, 5)}
    log = busy(rng, plan, 6 * table.cycle, rng.choice([0, 2, 4]))
    while True:
        commands = family(rng, plan, table)
        if reference.accepts(plan):
            return plan, log, commands
