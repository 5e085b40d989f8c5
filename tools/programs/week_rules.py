"""What `tsb_field schedule` writes, read a second time: from docs/use/MANUAL.md, "The schedule", from docs/use/FIELD.md and
the plan's JSON, and from nothing of the crates.
"""
import datetime
import functools
import itertools

from tools.programs.review_rules import FREE, MONTHS, Plan, Table

HEAD = "day            from    action  pattern  entry  day plan\n"
MINUTES = 1440  # of a day
WEEK = 7 * MINUTES
DAYS = 366  # that events are sought in, with the day itself

# A band of the picture of a week: its day, 0 to 6; its first minute and the minute after its last, of that day; its pattern,
# 0 for free; its action, 0 for none.
Band = tuple[int, int, int, int, int]


class Schedule:
    """The schedule of a plan. What it says of an entry or of a day is kept."""

    def __init__(self, text: Table) -> None:
        self.plan = Plan(text)
        self.days_a_year = functools.cache(self._days_a_year)
        self.entry_of = functools.cache(self._entry_of)
        self.events_of = functools.cache(self._events_of)

    def _days_a_year(self, entry: int) -> int:
        """Seven times the days of a leap year that an entry names, on the average of the weekdays."""
        names = self.plan.names_date
        dates = sum(names(entry, month, day) for month, most in MONTHS.items() for day in range(1, most + 1))
        return dates * sum(self.plan.names_weekday(entry, weekday) for weekday in range(1, 8))

    def _entry_of(self, date: datetime.date) -> int:
        """The entry that holds of a day, 0 for none."""
        found = self.plan.entries(date.month, date.day, date.isoweekday() % 7 + 1)
        return min(found, key=lambda e: (self.days_a_year(e), e)) if found else 0

    def day_plan_of(self, date: datetime.date) -> int:
        """Its day plan, 0 for none."""
        return self.plan.value("timeBaseScheduleDayPlan", self.entry_of(date))

    def _events_of(self, date: datetime.date) -> list[tuple[int, int]]:
        """The events of a day in their order: minute and action."""
        number = self.day_plan_of(date)
        return sorted((self.plan.minute(number, k), self.plan.action(number, k)) for k in self.plan.events(number) if number)

    def action_at(self, moment: datetime.datetime) -> int:
        """The action in force: that of the latest event, of a day at most a year before; 0 for none."""
        now = 60 * moment.hour + moment.minute
        for back in range(DAYS):
            events = self.events_of(moment.date() - datetime.timedelta(back))
            past = [action for minute, action in events if back or minute <= now]
            if past:
                return past[-1]
        return 0

    def pattern_of(self, action: int) -> int:
        """The pattern that an action selects, 0 for free."""
        asked = self.plan.value("timebaseAscPattern", action)
        return 0 if asked == FREE else asked

    def row(self, moment: datetime.datetime) -> str:
        """The row of a moment."""
        action = self.action_at(moment)
        pattern = self.pattern_of(action) or "free"
        date = moment.date()
        entry, day_plan = (it or "-" for it in (self.entry_of(date), self.day_plan_of(date)))
        return f"{moment:%Y-%m-%d %a %H:%M}{action or '-':>9}{pattern:>9}{entry:>7}{day_plan:>10}\n"


def week(text: Table, first: datetime.date) -> str:
    """The table of a week: a row for each midnight, and for each minute with which another action comes into force."""
    schedule = Schedule(text)
    begin = datetime.datetime.combine(first, datetime.time())
    moments = [begin + datetime.timedelta(minutes=it) for it in range(-1, WEEK)]
    actions = [schedule.action_at(it) for it in moments]
    rows = [schedule.row(it) for number, it in enumerate(moments) if number
            and ((number - 1) % MINUTES == 0 or actions[number] != actions[number - 1])]
    return HEAD + "".join(rows)


def bands(text: Table, first: datetime.date) -> list[Band]:
    """The bands of a week: of each day, the minutes that follow one another with one action."""
    schedule = Schedule(text)
    found = []
    for day in range(7):
        midnight = datetime.datetime.combine(first + datetime.timedelta(day), datetime.time())
        actions = [schedule.action_at(midnight + datetime.timedelta(minutes=it)) for it in range(MINUTES)]
        begin = 0
        for action, run in itertools.groupby(actions):
            end = begin + len(list(run))
            found.append((day, begin, end, schedule.pattern_of(action), action))
            begin = end
    return found
