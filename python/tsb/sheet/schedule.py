"""The schedule of a plan as a sheet has it: days by name, and events by the time."""

import calendar
from collections.abc import Iterable, Iterator, Sequence
from dataclasses import dataclass

from tsb.plan import Plan
from tsb.values import SUMS

FREE = 254  # what an action selects for free operation
ENTRIES, EVENTS, DAY_PLANS = 32, 16, 16
# Sunday is day 1.
WEEKDAYS = [calendar.day_abbr[(it + 6) % 7] for it in range(7)]
MONTHS = calendar.month_abbr[1:]


@dataclass(frozen=True)
class Part:
    """A table of the schedule: its title, the names of its columns, and its rows."""

    title: str
    head: Sequence[str]
    rows: Sequence[Sequence[str]]


def schedule_of(plan: Plan) -> list[Part]:
    """The tables of a schedule with a value, of a plan of the newest version."""
    head = ["entry", "months", "weekdays", "days of the month", "day plan"]
    entries = Part("On which days", head, list(_entries(plan)))
    head = ["day plan, event", "time", "action", "selects"]
    events = Part("Day plans", head, list(_events(plan)))
    parts = entries, events, _actions(plan)
    return [it for it in parts if it.rows]


def _actions(plan: Plan) -> Part:
    """A row for each action, with the arrows that it omits where one omits some."""
    selected, omitted = plan["timebaseAscPattern"], plan["actionArrowOmit"]
    head = ["action", "selects", *["arrows that do not flash"] * bool(omitted)]
    rows = [
        [str(it), _selected(selected[it]), *[_listed(omitted.phases(it))] * bool(omitted)]
        for it in sorted({*selected, *omitted})
    ]
    return Part("Actions", head, rows)


def _listed(numbers: Iterable[int]) -> str:
    """Numbers that rise, with commas between."""
    return ", ".join(map(str, sorted(numbers)))


def _entries(plan: Plan) -> Iterator[list[str]]:
    """A row for each entry with a value."""
    for number in range(1, ENTRIES + 1):
        months = _members("timeBaseScheduleMonth", plan, number)
        weekdays = _members("timeBaseScheduleDay", plan, number)
        dates = [
            *_members("timeBaseScheduleDate", plan, (1, number)),
            *_members("timeBaseScheduleDate", plan, (2, number), 1),
        ]
        day_plan = plan["timeBaseScheduleDayPlan"][number]
        if months or weekdays or dates or day_plan:
            named = [MONTHS[it - 1] for it in months]
            yield [
                str(number),
                "all" if len(named) == len(MONTHS) else ", ".join(named),
                "all" if len(weekdays) == len(WEEKDAYS)
                else ", ".join(WEEKDAYS[it - 1] for it in weekdays),
                "all" if len(dates) == 31 else runs(dates),
                str(day_plan or "none"),
            ]  # fmt: skip


def _members(
    name: str, plan: Plan, index: int | tuple[int, int], half: int = 0
) -> list[int]:
    """The months, weekdays or days of the month that a value is the sum of."""
    known, first = SUMS[name][half]
    return [it for it in known if plan[name][index] >> (it - first) & 1]


def _events(plan: Plan) -> Iterator[list[str]]:
    """A row for each event with a value."""
    hours, minutes, actions, patterns = (
        plan[it] for it in (
            "dayPlanHour", "dayPlanMinute", "dayPlanActionNumber", "timebaseAscPattern"
        )
    )  # fmt: skip
    for day_plan in range(1, DAY_PLANS + 1):
        for number in range(1, EVENTS + 1):
            at = day_plan, number
            action = actions[at]
            if action or hours[at] or minutes[at]:
                yield [
                    f"{day_plan}, {number}",
                    f"{hours[at]}:{minutes[at]:02}",
                    str(action or "none"),
                    _selected(patterns[action]) if action else "",
                ]


def _selected(number: int) -> str:
    """What an action selects."""
    if number == FREE:
        return "free operation"
    return f"pattern {number}" if number else ""


def runs(numbers: Sequence[int]) -> str:
    """Numbers that rise, with a range for three or more in a row."""
    found: list[list[int]] = []
    for it in numbers:
        if found and it == found[-1][-1] + 1:
            found[-1].append(it)
        else:
            found.append([it])
    return ", ".join(
        f"{it[0]}–{it[-1]}" if len(it) > 2 else ", ".join(map(str, it)) for it in found
    )
