"""Worked runs of `tsb_field schedule`: its words, and what it has to write, found by hand from docs/use/FIELD.md and
docs/use/MANUAL.md. Beside them are weeks at random, which tools/programs/week_rules.py reads a second time. Pictures of both are in
tools/programs/week_pictures.py.

tools/programs/run_field.py runs them with those of tools/programs/field_cases.py, in the same folder.
"""
import datetime
import json
import pathlib
import random
from collections.abc import Iterator

from tools.programs import week_rules
from tools.programs.field_cases import bad
from tools.programs.review_cases import CLEAN, Change, Table, changed
from tools.programs.run_program import ENDLESS, FULL, IS_LOG, NOT_JSON, RULE, TORN, WRITE, Run, not_read

HEAD = b"day            from    action  pattern  entry  day plan\n"
# The week of examples/schedule.json from a Sunday on. Entry 3 holds on Wednesday the 9th, with the day plan of weekends.
WEEK = HEAD + b"""\
2026-12-06 Sun 00:00        3     free      2         2
2026-12-06 Sun 10:00        2        2      2         2
2026-12-06 Sun 18:00        3     free      2         2
2026-12-07 Mon 00:00        3     free      1         1
2026-12-07 Mon 07:00        1        1      1         1
2026-12-07 Mon 09:00        2        2      1         1
2026-12-07 Mon 19:00        3     free      1         1
2026-12-08 Tue 00:00        3     free      1         1
2026-12-08 Tue 07:00        1        1      1         1
2026-12-08 Tue 09:00        2        2      1         1
2026-12-08 Tue 19:00        3     free      1         1
2026-12-09 Wed 00:00        3     free      3         2
2026-12-09 Wed 10:00        2        2      3         2
2026-12-09 Wed 18:00        3     free      3         2
2026-12-10 Thu 00:00        3     free      1         1
2026-12-10 Thu 07:00        1        1      1         1
2026-12-10 Thu 09:00        2        2      1         1
2026-12-10 Thu 19:00        3     free      1         1
2026-12-11 Fri 00:00        3     free      1         1
2026-12-11 Fri 07:00        1        1      1         1
2026-12-11 Fri 09:00        2        2      1         1
2026-12-11 Fri 19:00        3     free      1         1
2026-12-12 Sat 00:00        3     free      2         2
2026-12-12 Sat 10:00        2        2      2         2
2026-12-12 Sat 18:00        3     free      2         2
"""
# A plan without a schedule has a row for each midnight.
NONE = HEAD + b"".join(b"2024-02-%02d %s 00:00        -     free      -         -\n" % it for it in
                       zip(range(25, 30), (b"Sun", b"Mon", b"Tue", b"Wed", b"Thu"))) + b"""\
2024-03-01 Fri 00:00        -     free      -         -
2024-03-02 Sat 00:00        -     free      -         -
"""
# Days about the ends of months and years, the first and the last of the calendar among them.
DAYS = [datetime.date(2000, 1, 1), datetime.date(2024, 2, 25), datetime.date(2026, 12, 28), datetime.date(2027, 2, 26),
        datetime.date(2099, 12, 25), datetime.date(2099, 12, 31)]
WEEKS = 24


def asked(day: str, *more: str) -> list[str]:
    """The words that ask for the week from a day on."""
    return ["schedule", "--week", day, *more]


def runs() -> Iterator[Run]:
    """Plans with and without a schedule, plans that are refused, bad words, and streams and files that fail."""
    for words in [asked("2026-12-06", "schedule.json"), ["schedule", "schedule.json", "--week=2026-12-06"],
                  asked("2026-12-06", "--", "schedule.json")]:
        yield Run(words, 0, WEEK, b"", stdin=TORN)
    yield Run(asked("2024-02-25", "quad.json"), 0, NONE, b"")
    yield Run(asked("2026-12-06", "schedule.json"), 3, b"", WRITE, stdout=FULL)
    yield Run(asked("2026-12-06", "schedule.json"), 3, b"", b"", stdout=FULL, stderr=FULL)
    yield Run(asked("2026-12-06", "--svg", "schedule.json"), 3, b"", WRITE, stdin=TORN, stdout=FULL)
    for name, line in [("two_short_yellow.json", RULE), ("car.log", NOT_JSON + IS_LOG), (ENDLESS, b"plan: too large\n")]:
        yield Run(asked("2026-12-06", name), 1, b"", line, stdin=TORN)
        yield Run(asked("2026-12-06", name, "--svg"), 1, b"", line, stdin=TORN)
    for name in ["none.json", "folder", TORN]:
        yield Run(asked("2026-12-06", name), 3, b"", not_read(name), stdout="/dev/null")
    for day in ["2026-02-29", "1999-12-31", "2100-01-01", "2026-12-6", "2026-12-06 07:00:00", "", "Sunday", "2026-13-01"]:
        yield bad(asked(day, "quad.json"), stdout="/dev/null")
    for more in ["", "quad.json tee.json", "--week 2026-12-06 quad.json", "quad.json --count", "--svg",
                 "--svg quad.json --svg", "--svg=week.svg quad.json", "--svg week.svg quad.json"]:
        yield bad(asked("2026-12-06", *more.split()), stdout="/dev/null")


def dates(source: random.Random) -> list[int]:
    """What an entry names of the days of the month, in each half."""
    return source.choice([[65534, 65535], [2, 0], [0, 8192], [0, 32768], [source.randrange(65535) & ~1, source.randrange(65536)]])


def at_random(source: random.Random) -> Table:
    """A plan with a schedule that meets the rules."""
    change: Change = {"timebaseAscPattern.1": 1, "timebaseAscPattern.2": 254, "timebaseAscPattern.32": 1}
    for entry in source.sample(range(1, 33), source.randint(1, 6)):
        first, second = dates(source)
        change |= {f"timeBaseScheduleMonth.{entry}": source.choice([8190, 4, 4098, source.randrange(8191) & ~1]),
                   f"timeBaseScheduleDay.{entry}": source.choice([254, 124, 130, source.randrange(255) & ~1]),
                   f"timeBaseScheduleDate.{entry}": first, f"timeBaseScheduleDate.{32 + entry}": second,
                   f"timeBaseScheduleDayPlan.{entry}": source.randint(1, 3)}
    for day_plan in range(1, 4):
        minutes = source.sample(range(1440), 16)
        for event in source.sample(range(1, 17), source.randint(1, 5)):
            index = 16 * (day_plan - 1) + event
            hour, minute = divmod(minutes[event - 1], 60)
            change |= {f"dayPlanHour.{index}": hour, f"dayPlanMinute.{index}": minute,
                       f"dayPlanActionNumber.{index}": source.choice([1, 2, 32])}
    return changed(CLEAN, change)


def weeks_at_random(folder: pathlib.Path) -> list[tuple[str, Table, datetime.date]]:
    """Plans at random, whose files are written into this folder: the name of the file, the plan, and the first day."""
    source = random.Random(1)
    weeks = []
    for number in range(WEEKS):
        plan, day = at_random(source), source.choice(DAYS) - datetime.timedelta(source.choice([0, 0, 1, 5]))
        name = f"week_{number}.json"
        (folder / name).write_text(json.dumps({"version": 3, **plan}))
        weeks.append((name, plan, max(day, DAYS[0])))
    return weeks


def at_random_runs(weeks: list[tuple[str, Table, datetime.date]]) -> Iterator[Run]:
    """The tables of weeks at random."""
    for name, plan, day in weeks:
        yield Run(asked(f"{day}", name), 0, week_rules.week(plan, day).encode(), b"")
