"""Field files, for tools/speed: what the filters of tsb_field take for ten hours of traffic, and for a day."""

import os
import pathlib
import time
from concurrent.futures import ThreadPoolExecutor

from tools.programs import made_traffic
from tools.programs.field_cases import FROM
from tools.speed.kit import Counted, Files, Run, Setup, Table, count_ahead, counts, in_turn, memory_of
from tools.speed.sessions import PLAN
from tools.speed.texts import advised_plan, export_rows, plan_texts

HOURS, SEED, EXPORT = 10, 2, 2_000_000
TICKS_AN_HOUR = 36_000
MILLI, MILLION = 1e-3, 1e6

# How many logs there are for the days that are recorded.
LOGS = 4


def traffic(files: Files, seed: int, hours: int) -> str:
    """The file of a log of made-up traffic."""
    return files.path(f"traffic-{seed}-{hours}.log", lambda: b"".join(made_traffic.rows(seed, 3600 * hours)))


def display_lines(files: Files, tsb: str, log: str, hours: int) -> pathlib.Path:
    """The file of the display lines of some hours."""
    path = files.folder / "lines"
    Run((tsb, "run", PLAN, log), b"step %d\n" % (hours * TICKS_AN_HOUR), path).carried_out()
    return path


def record(field: str, log: str, hours: int, told: pathlib.Path) -> Run:
    """The record of some hours."""
    words = (field, "record", *FROM, "--device=1001", PLAN, log)
    return Run(words, b"step %d\n" % (hours * TICKS_AN_HOUR), told)


def runs_of(setup: Setup, field: str) -> dict[str, Run]:
    """The runs of filters by what they are; each writes to a file."""
    files, part = setup.files, setup.part
    hours, day = max(HOURS // part, 1), max(24 // part, 1)
    folder, log = files.folder, traffic(files, SEED, hours)
    lines, events = display_lines(files, setup.programs[0], log, hours), folder / "events"
    export = pathlib.Path(files.path("export", lambda: b"".join(export_rows(EXPORT // part, SEED))))
    told, device = folder / "told", (*FROM, "--device=1001")
    reviews = {"a plan of 63 lines of advice": advised_plan(), "a plan text of 1 MiB": list(plan_texts().values())[2]}
    plans = {name: files.path(f"review-{place}.json", lambda it=text: it)
             for place, (name, text) in enumerate(reviews.items())}
    return {
        "`record` of a day": record(field, traffic(files, SEED, day), day, told),
        "`events` of ten hours": Run((field, "events", *device), lines, told),
        "`events --log`": Run((field, "events", *device, "--log", log), lines, events),
        "`diagram` of ten hours": Run((field, "diagram"), lines, told),
        "`diagram --log`": Run((field, "diagram", "--log", log), lines, told),
        "`log` of those events": Run((field, "log", *FROM), events, told),
        "`log` of 2,000,000 rows": Run((field, "log", *device), export, told),
        "`log --sort` of 2,000,000 rows": Run((field, "log", *device, "--sort"), export, told),
        "`review` of `quad`": Run((field, "review", PLAN), b"", told),
        **{f"`review` of {name}": Run((field, "review", path), b"", told) for name, path in plans.items()},
    }


def size_of(*paths: pathlib.Path) -> str:
    """How long some files are together."""
    size = sum(it.stat().st_size for it in paths)
    return f"{size / MILLION:.1f} MB" if size > MILLION / 20 else f"{size / 1000:.1f} kB"


def reads(run: Run) -> str:
    """How much a run reads of files."""
    named = [it for it in map(pathlib.Path, run.words[1:]) if it.is_file()]
    return size_of(*named, *([run.given] if isinstance(run.given, pathlib.Path) else []))


def filters(setup: Setup, field: str) -> list[list[str]]:
    """Rows of the table: the filters."""
    found, rows = runs_of(setup, field), []
    for name, run in found.items():
        times, = in_turn([run.carried_out], setup.runs)
        rows.append([name, reads(run), size_of(run.told), times.text(MILLI), f"{memory_of(run):.1f} MiB"])
    counted = [Counted(run) for run in found.values()]
    count_ahead(counted, setup.processes)
    return [[*row, *counts([it], MILLION)] for row, it in zip(rows, counted, strict=True)]


def days(setup: Setup, field: str, count: int) -> list[str]:
    """A row of the table: how many days are recorded in a second, as many at a time as there are processors."""
    hours = max(24 // setup.part, 1)
    logs = [traffic(setup.files, seed, hours) for seed in range(LOGS)]
    processes = os.cpu_count() or 1
    begun = time.perf_counter()
    with ThreadPoolExecutor(processes) as pool:
        day = [record(field, logs[it % LOGS], hours, pathlib.Path(os.devnull)) for it in range(count)]
        list(pool.map(Run.carried_out, day))
    seconds = time.perf_counter() - begun
    what = f"`record` of {count} days, {processes} at a time"
    return [what, "", "", f"{1000 * seconds:,.0f}: {count / seconds:.1f} days a second", "", ""]


def field_files(setup: Setup, field: str, count: int) -> Table:
    """The table of field files."""
    rows = [*filters(setup, field), days(setup, field, count)]
    return Table("files", ["Filter", "Reads", "Writes", "ms", "Memory", "Million instructions"], rows)
