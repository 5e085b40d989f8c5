"""The runs of a sweep: tasks that read files, and write one file of a table."""

import hashlib
import io
import json
import re
import tempfile
import warnings
from collections.abc import Callable, Iterable, Iterator, Sequence
from dataclasses import dataclass
from functools import lru_cache
from os import PathLike
from pathlib import Path

import numpy as np
import pandas as pd

from tsb import kept, programs
from tsb.errors import Error, PlanFault, ProgramDied
from tsb.files import word
from tsb.frames import (
    events_of_export,
    gap_told,
    log_of_export,
    moment,
    read_export,
    spelled,
)
from tsb.measures import MEASURES
from tsb.plan import Plan
from tsb.rows import Log

AnyPath = str | PathLike[str]
#: A measure by its name in `tsb.measures`, or a function of events and their plan.
Measure = str | Callable[[pd.DataFrame, Plan], pd.DataFrame]
#: What went wrong with a run, if something did, and the notes on it.
Told = tuple[str | None, tuple[str, ...]]

POWER_UP = "2000-01-01 00:00:00"  # when tick 1 begins, where no day says it
MIDNIGHT = POWER_UP[11:]
DATE = re.compile(r"\d{4}-\d{2}-\d{2}")
TRIPS = "trips"  # the measure of trips, which traffic alone has


@dataclass(frozen=True)
class Day:
    """A run of a plan on a day: an event log of a street's controller (CSV, or Parquet
    where pyarrow is there), or a log of inputs (`.log`).

    `begin` is the time at which tick 1 begins, to which the clock of the run is set,
    unless it has `no_clock`; without a date, the day is the file's name, as
    `2026-11-22.csv`. A log of inputs may be named by none, and then has that of
    power-up, a Saturday. It begins with its tick 1. The run takes `seconds`, in
    `pattern` (0 is free), on the rows of `device`, or of all.
    """

    plan: str
    source: str
    begin: str
    seconds: int
    device: str | None
    pattern: int
    no_clock: bool = False

    @property
    def reads(self) -> list[str]:
        """The files that it reads."""
        return [self.plan, self.source]

    @property
    def name(self) -> str:
        """The name of the day."""
        return Path(self.source).stem

    @property
    def asked(self) -> list[object]:
        """What is asked beside the files."""
        return [self.begin, self.seconds, self.device, self.pattern, self.no_clock]

    def tables(self, measures: Sequence[Measure]) -> Iterator[tuple[str, pd.DataFrame]]:
        """The table of each measure."""
        log, begin = self._log(), None if self.no_clock else self._start()
        yield from _measured(
            self.plan, log, self.seconds, self.pattern, measures, begin
        )
        if begin is not None and not self._day:
            _warn_of_weekday(self.plan, begin)

    @property
    def _is_log(self) -> bool:
        """Whether it is a log of inputs."""
        return Path(self.source).suffix == ".log"

    def _log(self) -> Log:
        if self._is_log:
            return Log.read(self.source)
        changed = Path(self.source).stat().st_mtime_ns
        log, notes = _log_of_day(self.source, changed, self._start(), self.device)
        for it in notes:
            warnings.warn(f"{Path(self.source).name}: {it}", stacklevel=2)
        return log

    @property
    def _day(self) -> str | None:
        """The day that is named, by the begin or by the file."""
        named = DATE.match(self.begin) or DATE.fullmatch(self.name)
        return None if named is None else named[0]

    def _start(self) -> str:
        if self._day is None and not self._is_log:
            raise Error(f"{self.source}: name it by its day, or begin with a date")
        return _start(self.begin, self._day)


def _start(begin: str, day: str | None) -> str:
    """The moment of a begin, on this day where it has none, or on that of power-up."""
    dated = begin if DATE.match(begin) else f"{day or POWER_UP[:10]} {begin}"
    return spelled(moment(dated, "--begin"))


def _warn_of_weekday(plan: AnyPath, start: str) -> None:
    """Says on which weekday a schedule runs, if the plan has one."""
    if Plan.read(plan).has_schedule:
        warnings.warn(weekday_told(plan, start), stacklevel=3)


def weekday_told(plan: AnyPath, start: str) -> str:
    """On which weekday the schedule of a plan runs where no day is named."""
    said = f"{Path(plan).name} has a schedule, and no day is named: tick 1 begins on a"
    return f"{said} {pd.Timestamp(start).day_name()}, {start}"


@lru_cache(maxsize=4)
def _log_of_day(
    path: str, changed: int, start: str, device: str | None
) -> tuple[Log, tuple[str, ...]]:
    """The inputs of a day of events, and the notes on it. It is read once for many
    plans."""
    with warnings.catch_warnings(record=True) as told:
        warnings.simplefilter("always", UserWarning)
        export = read_export(path)
        if device is not None:
            export = export[export["device"] == device]
        if (several := export["device"].nunique()) > 1:
            raise Error(f"{path}: rows of {several} devices: name one by --device")
        gap = gap_told(export)
        log = log_of_export(export, start, device)
    return log, (*_notes(told), *([gap] if gap else []))


def _notes(told: Iterable[warnings.WarningMessage]) -> tuple[str, ...]:
    """What warnings say that are for a person, each once."""
    found = [str(it.message) for it in told if it.category is UserWarning]
    return tuple(dict.fromkeys(found))


@dataclass(frozen=True)
class Traffic:
    """Traffic of SUMO for a sweep: the same net, routes and mapping with many seeds.
    `{seed}` in `routes` and `additional` (files with commas between) is the seed."""

    net: str
    routes: str
    mapping: str
    additional: str = ""


@dataclass(frozen=True)
class Seed:
    """A run of a plan on traffic of SUMO with a seed, for so many seconds, in a pattern
    (0 is free).

    `begin` is the time at which tick 1 begins, to which the clock is set; without a
    date the day is that of power-up, a Saturday. Without it, and with `no_clock`, there
    is no clock; but a plan with a schedule then begins at midnight, unless it has
    `no_clock`.
    """

    plan: str
    traffic: Traffic
    seed: int
    seconds: int
    pattern: int
    begin: str | None = None
    no_clock: bool = False

    def _files(self, names: str) -> list[str]:
        return [it.format(seed=self.seed) for it in names.split(",") if it]

    @property
    def reads(self) -> list[str]:
        """The files that it reads."""
        of = self.traffic
        files = [*self._files(of.routes), *self._files(of.additional)]
        return [self.plan, of.net, of.mapping, *files]

    @property
    def name(self) -> str:
        """The name of the seed."""
        return f"seed{self.seed}"

    @property
    def asked(self) -> list[object]:
        """What is asked beside the files."""
        clock = [self.begin, self.no_clock]
        return [self.seed, self.seconds, self.pattern, *(clock if any(clock) else [])]

    def _clock(self) -> str | None:
        """The time to which the clock is set, if it is."""
        if self.no_clock or not (self.begin or Plan.read(self.plan).has_schedule):
            return None
        return _start(self.begin or MIDNIGHT, None)

    def tables(self, measures: Sequence[Measure]) -> Iterator[tuple[str, pd.DataFrame]]:
        """The table of each measure; `trips` is that of the trips."""
        from tsb.sumo import Intersection, Loop, read_trips, summary
        from tsb.sumo.command import log_of

        of = self.traffic
        at = Intersection.of(of.net, None, of.mapping, self.plan)
        clock = self._clock()
        if clock is not None and not DATE.match(self.begin or ""):
            _warn_of_weekday(self.plan, clock)
        with tempfile.TemporaryDirectory() as folder:
            trips = Path(folder) / "trips.xml"
            with Loop(
                of.net, self._files(of.routes), at,
                additional=self._files(of.additional), seed=self.seed, trips=trips,
                begin=clock,
            ) as loop:  # fmt: skip
                if self.pattern:
                    loop.benches[at.tls].set_pattern(self.pattern)
                loop.run(10 * self.seconds)
                log = log_of(loop.rows(at.tls))
            if TRIPS in measures:
                table = summary(read_trips(trips))
                yield TRIPS, table.rename_axis("kind").reset_index()
        others = [it for it in measures if it != TRIPS]
        yield from _measured(self.plan, log, self.seconds, self.pattern, others, clock)


Task = Day | Seed


def _measured(
    plan: str,
    log: Log,
    seconds: int,
    pattern: int,
    measures: Sequence[Measure],
    begin: str | None,
) -> Iterator[tuple[str, pd.DataFrame]]:
    """The measures of the events of a plan on a log, with a clock where tick 1 begins
    at a time."""
    if not measures:
        return
    # (with the calls of recalls, from which waits of phases on recall are)
    events = record(plan, log, seconds, pattern, recalls=True, begin=begin)
    read = Plan.read(plan)
    for it in measures:
        found = (MEASURES[it] if isinstance(it, str) else it)(events, read)
        named = any(name is not None for name in found.index.names)
        yield name_of(it), found.reset_index() if named else found


def record(
    plan: AnyPath,
    log: Log,
    seconds: int,
    pattern: int = 0,
    *,
    recalls: bool = False,
    outputs: bool = False,
    begin: str | None = None,
) -> pd.DataFrame:
    """The events of a plan that runs for so long on a log, from power-up on: as
    `recorded` gives them."""
    selected = f"pattern {pattern}\n" if pattern else ""
    commands = f"{selected}step {10 * seconds}\n"
    return recorded(plan, log, commands, recalls=recalls, outputs=outputs, begin=begin)


def recorded(
    plan: AnyPath,
    log: Log,
    commands: str,
    *,
    recalls: bool = False,
    outputs: bool = False,
    begin: str | None = None,
) -> pd.DataFrame:
    """The events of a session of a plan on a log, by `tsb_field record`: `tick`,
    `code`, `parameter`. With `recalls` they have the calls of phases on recall, and
    with `outputs` those of detectors after delay and extension, in place of their
    inputs. Its clock is set to `begin`, the time at which tick 1 begins; without one it
    has no clock, and offsets count from tick 0. `PlanFault` is a plan that is refused,
    `ProgramDied` a command that is, or a `begin` that no clock has."""
    start = POWER_UP if begin is None else spelled(moment(begin, "begin"))
    with tempfile.TemporaryDirectory() as folder:
        path = Path(folder) / "inputs.log"
        log.write(path)
        words = ["record", f"--from={start}", "--device=1", word(plan), str(path)]
        words += ["--recalls"] * recalls + ["--outputs"] * outputs
        words += ["--no-clock"] * (begin is None)
        try:
            done = programs.run("tsb_field", words, commands.encode())
        except ProgramDied as died:
            if died.stderr.startswith("plan: "):
                raise PlanFault(died.stderr.strip()) from None
            raise
        if done.stderr:
            raise Error(f"{plan}: {done.stderr.decode().strip()}")
        return events_of_record(done.stdout, start)


def events_of_record(text: bytes, start: str = POWER_UP) -> pd.DataFrame:
    """The events of the text of a record, whose tick 1 begins at the start: `tick`,
    `code`, `parameter`. A day of it has 300,000 rows, so it is read as what it is."""
    names = {"device": str, "time": str, "code": np.int64, "parameter": np.int64}
    rows = pd.read_csv(io.BytesIO(text), skiprows=1, names=list(names), dtype=names)
    return events_of_export(rows.assign(time=pd.to_datetime(rows["time"])), start)


def name_of(measure: Measure) -> str:
    """The name of a measure."""
    return measure if isinstance(measure, str) else measure.__name__


def one_run(task: Task, folder: str, name: str, measures: Sequence[Measure]) -> str:
    """Runs a task, and keeps its table in a folder: the name of its file, which is
    there once it is whole."""
    tables = [
        table.assign(plan=Path(task.plan).stem, day=task.name, measure=measure)
        for measure, table in task.tables(measures)
    ]
    first = ["plan", "day", "measure"]
    table = pd.concat(tables, ignore_index=True)
    table = table[first + [it for it in table.columns if it not in first]]
    text: str = table.to_csv(index=False)
    return kept.keep(Path(folder), name, text.encode()).name


def tried(task: Task, folder: str, name: str, measures: Sequence[Measure]) -> Told:
    """Runs a task as `one_run`: what went wrong, or None, and the notes on it."""
    with warnings.catch_warnings(record=True) as told:
        warnings.simplefilter("always", UserWarning)
        fault = _fault_of(task, folder, name, measures)
    return fault, _notes(told)


def _fault_of(
    task: Task, folder: str, name: str, measures: Sequence[Measure]
) -> str | None:
    """Runs a task as `one_run`: what went wrong, or None."""
    try:
        one_run(task, folder, name, measures)
    except OSError as fault:
        # (the same of all runs that a full disk ends)
        mine = fault.filename is None or Path(fault.filename).parent == Path(folder)
        return f"{folder if mine else fault.filename}: {fault.strerror or fault}"
    except Exception as fault:
        return f"{type(fault).__name__}: {fault}"
    return None


@lru_cache(maxsize=None)
def _sum(path: str, changed: int) -> str:
    with Path(path).open("rb") as file:
        return hashlib.file_digest(file, "sha256").hexdigest()


def key_of(task: Task, measures: Sequence[Measure]) -> str:
    """What parts a run from one with another plan, day or question: a sum of all of
    them. (A measure counts by its name.)"""
    missing = [it for it in task.reads if not Path(it).is_file()]
    if missing:
        raise Error(f"{missing[0]}: there is no such file")
    sums = [_sum(it, Path(it).stat().st_mtime_ns) for it in task.reads]
    asked = [sums, task.asked, sorted(map(name_of, measures))]
    return hashlib.sha256(json.dumps(asked).encode()).hexdigest()[:10]
