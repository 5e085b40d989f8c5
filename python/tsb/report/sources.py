"""From the words of a report to its runs."""

import argparse
import warnings
from collections.abc import Iterator
from concurrent.futures import ThreadPoolExecutor
from pathlib import Path

import pandas as pd

from tsb.errors import Error
from tsb.files import read
from tsb.frames import gap_told, log_of_export, read_export
from tsb.plan import Plan
from tsb.report.runs import (
    MINUTE,
    Run,
    Session,
    earlier,
    moment,
    of_plan,
    of_rows,
    whole_minutes,
    with_inputs_of,
)
from tsb.rows import Log
from tsb.tasks import POWER_UP, weekday_told

COMMANDS_LONGEST = 16 << 20  # bytes of commands
# A bench that is compared with a street runs up to so long before.
LEAD = pd.Timedelta(minutes=15)


def runs_of(given: argparse.Namespace) -> list[Run]:
    """The run, or the two, that the words ask for."""
    if given.events_a is not None:
        return list(_kept(given))
    rows = pd.DataFrame() if given.export is None else _rows(given.export, given.device)
    lead = _lead(given, rows)
    log = _inputs(given, rows, lead)
    commands, ticks = _session(given, log, rows)
    start = given.begin or POWER_UP
    has_clock = _has_clock(given)
    # (beside a street, which gives no calls of recalls, the bench gives none)
    session = Session(log, start, commands, ticks, not given.street, has_clock, lead)
    facts = [f"inputs of {(given.log or given.export).name}"]
    named = start if given.begin is None else "--from"
    facts += [f"its clock set to {named}"] * (has_clock and not lead)

    def run(plan: Path, pattern: int | None) -> Run:
        name = f"{plan.stem}, pattern {pattern}" if pattern else plan.stem
        selected = f"pattern {pattern}\n" if pattern else ""
        return of_plan(name, plan, session, selected, facts)

    asked = [(given.plan_a, given.pattern_a), (given.plan_b, given.pattern_b)]
    with ThreadPoolExecutor() as both:  # (two processes of the bench)
        made = [both.submit(run, *it) for it in asked if it[0] is not None]
        runs = [it.result() for it in made]
    if given.street:
        street = of_rows(given.export, rows, start, runs[0].ticks, None, "street")
        runs.insert(0, with_inputs_of(street, runs[0]))
    return runs


def _has_clock(given: argparse.Namespace) -> bool:
    """Whether the clocks of the benches are set: where a begin is named, or where a
    plan has a schedule, which acts by a clock alone."""
    if given.no_clock or given.begin is not None:
        return not given.no_clock
    plans = (it for it in (given.plan_a, given.plan_b) if it is not None)
    of = next(filter(_has_schedule, plans), None)
    if of is not None:
        warnings.warn(weekday_told(of, POWER_UP), stacklevel=3)
    return of is not None


def _has_schedule(path: Path) -> bool:
    """Whether a plan has a schedule; of one that is refused its run says why."""
    try:
        return Plan.read(path).has_schedule
    except (Error, OSError):
        return False


def _kept(given: argparse.Namespace) -> Iterator[Run]:
    """The runs of events that were kept."""
    ticks = None if given.seconds is None else 10 * given.seconds
    for path, plan in [(given.events_a, given.plan_a), (given.events_b, given.plan_b)]:
        if path is not None:
            known = None if plan is None else _plan(plan)
            yield of_rows(path, _rows(path, given.device), given.begin, ticks, known)


def _plan(path: Path) -> Plan:
    try:
        return Plan.read(path).wide()
    except Error as fault:
        raise Error(f"{path}: {fault}") from None


def _rows(path: Path, device: str | None) -> pd.DataFrame:
    """The rows of an event log, of a device alone if one is named."""
    try:
        found = read_export(path)
    except UnicodeDecodeError:
        raise Error(f"{path}: it is no text in UTF-8") from None
    except (Error, ValueError, OverflowError) as fault:
        said = " ".join(str(fault).removeprefix(f"{path}: ").split())
        raise Error(f"{path}: {said}") from None
    if device is not None:
        found = found[found["device"] == device].reset_index(drop=True)
    if found.empty:
        raise Error(f"{path}: no events")
    if (devices := found["device"].nunique()) > 1:
        raise Error(f"{path}: rows of {devices} devices: name one by --device")
    if gap := gap_told(found):
        warnings.warn(f"{path.name}: {gap}", stacklevel=2)
    return found


def _lead(given: argparse.Namespace, rows: pd.DataFrame) -> int:
    """For how many ticks the bench runs before the begin: beside a street that runs
    already, by a clock, for the whole minutes that its rows have, up to `LEAD`."""
    if not given.street or given.no_clock or given.commands is not None:
        return 0
    before = pd.Timestamp(moment(given.begin)) - rows["time"].min()
    return MINUTE * max(int(min(before, LEAD) // pd.Timedelta(minutes=1)), 0)


def _inputs(given: argparse.Namespace, rows: pd.DataFrame, lead: int) -> Log:
    """The log that plans run on: of an export, from so many ticks before the begin."""
    if given.log is not None:
        return _log(given.log)
    try:
        return log_of_export(
            rows, earlier(given.begin, lead), vehicles=dict(given.vehicle),
            pedestrians=dict(given.pedestrian), preempts=dict(given.preempt),
        )  # fmt: skip
    except Error as fault:
        raise Error(f"{given.export}: {fault}") from None


def _log(path: Path) -> Log:
    try:
        return Log.read(path)
    except Error as fault:
        raise Error(f"{path}: {fault}") from None


def _session(
    given: argparse.Namespace, log: Log, rows: pd.DataFrame
) -> tuple[str, int | None]:
    """The commands of a session, and how many ticks it has, where that is known."""
    if given.commands is not None:
        text = read(given.commands, COMMANDS_LONGEST)
        return text.decode("utf-8", "replace"), None
    ticks = 10 * given.seconds if given.seconds else _length(given, log, rows)
    return f"step {ticks}\n", ticks


def _length(given: argparse.Namespace, log: Log, rows: pd.DataFrame) -> int:
    """The whole minutes up to the last row of the log or the export."""
    last = log.ticks[-1] if log.ticks else 0
    if given.export is not None:
        since = rows["time"].max() - pd.Timestamp(moment(given.begin))
        last = int(since // pd.Timedelta("100ms")) + 1
    if last < 1:
        source = given.log or given.export
        raise Error(f"{source}: it has no last row: say how long by --seconds")
    return whole_minutes(last)
