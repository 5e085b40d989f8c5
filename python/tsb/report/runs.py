"""The runs of a report: events of a bench, of a street, or of a file."""

from collections.abc import Mapping, Sequence
from dataclasses import dataclass, field
from pathlib import Path

import numpy as np
import pandas as pd

from tsb import frames
from tsb.errors import Error, PlanFault, ProgramDied
from tsb.frames import events_of_export, spelled
from tsb.plan import Plan
from tsb.rows import Log
from tsb.tasks import recorded

MINUTE = 600  # ticks
# Codes of what detectors, buttons and preempt inputs do.
INPUTS = (81, 82, 89, 90, 102, 104)
# Those of the pattern that runs: its number, cycle, offset and splits.
PATTERN = range(131, 150)


@dataclass(frozen=True)
class Run:
    """A run: its name, its events (`tick`, `code`, `parameter`) up to its last tick,
    the time at which tick 1 begins, the plan that says which detector calls which
    phase (or None), and how it came about, a line for each fact. Where it
    `is_observed`, nobody knows what ran before its first event of that."""

    name: str
    events: pd.DataFrame
    start: np.datetime64
    ticks: int
    plan: Plan | None
    facts: Sequence[str] = field(default=())
    is_observed: bool = False

    @property
    def phases(self) -> Mapping[int, int]:
        """The phase of each vehicle detector that calls one."""
        return {} if self.plan is None else dict(self.plan["vehicleDetectorCallPhase"])

    def time(self, tick: int) -> pd.Timestamp:
        """The moment at which a tick begins."""
        return pd.Timestamp(self.start) + pd.Timedelta(milliseconds=100 * (tick - 1))


def moment(text: str) -> np.datetime64:
    """The moment of a text as `2026-11-22 07:00:00`."""
    return frames.moment(text, "--from")


def earlier(begin: str, lead: int) -> str:
    """The text of the moment so many ticks before one."""
    return spelled(moment(begin) - np.timedelta64(100 * lead, "ms"))


def whole_minutes(tick: int) -> int:
    """The ticks up to the end of the minute that a tick is in."""
    return -(-tick // MINUTE) * MINUTE


@dataclass(frozen=True)
class Session:
    """What plans run on: a log, the time at which tick 1 begins, the commands after
    those of a pattern, and how many ticks they let pass (None where the last event says
    it). Then whether calls of recalls count, which the events of a street do not have,
    and whether the clock is set to tick 1. The bench runs for `lead` ticks before that,
    on the first rows of the log."""

    log: Log
    start: str
    commands: str
    ticks: int | None
    recalls: bool
    has_clock: bool
    lead: int = 0


def _after(events: pd.DataFrame, lead: int) -> pd.DataFrame:
    """Events after so many ticks; those that say which pattern runs are kept, as of
    tick 1."""
    table = events.assign(tick=events["tick"] - lead)
    old = table[table["tick"] < 1]
    old = old[old["code"].isin(PATTERN)].drop_duplicates("code", keep="last")
    parts = [old.assign(tick=1), table[table["tick"] >= 1]]
    return pd.concat(parts, ignore_index=True)


def of_plan(
    name: str, path: Path, session: Session, selected: str, facts: Sequence[str]
) -> Run:
    """The run of a plan in a session, after the command that selects its pattern: the
    bench is asked (`tsb_field record`)."""
    lead = session.lead
    begin = earlier(session.start, lead) if session.has_clock else None
    before = f"step {lead}\n" if lead else ""
    commands = selected + before + session.commands
    try:
        events = recorded(
            path, session.log, commands, recalls=session.recalls, begin=begin
        )
    except ProgramDied as died:
        said = died.stderr.strip() or str(died)
        raise Error(f"{path}: {said.splitlines()[0]}") from None
    except PlanFault as fault:
        raise Error(f"{path}: {fault}") from None
    events = _after(events, lead) if lead else events
    last = int(events["tick"].max()) if len(events) else 0
    since = f" {lead // MINUTE} min before, by the clock" if lead else ""
    return Run(
        name,
        events,
        moment(session.start),
        last if session.ticks is None else session.ticks,
        Plan.read(path).wide(),
        [f"plan {path.name}, on the bench from power-up{since}", *facts],
    )


def of_rows(
    path: Path,
    export: pd.DataFrame,
    start: str | None,
    ticks: int | None,
    plan: Plan | None,
    name: str | None = None,
) -> Run:
    """The run that rows of events show (`tsb.frames.read_export`; there are some): of
    a street, or of a record that was kept. Without a start they begin with their
    first row."""
    begin = export["time"].min() if start is None else moment(start)
    ordered = _with_pattern(export.sort_values("time", kind="stable"), begin)
    events = events_of_export(ordered, str(begin))
    if ticks is not None:
        events = events[events["tick"] <= ticks].reset_index(drop=True)
    if events.empty:
        raise Error(f"{path}: no events from {start or begin} on")
    last = int(events["tick"].max()) if ticks is None else ticks
    return Run(
        name or path.stem,
        events,
        np.datetime64(begin, "ns"),
        last,
        plan,
        [f"events of {path.name}"],
        is_observed=True,
    )


def _with_pattern(rows: pd.DataFrame, begin: np.datetime64) -> pd.DataFrame:
    """Rows by time; those before the begin that say which pattern runs are as of it."""
    is_old = rows["time"] < begin
    of_pattern = rows[is_old & rows["code"].isin(PATTERN)]
    kept = of_pattern.drop_duplicates("code", keep="last").assign(time=begin)
    return pd.concat([kept, rows[~is_old]], ignore_index=True) if len(kept) else rows


def with_inputs_of(street: Run, bench: Run) -> Run:
    """The street's run, with the inputs that the bench was given: so both have the
    same cars by the same numbers of detectors."""
    of_street, of_bench = (it.events["code"].isin(INPUTS) for it in (street, bench))
    parts = [street.events[~of_street], bench.events[of_bench]]
    events = pd.concat(parts, ignore_index=True).sort_values("tick", kind="stable")
    return Run(
        street.name,
        events.reset_index(drop=True),
        street.start,
        street.ticks,
        bench.plan,
        [*street.facts, "inputs as the bench has them"],
        street.is_observed,
    )
