"""The numbers of a run: tables of what its events say, each as docs/use/PYTHON.md
defines it under "What the report's numbers mean"."""

from collections.abc import Iterator
from dataclasses import dataclass
from functools import cached_property
from typing import Any

import numpy as np
import pandas as pd

from tsb import frames, measures
from tsb.plan import Plan
from tsb.report.runs import Run
from tsb.told import CAUSES, CYCLE_STATE, FREE, LOCAL_ZERO, OFFSET, OTHER, PATTERN, WALK

ENDS = [*CAUSES.values(), OTHER]
SHOWN = ["green", "yellow", "red"]
# Lengths of the periods of a day, in ticks: the first that gives few of them is taken.
PERIODS = [600, 3000, 9000, 36000, 144000, 864000]
MOST_PERIODS = 24
FOLDS = 20  # parts of a cycle
PHASES = range(1, 17)
FIRST_SPLIT, LAST_SPLIT = 134, 149  # codes of the splits of phases 1 to 16
# What is said where nobody can know whether a pattern ran.
NO_PATTERN = "not known: the export has no pattern (code 131)"
NONE_YET = "not known before the export's first pattern (code 131)"


def period_of(ticks: int) -> int:
    """How many ticks a period of the day has, for a run of so many ticks."""
    return next((it for it in PERIODS if ticks <= MOST_PERIODS * it), PERIODS[-1])


@dataclass(frozen=True)
class Numbers:
    """The numbers of a run, which stands at a place (0 or 1) of so many runs. Tables
    have a row for a phase and are in the order of phases, where no more is said;
    seconds end with `_s`, shares are 0 to 1. An end of a green is marked where it is at
    least the `consecutive`-th of its phase in a row by one cause."""

    run: Run
    place: int = 0
    of: int = 1
    consecutive: int = 1

    @property
    def letter(self) -> str:
        """A or B, or nothing where there is one run."""
        return "AB"[self.place] if self.of > 1 else ""

    @property
    def label(self) -> str:
        """The name of the run, with its letter."""
        return f"{self.letter}: {self.run.name}" if self.letter else self.run.name

    @property
    def key(self) -> str:
        """Its name in legends, which leave out what begins with an underline."""
        return self.label.lstrip("_") or "run"

    @cached_property
    def services(self) -> pd.DataFrame:
        """Each service of a phase (`measures.services`)."""
        return measures.services(self.run.events)

    @cached_property
    def greens(self) -> pd.DataFrame:
        """Each green that ended (`measures.greens`)."""
        return measures.greens_of(self.services).dropna(subset=["end"])

    @cached_property
    def ended(self) -> pd.DataFrame:
        """How many greens ended by each cause: `gap`, `maximum`, `force-off`,
        `other`, and all of them, `greens`."""
        found = pd.crosstab(self.greens["phase"], self.greens["cause"])
        counts = found.reindex(columns=ENDS, fill_value=0)
        counts.columns.name = None
        return counts.assign(greens=counts.sum(axis=1))

    @cached_property
    def marked(self) -> pd.DataFrame:
        """The greens that ended with so many of their phase in a row by one cause
        (`measures.in_a_row`)."""
        return self.greens[measures.in_a_row(self.greens) >= self.consecutive]

    @cached_property
    def walked(self) -> pd.DataFrame:
        """Each walk: its `phase` and the `tick` at which it began."""
        events = self.run.events
        found = events.loc[events["code"] == WALK, ["parameter", "tick"]]
        return found.rename(columns={"parameter": "phase"}).reset_index(drop=True)

    @cached_property
    def marked_by_time(self) -> pd.DataFrame:
        """How many greens of those `marked` ended by each cause, and how many walks
        (`walks`) began, for each `period` (its number from 0 on) and `phase` in which
        one did: the period that the end or the begin is in."""
        length = period_of(self.run.ticks)
        by = [((self.marked["end"] - 1) // length).rename("period")]
        counts = pd.crosstab([*by, self.marked["phase"]], self.marked["cause"])
        counts = counts.reindex(columns=ENDS, fill_value=0)
        counts.columns.name = None
        period = ((self.walked["tick"] - 1) // length).rename("period")
        walks = self.walked.groupby([period, "phase"]).size().rename("walks")
        found = pd.concat([counts.assign(greens=counts.sum(axis=1)), walks], axis=1)
        found.index.names = ["period", "phase"]
        return found.fillna(0).astype("Int64").sort_index()

    @cached_property
    def each_split(self) -> pd.DataFrame:
        """Each service (`measures.splits`)."""
        return measures.splits_of(self.services)

    @cached_property
    def splits(self) -> pd.DataFrame:
        """How long services took (`measures.spread` of `split_s`), and `planned_s`:
        the split of the newest code 134 to 149 before it, NA for none."""
        each = self.each_split
        found = measures.spread(each["split_s"], each["phase"])
        last = self._planned().groupby("phase")["planned_s"].last()
        return found.assign(planned_s=last.where(last > 0).reindex(found.index))

    @cached_property
    def programmed(self) -> pd.DataFrame:
        """The services of each phase beside each split that was programmed as their
        greens began (`planned_s`, NA for none): `phase`, `planned_s`, the `count` of
        those that are over, their `mean` and `p85` in seconds, and the share of all
        their greens that ended by each cause. Not of greens that go on."""
        each = self.each_split.assign(cause=self.services["cause"])
        each = each.dropna(subset=["over"])
        rows: list[dict[str, Any]] = []
        by = [each["phase"], self._planned_at(each)]
        for (phase, planned), of in each.groupby(by, dropna=False):
            shares = {it: (of["cause"] == it).mean() for it in CAUSES.values()}
            told = {"phase": phase, "planned_s": planned, "count": len(of), **shares}
            told["mean"] = of["split_s"].mean()
            rows.append({**told, "p85": measures.percentile(of["split_s"], 85)})
        names = ["phase", "planned_s", "count", "mean", "p85", *CAUSES.values()]
        return pd.DataFrame(rows, columns=names)

    def _planned(self) -> pd.DataFrame:
        """Each split that the events have: `tick`, `phase`, `planned_s` (0 for none),
        in the order of ticks."""
        events = self.run.events
        told = events[events["code"].between(FIRST_SPLIT, LAST_SPLIT)]
        found = {
            "tick": told["tick"],
            "phase": told["code"] - FIRST_SPLIT + 1,
            "planned_s": told["parameter"].astype("Float64"),
        }
        return pd.DataFrame(found).sort_values("tick", kind="stable")

    def _planned_at(self, each: pd.DataFrame) -> "pd.Series[float]":
        """The newest split at the begin of each service."""
        found = pd.Series(pd.NA, each.index, dtype="Float64", name="planned_s")
        for phase, told in self._planned().groupby("phase"):
            begins = each.loc[each["phase"] == phase, "begin"]
            place = np.searchsorted(told["tick"], begins.astype("int64"), side="right")
            known = [pd.NA, *told["planned_s"].where(told["planned_s"] > 0)]
            found[begins.index] = pd.array([known[it] for it in place], "Float64")
        return found

    @cached_property
    def known_from(self) -> int:
        """The first tick from which on it is known whether a pattern runs, and which."""
        run = self.run
        told = run.events.loc[run.events["code"] == PATTERN, "tick"]
        if not run.is_observed:
            return 0
        return run.ticks + 1 if told.empty else int(told.min())

    def told_at(self, ticks: Any, code: int = PATTERN) -> Any:
        """The parameter of the last event of a code, as that of a pattern, at each of
        these ticks. Where none did it is 0, and of a run that was observed it is not known:
        -1."""
        of = self.run.events[self.run.events["code"] == code]
        told = of.sort_values("tick", kind="stable")
        place = np.searchsorted(told["tick"].to_numpy(np.int64), ticks, "right")
        return np.append(-self.run.is_observed, told["parameter"])[place]

    def operation(self) -> Iterator[str]:
        """What ran in each stretch of patterns: of a run that was observed as far as
        its export has it."""
        has_some = self.known_from <= self.run.ticks
        for it in self.patterns.itertuples(index=False):
            number = int(self.told_at(it.begin))
            has_offset = self.told_at(it.begin, OFFSET) >= 0
            offset = f"offset {it.offset_s} s" if has_offset else "no offset (code 133)"
            if number < 0:
                yield NONE_YET if has_some else NO_PATTERN
            elif it.pattern is not pd.NA and it.cycle_s is not pd.NA:
                yield f"pattern {it.pattern} (cycle {it.cycle_s} s, {offset})"
            elif 0 < number < FREE:
                yield f"pattern {number}: the export has no cycle (code 132)"
            else:
                yield "free operation"

    @property
    def _offsets_from(self) -> int | None:
        """The tick of midnight, from which a street counts its offsets as a rule; None
        where events have local zeros, as those of a bench do."""
        events, start = self.run.events, self.run.start
        is_zero = (events["code"] == CYCLE_STATE) & (events["parameter"] == LOCAL_ZERO)
        if not self.run.is_observed or is_zero.any():
            return None
        return -int((start - start.astype("datetime64[D]")) // frames.TENTH)

    @cached_property
    def patterns(self) -> pd.DataFrame:
        """The stretches of patterns (`measures.patterns`)."""
        return measures.patterns(self.run.events)

    @cached_property
    def cycles(self) -> pd.DataFrame:
        """The whole cycles (`measures.cycles`), a row for each."""
        return measures.cycles(self.run.events, self._offsets_from)

    @cached_property
    def a_cycle(self) -> pd.DataFrame:
        """Greens a cycle (`measures.greens_a_cycle`)."""
        return measures.greens_a_cycle(self.run.events, self._offsets_from)

    @cached_property
    def each_wait(self) -> pd.DataFrame:
        """Each wait from call to green (`measures.waits`)."""
        return measures.waits(self.run.events)

    @cached_property
    def each_walk(self) -> pd.DataFrame:
        """Each wait from button to walk (`measures.walk_waits`)."""
        return measures.walk_waits(self.run.events)

    @cached_property
    def waits(self) -> pd.DataFrame:
        """How long calls waited for the green (`measures.spread` of `wait_s`), and
        how many still wait at the end (`still`), the longest of them for `still_s`."""
        return self._waited(self.each_wait)

    @cached_property
    def walks(self) -> pd.DataFrame:
        """How long pedestrian calls waited for the walk, in the same form."""
        return self._waited(self.each_walk)

    @cached_property
    def arriving(self) -> pd.DataFrame:
        """Each actuation (`measures.arriving`), with its place in the cycle:
        `in_cycle_s`, NA in free operation."""
        found = measures.arriving(self.run.events, self.run.phases)
        place = measures.in_cycle(self.run.events, found["tick"], self._offsets_from)
        return found.assign(in_cycle_s=place)

    @cached_property
    def arrivals(self) -> pd.DataFrame:
        """Actuations while green, yellow and red were shown, and the share on green; of
        the phases that have some. `time_green`: the share of the run that was green,
        and `platoon_ratio`: the first share for each of the second."""
        found = measures.counted(self.arriving, self.run.phases)
        came = found[found["arrivals"] > 0]
        length = (self.greens["end"] - self.greens["begin"]).groupby(
            self.greens["phase"]
        )
        time = (length.sum() / max(self.run.ticks, 1)).reindex(came.index)
        time = time.astype("Float64")
        share = came["green"] / time.where(time > 0)
        return came.assign(time_green=time, platoon_ratio=share)

    def waited(self, phase: int) -> int:
        """How many actuations waited for the green of a phase: those on yellow and on
        red."""
        came = self.arrivals
        return int(came["on_yellow"].get(phase, 0) + came["on_red"].get(phase, 0))

    @property
    def lost(self) -> float | None:
        """The seconds times the actuations that waited for green: of all phases, the
        mean wait from call to green for each of them. None where no plan says which
        detectors those are of."""
        if not self.run.phases:
            return None
        means = self.waits["mean"].dropna()
        return sum((mean * self.waited(phase) for phase, mean in means.items()), 0.0)

    @cached_property
    def folded(self) -> pd.DataFrame:
        """The actuations in cycles of patterns by phase and by the part of the cycle, 1
        to 20, that they are in: `part`, `green`, `yellow`, `red`."""
        came = self.arriving.dropna(subset=["in_cycle_s"])
        lengths = self._cycle_lengths(came["tick"])
        # (while the counter comes into step a cycle may be longer)
        place = came["in_cycle_s"].astype(float) * FOLDS // lengths
        part = place.clip(upper=FOLDS - 1).astype(int) + 1
        by = [came["phase"], part.rename("part")]
        found = pd.crosstab(by, came["shows"])
        return found.reindex(columns=SHOWN, fill_value=0)

    def _cycle_lengths(self, ticks: "pd.Series[int]") -> "pd.Series[float]":
        """The seconds of the cycle that runs in each tick, NaN in free operation."""
        found = pd.Series(np.nan, ticks.index)
        for it in self.patterns.dropna().itertuples(index=False):
            found[(ticks >= it.begin) & (ticks < it.end)] = float(it.cycle_s)
        return found

    @cached_property
    def coordinated(self) -> list[int]:
        """The phases that the plan coordinates in the patterns that ran; where it
        names none, all that have an actuation in a cycle."""
        plan, found = self.run.plan or Plan(), set[int]()
        for pattern in self.patterns["pattern"].dropna().unique():
            first = 16 * (plan["patternSplitNumber"][int(pattern)] - 1)
            found |= {it - first for it in plan["splitCoordPhase"]} & set(PHASES)
        return sorted(found or self.folded.index.get_level_values("phase").unique())

    @cached_property
    def preempts(self) -> pd.DataFrame:
        """Each service of a preempt (`measures.preempts`), with the seconds from
        request to service (`delay_s`), to the green of its phases (`wait_s`) and to
        dwell (`to_dwell_s`), and how long dwell (`dwell_s`) and all up to the exit
        (`service_s`) took. Without a plan, it is not known which phases those are."""
        found = measures.preempts(self.run.events, self.run.plan or Plan())
        spans = {
            "delay_s": ("service", "request"),
            "to_dwell_s": ("dwell", "request"),
            "dwell_s": ("exit", "dwell"),
            "service_s": ("exit", "service"),
        }
        for name, (later, earlier) in spans.items():
            found[name] = (found[later] - found[earlier]).astype("Float64") / 10
        return found

    @cached_property
    def arrows(self) -> pd.DataFrame:
        """How long arrows flashed (`measures.spread` of `flash_s`, by overlap), and
        `flashing`: for what share of the run, also where one flashes on at its end."""
        each = measures.arrows(self.run.events)
        end = each["end"].fillna(self.run.ticks + 1)
        time = (end - each["begin"]).groupby(each["overlap"]).sum().astype("Float64")
        found = measures.spread(each["flash_s"], each["overlap"])
        return found.assign(flashing=time / max(self.run.ticks, 1))

    @cached_property
    def alarms(self) -> pd.DataFrame:
        """Each alarm of a detector (`measures.alarms`)."""
        return measures.alarms(self.run.events)

    def _waited(self, each: pd.DataFrame) -> pd.DataFrame:
        """How waits spread, how many go on at the end, and how long the longest of
        these has lasted by the last tick."""
        found = measures.spread(each["wait_s"], each["phase"])
        on = each[each["served"].isna()].groupby("phase")["call"]
        since = (self.run.ticks - on.min()).astype("Float64") / 10
        still = on.count().reindex(found.index, fill_value=0).astype("Int64")
        return found.assign(still=still, still_s=since.reindex(found.index))
