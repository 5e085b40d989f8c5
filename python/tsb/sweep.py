"""Many plans on many days, or on many seeds of SUMO's traffic, on all processors.

Each run is a task: one process that reads files and writes one file of a table. A task
can be run twice, and is run again where its worker died. So a sweep can be stopped and
started again: what is whole in the folder of results is not run anew, unless its plan,
its day or what was asked is another now.
"""

import argparse
import importlib
import itertools
import signal
import sys
import tempfile
import uuid
import warnings
from collections.abc import Generator, Iterable, Iterator, Mapping, Sequence
from contextlib import contextmanager, nullcontext
from dataclasses import asdict
from pathlib import Path
from types import FrameType
from typing import Any

import pandas as pd

from tsb import kept
from tsb.errors import Error
from tsb.measures import MEASURES
from tsb.options import Words, called
from tsb.processes import RETRIES, Processes, local
from tsb.progress import progress
from tsb.tasks import (
    MIDNIGHT,
    TRIPS,
    AnyPath,
    Day,
    Measure,
    Seed,
    Task,
    Told,
    Traffic,
    key_of,
    name_of,
    tried,
)

#: The name of a run, with its fault and its notes.
Ended = tuple[str, Told]
SUMMARY = "all_runs.txt"  # in the folder of results, the tables of all runs


class SweepFailed(Error):
    """Some runs failed: `failures` has what each said, by its name, and `table` has
    the others."""

    def __init__(self, failures: dict[str, str], table: pd.DataFrame) -> None:
        first, said = next(iter(failures.items()))
        super().__init__(f"{len(failures)} runs failed; of {first}: {said}")
        self.failures, self.table = failures, table


def sweep(
    plans: Iterable[AnyPath],
    logs: Iterable[AnyPath] = (),
    measures: Sequence[Measure] = ("terminations",),
    client: Any = None,
    *,
    out: AnyPath | None = None,
    begin: str | None = None,
    seconds: int = 86400,
    device: str | None = None,
    pattern: int = 0,
    no_clock: bool = False,
    traffic: Traffic | None = None,
    seeds: Iterable[int] = (),
) -> pd.DataFrame:
    """Runs each plan on each log, or on `traffic` with each of `seeds`: a table of all
    measures.

    `logs` are files of days or of inputs, and `begin`, `seconds`, `device`, `pattern`,
    `no_clock` what `Day` and `Seed` say of them; a day begins at midnight without a
    `begin`. The table has the columns `plan`, `day`, `measure` and those of the
    measures, empty where a measure has no such column. `client` is Dask's,
    or what `local` gives; without one, processes of this machine do the runs. Results
    are kept in the folder `out`, and taken from there. Files are read and written by
    the workers, so those of other machines have to see them under the same names.

    `SweepFailed` says which runs failed; all others were done.
    """
    tasks = tasks_of(
        plans, logs, begin=begin, seconds=seconds, device=device,
        pattern=pattern, no_clock=no_clock, traffic=traffic, seeds=seeds,
    )  # fmt: skip
    with _kept(out) as folder:
        found = Runs(tasks, measures, folder)
        if found.missing:
            with nullcontext(client) if client is not None else local() as workers:
                found.run(workers)
        table = found.table()
    for note in found.notes:
        warnings.warn(note, stacklevel=2)
    if found.failures:
        raise SweepFailed(found.failures, table)
    return table


def tasks_of(
    plans: Iterable[AnyPath],
    logs: Iterable[AnyPath],
    *,
    begin: str | None,
    seconds: int,
    device: str | None,
    pattern: int,
    traffic: Traffic | None,
    seeds: Iterable[int],
    no_clock: bool = False,
) -> list[Task]:
    """The runs of a sweep."""
    files = [_path(it) for it in plans]
    tasks: list[Task] = [
        Day(plan, _path(log), begin or MIDNIGHT, seconds, device, pattern, no_clock)
        for plan, log in itertools.product(files, list(logs))
    ]
    if traffic is not None:
        whole = _whole(traffic)
        tasks += [
            Seed(plan, whole, seed, seconds, pattern, begin, no_clock)
            for plan, seed in itertools.product(files, list(seeds))
        ]
    return tasks


@contextmanager
def _kept(out: AnyPath | None) -> Iterator[Path]:
    """The folder of results: one for a while, if none was named."""
    if out is not None:
        yield Path(out)
        return
    with tempfile.TemporaryDirectory() as folder:
        yield Path(folder)


def _path(path: AnyPath) -> str:
    return str(Path(path).resolve())


def _whole(traffic: Traffic) -> Traffic:
    """The traffic with whole names of its files."""
    said = {
        name: ",".join(_path(it) for it in value.split(",") if it)
        for name, value in asdict(traffic).items()
    }
    return Traffic(**said)


def _dask() -> Any:
    """Dask's cluster, which needs a second to be imported."""
    return importlib.import_module("distributed")


class Runs:
    """The runs of a sweep; those in the folder are done."""

    def __init__(
        self, tasks: Sequence[Task], measures: Sequence[Measure], folder: Path
    ) -> None:
        unknown = [it for it in measures if isinstance(it, str) and it not in MEASURES]
        if wrong := [it for it in unknown if it != TRIPS]:
            raise Error(
                f"there is no measure {wrong[0]}: {', '.join(MEASURES)}, {TRIPS}"
            )
        if unknown and any(isinstance(it, Day) for it in tasks):
            raise Error(f"{TRIPS}: a day has none, but traffic of SUMO alone")
        _apart("plans", {it.plan for it in tasks})
        _apart("days", {it.source for it in tasks if isinstance(it, Day)})
        self._measures, self._folder = list(measures), folder.resolve()
        self.names: dict[str, Task] = {}
        for it in tasks:
            name = f"{Path(it.plan).stem}.{it.name}.{key_of(it, measures)}"
            self.names[name] = it
        if len(self.names) < len(tasks):
            raise Error("the same run comes twice")
        try:
            self._folder.mkdir(parents=True, exist_ok=True)
            kept.tidy(self._folder)
        except OSError as fault:
            raise Error(f"{folder}: {fault.strerror}") from None
        self.kept = kept.whole(self._folder, self.names)
        self.missing = [it for it in self.names if it not in self.kept]
        self.failures: dict[str, str] = {}
        self.notes: list[str] = []  # on the runs that were done

    def run(self, client: Any) -> None:
        """Runs what is missing, on processes of this machine or on those of Dask."""
        own = isinstance(client, Processes)
        done = self._here(client) if own else self._by_dask(client)
        try:
            for name, (fault, notes) in progress(done, "sweep", len(self.missing)):
                if fault is not None:
                    self.failures[name] = fault
                self.notes += [it for it in notes if it not in self.notes]
        finally:
            done.close()
            self.kept = kept.whole(self._folder, self.names)

    def _words(self, name: str) -> tuple[Task, str, str, list[Measure]]:
        """What a run is asked by."""
        return self.names[name], str(self._folder), name, self._measures

    def _here(self, workers: Processes) -> Generator[Ended, None, None]:
        """The names of the runs, each with its fault and its notes."""
        for it in self._measures:
            if not isinstance(it, str) and _is_of_session(it):
                what = "write this measure into a module, which processes can import"
                raise Error(f"{name_of(it)}: {what}")
        work = [self._words(it) for it in self.missing]
        for words, told, fault in workers.done(tried, work):
            yield words[2], told or (fault, ())

    def _by_dask(self, client: Any) -> Generator[Ended, None, None]:
        """As `_here`, on a cluster."""
        waiting = {
            client.submit(
                tried, *self._words(it),
                key=f"tsb {it} {uuid.uuid4().hex}", retries=RETRIES,
            ): it
            for it in self.missing
        }  # fmt: skip
        for future in _dask().as_completed(list(waiting)):
            if future.status == "finished":
                yield waiting[future], future.result()
            else:
                fault = future.exception()
                yield waiting[future], (f"{type(fault).__name__}: {fault}", ())

    def table(self) -> pd.DataFrame:
        """The tables of all that is done, as one: whole numbers stay whole where a
        measure has no such column."""
        there = [self.kept[it] for it in self.names if it in self.kept]
        if not there:
            return pd.DataFrame(columns=["plan", "day", "measure"])
        found = pd.concat([pd.read_csv(it) for it in there], ignore_index=True)
        return found.convert_dtypes()


def _apart(what: str, files: Iterable[str]) -> None:
    """In the tables a plan and a day are the names of their files alone."""
    named: dict[str, str] = {}
    for it in sorted(files):
        other = named.setdefault(Path(it).stem, it)
        if other != it:
            raise Error(f"two {what} of one name: {other} and {it}: rename one")


def _is_of_session(measure: Any) -> bool:
    """Whether a function was written in a session or a notebook, where no process
    finds it."""
    has_file = hasattr(sys.modules["__main__"], "__file__")
    return getattr(measure, "__module__", "") == "__main__" and not has_file


# The command


def main(words: Sequence[str]) -> int:
    """Carries out `python3 -m tsb sweep ..`; its status is 1 where a run failed."""
    given = _words().parse_args(words)
    traffic = _traffic(given)
    tasks = tasks_of(
        given.plans, given.days, begin=given.begin, seconds=given.seconds,
        device=given.device, pattern=given.pattern, no_clock=given.no_clock,
        traffic=traffic, seeds=given.seeds,
    )  # fmt: skip
    if not tasks:
        raise Error("there is nothing to run: name --days, or --sumo and --seeds")
    measures = given.measure or ([TRIPS] if traffic else ["terminations"])
    found = Runs(tasks, measures, given.out)
    try:
        if found.missing:
            with _ended_by_terms(), _client(given.scheduler, given.workers) as client:
                found.run(client)
    except KeyboardInterrupt:
        done = f"{len(found.kept)} of {len(tasks)} runs are kept"
        print(f"stopped: {done}, the same command does the others", file=sys.stderr)
        return 130
    failed, new = len(found.failures), len(found.missing)
    print(
        f"{len(tasks) - failed} runs done, {new - failed} of them now, {failed} failed"
    )
    for note in found.notes:
        print(note, file=sys.stderr)
    for said, names in _by_fault(found.failures).items():
        print(f"{', '.join(names)}: {said}", file=sys.stderr)
    text: str = found.table().to_csv(index=False)
    path = given.out / SUMMARY
    try:
        kept.write(path, text.encode())
    except OSError as fault:
        raise Error(f"{path}: {fault.strerror}; it is as it was") from None
    print(f"all tables: {path}")
    return 1 if failed else 0


def _by_fault(failures: Mapping[str, str]) -> dict[str, list[str]]:
    """The runs that failed, by what each said."""
    found: dict[str, list[str]] = {}
    for name, said in failures.items():
        found.setdefault(said, []).append(name)
    return found


@contextmanager
def _ended_by_terms() -> Iterator[None]:
    """SIGTERM ends a sweep as Ctrl-C does, so that nothing is left behind."""

    def stop(number: int, frame: FrameType | None) -> None:
        raise KeyboardInterrupt

    before = signal.signal(signal.SIGTERM, stop)
    try:
        yield
    finally:
        signal.signal(signal.SIGTERM, before)


def _traffic(given: argparse.Namespace) -> Traffic | None:
    """The traffic that the words name, if they name some."""
    if not given.sumo:
        return None
    for word in ("routes", "mapping", "seeds"):
        if not getattr(given, word):
            raise Error(f"--sumo needs --{word} as well")
    return Traffic(given.sumo, given.routes, given.mapping, given.additional)


def _words() -> argparse.ArgumentParser:
    words = Words(
        prog=called("sweep"),
        description="Runs each plan on each day, or on SUMO's traffic with each seed.",
    )
    words.add_argument("plans", nargs="+")
    words.add_argument(
        "--days", nargs="+", default=[], help="event logs, or .log files"
    )
    words.add_argument("--out", type=Path, required=True, metavar="FOLDER")
    words.add_argument("--measure", action="append", choices=[*MEASURES, TRIPS])
    words.add_argument("--begin", help="when tick 1 begins; the clock is set to it")
    words.add_argument(
        "--no-clock", action="store_true", help="offsets count from tick 0, not midnight"
    )
    words.add_argument("--seconds", type=int, default=86400)
    words.add_argument("--device", help="of event logs, the controller")
    words.add_argument("--pattern", type=int, default=0)
    words.add_argument("--sumo", metavar="NET")
    words.add_argument("--routes", default="")
    words.add_argument("--mapping", default="")
    words.add_argument("--additional", default="")
    words.add_argument("--seeds", nargs="+", type=int, default=[])
    words.add_argument(
        "--scheduler", metavar="ADDRESS", help="a Dask that runs already"
    )
    words.add_argument("--workers", type=workers_of, help="processes, if there is none")
    return words


def workers_of(text: str) -> int:
    """A number of processes; `ValueError` where it is none."""
    number = int(text)
    if number < 1:
        raise ValueError
    return number


workers_of.__name__ = "whole number above 0"  # (as argparse tells a bad one)


@contextmanager
def _client(scheduler: str | None, workers: int | None) -> Iterator[Any]:
    if scheduler is None:
        with local(workers) as client:
            yield client
        return
    with _dask().Client(scheduler) as client:
        yield client
