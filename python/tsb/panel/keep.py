"""Runs that are kept on the disk, and what a run begins with.

A run is a folder with `plan.json`, `run.log` and `run.commands`: `tsb run plan.json
run.log < run.commands` gives its lines again. A folder is written under another name
and then renamed, so that there is all of a run or nothing; none is written over.
"""

import os
import re
import shutil
import tempfile
from collections.abc import Iterator
from dataclasses import dataclass
from pathlib import Path

from tsb.bench import Bench, Saved
from tsb.errors import Error
from tsb.files import regular, up_to
from tsb.panel.requests import NAME, BadRequest, Given, given_of
from tsb.programs import run
from tsb.rows import Log

PLAN, LOG, COMMANDS = "plan.json", "run.log", "run.commands"
PLAN_LONGEST = 1 << 20  # bytes of a plan; one more is read of one that has more
COMMANDS_LONGEST = 16 << 20
RUNS_MOST = 500  # runs that are listed
GIVEN_MOST = 100_000  # inputs of a run that are no ticks


class NotKept(Error):
    """A run that could not be saved, or read. What was saved is as it was."""


@dataclass(frozen=True)
class Source:
    """What a run begins with: a plan's text, a log, inputs that are given again up to
    the tick `end`, and the tick to go back to from there, if there is one."""

    name: str
    plan: bytes
    log: Log
    given: tuple[tuple[int, Given], ...] = ()
    end: int = 0
    back_to: int | None = None

    @classmethod
    def read(cls, plan: Path, log: Path | None) -> "Source":
        """The source of a plan's file, and of a log's."""
        rows = Log() if log is None else Log.read(log)
        name = plan.name if log is None else f"{plan.name} with {log.name}"
        return cls(name, up_to(plan, PLAN_LONGEST), rows)

    def open(self) -> Bench:
        """A bench on the plan."""
        with tempfile.NamedTemporaryFile(suffix=".json") as file:
            file.write(self.plan)
            file.flush()
            return Bench(file.name, events=False)


class Keep:
    """A folder of runs."""

    def __init__(self, folder: Path) -> None:
        self.folder = folder

    def names(self) -> list[str]:
        """The runs that there are, the newest first."""
        try:
            found = [it for it in self.folder.iterdir() if (it / COMMANDS).is_file()]
        except FileNotFoundError:
            return []
        good = [it for it in found if re.fullmatch(NAME, it.name, re.ASCII)]
        good.sort(key=lambda it: it.stat().st_mtime, reverse=True)
        return [it.name for it in good[:RUNS_MOST]]

    def save(self, name: str, plan: bytes, saved: Saved) -> Path:
        """Saves a run under a name that none has: its folder."""
        path = self.folder / name
        if path.exists():
            raise NotKept(f"there is a run {name} already: give another name")
        room: Path | None = None
        try:
            self.folder.mkdir(parents=True, exist_ok=True)
            room = Path(tempfile.mkdtemp(prefix=".saving-", dir=self.folder))
            room.chmod(0o755)
            write(room, plan, saved)
            os.rename(room, path)
        except OSError as fault:
            if room is not None:
                shutil.rmtree(room, ignore_errors=True)
            raise NotKept(f"{path}: {fault.strerror}") from None
        return path

    def load(self, name: str) -> Source:
        """The source of a saved run."""
        path = self.folder / name
        try:
            plan = up_to(regular(path / PLAN), PLAN_LONGEST)
            log = Log.read(regular(path / LOG))
            commands = up_to(regular(path / COMMANDS), COMMANDS_LONGEST)
        except OSError as fault:
            raise NotKept(f"{path}: {fault.strerror}") from None
        if len(commands) > COMMANDS_LONGEST:
            raise NotKept(f"{path / COMMANDS}: over 16 MiB")
        given, end = [], 0
        for number, line in enumerate(commands.decode("latin-1").splitlines(), 1):
            step = re.fullmatch(r"step (\d{1,7})", line)
            if step is not None:
                end += int(step[1])
                continue
            try:
                given.append((end, given_of(line)))
            except BadRequest as fault:
                raise NotKept(f"{path / COMMANDS}, line {number}: {fault}") from None
        if len(given) > GIVEN_MOST:
            raise NotKept(f"{path / COMMANDS}: over {GIVEN_MOST} inputs")
        return Source(name, plan, log, tuple(given), end)


def write(folder: Path, plan: bytes, saved: Saved) -> None:
    """Writes the files of a run, through to the disk."""
    for name, text in [
        (PLAN, plan),
        (LOG, saved.log.encode()),
        (COMMANDS, saved.commands.encode()),
    ]:
        with (folder / name).open("wb") as file:
            file.write(text)
            file.flush()
            os.fsync(file.fileno())


def events(plan: bytes, saved: Saved, begin: str, device: str) -> bytes:
    """The events of a run, as `tsb_field record` writes them."""
    with tempfile.TemporaryDirectory() as room:
        write(Path(room), plan, saved)
        # (a clock of the run is among its commands)
        words = ["record", "--no-clock", f"--from={begin}", f"--device={device}"]
        files = [f"{room}/{PLAN}", f"{room}/{LOG}"]
        return run("tsb_field", [*words, *files], saved.commands.encode()).stdout


def lines(plan: bytes, saved: Saved) -> bytes:
    """The lines of a run, as `tsb run` answers them."""
    with tempfile.TemporaryDirectory() as room:
        write(Path(room), plan, saved)
        words = ["run", f"{room}/{PLAN}", f"{room}/{LOG}"]
        return run("tsb", words, saved.commands.encode()).stdout


def diagram(plan: bytes, saved: Saved, title: str, seconds: int) -> bytes:
    """The phase diagram of a run, as `tsb_field diagram` draws it."""
    answers = lines(plan, saved)
    with tempfile.TemporaryDirectory() as room:
        log = Path(room, LOG)
        log.write_text(saved.log, encoding="ascii")
        words = ["diagram", f"--log={log}", f"--title={title}"]
        return run(
            "tsb_field", [*words, f"--seconds-per-line={seconds}"], answers
        ).stdout


def parted(source: Source) -> Iterator[tuple[int, list[Given]]]:
    """The inputs of a source by tick, and its last tick."""
    by_tick: dict[int, list[Given]] = {}
    for tick, what in source.given:
        by_tick.setdefault(tick, []).append(what)
    for tick in sorted({*by_tick, source.end}):
        yield tick, by_tick.get(tick, [])
