"""What tools/speed measures with: runs by the clock, instructions, memory, sessions that are asked, and tables."""

import contextlib
import ctypes
import dataclasses
import functools
import os
import pathlib
import re
import resource
import shutil
import statistics
import subprocess
import sys
import tempfile
import time
from collections.abc import Callable, Iterable, Iterator, Sequence
from concurrent.futures import ThreadPoolExecutor
from typing import BinaryIO

# How callgrind prints how many instructions were executed.
COLLECTED = re.compile(r"Collected : (\d+)")

# A plan that is refused ends with 1, which is no fault here.
ENDS = (0, 1)

# A shell that leaves a run from a file to another to whom the system gives it.
LEAVING = 'given=$1 told=$2; shift 2; "$@" < "$given" > "$told" &'

# What the system is asked for so that runs that are left come to this process.
SET_CHILD_SUBREAPER = 36

PAGE = os.sysconf("SC_PAGE_SIZE")


@dataclasses.dataclass(frozen=True)
class Run:
    """A run of a program: its words, what it reads from standard input, and the file that it writes to, if any."""

    words: tuple[str, ...]
    given: bytes | pathlib.Path = b""
    told: pathlib.Path = pathlib.Path(os.devnull)

    @contextlib.contextmanager
    def streams(self) -> Iterator[tuple[BinaryIO, BinaryIO]]:
        """Its standard input and output, open."""
        with contextlib.ExitStack() as stack:
            if isinstance(self.given, bytes):
                source: BinaryIO = stack.enter_context(tempfile.TemporaryFile())
                source.write(self.given)
                source.seek(0)
            else:
                source = stack.enter_context(open(self.given, "rb"))
            yield source, stack.enter_context(open(self.told, "wb"))

    def carried_out(self, before: Sequence[str] = ()) -> float:
        """Runs it, behind some words of another program, and gives its seconds by the clock."""
        with self.streams() as (source, target):
            begun = time.perf_counter()
            done = subprocess.run(
                [*before, *self.words], stdin=source, stdout=target, stderr=subprocess.PIPE, check=False
            )
            seconds = time.perf_counter() - begun
        if done.returncode not in ENDS:
            sys.exit(f"{self.words} ended with {done.returncode}: {done.stderr.decode(errors='replace')}")
        return seconds


def has_counter() -> bool:
    """Whether instructions can be counted here."""
    return shutil.which("valgrind") is not None


@functools.cache
def instructions(run: Run) -> int:
    """The instructions of a run, with those that start and end the program: the same each time."""
    with tempfile.NamedTemporaryFile() as log:
        words = ["valgrind", "--tool=callgrind", "--callgrind-out-file=/dev/null", f"--log-file={log.name}"]
        run.carried_out(words)
        found = COLLECTED.search(pathlib.Path(log.name).read_text(errors="replace"))
    if not found:
        sys.exit(f"callgrind counts nothing of {run.words}")
    return int(found.group(1))


@dataclasses.dataclass(frozen=True)
class Counted:
    """The instructions of a unit of work: those of a run, less those of its start alone, by how many units it has."""

    whole: Run
    start: Run | None = None
    units: int = 1

    def runs(self) -> list[Run]:
        """The runs that are counted."""
        return [self.whole] if self.start is None else [self.whole, self.start]

    def value(self) -> float:
        """How many instructions a unit takes."""
        less = 0 if self.start is None else instructions(self.start)
        return (instructions(self.whole) - less) / self.units


def count_ahead(counted: Iterable[Counted], processes: int) -> None:
    """Counts the instructions of runs, some at a time, so that they are known when they are asked for."""
    if has_counter():
        with ThreadPoolExecutor(processes) as pool:
            list(pool.map(instructions, dict.fromkeys(run for it in counted for run in it.runs())))


def counts(counted: Sequence[Counted], unit: float = 1) -> list[str]:
    """The cells of a row: what is counted of each program, in these units, and of two their ratio."""
    if not has_counter():
        return [""] * (len(counted) if len(counted) == 1 else 3)
    values = [it.value() for it in counted]
    return [rounded(it / unit) for it in values] + ([ratio(*values)] if len(values) == 2 else [])


def memory_of(run: Run, ends: Sequence[int] = ENDS) -> float:
    """The greatest resident memory of a run that reads a file, and ends with one of these, in MiB.

    Of what starts a run its memory counts too, so a shell does it, and leaves it to this process.
    """
    if ctypes.CDLL(None).prctl(SET_CHILD_SUBREAPER, 1, 0, 0, 0):
        sys.exit("runs can't be left to this process")
    with tempfile.NamedTemporaryFile() as copy:
        given = run.given
        if isinstance(given, bytes):
            pathlib.Path(copy.name).write_bytes(given)
            given = pathlib.Path(copy.name)
        subprocess.run(["sh", "-c", LEAVING, "sh", given, run.told, *run.words], check=True)
        _, status, used = os.wait4(-1, 0)
    if os.waitstatus_to_exitcode(status) not in ends:
        sys.exit(f"{run.words} ended with {os.waitstatus_to_exitcode(status)}")
    return used.ru_maxrss / 1024


class Talk:
    """A program that is asked through a pipe and answers through another."""

    def __init__(self, words: Sequence[str]) -> None:
        self.process = subprocess.Popen(words, stdin=subprocess.PIPE, stdout=subprocess.PIPE, bufsize=0)
        assert self.process.stdin is not None and self.process.stdout is not None
        self.given, self.told = self.process.stdin.fileno(), self.process.stdout.fileno()

    def ask(self, text: bytes, lines: int = 1) -> float:
        """Writes a text and reads so many lines of answers; gives the seconds by the clock."""
        begun = time.perf_counter()
        os.write(self.given, text)
        while lines > 0:
            piece = os.read(self.told, 1 << 16)
            if not piece:
                sys.exit("a program ended before it had answered")
            lines -= piece.count(b"\n")
        return time.perf_counter() - begun

    def memory(self) -> int:
        """Its resident memory, in bytes."""
        return int(pathlib.Path(f"/proc/{self.process.pid}/statm").read_text().split()[1]) * PAGE

    def end(self) -> resource.struct_rusage:
        """Writes no more, waits for it to end, and gives what it has used."""
        assert self.process.stdin is not None and self.process.stdout is not None
        self.process.stdin.close()
        self.process.stdout.close()
        _, status, used = os.wait4(self.process.pid, 0)
        self.process.returncode = os.waitstatus_to_exitcode(status)
        if self.process.returncode:
            sys.exit(f"a program ended with {self.process.returncode}")
        return used


@dataclasses.dataclass(frozen=True)
class Times:
    """Times of the same work, in seconds or in another unit."""

    found: tuple[float, ...]

    def median(self) -> float:
        """The middle one."""
        return statistics.median(self.found)

    def text(self, unit: float) -> str:
        """The median, and in brackets the least, in this part of a second."""
        return f"{rounded(self.median() / unit)} ({rounded(min(self.found) / unit)})"


def in_turn(measures: Sequence[Callable[[], float]], runs: int) -> list[Times]:
    """What each measure gives in so many runs: one measure after another, so that all meet the same machine."""
    found = list(zip(*[[measure() for measure in measures] for _ in range(runs)], strict=True))
    return [Times(it) for it in found]


def rounded(value: float) -> str:
    """A number with as many digits as it needs."""
    if value >= 100:
        return f"{value:,.0f}"
    return f"{value:.1f}" if value >= 10 else f"{value:.2f}"


def ratio(own: float, other: float) -> str:
    """How many times the other the own is."""
    return f"{own / other:.2f}" if other else ""


@dataclasses.dataclass(frozen=True)
class Table:
    """A table of a document, which is known there by its name."""

    name: str
    head: Sequence[str]
    rows: Sequence[Sequence[str]]

    def text(self) -> str:
        """The lines of the table."""
        lines = ["| " + " | ".join(row) + " |" for row in [self.head, *self.rows]]
        return "\n".join([lines[0], "|---" * len(self.head) + "|", *lines[1:]])

    def put_into(self, text: str) -> str:
        """A document's text with the table in its place."""
        begin, end = f"<!-- {self.name}: written by tools/speed -->\n", f"<!-- end of {self.name} -->"
        if text.count(begin) != 1 or text.count(end) != 1:
            sys.exit(f"the document has no one place for the table {self.name}")
        before, rest = text.split(begin)
        return f"{before}{begin}\n{self.text()}\n\n{end}{rest.split(end)[1]}"


class Files:
    """Files of a folder; each is made when it is asked for first."""

    def __init__(self, folder: pathlib.Path) -> None:
        self.folder = folder

    def path(self, name: str, make: Callable[[], bytes]) -> str:
        """The path of a file with this name, and with what is made for it."""
        path = self.folder / name
        if not path.exists():
            path.write_bytes(make())
        return str(path)


@dataclasses.dataclass(frozen=True)
class Setup:
    """What is measured: tsb and, if any, the program beside it; with which files, how often, and how much of it.

    Times are of so many runs. So many processes count instructions at a time. Of the ticks a part is taken.
    """

    programs: Sequence[str]
    files: Files
    runs: int
    processes: int
    part: int = 1

    def ticks(self, count: int) -> int:
        """So many ticks, or a part of them."""
        return count // self.part

    def head(self, columns: Sequence[str], is_compared: bool) -> list[str]:
        """The heads of columns that each program has, with one for the ratio where there are two."""
        if len(self.programs) == 1:
            return list(columns)
        behind = ["Ratio"] if is_compared else []
        return [it for column in columns for it in [column, "Plain bench", *behind]]
