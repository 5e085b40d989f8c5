"""Live sessions that answer what `tsb run` answers in a session whose rows come from a log.

The display lines that `tsb run` answers to a step have the number of each tick, and the log has the row of that tick.
So a step becomes those rows, or some of them with a `step` behind where the row is held, and a tick number that is
taken again has the same row again. All other lines stay. Bad commands and blank lines come in between.
"""
import bisect
import random
import re
from collections.abc import Iterator

STEP = re.compile(rb" *step +([0-9]{1,10}) *")
QUIT = re.compile(rb" *quit *")
LONGEST = 200  # bytes of a line
LARGEST = 4_294_967_295
ALL_OFF = b"0000000000000000 00000000 0000"
# What is no row and no command.
BAD = [b"0000000000000000 00000000 000", b"0000000000000000 00000000 00000", b" 0000000000000000 00000000 0000",
       b"0000000000000000 00000000 0000 ", b"0000000000000000\t00000000 0000", b"0000000000000000  00000000 0000",
       b"0000000000000000 00000200 0000", b"0000001 0000000000000000 00000000 0000", b"1" * 30, b"1" * 201, b"changes",
       b"changes 1 1", b"changes -1", b"changes 4294967296", b"status 1", b"plan plan", b"edit", b"Status", b" # plan",
       b"step", b"step 1 1", b"\xff", b"\x00", b"# " + b"x" * 199, b" " * 201]
SKIPPED = [b"", b"  ", b"# changes 3", b" " * 200, b"#"]


class Log:
    """The rows of a log, as texts without their ticks."""

    def __init__(self, text: bytes) -> None:
        lines = [line.removesuffix(b"\r") for line in text.split(b"\n")]
        rows = [line.split(b" ", 1) for line in lines if line.strip(b" ") and not line.startswith(b"#")]
        self.ticks, self.rows = [int(tick) for tick, _ in rows], [row for _, row in rows]

    def at(self, tick: int) -> bytes:
        """The row in force at a tick."""
        place = bisect.bisect_right(self.ticks, tick)
        return self.rows[place - 1] if place else ALL_OFF


class Answers:
    """The answers of `tsb run`, taken one after another."""

    def __init__(self, text: bytes) -> None:
        self.lines, self.place = text.splitlines(True), 0

    def taken(self, count: int) -> list[bytes]:
        """So many more answers, up to one that is refused, or fewer where there are no more."""
        found: list[bytes] = []
        while len(found) < count and self.place < len(self.lines):
            found.append(self.lines[self.place])
            self.place += 1
            if found[-1].startswith(b"refused "):
                break
        return found


class Live:
    """The lines of a live session as they come, the answers to them, and the row that is held."""

    def __init__(self, rng: random.Random, log: Log) -> None:
        self.rng, self.log = rng, log
        self.lines: list[bytes] = []
        self.answers: list[bytes] = []
        self.held = ALL_OFF

    def ask(self, line: bytes, answers: list[bytes]) -> None:
        """A line with its answers, and at times one after it that does nothing."""
        self.lines.append(line)
        self.answers += answers
        chance = self.rng.random()
        if chance < 0.02:
            self.lines.append(self.rng.choice(BAD))
            self.answers.append(b"bad command\n")
        elif chance < 0.03:
            self.lines.append(self.rng.choice(SKIPPED))

    def held_for(self, ticks: list[bytes]) -> int:
        """For how many of these ticks, from the first on, the log has the row that is held."""
        rows = (self.log.at(int(line[:7])) for line in ticks)
        return next((place for place, row in enumerate(rows) if row != self.held), len(ticks))

    def step(self, ticks: list[bytes]) -> None:
        """Ticks with these display lines, by rows and steps."""
        while ticks:
            many = self.rng.randint(0, self.held_for(ticks))
            if many and self.rng.random() < 0.7:
                self.ask(b"step %d" % many, ticks[:many])
            else:
                many, self.held = 1, self.log.at(int(ticks[0][:7]))
                self.ask(self.held, ticks[:1])
            ticks = ticks[many:]


def lines_of(text: bytes) -> Iterator[bytes]:
    """The lines of commands, without their ends."""
    lines = text.split(b"\n")
    last = lines.pop()
    yield from (line.removesuffix(b"\r") for line in lines)
    if last:
        yield last


def end_of(line: bytes) -> bytes:
    """The end that a line gets: a carriage return before it is dropped, so one that is of the line has one behind."""
    return b"\r\n" if line.endswith(b"\r") else b"\n"


def has_answer(line: bytes) -> bool:
    """Whether a line is answered: it is neither blank nor a comment, or it is too long for that."""
    return len(line) > LONGEST or bool(line.strip(b" ")) and not line.startswith(b"#")


def is_quit(line: bytes) -> bool:
    """Whether a line ends the session."""
    return len(line) <= LONGEST and QUIT.fullmatch(line) is not None


def ticks_of(line: bytes) -> int | None:
    """How many ticks a line asks for, of a line that is a step."""
    step = STEP.fullmatch(line) if len(line) <= LONGEST else None
    return int(step[1]) if step and int(step[1]) <= LARGEST else None


def live_of(rng: random.Random, log: bytes, commands: bytes, answers: bytes) -> tuple[bytes, bytes]:
    """The lines of a live session, and the answers to them, of a session that `tsb run` answered so."""
    live, given = Live(rng, Log(log)), Answers(answers)
    for line in lines_of(commands):
        many = ticks_of(line)
        if is_quit(line):
            live.lines.append(line)
            break
        if many is not None:
            found = given.taken(many)
            ticks = [it for it in found if not it.startswith(b"refused ")]
            live.step(ticks)
            if len(found) > len(ticks):
                live.held = ALL_OFF
                live.ask(ALL_OFF, found[-1:])
        else:
            live.ask(line, given.taken(1) if has_answer(line) else [])
    return b"".join(line + end_of(line) for line in live.lines), b"".join(live.answers)
