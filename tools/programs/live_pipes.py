"""A live program at the end of pipes: when answers come, and what it does with bad streams, lines, plans and words."""
import os
import pathlib
import random
import re
import select
import signal
import subprocess
import threading
from types import TracebackType

from tools.programs import json_places
from tools.programs.live_kit import SECONDS, Ended, a_row, difference, ran

PLAN, COMMANDS = pathlib.Path("examples/quad.json"), "examples/step_and_back.commands"
LIVE_USAGE = re.compile(rb"usage: tsb_live (\[--strict\] )?PLAN\n")
INPUT, WRITE, TOO_LARGE = b"read fault\nstandard input\n", b"write fault\n", b"commands: too large\n"
# Each read of the first fails, also for root; the second never ends; each write to the third fails.
TORN, ENDLESS, FULL = "/proc/self/mem", "/dev/zero", "/dev/full"
# The seconds in which an answer has to come, and how long one is waited for that may not.
SOON, NONE = 60.0, 0.02
TRIPS, AHEAD, HUNDREDS = 200, 100, 10
# How much more memory than the program needs to do anything a run short of memory may have, in KiB. The first limits have
# no room for the stack, and the last has room for all inputs.
MORE = range(-320, 1900, 139)
# The most memory that a program needs to do anything, in KiB.
MOST = 1 << 17


class Talk:
    """A live program, and a pipe to it and from it."""

    def __init__(self, live: pathlib.Path) -> None:
        pipe = subprocess.PIPE
        self.process = subprocess.Popen([live, PLAN], stdin=pipe, stdout=pipe, stderr=pipe, bufsize=0)
        self.limit = threading.Timer(SECONDS, self.process.kill)
        self.limit.start()
        self.left = b""

    def __enter__(self) -> "Talk":
        return self

    def __exit__(self, kind: type[BaseException] | None, fault: BaseException | None,
                 trace: TracebackType | None) -> None:
        """Ends the program, if it has not ended."""
        self.limit.cancel()
        self.process.kill()
        self.process.communicate()

    def say(self, text: bytes) -> None:
        """Writes to the program."""
        assert self.process.stdin is not None
        os.write(self.process.stdin.fileno(), text)

    def is_told(self, seconds: float) -> bool:
        """Whether more comes from the program in these seconds."""
        assert self.process.stdout is not None
        return bool(select.select([self.process.stdout], [], [], seconds)[0])

    def line(self) -> bytes:
        """The next line of the program: what there is of it, where no more comes."""
        assert self.process.stdout is not None
        while b"\n" not in self.left and self.is_told(SOON):
            more = os.read(self.process.stdout.fileno(), 1 << 16)
            if not more:
                break
            self.left += more
        line, end, self.left = self.left.partition(b"\n")
        return line + end

    def ended(self) -> Ended:
        """How the program ends where no more is written to it, with what else it writes."""
        more, errors = self.process.communicate()
        return self.process.returncode, self.left + more, errors


def rows_of(count: int) -> list[bytes]:
    """Rows at random."""
    rng = random.Random("pipes")
    return [a_row(rng).encode() + b"\n" for _ in range(count)]


def answers_of(live: pathlib.Path, lines: bytes) -> list[bytes]:
    """The answers to lines that are given at once."""
    return ran([live, PLAN], lines)[1].splitlines(True)


def one_at_a_time(live: pathlib.Path) -> list[str]:
    """Each row is answered before the next is written."""
    rows = rows_of(TRIPS)
    wanted, found = answers_of(live, b"".join(rows)), []
    with Talk(live) as talk:
        early = talk.is_told(NONE)
        for row in rows:
            talk.say(row)
            found.append(talk.line())
        ended = talk.ended()
    is_well = found == wanted and len(found) == TRIPS and not early
    return difference("at the end", ended, b"") + ([] if is_well else ["rows one at a time are answered otherwise"])


def many_ahead(live: pathlib.Path) -> list[str]:
    """A hundred rows are written before the first answer is read."""
    rows = rows_of(AHEAD * HUNDREDS)
    wanted, found = answers_of(live, b"".join(rows)), []
    with Talk(live) as talk:
        for first in range(0, len(rows), AHEAD):
            talk.say(b"".join(rows[first:first + AHEAD]))
            found += [talk.line() for _ in range(AHEAD)]
        ended = talk.ended()
    is_well = found == wanted and len(found) == len(rows)
    return difference("at the end", ended, b"") + ([] if is_well else ["a hundred rows ahead are answered otherwise"])


def byte_by_byte(live: pathlib.Path) -> list[str]:
    """Lines come a byte at a time: each is answered at its line feed, and not before."""
    lines = [*rows_of(2), b"step 1\n", b"what\n", b"edits \r\n"]
    wanted, wrong = answers_of(live, b"".join(lines)), []
    with Talk(live) as talk:
        for line, answer in zip(lines, wanted, strict=True):
            for byte in line[:-1]:
                talk.say(bytes([byte]))
                if talk.is_told(NONE / 10):
                    wrong.append(f"{line!r} is answered before its end")
            talk.say(line[-1:])
            if talk.line() != answer:
                wrong.append(f"{line!r} is answered otherwise a byte at a time")
    return wrong


def answered_together(live: pathlib.Path) -> list[str]:
    """A whole line is answered while the next has begun, and what has begun at the end of its line."""
    first, second = rows_of(2)
    wanted = answers_of(live, first + second)
    with Talk(live) as talk:
        talk.say(first + second[:9])
        found = [talk.line()]
        early = talk.is_told(NONE)
        talk.say(second[9:])
        found.append(talk.line())
    return [] if found == wanted and not early else [f"a row and a part of the next are answered {found}"]


def ends(live: pathlib.Path) -> list[str]:
    """Input that ends within a row, long lines, carriage returns, and `quit`."""
    row, other = rows_of(2)
    line, behind = answers_of(live, row + other)
    wrong = []
    for given, wanted in [
        (b"", b""), (b"\n", b""), (row, line), (row[:-1], line), (row + other[:29], line + b"bad command\n"),
        (row + other[:1], line + b"bad command\n"),
        (row + b"x" * 300 + b"\n" + other, line + b"bad command\n" + behind),
        (row + b" " * 300 + b"\n" + other, line + b"bad command\n" + behind),
        (row + b"1" * 100_000, line + b"bad command\n"),
        (row[:-1] + b"\r\n" + other[:-1] + b"\r\n", line + behind), (row[:-1] + b"\r", b"bad command\n"),
        (row[:-1] + b"\r\r\n" + row, b"bad command\n" + line), (row + b"quit\n" + other, line), (b"quit", b""),
        (row + b"quit 1\n" + other, line + b"bad command\n" + behind), (b"\n" * 10_000 + row, line),
    ]:
        wrong += difference(f"{given[:80]!r}", ran([live, PLAN], given), wanted)
    return wrong


def streams(live: pathlib.Path) -> list[str]:
    """Streams that fail, and lines without an end."""
    wrong = []
    for name, given, taken, wanted in [
        ("a read that fails", TORN, None, (3, INPUT)), ("a write that fails", COMMANDS, FULL, (3, WRITE)),
        ("no input", os.devnull, None, (0, b"")),
    ]:
        with open(given, "rb") as source, open(taken or os.devnull, "wb") as target:
            output = target if taken else subprocess.PIPE
            done = subprocess.run([live, PLAN], stdin=source, stdout=output, stderr=subprocess.PIPE, timeout=SECONDS)
        found = done.returncode, done.stderr
        wrong += [] if found == wanted and not done.stdout else [f"{name}: {found} {done.stdout!r}, not {wanted}"]
    return wrong + endless(live) + closed_output(live) + killed(live) + killed_caller(live)


def endless(live: pathlib.Path) -> list[str]:
    """Rows, and then a line without an end: they are answered, and 1 GiB is too large."""
    rows = b"".join(rows_of(3))
    ended = ran(["sh", "-c", 'cat - "$0" | "$1" "$2"', ENDLESS, live, PLAN], rows)
    wanted = 3, b"".join(answers_of(live, rows)), TOO_LARGE
    return [] if ended == wanted else [f"input without an end: {ended}, not {wanted}"]


def closed_output(live: pathlib.Path) -> list[str]:
    """The reader of the answers goes away."""
    row = rows_of(1)[0]
    with Talk(live) as talk:
        talk.say(row)
        talk.line()
        assert talk.process.stdout is not None
        talk.process.stdout.close()
        talk.say(row)
        assert talk.process.stderr is not None
        found = talk.process.wait(), talk.process.stderr.read()
    return [] if found == (3, WRITE) else [f"an output that is closed: {found}"]


def killed(live: pathlib.Path) -> list[str]:
    """The program is killed: what it has answered by then is the beginning of its answers."""
    rows = rows_of(AHEAD)
    with Talk(live) as talk:
        talk.say(b"".join(rows))
        first = talk.line()
        talk.process.kill()
        status, more, errors = talk.ended()
    wanted, found = b"".join(answers_of(live, b"".join(rows))), first + more
    is_well = (status, errors) == (-signal.SIGKILL, b"") and first and wanted.startswith(found)
    return [] if is_well else [f"a program that is killed: {status}, {found!r}, {errors!r}"]


def killed_caller(live: pathlib.Path) -> list[str]:
    """Who writes to the program is killed within a line: what there is of it is the last line."""
    row, other = rows_of(2)
    pipe = subprocess.PIPE
    with subprocess.Popen(["cat"], stdin=pipe, stdout=pipe, bufsize=0) as caller:
        assert caller.stdin is not None and caller.stdout is not None
        with subprocess.Popen([live, PLAN], stdin=caller.stdout, stdout=pipe, stderr=pipe, bufsize=0) as process:
            caller.stdout.close()
            caller.stdin.write(row + other[:9])
            assert process.stdout is not None
            line = process.stdout.readline()
            caller.kill()
            more, errors = process.communicate(timeout=SECONDS)
    found, wanted = (process.returncode, line + more, errors), (0, answers_of(live, row)[0] + b"bad command\n", b"")
    return [] if found == wanted else [f"a caller that is killed: {found}, not {wanted}"]


def within(limit: int, words: list[str | pathlib.Path], lines: bytes = b"") -> Ended:
    """A run of a program that may have so many KiB of memory."""
    return ran(["prlimit", f"--as={limit * 1024}", *words], lines)


def least(live: pathlib.Path) -> int:
    """How many KiB of memory the program needs to do anything."""
    low, high = 0, MOST
    while high - low > 4:
        middle = (low + high) // 2
        low, high = (low, middle) if within(middle, [live, "--version"])[0] == 0 else (middle, high)
    return high


def short_of_memory(live: pathlib.Path) -> list[str]:
    """Where memory is short, a run says so or refuses what it has no room for, and ends by no signal."""
    lines = b"".join(b"%016d 00000000 0000\n" % (k % 2) for k in range(60_000)) + b"show\n"
    start, wrong = least(live), []
    for more in MORE:
        status, _, errors = within(start + more, [live, PLAN], lines)
        if status not in (0, 3) or (status == 3) != (errors == b"memory\n"):
            wrong.append(f"with {more} KiB of memory beside the program: {status} {errors!r}")
    return wrong


def second_line(path: str, first: bytes) -> bytes:
    """What is printed in a second line: where a plan's text stops being JSON."""
    return json_places.second_line(pathlib.Path(path).read_bytes()) or b"" if first == b"plan: not JSON\n" else b""


def plans(live: pathlib.Path, tsb: pathlib.Path) -> list[str]:
    """Plans that are refused or cannot be read, as `tsb run` has them, with a line more."""
    wrong = []
    names = ["two_short_yellow", "blank", *(f"main_and_oak_{number}" for number in range(1, 6))]
    others = ["none.json", "examples", TORN, ENDLESS, "examples/first_plan.log"]
    for path in [*(f"examples/{name}.json" for name in names), *others]:
        wanted = ran([tsb, "run", path, "examples/empty.log"], b"show\n")
        found = ran([live, path], b"show\n")
        lines = wanted[2] + second_line(path, wanted[2])
        if found != (*wanted[:2], lines) or wanted[0] not in (1, 3):
            wrong.append(f"plan {path}: {found}, not {wanted} and {lines!r}")
    return wrong


def words(live: pathlib.Path) -> list[str]:
    """Words that ask for nothing."""
    wrong = []
    for given in [[], [PLAN, PLAN], ["--what", PLAN], ["-h"], ["-x", PLAN], [PLAN, "examples/empty.log"]]:
        status, output, errors = ran([live, *given], b"show\n")
        if (status, output) != (2, b"") or not LIVE_USAGE.fullmatch(errors):
            wrong.append(f"words {given}: {status} {output!r} {errors!r}")
    return wrong + difference("words behind --", ran([live, "--", PLAN], b"undo\n"), b"nothing\n")
