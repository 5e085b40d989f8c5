"""A live program at the end of two pipes (docs/use/LIVE.md)."""

import os
import select
import subprocess
import tempfile
from collections.abc import Callable, Sequence
from contextlib import suppress
from pathlib import Path

from tsb.errors import Error, ProgramDied

PIECE = 1 << 20  # bytes that are read at a time
# What closes many lines that are asked at once: its answer alone ends with a brace.
CLOSING, CLOSED = b"edits\n", b"}\n"


class Talk:
    """A running program: lines are written to it, and its answers are read.

    Both ends are read and written as they can be, so that neither waits for the other
    however many lines are sent ahead. `ProgramDied` says how the program ended, if it
    did.
    """

    def __init__(self, program: Path, words: Sequence[str | Path]) -> None:
        self._name = program.name
        self._errors = tempfile.TemporaryFile()
        # (a session of its own: Ctrl-C at a terminal is for the caller alone)
        self._process = subprocess.Popen(
            [program, *words],
            stdin=subprocess.PIPE,
            stdout=subprocess.PIPE,
            stderr=self._errors,
            bufsize=0,
            start_new_session=True,
        )
        assert self._process.stdin is not None and self._process.stdout is not None
        self._in, self._out = self._process.stdin, self._process.stdout
        self._to, self._from = self._in.fileno(), self._out.fileno()
        os.set_blocking(self._to, False)
        self._is_asked = False

    @property
    def process(self) -> int:
        """The number of the process."""
        return self._process.pid

    def ask(self, line: str) -> str:
        """The answer to a line that has one: lines of events, and a last one, or two where
        a pattern that was to follow is refused. (They come by one write, up to 8 KiB.)"""
        left = memoryview(line.encode() + b"\n")
        self._begin()
        told = b""
        while left or not told.endswith(b"\n") or _last(told).startswith(b"event"):
            is_told, left = self._wait(left)
            if is_told:
                told += self._more()
        self._is_asked = False
        return told[:-1].decode()

    def block(self, lines: bytes, stops: Callable[[], bool]) -> bytes:
        """All answers to many lines, which are sent ahead of them. Once `stops` says
        so, no more lines are sent, and the answers are those to the lines before."""
        self._begin()
        left, told = memoryview(lines + CLOSING), bytearray()
        while not told.endswith(CLOSED):
            is_told, left = self._wait(left)
            if is_told:
                told += self._more()
            if len(left) > len(CLOSING) and stops():
                line, end, _ = bytes(left).partition(b"\n")
                left = memoryview(line + end + CLOSING)
        self._is_asked = False
        return bytes(told[: told.rfind(b"\n", 0, -1) + 1])

    def _begin(self) -> None:
        """Nothing is asked of a bench that is closed, nor while an answer is on its
        way, as that would be taken for the next one's."""
        if self._in.closed:
            raise Error("this bench is closed")
        if self._is_asked and self._process.poll() is None:
            raise Error("an answer of this bench was interrupted: it cannot go on")
        self._is_asked = True

    def _wait(self, left: memoryview) -> tuple[bool, memoryview]:
        """Waits until the program has written something or takes more of what is left to
        write: whether it has written something, and what is left then."""
        ends = select.poll()
        ends.register(self._from, select.POLLIN)
        if left:
            ends.register(self._to, select.POLLOUT)
        ready = dict(ends.poll())
        if self._to in ready:
            try:
                left = left[os.write(self._to, left) :]
            except BrokenPipeError:
                raise self.died() from None
        return self._from in ready, left

    def _more(self) -> bytes:
        more = os.read(self._from, PIECE)
        if not more:
            raise self.died()
        return more

    def died(self) -> ProgramDied:
        """How the program ended."""
        status = self._process.wait()
        self._errors.seek(0)
        return ProgramDied(self._name, status, self._errors.read().decode())

    def kill(self) -> None:
        """Ends the program at once, in the middle of whatever it does."""
        self._process.kill()

    def close(self) -> None:
        """Ends the program, and waits for it."""
        if not self._in.closed:
            if self._is_asked:
                self.kill()
            # (where a forked process holds the pipe too, its end would not come)
            with suppress(BrokenPipeError):
                os.write(self._to, b"quit\n")
            self._in.close()
            self._out.close()
            self._process.wait()
            self._errors.close()


def _last(told: bytes) -> bytes:
    """The last whole line."""
    return told[told.rfind(b"\n", 0, -1) + 1 :]
