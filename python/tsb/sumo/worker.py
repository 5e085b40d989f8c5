"""SUMO in a process of its own that has libsumo in it, so that it can be forked.

The process is asked over a socket. A checkpoint is a fork of it that waits. To resume
one, the process wakes it and ends; the fork wakes, keeps a fork of itself as the same
checkpoint, and answers from then on. So a checkpoint has all that SUMO has, to the
last bit. Files that SUMO writes are cut back to where they were at the checkpoint.
"""

import contextlib
import fcntl
import os
import signal
import socket
import subprocess
import sys
import tempfile
from collections.abc import Sequence
from dataclasses import replace
from multiprocessing.connection import Connection
from pathlib import Path
from typing import Any

from tsb.errors import Error
from tsb.sumo.intersection import Intersection
from tsb.sumo.simulation import Eyes, SumoFailed, States, binary

BEGINS = "import sys; from tsb.sumo.worker import main; main(int(sys.argv[1]))"
PACKAGES = str(Path(__file__).resolve().parents[2])


class Libsumo:
    """A simulation in a process of its own, by libsumo."""

    forks = True

    def start(self, options: Sequence[str], at: Sequence[Intersection]) -> list[str]:
        """Starts the process, and SUMO at time 0."""
        ours, theirs = socket.socketpair()
        self._errors = tempfile.TemporaryFile()
        path = os.pathsep.join(filter(None, [PACKAGES, os.environ.get("PYTHONPATH")]))
        # (-P: nothing is imported from the folder that one stands in)
        words = [sys.executable, "-P", "-c", BEGINS, str(theirs.fileno())]
        with theirs:
            self._process = subprocess.Popen(
                words,
                env={"SUMO_HOME": "/usr/share/sumo", **os.environ, "PYTHONPATH": path},
                stdin=subprocess.DEVNULL,
                stdout=subprocess.DEVNULL,
                stderr=self._errors,
                pass_fds=[theirs.fileno()],
            )
        self._channel = Connection(ours.detach())
        bare = [replace(it, plan=None) for it in at]
        try:
            rows: list[str] = self._ask("start", list(options), bare)
        except Error:
            self._end()
            raise
        return rows

    def _ask(self, word: str, *words: Any) -> Any:
        try:
            self._channel.send((word, words))
            fine, answer = self._channel.recv()
        except (EOFError, OSError):
            raise self._died() from None
        if not fine:
            if isinstance(answer, SumoFailed):
                raise SumoFailed(f"{answer}; SUMO said: {self._said()}")
            raise answer
        return answer

    def _died(self) -> SumoFailed:
        return SumoFailed(f"SUMO ended; it said: {self._said()}")

    def _said(self) -> str:
        """What SUMO said of its errors."""
        self._errors.seek(0)
        return self._errors.read().decode(errors="replace").strip() or "nothing"

    def step(self, states: States) -> tuple[list[str], list[str]]:
        """One step in these states."""
        told: tuple[list[str], list[str]] = self._ask("step", states)
        return told

    def replay(self, states: Sequence[States]) -> list[list[str]]:
        """So many steps."""
        rows: list[list[str]] = self._ask("replay", states)
        return rows

    def call(self, name: str, *words: Any) -> Any:
        """A call of SUMO's Python interface."""
        return self._ask("call", name, *words)

    def checkpoint(self) -> int:
        """Forks the process."""
        number: int = self._ask("checkpoint")
        return number

    def resume(self, checkpoint: int) -> None:
        """Goes on from a fork."""
        self._ask("resume", checkpoint)

    def close(self) -> None:
        """Ends SUMO, and the process with its forks."""
        if self._channel.closed:
            return
        try:
            self._ask("close")
        finally:
            self._end()

    def _end(self) -> None:
        """Ends the process with its forks, which end when the channel does."""
        self._channel.close()
        self._process.wait()
        self._errors.close()


class Worker:
    """What the process does."""

    def __init__(self, channel: Connection) -> None:
        self._channel = channel
        self._eyes: Eyes | None = None
        self._waiting: list[int] = []  # of each checkpoint, what wakes it

    def serve(self) -> None:
        """Answers until the other end is closed."""
        while True:
            try:
                word, words = self._channel.recv()
            except EOFError:
                os._exit(0)
            self._channel.send(self._answer(word, words))
            if word == "close":
                os._exit(0)

    def _answer(self, word: str, words: Sequence[Any]) -> tuple[bool, Any]:
        try:
            return True, getattr(self, word)(*words)
        except Error as fault:
            return False, fault
        except Exception as fault:
            return False, SumoFailed(f"{word}: {type(fault).__name__}: {fault}")

    def start(self, options: list[str], at: list[Intersection]) -> list[str]:
        """Starts SUMO at time 0: the first rows."""
        import libsumo

        self._api = libsumo
        libsumo.start([binary("sumo"), *options])
        self._eyes = Eyes(libsumo, at, subscribe=False)
        return self._eyes.rows()

    @property
    def eyes(self) -> Eyes:
        """What steps SUMO; `SumoFailed` before it was started."""
        if self._eyes is None:
            raise SumoFailed("SUMO was not started")
        return self._eyes

    def step(self, states: States) -> tuple[list[str], list[str]]:
        """One step: the rows after it, and the states in it."""
        return self.eyes.step(states)

    def replay(self, states: Sequence[States]) -> list[list[str]]:
        """So many steps: the rows after each."""
        return [self.eyes.step(it)[0] for it in states]

    def call(self, name: str, *words: Any) -> Any:
        """A call of SUMO's Python interface."""
        return self.eyes.call(name, *words)

    def checkpoint(self) -> int:
        """Returns in the process that asked; in the fork only when it is woken."""
        number, files = len(self._waiting), _places()
        asleep, wake = os.pipe()
        if os.fork() == 0:
            os.close(wake)
            if not os.read(asleep, 1):
                os._exit(0)
            os.close(asleep)
            _cut_back(files)
            return self.checkpoint()
        os.close(asleep)
        self._waiting.append(wake)
        return number

    def resume(self, checkpoint: int) -> None:
        """Wakes a fork, which answers. Later ones end with this process."""
        os.write(self._waiting[checkpoint], b"w")
        os._exit(0)

    def close(self) -> None:
        """Ends SUMO, which writes its files to the end."""
        if self._eyes is not None:
            self._api.close()


def _places() -> dict[int, int]:
    """Of each file that is open for writing, how far it is written."""
    found = {}
    for name in os.listdir("/proc/self/fd"):
        fd = int(name)
        with contextlib.suppress(OSError):
            writes = fcntl.fcntl(fd, fcntl.F_GETFL) & os.O_ACCMODE != os.O_RDONLY
            if fd > 2 and writes and os.path.isfile(f"/proc/self/fd/{fd}"):
                found[fd] = os.lseek(fd, 0, os.SEEK_CUR)
    return found


def _cut_back(files: dict[int, int]) -> None:
    """Cuts files back to where they were."""
    for fd, place in files.items():
        os.ftruncate(fd, place)
        os.lseek(fd, place, os.SEEK_SET)


def main(fd: int) -> None:
    """Serves on a socket. (Forks that end leave nothing that has to be waited for.)"""
    signal.signal(signal.SIGCHLD, signal.SIG_IGN)
    signal.signal(signal.SIGINT, signal.SIG_IGN)
    Worker(Connection(fd)).serve()

