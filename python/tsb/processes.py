"""Processes of this machine that do work for a while, heard by nobody else.

They speak through pipes, so no other user of the machine can ask anything of them. A
process that dies costs its work one try of three, and ends no other. They end with
whoever made them, also where that is killed.
"""

import os
import shutil
import signal
import tempfile
import threading
import time
from collections import deque
from collections.abc import Callable, Iterable, Iterator
from concurrent.futures import FIRST_COMPLETED, Future, ProcessPoolExecutor, wait
from concurrent.futures.process import BrokenProcessPool
from contextlib import ExitStack, contextmanager
from multiprocessing import get_context
from multiprocessing.connection import Connection
from pathlib import Path
from typing import Any, TypeVar

from tsb.errors import Error
from tsb.kept import WRITING

PATIENCE = 10  # seconds in which a process that is to end can write a file
RETRIES = 2  # times that work is tried again whose process died
# A new process begins with what it is sent, and with nothing of this one.
_CONTEXT = get_context("spawn")

T = TypeVar("T")
Words = tuple[Any, ...]
#: The words of some work, what it gave, and what went wrong where it gave nothing.
Ended = tuple[Words, T | None, str | None]


class Processes:
    """So many processes, made by `local`."""

    def __init__(self, count: int, room: Path) -> None:
        if count < 1:
            raise Error(f"{count} processes do nothing: 1 or more")
        self._room = room
        # (its other end is this process's alone, and ends with it)
        self._alive, self._end = _CONTEXT.Pipe(duplex=False)
        self._all: list[ProcessPoolExecutor] = []
        # (a pool that two threads shut down at once closes its pipe twice)
        self._ending = threading.Lock()
        self._free = [self._one() for _ in range(count)]

    def _one(self) -> ProcessPoolExecutor:
        """One process, that is started with its first work."""
        words = (self._alive, str(self._room))
        self._all.append(ProcessPoolExecutor(1, _CONTEXT, _begun, words))
        return self._all[-1]

    def done(
        self, does: Callable[..., T], work: Iterable[Words]
    ) -> Iterator[Ended[T]]:
        """Does all the work, in any order: its words, what it gave, and what went
        wrong."""
        left = deque((words, RETRIES) for words in work)
        under_way: dict[Future[T], tuple[ProcessPoolExecutor, Words, int]] = {}
        while left or under_way:
            while left and self._free:
                words, tries = left.popleft()
                worker, future = self._given(does, words)
                under_way[future] = worker, words, tries
            for future in wait(under_way, return_when=FIRST_COMPLETED).done:
                worker, words, tries = under_way.pop(future)
                has_died = isinstance(future.exception(), BrokenProcessPool)
                self._free.append(self._another(worker) if has_died else worker)
                if has_died and tries:
                    left.append((words, tries - 1))
                else:
                    fault = _said(future)
                    yield words, None if fault else future.result(), fault

    def _another(self, dead: ProcessPoolExecutor) -> ProcessPoolExecutor:
        """One in place of a process that died."""
        with self._ending:
            dead.shutdown()
        self._all.remove(dead)
        return self._one()

    def _given(
        self, does: Callable[..., T], words: Words
    ) -> tuple[ProcessPoolExecutor, Future[T]]:
        """Gives work to a process that is free, or to another where that one died."""
        worker = self._free.pop()
        # (Ctrl-C at a terminal is for this process alone: what it starts has it
        # blocked, and here it comes once the process is started)
        with _held_back(signal.SIGINT):
            try:
                return worker, worker.submit(does, *words)
            except BrokenProcessPool:
                worker = self._another(worker)
                return worker, worker.submit(does, *words)

    def close(self) -> None:
        """Ends all processes, in the middle of whatever they do."""
        self._end.close()
        for it in list(self._all):
            with self._ending:
                it.shutdown(cancel_futures=True)
        self._alive.close()


def _said(future: Future[Any]) -> str | None:
    """What went wrong with work, if something did."""
    fault = future.exception()
    if fault is None:
        return None
    if isinstance(fault, BrokenProcessPool):
        return f"its process died, {RETRIES + 1} times"
    return f"{type(fault).__name__}: {fault}"


def _begun(alive: Connection, room: str) -> None:
    """What a process does first: its files for a while are in the room, and it ends
    once nobody holds the other end of a pipe."""
    tempfile.tempdir = room
    threading.Thread(target=_ended, args=(alive, room), daemon=True).start()


def _ended(alive: Connection, room: str) -> None:
    """Waits for the end, and leaves nothing behind: a file that is being written is
    written to its end, and the room is gone."""
    alive.poll(None)
    WRITING.acquire(timeout=PATIENCE)
    until = time.monotonic() + PATIENCE
    while os.path.exists(room) and time.monotonic() < until:
        # (what is made in it meanwhile stays, with the folder itself)
        shutil.rmtree(room, ignore_errors=True)
    os._exit(1)


@contextmanager
def _held_back(*numbers: signal.Signals) -> Iterator[None]:
    """A block in which these signals wait for its end."""
    before = signal.pthread_sigmask(signal.SIG_BLOCK, numbers)
    try:
        yield
    finally:
        signal.pthread_sigmask(signal.SIG_SETMASK, before)


@contextmanager
def local(workers: int | None = None) -> Iterator[Processes]:
    """So many processes of this machine, one for each processor without a number."""
    count = (os.cpu_count() or 1) if workers is None else workers
    with ExitStack() as at_end:
        # (a room that is made and not yet known here would be left behind)
        with _held_back(signal.SIGINT, signal.SIGTERM):
            room = tempfile.TemporaryDirectory(
                prefix="tsb-sweep-", ignore_cleanup_errors=True
            )
            at_end.enter_context(room)
        made = Processes(count, Path(room.name))
        at_end.callback(made.close)
        yield made
