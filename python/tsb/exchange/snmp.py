"""Answers SNMP as a controller of NTCIP 1202 would, for a bench that runs a plan.

It listens at 127.0.0.1 alone. docs/use/EXCHANGE.md has its objects and its errors.
"""

import argparse
import asyncio
import math
import signal
import sys
import time
from collections.abc import Sequence
from contextlib import suppress
from pathlib import Path
from typing import cast

from tsb import files
from tsb.bench import Bench
from tsb.errors import Error, LogFault, PlanFault, Refused, shown
from tsb.exchange.agent import Agent
from tsb.options import Words, called
from tsb.panel.command import port
from tsb.programs import marked

try:
    from tsb.exchange.messages import Communities, answer
except ImportError as missing:  # (the rest of the package goes without it)
    raise Error(f"SNMP needs pysnmp: python/setup.sh ({missing})") from None

PROGRAM = called("snmp")
HOST = "127.0.0.1"
#: The communities of a controller as it is delivered, by NTCIP 1103.
DEFAULT = Communities(b"public", b"administrator")
#: What is printed of a plan whose schedule does not act.
NO_CLOCK = "its schedule acts by a clock alone: give --from, or set globalTime"
LONGEST = 255  # bytes of a community
TICKS = 10  # of a second
TURN = 0.05  # seconds between two looks at the clock
PIECE = 20_000  # ticks that pass in a turn at most


class Door(asyncio.DatagramProtocol):
    """Where requests come in. What ends the bench ends it too."""

    def __init__(self, agent: Agent, known: Communities) -> None:
        self._agent, self._known = agent, known
        self._transport: asyncio.DatagramTransport | None = None
        self.ended = asyncio.Event()
        self.fault: Error | None = None

    def connection_made(self, transport: asyncio.BaseTransport) -> None:
        """Keeps the socket."""
        self._transport = cast(asyncio.DatagramTransport, transport)

    def datagram_received(self, data: bytes, addr: tuple[str, int]) -> None:
        """Answers a request."""
        try:
            reply = answer(self._agent, data, self._known)
        except Error as fault:
            self.fault = fault
            self.ended.set()
            return
        if reply is not None and self._transport is not None:
            self._transport.sendto(reply, addr)


class Clock:
    """Lets ticks pass, `speed` times as fast as the machine's clock; 0 for none."""

    def __init__(self, agent: Agent, speed: float) -> None:
        self._agent, self._speed = agent, speed
        self._begun, self._passed = time.monotonic(), 0

    def turn(self) -> None:
        """Lets those ticks pass that are due."""
        due = int((time.monotonic() - self._begun) * TICKS * self._speed)
        ticks = min(due - self._passed, PIECE)
        if ticks > 0:
            self._agent.step(ticks)
            self._passed += ticks

    async def run(self, door: Door) -> None:
        """Goes on until the last tick that a run has."""
        try:
            while self._speed:
                await asyncio.sleep(TURN)
                self.turn()
        except Refused as refused:
            print(f"time stands: {refused}", flush=True)
        except Error as fault:
            door.fault = fault
            door.ended.set()


async def serve(agent: Agent, known: Communities, given: argparse.Namespace) -> int:
    """Answers until it is interrupted."""
    loop = asyncio.get_running_loop()
    door = Door(agent, known)
    transport, _ = await loop.create_datagram_endpoint(
        lambda: door, local_addr=(HOST, given.port)
    )
    clock = asyncio.create_task(Clock(agent, given.speed).run(door))
    try:
        for it in (signal.SIGINT, signal.SIGTERM):
            loop.add_signal_handler(it, door.ended.set)
        number = transport.get_extra_info("sockname")[1]
        name = marked(shown(given.plan))
        print(f"{name}: SNMP at {HOST}:{number}", flush=True)
        await door.ended.wait()
    finally:
        transport.close()
        clock.cancel()
        with suppress(asyncio.CancelledError):
            await clock
    if door.fault is not None:
        raise door.fault
    return 0


def communities(path: Path | None) -> Communities:
    """The communities of a file: of its first line who may read, of its second who may
    set. No error has their text."""
    if path is None:
        return DEFAULT
    lines = files.read(path, 4 * LONGEST).splitlines()
    if len(lines) != 2 or not all(1 <= len(it) <= LONGEST for it in lines):
        raise Error(f"{path}: it has two lines, a community of 1 to 255 bytes in each")
    return Communities(*lines)


def _speed(text: str) -> float:
    """A speed; `ValueError` where it is none."""
    number = float(text)
    if not (math.isfinite(number) and number >= 0):
        raise ValueError
    return number


_speed.__name__ = "speed"  # (as argparse tells a bad one)


def _words() -> argparse.ArgumentParser:
    words = Words(
        prog=PROGRAM,
        description="Answers SNMP for a bench that runs a plan.",
        epilog="docs/use/EXCHANGE.md has its objects.",
        allow_abbrev=False,
    )
    words.add_argument("plan", type=Path, metavar="PLAN")
    words.add_argument("log", type=Path, nargs="?", metavar="LOG")
    words.add_argument("--port", type=port, default=0, help="0 for any that is free")
    words.add_argument(
        "--speed", type=_speed, default=1.0,
        help="how often as fast as the clock time runs; 1 without it, 0: it stands",
    )  # fmt: skip
    words.add_argument(
        "--from", dest="begin", metavar="TIME",
        help="when tick 1 begins: the clock is set to it; without it there is none",
    )  # fmt: skip
    words.add_argument(
        "--ticks", type=int, default=0, metavar="N",
        help="so many ticks pass before the first answer",
    )  # fmt: skip
    words.add_argument(
        "--communities", type=Path, metavar="FILE",
        help="who may read, and below it who may set, a line for each",
    )  # fmt: skip
    return words


def main(words: Sequence[str]) -> int:
    """Answers until it is interrupted; the status to end with."""
    known = _words()
    given = known.parse_args(words)
    if given.ticks < 0:
        known.error("--ticks is 0 or more")
    allowed = communities(given.communities)
    with _bench(given.plan, given.log) as bench:
        if given.begin is not None:
            bench.set_clock(given.begin)
        elif bench.plan.has_schedule:
            print(f"{shown(given.plan)}: {NO_CLOCK}", file=sys.stderr, flush=True)
        bench.step(given.ticks)
        return asyncio.run(serve(Agent(bench), allowed, given))


def _bench(plan: Path, log: Path | None) -> Bench:
    """A bench on files; `Error` names the file that is refused."""
    try:
        return Bench(plan, log, events=False)
    except PlanFault as fault:
        raise Error(f"{plan}: {fault}") from None
    except LogFault as fault:
        raise Error(f"{log}: {fault}") from None
