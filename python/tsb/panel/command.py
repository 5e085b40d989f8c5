"""The command `python3 -m tsb panel`."""

import argparse
import asyncio
import logging
import signal
import webbrowser
from collections.abc import Coroutine, Sequence
from contextlib import suppress
from pathlib import Path

from tsb.errors import Error, LogFault, PlanFault, shown
from tsb.options import Words, called
from tsb.panel.keep import Keep, Source
from tsb.panel.layout import Layout
from tsb.programs import marked

PROGRAM = called("panel")
PORTS = 65_535  # the greatest port
RUNS = Path("panel_runs")  # where runs are kept, if no word says where


def _words() -> argparse.ArgumentParser:
    words = Words(
        prog=PROGRAM,
        description="Shows a bench in the browser: open the address that is printed.",
    )
    words.add_argument("plan", type=Path, metavar="PLAN")
    words.add_argument("log", type=Path, nargs="?", metavar="LOG")
    words.add_argument(
        "--layout", type=Path, metavar="FILE", help="where phases are (docs/use/PANEL.md)"
    )
    words.add_argument(
        "--runs",
        type=Path,
        metavar="FOLDER",
        default=RUNS,
        help="where runs are kept; panel_runs without it",
    )
    words.add_argument("--port", type=port, default=0, help="0 for any that is free")
    words.add_argument("--open", action="store_true", help="open it in the browser")
    return words


def port(text: str) -> int:
    """A port of a server; `ValueError` where it is none."""
    number = int(text)
    if not 0 <= number <= PORTS:
        raise ValueError
    return number


port.__name__ = "port"  # (as argparse tells a bad one)


def main(words: Sequence[str]) -> int:
    """Serves a panel until it is interrupted; the status to end with."""
    given = _words().parse_args(words)
    try:
        source = _source(given.plan, given.log)
        layout = None if given.layout is None else Layout.read(given.layout)
        keep = Keep(given.runs.resolve())
        return asyncio.run(serve(source, keep, layout, given.port, given.open))
    except OSError as fault:
        raise Error(f"{fault.filename or 'panel'}: {fault.strerror}") from None


def _source(plan: Path, log: Path | None) -> Source:
    """What a run begins with; `Error` names the file that is refused."""
    try:
        source = Source.read(plan, log)
        source.open().close()
    except PlanFault as fault:
        raise Error(f"{plan}: {fault}") from None
    except LogFault as fault:
        raise Error(f"{log}: {fault}") from None
    return source


async def serve(
    source: Source,
    keep: Keep,
    layout: Layout | None = None,
    port: int = 0,
    is_opened: bool = False,
) -> int:
    """Serves a panel at a port, 0 for any that is free, until it is interrupted, and
    opens it in the browser if that is asked; the status to end with."""
    try:
        from aiohttp import web

        from tsb.panel.server import HOST, Door, Panel
    except ImportError as missing:
        raise Error(f"a panel needs aiohttp: python/setup.sh ({missing})") from None
    panel = Panel(source, keep, layout)
    runner = web.AppRunner(panel.app(), access_log=None, logger=_quiet())
    await runner.setup()
    assert runner.server is not None
    door = Door(runner.server, panel.busy)
    server = None
    try:
        server = await asyncio.get_running_loop().create_server(door, HOST, port)
        panel.port = server.sockets[0].getsockname()[1]
        print(f"{marked(shown(source.name))}: {panel.address}", flush=True)
        if is_opened:
            webbrowser.open(panel.address)
        await _interrupted(panel.watch())
    finally:
        if server is not None:
            server.close()
        await panel.close()
        await runner.cleanup()
    return 0


def _quiet() -> logging.Logger:
    """A logger that drops what aiohttp says of bad requests."""
    found = logging.getLogger("tsb.panel")
    found.addHandler(logging.NullHandler())
    found.propagate = False
    return found


async def _interrupted(work: Coroutine[object, object, None]) -> None:
    """Works until Ctrl-C, or until the process is asked to end."""
    ended = asyncio.Event()
    for it in (signal.SIGINT, signal.SIGTERM):
        asyncio.get_running_loop().add_signal_handler(it, ended.set)
    task = asyncio.create_task(work)
    await ended.wait()
    task.cancel()
    with suppress(asyncio.CancelledError):
        await task
