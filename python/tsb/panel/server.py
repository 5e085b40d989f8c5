"""The server of the panel: one bench a page, on this machine alone.

It listens on 127.0.0.1. The address has a random token, and each request is checked
for the Host that it names, and one that changes something for the Origin of its page.
So no other page can drive a bench, nor read one.
"""

import asyncio
import hmac
import json
import re
import secrets
import sys
import time
from collections.abc import Awaitable, Callable
from dataclasses import dataclass, field
from importlib.resources import files
from typing import Any

from aiohttp import web

from tsb.errors import Error, shown
from tsb.panel import keep
from tsb.panel.faults import RELOAD, told, told_of
from tsb.panel.keep import Keep, Source
from tsb.panel.layout import Layout
from tsb.panel.requests import (
    BadRequest,
    Look,
    columns_of,
    request_of,
    view_of,
)
from tsb.panel.session import Session

HOST = "127.0.0.1"
BODY_MOST = 16 << 10  # bytes of a request
BENCHES_MOST = 16  # benches at a time
CONNECTIONS_MOST = 200  # connections at a time: above them the oldest idle one goes
# Seconds after which a page that says nothing may lose its bench to another page, and
# after which its bench is closed.
SILENT, GONE = 180, 3600
# Seconds that a page may take to be reloaded before its bench is given to another.
LEFT = 5
# Seconds that a page that is reloaded waits for an earlier request to end.
BUSY = 5
PAGES = {
    "": ("index.html", "text/html"),
    "panel.css": ("panel.css", "text/css"),
    "panel.js": ("panel.js", "text/javascript"),
    "intersection.js": ("intersection.js", "text/javascript"),
    "controller.js": ("controller.js", "text/javascript"),
    "diagram.js": ("diagram.js", "text/javascript"),
    "desk.js": ("desk.js", "text/javascript"),
    "dom.js": ("dom.js", "text/javascript"),
    "numbers.js": ("numbers.js", "text/javascript"),
}
HEADERS = {
    "Content-Security-Policy": "default-src 'none'; script-src 'self'; style-src"
    " 'self'; connect-src 'self'; img-src 'self' data:; base-uri 'none';"
    " form-action 'none'; frame-ancestors 'none'",
    "X-Content-Type-Options": "nosniff",
    "Referrer-Policy": "no-referrer",
    "Cross-Origin-Opener-Policy": "same-origin",
    "Cross-Origin-Resource-Policy": "same-origin",
    "Cache-Control": "no-store",
}
TIME = r"\d{4}-\d{2}-\d{2} \d{2}:\d{2}:\d{2}(\.\d{1,9})?"
DEVICE = r"[A-Za-z0-9_-]{1,40}"

Handler = Callable[[web.Request], Awaitable[web.StreamResponse]]


class Stopped(Exception):
    """A request that ends with a status and a message."""

    def __init__(self, status: int, title: str, text: str, cure: str = "") -> None:
        super().__init__(text)
        self.status, self.told = status, told(title, text, cure)


@dataclass
class Held:
    """A bench, and the page that has it."""

    session: Session
    page: str = ""
    heard: float = field(default_factory=time.monotonic)
    has_left: bool = False
    lock: asyncio.Lock = field(default_factory=asyncio.Lock)
    doing: str = ""


class Panel:
    """The benches of all pages."""

    def __init__(self, source: Source, folder: Keep, layout: Layout | None) -> None:
        self._source, self._keep, self._layout = source, folder, layout
        self._held: dict[str, Held] = {}
        self.token = secrets.token_urlsafe(24)
        self.port = 0
        #: Connections with a request that is being answered.
        self.busy: set[object] = set()

    @property
    def address(self) -> str:
        """The address of the panel's page."""
        return f"http://{HOST}:{self.port}/{self.token}/"

    def app(self) -> web.Application:
        """The application that answers."""
        app = web.Application(middlewares=[self._guard], client_max_size=BODY_MOST)
        app.router.add_get("/{token}/{name:[a-z.]*}", self._page)
        app.router.add_post("/{token}/open", self._open)
        app.router.add_post("/{token}/ask", self._ask)
        app.router.add_post("/{token}/leave", self._leave)
        app.router.add_post("/{token}/events.csv", self._events)
        app.router.add_post("/{token}/diagram.svg", self._diagram)
        app.router.add_post("/{token}/plan.json", self._plan)
        return app

    async def close(self) -> None:
        """Ends all benches, and what they are doing."""
        held, self._held = self._held, {}
        for it in held.values():
            if it.lock.locked():
                it.session.stop()
            async with it.lock:
                it.session.close()

    async def watch(self) -> None:
        """Closes the benches of pages that are gone, for ever."""
        while True:
            await asyncio.sleep(30)
            self._drop(GONE, GONE)

    # Who may ask

    @web.middleware
    async def _guard(self, request: web.Request, handler: Handler) -> Any:
        """Answers no one else's pages, and answers faults as objects of JSON."""
        self.busy.add(request.protocol)
        try:
            self._check(request)
            answer = await handler(request)
        except Stopped as stopped:
            answer = _fault(stopped.status, stopped.told)
        except BadRequest as fault:
            answer = _fault(400, told_of(fault))
        except Error as fault:
            answer = _fault(422, told_of(fault))
        except OSError as fault:
            text = f"{fault.filename or 'a file'}: {fault.strerror}"
            cure = "what was saved is as it was; make room on the disk"
            answer = _fault(507, told("a file could not be written", text, cure))
        except web.HTTPRequestEntityTooLarge:
            text = f"a request has at most {BODY_MOST} bytes"
            answer = _fault(413, told("too much at a time", text))
        except web.HTTPException as fault:
            answer = _fault(fault.status, told("there is no such page", fault.reason))
        except Exception as fault:
            said = f"{type(fault).__name__}: {shown(fault)}"
            print(f"panel: {said}", file=sys.stderr)
            answer = _fault(500, told("this went wrong", said, RELOAD))
        finally:
            self.busy.discard(request.protocol)
        answer.headers.update(HEADERS)
        return answer

    def _check(self, request: web.Request) -> None:
        hosts = {f"{name}:{self.port}" for name in (HOST, "localhost")}
        if request.headers.get("Host") not in hosts:
            raise Stopped(403, "wrong host", f"this panel is at {HOST}:{self.port}")
        token = request.path.lstrip("/").partition("/")[0].encode(errors="replace")
        if not hmac.compare_digest(token, self.token.encode()):
            text = "the address has another token"
            raise Stopped(404, "wrong address", text, "use the address it printed")
        site = request.headers.get("Sec-Fetch-Site", "none")
        is_opened = request.headers.get("Sec-Fetch-Dest") == "document"
        if site not in ("none", "same-origin") and not is_opened:
            raise Stopped(403, "wrong page", "another page has asked")
        if request.method == "POST":
            if request.headers.get("Origin") not in {f"http://{it}" for it in hosts}:
                raise Stopped(403, "wrong origin", "another page has asked")
            if request.content_type != "application/json":
                raise Stopped(415, "no JSON", "a request is an object of JSON")

    # What is answered

    async def _page(self, request: web.Request) -> web.Response:
        """The page and its parts."""
        name = request.match_info["name"]
        if name not in PAGES:
            raise web.HTTPNotFound
        file, kind = PAGES[name]
        text = files(__package__).joinpath("page", file).read_text(encoding="utf-8")
        return web.Response(text=text, content_type=kind, charset="utf-8")

    async def _open(self, request: web.Request) -> web.Response:
        """Gives a page a bench: its own where it was reloaded, else a new one."""
        asked = await _body(request)
        name, is_again = asked.get("session"), False
        held = self._held.get(name) if type(name) is str else None
        said = ""
        if held is None:
            said = "" if name is None else "the bench of this page is gone: a new one"
            name, held = await self._new()
        else:
            is_again = True
        held.page, held.heard = secrets.token_urlsafe(16), time.monotonic()
        held.has_left = False
        try:
            async with asyncio.timeout(BUSY):
                await held.lock.acquire()
        except TimeoutError:
            raise _busy(held) from None
        try:
            session = held.session
            found = await asyncio.to_thread(session.told, None, None, 0)
            opened = await asyncio.to_thread(session.opened)
        finally:
            held.lock.release()
        if is_again:
            said = f"reloaded: the bench goes on at tick {found['state']['now']}"
        mine = {"session": name, "page": held.page, "said": said}
        return web.json_response({**found, **opened, **mine})

    async def _new(self) -> tuple[str, Held]:
        """A bench for a new page."""
        if len(self._held) >= BENCHES_MOST:
            self._drop(SILENT, LEFT)
        if len(self._held) >= BENCHES_MOST:
            text = f"{BENCHES_MOST} pages have benches"
            raise Stopped(503, "too many pages", text, f"close some, and {RELOAD}")
        session = await asyncio.to_thread(
            Session, self._source, self._keep, self._layout
        )
        name = secrets.token_urlsafe(16)
        self._held[name] = Held(session)
        return name, self._held[name]

    def _drop(self, silent: float, left: float) -> None:
        """Closes the benches of pages that were silent for so long, or have left."""
        now = time.monotonic()
        for name, it in [*self._held.items()]:
            most = left if it.has_left else silent
            if now - it.heard > most and not it.lock.locked():
                it.session.close()
                del self._held[name]

    def _of_page(self, page: Any) -> Held | None:
        """The bench of a page."""
        same = (it for it in self._held.values() if it.page == page)
        return next(same, None) if type(page) is str else None

    def _mine(self, asked: dict[str, Any]) -> Held:
        """The bench of a page that asks, if it is free."""
        held = self._of_page(asked.pop("page", None))
        if held is None:
            text = "this page was silent for long, or is open elsewhere"
            raise Stopped(410, "this page has no bench", text, RELOAD)
        held.heard, held.has_left = time.monotonic(), False
        if held.lock.locked():
            raise _busy(held)
        return held

    async def _leave(self, request: web.Request) -> web.Response:
        """A page was closed, or is being reloaded."""
        held = self._of_page((await _body(request)).get("page"))
        if held is not None:
            held.has_left, held.heard = True, time.monotonic()
        return web.json_response({})

    async def _ask(self, request: web.Request) -> web.Response:
        """Carries out a request of a page, and answers with the state after it."""
        asked = await _body(request)
        held = self._mine(asked)
        view = view_of(asked.pop("view", None))
        overview = columns_of(asked.pop("overview", None))
        serial = asked.pop("plan", 0)
        what = request_of(asked)
        async with held.lock:
            held.doing = type(what).__name__.lower()
            said, fault = "", None
            try:
                said = await asyncio.to_thread(held.session.do, what)
            except Error as raised:
                fault = told_of(raised)
            found = await asyncio.to_thread(held.session.told, view, overview, serial)
        if not isinstance(what, Look):
            found |= {"said": said, "fault": fault}
        if type(what).__name__ in ("Save", "Load"):
            found["runs"] = self._keep.names()
        return web.json_response(found)

    async def _events(self, request: web.Request) -> web.Response:
        """The events of the run, as CSV."""
        asked = await _body(request)
        begin, device = asked.get("begin"), asked.get("device")
        if type(begin) is not str or not re.fullmatch(TIME, begin):
            raise BadRequest("begin: a time as 2026-11-22 07:00:00")
        if type(device) is not str or not re.fullmatch(DEVICE, device):
            raise BadRequest("device: 1 to 40 letters and digits")
        plan, saved = await self._saved(asked)
        text = await asyncio.to_thread(keep.events, plan, saved, begin, device)
        return web.Response(body=text, content_type="text/csv")

    async def _diagram(self, request: web.Request) -> web.Response:
        """The phase diagram of the run, as SVG."""
        asked = await _body(request)
        seconds, title = asked.get("seconds"), "Phase diagram"
        if type(seconds) is not int or not 1 <= seconds <= 86_400:
            raise BadRequest("seconds: those of a line, 1 to 86400")
        plan, saved = await self._saved(asked)
        text = await asyncio.to_thread(keep.diagram, plan, saved, title, seconds)
        return web.Response(body=text, content_type="image/svg+xml")

    async def _plan(self, request: web.Request) -> web.Response:
        """The plan in effect, with what was committed at the desk."""
        held = self._mine(await _body(request))
        async with held.lock:
            held.doing = "plan"
            plan = await asyncio.to_thread(held.session.plan)
        return web.Response(body=plan.text.encode(), content_type="application/json")

    async def _saved(self, asked: dict[str, Any]) -> Any:
        held = self._mine(asked)
        async with held.lock:
            held.doing = "save"
            return await asyncio.to_thread(held.session.saved)


class Door:
    """Lets connections in, so many at a time that no file is lacking for a bench. One
    more takes the place of the oldest that asks for nothing."""

    def __init__(self, server: web.Server, busy: set[object]) -> None:
        self._server, self._busy = server, busy

    def __call__(self) -> Any:
        """What handles a new connection."""
        known = [it for it in self._server.connections if not _is_closing(it)]
        idle = [it for it in known if it not in self._busy]
        for it in idle[: max(len(known) + 1 - CONNECTIONS_MOST, 0)]:
            it.force_close()
        return self._server()


def _is_closing(connection: Any) -> bool:
    return connection.transport is None or connection.transport.is_closing()


def _busy(held: Held) -> Stopped:
    """The answer to a page while its bench does something else."""
    text = f"the bench is busy with an earlier request: {held.doing}"
    return Stopped(409, "one at a time", text, "ask again")


async def _body(request: web.Request) -> dict[str, Any]:
    """The object of JSON that a page has sent."""
    try:
        text = await request.read()
    except web.HTTPException:
        raise
    except Exception as fault:  # (as of a packed body that is too large unfolded)
        raise BadRequest(f"no body: {type(fault).__name__}") from None
    try:
        told = json.loads(text)
    except (ValueError, RecursionError):
        raise BadRequest("no JSON") from None
    if type(told) is not dict:
        raise BadRequest("a request is an object")
    return told


def _fault(status: int, fault: dict[str, Any]) -> web.Response:
    return web.json_response({"fault": fault}, status=status)
