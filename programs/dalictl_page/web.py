"""What the browser's process answers over HTTP. `allowed` decides what may be asked, `doors` by whom."""

from __future__ import annotations

import asyncio
import hashlib
import json
import pathlib
import sys
import time
import urllib.parse
from typing import Awaitable, Callable, Dict, List, NamedTuple, Optional, Tuple

from aiohttp import web

from .allowed import MOST_BODY, Asked, Presses, Refused, check, press_of
from .beside import Beside
from .channel import Channel, Sight, sight_of
from .doors import Doors
from .picture import NoPicture, Painter
from .relay import PRESS_SECONDS
from .state import Building
from .view import show
from .words import said

FILES = pathlib.Path(__file__).resolve().parent / "files"
SERVED = {
    "/page.css": ("page.css", "text/css"),
    "/page.js": ("page.js", "text/javascript"),
    "/lamp.svg": ("lamp.svg", "image/svg+xml"),
}
BODY_SECONDS = 5.0
STATE_SECONDS = 0.2  # a state is made anew no more often
MOST_WAITING, WRONG_SECONDS = 8, 1.0  # who wait to come in; the pause after a wrong password
COOKIE, COOKIE_SECONDS = "dalictl_page", 30 * 86400
HEADERS = {
    "Content-Security-Policy": "default-src 'none'; script-src 'self'; style-src 'self'; img-src 'self';"
    " connect-src 'self'; form-action 'self'; base-uri 'none'; frame-ancestors 'none'",
    "X-Content-Type-Options": "nosniff",
    "X-Frame-Options": "DENY",
    "Referrer-Policy": "no-referrer",
    "Cross-Origin-Resource-Policy": "same-origin",
    "Cross-Origin-Opener-Policy": "same-origin",
    "Cache-Control": "no-store",
    "Server": "dalictl-page",
}
PICTURE_POLICY = "default-src 'none'; style-src 'unsafe-inline'; sandbox"
Handler = Callable[[web.Request], Awaitable[web.StreamResponse]]


class Setup(NamedTuple):
    """What the command line says of the page."""

    address: str
    port: int
    hosts: List[str]
    building: Building
    beside: Beside
    doors: Doors
    picture: Tuple[str, str, str, str]  # the program, and the paths of text, binding and record


class Pressed(NamedTuple):
    """A press by hand, in words, and who waits for what became of it."""

    words: str
    told: asyncio.Future[bool]


class Page:
    """The page, and what it asks of the process of the lines."""

    def __init__(self, setup: Setup, channel: Channel) -> None:
        self.setup, self.channel = setup, channel
        self.building, self.beside, self.doors = setup.building, setup.beside, setup.doors
        self.presses, self.numbers = Presses(), 0
        self.waiting: Dict[str, Pressed] = {}
        self.painter = Painter(*setup.picture) if all(setup.picture) else None
        self.door, self.at_door = asyncio.Lock(), 0
        self.state: Tuple[float, bytes, str] = (0.0, b"", "")
        self.ended = asyncio.Event()

    def application(self) -> web.Application:
        app = web.Application(middlewares=[self.guard], client_max_size=MOST_BODY)
        app.router.add_get("/", self.serve_page)
        app.router.add_get("/state", self.serve_state)
        app.router.add_get("/hour.svg", self.serve_picture)
        app.router.add_get("/login", self.serve_login)
        for path in SERVED:
            app.router.add_get(path, self.serve_file)
        for path, handler in (("/press", self.press), ("/login", self.login), ("/logout", self.logout)):
            app.router.add_post(path, handler)
        return app

    # From the lines.

    def hear_lines(self) -> None:
        """Takes what the process of the lines says, and ends with it."""
        try:
            lines = self.channel.read()
        except OSError:
            asyncio.get_running_loop().remove_reader(self.channel.end)
            self.ended.set()
            return
        for line in lines:
            sight = sight_of(line)
            self.building.note(sight)
            if sight.way in "+-":
                self.note_press(sight)

    def note_press(self, sight: Sight) -> None:
        """A press by hand was heard by the controller, or was dropped: the page's own log says so."""
        pressed = self.waiting.pop(sight.text.split(" ")[0], None)
        if pressed:
            is_heard = sight.way == "+"
            words = pressed.words + ("" if is_heard else ": the controller did not hear it")
            self.building.remark(sight.at, words, not is_heard)
            print(f"page.py: {words}", file=sys.stderr, flush=True)
            if not pressed.told.done():
                pressed.told.set_result(is_heard)

    async def read_beside(self) -> None:
        """Reads each second what the controller writes."""
        while True:
            await asyncio.get_running_loop().run_in_executor(None, self.beside.read)
            await asyncio.sleep(1)

    # What is asked.

    @web.middleware
    async def guard(self, request: web.Request, handler: Handler) -> web.StreamResponse:
        """Lets through what is allowed, and puts the headers on what is answered."""
        try:
            check(self.asked(request), self.setup.hosts)
            answered = await self.let_in(request, handler)
        except Refused as error:
            answered = refusal(error.status, error.why)
        except web.HTTPException as error:
            answered = refusal(error.status, error.reason) if error.status >= 400 else error
        for name, value in HEADERS.items():
            answered.headers.setdefault(name, value)
        return answered

    def asked(self, request: web.Request) -> Asked:
        headers = request.headers
        origin, site, kind = headers.get("Origin"), headers.get("Sec-Fetch-Site"), headers.get("Content-Type", "")
        return Asked(request.method, request.path, request.host, origin, site, kind, self.has_token(request))

    def has_token(self, request: web.Request) -> bool:
        kind, _, token = request.headers.get("Authorization", "").partition(" ")
        return kind == "Bearer" and self.doors.is_token(token)

    def who(self, request: web.Request) -> Optional[str]:
        """Who asks, or None where nobody may."""
        if not self.doors.is_locked():
            return "somebody"
        if self.has_token(request):
            return "token"
        return self.doors.holder(request.cookies.get(COOKIE, ""), time.monotonic())

    async def let_in(self, request: web.Request, handler: Handler) -> web.StreamResponse:
        if self.who(request) or request.path in ("/login", *SERVED):
            return await handler(request)
        if request.path == "/" and request.method == "GET":
            raise web.HTTPSeeOther("/login")
        raise Refused(401, "come in first")

    async def serve_page(self, request: web.Request) -> web.StreamResponse:
        return served("page.html", "text/html")

    async def serve_file(self, request: web.Request) -> web.StreamResponse:
        return served(*SERVED[request.path])

    async def serve_state(self, request: web.Request) -> web.StreamResponse:
        """The state as JSON, or 304 where it is the one that the browser has."""
        now = time.time()
        if not 0 <= now - self.state[0] < STATE_SECONDS:
            shown = show(self.building, self.beside, now)
            shown["picture"], shown["locked"] = bool(self.painter), self.doors.is_locked()
            body = json.dumps(shown, separators=(",", ":")).encode()
            self.state = (now, body, f'"{hashlib.sha256(body).hexdigest()[:24]}"')
        _, body, tag = self.state
        if request.headers.get("If-None-Match") == tag:
            return web.Response(status=304, headers={"ETag": tag})
        return web.Response(body=body, content_type="application/json", headers={"ETag": tag})

    async def serve_picture(self, request: web.Request) -> web.StreamResponse:
        if not self.painter:
            raise Refused(404, "start the page with --text, --bind and --record")
        try:
            drawn = await self.painter.picture()
        except NoPicture as error:
            raise Refused(503, str(error)) from None
        policy = {"Content-Security-Policy": PICTURE_POLICY}
        return web.Response(body=drawn, content_type="image/svg+xml", headers=policy)

    async def press(self, request: web.Request) -> web.StreamResponse:
        """Puts an event in, and says whether the controller got it."""
        source, information = press_of(await read_body(request), self.building)
        self.presses.take(time.monotonic())
        self.numbers += 1
        by = f"by {self.who(request)}, from {request.remote}" if self.doors.is_locked() else f"from {request.remote}"
        named = self.building.names.named(source)
        words = f"pressed by hand {by}: {named.name}, {said(named.kind, information)} ({source.where()})"
        told = asyncio.get_running_loop().create_future()
        self.waiting[str(self.numbers)] = Pressed(words, told)
        self.channel.say(f"{self.numbers} {source.bus} {source.frame(information):06X}\n")
        try:
            self.channel.flush()
            is_heard = await asyncio.wait_for(told, PRESS_SECONDS + 2)
        except (OSError, asyncio.TimeoutError):
            is_heard = False
        if not is_heard:
            raise Refused(504, "the controller did not hear it")
        return web.json_response({"heard": True})

    # The door.

    async def serve_login(self, request: web.Request) -> web.StreamResponse:
        return served("login.html", "text/html")

    async def login(self, request: web.Request) -> web.StreamResponse:
        """Lets somebody in who has a password. One at a time is looked at, and a wrong one takes a second."""
        form = read_form(await read_body(request))
        if self.at_door >= MOST_WAITING:
            raise Refused(429, "too many want to come in: wait a minute")
        self.at_door += 1
        try:
            async with self.door:
                who = await self.look_at(form.get("name", ""), form.get("password", ""))
        finally:
            self.at_door -= 1
        if not who:
            print(f"page.py: a wrong password from {request.remote}", file=sys.stderr, flush=True)
            raise web.HTTPSeeOther("/login#wrong")
        answered = web.HTTPSeeOther("/")
        key = self.doors.let_in(who, time.monotonic())
        answered.set_cookie(COOKIE, key, max_age=COOKIE_SECONDS, httponly=True, samesite="Strict", path="/")
        raise answered

    async def look_at(self, name: str, password: str) -> Optional[str]:
        who = await asyncio.get_running_loop().run_in_executor(None, self.doors.who, name, password)
        if not who:
            await asyncio.sleep(WRONG_SECONDS)
        return who

    async def logout(self, request: web.Request) -> web.StreamResponse:
        self.doors.shut(request.cookies.get(COOKIE, ""))
        answered = web.HTTPSeeOther("/login")
        answered.del_cookie(COOKIE, path="/")
        raise answered


def served(name: str, kind: str) -> web.Response:
    """A file of the page."""
    return web.Response(body=(FILES / name).read_bytes(), content_type=kind, charset="utf-8")


def refusal(status: int, why: str) -> web.Response:
    return web.Response(status=status, text=f"{why}\n")


async def read_body(request: web.Request) -> bytes:
    """What a request brings. Raises Refused where it is too long, or too slow."""
    try:
        return await asyncio.wait_for(request.read(), BODY_SECONDS)
    except asyncio.TimeoutError:
        raise Refused(408, "it takes too long") from None


def read_form(body: bytes) -> Dict[str, str]:
    try:
        return dict(urllib.parse.parse_qsl(body.decode("utf-8"), max_num_fields=4))
    except ValueError:
        raise Refused(400, "it is no form") from None
