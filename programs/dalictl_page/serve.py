"""The process of the browser: it listens, hears from the lines, and ends with the process of the lines."""

from __future__ import annotations

import asyncio
import functools
import socket
import sys
from typing import List, Optional, Set

from aiohttp import web
from aiohttp.web_protocol import RequestHandler

from .channel import Channel
from .desk import READY
from .web import Page, Setup

MOST_CONNECTIONS = 128
# A connection is given up after a minute, and cut where a request of it goes on for so much longer.
CONNECTION_SECONDS, CUT_SECONDS, IDLE_SECONDS = 60.0, 40.0, 15.0


class Connection(asyncio.Protocol):
    """A connection of a browser, where there is room for one; it has a minute."""

    def __init__(self, handler: RequestHandler, there: Set[Connection]) -> None:
        self.handler, self.there = handler, there
        self.timers: List[asyncio.TimerHandle] = []

    def connection_made(self, transport: asyncio.BaseTransport) -> None:
        if len(self.there) >= MOST_CONNECTIONS and isinstance(transport, asyncio.Transport):
            return transport.abort()
        self.there.add(self)
        self.handler.connection_made(transport)
        loop = asyncio.get_running_loop()
        self.timers.append(loop.call_later(CONNECTION_SECONDS, self.handler.close))
        self.timers.append(loop.call_later(CONNECTION_SECONDS + CUT_SECONDS, self.handler.force_close))

    def connection_lost(self, error: Optional[BaseException]) -> None:
        if self in self.there:
            self.there.remove(self)
            for timer in self.timers:
                timer.cancel()
            self.handler.connection_lost(error)

    def data_received(self, data: bytes) -> None:
        if self in self.there:
            self.handler.data_received(data)

    def eof_received(self) -> None:
        if self in self.there:
            self.handler.eof_received()

    def pause_writing(self) -> None:
        self.handler.pause_writing()

    def resume_writing(self) -> None:
        self.handler.resume_writing()


def connection_of(server: web.Server, there: Set[Connection]) -> Connection:
    return Connection(server(), there)


async def serve(setup: Setup, end: socket.socket) -> None:
    """Serves the page until the other process ends."""
    loop, channel = asyncio.get_running_loop(), Channel(end)
    page = Page(setup, channel)
    runner = web.AppRunner(page.application(), access_log=None, keepalive_timeout=IDLE_SECONDS)
    await runner.setup()
    assert runner.server
    connection = functools.partial(connection_of, runner.server, set())
    try:
        await loop.create_server(connection, setup.address, setup.port)
    except OSError as error:
        sys.exit(f"page.py: cannot listen at {setup.address} port {setup.port}: {error.strerror}")
    loop.add_reader(channel.end, page.hear_lines)
    reading = loop.create_task(page.read_beside())
    channel.say(f"{READY}\n")
    channel.flush()
    await page.ended.wait()
    reading.cancel()


def run(setup: Setup, number: int) -> None:
    """Serves the page; `number` is that of the socket to the process of the lines."""
    try:
        asyncio.run(serve(setup, socket.socket(fileno=number)))
    except KeyboardInterrupt:
        pass  # ended by hand
