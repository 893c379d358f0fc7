"""The process of the lines: it passes on, and starts the process of the browser beside it.

That one may end, hang, or read slowly: the lines go on, and it is started again.
"""

from __future__ import annotations

import contextlib
import selectors
import socket
import subprocess
import sys
import time
from typing import List, NoReturn, Optional, Tuple

from gushewa_line.ends import end_in_order

from .channel import Channel, Sight
from .watched import Watched
from .wires import READ, WRITE

RESTART_SECONDS = 5.0
START_SECONDS = 120.0
READY = "ready"


class Browser:
    """The process of the browser, and the channel to it."""

    def __init__(self, command: List[str]) -> None:
        self.command, self.started = command, 0.0
        self.process: Optional[subprocess.Popen[bytes]] = None
        self.channel: Optional[Channel] = None

    def start(self) -> None:
        ours, theirs = socket.socketpair()
        with theirs:
            number = theirs.fileno()
            words = [*self.command, "--channel", str(number)]
            self.process = subprocess.Popen(words, pass_fds=[number], start_new_session=True)
        self.channel, self.started = Channel(ours), time.monotonic()

    def wait_until_ready(self) -> None:
        """Ends this process where the other one ends before it listens: it has said why."""
        end = self.started + START_SECONDS
        while time.monotonic() < end and self.process and self.channel:
            with contextlib.suppress(OSError):
                if READY in self.channel.read():
                    return
            if self.process.poll() is not None:
                sys.exit(self.process.returncode or 1)
            time.sleep(0.02)
        sys.exit("page.py: the page does not listen")

    def drop(self) -> None:
        """Ends the process, if it has not ended yet; it has nothing that it could lose."""
        if self.channel:
            self.channel.end.close()
        if self.process:
            self.process.kill()
            self.process.wait()
        self.channel, self.process = None, None


class Desk(Watched):
    """All lines, and the browser's process."""

    def __init__(self, lines: List[Tuple[str, str]], command: List[str]) -> None:
        self.browser = Browser(command)
        super().__init__(lines)

    def say(self, bus: int, way: str, text: str) -> None:
        if self.browser.channel:
            self.browser.channel.say(Sight(time.time(), bus, way, text).line())

    def serve(self) -> NoReturn:
        """Passes on until the process is asked to end."""
        end_in_order()
        try:
            self.browser.start()
            self.browser.wait_until_ready()
            self.look()
            while True:
                self.turn()
        finally:
            for wire in self.wires:
                wire.close("closed")
            self.browser.drop()

    def turn(self) -> None:
        super().turn()
        self.flush()

    def meet(self, key: selectors.SelectorKey, mask: int) -> None:
        if key.data is self.browser:
            self.hear_browser()
        else:
            super().meet(key, mask)

    def look(self) -> None:
        """Looks at the lines, and starts the browser's process where it has ended."""
        super().look()
        if self.browser.channel and self.browser.channel.dropped:
            print(
                f"page.py: the page reads too slowly: {self.browser.channel.dropped} lines are not shown",
                file=sys.stderr,
            )
            self.browser.channel.dropped = 0
        if not self.browser.channel and self.looked - self.browser.started > RESTART_SECONDS:
            self.browser.start()
            for wire in self.wires:
                wire.tell_anew()

    # The browser's process.

    def flush(self) -> None:
        channel = self.browser.channel
        if channel:
            try:
                channel.flush()
            except OSError:
                return self.lose_browser()
            self.watch(self.browser, {channel.end.fileno(): READ | (WRITE if channel.waiting else 0)})

    def hear_browser(self) -> None:
        """Takes the events that are put in by hand: `NUMBER BUS FRAME`."""
        try:
            for line in self.browser.channel.read() if self.browser.channel else []:
                if line != READY:
                    number, bus, frame = line.split(" ")
                    wire = self.wires[int(bus)]
                    wire.press(number, int(frame, 16))
                    self.watch(wire, wire.interests())
        except OSError:
            self.lose_browser()

    def lose_browser(self) -> None:
        print("page.py: the page has ended, and is started again; the lines go on", file=sys.stderr, flush=True)
        self.watch(self.browser, {})
        self.browser.drop()
