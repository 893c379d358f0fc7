"""The controller's side of a line (docs/LINES.md), for tools and benches.

    controller = Controller('/dev/ttyUSB0')     # or 'FROM,TO', two FIFOs
    controller.open()
    controller.send(0x0A80)                     # 'quiet', 'answer 5', 'damaged' or 'lost'
    controller.hear()                           # a 24-bit frame, or None

It greets in version 3, and where the interface does not know that in version 2 and then in version 1. It sets nothing
of a serial device: docs/LIVE.md, 'A serial device', has the command that does.
"""

from __future__ import annotations

import collections
import os
import re
import select
import time
from typing import Deque, Optional

from gushewa_line.line import FIRST_GREETING, HEAR, NONE, THIRD, answer_to_greeting

MOST_PASSED_OVER = 64
SILENT_SECONDS = 0.3
BACKWARD = re.compile(r"quiet|damaged|lost|answer ([0-9]|[1-9][0-9]|1[0-9]{2}|2[0-4][0-9]|25[0-5])")
EVENT = re.compile(r"event ([0-9A-Fa-f]{6})")


class Ended(Exception):
    """The interface ended, or its device was unplugged."""


class Line:
    """The controller's end of a line."""

    def __init__(self, path: str) -> None:
        self.path = path
        self.open()

    def open(self) -> None:
        """Opens the line. Nobody has greeted yet."""
        if "," in self.path:
            source, sink = self.path.split(",")
            self.source, self.sink = os.open(source, os.O_RDONLY), os.open(sink, os.O_WRONLY)
        else:
            self.source = self.sink = os.open(self.path, os.O_RDWR | os.O_NOCTTY)
        self.left = b""
        # The version in which it was greeted, and the events that came and were not asked for.
        self.version = 0
        self.events: Deque[str] = collections.deque()

    def write(self, text: str) -> None:
        os.write(self.sink, text.encode("ascii"))

    def read(self, seconds: float) -> Optional[str]:
        """The next line without its line feed, or None where none comes within this time."""
        end = time.monotonic() + seconds
        while b"\n" not in self.left:
            if not select.select([self.source], [], [], max(0.0, end - time.monotonic()))[0]:
                return None
            try:
                more = os.read(self.source, 256)
            except OSError as error:
                raise Ended from error
            if not more:
                raise Ended
            self.left += more
        line, self.left = self.left.split(b"\n", 1)
        return line.decode("ascii", "backslashreplace")

    def ask(self, request: str, seconds: float = 5.0) -> Optional[str]:
        """The line that answers a request, or None. In version 3 the events before it are kept in `events`."""
        self.write(request + "\n")
        end = time.monotonic() + seconds
        while True:
            line = self.read(max(0.0, end - time.monotonic()))
            if self.version != THIRD or line is None or not EVENT.fullmatch(line):
                return line
            self.events.append(line)

    def greet(self, before: str = "", seconds: float = 5.0, newest: int = THIRD) -> Optional[str]:
        """Greets, with this before it. Returns what answered it, or None where nothing did.

        It greets in the newest version. Where the interface answers `fault`, it greets in the one before.
        """
        self.version = 0
        self.events.clear()
        for version in range(newest, 1, -1):
            greeting = f"gushewa {version} {time.time_ns() // 1_000_000}"
            self.write(f"{before}{greeting}\n")
            is_refused, before = False, ""
            for _ in range(MOST_PASSED_OVER + 1):
                line = self.read(SILENT_SECONDS if is_refused else seconds)
                if line == answer_to(greeting):
                    self.version = version
                    return line
                if line is None:
                    break
                is_refused = is_refused or line == "fault"
            if not is_refused:
                return None
        return self.greet_first(seconds)

    def greet_first(self, seconds: float) -> Optional[str]:
        """Greets in version 1, in which nothing is passed over."""
        if self.ask(FIRST_GREETING, seconds) != FIRST_GREETING:
            return None
        self.version = 1
        return FIRST_GREETING

    def close(self) -> None:
        for file in {self.source, self.sink}:
            os.close(file)

    def open_again(self, seconds: float) -> None:
        """Closes the line, and opens it this time later."""
        self.close()
        time.sleep(seconds)
        self.open()


def answer_to(greeting: str) -> Optional[str]:
    """How an interface answers a greeting of version 2 or 3."""
    return answer_to_greeting(greeting)


class LineFailed(Exception):
    """Nobody greets on the line, or what came is no answer. It has to be opened anew."""


class Controller:
    """A line, which is open or not."""

    def __init__(self, path: str, seconds: float = 5.0) -> None:
        self.path, self.seconds = path, seconds
        self.line: Optional[Line] = None

    def open(self) -> None:
        """Opens the line, and greets."""
        self.close()
        try:
            self.line = Line(self.path)
            greeted = self.line.greet(seconds=self.seconds)
        except OSError as error:
            raise LineFailed(f"cannot open {self.path}: {error.strerror}") from None
        except Ended:
            raise LineFailed("the line ended") from None
        if greeted is None:
            raise LineFailed(f"nobody greets on {self.path}")

    def close(self) -> None:
        if self.line:
            self.line.close()
        self.line = None

    def ask(self, request: str) -> str:
        """The line that answers a request."""
        if not self.line:
            raise LineFailed(f"{self.path} is not open")
        try:
            came = self.line.ask(request, self.seconds)
        except (OSError, Ended):
            raise LineFailed("the line ended") from None
        if came is None:
            raise LineFailed(f"silent for {self.seconds:g} seconds")
        return came

    def send(self, frame: int, bits: int = 16, priority: int = 3) -> str:
        """Sends a frame. Returns what came of it."""
        came = self.ask(f"send {priority} {frame:0{bits // 4}X}")
        if not BACKWARD.fullmatch(came):
            raise LineFailed(f"the interface says {came!r}")
        return came

    def hear(self) -> Optional[int]:
        """The oldest event that waits, or None."""
        came = self.event_that_came() or self.ask(HEAR)
        if came == NONE:
            came = self.event_that_came() or NONE
        event = EVENT.fullmatch(came)
        if not event and came != NONE:
            raise LineFailed(f"the interface says {came!r}")
        return int(event[1], 16) if event else None

    def event_that_came(self) -> Optional[str]:
        """The oldest event that the interface said by itself, or before an answer, and that nobody heard yet."""
        return self.line.events.popleft() if self.line and self.line.events else None
