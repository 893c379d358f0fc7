"""What the duties of check.py are made of: an interface under trial, and what came in place of what should."""

from __future__ import annotations

import re
import sys
import time
from typing import List, Optional

from gushewa_line.controller import EVENT, MOST_PASSED_OVER, Line, answer_to
from gushewa_line.line import FAULT, SECOND, THIRD

QUERY_GEAR = "send 4 7F91"
QUERY_GEAR_AGAIN = "send 1 7F91"
QUERY_DEVICE = "send 4 7FFE30"
REPLY = re.compile(r"quiet|damaged|lost|answer 0*([0-9]|[1-9][0-9]|1[0-9]{2}|2[0-4][0-9]|25[0-5])")

# Seconds.
ANSWER_SECONDS, GREETING_SECONDS = 2.0, 0.5
OWN_SECONDS, UNASKED_SECONDS = 0.5, 3.0
SHORTEST_FRAME = 0.035  # of a 24-bit frame and the time before the next one: 23.1 and 13.5 ms


class Otherwise(Exception):
    """What came in place of what should."""


class NotTried(Exception):
    """Nobody presses a button, or the interface does not know the version."""


def greeting_of(version: int) -> str:
    """A greeting with a number that no greeting had before."""
    return f"gushewa {version} {time.time_ns()}"


class Trial:
    """An interface under trial, in a version of the line, 2 or 3."""

    version = SECOND
    is_known: Optional[bool] = None  # whether the interface knows the version

    def __init__(self, line: Line, press: float, counts: bool) -> None:
        self.line, self.press, self.counts = line, press, counts
        self.seen: List[str] = []

    def next_line(self, seconds: float) -> Optional[str]:
        """The line that comes within this time, or None."""
        line = self.line.read(seconds)
        if line is not None:
            self.seen.append(line)
        return line

    def read(self, after: str) -> str:
        """The line that comes after this was asked."""
        line = self.next_line(ANSWER_SECONDS)
        if line is None:
            half = self.line.left.decode("ascii", "backslashreplace")
            what = f"half a line, {half!r}" if half else "no answer"
            raise Otherwise(f"{after!r}: {what} within {ANSWER_SECONDS:.0f} s")
        return line

    def answer_to_greeting(self, greeting: str) -> str:
        """The line that answers a greeting, behind events of before."""
        self.line.write(greeting + "\n")
        for _ in range(MOST_PASSED_OVER):
            line = self.read(greeting)
            if not EVENT.fullmatch(line):
                return line
        raise Otherwise(f"{greeting!r}: {MOST_PASSED_OVER} events, and no answer")

    def greet_by(self, greeting: str, before: str = "") -> None:
        """Greets so, with this before it."""
        line = self.answer_to_greeting(before + greeting)
        if line == greeting:
            raise Otherwise(f"{line!r} itself: switch the echo off")
        if line != answer_to(greeting):
            raise Otherwise(f"{before + greeting!r}: {line!r}")

    def need_version(self) -> None:
        """Whether the interface knows this version. One that knows neither is to know version 2."""
        if self.is_known is None:
            self.is_known = self.answer_to_greeting(greeting_of(self.version)) != FAULT
            if not self.is_known and self.version == SECOND:
                self.is_known = self.answer_to_greeting(greeting_of(THIRD)) == FAULT
        if not self.is_known:
            raise NotTried(f"not tried: it does not know version {self.version}")

    def greet(self) -> None:
        """Comes in step again, whatever came before."""
        self.need_version()
        greeted = self.line.greet(seconds=ANSWER_SECONDS, newest=self.version)
        if greeted is None or self.line.version != self.version:
            raise Otherwise(f"no answer to a greeting of version {self.version}")

    def is_within(self, wanted: float, took: float, what: str) -> None:
        if took > wanted:
            raise Otherwise(f"{what} took {took * 1000:.0f} ms of {wanted * 1000:.0f}")

    def time_to_greet(self) -> float:
        """The best of some greetings, since the machine may have other work."""
        times = []
        for _ in range(3):
            begun = time.monotonic()
            self.greet()
            times.append(time.monotonic() - begun)
        return min(times)

    # Presses.

    def need_presses(self) -> None:
        if not self.press:
            raise NotTried("not tried without --press")

    def ask_for(self, what: str) -> None:
        print(f"  {what} within {self.press:.0f} s", file=sys.stderr, flush=True)

    def wait_for_presses(self, what: str) -> None:
        if self.press:
            self.ask_for(what)
            time.sleep(self.press)
