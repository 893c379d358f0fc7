"""What the interfaces of benches/lines do: they note what they are asked, press buttons, or fail."""

from __future__ import annotations

import os
import random
import sys
import time
from typing import List, Optional, Tuple

HERE = os.path.dirname(os.path.dirname(os.path.abspath(__file__)))
sys.path.insert(0, f"{HERE}/programs")
sys.dont_write_bytecode = True
from gushewa_line import line  # noqa: E402
from lines_texts import PRESS  # noqa: E402


class House:
    """A bus without times, which notes what it was asked and what it handed over. It speaks version 2 of the line."""

    def __init__(self) -> None:
        self.requests, self.greetings, self.hears, self.handed = 0, 0, 0, 0
        self.sends: List[int] = []
        self.last: Optional[Tuple[str, str]] = None
        self.is_over = False  # whether the line ends behind the last answer

    def answer(self, request: str) -> bytes:
        """The bytes that answer a request. A greeting of version 3 is not counted: the one of version 2 follows."""
        if request.startswith("gushewa 3"):
            return b"fault\n"
        self.requests += 1
        answer = line.answer_to(self, request)
        self.last = request, answer
        return answer.encode() + b"\n"

    def send(self, bits: int, frame: int, priority: int) -> str:
        self.sends.append(frame)
        return line.QUIET

    def take(self) -> Optional[int]:
        self.hears += 1
        event = self.event()
        self.handed += event is not None
        return event

    def forget(self) -> None:
        self.greetings += 1

    def event(self) -> Optional[int]:
        """The event message that is handed over next, or None."""
        return None


class Pressed(House):
    """A button that is pressed again and again, so many seconds apart, while it is on."""

    def __init__(self, least: float, most: float) -> None:
        super().__init__()
        self.span, self.is_on, self.next = (least, most), True, 0.0

    def event(self) -> Optional[int]:
        now = time.monotonic()
        if not self.is_on or now < self.next:
            return None
        self.next = now + random.uniform(*self.span)
        return PRESS


class Unhurried(Pressed):
    """The same on a bus that takes the time of a frame for each answer, so that a line is mostly asked something."""

    def answer(self, request: str) -> bytes:
        time.sleep(0.02)
        return super().answer(request)


class Storm(House):
    """So many events, each as soon as it is asked for, numbered by their information."""

    def __init__(self, count: int) -> None:
        super().__init__()
        self.left = count

    def event(self) -> Optional[int]:
        if not self.left:
            return None
        self.left -= 1
        return (PRESS & ~0x3FF) | self.handed % 1024


class Stopwatch(House):
    """Takes the time from a press, and from the answer with its event, to the frame that is sent then."""

    def __init__(self, count: int, span: Tuple[float, float] = (0.005, 0.040)) -> None:
        super().__init__()
        self.count, self.span = count, span
        self.from_press: List[float] = []
        self.from_event: List[float] = []
        self.pressed = float("inf")  # until the first greeting
        self.told: Optional[float] = None

    def forget(self) -> None:
        super().forget()
        self.pressed = time.monotonic() + 1.0  # the levels of the start go first

    def event(self) -> Optional[int]:
        now = time.monotonic()
        if self.told or now < self.pressed or self.is_done():
            return None
        self.told = now
        return PRESS

    def send(self, bits: int, frame: int, priority: int) -> str:
        now = time.monotonic()
        if self.told:
            self.from_press.append(now - self.pressed)
            self.from_event.append(now - self.told)
            self.told, self.pressed = None, now + random.uniform(*self.span)
        return super().send(bits, frame, priority)

    def is_done(self) -> bool:
        return len(self.from_event) >= self.count


class Faulty(Pressed):
    """Fails at one request, the first greeting being 0: says other bytes than an answer, or ends the line. Then it is well
    again, or stays silent. Its button is held down."""

    def __init__(self, at: int, says: bytes, ends: bool, is_well: bool = True) -> None:
        super().__init__(0, 0)
        self.at, self.says, self.ends, self.is_well = at, says, ends, is_well
        self.failed_at: Optional[str] = None
        self.failed: Optional[float] = None
        self.before, self.later = 0, 0

    def answer(self, request: str) -> bytes:
        if self.failed and not self.is_well:
            self.later += 1
            return b""
        answer = super().answer(request)  # so that what was asked is noted
        if self.failed or self.requests <= self.at:
            return answer
        self.failed_at, self.failed = request.split()[0], time.monotonic()
        self.before = len(self.sends)
        self.handed -= answer.startswith(b"event")
        self.is_over = self.ends
        return self.says
