"""Interfaces with a mistake each, on which benches/interfaces tries programs/check.py."""

from __future__ import annotations

import itertools
import os
import sys
import threading
import time
from typing import Callable, Dict, Optional, Tuple

HERE = os.path.dirname(os.path.dirname(os.path.abspath(__file__)))
sys.path[:0] = [f"{HERE}/programs", f"{HERE}/examples/interfaces"]
sys.dont_write_bytecode = True
from gushewa_line.ends import End  # noqa: E402
from gushewa_line.line import LOST, QUIET, Bus, Events, Interface, answer_to  # noqa: E402
from hardware import Adapter  # noqa: E402

PRESS_SECONDS = 0.3

# An adapter that is none, for the skeleton.


class NoAdapter(Adapter):
    """Answers that gear 63 is there, and hears a button three times a second, and a device that counts."""

    def __init__(self, on_frame: Callable[[int, int], None]) -> None:
        threading.Thread(target=self.press, args=(on_frame,), daemon=True).start()

    def press(self, on_frame: Callable[[int, int], None]) -> None:
        for count in itertools.count():
            time.sleep(PRESS_SECONDS)
            on_frame(16, 0x0A80)
            on_frame(24, 0x0A8809)
            on_frame(24, 0x0C8800 | count & 0x3FF)

    def send(self, bits: int, frame: int, priority: int) -> Optional[int]:
        time.sleep(0.02)
        return 255 if frame == 0x7F91 else None


# Interfaces with a mistake.


class PlainBus:
    """A bus with a button that is pressed three times a second."""

    def __init__(self) -> None:
        self.events, self.next = Events(), 0.0

    def send(self, bits: int, frame: int, priority: int) -> str:
        return QUIET

    def take(self) -> Optional[int]:
        if time.monotonic() < self.next:
            return None
        self.next += PRESS_SECONDS
        return 0x0A8809

    def forget(self) -> None:
        self.next = time.monotonic() + PRESS_SECONDS


class Echoing(PlainBus):
    """Hears its own frames."""

    def send(self, bits: int, frame: int, priority: int) -> str:
        if bits == 24:
            self.events.add(frame)
        return QUIET

    def take(self) -> Optional[int]:
        return self.events.take()


class LateEcho(Echoing):
    """Hears its own frames a while later."""

    def send(self, bits: int, frame: int, priority: int) -> str:
        if bits == 24:
            threading.Timer(0.4, self.events.add, [frame]).start()
        return QUIET


class ShortEcho(Echoing):
    """Hears its own frames of 16 bits."""

    def send(self, bits: int, frame: int, priority: int) -> str:
        if bits == 16:
            self.events.add(frame)
        return QUIET


class Doubling(PlainBus):
    """Gives each event twice."""

    def __init__(self) -> None:
        super().__init__()
        self.again: Optional[int] = None

    def take(self) -> Optional[int]:
        if self.again is not None:
            frame, self.again = self.again, None
            return frame
        self.again = super().take()
        return self.again


class Losing(PlainBus):
    """Loses each frame."""

    def send(self, bits: int, frame: int, priority: int) -> str:
        return LOST


class Forgetful(PlainBus):
    """Keeps two events."""

    def take(self) -> Optional[int]:
        self.next = max(self.next, time.monotonic() - PRESS_SECONDS)
        return super().take()


class Remembering(PlainBus):
    """Does not forget at a greeting what waits."""

    def take(self) -> Optional[int]:
        return 0x0A8809


class Deaf(PlainBus):
    """Hears nothing."""

    def take(self) -> Optional[int]:
        return None


class Slow(PlainBus):
    """Takes long for each frame."""

    def send(self, bits: int, frame: int, priority: int) -> str:
        time.sleep(0.12)
        return QUIET

    def take(self) -> Optional[int]:
        time.sleep(0.05)
        return None


class LateToForget(PlainBus):
    """Takes long for a greeting."""

    def forget(self) -> None:
        time.sleep(0.6)


class Wrong(Interface):
    """An interface that answers by another function."""

    def __init__(self, end: End, say: Callable[[Bus, str], bytes]) -> None:
        super().__init__(PlainBus(), end)
        self.bytes_for = say

    def meet(self, request: str) -> None:
        self.end.write(self.bytes_for(self.bus, request))


class Chattering(Interface):
    """Says `none` where nobody asked for two seconds."""

    def __init__(self, end: End) -> None:
        super().__init__(PlainBus(), end)
        self.timer = threading.Timer(2, end.say, ["none"])

    def meet(self, request: str) -> None:
        self.timer.cancel()
        super().meet(request)
        self.timer = threading.Timer(2, self.end.say, ["none"])
        self.timer.start()


class Tiring(Interface):
    """Ends after sixty answers."""

    def __init__(self, end: End) -> None:
        super().__init__(PlainBus(), end)
        self.left = 60

    def meet(self, request: str) -> None:
        self.left -= 1
        if self.left < 0:
            raise SystemExit
        super().meet(request)


class Hurried(Interface):
    """Answers a greeting at once, and a frame that is under way then behind it."""

    def __init__(self, end: End) -> None:
        super().__init__(PlainBus(), end)

    def meet(self, request: str) -> None:
        if request.startswith("send"):
            threading.Timer(0.2, super().meet, [request]).start()
        else:
            super().meet(request)


def right(bus: Bus, request: str) -> bytes:
    return answer_to(bus, request).encode() + b"\n"


def without_number(bus: Bus, request: str) -> bytes:
    return right(bus, request).replace(b" hears", b"")


def old_number(bus: Bus, request: str) -> bytes:
    return b"gushewa 2 hears 1\n" if "gushewa 2" in request else right(bus, request)


def whole_line(bus: Bus, request: str) -> bytes:
    return b"fault\n" if "gushewa" in request[1:] else right(bus, request)


def carriage_return(bus: Bus, request: str) -> bytes:
    answer = right(bus, request)
    return answer if answer.startswith(b"gushewa") else answer[:-1] + b"\r\n"


def padded(bus: Bus, request: str) -> bytes:
    return right(bus, request).replace(b"none\n", b"none at all\n")


def greets_twice(bus: Bus, request: str) -> bytes:
    answer = right(bus, request)
    return answer * 2 if answer.startswith(b"gushewa 2") else answer


def talks(bus: Bus, request: str) -> bytes:
    answer = right(bus, request)
    return answer + b"ready\n" if request == "hear" else answer


def obliging(bus: Bus, request: str) -> bytes:
    answer = right(bus, request)
    return b"quiet\n" if answer == b"fault\n" else answer


def short(bus: Bus, request: str) -> bytes:
    return b"fault\n" if len(request) == len("send 4 7FFE30") else right(bus, request)


WRONG: Dict[str, Tuple[Callable[[End], Interface], str]] = {
    "answers without hears": (
        lambda end: Wrong(end, without_number),
        "answers a greeting with its number",
    ),
    "answers an old number": (
        lambda end: Wrong(end, old_number),
        "answers a greeting with its number",
    ),
    "takes whole lines alone": (
        lambda end: Wrong(end, whole_line),
        "forgets half a request before it",
    ),
    "answers a frame behind a greeting": (Hurried, "answers in order"),
    "hears its own frames later": (
        lambda end: Interface(LateEcho(), end),
        "does not hear its own frames",
    ),
    "hears its own frames of 16 bits": (
        lambda end: Interface(ShortEcho(), end),
        "does not hear its own frames",
    ),
    "gives each event twice": (lambda end: Interface(Doubling(), end), "gives each event once"),
    "loses each frame": (lambda end: Interface(Losing(), end), "loses not each frame"),
    "keeps two events": (lambda end: Interface(Forgetful(), end), "keeps events"),
    "says none unasked": (Chattering, "says nothing unasked"),
    "ends after sixty answers": (Tiring, "answers 300 requests"),
    "answers a greeting twice": (lambda end: Wrong(end, greets_twice), "answers in order"),
    "ends lines by two bytes": (lambda end: Wrong(end, carriage_return), "hears"),
    "says none at all": (lambda end: Wrong(end, padded), "hears"),
    "sends 16 bits alone": (lambda end: Wrong(end, short), "sends 24 bits"),
    "answers what it does not know": (
        lambda end: Wrong(end, obliging),
        "answers no unknown request",
    ),
    "says that it is ready": (lambda end: Wrong(end, talks), "says nothing unasked"),
    "hears its own frames": (lambda end: Interface(Echoing(), end), "does not hear its own frames"),
    "keeps events at a greeting": (
        lambda end: Interface(Remembering(), end),
        "forgets events at a greeting",
    ),
    "hears nothing": (lambda end: Interface(Deaf(), end), "keeps events"),
    "is slow to greet": (
        lambda end: Interface(LateToForget(), end),
        "answers a greeting within 500 ms",
    ),
    "is slow at a frame": (lambda end: Interface(Slow(), end), "sends a pair within 100 ms"),
    "is slow to hear": (lambda end: Interface(Slow(), end), "hears within 30 ms"),
}
