"""Interfaces of version 3 with a mistake each, on which benches/interfaces tries programs/check.py."""

from __future__ import annotations

import itertools
import os
import sys
import threading
import time
from typing import Callable, Dict, List, Optional, Tuple

HERE = os.path.dirname(os.path.dirname(os.path.abspath(__file__)))
sys.path[:0] = [f"{HERE}/programs", f"{HERE}/examples/interfaces"]
sys.dont_write_bytecode = True
from gushewa_line.ends import End  # noqa: E402
from gushewa_line.line import (
    QUIET,
    THIRD,
    HearingBus,
    Interface,
    answer_to_greeting,
    event_line,
    version_of,
)  # noqa: E402

COUNT_SECONDS, SELDOM_SECONDS, FRAME_SECONDS, LATE_SECONDS = 0.17, 0.4, 0.06, 0.3
COUNTER = 0x0C8800


class Counting(HearingBus):
    """A bus on which frames take their time, with a device that counts."""

    def __init__(self, seconds: float = COUNT_SECONDS) -> None:
        super().__init__()
        self.seconds = seconds

    def watch(self, wake: Callable[[], None]) -> None:
        super().watch(wake)
        threading.Thread(target=self.count, daemon=True).start()

    def count(self) -> None:
        for number in itertools.count():
            time.sleep(self.seconds)
            self.hear(COUNTER | number & 0x3FF)

    def hear(self, frame: int) -> None:
        self.events.add(frame)

    def send(self, bits: int, frame: int, priority: int) -> str:
        time.sleep(FRAME_SECONDS)
        return QUIET


class Echoing(Counting):
    """Hears its own frames."""

    def send(self, bits: int, frame: int, priority: int) -> str:
        if bits == 24:
            self.events.add(frame)
        return super().send(bits, frame, priority)


class Deaf(Counting):
    """Hears nothing while it sends a frame."""

    is_sending = False

    def hear(self, frame: int) -> None:
        if not self.is_sending:
            super().hear(frame)

    def send(self, bits: int, frame: int, priority: int) -> str:
        self.is_sending = True
        came = super().send(bits, frame, priority)
        self.is_sending = False
        return came


class Third(Interface):
    """An interface that knows version 3 alone."""

    def __init__(self, end: End) -> None:
        super().__init__(Counting(), end, to_greeting=third_answer_to_greeting)


def third_answer_to_greeting(request: str) -> Optional[str]:
    return answer_to_greeting(request) if "gushewa 3" in request else None


class Wrong(Interface):
    """An interface of version 3, with a mistake."""

    def __init__(self, end: End, seconds: float = COUNT_SECONDS) -> None:
        super().__init__(Counting(seconds), end)


class Unheard(Wrong):
    """Answers a greeting of version 3 without `hears`."""

    def answer_greeting(self, greeted: str) -> str:
        return super().answer_greeting(greeted).replace("3 hears", "3")


class OldNumber(Wrong):
    """Answers each greeting of version 3 with the same number."""

    def answer_greeting(self, greeted: str) -> str:
        line = super().answer_greeting(greeted)
        return "gushewa 3 hears 1" if version_of(greeted) == THIRD else line


class WholeLine(Wrong):
    """Knows a greeting of version 3 as a whole line alone."""

    def meet(self, request: str) -> None:
        if "gushewa 3" in request[1:]:
            self.say("fault")
        else:
            super().meet(request)


class Hurried(Wrong):
    """Answers a greeting at once, and what was asked before behind it."""

    def meet(self, request: str) -> None:
        if request.startswith("send") and self.end.version == THIRD:
            threading.Timer(0.1, super().meet, [request]).start()
        else:
            super().meet(request)


class Asked(Wrong):
    """Says its events behind `hear` alone."""

    def say_unasked(self) -> None:
        pass


class OneByOne(Asked):
    """Greets in version 3, and answers `hear` as in version 2."""

    def answer_hear(self) -> None:
        frame = self.bus.take()
        self.say("none" if frame is None else event_line(frame))


class Endless(Wrong):
    """Answers `hear` by its events, and by nothing behind them."""

    def answer_hear(self) -> None:
        self.say_events()


class Late(Wrong):
    """Says its events a while later, before the next one comes."""

    def __init__(self, end: End) -> None:
        super().__init__(end, SELDOM_SECONDS)

    def say_unasked(self) -> None:
        threading.Timer(LATE_SECONDS, super().say_unasked).start()


class Twice(Wrong):
    """Says each event by itself, and once more."""

    def say_unasked(self) -> None:
        with self.lock:
            frame = self.bus.take() if self.end.version == THIRD else None
            if frame is not None:
                self.say(event_line(frame))
                self.say(event_line(frame))


class Again(Wrong):
    """Says each event by itself, and once more behind `hear`."""

    last: Optional[int] = None

    def say_unasked(self) -> None:
        with self.lock:
            self.last = self.bus.take() if self.end.version == THIRD else None
            if self.last is not None:
                self.say(event_line(self.last))

    def answer_hear(self) -> None:
        with self.lock:
            if self.last is not None:
                self.say(event_line(self.last))
            self.last = None
            super().answer_hear()


class Backwards(Wrong):
    """Says its events in pairs, the newest first."""

    def __init__(self, end: End) -> None:
        self.kept: List[int] = []
        super().__init__(end)

    def say_events(self) -> None:
        while (frame := self.bus.take()) is not None:
            self.kept.append(frame)
        if len(self.kept) > 1:
            while self.kept:
                self.say(event_line(self.kept.pop()))


class EventsFirst(Wrong):
    """Says what waits, and then answers the greeting."""

    def greet(self, greeted: str) -> None:
        with self.lock:
            if version_of(greeted) == THIRD:
                self.say_events()
            super().greet(greeted)


class Remembering(Wrong):
    """Says behind the answer to a greeting of version 3 what waited before it."""

    def answer_greeting(self, greeted: str) -> str:
        if version_of(greeted) != THIRD:
            return super().answer_greeting(greeted)
        self.end.version = THIRD
        return greeted


class Telling(Wrong):
    """Says its events by itself in an old version too."""

    of = 2

    def say_unasked(self) -> None:
        with self.lock:
            if self.end.version in (self.of, THIRD):
                self.say_events()


class TellingFirst(Telling):
    of = 1


class Instead(Wrong):
    """Says an event in place of the answer to the frame that was sent meanwhile."""

    is_sending = False

    def say_unasked(self) -> None:
        if not self.is_sending:
            super().say_unasked()

    def answer(self, request: str) -> str:
        self.is_sending = True
        line = super().answer(request)
        self.is_sending = False
        frame = self.bus.take() if self.end.version == THIRD and request.startswith("send") else None
        return line if frame is None else event_line(frame)


class Talking(Wrong):
    """Says that it is ready."""

    def answer_hear(self) -> None:
        super().answer_hear()
        threading.Timer(0.2, self.say, ["ready"]).start()


TELLING: Dict[str, Tuple[Callable[[End], Interface], str]] = {
    "3: answers without hears": (Unheard, "3: answers a greeting with its number"),
    "3: answers an old number": (OldNumber, "3: answers a greeting with its number"),
    "3: takes whole lines alone": (WholeLine, "3: answers a greeting with its number"),
    "3: answers a frame behind a greeting": (Hurried, "3: answers in order"),
    "3: says events behind hear alone": (Asked, "3: says events within 100 ms"),
    "3: answers hear by one line": (OneByOne, "3: answers hear by none at last"),
    "3: does not say none": (Endless, "3: answers hear by none at last"),
    "3: says events late": (Late, "3: says events within 100 ms"),
    "3: says events twice": (Twice, "3: says each event once"),
    "3: says events again behind hear": (Again, "3: says events in order"),
    "3: says the newest event first": (Backwards, "3: says events in order"),
    "3: loses events while a frame is sent": (lambda end: Interface(Deaf(), end), "3: says events in order"),
    "3: says events before its greeting": (EventsFirst, "3: answers a greeting before events"),
    "3: keeps events at a greeting": (Remembering, "3: forgets events at a greeting"),
    "3: says events in version 2": (Telling, "3: says nothing unasked in version 2"),
    "3: says events in version 1": (TellingFirst, "3: says nothing unasked in version 1"),
    "3: says an event for an answer": (Instead, "3: answers a frame beside events"),
    "3: says that it is ready": (Talking, "3: says nothing but events unasked"),
    "3: hears its own frames": (lambda end: Interface(Echoing(), end), "3: sends, and hears no own frames"),
}
