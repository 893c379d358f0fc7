"""The line between the controller and an interface for one DALI bus, version 3 (docs/LINES.md).

An interface is a bus behind an end of a line:

    from gushewa_line.ends import PtyEnd
    from gushewa_line.line import serve
    serve(MyBus(), PtyEnd('/run/dali0'))

A bus is a class with the methods of `TellingBus`; `HearingBus` has all of them but `send`. One with the three of `Bus`
alone speaks version 2. Each of them may raise `Fault`; the controller then gets `fault`. Versions 1 and 2 are
understood too: the controller's greeting decides which one is spoken.
"""

from __future__ import annotations

import collections
import contextlib
import re
import threading
from typing import Callable, Optional, Protocol, runtime_checkable

from gushewa_line.ends import End, end_in_order

FIRST_GREETING = "gushewa 1"
SECOND, THIRD = 2, 3
GREETING = re.compile(r"gushewa ([23]) ([0-9]{1,20})\Z")
SEND = re.compile(r"send ([1-5]) ([0-9A-F]{4}|[0-9A-F]{6})")
HEAR, NONE = "hear", "none"
QUIET, DAMAGED, LOST, FAULT, ANSWER = "quiet", "damaged", "lost", "fault", "answer "

EVENTS_KEPT = 256


class Fault(Exception):
    """The interface failed."""


class Bus(Protocol):
    """What an interface of versions 1 and 2 asks of its bus."""

    def send(self, bits: int, frame: int, priority: int) -> str:
        """Sends a forward frame of 16 or 24 bits with a priority, 1 (the highest) to 5.

        Returns what came in the time of a backward frame: QUIET, answer(byte) or DAMAGED; or LOST,
        where the frame met a collision or could not be sent in its time.
        """

    def take(self) -> Optional[int]:
        """Returns the oldest 24-bit frame of another device that was not taken yet, or None."""

    def forget(self) -> None:
        """A controller greeted: drops the frames that wait."""


@runtime_checkable
class TellingBus(Bus, Protocol):
    """What an interface asks of its bus in version 3 besides: that it says when a frame comes."""

    def watch(self, wake: Callable[[], None]) -> None:
        """From now on `wake` is called, in any thread, as soon as `take` has a frame. It may be called too often."""


def do_nothing() -> None:
    """Nobody is to be woken."""


class Events:
    """The 24-bit frames of other devices that wait. Where nobody hears, the oldest go."""

    def __init__(self) -> None:
        self.frames: collections.deque[int] = collections.deque(maxlen=EVENTS_KEPT)
        self.lock = threading.Lock()  # a library may hear in a thread of its own
        self.wake: Callable[[], None] = do_nothing

    def add(self, frame: int) -> None:
        with self.lock:
            self.frames.append(frame)
        self.wake()

    def take(self) -> Optional[int]:
        with self.lock:
            return self.frames.popleft() if self.frames else None

    def forget(self) -> None:
        with self.lock:
            self.frames.clear()


class HearingBus:
    """The bus of an interface but for `send`: whoever hears a 24-bit frame adds it to `events`."""

    def __init__(self) -> None:
        self.events = Events()

    def take(self) -> Optional[int]:
        return self.events.take()

    def forget(self) -> None:
        self.events.forget()

    def watch(self, wake: Callable[[], None]) -> None:
        self.events.wake = wake


# What the requests are answered.


def answer(byte: int) -> str:
    """What `send` returns where a backward frame of this byte came."""
    return f"{ANSWER}{byte}"


def byte_of(came: str) -> Optional[int]:
    """The byte of an answer; None of anything else that came."""
    return int(came.removeprefix(ANSWER)) if came.startswith(ANSWER) else None


def event_line(frame: int) -> str:
    """How an event is said."""
    return f"event {frame:06X}"


def first_answer_to_greeting(request: str) -> Optional[str]:
    """The answer to a greeting of version 1 at the end of a request; None where none is there."""
    return FIRST_GREETING if request.endswith(FIRST_GREETING) else None


def second_answer_to_greeting(request: str) -> Optional[str]:
    """The answer to a greeting of version 1 or 2 at the end of a request; None where none is there."""
    return answer_to_greeting(request, SECOND)


def answer_to_greeting(request: str, newest: int = THIRD) -> Optional[str]:
    """The answer to a greeting at the end of a request; None where none is there.

    Before the greeting may stand half a request, of a controller that was ended while it wrote. By
    its number an answer belongs to this greeting, and not to an earlier one. An echo is no answer.
    """
    greeting = GREETING.search(request)
    if greeting and int(greeting[1]) <= newest:
        return f"gushewa {greeting[1]} hears {greeting[2]}"
    return first_answer_to_greeting(request)


def version_of(greeted: str) -> int:
    """The version of an answer to a greeting."""
    return int(greeted.split()[1])


def answer_to(bus: Bus, request: str, to_greeting: Callable[[str], Optional[str]] = second_answer_to_greeting) -> str:
    """The one line that answers a request in versions 1 and 2."""
    try:
        greeted = to_greeting(request)
        if greeted:
            bus.forget()  # a press of some minutes ago must not switch a light now
            return greeted
        if request == HEAR:
            frame = bus.take()
            return NONE if frame is None else event_line(frame)
        return answer_to_send(bus, request)
    except Fault:
        return FAULT


def answer_to_send(bus: Bus, request: str) -> str:
    """The line that answers a request to send a frame, or one that nobody knows."""
    send = SEND.fullmatch(request)
    return bus.send(4 * len(send[2]), int(send[2], 16), int(send[1])) if send else FAULT


# The interface.


def note_nothing(way: str, line: str) -> None:
    """Writes down neither requests (`<`) nor what is said (`>`)."""


class Interface:
    """A bus behind an end of a line. Each request gets one answer; in version 3 events are said by themselves.

    A bus may wake it in another thread. What is said, taken and greeted is so under one lock, and a frame is sent
    without it, so that events are said while a frame is sent.
    """

    def __init__(
        self,
        bus: Bus,
        end: End,
        note: Callable[[str, str], None] = note_nothing,
        to_greeting: Optional[Callable[[str], Optional[str]]] = None,
    ) -> None:
        self.bus, self.end, self.note = bus, end, note
        self.lock = threading.RLock()
        is_telling = isinstance(bus, TellingBus)
        self.to_greeting = to_greeting or (answer_to_greeting if is_telling else second_answer_to_greeting)
        if isinstance(bus, TellingBus):
            bus.watch(self.say_unasked)

    def serve(self) -> None:
        """Answers each request, until the line ends."""
        while (request := self.end.next_line()) is not None:
            self.note("<", request)
            self.meet(request)

    def meet(self, request: str) -> None:
        """Answers this request."""
        greeted = self.to_greeting(request)
        if greeted:
            self.greet(greeted)
        elif self.end.version != THIRD:
            self.say(self.answer(request))
        elif request == HEAR:
            self.answer_hear()
        else:
            self.say_behind_events(self.answer(request))

    def greet(self, greeted: str) -> None:
        """Answers a greeting. What came before is forgotten; in version 3 what came since is said behind the answer."""
        with self.lock, contextlib.suppress(Fault):  # what fails behind the answer fails again at what is asked next
            self.say(self.answer_greeting(greeted))
            if self.end.version == THIRD:
                self.say_events()

    def answer_greeting(self, greeted: str) -> str:
        """The line that answers a greeting, from which on its version is spoken."""
        with self.lock:
            self.end.version = 0
            try:
                self.bus.forget()  # a press of some minutes ago must not switch a light now
            except Fault:
                return FAULT
            self.end.version = version_of(greeted)
            if self.end.version > 1:
                self.end.begin_anew()
            return greeted

    def answer(self, request: str) -> str:
        """The line that answers a request. In version 3 no events stand before it yet."""
        greeted = self.to_greeting(request)
        if greeted:
            return self.answer_greeting(greeted)
        if self.end.version == THIRD and request == HEAR:
            return NONE
        return answer_to(self.bus, request, self.to_greeting)

    def answer_hear(self) -> None:
        """Answers `hear` in version 3: each event that was not said yet, and then `none`."""
        self.say_behind_events(NONE)

    def say_behind_events(self, line: str) -> None:
        """Gives the answer of a request in version 3, behind the events that came before it."""
        with self.lock:
            try:
                self.say_events()
            except Fault:
                line = FAULT
            self.say(line)

    def say_unasked(self) -> None:
        """Says by itself the events that wait, where the line was greeted in version 3 and takes bytes.

        The line may end just now: `serve` meets that.
        """
        with self.lock, contextlib.suppress(Fault, OSError, ValueError):
            if self.end.version == THIRD and self.end.has_room():
                self.say_events()

    def say_events(self) -> None:
        """Says the events that wait, each once."""
        for _ in range(EVENTS_KEPT):
            frame = self.bus.take()
            if frame is None:
                return
            self.say(event_line(frame))

    def say(self, line: str) -> None:
        with self.lock:
            self.note(">", line)
            self.end.say(line)


def serve(bus: Bus, end: End, note: Callable[[str, str], None] = note_nothing) -> None:
    """Answers each request, until the line ends. Where the program ends, its pseudo terminal is gone."""
    end_in_order()
    Interface(bus, end, note).serve()
