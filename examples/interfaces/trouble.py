"""What an interface does that is out of order, to see what a controller makes of it.

A `Trouble` is met at one request after a greeting, in place of the answer. `TroubledInterface` has
a plan of them, and three ways to be out of order all the time: it sends requests back, has an event
each time, or speaks an old version alone.
"""

from __future__ import annotations

import argparse
import dataclasses
import select
import threading
import time
from typing import Callable, Dict, List, Optional

from gushewa_line.ends import End, PtyEnd
from gushewa_line.line import (
    FAULT,
    THIRD,
    Interface,
    TellingBus,
    answer_to_greeting,
    first_answer_to_greeting,
    second_answer_to_greeting,
)

FLOOD_EVENT = 0x0A8809
FLOOD_SECONDS = 0.001
BABBLE = (b"babble " * 8 + b"\n") * 8


@dataclasses.dataclass
class Trouble:
    """One thing out of order: at which request after a greeting, what, and for how many seconds."""

    at: int
    what: str
    seconds: float = 0.0
    has_come: bool = False


@dataclasses.dataclass
class Plan:
    """All that is out of order."""

    troubles: List[Trouble]
    comes_again: bool = False
    fault_at: Optional[int] = None
    echoes: bool = False
    floods: bool = False
    is_version_1: bool = False
    is_version_2: bool = False

    def due(self, at: int) -> Optional[Trouble]:
        """The trouble that is met at this request after a greeting."""
        for trouble in self.troubles:
            if trouble.at == at and (self.comes_again or not trouble.has_come):
                trouble.has_come = True
                return trouble
        return None


class FloodedBus:
    """A bus on which somebody holds all buttons down."""

    def __init__(self, bus: TellingBus) -> None:
        self.send = bus.send
        self.next: Optional[float] = None  # in version 3: when the next event comes

    def forget(self) -> None:
        """Nothing waits: an event comes now."""

    def begin(self, version: int) -> None:
        """The line was greeted in this version."""
        self.next = time.monotonic() if version == THIRD else None

    def take(self) -> Optional[int]:
        if self.next is None:
            return FLOOD_EVENT
        if time.monotonic() < self.next:
            return None
        self.next = time.monotonic() + FLOOD_SECONDS
        return FLOOD_EVENT

    def watch(self, wake: Callable[[], None]) -> None:
        threading.Thread(target=self.wake_again, args=[wake], daemon=True).start()

    def wake_again(self, wake: Callable[[], None]) -> None:
        while True:
            time.sleep(FLOOD_SECONDS)
            wake()


class TroubledInterface(Interface):
    """An interface with a plan of its troubles."""

    def __init__(self, bus: TellingBus, end: End, note: Callable[[str, str], None], plan: Plan) -> None:
        super().__init__(FloodedBus(bus) if plan.floods else bus, end, note, greeting_of(plan))
        self.plan = plan
        self.count = 0

    def meet(self, request: str) -> None:
        self.count = 0 if self.to_greeting(request) else self.count + 1
        if self.plan.echoes:
            with self.lock:
                self.end.say(request)
        trouble = self.plan.due(self.count)
        if trouble:
            self.note("!", f"{trouble.what} {trouble.seconds}")
            self.meetings()[trouble.what](request, trouble.seconds)
        elif self.plan.fault_at is not None and self.count >= self.plan.fault_at:
            self.say(FAULT)
        else:
            super().meet(request)

    def answer_greeting(self, greeted: str) -> str:
        line = super().answer_greeting(greeted)
        if isinstance(self.bus, FloodedBus):
            self.bus.begin(self.end.version)
        return line

    def meetings(self) -> Dict[str, Callable[[str, float], None]]:
        return {
            "silent": self.be_silent,
            "half": self.say_half,
            "fault": lambda request, seconds: self.say(FAULT),
            "unplug": self.be_unplugged,
            "babble": self.babble,
            "end": self.leave,
        }

    def be_silent(self, request: str, seconds: float) -> None:
        """Answers later, and says nothing meanwhile. What is asked then waits on the line."""
        with self.lock:
            line = self.answer(request)
            time.sleep(seconds)
            self.say(line)
            if self.end.version == THIRD:
                self.say_events()

    def say_half(self, request: str, seconds: float) -> None:
        """Says half an answer, and nothing behind it until it is greeted again."""
        with self.lock:
            line = self.answer(request)
            half = line[: (len(line) + 1) // 2]
            self.note(">", f"{half} and no more")
            self.end.write(half.encode("ascii"))
            self.end.version = min(self.end.version, 2)

    def be_unplugged(self, request: str, seconds: float) -> None:
        self.end.unplug()
        time.sleep(seconds)
        self.end.plug()

    def babble(self, request: str, seconds: float) -> None:
        """Writes lines that nobody asked for, and then the answer."""
        end = time.monotonic() + seconds
        with self.lock:
            while time.monotonic() < end:
                if not isinstance(self.end, PtyEnd) or select.select([], [self.end.ours], [], 0.1)[1]:
                    self.end.write(BABBLE)
        super().meet(request)

    def leave(self, request: str, seconds: float) -> None:
        raise SystemExit


def greeting_of(plan: Plan) -> Callable[[str], Optional[str]]:
    """What answers a greeting, by the newest version that is spoken."""
    if plan.is_version_1:
        return first_answer_to_greeting
    if plan.is_version_2:
        return second_answer_to_greeting
    return answer_to_greeting


def add_words(parser: argparse.ArgumentParser) -> None:
    """The options that plan troubles."""
    for what in ("silent-at", "half-at", "fault-once", "unplug-at", "babble-at", "end-at"):
        parser.add_argument(f"--{what}", action="append", default=[])
    parser.add_argument("--fault-at", type=int)
    for word in ("again", "echo", "flood", "version-1", "version-2"):
        parser.add_argument(f"--{word}", action="store_true")


def plan_of(given: argparse.Namespace) -> Plan:
    """The troubles that the options ask for."""
    troubles: List[Trouble] = []
    for option in ("silent_at", "half_at", "fault_once", "unplug_at", "babble_at", "end_at"):
        for word in getattr(given, option):
            at, _, seconds = word.partition(":")
            troubles.append(Trouble(int(at), option.split("_")[0], float(seconds or 0)))
    return Plan(troubles, given.again, given.fault_at, given.echo, given.flood, given.version_1, given.version_2)
