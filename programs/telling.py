"""The duties of version 3 of the line, for check.py: events that are said unasked (docs/LINES.md)."""

from __future__ import annotations

import time
from typing import Callable, Dict, List, Sequence, Tuple

from gushewa_line.controller import EVENT, MOST_PASSED_OVER, SILENT_SECONDS, answer_to
from gushewa_line.line import FAULT, FIRST_GREETING, HEAR, NONE, SECOND, THIRD
from trial import (
    ANSWER_SECONDS,
    GREETING_SECONDS,
    OWN_SECONDS,
    QUERY_DEVICE,
    QUERY_GEAR,
    REPLY,
    SHORTEST_FRAME,
    UNASKED_SECONDS,
    NotTried,
    Otherwise,
    Trial,
    greeting_of,
)

LAST_INFORMATION = 0x3FF
# So long is listened before `hear`: an event that is said within 100 ms of its frame comes by itself in most cases.
LISTEN_SECONDS = 0.15
MOST_ASKED = 0.75
MANY_HEARS = 50
HEAR_SECONDS = 0.03
FORGETFUL_TRIES = 3


class Telling(Trial):
    """An interface under trial in version 3."""

    version = THIRD

    # What the duties are made of.

    def ask(self, request: str) -> Tuple[List[str], str]:
        """The events before the answer to a request, and the answer."""
        events: List[str] = []
        self.line.write(request + "\n")
        end = time.monotonic() + ANSWER_SECONDS
        while EVENT.fullmatch(line := self.read(request)):
            events.append(line)
            if time.monotonic() > end:
                raise Otherwise(f"{request!r}: {len(events)} events, and no answer within {ANSWER_SECONDS:.0f} s")
        if not (REPLY.fullmatch(line) if request.startswith("send") else line == NONE):
            raise Otherwise(f"{request!r}: {line!r}")
        return events, line

    def listen(self, seconds: float, after: str) -> List[Tuple[float, str]]:
        """The events that come by themselves in this time, and when; nothing else may come."""
        events: List[Tuple[float, str]] = []
        end = time.monotonic() + seconds
        while (line := self.next_line(max(0.0, end - time.monotonic()))) is not None:
            if not EVENT.fullmatch(line):
                raise Otherwise(f"unasked, after {after!r}: {line!r}")
            events.append((time.monotonic(), line))
        return events

    def hears_nothing(self, version: str) -> None:
        """Nothing is said unasked in an old version."""
        self.wait_for_presses("press a button")
        line = self.next_line(0.0 if self.press else UNASKED_SECONDS)
        if line is not None:
            raise Otherwise(f"unasked, in version {version}: {line!r}")

    # The duties.

    def greets(self) -> None:
        self.need_version()
        for number in ("1", "0007", str(time.time_ns())):
            self.greet_by(f"gushewa 3 {number}")
        self.greet_by(greeting_of(THIRD), "send 4 0A")
        self.is_within(GREETING_SECONDS, self.time_to_greet(), "a greeting")

    def greets_last(self) -> None:
        """The answers to what was asked before come before that to a greeting, and nothing but events behind it."""
        for request in (HEAR, QUERY_GEAR):
            greeting = greeting_of(THIRD)
            self.line.write(f"{request}\n{greeting}\n")
            lines = [self.read(request)]
            while lines[-1] != answer_to(greeting) and len(lines) < MOST_PASSED_OVER:
                lines.append(self.read(greeting))
            said = [line for line in lines[:-1] if not EVENT.fullmatch(line)]
            if lines[-1] != answer_to(greeting) or len(said) > 1:
                raise Otherwise(f"{request!r} and a greeting at once: {', '.join(map(repr, lines[-3:]))}")
            self.listen(SILENT_SECONDS, "a greeting")

    def ends_by_none(self) -> None:
        times = []
        for _ in range(MANY_HEARS):
            begun = time.monotonic()
            self.ask(HEAR)
            times.append(time.monotonic() - begun)
            self.listen(0.01, HEAR)
        self.is_within(HEAR_SECONDS, min(times), repr(HEAR))

    def sends(self) -> None:
        """Each frame has one answer. The own frames are no events."""
        for request in (QUERY_GEAR, QUERY_DEVICE):
            events, _ = self.ask(request)
            events += [line for _, line in self.listen(OWN_SECONDS, request)]
            events += self.ask(HEAR)[0]
            own = [line for line in events if request.split()[2] in line.upper()]
            if own:
                raise Otherwise(f"its own frame, {own[0]!r} after {request!r}")

    def says_events_alone(self) -> None:
        self.ask(HEAR)
        self.listen(UNASKED_SECONDS, "some seconds")

    def greet_in_2(self) -> None:
        self.line.greet(seconds=ANSWER_SECONDS, newest=SECOND)
        if self.line.version != SECOND:
            raise NotTried("not tried: it does not know version 2")

    def is_silent_in_2(self) -> None:
        self.greet_in_2()
        self.hears_nothing("2")

    def is_silent_in_1(self) -> None:
        line = self.answer_to_greeting(FIRST_GREETING)
        if line == FAULT:
            raise NotTried("not tried: it does not know version 1")
        if line != FIRST_GREETING:
            raise Otherwise(f"{FIRST_GREETING!r}: {line!r}")
        self.hears_nothing("1")

    def answers_before_events(self) -> None:
        """Nothing that waits when a greeting comes is said before its answer."""
        self.greet_in_2()
        self.wait_for_presses("press a button")
        greeting = greeting_of(THIRD)
        self.line.write(greeting + "\n")
        line = self.read(greeting)
        if line != answer_to(greeting):
            raise Otherwise(f"{greeting!r}: {line!r} before its answer")

    def forgets_events(self) -> None:
        """What waited in version 2 is not said behind a greeting. An event may come just now, but not each time."""
        self.need_presses()
        for _ in range(FORGETFUL_TRIES):
            self.greet_in_2()
            self.wait_for_presses("press a button")
            self.greet_by(greeting_of(THIRD))
            events, _ = self.ask(HEAR)
            if not events:
                return
        raise Otherwise(f"{events[0]!r} behind a greeting")

    def says_events_in_time(self) -> None:
        """An event that has to be asked for came later than 100 ms, or just now. Not all of them come just now."""
        self.need_presses()
        self.ask_for("press a button, again and again,")
        said, asked = 0, 0
        end = time.monotonic() + self.press
        while time.monotonic() < end:
            said += len(self.listen(LISTEN_SECONDS, HEAR))
            asked += len(self.ask(HEAR)[0])
        if not said + asked:
            raise Otherwise("no event of the presses")
        if asked > MOST_ASKED * (said + asked):
            raise Otherwise(f"{asked} of {said + asked} events came not within 100 ms, but behind {HEAR!r}")

    def says_events_once(self) -> None:
        """Two equal events in less time than a frame takes are one that was said twice."""
        self.need_presses()
        self.ask_for("press a button, again and again,")
        events = self.listen(self.press, "a greeting")
        for (at, event), (later, again) in zip(events, events[1:]):
            if event == again and later - at < SHORTEST_FRAME:
                raise Otherwise(f"{event!r} twice within {1000 * SHORTEST_FRAME:.0f} ms")
        late, _ = self.ask(HEAR)
        if events and late and late[0] == events[-1][1] and time.monotonic() - events[-1][0] < SHORTEST_FRAME:
            raise Otherwise(f"{late[0]!r} by itself, and again behind {HEAR!r}")

    def says_events_in_order(self) -> None:
        """Each information is the one behind that of before, whether events come by themselves or are asked for."""
        self.need_presses()
        if not self.counts:
            raise NotTried("not tried without --counts")
        events: List[str] = []
        end = time.monotonic() + self.press
        while time.monotonic() < end:
            events += [line for _, line in self.listen(LISTEN_SECONDS, HEAR)]
            events += self.ask(HEAR)[0] + self.ask(QUERY_GEAR)[0]
        counted: Dict[int, List[int]] = {}
        for event in events:
            frame = int(event.split()[1], 16)
            counted.setdefault(frame & ~LAST_INFORMATION, []).append(frame & LAST_INFORMATION)
        if not any(len(set(numbers)) > 1 for numbers in counted.values()):
            raise Otherwise("no events that count")
        for source, numbers in counted.items():
            if len(set(numbers)) > 1 and numbers != [numbers[0] + at & LAST_INFORMATION for at in range(len(numbers))]:
                raise Otherwise(f"of {source:06X} the informations {' '.join(map(str, numbers))}")

    def answers_beside_events(self) -> None:
        """An event that comes while a frame is sent is not its answer, and takes none away."""
        self.need_presses()
        self.ask_for("press a button, again and again,")
        end = time.monotonic() + self.press
        while time.monotonic() < end:
            self.ask(QUERY_GEAR)
        self.listen(SILENT_SECONDS, QUERY_GEAR)


DUTIES: Sequence[Tuple[str, Callable[[Telling], None]]] = (
    ("3: answers a greeting with its number", Telling.greets),
    ("3: answers in order", Telling.greets_last),
    ("3: answers hear by none at last", Telling.ends_by_none),
    ("3: sends, and hears no own frames", Telling.sends),
    ("3: says nothing but events unasked", Telling.says_events_alone),
    ("3: says nothing unasked in version 2", Telling.is_silent_in_2),
    ("3: says nothing unasked in version 1", Telling.is_silent_in_1),
    ("3: answers a greeting before events", Telling.answers_before_events),
    ("3: forgets events at a greeting", Telling.forgets_events),
    ("3: says events within 100 ms", Telling.says_events_in_time),
    ("3: says each event once", Telling.says_events_once),
    ("3: says events in order", Telling.says_events_in_order),
    ("3: answers a frame beside events", Telling.answers_beside_events),
)
