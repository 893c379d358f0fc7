#!/usr/bin/env python3
"""Tries whether an interface keeps what can be seen of its duties over the line (docs/LINES.md).

  check.py PATH                  PATH is a serial device or a pseudo terminal
  check.py SOURCE,SINK           or two FIFOs
  check.py --press SECONDS ..    waits again and again so long for somebody to press a button; it says each
                                 time how often
  check.py --counts ..           of some source each event has the information of the one before and one
                                 more, as simulated.py --counter gives them; so their order is seen

It prints a line for each duty: `ok`, or what came. The first ones are those of version 2, and those of
version 3 begin with `3:`. Of a version that the interface does not know they are not tried. It exits
with 1 where something came that should not, and with 2 where the line cannot be opened. On the bus it
only asks: whether gear 63 is there, and for the status of device 63. End `dalictl live` and all else
that uses the line first.
"""

from __future__ import annotations

import argparse
import re
import sys
import time
from typing import Callable, List, Sequence, Tuple, TypeVar

import telling
from gushewa_line.controller import SILENT_SECONDS, Ended, Line, answer_to
from trial import (
    GREETING_SECONDS,
    OWN_SECONDS,
    QUERY_DEVICE,
    QUERY_GEAR,
    QUERY_GEAR_AGAIN,
    REPLY,
    SHORTEST_FRAME,
    UNASKED_SECONDS,
    NotTried,
    Otherwise,
    Trial,
)

MANY_REQUESTS, MOST_EVENTS, PRESSES, TRIES = 300, 256, 4, 5
MESSAGE = re.compile(r"none|event [0-9A-Fa-f]{6}")
UNKNOWN = ("nonsense", "send 6 7F91", "send 4 7F9", "hear 1", "")
MOST_BYTES, WIDTH = 63, 40

PAIR_SECONDS = 0.1
HEAR_SECONDS = 0.03
PAUSE_SECONDS = 0.002


class Asked(Trial):
    """An interface under trial in version 2."""

    # What the duties are made of.

    def ask(self, request: str, wanted: "re.Pattern[str]") -> str:
        """The answer to a request, of this form."""
        self.line.write(request + "\n")
        line = self.read(request)
        if not wanted.fullmatch(line):
            raise Otherwise(f"{request!r}: {line!r}")
        return line

    def stay_silent(self, seconds: float, after: str) -> None:
        """Nobody says anything now."""
        line = self.line.read(seconds)
        if line is not None or self.line.left:
            raise Otherwise(f"unasked, after {after!r}: {line or self.line.left!r}")

    # The duties.

    def answers_greeting(self) -> None:
        self.need_version()
        for number in (1, time.time_ns() // 1_000_000):
            self.greet_by(f"gushewa 2 {number}")

    def greets_in_time(self) -> None:
        self.is_within(GREETING_SECONDS, self.time_to_greet(), "a greeting")

    def forgets_half_a_request(self) -> None:
        self.greet_by("gushewa 2 7", "send 4 0A")

    def answers_in_order(self) -> None:
        """A greeting that comes while a request is under way is answered last."""
        for request, form in (("hear", MESSAGE), (QUERY_GEAR, REPLY)):
            self.line.write(f"{request}\ngushewa 2 8\n")
            lines = [self.read(request)]
            if form.fullmatch(lines[0]):
                lines.append(self.read("gushewa 2 8"))
            if lines[-1] != answer_to("gushewa 2 8"):
                raise Otherwise(f"{request!r} and a greeting at once: {', '.join(map(repr, lines))}")
            self.stay_silent(SILENT_SECONDS, "a greeting")

    def sends_at_last(self) -> None:
        """A collision may come, but not each time; and a bus without power is a fault."""
        if all(self.ask(QUERY_GEAR, REPLY) == "lost" for _ in range(TRIES)):
            raise Otherwise(f"{QUERY_GEAR!r}: 'lost' {TRIES} times in a row")

    def goes_on(self) -> None:
        for _ in range(MANY_REQUESTS):
            self.ask("hear", MESSAGE)

    def hears(self) -> None:
        self.ask("hear", MESSAGE)

    def sends_16(self) -> None:
        self.ask(QUERY_GEAR, REPLY)

    def sends_24(self) -> None:
        self.ask(QUERY_DEVICE, REPLY)

    def hears_no_own_frame(self) -> None:
        """Neither at once nor later, and no frame of 16 bits in any place of an event."""
        for request in (QUERY_DEVICE, QUERY_GEAR):
            self.ask(request, REPLY)
            end = time.monotonic() + OWN_SECONDS
            while time.monotonic() < end:
                heard = self.ask("hear", MESSAGE)
                if request.split()[2] in heard.upper():
                    raise Otherwise(f"its own frame, {heard!r} after {request!r}")
                time.sleep(PAUSE_SECONDS)

    def refuses_unknown(self) -> None:
        for request in UNKNOWN:
            self.line.write(request + "\n")
            line = self.read(request)
            if REPLY.fullmatch(line) or MESSAGE.fullmatch(line) or line.startswith("gushewa"):
                raise Otherwise(f"{request!r}: {line!r}")

    def says_nothing_unasked(self) -> None:
        for request, form in (("hear", MESSAGE), (QUERY_GEAR, REPLY), ("hear", MESSAGE)):
            self.ask(request, form)
            self.stay_silent(SILENT_SECONDS, request)
        self.stay_silent(UNASKED_SECONDS, "some seconds")

    def sends_pairs_in_time(self) -> None:
        self.ask(QUERY_GEAR, REPLY)
        self.asks_within(PAIR_SECONDS, QUERY_GEAR_AGAIN, REPLY)

    def hears_in_time(self) -> None:
        self.asks_within(HEAR_SECONDS, "hear", MESSAGE)

    def asks_within(self, wanted: float, request: str, form: "re.Pattern[str]") -> None:
        """The best of some exchanges, since the machine may have other work."""
        self.is_within(wanted, min(self.time_of(request, form) for _ in range(TRIES)), repr(request))

    def time_of(self, request: str, form: "re.Pattern[str]") -> float:
        begun = time.monotonic()
        self.ask(request, form)
        return time.monotonic() - begun

    def forgets_events(self) -> None:
        """An event may come just now, but not three times."""
        self.wait_for_presses("press a button")
        for _ in range(3):
            self.greet()
            heard = self.ask("hear", MESSAGE)
            if heard == "none":
                return
        raise Otherwise(f"{heard!r} behind a greeting")

    def keeps_events(self) -> None:
        """Each press is an event, or more of them; they wait until they are heard."""
        self.need_presses()
        self.wait_for_presses(f"press a button {PRESSES} times")
        heard = 0
        while heard < MOST_EVENTS and self.ask("hear", MESSAGE) != "none":
            heard += 1
        if heard < PRESSES:
            raise Otherwise(f"{heard} events of {PRESSES} presses")

    def gives_events_once(self) -> None:
        """Where nothing waited, two equal events in less time than a frame takes are one that was given twice."""
        self.need_presses()
        self.ask_for("press a button")
        end, before, nothing_at, count = time.monotonic() + self.press, "none", 0.0, 0
        while time.monotonic() < end:
            asked_at = time.monotonic()
            heard = self.ask("hear", MESSAGE)
            if heard == "none":
                nothing_at = asked_at
                time.sleep(PAUSE_SECONDS)
            elif heard == before and time.monotonic() - nothing_at < SHORTEST_FRAME:
                raise Otherwise(f"{heard!r} twice within {1000 * SHORTEST_FRAME:.0f} ms")
            count += heard != "none"
            before = heard
        if not count:
            raise Otherwise("no event of the press")

    def is_opened_again(self) -> None:
        self.line.write("send 4 0A")
        self.line.open_again(0.1)
        self.greet()
        self.stay_silent(SILENT_SECONDS, "a greeting")


def writes_plain_lines(trial: Trial) -> None:
    for line in trial.seen:
        if "\r" in line:
            raise Otherwise(f"a carriage return in {line!r}")
        if "\\" in line or len(line) > MOST_BYTES:
            raise Otherwise(f"a byte that is no ASCII, or too many: {line!r}")


DUTIES: Sequence[Tuple[str, Callable[[Asked], None]]] = (
    ("answers a greeting with its number", Asked.answers_greeting),
    ("answers a greeting within 500 ms", Asked.greets_in_time),
    ("forgets half a request before it", Asked.forgets_half_a_request),
    ("answers in order", Asked.answers_in_order),
    ("hears", Asked.hears),
    ("sends 16 bits", Asked.sends_16),
    ("sends 24 bits", Asked.sends_24),
    ("loses not each frame", Asked.sends_at_last),
    ("does not hear its own frames", Asked.hears_no_own_frame),
    ("answers no unknown request", Asked.refuses_unknown),
    ("says nothing unasked", Asked.says_nothing_unasked),
    ("sends a pair within 100 ms", Asked.sends_pairs_in_time),
    ("hears within 30 ms", Asked.hears_in_time),
    ("forgets events at a greeting", Asked.forgets_events),
    ("keeps events", Asked.keeps_events),
    ("gives each event once", Asked.gives_events_once),
    ("answers 300 requests", Asked.goes_on),
    ("is opened again", Asked.is_opened_again),
)


Tried = TypeVar("Tried", bound=Trial)


def try_duty(trial: Tried, is_greeted: bool, duty: Callable[[Tried], None]) -> Tuple[bool, str]:
    """Whether it is kept, as far as it was tried, and `ok` or what came."""
    try:
        if is_greeted:
            trial.greet()
        duty(trial)
    except NotTried as reason:
        return True, str(reason)
    except Otherwise as otherwise:
        return False, str(otherwise)
    except (Ended, OSError) as error:
        return False, f"the line ended {error}".rstrip()
    return True, "ok"


def try_all(line: Line, press: float, counts: bool) -> bool:
    """Tries each duty, and prints what came of it; whether all are kept."""
    good: List[bool] = []

    def tell(name: str, found: Tuple[bool, str]) -> None:
        good.append(found[0])
        print(f"{name:{WIDTH}}{found[1]}", flush=True)

    asked, told = Asked(line, press, counts), telling.Telling(line, press, counts)
    for number, (name, duty) in enumerate(DUTIES):
        tell(name, try_duty(asked, number > 0, duty))
    for number, (name, third) in enumerate(telling.DUTIES):
        tell(name, try_duty(told, number > 0, third))
    asked.seen += told.seen
    tell("writes plain lines", try_duty(asked, True, writes_plain_lines))
    return all(good)


def main() -> None:
    words = argparse.ArgumentParser(usage=__doc__)
    words.add_argument("path")
    words.add_argument("--press", type=float, default=0.0)
    words.add_argument("--counts", action="store_true")
    given = words.parse_args()
    try:
        line = Line(given.path)
    except OSError as error:
        print(f"cannot open {given.path}: {error.strerror}")
        sys.exit(2)
    sys.exit(0 if try_all(line, given.press, given.counts) else 1)


if __name__ == "__main__":
    main()
