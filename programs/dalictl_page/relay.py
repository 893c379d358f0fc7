"""What passes over the line of one bus, from the controller to its interface and back.

All bytes are passed on as they came, and nothing is added on the way to the interface. So no frame
is sent that the controller did not ask for. On the way back an event that was put in by hand is said:
in version 3 of the line at once between two lines, and in versions 1 and 2 in place of a `none` with
which the interface answers `hear`.
"""

from __future__ import annotations

import collections
from typing import Callable, Deque, NamedTuple, Optional

from gushewa_line.controller import BACKWARD, EVENT
from gushewa_line.line import HEAR, NONE, THIRD, answer_to_greeting, event_line, version_of

# No request has more bytes, and no answer (docs/LINES.md).
MOST_BYTES = 64
# An event by hand that the controller did not hear within this time is dropped: a press of some
# minutes ago must not switch a light now.
PRESS_SECONDS = 2.0
MOST_PRESSES = 64
OPEN, GREETED = "open", "greeted"


class Press(NamedTuple):
    """An event that was put in by hand, and waits for a `hear`, or for the end of a line."""

    number: str
    frame: int
    until: float


class Relay:
    """The line of one bus. `tell(way, text)` hears of what passes, but of no `hear` that brings nothing.

    The ways are `<` (a request), `>` (an answer), `=` (what the line is like), `+` and `-` (an event by
    hand that the controller got, or that was dropped; the text is its number and its frame).
    """

    def __init__(self, tell: Callable[[str, str], None]) -> None:
        self.tell = tell
        self.presses: Deque[Press] = collections.deque()
        self.requests = 0
        self.begin()

    def begin(self) -> None:
        """The line begins, or begins anew: nothing of before counts."""
        self.request, self.answer, self.held = b"", b"", b""
        self.asked, self.asked_at, self.is_greeted, self.version = "", 0.0, False, 0
        self.drop_presses()

    # From the controller to the interface.

    def pass_request(self, data: bytes, now: float) -> bytes:
        """What goes to the interface for these bytes of the controller: these bytes."""
        *ends, rest = data.split(b"\n")
        for end in ends:
            self.note_request(shown((self.request + end)[-MOST_BYTES:]), now)
            self.request = b""
        self.request = (self.request + rest)[-MOST_BYTES:]
        return data

    def note_request(self, line: str, now: float) -> None:
        self.requests += 1
        self.asked, self.asked_at = line, now
        if answer_to_greeting(line):
            self.is_greeted = False
            self.drop_presses()
        if line != HEAR:
            self.tell("<", line)

    # From the interface to the controller.

    def pass_answer(self, data: bytes, now: float) -> bytes:
        """What goes to the controller for these bytes of the interface."""
        passed = b""
        *ends, rest = data.split(b"\n")
        for end in ends:
            self.answer = (self.answer + end)[:MOST_BYTES]
            passed += self.end_answer(self.held + end, now)
            self.answer = self.held = b""
            passed += self.pass_presses(now)
        self.answer = (self.answer + rest)[:MOST_BYTES]
        self.held += rest
        if not NONE.encode().startswith(self.answer):
            # Only what may become `none` is held back, until its line ends.
            passed, self.held = passed + self.held, b""
        return passed

    def end_answer(self, left: bytes, now: float) -> bytes:
        """What goes to the controller at the end of an answer, of which this is left to pass on."""
        line = shown(self.answer)
        if self.is_greeted and self.version == THIRD and EVENT.fullmatch(line):
            self.tell(">", line)  # it answers nothing
            return left + b"\n"
        if self.asked != HEAR or line != NONE:
            self.tell(">", line)
            self.judge(line)
        elif self.version != THIRD and (press := self.next_press(now)):  # of a `none` nothing was passed on yet
            left = self.say_press(press)
        if not self.waits_for_greeting():
            self.asked = ""
        return left + b"\n"

    def waits_for_greeting(self) -> bool:
        return not self.is_greeted and answer_to_greeting(self.asked) is not None

    def judge(self, line: str) -> None:
        """Whether an answer is one, as the controller judges it."""
        greeted = answer_to_greeting(self.asked)
        if greeted is not None:
            if line == greeted:  # else it is an answer of before, which the controller passes over
                self.is_greeted, self.version = True, version_of(line)
                self.tell("=", GREETED)
        elif self.is_greeted and not is_answer(self.asked, line):
            self.is_greeted = False
            self.tell("=", f"the interface said {line!r}")

    # Events by hand.

    def press(self, number: str, frame: int, now: float) -> None:
        """Puts an event in, which `pass_presses` or the next idle `hear` gets; or drops it, where nobody hears."""
        if self.is_greeted and len(self.presses) < MOST_PRESSES:
            self.presses.append(Press(number, frame, now + PRESS_SECONDS))
        else:
            self.tell("-", f"{number} {frame:06X}")

    def pass_presses(self, now: float) -> bytes:
        """What goes to the controller now of what was put in: in version 3 all of it, where no line is half said."""
        passed = b""
        while self.is_greeted and self.version == THIRD and not self.answer and (press := self.next_press(now)):
            passed += self.say_press(press) + b"\n"
        return passed

    def say_press(self, press: Press) -> bytes:
        self.tell("+", f"{press.number} {press.frame:06X}")
        return event_line(press.frame).encode("ascii")

    def next_press(self, now: float) -> Optional[Press]:
        self.drop_old(now)
        return self.presses.popleft() if self.presses else None

    def drop_old(self, now: float) -> None:
        """Drops the events that waited for too long."""
        while self.presses and self.presses[0].until < now:
            self.drop_press(self.presses.popleft())

    def drop_presses(self) -> None:
        while self.presses:
            self.drop_press(self.presses.popleft())

    def drop_press(self, press: Press) -> None:
        self.tell("-", f"{press.number} {press.frame:06X}")

    # What the line is like.

    def waits(self, now: float) -> float:
        """For how many seconds a request waits for its answer; 0 where none does."""
        return now - self.asked_at if self.asked else 0.0

    def count_requests(self) -> int:
        """The number of requests since it was asked last."""
        count, self.requests = self.requests, 0
        return count


def is_answer(request: str, line: str) -> bool:
    """Whether a line answers a request that is no greeting (docs/LINES.md, 'Requests and answers')."""
    if request == HEAR:
        return bool(EVENT.fullmatch(line))
    return not request.startswith("send ") or bool(BACKWARD.fullmatch(line))


def shown(line: bytes) -> str:
    """A line as text, whatever its bytes are."""
    return line.decode("ascii", "backslashreplace")
