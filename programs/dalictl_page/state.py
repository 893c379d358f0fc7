"""What is known of a building by what passes on its lines.

`Building.note` takes each sight of a line, and `view` shows what came of it. Nothing is asked of a
bus here: a level that was answered is one that the text, or `probe`, asked for.
"""

from __future__ import annotations

import collections
import re
from typing import Deque, Dict, List, NamedTuple, Optional, Tuple

from gushewa_line.gateway import address_of
from gushewa_line.line import LOST, byte_of
from gushewa_line.numbers import ALL, FIRST_GROUP, MASK, QUERY_ACTUAL_LEVEL

from .channel import Sight
from .names import Names, Place
from .relay import GREETED, OPEN
from .words import Sent, Source, sent_by, source_of

UP, DOWN = "up", "down"
FRAME = re.compile(r"send [1-5] ([0-9A-F]{4}|[0-9A-F]{6})")
EVENT = re.compile(r"event ([0-9A-Fa-f]{6})")
MINUTES = 60
# The building is taken for ended where nobody asked a line for so many seconds, and for longer than two patiences.
UNASKED_SECONDS = 5
# More sources than these are not shown: an interface may say whatever it likes.
MOST_SOURCES, MOST_NOTES = 1024, 40
NOBODY_ASKS = "nobody asks: the building is not running on this line"
REASONS = {OPEN: "no controller has greeted yet", GREETED: "the interface greeted"}


class LastHour:
    """How often something happened in the last sixty minutes."""

    def __init__(self) -> None:
        self.minutes: Deque[Tuple[int, int]] = collections.deque()

    def add(self, at: float) -> None:
        minute = int(at // 60)
        count = self.minutes.pop()[1] if self.minutes and self.minutes[-1][0] == minute else 0
        self.minutes.append((minute, count + 1))
        self.count(at)

    def count(self, at: float) -> int:
        while self.minutes and self.minutes[0][0] <= int(at // 60) - MINUTES:
            self.minutes.popleft()
        return sum(count for _, count in self.minutes)


class Bus:
    """One bus: up or down, since when and why; and what was counted there."""

    def __init__(self) -> None:
        self.state, self.why, self.since = DOWN, REASONS[OPEN], 0.0
        self.sent, self.heard, self.lost = 0, 0, LastHour()
        self.unasked, self.is_greeted = 0, False
        self.frame = ""  # the frame that waits for its answer

    def become(self, state: str, why: str, at: float) -> None:
        if (state, why) != (self.state, self.why) or not self.since:
            self.state, self.why, self.since = state, why, at


class Said(NamedTuple):
    """What a source said last."""

    information: int
    at: float
    is_by_hand: bool


class Lamp:
    """What was sent to an address, and what was answered there."""

    def __init__(self) -> None:
        self.sent: Optional[Sent] = None
        self.sent_at = 0.0
        self.by_all = False  # whether it was sent to all gear
        self.later = ""  # what was sent to a group since then: this lamp may be in it
        self.answer: str = ""  # `answer 200`, `quiet` or `damaged`
        self.answer_at = 0.0

    def send(self, sent: Sent, at: float, by_all: bool) -> None:
        self.sent, self.sent_at, self.by_all, self.later = sent, at, by_all, ""

    def level(self) -> Optional[int]:
        """The level that was answered last."""
        return byte_of(self.answer)

    def differs(self) -> bool:
        """Whether it was asked since a level was sent, and answered another one, or not at all."""
        if not self.answer or self.answer_at < self.sent_at:
            return False
        level = self.level()
        if level is None or level == MASK:
            return True
        return self.sent is not None and self.sent.level not in (None, level) and not self.later


class Note(NamedTuple):
    """A line of the page's own log."""

    at: float
    words: str
    is_trouble: bool


class Building:
    """All buses, lamps and sources, and the page's own log."""

    def __init__(self, names: Names, buses: int, patience: float = 1.0) -> None:
        self.names, self.patience = names, patience
        # An idle line of version 3 is asked once each patience.
        self.most_unasked = max(UNASKED_SECONDS, int(2 * patience) + 1)
        self.buses = [Bus() for _ in range(buses)]
        self.lamps: Dict[Place, Lamp] = {place: Lamp() for place in names.lamps if place[0] < buses}
        self.sources: Dict[Source, Optional[Said]] = {it: None for it in names.sources if it.bus < buses}
        self.notes: Deque[Note] = collections.deque(maxlen=MOST_NOTES)
        self.missed = 0  # sources for which there was no room

    def note(self, sight: Sight) -> None:
        """Takes what was seen on a line."""
        bus = self.buses[sight.bus]
        if sight.way == "=":
            self.note_line(sight, bus)
        elif sight.way == "~":
            self.note_second(sight, bus)
        elif sight.way == "<":
            found = FRAME.fullmatch(sight.text)
            bus.frame = found[1] if found else ""
        elif sight.way == ">":
            self.note_answer(sight, bus)
        elif sight.way == "+":
            self.note_event(sight, int(sight.text.split(" ")[1], 16), True)

    def remark(self, at: float, words: str, is_trouble: bool = False) -> None:
        self.notes.append(Note(at, words, is_trouble))

    # What a line is like.

    def note_line(self, sight: Sight, bus: Bus) -> None:
        bus.is_greeted = sight.text == GREETED
        bus.frame, bus.unasked = "", 0
        self.turn(sight, UP if bus.is_greeted else DOWN, REASONS.get(sight.text, sight.text))

    def note_second(self, sight: Sight, bus: Bus) -> None:
        """A line is down where an answer does not come within the patience, or where nobody asks."""
        requests, waits = (int(word) for word in sight.text.split(" "))
        bus.unasked = 0 if requests or waits else bus.unasked + 1
        if not bus.is_greeted:
            return
        if waits >= 1000 * self.patience:
            bus.is_greeted = False
            self.turn(sight, DOWN, f"silent for {self.patience:g} s")
        elif bus.unasked >= self.most_unasked:
            self.turn(sight, DOWN, NOBODY_ASKS)
        elif bus.why == NOBODY_ASKS and requests:
            self.turn(sight, UP, "the controller asks again")

    def turn(self, sight: Sight, state: str, why: str) -> None:
        bus = self.buses[sight.bus]
        if state != bus.state and bus.since:
            is_down = state == DOWN
            self.remark(sight.at, f"bus {sight.bus} {state}: {why}", is_down)
        bus.become(state, why, sight.at)

    # Frames.

    def note_answer(self, sight: Sight, bus: Bus) -> None:
        event = EVENT.fullmatch(sight.text)
        if event:
            bus.heard += 1
            self.note_event(sight, int(event[1], 16), False)
            return  # in version 3 a frame may be under way, and its answer comes later
        if bus.frame:
            bus.sent += 1
            if sight.text == LOST:
                bus.lost.add(sight.at)
            elif len(bus.frame) == 4:
                self.note_frame(sight, int(bus.frame, 16))
        bus.frame = ""

    def note_event(self, sight: Sight, frame: int, is_by_hand: bool) -> None:
        found = source_of(sight.bus, frame)
        if not found:
            return
        source, information = found
        if source not in self.sources and len(self.sources) >= MOST_SOURCES:
            self.missed += 1
            return
        self.sources[source] = Said(information, sight.at, is_by_hand)

    def note_frame(self, sight: Sight, frame: int) -> None:
        """A frame that was sent, with what came in answer."""
        address = address_of(frame >> 8)
        if address is None:
            return
        sent = sent_by(frame)
        if sent:
            self.note_sent(sight, address, sent)
        elif address < FIRST_GROUP and frame & 0x1FF == 0x100 | QUERY_ACTUAL_LEVEL:
            lamp = self.lamp(sight.bus, address)
            lamp.answer, lamp.answer_at = sight.text, sight.at

    def note_sent(self, sight: Sight, address: int, sent: Sent) -> None:
        """A level went out to an address: to all gear it is one of each lamp, and to a group of some."""
        self.lamp(sight.bus, address).send(sent, sight.at, False)
        if address < FIRST_GROUP:
            return
        for (bus, other), lamp in self.lamps.items():
            if bus == sight.bus and other < FIRST_GROUP:
                if address == ALL:
                    lamp.send(sent, sight.at, True)
                elif lamp.sent:
                    lamp.later = f"group {address - FIRST_GROUP} was sent {sent.words} since then"

    def lamp(self, bus: int, address: int) -> Lamp:
        return self.lamps.setdefault((bus, address), Lamp())

    # What may be put in by hand.

    def source(self, key: str) -> Optional[Source]:
        """The source that is shown under a key."""
        found: List[Source] = [source for source in self.sources if source.key() == key]
        return found[0] if found else None
