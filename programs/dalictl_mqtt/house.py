"""What passes on the lines of a house, and what its status says, as messages."""

from __future__ import annotations

import json
import os
from typing import Dict, List, Optional, Set, Tuple, Union

from dalictl_page.beside import read_status
from dalictl_page.channel import Sight
from dalictl_page.names import Names, Place
from dalictl_page.state import UP, Building, Lamp
from dalictl_page.words import Source, source_of
from gushewa_line.controller import EVENT
from gushewa_line.program import report

from .broker import Broker
from .discovery import Announced, source_topic
from .topics import address_topic, state_message

MOST_VALUES = 2000
MOST_BYTES = 4_000_000  # of a status


class House:
    """The buses whose lines are seen. Each change is said."""

    def __init__(self, names: Names, buses: int, broker: Broker, announced: Announced, patience: float = 1.0) -> None:
        self.names, self.broker, self.announced = names, broker, announced
        self.building = Building(names, buses, patience)
        self.lamps: Dict[Place, str] = {}
        self.shown: Set[Union[Place, Source]] = set()
        for bus in range(buses):
            announced.bus(bus, names.buses.get(bus, f"Bus {bus}"))
            self.say_bus(bus)
        for place in sorted(names.lamps):
            self.show_lamp(place)
        for source in sorted(names.sources):
            self.show_source(source)

    def see(self, sight: Sight) -> None:
        """Takes what was seen on a line, and says what it changed."""
        self.building.note(sight)
        self.say_bus(sight.bus)
        if sight.way != ">":
            return
        event = EVENT.fullmatch(sight.text)
        if event:
            self.say_event(sight.bus, int(event[1], 16))
            return
        for place, lamp in self.building.lamps.items():
            if place[0] == sight.bus:
                self.say_lamp(place, lamp)

    def say_bus(self, bus: int) -> None:
        state = self.building.buses[bus]
        self.broker.say(f"bus/{bus}", json.dumps({"state": state.state, "why": state.why}))

    def say_lamp(self, place: Place, lamp: Lamp) -> None:
        if lamp.sent is None and lamp.level() is None:
            return
        level = lamp.sent.level if lamp.sent and not lamp.later else lamp.level()
        more = {"answered": lamp.level()} if lamp.answer else {}
        message = state_message(level, **more)
        if self.lamps.get(place) != message:
            self.lamps[place] = message
            self.show_lamp(place)
            self.broker.say(f"bus/{place[0]}/lamp/{address_topic(place[1])}", message)

    def say_event(self, bus: int, frame: int) -> None:
        found = source_of(bus, frame)
        if found and found[0] in self.building.sources:  # which has a bound
            self.show_source(found[0])
            self.broker.say_once(source_topic(found[0]), str(found[1]))

    def show_lamp(self, place: Place) -> None:
        if place not in self.shown:
            self.shown.add(place)
            self.announced.level(place, self.names.lamp(place))

    def show_source(self, source: Source) -> None:
        if source not in self.shown:
            self.shown.add(source)
            self.announced.source(source, self.names)

    def is_up(self) -> bool:
        """Whether the controller is at a line."""
        return any(bus.state == UP for bus in self.building.buses)


class Values:
    """The values of a status, which the building writes each second with --json."""

    def __init__(self, path: str, broker: Broker, announced: Announced) -> None:
        self.path, self.broker, self.announced = path, broker, announced
        self.written: Tuple[int, int] = (0, 0)
        self.shown: Set[str] = set()
        self.why = ""

    def look(self) -> None:
        """Says what changed since the last look."""
        try:
            there = os.stat(self.path)
            if (there.st_mtime_ns, there.st_ino) == self.written:
                return
            self.written = (there.st_mtime_ns, there.st_ino)
            with open(self.path, encoding="utf-8") as file:
                values = read_status(file.read(MOST_BYTES)).values
            self.why = ""
        except (OSError, ValueError) as error:
            self.complain(f"{self.path}: {getattr(error, 'strerror', None) or error}")
            return
        for name in list(values)[:MOST_VALUES]:
            value = values[name]
            if name not in self.shown:
                self.shown.add(name)
                self.announced.value(name, value)
            self.broker.say(f"value/{name}", spoken(value))

    def complain(self, why: str) -> None:
        """Reports why a status is not read, once."""
        if why != self.why:
            report(why)
        self.why = why


def spoken(value: Union[bool, int]) -> str:
    return {True: "ON", False: "OFF"}[value] if isinstance(value, bool) else str(value)


def read_names(text: Optional[str], binding: Optional[str], table: Optional[str]) -> Names:
    """The names that these files give. Raises OSError, or ValueError."""
    names = Names()
    readers = ((binding, names.read_binding), (text, names.read_text), (table, names.read_table))
    for path, read in readers:
        if path:
            with open(path, encoding="utf-8") as file:
                read(file.read())
    return names


def lines_of(words: List[str]) -> List[str]:
    """The interface of each bus, of words B=PATH. Raises ValueError."""
    found: Dict[int, str] = {}
    for word in words:
        bus, _, path = word.partition("=")
        if not bus.isascii() or not bus.isdecimal() or not path or int(bus) in found:
            raise ValueError(f"--line {word}: it is B=PATH, once for each bus")
        found[int(bus)] = path
    if sorted(found) != list(range(len(found))):
        raise ValueError("each bus from 0 on needs a --line B=PATH")
    return [found[bus] for bus in sorted(found)]
