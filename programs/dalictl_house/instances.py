"""The instances of control devices: buttons and sensors, asked and set (IEC 62386-103, 301, 303, 304)."""

from __future__ import annotations

from typing import Dict, Iterator, Optional

from dalictl_house.device_codes import DEVICE, SCHEMES, TYPES, InstanceType, OwnNumber, code
from dalictl_house.device_wire import DeviceWire
from dalictl_house.settings import show
from dalictl_house.values import Bits, Choice, Value
from gushewa_line.line import QUIET
from searching import DTRS, Refused

FILTERS = ("QUERY EVENT FILTER 0 TO 7", "QUERY EVENT FILTER 8 TO 15", "QUERY EVENT FILTER 16 TO 23")


def values_of(kind: Optional[InstanceType]) -> Dict[str, Value]:
    """What can be set of instances of a type; None is any type that has no settings of its own here."""
    values: Dict[str, Value] = {"scheme": SCHEMES, "enabled": Choice({"no": 0, "yes": 1})}
    if kind:
        values["events"] = kind.events
    values["filter"] = Bits(24)
    if kind:
        values.update((it.word, it.value) for it in kind.numbers)
    return values


class Instance:
    """One instance of a device."""

    def __init__(self, wire: DeviceWire, device: int, number: int, type_number: int) -> None:
        self.wire, self.device, self.number, self.type_number = wire, device, number, type_number
        self.kind = TYPES.get(type_number)
        self.values = values_of(self.kind)

    @staticmethod
    def asked(wire: DeviceWire, device: int, number: int) -> Instance:
        """The instance, with the type that it says. Raises Refused where it does not."""
        kind = wire.number(wire.frame(device, number, code("QUERY INSTANCE TYPE")))
        if kind is None:
            raise Refused(f"device {device} instance {number} does not say which type it is")
        return Instance(wire, device, number, kind)

    def words(self) -> str:
        """What it is, and what it is set to."""
        name = f", {self.kind.name}" if self.kind else ""
        shown = [word for word in self.values if word != "filter" or not self.kind]
        settings = " ".join(show(self, word, self.read(word)) for word in shown)
        return f"instance {self.number} (type {self.type_number}{name}): {settings}"

    def own(self, word: str) -> Optional[OwnNumber]:
        """A number that its type alone has."""
        return next((it for it in self.kind.numbers if it.word == word), None) if self.kind else None

    def ask(self, query: int) -> Optional[int]:
        return self.wire.number(self.wire.frame(self.device, self.number, query))

    def read(self, word: str) -> Optional[int]:
        own = self.own(word)
        if own:
            return self.ask(own.query.code)
        if word == "scheme":
            return self.ask(code("QUERY EVENT SCHEME"))
        if word == "enabled":
            query = self.wire.frame(self.device, self.number, code("QUERY INSTANCE ENABLED"))
            return int(self.wire.transaction(query) != QUIET)
        if word == "events" and self.kind:
            low = self.ask(code(FILTERS[0]))
            return None if low is None else low & self.kind.events.mask()
        return self.read_filter()

    def read_filter(self) -> Optional[int]:
        """The event filter. Its bits from 8 on are 0 where nothing is answered."""
        low, middle, high = (self.ask(code(query)) for query in FILTERS)
        return None if low is None else (high or 0) << 16 | (middle or 0) << 8 | low

    def send(self, word: str, number: int) -> None:
        own = self.own(word)
        if own:
            self.send_twice(own.command.code, number)
        elif word == "scheme":
            self.send_twice(code("SET EVENT SCHEME"), number)
        elif word == "enabled":
            self.send_twice(code("ENABLE INSTANCE" if number else "DISABLE INSTANCE"))
        else:
            self.send_twice(code("SET EVENT FILTER"), *(number >> shift & 0xFF for shift in (0, 8, 16)))

    def send_twice(self, command: int, *data: int) -> None:
        """A command that comes twice, with its data in DTR0 and behind."""
        registers = [self.wire.special_frame(register, byte) for register, byte in zip(DTRS, data)]
        frame = self.wire.frame(self.device, self.number, command)
        self.wire.transaction(*registers, frame, frame)


def instances_of(wire: DeviceWire, device: int) -> Iterator[Instance]:
    """The instances of a device, each once it has said its type."""
    count = wire.number(wire.frame(device, DEVICE, code("QUERY NUMBER OF INSTANCES"))) or 0
    for number in range(min(count, 32)):
        yield Instance.asked(wire, device, number)
