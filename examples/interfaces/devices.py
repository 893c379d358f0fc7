"""Simulated control devices: their addresses, and instances that are set (IEC 62386-103).

The devices of one bus are `AllDevices`. Each `Device` knows

- the search for addresses by 24-bit frames (addresses.py), SET SHORT ADDRESS, RESET;
- DTR0 to DTR2, and what is set by them for an instance: the event scheme, the event filter, the
  groups of the instance; ENABLE INSTANCE and DISABLE INSTANCE;
- what push buttons (part 301), occupancy sensors (part 303) and light sensors (part 304) are set to
  by DTR0: the rows of `NUMBERS`;
- the queries of these, of its status, of its random address, and of its number of instances.

What is set has to come twice. It has no memory banks, and sends no events by itself.
"""

from __future__ import annotations

from typing import Callable, Dict, List, NamedTuple, Optional, Sequence

from addresses import MASK, YES, DeviceAddresses, Pairs, answer_of

BUTTON, OCCUPANCY, LIGHT = 1, 3, 4
SPECIAL, DEVICE, EVERY_INSTANCE = 0xC1, 0xFE, 0xFF
SPECIAL_DTR = (0x30, 0x31, 0x32)
RESET, SET_SHORT_ADDRESS = 0x10, 0x14
MISSING_SHORT_ADDRESS = 0x04  # in a status
GREATEST_FILTER = 0xFFFFFF


class Number(NamedTuple):
    """A number of an instance: the command that sets it, the query, its reset value, its limits."""

    command: int
    query: int
    at_first: int
    least: int
    greatest: int


NUMBERS: Dict[int, Sequence[Number]] = {
    BUTTON: (
        Number(0x00, 0x0A, 25, 10, 255),
        Number(0x01, 0x0C, 0, 0, 100),
        Number(0x02, 0x0E, 8, 5, 100),
        Number(0x03, 0x0F, 20, 5, 255),
    ),
    OCCUPANCY: (
        Number(0x21, 0x2D, 90, 0, 254),
        Number(0x22, 0x2E, 20, 0, 255),
        Number(0x23, 0x2C, 2, 0, 255),
    ),
    LIGHT: (
        Number(0x30, 0x3E, 30, 0, 255),
        Number(0x31, 0x3F, 5, 0, 25),
        Number(0x32, 0x3D, 30, 0, 255),
        Number(0x33, 0x3C, 10, 0, 255),
    ),
}


class Instance:
    """One button or sensor of a device."""

    def __init__(self, kind: int) -> None:
        self.kind = kind
        self.set_all()

    def set_all(self) -> None:
        """Gives each setting its reset value."""
        self.scheme, self.priority, self.filter = 0, 4, GREATEST_FILTER
        self.is_enabled = True
        self.groups = [MASK, MASK, MASK]
        self.numbers = {it.query: it.at_first for it in NUMBERS.get(self.kind, ())}

    def configure(self, opcode: int, dtr: Sequence[int]) -> None:
        """Obeys a command that came twice."""
        if opcode in (0x62, 0x63):
            self.is_enabled = opcode == 0x62
        elif opcode == 0x61 and 2 <= dtr[0] <= 5:
            self.priority = dtr[0]
        elif 0x64 <= opcode <= 0x66 and (dtr[0] < 32 or dtr[0] == MASK):
            self.groups[opcode - 0x64] = dtr[0]
        elif opcode == 0x67 and dtr[0] <= 4:
            self.scheme = dtr[0]
        elif opcode == 0x68:
            self.filter = dtr[2] << 16 | dtr[1] << 8 | dtr[0]
        for it in NUMBERS.get(self.kind, ()):
            if opcode == it.command:
                self.numbers[it.query] = max(it.least, min(it.greatest, dtr[0]))

    def answer(self, query: int) -> Optional[int]:
        """The number that answers a query, or None."""
        if query == 0x86:
            return YES if self.is_enabled else None
        numbers = {
            0x80: self.kind,
            0x83: 2 if self.is_enabled else 0,
            0x84: self.priority,
            0x88: self.groups[0],
            0x89: self.groups[1],
            0x8A: self.groups[2],
            0x8B: self.scheme,
            0x8C: 0,
            0x90: self.filter & 0xFF,
            0x91: self.filter >> 8 & 0xFF,
            0x92: self.filter >> 16,
            **self.numbers,
        }
        return numbers.get(query)


class Device:
    """One control device."""

    def __init__(self, short: Optional[int], kinds: Sequence[int], chance: Callable[[], int]) -> None:
        self.addresses = DeviceAddresses(short, chance)
        self.instances = [Instance(kind) for kind in kinds]
        self.dtr = [0, 0, 0]

    def hears(self, byte: int) -> bool:
        """Whether the first byte of a frame speaks to this device: by its address, or to all."""
        if byte < 0x80:
            return self.addresses.short == byte >> 1
        return byte == 0xFF or byte == 0xFD and self.addresses.short is None

    def obey(self, frame: int, is_pair: bool) -> List[int]:
        """Does what a frame says, which may be the second of a pair. Returns the answers to it."""
        first, second, third = frame >> 16, frame >> 8 & 0xFF, frame & 0xFF
        if first == SPECIAL:
            return self.obey_special(second, third, is_pair)
        if first & 1 == 0 or not self.hears(first):
            return []  # an event, or for somebody else
        if second == DEVICE:
            return self.obey_device(third, is_pair)
        if is_pair:
            for instance in self.spoken_to(second):
                instance.configure(third, self.dtr)
        answers = [instance.answer(third) for instance in self.spoken_to(second)]
        return [number for number in answers if number is not None]

    def obey_special(self, command: int, data: int, is_pair: bool) -> List[int]:
        if command in SPECIAL_DTR:
            self.dtr[SPECIAL_DTR.index(command)] = data
        came = self.addresses.obey_device(command, data, is_pair)
        return [] if came is None else [came]

    def spoken_to(self, byte: int) -> List[Instance]:
        """The instances that the second byte of a frame speaks to: by number, by type, or all."""
        if byte < 0x20:
            return self.instances[byte : byte + 1]
        if 0xC0 <= byte < 0xE0:
            return [it for it in self.instances if it.kind == byte & 0x1F]
        return self.instances if byte == EVERY_INSTANCE else []

    def obey_device(self, opcode: int, is_pair: bool) -> List[int]:
        """Obeys a command to the device, or answers a query of it."""
        if is_pair and opcode == RESET:
            for instance in self.instances:
                instance.set_all()
            self.addresses.reset()
        elif is_pair and opcode == SET_SHORT_ADDRESS:
            self.addresses.set_short_of_device(self.dtr[0])
        is_missing = self.addresses.short is None
        numbers = {
            0x30: MISSING_SHORT_ADDRESS if is_missing else 0,
            0x34: 8,  # version 2.0
            0x35: len(self.instances),
            0x36: self.dtr[0],
            0x37: self.dtr[1],
            0x38: self.dtr[2],
            0x39: self.addresses.random >> 16,
            0x3A: self.addresses.random >> 8 & 0xFF,
            0x3B: self.addresses.random & 0xFF,
        }
        if is_missing:
            numbers[0x33] = YES
        return [numbers[opcode]] if opcode in numbers else []


class AllDevices:
    """The control devices of one bus, and the frame that came before."""

    def __init__(self, devices: Sequence[Device], has_bus_time: bool) -> None:
        self.devices, self.pairs = devices, Pairs(has_bus_time)

    def send(self, frame: int) -> str:
        """What comes in answer to a 24-bit frame."""
        is_pair = self.pairs.is_second(frame)
        return answer_of([number for device in self.devices for number in device.obey(frame, is_pair)])
