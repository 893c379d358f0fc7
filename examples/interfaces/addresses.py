"""The addresses of gear or of a control device, and the search by which it gets a short one.

That of gear is in IEC 62386-102. IEC 62386-103 has the same search for control devices, by frames
of 24 bits: `DeviceAddresses`.

INITIALISE and RANDOMISE have to come twice. SEARCHADDRH, SEARCHADDRM and SEARCHADDRL set the search
address. COMPARE asks whether the random address is at most that; gear whose random address is just
that obeys WITHDRAW and PROGRAM SHORT ADDRESS, and answers QUERY SHORT ADDRESS. VERIFY SHORT ADDRESS
asks whether the short address is this one. TERMINATE ends the search, and so do 15 minutes.
"""

from __future__ import annotations

import enum
import random
import time
from typing import Callable, List, Optional, Sequence

from gushewa_line.line import DAMAGED, QUIET, answer

YES, MASK = 255, 255
INITIALISE, RANDOMISE, TERMINATE = 0xA5, 0xA7, 0xA1
COMPARE, WITHDRAW = 0xA9, 0xAB
SEARCH_ADDRESS = (0xB1, 0xB3, 0xB5)
PROGRAM_SHORT_ADDRESS, VERIFY_SHORT_ADDRESS, QUERY_SHORT_ADDRESS = 0xB7, 0xB9, 0xBB
INITIALISED_SECONDS = 15 * 60.0
PAIR_SECONDS = 0.1
# The commands of gear, by the numbers that they have for control devices.
OF_DEVICES = (
    TERMINATE,
    INITIALISE,
    RANDOMISE,
    COMPARE,
    WITHDRAW,
    *SEARCH_ADDRESS,
    PROGRAM_SHORT_ADDRESS,
    VERIFY_SHORT_ADDRESS,
    QUERY_SHORT_ADDRESS,
)
ALL_DEVICES, WITHOUT_ADDRESS = 0xFF, 0x7F  # behind INITIALISE
NO_ADDRESS = 0x80  # is none of gear, and takes none away


class State(enum.Enum):
    """Whether gear takes part in the search."""

    DISABLED, ENABLED, WITHDRAWN = range(3)


class Addresses:
    """A short address, or none; a random one; and what is searched for."""

    def __init__(self, short: Optional[int], chance: Callable[[], int]) -> None:
        self.short, self.chance = short, chance
        self.random = self.searched = 0xFFFFFF
        self.state, self.state_ends = State.DISABLED, 0.0

    def reset(self) -> None:
        """Sets the random and the search address to their reset values."""
        self.random = self.searched = 0xFFFFFF

    def obey(self, command: int, data: int, is_pair: bool) -> Optional[int]:
        """Obeys a command of the search. Returns its answer, if it has one."""
        if command == INITIALISE and is_pair and self.is_initialised_by(data):
            self.state, self.state_ends = State.ENABLED, time.monotonic() + INITIALISED_SECONDS
        elif command == TERMINATE or time.monotonic() >= self.state_ends:
            self.state = State.DISABLED
        elif self.state is not State.DISABLED:
            return self.search(command, data, is_pair)
        return None

    def is_initialised_by(self, which: int) -> bool:
        """0 is all gear, MASK all without a short address, 0AAAAAA1 the one with this one."""
        return which == 0 or self.short == short_in(which)

    def search(self, command: int, data: int, is_pair: bool) -> Optional[int]:
        """What gear does that was initialised."""
        is_meant = self.random == self.searched
        if command in SEARCH_ADDRESS:
            place = 8 * (2 - SEARCH_ADDRESS.index(command))
            self.searched = self.searched & ~(0xFF << place) | data << place
        elif command == RANDOMISE and is_pair:
            self.random = self.chance()
        elif command == COMPARE:
            return yes_where(self.state is State.ENABLED and self.random <= self.searched)
        elif command == WITHDRAW and is_meant:
            self.state = State.WITHDRAWN
        elif command == PROGRAM_SHORT_ADDRESS and is_meant:
            self.set_short(data)
        elif command == VERIFY_SHORT_ADDRESS:
            return yes_where(self.short is not None and self.short == short_in(data))
        elif command == QUERY_SHORT_ADDRESS and is_meant:
            return MASK if self.short is None else self.short << 1 | 1
        return None

    def set_short(self, data: int) -> None:
        """0AAAAAA1 gives a short address, and MASK takes it away. Others say nothing."""
        if data == MASK or data & 0x81 == 1:
            self.short = short_in(data)


class DeviceAddresses(Addresses):
    """Those of a control device, whose short addresses are 00AAAAAA, with no mark behind them."""

    def obey_device(self, command: int, data: int, is_pair: bool) -> Optional[int]:
        """Obeys a command of the search by its number for control devices."""
        if command >= len(OF_DEVICES):
            return None
        of_gear = OF_DEVICES[command]
        if of_gear == INITIALISE and data in (ALL_DEVICES, WITHOUT_ADDRESS):
            data = 0 if data == ALL_DEVICES else MASK
        elif of_gear in (INITIALISE, PROGRAM_SHORT_ADDRESS, VERIFY_SHORT_ADDRESS):
            data = marked(data)
        came = self.obey(of_gear, data, is_pair)
        if of_gear != QUERY_SHORT_ADDRESS or came is None or came == MASK:
            return came
        return came >> 1

    def set_short_of_device(self, data: int) -> None:
        """00AAAAAA gives a short address, and MASK takes it away. Others say nothing."""
        self.set_short(marked(data))


def marked(data: int) -> int:
    """A short address of a control device as gear has it."""
    return MASK if data == MASK else data << 1 | 1 if data < 64 else NO_ADDRESS


class Pairs:
    """Whether a frame is the second of two equal ones."""

    def __init__(self, has_bus_time: bool) -> None:
        self.has_bus_time = has_bus_time
        self.before, self.came = -1, 0.0

    def is_second(self, frame: int) -> bool:
        """Whether it is; where frames take time, it has to come within 100 ms."""
        now = time.monotonic()
        is_late = self.has_bus_time and now - self.came > PAIR_SECONDS
        is_pair = frame == self.before and not is_late
        self.before, self.came = -1 if is_pair else frame, now
        return is_pair

    def break_off(self) -> None:
        """A frame was lost, and nobody knows what it was."""
        self.before = -1


def answer_of(numbers: Sequence[int]) -> str:
    """What comes of several answers at once: more than one is damaged."""
    if len(numbers) > 1:
        return DAMAGED
    return answer(numbers[0]) if numbers else QUIET


def yes_where(holds: bool) -> Optional[int]:
    """YES, or no answer."""
    return YES if holds else None


def short_in(data: int) -> Optional[int]:
    """The short address that 0AAAAAA1 says; None for MASK; for others no address that is one."""
    return None if data == MASK else data >> 1 if data & 0x81 == 1 else -1


def random_addresses(wanted: Sequence[int], seed: Optional[int]) -> Callable[[], int]:
    """What RANDOMISE gives one gear after another: those that are wanted, and then by chance."""
    source = random.Random(seed)
    left: List[int] = list(wanted)
    return lambda: left.pop(0) if left else source.randrange(0xFFFFFF)
