"""What clock.py, mqtt.py and bridge.py share: their events, and a bus of somebody elsewhere.

A level that the controller sends to this bus goes to somebody else, and what somebody else says
comes as an event. So a text names a lamp elsewhere by %QB, and a wish or a button elsewhere by a
source of the binding.

The bus answers as gear does to QUERY STATUS, QUERY CONTROL GEAR PRESENT and QUERY ACTUAL LEVEL, for
each short address to which a level was sent. It knows direct levels, OFF, RECALL MAX LEVEL and
RECALL MIN LEVEL. All other frames do nothing.
"""

from __future__ import annotations

import threading
from typing import Callable, Dict, Optional, Tuple

from gushewa_line.line import QUIET, HearingBus, answer
from gushewa_line.numbers import (
    ADDRESSES,
    ALL,
    FIRST_GROUP,
    INFORMATIONS,
    INSTANCES,
    MASK,
    OFF,
    QUERY_ACTUAL_LEVEL,
    QUERY_CONTROL_GEAR_PRESENT,
    QUERY_STATUS,
    RECALL_MAX_LEVEL,
    RECALL_MIN_LEVEL,
)

LEVELS = {OFF: 0, RECALL_MAX_LEVEL: 254, RECALL_MIN_LEVEL: 1}
LAMP_ON = 0x04


def device_event(address: int, instance: int, information: int) -> int:
    """The 24-bit frame of an event in the scheme 'device and instance' (IEC 62386-103).

    The binding has it as `source B.K device-instance ADDRESS INSTANCE`. Raises ValueError.
    """
    if not 0 <= address < ADDRESSES:
        raise ValueError(f"{address} is no short address")
    if not 0 <= instance < INSTANCES:
        raise ValueError(f"{instance} is no instance number")
    if not 0 <= information < INFORMATIONS:
        raise ValueError(f"{information} is no information of an event")
    return address << 17 | 1 << 15 | instance << 10 | information


def event_source(frame: int) -> Optional[Tuple[int, int]]:
    """The device and the instance of an event in this scheme; None of any other 24-bit frame."""
    is_one = frame >> 16 & 0x81 == 0 and frame >> 15 & 1 == 1
    return (frame >> 17, frame >> 10 & 0x1F) if is_one else None


def address_of(byte: int) -> Optional[int]:
    """The address in a first byte, as a text has it: 0 to 63, 64 to 79 (groups), 80 (all)."""
    if byte < 0x80:
        return byte >> 1
    if byte < 0xA0:
        return FIRST_GROUP + (byte >> 1 & 0x0F)
    return ALL if byte >= 0xFE else None


def name_of(address: int) -> str:
    """The address in words: 5, group 3, or all."""
    if address < FIRST_GROUP:
        return str(address)
    return "all" if address == ALL else f"group {address - FIRST_GROUP}"


class Gateway(HearingBus):
    """A bus that hands each level to `tell(address, level)`. Others add to its `events`."""

    def __init__(self, tell: Callable[[int, int], None]) -> None:
        super().__init__()
        self.tell = tell
        self.lock = threading.Lock()
        self.levels: Dict[int, int] = {}

    def known(self) -> Dict[int, int]:
        """The level that was sent last to each address."""
        with self.lock:
            return dict(self.levels)

    def send(self, bits: int, frame: int, priority: int) -> str:
        address = address_of(frame >> 8) if bits == 16 else None
        if address is None:
            return QUIET
        opcode = frame & 0xFF
        if not frame >> 8 & 1:
            self.set_level(address, opcode)
        elif opcode in LEVELS:
            self.set_level(address, LEVELS[opcode])
        else:
            return self.answer_query(address, opcode)
        return QUIET

    def set_level(self, address: int, level: int) -> None:
        if level != MASK:  # which is no level
            with self.lock:
                self.levels[address] = level
            self.tell(address, level)

    def answer_query(self, address: int, opcode: int) -> str:
        level = self.known().get(address)
        if level is None or address >= FIRST_GROUP:
            return QUIET
        if opcode == QUERY_STATUS:
            return answer(LAMP_ON if level else 0)
        if opcode == QUERY_CONTROL_GEAR_PRESENT:
            return answer(255)
        return answer(level) if opcode == QUERY_ACTUAL_LEVEL else QUIET
