"""Simulated control gear: what IEC 62386-102 says of levels, groups, scenes and settings.

The gear of one bus is `AllGear`. Each `Gear` knows

- a direct level, OFF, RECALL MAX LEVEL, RECALL MIN LEVEL, GO TO LAST ACTIVE LEVEL and GO TO SCENE,
  and fades by its fade time;
- DTR0 to DTR2, and what is set by them: POWER ON LEVEL, SYSTEM FAILURE LEVEL, MIN LEVEL, MAX LEVEL,
  FADE TIME, FADE RATE, SET SCENE, SET SHORT ADDRESS; ADD TO GROUP, REMOVE FROM GROUP, REMOVE FROM
  SCENE, RESET. All these have to come twice;
- the search for addresses (addresses.py);
- the queries of `number_of` and `is_so`.

It has no lamp failure, no memory banks and no commands of a device type, and always has power.
"""

from __future__ import annotations

import time
from typing import Callable, Dict, Optional, Sequence, Set

from addresses import MASK, YES, Addresses, Pairs, answer_of

TWICE = range(0x20, 0x82)
GO_TO_SCENE, SET_SCENE, REMOVE_FROM_SCENE, QUERY_SCENE_LEVEL = 0x10, 0x40, 0x50, 0xB0
ADD_TO_GROUP, REMOVE_FROM_GROUP = 0x60, 0x70
SET_DTR = (0xA3, 0xC3, 0xC5)
# Which variable a command sets from DTR0.
SETTINGS = {
    0x2C: "system_failure_level",
    0x2D: "power_on_level",
    0x2E: "fade_time",
    0x2F: "fade_rate",
}
LAMP_ON, FADE_RUNNING, MISSING_SHORT_ADDRESS = 0x04, 0x10, 0x40


class Gear:
    """One control gear."""

    def __init__(self, short: Optional[int], types: Sequence[int], chance: Callable[[], int]) -> None:
        self.addresses, self.types = Addresses(short, chance), types
        self.dtr = [0, 0, 0]
        self.types_given = 0
        self.begun, self.before, self.target, self.last_active = 0.0, 254, 254, 254
        self.groups: Set[int] = set()
        self.set_all()

    def set_all(self) -> None:
        """Gives each setting its reset value; the short address stays."""
        self.max_level, self.min_level = 254, 1
        self.power_on_level, self.system_failure_level = 254, 254
        self.fade_time, self.fade_rate = 0, 7
        self.groups.clear()
        self.scenes = [MASK] * 16
        self.addresses.reset()

    # Levels.

    def level(self) -> int:
        """The level now, on its way from the one before to the one that was asked for."""
        return round(self.before + (self.target - self.before) * self.faded())

    def faded(self) -> float:
        """How much of the fade is over, 0 to 1. FADE TIME n is 2^(n/2)/2 seconds; 0 is no fade."""
        if self.fade_time == 0 or self.begun == 0.0:
            return 1.0
        return min(1.0, (time.monotonic() - self.begun) / (2 ** (self.fade_time / 2) / 2))

    def go_to(self, level: int, fades: bool) -> None:
        """Goes to this level, within its limits. MASK ends a fade where it is."""
        now = self.level()
        limited = level and max(self.min_level, min(self.max_level, level))
        self.before, self.target = now, now if level == MASK else limited
        self.begun = time.monotonic() if fades and level != MASK else 0.0
        self.last_active = self.target or self.last_active

    # Frames.

    def hears(self, byte: int) -> bool:
        """Whether the first byte of a frame speaks to this gear: by address, group, or to all."""
        if byte < 0x80:
            return self.addresses.short == byte >> 1
        if byte < 0xA0:
            return byte >> 1 & 15 in self.groups
        return byte >= 0xFE or byte >= 0xFC and self.addresses.short is None

    def obey(self, frame: int, is_pair: bool) -> Optional[int]:
        """Does what a frame says, which may be the second of a pair. Returns its answer, if any."""
        first, second = frame >> 8, frame & 0xFF
        if first in SET_DTR:
            self.dtr[SET_DTR.index(first)] = second
        elif 0xA0 <= first < 0xFC:
            return self.addresses.obey(first, second, is_pair)
        elif self.hears(first):
            return self.obey_own(second, first & 1 == 0, is_pair)
        return None

    def obey_own(self, opcode: int, is_level: bool, is_pair: bool) -> Optional[int]:
        """Goes to a direct level, or obeys a command."""
        if is_level:
            self.go_to(opcode, fades=True)
        elif opcode < 0x20:
            self.change_level(opcode)
        elif opcode in TWICE:
            if is_pair:
                self.configure(opcode)
        elif self.is_so(opcode):
            return YES
        else:
            return self.number_of(opcode)
        return None

    def change_level(self, opcode: int) -> None:
        levels = {0x00: 0, 0x05: self.max_level, 0x06: self.min_level}
        if opcode in levels:
            self.go_to(levels[opcode], fades=False)
        elif opcode == 0x0A:
            self.go_to(self.last_active, fades=True)
        elif opcode >= GO_TO_SCENE and self.scenes[opcode & 15] != MASK:
            self.go_to(self.scenes[opcode & 15], fades=True)

    def configure(self, opcode: int) -> None:
        """Obeys a command that came twice."""
        value, kind, number = self.dtr[0], opcode & 0xF0, opcode & 15
        if opcode == 0x20:
            self.set_all()
            self.go_to(254, fades=False)
        elif opcode == 0x21:
            self.dtr[0] = self.level()
        elif opcode == 0x2A:
            self.max_level = max(self.min_level, min(value, 254))
        elif opcode == 0x2B:
            self.min_level = max(1, min(value, self.max_level))
        elif opcode in SETTINGS:
            setattr(self, SETTINGS[opcode], min(value, 15) if opcode > 0x2D else value)
        elif opcode == 0x80:
            self.addresses.set_short(value)
        elif kind in (SET_SCENE, REMOVE_FROM_SCENE):
            self.scenes[number] = value if kind == SET_SCENE else MASK
        elif kind == ADD_TO_GROUP:
            self.groups.add(number)
        elif kind == REMOVE_FROM_GROUP:
            self.groups.discard(number)

    # Queries.

    def is_so(self, query: int) -> bool:
        """Whether a query is answered YES: gear is there, lamp is on, short address is missing."""
        is_on, is_missing = self.level() > 0, self.addresses.short is None
        return query == 0x91 or query == 0x93 and is_on or query == 0x96 and is_missing

    def number_of(self, query: int) -> Optional[int]:
        """The number that answers a query, or None where the query asks for none."""
        if query == 0x99:
            return self.first_type()
        if query == 0xA7:
            return self.next_type()
        if query & 0xF0 == QUERY_SCENE_LEVEL:
            return self.scenes[query & 15]
        groups = sum(1 << group for group in self.groups)
        numbers: Dict[int, int] = {
            0x90: self.status(),
            0x97: 8,  # version 2.0
            0x98: self.dtr[0],
            0x9A: 1,
            0x9C: self.dtr[1],
            0x9D: self.dtr[2],
            0xA0: self.level(),
            0xA1: self.max_level,
            0xA2: self.min_level,
            0xA3: self.power_on_level,
            0xA4: self.system_failure_level,
            0xA5: self.fade_time << 4 | self.fade_rate,
            0xC0: groups & 0xFF,
            0xC1: groups >> 8,
            0xC2: self.addresses.random >> 16,
            0xC3: self.addresses.random >> 8 & 0xFF,
            0xC4: self.addresses.random & 0xFF,
        }
        return numbers.get(query)

    def status(self) -> int:
        status = LAMP_ON if self.level() else 0
        if self.faded() < 1.0 and self.before != self.target:
            status |= FADE_RUNNING
        return status | (MISSING_SHORT_ADDRESS if self.addresses.short is None else 0)

    def first_type(self) -> int:
        """The device type: 254 where there is none, and MASK where there are several."""
        self.types_given = 0
        return MASK if len(self.types) > 1 else self.types[0] if self.types else 254

    def next_type(self) -> Optional[int]:
        """The next of several device types, and 254 behind the last one."""
        left = self.types[self.types_given :] if len(self.types) > 1 else []
        self.types_given += 1
        if len(self.types) < 2 or self.types_given > len(self.types) + 1:
            return None
        return left[0] if left else 254


class AllGear:
    """The gear of one bus, and the frame that came before."""

    def __init__(self, gear: Sequence[Gear], has_bus_time: bool) -> None:
        self.gear, self.pairs = gear, Pairs(has_bus_time)

    def send(self, frame: int) -> str:
        """What comes in answer to a 16-bit frame."""
        is_pair = self.pairs.is_second(frame)
        given = [gear.obey(frame, is_pair) for gear in self.gear]
        return answer_of([number for number in given if number is not None])
