"""Control gear, asked and set: levels, times, scenes and groups (IEC 62386-102)."""

from __future__ import annotations

import time
from typing import Dict, Optional

from dalictl_house.values import Bits, Choice, Number, Value
from gushewa_line.numbers import OFF, QUERY_ACTUAL_LEVEL, RECALL_MAX_LEVEL
from searching import Wire

FADE_SECONDS = "0.7 1 1.4 2 2.8 4 5.7 8 11.3 16 22.6 32 45.3 64 90.5".split()
FADES = Choice({"off": 0, **{f"{seconds}s": code + 1 for code, seconds in enumerate(FADE_SECONDS)}})
SCENES = 16
GROUPS = "groups"  # a bit for each group
# What is set from DTR0: its command, its query.
CODES = {
    "min": (0x2B, 0xA2),
    "max": (0x2A, 0xA1),
    "power-on": (0x2D, 0xA3),
    "failure": (0x2C, 0xA4),
    "fade": (0x2E, 0xA5),
    "rate": (0x2F, 0xA5),
    **{f"scene-{scene}": (0x40 + scene, 0xB0 + scene) for scene in range(SCENES)},
}
ADD_TO_GROUP, REMOVE_FROM_GROUP, QUERY_GROUPS = 0x60, 0x70, 0xC0
BLINKS, HALF_SECONDS = 3, 0.5
VALUES: Dict[str, Value] = {
    "min": Number(1, 254),
    "max": Number(1, 254),
    "power-on": Number(0, 254, {"last": 255}),
    "failure": Number(0, 254, {"keep": 255}),
    "fade": FADES,
    "rate": Number(1, 15),
    **{f"scene-{scene}": Number(0, 254, {"none": 255}) for scene in range(SCENES)},
}


class Groups(Bits):
    """The groups of gear, a bit each."""

    def show(self, number: int) -> str:
        return " ".join(str(group) for group in range(self.width) if number >> group & 1) or "none"


class Lamp:
    """One control gear."""

    values: Dict[str, Value] = {**VALUES, GROUPS: Groups(16)}

    def __init__(self, wire: Wire, address: int) -> None:
        self.wire, self.address = wire, address

    def frame(self, opcode: int) -> int:
        return (self.address << 1 | 1) << 8 | opcode

    def blink(self) -> None:
        """Lets it go on and off, and sets it back."""
        level = self.wire.number(self.frame(QUERY_ACTUAL_LEVEL))
        for opcode in (RECALL_MAX_LEVEL, OFF) * BLINKS:
            self.wire.transaction(self.frame(opcode))
            time.sleep(HALF_SECONDS)
        if level is not None:
            self.wire.transaction(self.address << 9 | level)

    def read(self, word: str) -> Optional[int]:
        if word == GROUPS:
            low, high = (self.wire.number(self.frame(QUERY_GROUPS + half)) for half in (0, 1))
            return None if low is None or high is None else high << 8 | low
        number = self.wire.number(self.frame(CODES[word][1]))
        if number is None or word not in ("fade", "rate"):
            return number
        return number >> 4 if word == "fade" else number & 15

    def send(self, word: str, number: int) -> None:
        if word == GROUPS:
            self.send_groups(number)
        else:
            frame = self.frame(CODES[word][0])
            self.wire.transaction(self.wire.special_frame("DTR0", number), frame, frame)

    def send_groups(self, wanted: int) -> None:
        """Adds it to groups and removes it from others, where it is not as wanted."""
        found = self.read(GROUPS) or 0
        for group in range(16):
            if (found ^ wanted) >> group & 1:
                frame = self.frame((ADD_TO_GROUP if wanted >> group & 1 else REMOVE_FROM_GROUP) + group)
                self.wire.transaction(frame, frame)
