"""Events in words: what a frame of a control device says (IEC 62386-103), and what that means."""

from __future__ import annotations

from typing import Dict, List, NamedTuple, Optional, Tuple

from gushewa_line.numbers import GO_TO_SCENE, MASK, OFF

# What each event scheme adds to a frame, and the limit of its first part (docs/BINDINGS.md).
SCHEMES = {
    "instance": (1 << 23 | 1 << 15, 32),
    "device": (0, 64),
    "device-instance": (1 << 15, 64),
    "device-group": (1 << 23, 32),
    "instance-group": (1 << 23 | 1 << 22, 32),
}
SPOKEN = {
    "instance": "type {} instance {}",
    "device": "device {} type {}",
    "device-instance": "device {} instance {}",
    "device-group": "device group {} type {}",
    "instance-group": "instance group {} type {}",
}
INFORMATION = 0x3FF
BUTTON, PRESENCE, LIGHT, OTHER = "button", "presence", "light", "other"
KINDS_OF_TYPES = {1: BUTTON, 3: PRESENCE, 4: LIGHT}
# IEC 62386-301.
BUTTON_WORDS = {
    2: "short press",
    5: "double press",
    9: "long press began",
    11: "still held",
    12: "long press ended",
    1: "pressed",
    0: "released",
    14: "free again",
    15: "stuck",
}
# What may be put in by hand of a presence detector (IEC 62386-303).
PRESENCE_CHOICES = (2, 3, 0)


class Source(NamedTuple):
    """A source of events on a bus: all event messages of one scheme with the same two parts."""

    bus: int
    scheme: str
    first: int
    second: int

    def key(self) -> str:
        return f"{self.bus} {self.scheme} {self.first} {self.second}"

    def where(self) -> str:
        return f"bus {self.bus}, {SPOKEN[self.scheme].format(self.first, self.second)}"

    def frame(self, information: int) -> int:
        """The event message that says this."""
        return SCHEMES[self.scheme][0] | self.first << 17 | self.second << 10 | information

    def kind(self) -> str:
        """What it is, where the scheme says a type: a button, or some sensor."""
        if self.scheme == "device-instance":
            return OTHER
        return KINDS_OF_TYPES.get(self.first if self.scheme == "instance" else self.second, OTHER)


def source_of(bus: int, frame: int) -> Optional[Tuple[Source, int]]:
    """The source of an event message and its information; None of any other 24-bit frame."""
    first, second, information = frame >> 17 & 0x3F, frame >> 10 & 0x1F, frame & INFORMATION
    for scheme, (_, limit) in SCHEMES.items():
        source = Source(bus, scheme, first % limit, second)
        if source.frame(information) == frame:
            return source, information
    return None


def said(kind: str, information: int) -> str:
    """What an information means."""
    if kind == BUTTON:
        return BUTTON_WORDS.get(information, f"information {information}")
    if kind == PRESENCE:
        return presence_said(information)
    if kind == LIGHT:
        return f"measured {information}"
    if information in BUTTON_WORDS:
        return f"information {information} (of a button: {BUTTON_WORDS[information]})"
    return f"information {information}"


def presence_said(information: int) -> str:
    """Bit 0 is movement, bit 1 says that somebody is there, bit 2 that this is said again."""
    parts = ["somebody is there" if information & 2 else "nobody is there"]
    parts += ["movement"] if information & 1 else []
    parts += ["as before"] if information & 4 else []
    return ", ".join(parts)


def choices(kind: str) -> List[Tuple[int, str]]:
    """What may be put in by hand in words; of a light sensor it is a number that it measured."""
    if kind == LIGHT:
        return []
    if kind == PRESENCE:
        return [(number, presence_said(number)) for number in PRESENCE_CHOICES]
    return list(BUTTON_WORDS.items())


# What commands do to a level (IEC 62386-102).

RELATIVE: Dict[int, str] = {
    0x01: "UP",
    0x02: "DOWN",
    0x03: "STEP UP",
    0x04: "STEP DOWN",
    0x05: "RECALL MAX LEVEL",
    0x06: "RECALL MIN LEVEL",
    0x07: "STEP DOWN AND OFF",
    0x08: "ON AND STEP UP",
    0x0A: "GO TO LAST ACTIVE LEVEL",
}


class Sent(NamedTuple):
    """What was sent to a lamp: a level, or a command that leads to a level which only the lamp knows."""

    level: Optional[int]
    words: str


def sent_by(frame: int) -> Optional[Sent]:
    """What a 16-bit frame sends to the level of an address; None where it sends nothing to it."""
    opcode = frame & 0xFF
    if not frame >> 8 & 1:
        return None if opcode == MASK else Sent(opcode, str(opcode))
    if opcode == OFF:
        return Sent(0, "OFF")
    if opcode in RELATIVE:
        return Sent(None, RELATIVE[opcode])
    return Sent(None, f"scene {opcode & 15}") if opcode & 0xF0 == GO_TO_SCENE else None
