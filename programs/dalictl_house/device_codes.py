"""The table of codes of control devices, as far as the programs here use them.

`python3 -m dalictl_house.device_codes`, in the folder of the programs, prints it.

A command to a device or to an instance has a short address in its first byte, and what is spoken to
in its second one; the code is the third byte. A special command has C1, its code, and its value.
What has to come twice is marked. No code here was tried on a real device. Those of the parts 301 to
304 mean something else at an instance of another type, so they are sent only to an instance that
said which type it is.
"""

from __future__ import annotations

from typing import List, NamedTuple

from dalictl_house.values import Choice, Flags, Number, Time, Value

SPECIAL, DEVICE = 0xC1, 0xFE  # the first byte of a special command; the second byte to a device
ALL_DEVICES = 0xFF  # a first byte
NOT_TRIED = "not tried on real devices"


class Code(NamedTuple):
    """A command or a query."""

    name: str
    code: int
    is_twice: bool = False
    part: int = 103  # of IEC 62386


SPECIALS = (
    Code("TERMINATE", 0x00),
    Code("INITIALISE", 0x01, True),
    Code("RANDOMISE", 0x02, True),
    Code("COMPARE", 0x03),
    Code("WITHDRAW", 0x04),
    Code("SEARCHADDRH", 0x05),
    Code("SEARCHADDRM", 0x06),
    Code("SEARCHADDRL", 0x07),
    Code("PROGRAM SHORT ADDRESS", 0x08),
    Code("VERIFY SHORT ADDRESS", 0x09),
    Code("DTR0", 0x30),
    Code("DTR1", 0x31),
    Code("DTR2", 0x32),
)
OF_DEVICES = (
    Code("SET SHORT ADDRESS", 0x14, True),
    Code("QUERY DEVICE STATUS", 0x30),
    Code("QUERY MISSING SHORT ADDRESS", 0x33),
    Code("QUERY NUMBER OF INSTANCES", 0x35),
)
OF_INSTANCES = (
    Code("ENABLE INSTANCE", 0x62, True),
    Code("DISABLE INSTANCE", 0x63, True),
    Code("SET EVENT SCHEME", 0x67, True),
    Code("SET EVENT FILTER", 0x68, True),
    Code("QUERY INSTANCE TYPE", 0x80),
    Code("QUERY INSTANCE ENABLED", 0x86),
    Code("QUERY EVENT SCHEME", 0x8B),
    Code("QUERY EVENT FILTER 0 TO 7", 0x90),
    Code("QUERY EVENT FILTER 8 TO 15", 0x91),
    Code("QUERY EVENT FILTER 16 TO 23", 0x92),
)


class OwnNumber(NamedTuple):
    """A number that instances of one type have: the word for it, and its commands."""

    word: str
    value: Value
    command: Code
    query: Code


class InstanceType(NamedTuple):
    """What instances of one type are, and what is set of them."""

    number: int
    name: str
    events: Flags
    numbers: List[OwnNumber]


def own(part: int, word: str, name: str, command: int, query: int, value: Value) -> OwnNumber:
    return OwnNumber(word, value, Code(f"SET {name}", command, True, part), Code(f"QUERY {name}", query, False, part))


BUTTON = InstanceType(
    1,
    "button",
    Flags(("released", "pressed", "short", "double", "long-start", "long-repeat", "long-stop", "stuck")),
    [
        own(301, "short", "SHORT TIMER", 0x00, 0x0A, Time(20, 10, 255)),
        own(301, "double", "DOUBLE TIMER", 0x01, 0x0C, Time(20, 10, 100, has_off=True)),
        own(301, "repeat", "REPEAT TIMER", 0x02, 0x0E, Time(20, 5, 100)),
        own(301, "stuck", "STUCK TIMER", 0x03, 0x0F, Time(1000, 5, 255)),
    ],
)
MOTION = InstanceType(
    3,
    "motion",
    Flags(("occupied", "vacant", "repeat", "movement", "no-movement")),
    [
        own(303, "hold", "HOLD TIMER", 0x21, 0x2D, Time(10_000, 1, 254)),
        own(303, "report", "REPORT TIMER", 0x22, 0x2E, Time(1000, 1, 255, has_off=True)),
        own(303, "dead", "DEADTIME TIMER", 0x23, 0x2C, Time(50, 1, 255, has_off=True)),
    ],
)
BRIGHTNESS = InstanceType(
    4,
    "brightness",
    Flags(("level",)),
    [
        own(304, "report", "REPORT TIMER", 0x30, 0x3E, Time(1000, 1, 255, has_off=True)),
        own(304, "hysteresis", "HYSTERESIS", 0x31, 0x3F, Number(0, 25)),
        own(304, "dead", "DEADTIME TIMER", 0x32, 0x3D, Time(50, 1, 255, has_off=True)),
        own(304, "hysteresis-min", "HYSTERESIS MIN", 0x33, 0x3C, Number(0, 255)),
    ],
)
TYPES = {it.number: it for it in (BUTTON, MOTION, BRIGHTNESS)}
SCHEMES = Choice({"instance": 0, "device": 1, "device-instance": 2, "device-group": 3, "instance-group": 4})


def code(name: str) -> int:
    """The code of a command of part 103 by its name."""
    return CODES[name].code


CODES = {it.name: it for it in (*SPECIALS, *OF_DEVICES, *OF_INSTANCES)}


def rows() -> List[str]:
    """The table, a line each."""
    own_codes = [it for kind in TYPES.values() for pair in kind.numbers for it in (pair.command, pair.query)]
    kinds = (("special", SPECIALS), ("to a device", OF_DEVICES), ("to an instance", (*OF_INSTANCES, *own_codes)))
    made = ["| code | is | goes | twice | stands in |", "|---|---|---|---|---|"]
    for goes, codes in kinds:
        for it in codes:
            part = f"part {it.part}" + (f", {NOT_TRIED}" if it.part > 103 else "")
            made.append(f"| {it.code:02X} | {it.name} | {goes} | {'yes' if it.is_twice else ''} | {part} |")
    return made


if __name__ == "__main__":
    print("\n".join(rows()))
