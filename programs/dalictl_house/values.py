"""What a setting may be, how a person writes it, and how it is shown.

Gear and control devices keep each setting as a number. A `Value` makes this number of words such as
`500ms` or `short+double`, and these words of the number.
"""

from __future__ import annotations

import decimal
import re
from typing import Mapping, Protocol, Sequence

MILLISECONDS = {"ms": 1, "s": 1000, "min": 60_000}
TIME = re.compile(r"([0-9]{1,7}(?:\.[0-9]{1,3})?)(ms|s|min)")


class Value(Protocol):
    """What a setting may be."""

    def parse(self, words: str) -> int:
        """The number. Raises ValueError, which says what it may be."""

    def show(self, number: int) -> str:
        """The number in words."""


class Number:
    """A number within limits. Some of the numbers outside them may have names, as `last` is 255."""

    def __init__(self, least: int, greatest: int, names: Mapping[str, int] = {}) -> None:
        self.least, self.greatest, self.names = least, greatest, names

    def parse(self, words: str) -> int:
        if words in self.names:
            return self.names[words]
        if not (re.fullmatch("[0-9]{1,9}", words) and self.least <= int(words) <= self.greatest):
            raise ValueError(" or ".join([f"it is {self.least} to {self.greatest}", *self.names]))
        return int(words)

    def show(self, number: int) -> str:
        named = [name for name, value in self.names.items() if value == number]
        return named[0] if named else str(number)


class Time:
    """A time in steps of so many milliseconds. Where 0 switches something off, it is `off`."""

    def __init__(self, step: int, least: int, greatest: int, has_off: bool = False) -> None:
        self.step, self.least, self.greatest, self.has_off = step, least, greatest, has_off

    def parse(self, words: str) -> int:
        if words == "off" and self.has_off:
            return 0
        time = TIME.fullmatch(words)
        if not time:
            raise ValueError(self.says())
        steps = decimal.Decimal(time[1]) * MILLISECONDS[time[2]] / self.step
        if steps != steps.to_integral_value() or not self.least <= steps <= self.greatest:
            raise ValueError(self.says())
        return int(steps)

    def show(self, number: int) -> str:
        return "off" if number == 0 and self.has_off else time_in_words(number * self.step)

    def says(self) -> str:
        least, greatest = (time_in_words(it * self.step) for it in (self.least, self.greatest))
        off = "off, or " if self.has_off else ""
        return f"it is {off}{least} to {greatest}, in steps of {time_in_words(self.step)}"


class Choice:
    """One of some words."""

    def __init__(self, names: Mapping[str, int]) -> None:
        self.names = names

    def parse(self, words: str) -> int:
        if words not in self.names:
            raise ValueError("it is one of " + ", ".join(self.names))
        return self.names[words]

    def show(self, number: int) -> str:
        named = [name for name, value in self.names.items() if value == number]
        return named[0] if named else str(number)


class Flags:
    """Some of some words, with `+` between them, or `none` or `all`. The first word is bit 0."""

    def __init__(self, names: Sequence[str]) -> None:
        self.names = names

    def parse(self, words: str) -> int:
        if words in ("none", "all"):
            return 0 if words == "none" else self.mask()
        parts = words.split("+")
        if not set(parts) <= set(self.names) or len(set(parts)) < len(parts):
            raise ValueError("it is all, none, or with + between them some of " + ", ".join(self.names))
        return sum(1 << self.names.index(part) for part in parts)

    def show(self, number: int) -> str:
        if number == self.mask() and len(self.names) > 1:
            return "all"
        return "+".join(name for place, name in enumerate(self.names) if number >> place & 1) or "none"

    def mask(self) -> int:
        """The bits that have a name."""
        return (1 << len(self.names)) - 1


class Bits:
    """A number of some bits, in hexadecimal digits, as `0x00FF`."""

    def __init__(self, width: int) -> None:
        self.width = width

    def parse(self, words: str) -> int:
        if not re.fullmatch(r"0x[0-9A-Fa-f]{1,8}", words) or int(words, 16) >> self.width:
            raise ValueError(f"it is 0x and hexadecimal digits, {self.width} bits at most")
        return int(words, 16)

    def show(self, number: int) -> str:
        return f"0x{number:0{self.width // 4}X}"


def time_in_words(milliseconds: int) -> str:
    """A time in the greatest unit in which it is a whole number."""
    for unit in ("min", "s"):
        if milliseconds and milliseconds % MILLISECONDS[unit] == 0:
            return f"{milliseconds // MILLISECONDS[unit]}{unit}"
    return f"{milliseconds}ms"
