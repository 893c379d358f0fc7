"""What gear and the instances of control devices are set to, and how that is changed.

A setting is written `word=value`, as `double=300ms`. What is set is read back: gear may round a
value, or may not know a command.
"""

from __future__ import annotations

from typing import Dict, Iterable, Mapping, Optional, Protocol

from dalictl_house.values import Value

ATTEMPTS = 3  # to set what is then read back as something else


class Settable(Protocol):
    """Gear, or an instance of a control device."""

    @property
    def values(self) -> Mapping[str, Value]:
        """What may be set, by its words."""

    def read(self, word: str) -> Optional[int]:
        """Asks what is set; None where no answer comes."""

    def send(self, word: str, number: int) -> None:
        """Sets it."""


def bring(thing: Settable, word: str, number: int) -> bool:
    """Sets it where it is something else. Returns whether it is that now, as it was read back."""
    for _ in range(ATTEMPTS):
        if thing.read(word) == number:
            return True
        thing.send(word, number)
    return thing.read(word) == number


def show(thing: Settable, word: str, number: Optional[int]) -> str:
    """A setting as it is written."""
    return f"{word}=" + ("?" if number is None else thing.values[word].show(number))


def parse_settings(words: Iterable[str], values: Mapping[str, Value]) -> Dict[str, int]:
    """The numbers of settings. Raises ValueError, which says what is wrong with one."""
    numbers: Dict[str, int] = {}
    for setting in words:
        word, equals, value = setting.partition("=")
        if word not in values:
            raise ValueError(f"{setting}: there is {', '.join(values)}, each with = and a value behind it")
        if word in numbers:
            raise ValueError(f"{setting}: {word} stands there twice")
        try:
            numbers[word] = values[word].parse(value)
        except ValueError as fault:
            raise ValueError(f"{setting}: {fault}") from None
    if {"events", "filter"} <= set(numbers):
        raise ValueError("events and filter are one setting in two forms: give one of them")
    return numbers
