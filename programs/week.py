"""A weekly table of switching times, which clock.py says as events.

A line is a row of the table, the days on which it begins, and the times between which it is on:

    # the shop, and its sign
    row 0 mon-fri 07:00 18:00
    row 0 sat 09:00 14:30
    row 1 daily sunset 23:30
    row 2 fri,sat 22:00 02:00 next

ROW is 0 to 23, and may have several lines. DAYS are `daily`, or names (`mon` to `sun`) and ranges
of them with commas between. A time is HH:MM, 00:00 to 24:00, or `sunrise` or `sunset`, also with
minutes before or after it: `sunset-20`, `sunrise+45`. `next` behind the times says that the second
one is of the next day. Where the second time is not after the first one, as where the sun sets late
in June, the row is not on that day. Empty lines and those that begin with `#` are skipped."""

from __future__ import annotations

import dataclasses
import datetime
import re
from typing import Dict, FrozenSet, Iterable, List, Optional

from sun import MINUTES_OF_DAY, Sun

ROWS = 24
DAY_NAMES = ("mon", "tue", "wed", "thu", "fri", "sat", "sun")
TIME = re.compile(r"([0-9]{2}):([0-9]{2})")
SOLAR = re.compile(r"(sunrise|sunset)([+-][0-9]{1,3})?")


class BadLine(Exception):
    """A line that is none of a table."""


@dataclasses.dataclass(frozen=True)
class Time:
    """A time of the day: minutes after midnight, sunrise or sunset."""

    anchor: str
    minutes: int

    def minute(self, day: datetime.date, sun: Optional[Sun]) -> int:
        """The minutes after the midnight of a day."""
        if self.anchor == "midnight" or sun is None:
            return self.minutes
        rise, down = sun.minutes(day)
        return (rise if self.anchor == "sunrise" else down) + self.minutes


@dataclasses.dataclass(frozen=True)
class Span:
    """A line: on these days the row is on from `begin` to `end`, or to the `end` of the next day."""

    row: int
    days: FrozenSet[int]
    begin: Time
    end: Time
    is_next: bool

    def is_on(self, now: datetime.datetime, sun: Optional[Sun]) -> bool:
        """Whether it is on at a moment of the local clock."""
        return any(self._is_on(now, now.date() - datetime.timedelta(days=back), back, sun) for back in (0, 1))

    def _is_on(self, now: datetime.datetime, day: datetime.date, back: int, sun: Optional[Sun]) -> bool:
        """The same, of what begins on the day that is so many days back."""
        if day.isoweekday() not in self.days:
            return False
        minute = now.hour * 60 + now.minute + back * MINUTES_OF_DAY
        begin, end = self.begin.minute(day, sun), self.end.minute(day, sun)
        if self.is_next:
            end = self.end.minute(day + datetime.timedelta(days=1), sun) + MINUTES_OF_DAY
        return begin <= minute < end


class Table:
    """The lines of a table, and the sun that they ask for."""

    def __init__(self, spans: Iterable[Span], sun: Optional[Sun]) -> None:
        self.spans, self.sun = list(spans), sun
        self.rows = sorted({span.row for span in self.spans})

    def states(self, now: datetime.datetime) -> Dict[int, bool]:
        """Each row of the table, and whether it is on."""
        return {row: any(span.is_on(now, self.sun) for span in self.spans if span.row == row) for row in self.rows}


def read_table(lines: Iterable[str], sun: Optional[Sun]) -> Table:
    """The table of these lines. Raises BadLine, with the number of the line."""
    spans: List[Span] = []
    for number, line in enumerate(lines, 1):
        words = line.split()
        if not words or words[0].startswith("#"):
            continue
        try:
            spans.append(read_span(words, sun is not None))
        except BadLine as error:
            raise BadLine(f"line {number}: {error}") from None
    return Table(spans, sun)


def read_span(words: List[str], has_sun: bool) -> Span:
    is_next = len(words) == 6 and words[5] == "next"
    if words[0] != "row" or len(words) != 5 + is_next:
        raise BadLine("a line is: row ROW DAYS FROM TO, and may have next behind it")
    if not words[1].isascii() or not words[1].isdecimal() or int(words[1]) >= ROWS:
        raise BadLine(f"{words[1]} is no row: 0 to {ROWS - 1}")
    begin, end = read_time(words[3], has_sun), read_time(words[4], has_sun)
    is_fixed = begin.anchor == end.anchor
    if is_fixed and not is_next and end.minutes <= begin.minutes:
        raise BadLine(f"{words[4]} is not after {words[3]}: write next behind it if it is of the next day")
    return Span(int(words[1]), read_days(words[2]), begin, end, is_next)


def read_days(text: str) -> FrozenSet[int]:
    """The days, 1 for Monday to 7 for Sunday."""
    if text == "daily":
        return frozenset(range(1, 8))
    days = set()
    for part in text.split(","):
        first, dash, last = part.partition("-")
        if first not in DAY_NAMES or (dash and last not in DAY_NAMES):
            raise BadLine(f"{part} is no day: mon to sun, daily, or a range as mon-fri")
        begin = DAY_NAMES.index(first)
        count = (DAY_NAMES.index(last) - begin) % 7 + 1 if dash else 1
        days |= {(begin + day) % 7 + 1 for day in range(count)}
    return frozenset(days)


def read_time(text: str, has_sun: bool) -> Time:
    if solar := SOLAR.fullmatch(text):
        if not has_sun:
            raise BadLine(f"{text} needs the place of the house: --place LATITUDE,LONGITUDE")
        return Time(solar[1], int(solar[2] or 0))
    fixed = TIME.fullmatch(text)
    if not fixed or int(fixed[2]) > 59 or int(fixed[1]) * 60 + int(fixed[2]) > MINUTES_OF_DAY:
        raise BadLine(f"{text} is no time: 00:00 to 24:00, sunrise or sunset")
    return Time("midnight", int(fixed[1]) * 60 + int(fixed[2]))
