#!/usr/bin/python3
"""A clock as a bus of its own: time of day, date, day and night, and a table of switching times.

  clock.py --pty LINK ..           makes a pseudo terminal, and the symbolic link LINK to it
  clock.py --fifo SOURCE SINK ..   uses two FIFOs, and makes them where they are missing
  clock.py --day YYYY-MM-DD ..     prints the events of a day as lines of a scenario

  --place 52.5,13.4   where the house is: degrees of latitude and longitude, north and east
                      positive. It needs python3-astral
  --zone NAME         the time zone, such as Europe/Berlin (that of the machine if none is given)
  --table FILE        a weekly table of switching times (the head of week.py has its lines)
  --device N          the short address of the clock on its bus (63 if none is given)
  --bus B             with --day: the bus of the events (1 if none is given)
  --only 2,8          with --day: the events of these instances alone

Its events are those of a control device, in the scheme 'device and instance':

  instance   information                              comes
  0          the quarter of the day, 0 to 95          each quarter of an hour
  1          the weekday, 1 (Monday) to 7 (Sunday)    at midnight
  2          1 by day, 0 by night                     at sunrise and sunset, with --place
  3          the day of the month, 1 to 31            at midnight
  4          the month, 1 to 12                       at the first midnight of a month
  8 + R      1 where row R of the table is on, or 0   where that changes

What changes at one moment comes in this order: month, day of the month, weekday, day or night, the
rows of the table, and last the quarter. After each greeting the clock says all of it once, as it is
then. Where the machine's clock is set, it says what is different then, and nothing of the time in
between. docs/PROGRAMS.md has examples.
"""

from __future__ import annotations

import argparse
import datetime
import threading
import time
import zoneinfo
from typing import Callable, Dict, Iterator, List, Optional, Tuple

from gushewa_line.gateway import device_event
from gushewa_line.line import QUIET, HearingBus
from gushewa_line.program import add_ends, give_up, run
from sun import Sun
from week import BadLine, Table, read_table

QUARTER, WEEKDAY, DAYLIGHT, DAY_OF_MONTH, MONTH, FIRST_ROW = 0, 1, 2, 3, 4, 8


class Calendar:
    """What the clock says at a moment."""

    def __init__(self, zone: Optional[datetime.tzinfo], sun: Optional[Sun], table: Table) -> None:
        self.zone, self.sun, self.table = zone, sun, table

    def values(self, moment: float) -> Dict[int, int]:
        """The information of each instance at a moment of Unix, in the order of saying."""
        now = datetime.datetime.fromtimestamp(moment, datetime.timezone.utc).astimezone(self.zone)
        values = {MONTH: now.month, DAY_OF_MONTH: now.day, WEEKDAY: now.isoweekday()}
        minute = now.hour * 60 + now.minute
        if self.sun:
            rise, down = self.sun.minutes(now.date())
            values[DAYLIGHT] = int(rise <= minute < down)
        values.update({FIRST_ROW + row: int(is_on) for row, is_on in self.table.states(now).items()})
        values[QUARTER] = minute // 15
        return values

    def midnight(self, day: datetime.date) -> float:
        """The first moment of a day, in seconds of Unix."""
        start = datetime.datetime.combine(day, datetime.time())
        return (start.replace(tzinfo=self.zone) if self.zone else start.astimezone()).timestamp()

    def changes(self, day: datetime.date) -> Iterator[Tuple[int, int, int]]:
        """The events of a day: seconds since midnight, instance, information.

        The first ones are those that come after a greeting.
        """
        said: Dict[int, int] = {}
        begin, end = self.midnight(day), self.midnight(day + datetime.timedelta(days=1))
        for second in range(0, int(end - begin), 60):
            for instance, information in self.values(begin + second).items():
                if said.get(instance) != information:
                    yield second, instance, information
            said = self.values(begin + second)


class ClockBus(HearingBus):
    """A bus on which nothing is but the clock."""

    def __init__(self, calendar: Calendar, address: int, now: Callable[[], float] = time.time) -> None:
        super().__init__()
        self.calendar, self.address, self.now = calendar, address, now
        self.said: Dict[int, int] = {}
        self.looked: Optional[int] = None

    def look(self) -> None:
        """Puts what has changed since the last look, which was in another second."""
        second = int(self.now())
        if second == self.looked:
            return
        self.looked = second
        values = self.calendar.values(second)
        for instance, information in values.items():
            if self.said.get(instance) != information:
                self.events.add(device_event(self.address, instance, information))
        self.said = values

    def take(self) -> Optional[int]:
        self.look()
        return super().take()

    def forget(self) -> None:
        super().forget()
        self.said, self.looked = {}, None

    def watch(self, wake: Callable[[], None]) -> None:
        """Looks as soon as a second begins."""
        threading.Thread(target=self.wake_each_second, args=[wake], daemon=True).start()

    def wake_each_second(self, wake: Callable[[], None]) -> None:
        while True:
            time.sleep(1 - self.now() % 1)
            wake()

    def send(self, bits: int, frame: int, priority: int) -> str:
        return QUIET


def scenario(calendar: Calendar, day: datetime.date, bus: int, address: int, only: List[int]) -> Iterator[str]:
    """The events of a day as lines of a scenario, with moments in milliseconds since midnight."""
    last = None
    for second, instance, information in calendar.changes(day):
        if only and instance not in only:
            continue
        if second != last:
            yield f"tick {second * 1000}"
        last = second
        yield f"event {bus} {device_event(address, instance, information):06X}"


def read_calendar(given: argparse.Namespace) -> Calendar:
    zone = zoneinfo.ZoneInfo(given.zone) if given.zone else None
    sun = None
    if given.place:
        latitude, _, longitude = given.place.partition(",")
        sun = Sun(float(latitude), float(longitude or "none"), zone)
        sun.minutes(datetime.date.today())  # says at once where astral is missing
    lines = []
    if given.table:
        with open(given.table, encoding="utf-8") as file:
            lines = file.read().splitlines()
    return Calendar(zone, sun, read_table(lines, sun))


def main() -> None:
    parser = argparse.ArgumentParser(usage=__doc__)
    add_ends(parser).add_argument("--day", type=datetime.date.fromisoformat)
    parser.add_argument("--place")
    parser.add_argument("--zone")
    parser.add_argument("--table")
    parser.add_argument("--device", type=int, default=63, choices=range(64), metavar="N")
    parser.add_argument("--bus", type=int, default=1, choices=range(64), metavar="B")
    parser.add_argument("--only", type=lambda text: [int(word) for word in text.split(",")], default=[])
    given = parser.parse_args()
    try:
        calendar = read_calendar(given)
    except (BadLine, OSError, ValueError, zoneinfo.ZoneInfoNotFoundError) as error:
        give_up(str(error))
    if given.day:
        print("\n".join(scenario(calendar, given.day, given.bus, given.device, given.only)))
    else:
        run(ClockBus(calendar, given.device), given)


if __name__ == "__main__":
    main()
