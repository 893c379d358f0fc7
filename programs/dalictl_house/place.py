"""Brings gear and devices that got their addresses by chance to their lines of the table.

A person looks which lamp blinks, and presses the buttons. What stands at a wrong address changes its
short address with what stands at the right one.
"""

from __future__ import annotations

import time
from typing import Callable, List, Optional, Sequence, Tuple

from dalictl_house.device_codes import code
from dalictl_house.device_wire import DeviceWire
from dalictl_house.lamps import Lamp
from dalictl_house.table import INPUTS, LAMP, Row
from gushewa_line.gateway import event_source
from gushewa_line.numbers import ADDRESSES
from searching import Wire

HEAR_SECONDS = 0.05


class Left(Exception):
    """Whoever was asked has gone."""


class Person:
    """Who looks at the lamps and presses the buttons."""

    def __init__(self, ask: Callable[[str], str], leaves: Callable[[], bool], say: Callable[[str], None]) -> None:
        self.ask, self.leaves, self.say = ask, leaves, say


class Placing:
    """One bus, and the lines of the table that are of it."""

    def __init__(self, rows: Sequence[Row], gear: Wire, devices: DeviceWire, person: Person) -> None:
        self.lamps = [row for row in rows if row.kind == LAMP]
        self.buttons = [row for row in rows if row.kind == "button" and row.is_bound]
        self.gear, self.devices, self.person = gear, devices, person

    def place(self) -> None:
        for row in self.lamps:
            self.place_lamp(row)
        placed: List[int] = []
        for row in self.buttons:
            if row.address not in placed:
                self.place_device(row, placed)
                placed.append(row.address)

    # Lamps.

    def place_lamp(self, row: Row) -> None:
        """Blinks what stands at a lamp's address, until it is this lamp."""
        while self.gear.is_one(row.address):
            Lamp(self.gear, row.address).blink()
            seen = self.lamp_seen(row)
            if seen is row or seen is None:
                return
            self.exchange(self.gear, row.address, seen.address)
        self.person.say(f"{row.where} ({row.title}): there is none, or more than one")

    def lamp_seen(self, row: Row) -> Optional[Row]:
        """The line of the lamp that was seen; None where it stays as it is."""
        lines = {str(lamp.line): lamp for lamp in self.lamps}
        while True:
            words = self.person.ask(
                f"gear {row.address} blinked. Enter: it is {row.title}; the number of a line: it is that lamp; "
                "a: again; n: leave it > "
            ).strip()
            if words in ("", "n") or words in lines:
                return row if not words else lines.get(words)
            if words == "a":
                Lamp(self.gear, row.address).blink()
            else:
                self.person.say(f"lamps stand in the lines {', '.join(lines)}")

    # Control devices.

    def place_device(self, row: Row, placed: List[int]) -> None:
        """Waits for a press of a button, and brings its device to its address."""
        self.person.say(f"press {row.title} now. Enter: leave it")
        pressed = self.press(placed)
        if pressed is None:
            return
        device, instance = pressed
        if device != row.address:
            self.exchange(self.devices, device, row.address)
        words = f"{row.where} ({row.title}): "
        if instance == row.instance:
            self.person.say(words + "it is this button")
        else:
            self.person.say(words + f"its device has this button as instance {instance}: change the table")

    def press(self, placed: List[int]) -> Optional[Tuple[int, int]]:
        """The device and the instance of a button that is pressed; None where the person leaves it."""
        while self.devices.line.hear() is not None:
            pass  # what was pressed before
        while not self.person.leaves():
            frame = self.devices.line.hear()
            source = event_source(frame) if frame is not None else None
            if source is None:
                time.sleep(HEAR_SECONDS)
            elif source[0] in placed:
                self.person.say(f"device {source[0]} has its place already: press the other one")
            elif self.is_button(*source):
                return source
        return None

    def is_button(self, device: int, instance: int) -> bool:
        kind = INPUTS["button"]
        query = self.devices.frame(device, instance, code("QUERY INSTANCE TYPE"))
        return kind is not None and self.devices.number(query) == kind.number

    def exchange(self, wire: Wire, one: int, other: int) -> None:
        """Exchanges two short addresses, of which the second may be free, over a free one."""
        if wire.is_there(other):
            spare = next((it for it in reversed(range(ADDRESSES)) if not wire.is_there(it)), None)
            if spare is None:
                self.person.say("no short address is free: nothing was exchanged")
                raise Left
            moves = [(one, spare), (other, one), (spare, other)]
        else:
            moves = [(one, other)]
        for old, new in moves:
            wire.set_address(old, new)
        self.person.say(f"{wire.noun} {one} and {other} have changed their addresses")
