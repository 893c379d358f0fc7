#!/usr/bin/env python3
"""Gives short addresses to control gear and control devices, and sets the instances of devices.

IT IS NOT PROVED, and was tried on simulated gear and devices alone.

  address.py PATH list               shows which short addresses are taken
  address.py PATH find [--first N]   gives each gear without a short address one that is free, from
                                     N on (0 if nothing is said). With --blink each blinks then,
                                     one after another, so that you see which lamp it is
  address.py PATH give OLD NEW       gear OLD gets the short address NEW, which must be free
  address.py PATH swap A B           gear A and gear B exchange their short addresses
  address.py PATH take A             takes short address A away, also from several that have it

  address.py PATH --devices list     .. and so on: the same for control devices, such as buttons and
                                     sensors, whose short addresses are apart from those of gear

  address.py PATH instances [A]      shows what the instances of all devices, or of device A, are set to
  address.py PATH set A I WORDS ..   sets instance I of device A, and reads back what it set

The words of `set` are those that `instances` shows: scheme=device-instance, enabled=yes or =no, and
events=short+double+long-start, where all others are not sent. Of a button the times are short=500ms,
double=300ms, repeat=160ms and stuck=20s; of a motion sensor hold=15min, report=20s and dead=100ms;
of a brightness sensor report=30s and dead=1500ms, with hysteresis=5 (per cent) and hysteresis-min=10.
filter=0xFF is the event filter as a number.

PATH is a device or a pseudo terminal, or FROM,TO, two FIFOs. End the building on this line first.
Where the line fails, the search waits for it, 60 seconds (--patience SECONDS before the command),
and goes on where it was. Where the program itself was ended, start it again: gear that was given an
address keeps it.

`find` changes nothing of gear that has an address. Gear finds its place in the search by a random
number. Where two took the same one, both wait for the next round. --blink, and later `dalictl blink`,
show which lamp got which address, and `dalictl listen` which button.

The picture has a cell for each short address from 0 to 63: `.` free, `o` taken, `#` given now, `?`
more than one gear.

The exit status is 0 where all was done; 1 where it was refused, gear is left without an address, or
an instance keeps another value; and 3 where the line did not come back, 20 attempts in a row failed,
or the bus is disturbed.
"""

from __future__ import annotations

import argparse
import sys
from typing import Any, Callable, Dict, List, Optional

from dalictl_house.device_wire import DeviceWire
from dalictl_house.instances import Instance, instances_of
from dalictl_house.lamps import Lamp
from dalictl_house.settings import bring, parse_settings
from gushewa_line.controller import Controller, LineFailed
from gushewa_line.numbers import ADDRESSES, INSTANCES
from searching import Gone, Refused, Search, Wire

NOT_PROVED = "address.py is not proved, and was tried on a simulated bus alone: look at what it did"
BITS = 24


class Picture:
    """The short addresses in a line of the terminal. Where there is none, it draws nothing."""

    def __init__(self) -> None:
        self.cells = ["."] * ADDRESSES
        self.is_drawn = sys.stderr.isatty()

    def draw(self, words: str = "") -> None:
        if self.is_drawn:
            print(f'\r{"".join(self.cells)} {words:14}', end="", file=sys.stderr, flush=True)

    def watch(self, low: int, high: int) -> None:
        """How many bits of the random address are known by now."""
        self.draw(f"{BITS - (high - low).bit_length():2} of {BITS} bits")

    def say(self, line: str) -> None:
        """A line for itself, above the picture."""
        self.wipe()
        print(line, flush=True)
        self.draw()

    def note(self, line: str) -> None:
        self.wipe()
        print(line, file=sys.stderr, flush=True)
        self.draw()

    def wipe(self) -> None:
        if self.is_drawn:
            print(f'\r{" " * (ADDRESSES + 15)}\r', end="", file=sys.stderr, flush=True)


class Commissioning:
    """What the commands do about short addresses."""

    def __init__(self, wire: Wire, picture: Picture) -> None:
        self.wire, self.picture = wire, picture
        self.found: List[int] = []

    def survey(self) -> None:
        """Asks each short address whether somebody is there."""
        for address in range(ADDRESSES):
            self.picture.cells[address] = self.wire.cell(address)
            self.picture.draw("asking")

    def free(self, first: int = 0) -> List[int]:
        return [address for address in range(first, ADDRESSES) if self.picture.cells[address] == "."]

    def list(self) -> bool:
        self.survey()
        self.picture.wipe()
        print("".join(self.picture.cells))
        twice = [address for address, cell in enumerate(self.picture.cells) if cell == "?"]
        for address in twice:
            print(f"more than one {self.wire.noun} has short address {address}: take it away, and find")
        return not twice

    def find(self, first: int, blink: bool) -> bool:
        if blink and type(self.wire) is not Wire:
            raise Refused("control devices do not blink: dalictl listen shows which button has which address")
        self.survey()
        is_done = self.find_free(self.free(first))
        if blink:
            self.blink_found()
        return is_done

    def blink_found(self) -> None:
        """Blinks what was given an address, one after another, for as long as somebody answers."""
        for address in self.found:
            is_again = True
            while is_again:
                Lamp(self.wire, address).blink()
                try:
                    is_again = input(f"gear {address} blinked. Enter: the next one; a: again > ").strip() == "a"
                except EOFError:
                    return

    def find_free(self, free: List[int]) -> bool:
        """Gives these short addresses. Returns whether none is left without one."""
        if not free:
            raise Refused("no short address is free")
        is_done = Search(self.wire, free, self.picture.watch).rounds(self.given, self.equal)
        if not is_done:
            self.picture.say(f"there is {self.wire.some} left without a short address")
        self.picture.wipe()
        print("".join(self.picture.cells))
        return is_done

    def given(self, short: int, random: int) -> None:
        self.picture.cells[short] = "#"
        self.found.append(short)
        self.picture.say(f"short address {short} given to the {self.wire.noun} with random address {random:06X}")

    def equal(self, random: int) -> None:
        self.picture.note(f"several {self.wire.several} have random address {random:06X}: they wait for the next round")

    def give(self, old: int, new: int) -> bool:
        self.need_one(old)
        if self.wire.is_there(new):
            raise Refused(f"short address {new} is taken")
        self.move(old, new)
        return self.is_moved(new)

    def swap(self, one: int, other: int) -> bool:
        """Exchanges two short addresses, over a free one.

        Where none is free, one gear has no address meanwhile.
        """
        if one == other:
            raise Refused("these are one short address")
        self.need_one(one)
        self.need_one(other)
        self.survey()
        free = self.free()
        if free:
            self.move(one, free[-1])
            self.move(other, one)
            self.move(free[-1], other)
            return self.is_moved(one) and self.is_moved(other)
        if self.wire.is_missing():
            raise Refused(f"no short address is free, and another {self.wire.noun} has none: find it one first")
        self.wire.set_address(one, None)
        self.move(other, one)
        return self.find_free([other])

    def take(self, address: int) -> bool:
        if not self.wire.is_there(address):
            raise Refused(f"no {self.wire.noun} has short address {address}")
        self.wire.set_address(address, None)
        is_gone = not self.wire.is_there(address)
        print(f"short address {address} taken away" if is_gone else f"{self.wire.noun} {address} keeps its address")
        return is_gone

    def need_one(self, address: int) -> None:
        if not self.wire.is_one(address):
            raise Refused(f"there is not just one {self.wire.noun} at short address {address}")

    def move(self, old: int, new: int) -> None:
        self.wire.set_address(old, new)
        self.picture.note(f"{self.wire.noun} {old} was sent the short address {new}")

    def is_moved(self, new: int) -> bool:
        is_one = self.wire.is_one(new)
        print(f"{self.wire.noun} {new} answers" if is_one else f"{self.wire.noun} {new} does not answer as one")
        return is_one


class Setting:
    """What the commands do about the instances of control devices."""

    def __init__(self, wire: DeviceWire, picture: Picture) -> None:
        self.wire, self.picture = wire, picture

    def instances(self, device: Optional[int]) -> bool:
        """Shows what is set, of one device or of all."""
        for address in range(ADDRESSES) if device is None else [device]:
            for instance in instances_of(self.wire, address):
                self.picture.say(f"device {address} {instance.words()}")
        return True

    def set(self, device: int, number: int, words: List[str]) -> bool:
        """Sets an instance, and says what it keeps then."""
        instance = Instance.asked(self.wire, device, number)
        try:
            wanted = parse_settings(words, instance.values)
        except ValueError as fault:
            raise Refused(str(fault)) from None
        kept = [bring(instance, word, value) for word, value in wanted.items()]
        self.picture.say(f"device {device} {instance.words()}")
        return all(kept)


def below(limit: int, what: str) -> Callable[[str], int]:
    def read(text: str) -> int:
        if not (text.isascii() and text.isdecimal() and int(text) < limit):
            raise argparse.ArgumentTypeError(f"{what} is 0 to {limit - 1}")
        return int(text)

    return read


short_address, instance_number = below(ADDRESSES, "a short address"), below(INSTANCES, "the number of an instance")


def read_words() -> argparse.Namespace:
    parser = argparse.ArgumentParser(usage=__doc__)
    parser.add_argument("path")
    parser.add_argument("--patience", type=float, default=60.0)
    parser.add_argument("--devices", action="store_true")
    commands = parser.add_subparsers(dest="command", required=True)
    commands.add_parser("list")
    find = commands.add_parser("find")
    find.add_argument("--first", type=short_address, default=0)
    find.add_argument("--blink", action="store_true")
    for name, words in (
        ("give", ("old", "new")),
        ("swap", ("one", "other")),
        ("take", ("address",)),
    ):
        command = commands.add_parser(name)
        for word in words:
            command.add_argument(word, type=short_address)
    commands.add_parser("instances").add_argument("device", type=short_address, nargs="?")
    command = commands.add_parser("set")
    command.add_argument("device", type=short_address)
    command.add_argument("number", type=instance_number)
    command.add_argument("words", nargs="+")
    return parser.parse_args()


def carry_out(line: Controller, picture: Picture, words: Dict[str, Any]) -> bool:
    """Does what a command says. Returns whether all was done."""
    patience, command, is_of_devices = words.pop("patience"), words.pop("command"), words.pop("devices")
    line.open()
    if command in ("instances", "set"):
        return bool(getattr(Setting(DeviceWire(line, picture.note, patience), picture), command)(**words))
    wire = (DeviceWire if is_of_devices else Wire)(line, picture.note, patience)
    return bool(getattr(Commissioning(wire, picture), command)(**words))


def main() -> None:
    words = vars(read_words())
    print(NOT_PROVED, file=sys.stderr, flush=True)
    picture = Picture()
    try:
        is_done = carry_out(Controller(words.pop("path")), picture, words)
    except Refused as refusal:
        picture.note(f"refused: {refusal}")
        sys.exit(1)
    except (Gone, LineFailed) as failure:
        picture.note(f"given up: {failure}")
        sys.exit(3)
    except KeyboardInterrupt:
        picture.note("ended by hand: start it again, and it goes on with what has no address yet")
        sys.exit(1)
    sys.exit(0 if is_done else 1)


if __name__ == "__main__":
    main()
