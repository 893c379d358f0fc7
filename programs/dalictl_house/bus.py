"""One bus of a house beside its table: what is missing, what is not in the table, what is set otherwise.

`compare` asks, and changes nothing. `carry_out` gives the addresses of the table that nobody has to
gear and devices without an address, sets what is set otherwise, and reads it back.
"""

from __future__ import annotations

import dataclasses
from typing import Callable, Dict, List, Optional, Sequence, Tuple, Union

from dalictl_house.device_codes import DEVICE, TYPES, code
from dalictl_house.device_wire import DeviceWire
from dalictl_house.instances import Instance
from dalictl_house.lamps import Lamp
from dalictl_house.settings import bring, show
from dalictl_house.table import INPUTS, LAMP, Row
from gushewa_line.numbers import ADDRESSES, INSTANCES
from searching import Search, Wire

PASSES = 2  # in which what differs is set
GENERIC = 0  # a type that has no settings of its own
FREE, ONE = ".", "o"  # a short address that nobody has, and one that one gear or device has


@dataclasses.dataclass(frozen=True)
class Otherwise:
    """A setting that is not as the table has it."""

    row: Row
    thing: Union[Lamp, Instance]
    word: str
    wanted: int
    found: str  # in words, as the wanted one is shown

    def __str__(self) -> str:
        return f"{self.row.where} ({self.row.title}): {self.found}, and the table has {self.wish}"

    @property
    def wish(self) -> str:
        return show(self.thing, self.word, self.wanted)


@dataclasses.dataclass
class Comparison:
    """What differs. `lines` can only be told, and `settings` can be set."""

    lines: List[str]
    settings: List[Otherwise]
    # Of gear, and of devices:
    lacking: Dict[str, List[int]]  # the addresses of the table that nobody has
    unlisted: Dict[str, List[int]]  # the other addresses that nobody has
    has_unaddressed: Dict[str, bool]

    def words(self) -> List[str]:
        return self.lines + [str(it) for it in self.settings]


class HouseBus:
    """A bus and the lines of the table that are of it."""

    def __init__(self, rows: Sequence[Row], gear: Wire, devices: DeviceWire, say: Callable[[str], None]) -> None:
        self.lamps = [row for row in rows if row.kind == LAMP]
        self.inputs = [row for row in rows if row.is_input]
        self.gear, self.devices, self.say = gear, devices, say

    def sides(self) -> List[Tuple[Wire, List[Row]]]:
        return [(self.gear, self.lamps), (self.devices, self.inputs)]

    # Comparing.

    def compare(self) -> Comparison:
        """Asks what is there, and what it is set to."""
        found = Comparison([], [], {}, {}, {})
        for wire, rows in self.sides():
            cells = [wire.cell(address) for address in range(ADDRESSES)]
            self.compare_addresses(wire, rows, cells, found)
            there = [row for row in rows if cells[row.address] == ONE]
            if wire is self.gear:
                for row in there:
                    self.compare_settings(row, Lamp(wire, row.address), found)
            else:
                self.compare_devices(there, found)
        return found

    def compare_addresses(self, wire: Wire, rows: List[Row], cells: List[str], found: Comparison) -> None:
        """Who is missing, and who is there and not in the table."""
        listed = {row.address for row in rows}
        for row in rows:
            if cells[row.address] == FREE:
                found.lines.append(f"{row.where} ({row.title}) is missing")
        for address, cell in enumerate(cells):
            if cell not in (FREE, ONE):
                found.lines.append(f"more than one {wire.noun} has short address {address}")
            elif cell == ONE and address not in listed:
                found.lines.append(f"{wire.noun} {address} is there and not in the table")
        free = [address for address, cell in enumerate(cells) if cell == FREE]
        found.lacking[wire.noun] = [address for address in free if address in listed]
        found.unlisted[wire.noun] = [address for address in free if address not in listed]
        found.has_unaddressed[wire.noun] = wire.is_missing()
        if found.has_unaddressed[wire.noun]:
            found.lines.append(f"there is {wire.some} without a short address")

    def compare_settings(self, row: Row, thing: Union[Lamp, Instance], found: Comparison) -> None:
        for word, wanted in row.settings.items():
            is_set = thing.read(word)
            if is_set != wanted:
                found.settings.append(Otherwise(row, thing, word, wanted, show(thing, word, is_set)))

    def compare_devices(self, rows: List[Row], found: Comparison) -> None:
        """The instances of the devices that are there."""
        for address in sorted({row.address for row in rows}):
            of_device = {row.instance: row for row in rows if row.address == address}
            types = types_of(self.devices, address)
            for number in range(len(types)):
                if number not in of_device:
                    found.lines.append(f"device {address} instance {number} is there and not in the table")
            for number, row in of_device.items():
                if number >= len(types):
                    found.lines.append(f"{row.where} ({row.title}) is missing: the device has {len(types)} instances")
                else:
                    self.compare_instance(row, types[number], found)

    def compare_instance(self, row: Row, number: Optional[int], found: Comparison) -> None:
        """The type of an instance, and its settings where it is the right one."""
        kind = INPUTS[row.kind]
        if number is None:
            found.lines.append(f"{row.where} ({row.title}) does not say which type it is")
        elif kind and kind.number != number:
            name = f", {TYPES[number].name}" if number in TYPES else ""
            found.lines.append(f"{row.where} ({row.title}) is of type {number}{name}, and the table has {row.kind}")
        else:
            # The words of the settings are those of the kind that the table has.
            thing = Instance(self.devices, row.address, row.instance, kind.number if kind else GENERIC)
            self.compare_settings(row, thing, found)

    # Carrying out.

    def carry_out(self) -> Comparison:
        """Does what can be done, and returns what differs then."""
        found = self.compare()
        if any([self.give_addresses(wire, rows, found) for wire, rows in self.sides()]):
            found = self.compare()
        # One setting may limit another one, as MIN LEVEL and MAX LEVEL do.
        for _ in range(PASSES):
            if not found.settings:
                break
            for it in found.settings:
                self.set(it)
            found = self.compare()
        return found

    def set(self, it: Otherwise) -> None:
        is_kept = bring(it.thing, it.word, it.wanted)
        now = it.wish if is_kept else f"keeps {show(it.thing, it.word, it.thing.read(it.word))}, not {it.wish}"
        self.say(f"{it.row.where} ({it.row.title}): {now}, was {it.found}")

    def give_addresses(self, wire: Wire, rows: List[Row], found: Comparison) -> bool:
        """Gives the addresses of the table that nobody has. Returns whether it searched."""
        if not found.lacking[wire.noun] or not found.has_unaddressed[wire.noun]:
            return False
        giving = Giving(wire, rows, found, self.say)
        Search(wire, giving.free, lambda low, high: None).rounds(giving.given, giving.equal)
        return True


class Giving:
    """Who gets which of the free addresses of the table.

    Gear gets them in their order. A control device gets one whose lines have instances of its
    types, and where there is none, one that is not in the table.
    """

    def __init__(self, wire: Wire, rows: List[Row], found: Comparison, say: Callable[[str], None]) -> None:
        self.wire, self.rows, self.say = wire, rows, say
        self.free = list(found.lacking[wire.noun])
        self.spare = list(found.unlisted[wire.noun])

    def equal(self, random: int) -> None:
        self.say(f"several {self.wire.several} have random address {random:06X}: they wait for the next round")

    def given(self, short: int, random: int) -> None:
        """Somebody has this address now, which is no longer free."""
        if isinstance(self.wire, DeviceWire):
            short = self.move(self.wire, short)
        titles = [row.title for row in self.rows if row.address == short] or ["not like a device of the table"]
        self.say(f"{self.wire.noun} {short} ({titles[0]}) given to random address {random:06X}")

    def move(self, wire: DeviceWire, short: int) -> int:
        """Moves a device to an address that suits it. Returns the one that it has then."""
        types = types_of(wire, short)
        fitting = [address for address in (short, *self.free) if self.fits(types, address)]
        suiting = sorted(fitting, key=lambda address: -len(self.wanted(address))) or self.spare[-1:]
        if not suiting or suiting[0] == short:
            return short
        wire.set_address(short, suiting[0])
        for addresses in (self.free, self.spare):
            if suiting[0] in addresses:
                addresses.remove(suiting[0])
        self.free.insert(0, short)
        return suiting[0]

    def wanted(self, address: int) -> List[Row]:
        return [row for row in self.rows if row.address == address]

    def fits(self, types: List[Optional[int]], address: int) -> bool:
        """Whether a device with instances of these types is like that of the table."""
        for row in self.wanted(address):
            kind = INPUTS[row.kind]
            if row.instance >= len(types) or kind and kind.number != types[row.instance]:
                return False
        return True


def types_of(wire: DeviceWire, device: int) -> List[Optional[int]]:
    """The types of the instances of a device."""
    count = wire.number(wire.frame(device, DEVICE, code("QUERY NUMBER OF INSTANCES"))) or 0
    return [
        wire.number(wire.frame(device, number, code("QUERY INSTANCE TYPE"))) for number in range(min(count, INSTANCES))
    ]
