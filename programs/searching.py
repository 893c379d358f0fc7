"""The search for gear without a short address, and changes of short addresses (IEC 62386-102).

`DeviceWire` (device_wire.py) is the same for control devices (IEC 62386-103).

Each frame is sent until it is known to have been sent. Where the line fails, it is opened anew, and
the search goes on where it was, since the gear keeps what it was sent. Every command here may come
twice without harm.
"""

from __future__ import annotations

import time
from typing import Callable, List, NoReturn, Optional, Sequence

from gushewa_line.controller import Controller, LineFailed
from gushewa_line.line import DAMAGED, LOST, QUIET, answer, byte_of
from gushewa_line.numbers import (
    ADDRESSES,
    MASK,
    QUERY_CONTROL_GEAR_PRESENT,
    QUERY_MISSING_SHORT_ADDRESS,
    SET_SHORT_ADDRESS,
)

TERMINATE, INITIALISE, RANDOMISE, COMPARE, WITHDRAW = "TERMINATE", "INITIALISE", "RANDOMISE", "COMPARE", "WITHDRAW"
PROGRAM, VERIFY = "PROGRAM SHORT ADDRESS", "VERIFY SHORT ADDRESS"
SEARCH = ("SEARCHADDRH", "SEARCHADDRM", "SEARCHADDRL")
DTRS = ("DTR0", "DTR1", "DTR2")
# The special commands of gear. Those of control devices stand in device_codes.py.
OF_GEAR = {
    **{TERMINATE: 0xA1, INITIALISE: 0xA5, RANDOMISE: 0xA7, COMPARE: 0xA9, WITHDRAW: 0xAB, PROGRAM: 0xB7, VERIFY: 0xB9},
    **dict(zip(SEARCH, (0xB1, 0xB3, 0xB5))),
    **dict(zip(DTRS, (0xA3, 0xC3, 0xC5))),
}
ALL_GEAR = 0xFF
YES = answer(255)

GREATEST_RANDOM = 0xFFFFFF
ATTEMPTS = 20  # of a transaction that is lost, or at which the interface fails
RANDOMISE_SECONDS = 0.15  # gear has 100 ms to find a random address
PAUSE_SECONDS = 0.5  # between two tries to open the line
ROUNDS = 8
MISSES = 4  # in a round
CLASHES = ADDRESSES  # in a round
DISTURBANCES = 8  # in a row, at an address that nobody has


class Gone(Exception):
    """The line did not come back, or another sender disturbs it all the time."""


class Refused(Exception):
    """What was asked for is not possible, and nothing was changed."""


class Wire:
    """Transactions over a line that may fail."""

    def __init__(self, line: Controller, note: Callable[[str], None], patience: float) -> None:
        self.line, self.note, self.patience = line, note, patience
        self.is_gone = False

    def transaction(self, *frames: int) -> str:
        """Sends frames one after another, all anew where one failed. Returns the last answer."""
        why = ""
        for attempt in range(ATTEMPTS):
            try:
                came = self.attempt(frames)
                if came != LOST:
                    return came
                why = "the frame was lost"
            except LineFailed as failure:
                why = str(failure)
                if attempt:
                    time.sleep(PAUSE_SECONDS)
                self.come_back(why)
        self.give_up(f"{ATTEMPTS} attempts in a row failed, the last one since {why}")

    def give_up(self, why: str) -> NoReturn:
        self.is_gone = True
        raise Gone(why)

    def attempt(self, frames: Sequence[int]) -> str:
        came = LOST
        for place, frame in enumerate(frames):
            # The first byte of a frame of 24 bits is never 0.
            came = self.line.send(frame, 24 if frame > 0xFFFF else 16, 1 if place else 3)
            if came == LOST:
                break
        return came

    def come_back(self, failure: str) -> None:
        """Opens the line anew, for as long as the patience lasts."""
        self.note(f"the line failed ({failure}): waiting for it")
        self.line.close()
        end = time.monotonic() + self.patience
        while True:
            try:
                self.line.open()
                break
            except LineFailed as again:
                if time.monotonic() > end:
                    self.give_up(f"the line did not come back: {again}")
                time.sleep(PAUSE_SECONDS)
        self.note("the line is back: going on")

    def number(self, *frames: int) -> Optional[int]:
        """The byte that answers the last of these frames, or None."""
        return byte_of(self.transaction(*frames))

    # How gear is spoken to.

    noun = some = several = "gear"
    without_address = 0xFF  # behind INITIALISE

    def special_frame(self, command: str, data: int = 0) -> int:
        return OF_GEAR[command] << 8 | data

    def address_byte(self, short: Optional[int]) -> int:
        """A short address as a byte behind a command, or no address."""
        return MASK if short is None else short << 1 | 1

    def presence(self, address: int) -> str:
        """What comes where those who have a short address are asked whether they are there."""
        return self.transaction((address << 1 | 1) << 8 | QUERY_CONTROL_GEAR_PRESENT)

    def is_of_one(self, came: str) -> bool:
        """Whether an answer to that is one of one alone, as far as it can be heard."""
        return came == YES

    def is_missing(self) -> bool:
        """Whether gear has no short address."""
        return self.transaction(ALL_GEAR << 8 | QUERY_MISSING_SHORT_ADDRESS) != QUIET

    def set_address(self, old: int, new: Optional[int]) -> None:
        """Gives another short address, or takes it away."""
        command = (old << 1 | 1) << 8 | SET_SHORT_ADDRESS
        self.transaction(self.special_frame("DTR0", self.address_byte(new)), command, command)

    # What follows from that.

    def special(self, command: str, data: int = 0) -> str:
        return self.transaction(self.special_frame(command, data))

    def special_twice(self, command: str, data: int = 0) -> str:
        frame = self.special_frame(command, data)
        return self.transaction(frame, frame)

    def cell(self, address: int) -> str:
        """Who has this short address: `.` nobody, `o` one, `?` several.

        Where nobody answers it asks again, since an answer may have been disturbed.
        """
        came = self.presence(address)
        if came == QUIET:
            came = self.presence(address)
        return "." if came == QUIET else "o" if self.is_of_one(came) else "?"

    def is_there(self, address: int) -> bool:
        return self.cell(address) != "."

    def is_one(self, address: int) -> bool:
        return self.cell(address) == "o"


class Search:
    """Gives free short addresses to gear, or to control devices, that have none.

    `watch(low, high)` sees between which random addresses the next gear is.
    """

    def __init__(self, wire: Wire, free: List[int], watch: Callable[[int, int], None]) -> None:
        self.wire, self.free, self.watch = wire, free, watch
        self.searched: List[Optional[int]] = [None, None, None]

    def rounds(self, given: Callable[[int, int], None], equal: Callable[[int], None]) -> bool:
        """Searches until none lacks an address. Returns whether that came about.

        In each round all that have no address take a new random address. `given` sees each short
        address with the random one. `equal` sees a random address at which several answered, or one
        whose answer was disturbed; what is there waits for the next round.
        """
        try:
            for _ in range(ROUNDS):
                if not self.wire.is_missing() or not self.free:
                    break
                self.round(given, equal)
            return not self.wire.is_missing()
        finally:
            if not self.wire.is_gone:
                self.wire.special(TERMINATE)

    def round(self, given: Callable[[int, int], None], equal: Callable[[int], None]) -> None:
        """One round."""
        self.wire.special(TERMINATE)
        self.wire.special_twice(INITIALISE, self.wire.without_address)
        self.wire.special_twice(RANDOMISE)
        time.sleep(RANDOMISE_SECONDS)
        self.need_undisturbed()
        self.searched = [None, None, None]
        low, misses, clashes = 0, 0, 0
        while misses < MISSES and clashes < CLASHES and self.free and (random := self.lowest(low)) is not None:
            came = self.program(random, self.free[0])
            if came == YES:
                given(self.free.pop(0), random)
            elif came == DAMAGED:
                self.need_undisturbed()
                equal(random)
            self.wire.special(WITHDRAW)
            # Where nobody is, a disturbance led the search astray: it begins anew.
            misses += came == QUIET
            clashes += came == DAMAGED
            low = 0 if came == QUIET else random + 1

    def need_undisturbed(self) -> None:
        """Gives up where something answers again and again at a short address that nobody has."""
        if all(self.wire.is_there(self.free[0]) for _ in range(DISTURBANCES)):
            self.wire.give_up(
                f"the bus is disturbed: something answers at short address {self.free[0]}, which was free"
            )

    def program(self, random: int, short: int) -> str:
        """Gives a short address to the gear with this random one.

        Returns YES where just one took it. Else nobody has it: DAMAGED where several answered, and
        QUIET where nobody did.
        """
        self.set_search(random)
        self.wire.special(PROGRAM, self.wire.address_byte(short))
        came = self.wire.special(VERIFY, self.wire.address_byte(short))
        if came != YES:
            self.wire.special(PROGRAM, self.wire.address_byte(None))
        return came if came in (YES, QUIET) else DAMAGED

    def lowest(self, low: int) -> Optional[int]:
        """The least random address that is not below `low`; None where no gear answers any more."""
        high = GREATEST_RANDOM
        if low > high or not self.compare(high):
            return None
        while low < high:
            self.watch(low, high)
            middle = (low + high) // 2
            if self.compare(middle):
                high = middle
            else:
                low = middle + 1
        return low

    def compare(self, random: int) -> bool:
        """Whether gear has a random address up to this one. Answers of several are damaged."""
        self.set_search(random)
        return self.wire.special(COMPARE) != QUIET

    def set_search(self, random: int) -> None:
        """Sets the search address, the bytes alone that differ from those before."""
        for place, command in enumerate(SEARCH):
            byte = random >> 8 * (2 - place) & 0xFF
            if self.searched[place] != byte:
                self.wire.special(command, byte)
                self.searched[place] = byte
