#!/usr/bin/env python3
"""An interface that simulates a DALI bus: control gear, control devices, and buttons that press themselves.

  simulated.py --pty LINK ..           makes a pseudo terminal, and the symbolic link LINK to it
  simulated.py --fifo SOURCE SINK ..   uses two FIFOs, and makes them where they are missing

The bus (gear.py says what the gear knows, and devices.py what the control devices do):

  --gear 0,1,5            the short addresses of the gear (0 to 7 if nothing is said; '' is none)
  --unaddressed COUNT     as many gear without a short address
  --type ADDRESS:6,8      the device types of a gear; type 6 if nothing is said. May stand again
  --group ADDRESS:0,3     the groups of a gear. May stand again
  --scene ADDRESS:2:100   a scene of a gear, with its level. May stand again
  --device ADDRESS:1,1,3  a control device, with the types of its instances: 1 is a push button, 3 an
                          occupancy sensor, 4 a light sensor. Without ADDRESS, as in :1,1, it has no
                          short address. May stand again
  --unaddressed-devices COUNT
                          as many control devices without a short address: four buttons each, and
                          each fourth of them the two sensors
  --random 123456,0000FF  the random addresses that RANDOMISE gives first, one after another
  --seed NUMBER           the seed of the random addresses behind these
  --button 0A8809:3       an event message (here device 5, instance 2) each three seconds. May
                          stand again
  --counter 0A8800:3      the same, with an information (0 to 1023) that is one more each time
  --real                  takes the time that frames take on a bus of 1200 baud
  --lose N                one frame in N, by chance, meets a collision

The interface:

  --log FILE              writes each line into FILE, with the seconds since the start
  --start-after SECONDS   makes its line only then

Its troubles (trouble.py), to see what a controller does then. N counts the requests after a
greeting; the greeting itself is 0. A trouble comes once, and with --again after each greeting. Each
may stand again, for another request:

  --silent-at N:SECONDS   falls silent, and then answers all at once
  --half-at N             gives half the line of an answer, and nothing behind it
  --fault-once N          answers `fault`, and sends and hears nothing
  --unplug-at N:SECONDS   ends its line, and makes it anew under the same path
  --babble-at N:SECONDS   writes lines that nobody asked for, as fast as the line takes them
  --end-at N              ends
  --fault-at N            answers `fault` to this request after a greeting and to all behind it
  --echo                  sends each request back before its answer
  --flood                 has an event each time that it is asked for one; in version 3 one each millisecond
  --version-1             speaks version 1 of the line alone
  --version-2             speaks versions 1 and 2 of the line alone
"""

from __future__ import annotations

import argparse
import os
import random
import sys
import threading
import time
from typing import Callable, List, Optional, Sequence, TextIO

HERE = os.path.dirname(os.path.realpath(__file__))
sys.path.insert(1, os.path.join(HERE, "../../programs"))  # the library of the line, gushewa_line
from addresses import random_addresses  # noqa: E402
from devices import BUTTON, LIGHT, OCCUPANCY, AllDevices, Device  # noqa: E402
from gear import AllGear, Gear  # noqa: E402
from gushewa_line.line import LOST, QUIET, HearingBus, note_nothing  # noqa: E402
from gushewa_line.program import add_ends, end_of, give_up  # noqa: E402
from trouble import TroubledInterface, add_words, plan_of  # noqa: E402

# Seconds: a frame with its stop condition; a backward frame with the wait for it; that wait.
FRAME_TIMES = {16: 0.0165, 24: 0.0231}
ANSWER_TIME, WAIT_TIME = 0.0155, 0.0105
# The instances of control devices without an address.
BUTTONS, SENSORS = (BUTTON,) * 4, (OCCUPANCY, LIGHT)
LAST_INFORMATION = 0x3FF


class Button:
    """An event message that comes again and again, with the same information or one that counts up."""

    def __init__(self, text: str, counts: bool = False) -> None:
        event, seconds = text.split(":")
        self.event, self.seconds, self.counts = int(event, 16), float(seconds), counts
        self.next = time.monotonic() + self.seconds

    def press(self) -> int:
        """The event of the press that is due now."""
        event = self.event
        self.next += self.seconds
        if self.counts:
            self.event = event & ~LAST_INFORMATION | event + 1 & LAST_INFORMATION
        return event


class SimulatedBus(HearingBus):
    """Gear, control devices, and buttons."""

    def __init__(
        self, gear: AllGear, devices: AllDevices, buttons: Sequence[Button], given: argparse.Namespace
    ) -> None:
        super().__init__()
        self.gear, self.devices, self.buttons = gear, devices, buttons
        self.has_bus_time, self.lose = given.real, given.lose
        self.chance = random.Random(given.seed)
        if self.buttons:
            threading.Thread(target=self.press_buttons, daemon=True).start()

    def press_buttons(self) -> None:
        """Presses each button at its time."""
        while True:
            button = min(self.buttons, key=lambda it: it.next)
            time.sleep(max(0.0, button.next - time.monotonic()))
            self.events.add(button.press())

    def send(self, bits: int, frame: int, priority: int) -> str:
        self.spend(FRAME_TIMES[bits])
        if self.lose and self.chance.randrange(self.lose) == 0:
            self.gear.pairs.break_off()
            self.devices.pairs.break_off()
            return LOST
        came = self.gear.send(frame) if bits == 16 else self.devices.send(frame)
        self.spend(WAIT_TIME if came == QUIET else ANSWER_TIME)
        return came

    def spend(self, seconds: float) -> None:
        if self.has_bus_time:
            time.sleep(seconds)


# The command line.


def numbers(text: str) -> List[int]:
    return [int(word) for word in text.split(",") if word]


def of_gear(words: Sequence[str], address: int) -> List[List[str]]:
    """What stands behind ADDRESS: in the words that speak of this gear."""
    return [rest for first, *rest in (word.split(":") for word in words) if int(first) == address]


def chance_of(given: argparse.Namespace) -> Callable[[], int]:
    """What RANDOMISE gives."""
    return random_addresses([int(word, 16) for word in given.random.split(",") if word], given.seed)


def gear_of(given: argparse.Namespace, chance: Callable[[], int]) -> List[Gear]:
    made: List[Gear] = []
    for address in numbers(given.gear):
        types = of_gear(given.type, address)
        gear = Gear(address, numbers(types[-1][0]) if types else [6], chance)
        for (groups,) in of_gear(given.group, address):
            gear.groups.update(numbers(groups))
        for scene, level in of_gear(given.scene, address):
            gear.scenes[int(scene)] = int(level)
        made.append(gear)
    return made + [Gear(None, [6], chance) for _ in range(given.unaddressed)]


def devices_of(given: argparse.Namespace, chance: Callable[[], int]) -> List[Device]:
    made: List[Device] = []
    for word in given.device:
        address, _, kinds = word.partition(":")
        made.append(Device(int(address) if address else None, numbers(kinds), chance))
    for count in range(given.unaddressed_devices):
        made.append(Device(None, SENSORS if count % 4 == 3 else BUTTONS, chance))
    return made


def noting(log: Optional[TextIO]) -> Callable[[str, str], None]:
    """Writes each line down, with the seconds since now."""
    if log is None:
        return note_nothing
    start, write = time.monotonic(), log.write

    def note(way: str, line: str) -> None:
        write(f"{time.monotonic() - start:.4f} {way} {line}\n")  # in one piece, since two threads note

    return note


def read_words() -> argparse.Namespace:
    parser = argparse.ArgumentParser(usage=__doc__)
    add_ends(parser)
    parser.add_argument("--gear", default="0,1,2,3,4,5,6,7")
    parser.add_argument("--unaddressed", type=int, default=0)
    parser.add_argument("--unaddressed-devices", type=int, default=0)
    for option in ("--type", "--group", "--scene", "--device", "--button", "--counter"):
        parser.add_argument(option, action="append", default=[])
    parser.add_argument("--random", default="")
    parser.add_argument("--seed", type=int)
    parser.add_argument("--real", action="store_true")
    parser.add_argument("--lose", type=int, default=0)
    parser.add_argument("--log")
    parser.add_argument("--start-after", type=float, default=0.0)
    add_words(parser)
    return parser.parse_args()


def main() -> None:
    given = read_words()
    note = noting(open(given.log, "w", buffering=1) if given.log else None)
    chance = chance_of(given)
    gear = AllGear(gear_of(given, chance), given.real)
    devices = AllDevices(devices_of(given, chance), given.real)
    buttons = [Button(text) for text in given.button] + [Button(text, True) for text in given.counter]
    bus = SimulatedBus(gear, devices, buttons, given)
    try:
        time.sleep(given.start_after)
        TroubledInterface(bus, end_of(given), note, plan_of(given)).serve()
    except (KeyboardInterrupt, BrokenPipeError):
        pass  # ended by hand, or nobody reads the log
    except OSError as error:
        give_up(f"the line is not there: {error}")


if __name__ == "__main__":
    main()
