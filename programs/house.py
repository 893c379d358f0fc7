#!/usr/bin/env python3
"""Commissions a house from one table: house.csv says what is in which room, and where.

IT IS NOT PROVED, and was tried on simulated buses alone.

  house.py TABLE check                      reads the table, and says each fault with its line
  house.py TABLE write [--into FOLDER]      makes of it a binding, the block VAR_GLOBAL of the text, and
                                            a page for the customer
  house.py TABLE compare --line B=PATH      asks bus B what is there, and says what differs from the table
  house.py TABLE carry-out --line B=PATH    gives the addresses of the table to gear and devices that have
                                            none, sets what differs, reads it back, and says what is left
  house.py TABLE place --line B=PATH        blinks one lamp after another, and waits for a press of each
                                            button: you say which it is, and it changes its address with
                                            what stands at the right one

The columns of TABLE are room, name, bus, kind, address, group, device, instance and settings, with
commas or semicolons between them; docs/PROGRAMS.md says what stands in each. Where a line has a fault
nothing is written and nothing is sent.

For house.csv `write` makes house.bind, house.globals and house.html, all of them or none. It replaces
no file that it did not make. --title is the title of the page.

--line B=PATH may stand again for each bus: a device or a pseudo terminal, or FROM,TO, two FIFOs. End
the building on these lines first. Where a line fails, it is waited for, 60 seconds (--patience
SECONDS). Buses without a --line are left out. `compare` asks, and changes nothing. `carry-out` may be
started again: where nothing differs it asks alone.

Which gear takes which of the free addresses is left to chance. `place` brings it to its own; then carry
the table out once more, since settings and groups went along with the gear.

The exit status is 0 where nothing is left that differs, 1 where something is or the table has faults,
2 at wrong usage, and 3 where a file or a line failed.
"""

from __future__ import annotations

import argparse
import os
import pathlib
import select
import sys
from typing import Callable, Dict, List, Tuple

from dalictl_house.bus import HouseBus
from dalictl_house.device_wire import DeviceWire
from dalictl_house.files import binding, global_variables
from dalictl_house.page import page
from dalictl_house.place import Left, Person, Placing
from dalictl_house.table import BUSES, Faulty, Row, read_table
from gushewa_line.controller import Controller, LineFailed
from gushewa_line.program import visible
from searching import Gone, Wire

NOT_PROVED = "house.py is not proved, and was tried on simulated buses alone: look at what it did"
MARK = "made by house.py"


class NotWritten(Exception):
    """A file is there that somebody else made."""


def write(rows: List[Row], table: pathlib.Path, folder: pathlib.Path, title: str) -> None:
    """Writes what is made of a table: all of it, or nothing."""
    made_of = f"{MARK} of {table.name}: change the table, and make this anew"
    texts = {
        folder / f"{table.stem}.bind": binding(rows, made_of),
        folder / f"{table.stem}.globals": global_variables(rows, made_of),
        folder / f"{table.stem}.html": page(rows, title, made_of),
    }
    for path in texts:
        if path.exists() and MARK not in path.read_text(encoding="utf-8", errors="replace"):
            raise NotWritten(f"{path} was not {MARK}: nothing was written")
    for path, text in texts.items():
        path.with_name(f"{path.name}.new").write_text(text, encoding="utf-8")
    for path in texts:
        os.replace(path.with_name(f"{path.name}.new"), path)
        print(f"{path} written")


def note(words: str) -> None:
    print(words, file=sys.stderr, flush=True)


def say(words: str) -> None:
    print(words, flush=True)


def at_buses(rows: List[Row], lines: Dict[int, str], command: str, patience: float) -> bool:
    """Does a command at each bus that has a line. Returns whether nothing is left that differs."""
    note(NOT_PROVED)
    is_same = True
    for bus in sorted({row.bus for row in rows} - set(lines)):
        note(f"bus {bus} has no --line: it is left out")
    controllers = {bus: Controller(path) for bus, path in sorted(lines.items())}
    for controller in controllers.values():
        controller.open()  # before anything is sent on one of them
    for bus, controller in controllers.items():
        of_bus = [row for row in rows if row.bus == bus]
        wires = Wire(controller, note, patience), DeviceWire(controller, note, patience)
        if command == "place":
            Placing(of_bus, *wires, Person(input, is_left, say)).place()
        else:
            is_same = at_bus(HouseBus(of_bus, *wires, bus_say(bus)), command) and is_same
    return is_same


def bus_say(bus: int) -> Callable[[str], None]:
    return lambda words: say(f"bus {bus}: {words}")


def at_bus(bus: HouseBus, command: str) -> bool:
    """Compares a bus with the table, or carries it out there. Returns whether nothing is left that differs."""
    found = bus.carry_out() if command == "carry-out" else bus.compare()
    for words in found.words():
        bus.say(words)
    return not found.words()


def is_left() -> bool:
    """Whether somebody pressed Enter, or the input has ended."""
    if not select.select([sys.stdin], [], [], 0)[0]:
        return False
    if not sys.stdin.readline():
        raise EOFError
    return True


def line_of(text: str) -> Tuple[int, str]:
    bus, equals, path = text.partition("=")
    if not (bus.isascii() and bus.isdecimal() and len(bus) < 3 and int(bus) < BUSES and path):
        raise argparse.ArgumentTypeError("a line is B=PATH, with the number of a bus")
    return int(bus), path


def read_words() -> argparse.Namespace:
    parser = argparse.ArgumentParser(usage=__doc__)
    parser.add_argument("table", type=pathlib.Path)
    commands = parser.add_subparsers(dest="command", required=True)
    commands.add_parser("check")
    command = commands.add_parser("write")
    command.add_argument("--into", type=pathlib.Path, default=pathlib.Path("."))
    command.add_argument("--title")
    for name in ("compare", "carry-out", "place"):
        command = commands.add_parser(name)
        command.add_argument("--line", type=line_of, action="append", required=True)
        command.add_argument("--patience", type=float, default=60.0)
    words = parser.parse_args()
    if len(dict(getattr(words, "line", []))) < len(getattr(words, "line", [])):
        parser.error("a bus has one --line")
    return words


def run(words: argparse.Namespace) -> bool:
    """Does what the command line says. Returns whether nothing is left that differs."""
    rows = read_table(words.table)
    if words.command == "write":
        write(rows, words.table, words.into, words.title or words.table.stem)
    elif words.command == "check":
        say(f"{len(rows)} lines, {sum(row.is_input for row in rows)} of them inputs")
    else:
        return at_buses(rows, dict(words.line), words.command, words.patience)
    return True


def main() -> None:
    words = read_words()
    try:
        sys.exit(0 if run(words) else 1)
    except Faulty as faulty:
        for line, fault in faulty.faults:
            say(visible(f"{words.table}:{line}: {fault}"))
        sys.exit(1)
    except NotWritten as reason:
        note(str(reason))
    except OSError as error:
        note(f"{error.filename}: {error.strerror}")
    except (Gone, LineFailed) as failure:
        note(f"given up: {failure}")
    except (KeyboardInterrupt, EOFError, Left):
        note("ended by hand: start it again, and it goes on with what differs")
        sys.exit(1)
    sys.exit(3)


if __name__ == "__main__":
    main()
