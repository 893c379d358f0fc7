#!/usr/bin/python3
"""A page for the browser: what a building does, and presses by hand.

  page.py --line B=PATH .. --folder FOLDER ..   stands between the controller and its interfaces
  page.py --hash NAME                           asks for a password, and prints a line of a file of hashes

  --line 0=PATH         the interface of bus 0: a device, a pseudo terminal, or two FIFOs (FROM,TO); each
                        bus from 0 on needs its own
  --folder FOLDER       where the lines for the controller are: `dalictl live .. --line 0=FOLDER/dali0`
  --patience MS         that of the controller, for which a line may be silent (1000 if none is given)

What the page reads, as far as it is given:

  --text FILE           the text: its lamps and inputs have their names there
  --bind FILE           the binding: the buttons and sensors
  --names FILE          a table of names; dalictl_page/names.py has its lines
  --status FILE         the status of the building, which it writes with --json
  --log FILE            its log
  --keep FILE           its kept values, for the timers
  --record FILE         its record: the last hour is drawn of it, with --text and --bind
  --program PATH        draws it (dalictl if none is given)

Who may look and press:

  --at ADDRESS:PORT     listens there (127.0.0.1:8480 if none is given)
  --host NAME           a name by which a browser may call this page; may stand again
  --passwords FILE      a file of lines of --hash NAME
  --token FILE          a file with a token, which its owner alone can read

An address that other machines can reach needs --passwords or --token. Whoever may look may press.

It needs python3-aiohttp. It passes on all that goes over the lines, and sends no frame of its own. A
press by hand is told to the controller as an event that the interface heard.
"""

from __future__ import annotations

import argparse
import ipaddress
import os
import pathlib
import re
import sys
from typing import List, NoReturn, Tuple

from dalictl_page.allowed import is_known_host
from dalictl_page.desk import Desk
from dalictl_page.doors import Doors, print_line, read_hashes, read_token
from dalictl_page.names import Names

LINE = re.compile(r"([0-9]{1,2})=(.+)")
PLACE = re.compile(r"(?:\[([0-9A-Fa-f:.]+)\]|([^:\[\]]+)):([0-9]{1,5})")
MOST_BUSES = 64


def stop(why: object) -> NoReturn:
    print(f"page.py: {why}", file=sys.stderr)
    sys.exit(2)


def lines_of(words: List[str], folder: str) -> List[Tuple[str, str]]:
    """The path of each bus's interface, with the link for the controller."""
    found = {}
    for word in words:
        row = LINE.fullmatch(word)
        if not row or int(row[1]) in found or int(row[1]) >= MOST_BUSES:
            stop(f"--line {word}: it is B=PATH, once for each bus")
        found[int(row[1])] = row[2]
    if sorted(found) != list(range(len(found))) or not found:
        stop("each bus from 0 on needs a --line B=PATH")
    if not os.path.isdir(folder):
        stop(f"the folder {folder} is not there")
    return [(found[bus], os.path.join(folder, f"dali{bus}")) for bus in sorted(found)]


def place_of(at: str) -> Tuple[str, int]:
    """The address and the port of --at."""
    found = PLACE.fullmatch(at)
    if not found or int(found[3]) > 65535:
        stop(f"--at {at}: it is ADDRESS:PORT")
    return found[1] or found[2], int(found[3])


def is_this_machine(address: str) -> bool:
    """Whether no other machine can reach an address."""
    try:
        return ipaddress.ip_address(address).is_loopback
    except ValueError:
        return False


def names_of(given: argparse.Namespace) -> Names:
    names = Names()
    for path, read in (
        (given.bind, names.read_binding),
        (given.text, names.read_text),
        (given.names, names.read_table),
    ):
        if path:
            try:
                read(pathlib.Path(path).read_text(encoding="utf-8"))
            except (OSError, ValueError) as error:
                stop(f"{path}: {getattr(error, 'strerror', None) or error}")
    return names


def doors_of(given: argparse.Namespace) -> Doors:
    try:
        hashes = read_hashes(pathlib.Path(given.passwords).read_text(encoding="utf-8")) if given.passwords else {}
    except (OSError, ValueError) as error:
        stop(f"{given.passwords}: {getattr(error, 'strerror', None) or error}")
    try:
        return Doors(hashes, read_token(given.token) if given.token else "")
    except (OSError, ValueError) as error:
        stop(f"{given.token}: {getattr(error, 'strerror', None) or error}")


def serve_browser(given: argparse.Namespace, buses: int) -> None:
    """What the process of the browser does."""
    try:
        from dalictl_page.serve import run
        from dalictl_page.web import Setup
    except ImportError as error:
        stop(f"{error}: install python3-aiohttp")
    from dalictl_page.beside import Beside
    from dalictl_page.state import Building

    names, doors = names_of(given), doors_of(given)
    address, port = place_of(given.at)
    run(
        Setup(
            address,
            port,
            given.host,
            Building(names, buses, given.patience / 1000),
            Beside(names, given.status, given.keep, given.log),
            doors,
            (given.program, given.text, given.bind, given.record),
        ),
        given.channel,
    )


def read_words() -> argparse.Namespace:
    parser = argparse.ArgumentParser(usage=__doc__)
    parser.add_argument("--line", action="append", default=[])
    parser.add_argument("--folder", default="")
    parser.add_argument("--patience", type=int, default=1000)
    for option in ("text", "bind", "names", "status", "log", "keep", "record", "passwords", "token", "hash"):
        parser.add_argument(f"--{option}", default="")
    parser.add_argument("--program", default="dalictl")
    parser.add_argument("--at", default="127.0.0.1:8480")
    parser.add_argument("--host", action="append", default=[])
    parser.add_argument("--channel", type=int, help=argparse.SUPPRESS)  # this process is that of the browser
    return parser.parse_args()


def main() -> None:
    given = read_words()
    if given.hash:
        return print_line(given.hash)
    lines, (address, _) = lines_of(given.line, given.folder), place_of(given.at)
    if not is_this_machine(address) and not (given.passwords or given.token):
        stop(f"{address} can be reached by other machines: give --passwords FILE or --token FILE")
    for name in given.host:
        if not is_known_host(name, given.host):
            stop(f"--host {name}: it is a name in small letters, without a port")
    if given.channel is not None:
        return serve_browser(given, len(lines))
    try:
        Desk(lines, [sys.executable, os.path.abspath(__file__), *sys.argv[1:]]).serve()
    except KeyboardInterrupt:
        pass  # ended by hand


if __name__ == "__main__":
    main()
