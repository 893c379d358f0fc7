#!/usr/bin/env python3
"""A bus of somebody else, over standard input and output.

It is for whatever else is to switch lamps or to be switched.

  bridge.py --pty LINK             makes a pseudo terminal, and the symbolic link LINK to it
  bridge.py --fifo SOURCE SINK     uses two FIFOs, and makes them where they are missing

One line goes out for each level that the controller sends, and one line comes in for each event.
Exactly one space stands between words, numbers are decimal, and a line feed ends the line.

  out   level ADDRESS N    the controller sent level N, 0 (off) to 254; ADDRESS is 0 to 63,
                           `group 0` to `group 15`, or `all`
        hello              a controller greeted: the events that waited are gone
  in    event S I N        instance I (0 to 31) of device S (0 to 63) says the information N
                           (0 to 1023)

The binding has an event as `source B.K device-instance S I`. Any other line is reported on standard
error, and does nothing; of one with more than 64 bytes no more are kept. At the end of standard input
no more events come, and levels still go out. Where nobody reads standard output any more, the bus
fails.

KNX, BACnet or a page need a program that has these lines on one side. None is here, and none was
tried.
"""

from __future__ import annotations

import argparse
import os
import re
import sys
import threading
from typing import IO, Iterator

from gushewa_line.gateway import Gateway, device_event, name_of
from gushewa_line.line import Fault
from gushewa_line.program import add_ends, report, run

MOST_BYTES = 64
EVENT = re.compile(r"event ([0-9]{1,2}) ([0-9]{1,2}) ([0-9]{1,4})")


def say(line: str) -> None:
    """Writes a line at once. Raises Fault where nobody reads it."""
    try:
        print(line, flush=True)
    except OSError as error:
        raise Fault from error


def lines_of(stream: IO[bytes]) -> Iterator[bytes]:
    """Each line without its line feed. Of a longer one than any event has, its first bytes."""
    while line := stream.readline(MOST_BYTES):
        more = line
        while len(more) == MOST_BYTES and not more.endswith(b"\n"):
            more = stream.readline(MOST_BYTES)
        yield line.removesuffix(b"\n")


class Bridge(Gateway):
    """A bus whose levels are lines of standard output."""

    def __init__(self) -> None:
        super().__init__(lambda address, level: say(f"level {name_of(address)} {level}"))

    def forget(self) -> None:
        super().forget()
        say("hello")

    def read_events(self) -> None:
        """Puts each event of standard input, up to its end."""
        for number, line in enumerate(lines_of(sys.stdin.buffer), 1):
            event = EVENT.fullmatch(line.decode("ascii", "replace"))
            try:
                if not event:
                    raise ValueError("it is no line event S I N")
                self.events.add(device_event(*(int(word) for word in event.groups())))
            except ValueError as error:
                report(f"line {number} does nothing: {error}")


def main() -> None:
    parser = argparse.ArgumentParser(usage=__doc__)
    add_ends(parser)
    given = parser.parse_args()
    bridge = Bridge()
    threading.Thread(target=bridge.read_events, daemon=True).start()
    status = 0
    try:
        run(bridge, given)
    except SystemExit as ended:
        status = int(ended.code or 0)
    os._exit(status)  # a thread may wait in a read of standard input, which an orderly end would wait for


if __name__ == "__main__":
    main()
