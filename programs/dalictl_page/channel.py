"""The socket between the process of the lines and that of the browser: lines of text, both ways."""

from __future__ import annotations

import socket
from typing import List, NamedTuple

# What waits to be sent may have this many bytes. What finds no room is dropped, and counted.
MOST_WAITING = 1_000_000


class Sight(NamedTuple):
    """Something that was seen on a line: when, on which bus, which way it went, and what.

    The ways are those of `Relay`; `=` is what became of the interface's line, and `~` comes each
    second: the number of requests, and the milliseconds for which one waits.
    """

    at: float
    bus: int
    way: str
    text: str

    def line(self) -> str:
        return f"{self.at:.3f} {self.bus} {self.way} {self.text}\n"


def sight_of(line: str) -> Sight:
    at, bus, way, text = line.rstrip("\n").split(" ", 3)
    return Sight(float(at), int(bus), way, text)


class Channel:
    """One end of the socket, which never waits."""

    def __init__(self, end: socket.socket) -> None:
        self.end, self.waiting, self.begun = end, bytearray(), b""
        self.dropped = 0
        end.setblocking(False)

    def say(self, line: str) -> None:
        """Adds a line, which `flush` sends."""
        if len(self.waiting) + len(line) > MOST_WAITING:
            self.dropped += 1
            return
        self.waiting += line.encode("ascii", "backslashreplace")

    def flush(self) -> None:
        """Sends what the other side takes now. Raises OSError where that side has ended."""
        try:
            while self.waiting:
                del self.waiting[: self.end.send(self.waiting)]
        except BlockingIOError:
            pass  # the other side is slow: the rest goes out later

    def read(self) -> List[str]:
        """The lines that came. Raises OSError where the other side has ended."""
        try:
            more = self.end.recv(65536)
        except BlockingIOError:
            return []
        if not more:
            raise ConnectionResetError
        *lines, self.begun = (self.begun + more).split(b"\n")
        return [line.decode("ascii") for line in lines]
