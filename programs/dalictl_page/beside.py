"""What the controller writes beside itself: its status, its kept values and its log (docs/LIVE.md)."""

from __future__ import annotations

import collections
import datetime
import json
import os
import re
import stat
from typing import Any, Deque, Dict, List, NamedTuple, Optional, Tuple, Union

from gushewa_line.gateway import address_of

from .names import Names, Place, address_words
from .words import said, sent_by, source_of

Value = Union[int, bool]
MOST_BYTES = 4_000_000  # of a status or of kept values
LOG_BYTES = 262_144  # of a log that are read at a time
KEPT_VALUE = re.compile(r"([A-Za-z_][\w.]*) = (-?[0-9]+|TRUE|FALSE)")
LOGGED = re.compile(r"[0-9]+ [0-9]+ (\d{4}-\d\d-\d\dT\d\d:\d\d:\d\dZ) (.*)")
BUS_AND_FRAME = re.compile(r"(heard|hand) bus ([0-9]+): .*\(([0-9A-F]{4}|[0-9A-F]{6})\)")
OF_SCANS = ("tick", "take ", "commit ")


class Status(NamedTuple):
    """What a status says."""

    moment: int
    down: List[int]
    levels: Dict[Place, int]
    values: Dict[str, Value]


class Timer(NamedTuple):
    """A time that runs (TON), with the milliseconds of it that are left and that it takes."""

    name: str
    left: int
    of: int


class Logged(NamedTuple):
    """A line of the controller's log: when, what, and what that means by the names of the house."""

    at: float
    words: str
    means: str
    is_trouble: bool


def seconds_of(date: str) -> float:
    """Seconds since 1970 of a date such as 2026-11-27T23:12:03Z."""
    return datetime.datetime.strptime(date, "%Y-%m-%dT%H:%M:%S%z").timestamp()


def read_status(text: str) -> Status:
    """Reads a status that was written with --json. Raises ValueError where it is none."""
    try:
        whole: Dict[str, Any] = json.loads(text)
        if whole["version"] != 1:
            raise ValueError("it is of another version")
        return Status(
            int(whole["moment_ms"]),
            [int(it["bus"]) for it in whole["buses"] if it["state"] != "up"],
            {(int(it["bus"]), int(it["address"])): int(it["sent"]) for it in whole["levels"]},
            {str(name): value for name, value in whole["variables"].items() if isinstance(value, int)},
        )
    except (KeyError, TypeError, AttributeError, RecursionError, json.JSONDecodeError):
        raise ValueError("it is no status in JSON: start the building with --json") from None


def read_kept(text: str) -> Dict[str, Value]:
    """The kept values. Raises ValueError where they are none."""
    first, *lines = text.splitlines() or [""]
    if not first.startswith("kept by dalictl live") or not lines or not lines[-1].startswith(("sum ", "end ")):
        raise ValueError("these are no kept values, or not all of them")
    words = {"TRUE": True, "FALSE": False}
    found = [it for it in map(KEPT_VALUE.fullmatch, lines) if it]
    return {it[1]: words[it[2]] if it[2] in words else int(it[2]) for it in found}


def timers(values: Dict[str, Value], moment: int) -> List[Timer]:
    """The timers that run: IN is TRUE, and the time is not over.

    The moment of its start is known of a timer whose values were kept; else it has run for ET.
    """
    found: List[Timer] = []
    for name in (it[:-3] for it in values if it.endswith(".PT")):
        whole, start = int(values[f"{name}.PT"]), values.get(f"{name}.start")
        run = moment - start if start is not None else int(values.get(f"{name}.ET", 0))
        if values.get(f"{name}.IN") is True and 0 <= run < whole:
            found.append(Timer(name, whole - run, whole))
    return sorted(found, key=lambda it: it.left)


def read_logged(line: str, names: Names) -> Optional[Logged]:
    """A line of the log; None where it speaks of a tick or a scan, or is none."""
    found = LOGGED.fullmatch(line)
    if not found or found[2].startswith(OF_SCANS):
        return None
    words = found[2]
    return Logged(seconds_of(found[1]), words, meaning(words, names), words.startswith("! "))


def meaning(words: str, names: Names) -> str:
    """What a line of the log means by the names of the house: a press of a button, a lamp's level."""
    found = BUS_AND_FRAME.fullmatch(words)
    if not found:
        return ""
    bus, frame = int(found[2]), int(found[3], 16)
    if found[1] == "heard":
        event = source_of(bus, frame)
        if not event:
            return ""
        named = names.named(event[0])
        return f"{named.name}: {said(named.kind, event[1])}"
    address, sent = address_of(frame >> 8), sent_by(frame)
    if len(found[3]) != 4 or address is None or not sent:
        return ""
    return f"{names.lamps.get((bus, address)) or address_words(address)}: {sent.words}"


# Files.


def read_file(path: str) -> Tuple[str, float]:
    """The text of a file that others write, and when it was written.

    Raises OSError, and ValueError where it is too long.
    """
    with open_regular(path) as file:
        at = os.fstat(file.fileno()).st_mtime
        data: bytes = file.read(MOST_BYTES + 1)
    if len(data) > MOST_BYTES:
        raise ValueError("it is too long")
    return data.decode("utf-8", "replace"), at


def open_regular(path: str) -> Any:
    """Opens a file, and never waits, as for the other side of a FIFO."""
    file = os.open(path, os.O_RDONLY | os.O_NONBLOCK | os.O_CLOEXEC)
    if not stat.S_ISREG(os.fstat(file).st_mode):
        os.close(file)
        raise OSError(0, "it is no regular file")
    return open(file, "rb")


class Log:
    """The last lines of the controller's log, which grows, and is renamed where it is full."""

    def __init__(self, path: str, names: Names, most: int) -> None:
        self.path, self.names = path, names
        self.lines: Deque[Logged] = collections.deque(maxlen=most)
        self.number, self.place, self.begun = 0, 0, b""

    def read_more(self) -> None:
        """Takes what was added. Raises OSError where the file cannot be read."""
        with open_regular(self.path) as file:
            about = os.fstat(file.fileno())
            if about.st_ino != self.number or about.st_size < self.place:
                self.number, self.place, self.begun = about.st_ino, 0, b""
            if about.st_size - self.place > LOG_BYTES:
                self.place, self.begun = about.st_size - LOG_BYTES, b""
            file.seek(self.place)
            data: bytes = file.read(LOG_BYTES)
        self.place += len(data)
        *lines, self.begun = (self.begun + data).split(b"\n")
        self.begun = self.begun[:1000]
        logged = (read_logged(line.decode("ascii", "replace"), self.names) for line in lines)
        # A deque of its own, since another thread may look at the one before.
        self.lines = collections.deque((*self.lines, *filter(None, logged)), self.lines.maxlen)


class Beside:
    """What is written beside the building, read again and again, as far as there is any."""

    def __init__(self, names: Names, status: str = "", kept: str = "", log: str = "", lines: int = 40) -> None:
        self.status_path, self.kept_path = status, kept
        self.status: Optional[Status] = None
        self.written = 0.0  # when the status was
        self.kept: Dict[str, Value] = {}
        self.log = Log(log, names, lines) if log else None
        self.troubles: Dict[str, str] = {}  # of which path what is wrong

    def read(self) -> None:
        """Reads all again, and notes what cannot be read. Another thread may look meanwhile."""
        readers = [(self.status_path, self.read_status), (self.kept_path, self.read_kept)]
        if self.log:
            readers.append((self.log.path, self.log.read_more))
        troubles = {}
        for path, read in readers:
            try:
                if path:
                    read()
            except (OSError, ValueError) as error:
                troubles[path] = getattr(error, "strerror", None) or str(error)
        self.troubles = troubles

    def read_status(self) -> None:
        text, self.written = read_file(self.status_path)
        self.status = read_status(text)

    def read_kept(self) -> None:
        self.kept = read_kept(read_file(self.kept_path)[0])

    def timers(self) -> List[Timer]:
        """The timers that run, at the moment of the status."""
        return timers({**self.kept, **self.status.values}, self.status.moment) if self.status else []
