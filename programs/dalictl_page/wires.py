"""The lines between the controller and its interfaces: the files, read and written by one thread.

Nothing here waits for one of them. A line that takes no bytes is written later, and what comes for
it from the other side stays where it is meanwhile.
"""

from __future__ import annotations

import contextlib
import errno
import fcntl
import os
import selectors
import stat
import time
from typing import Callable, Dict, Optional, Tuple

from gushewa_line.ends import PtyEnd

from .relay import GREETED, OPEN, Relay

READ, WRITE = selectors.EVENT_READ, selectors.EVENT_WRITE
MOST_WAITING = 4096  # bytes that one side did not take yet
REASONS = {
    errno.ENOENT: "no such file",
    errno.EACCES: "permission denied",
    errno.EBUSY: "busy",
    errno.EAGAIN: "busy",
    errno.ENXIO: "nobody is there",
}


class Wire:
    """One bus: its interface on one side, and a pseudo terminal for the controller on the other.

    While the interface's line is not there, the pseudo terminal is not there either.
    """

    def __init__(self, path: str, link: str, tell: Callable[[str, str], None]) -> None:
        self.path, self.link, self.tell = path, link, tell
        self.relay = Relay(tell)
        self.end: Optional[PtyEnd] = None
        self.source: Optional[int] = None
        self.sink: Optional[int] = None
        self.why = ""
        self.to_interface, self.to_controller = bytearray(), bytearray()

    # Opening and closing.

    def try_to_open(self) -> None:
        """Opens what is not open yet; where that fails, it is tried again."""
        if self.end:
            return
        try:
            self.open_interface()
            self.end = PtyEnd(self.link)
            os.set_blocking(self.end.ours, False)
        except OSError as error:
            self.close(REASONS.get(error.errno or 0, "cannot be opened"))
        else:
            self.become(OPEN)

    def open_interface(self) -> None:
        """Opens the device, or the two FIFOs: SOURCE, which is read, and then SINK, which is written.

        A SOURCE that is open stays open while nobody reads SINK: the interface opens SOURCE first.
        """
        source, _, sink = self.path.partition(",")
        if self.source is None:
            self.source = open_file(source, os.O_RDONLY if sink else os.O_RDWR)
            fcntl.flock(self.source, fcntl.LOCK_EX | fcntl.LOCK_NB)
        self.sink = open_file(sink, os.O_WRONLY) if sink else self.source

    def close(self, why: str) -> None:
        """Ends the line on both sides."""
        if self.end:
            self.end.unplug()
        if why != REASONS[errno.ENXIO]:
            for file in {self.source, self.sink} - {None}:
                os.close(file)  # type: ignore[arg-type]
            self.source = None
        self.end, self.sink = None, None
        self.to_interface.clear()
        self.to_controller.clear()
        self.relay.begin()
        self.become(why)

    def become(self, why: str) -> None:
        if why != self.why:
            self.why = why
            self.tell("=", why)

    def tell_anew(self) -> None:
        """Tells what the line is like to somebody who does not know yet."""
        self.tell("=", self.why)
        if self.relay.is_greeted:
            self.tell("=", GREETED)

    # Passing on.

    def interests(self) -> Dict[int, int]:
        """Which files are to be read and written now."""
        if self.end is None or self.source is None or self.sink is None:
            return {}
        wanted = {self.end.ours: 0, self.source: 0, self.sink: 0}
        wanted[self.end.ours] |= READ if len(self.to_interface) < MOST_WAITING else 0
        wanted[self.end.ours] |= WRITE if self.to_controller else 0
        wanted[self.source] |= READ if len(self.to_controller) < MOST_WAITING else 0
        wanted[self.sink] |= WRITE if self.to_interface else 0
        return {file: mask for file, mask in wanted.items() if mask}

    def serve(self, file: int, mask: int) -> None:
        """Passes on what can be read or written."""
        if self.end is None or self.sink is None:
            return
        now = time.monotonic()
        try:
            if mask & READ and file == self.end.ours:
                self.to_interface += self.relay.pass_request(read_some(file), now)
            elif mask & READ:
                self.to_controller += self.relay.pass_answer(read_some(file), now)
            write_some(self.end.ours, self.to_controller)
            write_some(self.sink, self.to_interface)
        except (OSError, EOFError):
            self.close("closed")

    def press(self, number: str, frame: int) -> None:
        """Puts in an event by hand."""
        now = time.monotonic()
        self.relay.press(number, frame, now)
        if self.end is None:
            return
        try:
            self.to_controller += self.relay.pass_presses(now)
            write_some(self.end.ours, self.to_controller)
        except OSError:
            self.close("closed")

    def look(self) -> Tuple[int, int]:
        """The requests since the last look, and the milliseconds for which one waits for its answer."""
        now = time.monotonic()
        self.relay.drop_old(now)
        return self.relay.count_requests(), int(1000 * self.relay.waits(now))


def open_file(path: str, how: int) -> int:
    file = os.open(path, how | os.O_NOCTTY | os.O_NONBLOCK | os.O_CLOEXEC)
    if stat.S_ISREG(os.fstat(file).st_mode):
        os.close(file)
        raise OSError(errno.EINVAL, "it is a regular file")
    return file


def read_some(file: int) -> bytes:
    """What can be read now. Raises EOFError or OSError where the line has ended."""
    try:
        data = os.read(file, 4096)
    except BlockingIOError:
        return b""
    if not data:
        raise EOFError
    return data


def write_some(file: int, waiting: bytearray) -> None:
    """Writes what is taken now, and leaves the rest."""
    with contextlib.suppress(BlockingIOError):
        while waiting:
            del waiting[: os.write(file, waiting)]
