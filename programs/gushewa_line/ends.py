"""An interface's end of a line: a pseudo terminal, or two FIFOs (docs/LINES.md)."""

from __future__ import annotations

import abc
import atexit
import fcntl
import os
import pty
import select
import signal
import stat
import struct
import termios
import tty
from typing import IO, Any, Optional, Set

# No request is longer, with half a request before it.
MOST_BYTES = 64
CLOSED = -1
UNREAD_SECONDS = 1.0
# The bytes of 64 events, less a few: so many lines a controller passes over.
PASSED_OVER = 800
ENDING = (signal.SIGTERM, signal.SIGINT, signal.SIGHUP)


class End(abc.ABC):
    """An interface's end of a line, which takes requests and gives answers."""

    def __init__(self) -> None:
        self.left = b""
        # In which version the line was greeted; 0 where nobody has since it was made.
        self.version = 0

    @abc.abstractmethod
    def read(self) -> bytes:
        """The next bytes that the controller wrote, or none where the line ended."""

    @abc.abstractmethod
    def write(self, data: bytes) -> None:
        """Gives these bytes to the controller."""

    @abc.abstractmethod
    def has_room(self) -> bool:
        """Whether a line would be taken at once."""

    def begin_anew(self) -> None:
        """A numbered greeting came: what was said before it need not be read any more."""

    @abc.abstractmethod
    def plug(self) -> None:
        """Makes the line, or makes it anew."""

    @abc.abstractmethod
    def unplug(self) -> None:
        """Ends the line, as where a cable is pulled out."""

    def next_line(self) -> Optional[str]:
        """The next line without its line feed, or None where there is none."""
        while b"\n" not in self.left:
            more = self.read()
            if not more:
                return None
            self.left = self.left[-MOST_BYTES:] + more  # a greeting may stand behind no end of noise
        line, self.left = self.left.split(b"\n", 1)
        return line.decode("ascii", "replace")

    def say(self, line: str) -> None:
        self.write(line.encode("ascii") + b"\n")


def share(terminal: int, folder: str) -> None:
    """Lets the group that may write in the folder of a link open the pseudo terminal too.

    So a controller that runs as another user reaches it, where both are in that group (docs/LIVE.md).
    Whoever may write there could put another line in its place, and so gets nothing more. In a folder
    for all, as /tmp, nothing is shared.
    """
    there = os.stat(folder)
    is_own = there.st_gid in (os.getegid(), *os.getgroups())
    if there.st_mode & stat.S_IWGRP and not there.st_mode & stat.S_ISVTX and is_own:
        os.fchown(terminal, -1, there.st_gid)
        os.fchmod(terminal, 0o660)


class PtyEnd(End):
    """A pseudo terminal, to which the symbolic link `link` leads: `--line 0=link`.

    A link that stayed behind would lead to whoever gets the number of the pseudo terminal next. So
    a program that makes one calls `end_in_order` first.
    """

    def __init__(self, link: str) -> None:
        super().__init__()
        self.link = link
        self.ours = self.theirs = CLOSED
        self.plug()

    def plug(self) -> None:
        self.left, self.version = b"", 0
        THERE.add(self)
        self.ours, self.theirs = pty.openpty()
        tty.setraw(self.theirs)  # no echo, no translation; kept open, so that it stays so
        share(self.theirs, os.path.dirname(self.link) or ".")
        if os.path.islink(self.link):
            os.unlink(self.link)
        os.symlink(os.ttyname(self.theirs), self.link)

    def unplug(self) -> None:
        """Ends the line. The link goes first, as long as nobody else has the number."""
        THERE.discard(self)
        self.version = 0
        if self.theirs == CLOSED:
            return
        if self.is_linked():
            os.unlink(self.link)
        os.close(self.theirs)
        os.close(self.ours)
        self.ours = self.theirs = CLOSED

    def is_linked(self) -> bool:
        """Whether the link is this one, and not that of another program under the same name."""
        try:
            return os.readlink(self.link) == os.ttyname(self.theirs)
        except OSError:
            return False

    def read(self) -> bytes:
        while not select.select([self.ours], [], [], UNREAD_SECONDS)[0]:
            if self.version < 2:
                # A controller of version 1 would take it for the answer to its greeting.
                self.drop_unread()
        return os.read(self.ours, 256)

    def drop_unread(self) -> None:
        """Drops what was for a controller that has ended, and was not read."""
        termios.tcflush(self.theirs, termios.TCIFLUSH)

    def begin_anew(self) -> None:
        """Drops what was not read, where that is more than a controller passes over, as in version 3 it may be.

        A line of which the controller has read a part ends here, so that the answer is a line of its own. A controller
        that was faster passes over too few lines, and greets again.
        """
        if self.count_unread() > PASSED_OVER:
            self.drop_unread()
            self.write(b"\n")

    def count_unread(self) -> int:
        """How many bytes the controller did not read yet."""
        return int(struct.unpack("i", fcntl.ioctl(self.theirs, termios.FIONREAD, b"\0" * 4))[0])

    def has_room(self) -> bool:
        return self.ours != CLOSED and bool(select.select([], [self.ours], [], 0)[1])

    def write(self, data: bytes) -> None:
        while data:
            data = data[os.write(self.ours, data) :]


class FifoEnd(End):
    """A pair of FIFOs, made where they are missing: `--line 0=source,sink`.

    The controller reads `source`.
    """

    def __init__(self, source: str, sink: str) -> None:
        super().__init__()
        self.source, self.sink = source, sink
        for path in (source, sink):
            if not os.path.exists(path):
                os.mkfifo(path)
        self.plug()

    def plug(self) -> None:
        """Waits for a controller, which opens its source first, and then its sink."""
        self.version = 0
        self.drop_unread()
        self.out: IO[bytes] = open(self.source, "wb", buffering=0)
        self.into: IO[bytes] = open(self.sink, "rb", buffering=0)
        self.left = b""

    def drop_unread(self) -> None:
        """Reads away what was for a controller that has ended, and may not be gone yet."""
        left_over = os.open(self.source, os.O_RDONLY | os.O_NONBLOCK)
        while os.read(left_over, 256):
            pass
        os.close(left_over)

    def unplug(self) -> None:
        self.version = 0
        self.out.close()
        self.into.close()

    def read(self) -> bytes:
        while not (more := self.into.read(256)):  # the controller has ended: the next one may come
            self.unplug()
            self.plug()
        return more

    def has_room(self) -> bool:
        return not self.out.closed and bool(select.select([], [self.out], [], 0)[1])

    def write(self, data: bytes) -> None:
        try:
            self.out.write(data)
        except BrokenPipeError:
            pass  # the controller has ended; `read` meets its end too


# The pseudo terminals of this program that are there.
THERE: Set[PtyEnd] = set()


def end_in_order() -> None:
    """From now on no link of a pseudo terminal stays where this program ends.

    SIGTERM, SIGINT and SIGHUP end it with 0. A signal that is ignored, as by nohup, stays so.
    """
    atexit.register(unplug_all)
    for number in ENDING:
        if signal.getsignal(number) != signal.SIG_IGN:
            signal.signal(number, end_by_signal)


def end_by_signal(number: int, frame: Any) -> None:
    """Ends the program. A second signal does not disturb that."""
    for it in ENDING:
        signal.signal(it, signal.SIG_IGN)
    unplug_all()
    raise SystemExit(0)


def unplug_all() -> None:
    """Ends all lines of this program that are pseudo terminals."""
    for end in list(THERE):
        end.unplug()
