"""The interfaces' ends of lines, pseudo terminals and FIFOs, and what answers on them."""

from __future__ import annotations

import abc
import contextlib
import itertools
import os
import select
import threading
import tty
from typing import Any, Callable, Dict, Iterable, List, Optional, Protocol, Tuple, Type, Union

NUMBERS = itertools.count()


class Answering(Protocol):
    """What answers on a line, and ends it behind an answer."""

    is_over: bool

    def answer(self, request: str) -> bytes:
        """The bytes that answer a request."""


class Port(abc.ABC):
    """An interface's end of a line, and the bus that answers there."""

    bus: Any
    left: bytes

    @abc.abstractmethod
    def plug(self) -> None:
        """Makes the line."""

    @abc.abstractmethod
    def word(self) -> str:
        """How the controller's command line names it."""

    @abc.abstractmethod
    def fileno(self) -> int:
        """The file that is read."""

    @abc.abstractmethod
    def write(self, answer: bytes) -> None:
        """Gives an answer."""

    @abc.abstractmethod
    def ends_here(self) -> bool:
        """Ends the line; whether nothing more can be read of it."""

    @abc.abstractmethod
    def close(self) -> None:
        """Takes it away."""


class Pty(Port):
    """The interface's end of a pseudo terminal."""

    def __init__(self, folder: str, bus: Answering) -> None:
        self.bus, self.path = bus, f"{folder}/line{next(NUMBERS)}"
        self.is_there = False
        self.plug()

    def plug(self) -> None:
        self.open()
        tty.setraw(self.theirs)
        os.symlink(os.ttyname(self.theirs), self.path)

    def open(self) -> None:
        self.left, self.is_there = b"", True
        self.ours, self.theirs = os.openpty()

    def unplug(self) -> None:
        os.unlink(self.path)
        os.close(self.theirs)
        os.close(self.ours)
        self.is_there = False

    def word(self) -> str:
        return self.path

    def fileno(self) -> int:
        return self.ours

    def write(self, answer: bytes) -> None:
        os.write(self.ours, answer)

    def ends_here(self) -> bool:
        self.unplug()
        return True

    def close(self) -> None:
        if self.is_there:
            self.unplug()


class Cooked(Pty):
    """A pseudo terminal that comes as a serial adapter does when it is plugged in: it changes bytes, and sends back what it
    reads. What finds no room on the line is lost."""

    def plug(self) -> None:
        self.open()
        os.set_blocking(self.ours, False)
        os.symlink(os.ttyname(self.theirs), self.path)

    def write(self, answer: bytes) -> None:
        with contextlib.suppress(BlockingIOError):
            os.write(self.ours, answer)


class Fifos(Port):
    """The interface's end of two FIFOs. Both are opened for reading and writing, which never waits."""

    out: Optional[int] = None
    into: Optional[int] = None

    def __init__(self, folder: str, bus: Answering) -> None:
        number = next(NUMBERS)
        self.bus, self.source, self.sink = bus, f"{folder}/source{number}", f"{folder}/sink{number}"
        for path in (self.source, self.sink):
            os.mkfifo(path)
        self.plug()

    def plug(self) -> None:
        """Opens what is closed."""
        self.left = b""
        self.out = os.open(self.source, os.O_RDWR) if self.out is None else self.out
        self.into = os.open(self.sink, os.O_RDWR) if self.into is None else self.into

    def word(self) -> str:
        return f"{self.source},{self.sink}"

    def fileno(self) -> int:
        assert self.into is not None
        return self.into

    def write(self, answer: bytes) -> None:
        if self.out is not None:
            os.write(self.out, answer)

    def ends_here(self) -> bool:
        """Ends the line. What the controller writes is read still."""
        if self.out is not None:
            os.close(self.out)
        self.out = None
        return False

    def close(self) -> None:
        for file in (self.out, self.into):
            if file is not None:
                os.close(file)
        for path in (self.source, self.sink):
            os.unlink(path)


Kind = Union[Type[Pty], Type[Fifos]]
KINDS: List[Tuple[str, Kind]] = [("pseudo terminal", Pty), ("FIFOs", Fifos)]


class Desk:
    """Answers on some lines, all in one thread."""

    def __init__(self, ports: Iterable[Port]) -> None:
        self.ports: Dict[int, Port] = {port.fileno(): port for port in ports}
        self.poll = select.poll()
        for file in self.ports:
            self.poll.register(file, select.POLLIN)

    def serve(self, until: Callable[[], object]) -> None:
        """Answers until this says so; it is asked 20 times a second or more."""
        while not until():
            for file, _ in self.poll.poll(50):
                self.serve_port(file, self.ports[file])

    def serve_port(self, file: int, port: Port) -> None:
        try:
            port.left += os.read(file, 4096)
        except OSError:
            return self.leave(file)
        while b"\n" in port.left:
            request, port.left = port.left.split(b"\n", 1)
            answer = port.bus.answer(request.decode("ascii", "replace"))
            if answer:
                port.write(answer)
            if port.bus.is_over and port.ends_here():
                return self.leave(file)

    def leave(self, file: int) -> None:
        with contextlib.suppress(OSError):  # it may be closed
            self.poll.unregister(file)
        del self.ports[file]


class Attended(threading.Thread):
    """A desk in a thread of this process."""

    def __init__(self, *ports: Port) -> None:
        super().__init__(daemon=True)
        self.desk, self.is_over = Desk(ports), False
        self.fault: Optional[Exception] = None
        self.start()

    def run(self) -> None:
        try:
            self.desk.serve(lambda: self.is_over)
        except Exception as error:  # told by the check
            self.fault = error

    def __enter__(self) -> Attended:
        return self

    def __exit__(self, *_: object) -> None:
        self.is_over = True
        self.join()
