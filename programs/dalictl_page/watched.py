"""All lines between the controller and its interfaces: one thread passes on what comes, and tries what is not open."""

from __future__ import annotations

import abc
import functools
import selectors
import time
from typing import Dict, List, Tuple

from .wires import Wire

LOOK_SECONDS = 0.2


class Watched(abc.ABC):
    """The lines, and the files of which one can be read or written now."""

    def __init__(self, lines: List[Tuple[str, str]]) -> None:
        """`lines` has the path of each bus's interface, and the link for the controller."""
        self.wires = [Wire(path, link, functools.partial(self.say, bus)) for bus, (path, link) in enumerate(lines)]
        self.selector = selectors.DefaultSelector()
        self.watched: Dict[object, Dict[int, int]] = {}
        self.looked, self.second = 0.0, 0

    @abc.abstractmethod
    def say(self, bus: int, way: str, text: str) -> None:
        """What becomes of something that was seen on a line (`Sight`)."""

    def turn(self) -> None:
        """Passes on what came, and looks now and then. Waits for LOOK_SECONDS at most."""
        for key, mask in self.selector.select(LOOK_SECONDS):
            self.meet(key, mask)
        if time.monotonic() - self.looked >= LOOK_SECONDS:
            self.look()

    def meet(self, key: selectors.SelectorKey, mask: int) -> None:
        """Passes on what came on one file."""
        key.data.serve(key.fd, mask)
        self.watch(key.data, key.data.interests())

    def watch(self, whose: object, wanted: Dict[int, int]) -> None:
        """Watches these files, and no other ones, for somebody."""
        before = self.watched.get(whose, {})
        if before != wanted:
            for file in before:  # some may be closed already
                self.selector.unregister(file)
            for file, mask in wanted.items():
                self.selector.register(file, mask, whose)
            self.watched[whose] = wanted

    def look(self) -> None:
        """Opens what is not open, and says each second how often each line was asked."""
        self.looked = time.monotonic()
        is_second = int(self.looked) != self.second
        self.second = int(self.looked)
        for bus, wire in enumerate(self.wires):
            wire.try_to_open()
            self.watch(wire, wire.interests())
            if is_second:
                requests, waits = wire.look()
                self.say(bus, "~", f"{requests} {waits}")
