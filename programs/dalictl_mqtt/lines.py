"""The lines that are seen: a thread passes on what goes over them, whatever the broker does."""

from __future__ import annotations

import contextlib
import queue
import threading
import time
from typing import List, Tuple

from dalictl_page.channel import Sight
from dalictl_page.watched import Watched
from gushewa_line.ends import CLOSED

MOST_SIGHTS = 10_000  # that wait to be said; what finds no room is dropped


class Lines(Watched):
    """The lines between the controller and its interfaces. What is seen waits in `sights`."""

    def __init__(self, lines: List[Tuple[str, str]]) -> None:
        self.sights: "queue.Queue[Sight]" = queue.Queue(MOST_SIGHTS)
        super().__init__(lines)

    def say(self, bus: int, way: str, text: str) -> None:
        with contextlib.suppress(queue.Full):
            self.sights.put_nowait(Sight(time.time(), bus, way, text))

    def start(self) -> None:
        threading.Thread(target=self.serve, daemon=True).start()

    def serve(self) -> None:
        """Passes on until the program ends, which takes the pseudo terminals away."""
        while not any(wire.end and wire.end.ours == CLOSED for wire in self.wires):
            self.turn()
