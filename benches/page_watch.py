#!/usr/bin/python3
"""An interface that presses a button again and again, and takes the time to the frame that answers.

  benches/page_watch.py LINK COUNT MILLISECONDS RESULT

It is a part of benches/page, and a process of its own, so that nothing else is measured. It speaks
version 3 of the line. The next press comes once the frame of the last one was sent, and not before
these milliseconds are over. RESULT gets the times in seconds as JSON, once COUNT presses were answered."""

from __future__ import annotations

import json
import os
import pathlib
import sys
import threading
import time
from typing import Callable, List

sys.path.insert(0, str(pathlib.Path(__file__).resolve().parent.parent / "programs"))
sys.dont_write_bytecode = True

from gushewa_line.ends import PtyEnd
from gushewa_line.gateway import device_event
from gushewa_line.line import QUIET, HearingBus, serve

PRESS = device_event(2, 1, 2)
START_SECONDS = 1.0  # the levels of the start go first
LEAST_SECONDS = 0.0002  # between two looks whether a press is due


class Watch(HearingBus):
    """A bus with one button."""

    def __init__(self, count: int, seconds: float, result: str) -> None:
        super().__init__()
        self.count, self.seconds, self.result = count, seconds, result
        self.times: List[float] = []
        self.due, self.pressed, self.begun, self.is_greeted = 0.0, 0.0, 0.0, False

    def send(self, bits: int, frame: int, priority: int) -> str:
        now = time.monotonic()
        if self.pressed:
            self.times.append(now - self.pressed)
            self.pressed = 0.0
            if len(self.times) == self.count:
                self.write(now)
        return QUIET

    def forget(self) -> None:
        super().forget()
        self.due, self.pressed, self.is_greeted = time.monotonic() + START_SECONDS, 0.0, True

    def watch(self, wake: Callable[[], None]) -> None:
        super().watch(wake)
        threading.Thread(target=self.press, daemon=True).start()

    def press(self) -> None:
        """Presses again and again, once somebody has greeted."""
        while len(self.times) < self.count:
            now = time.monotonic()
            if self.is_greeted and not self.pressed and now >= self.due:
                self.begun = self.begun or now
                self.due = max(self.due + self.seconds, now)
                self.pressed = time.monotonic()
                self.events.add(PRESS)
            time.sleep(max(LEAST_SECONDS, self.due - time.monotonic()) if self.is_greeted else START_SECONDS / 10)

    def write(self, now: float) -> None:
        with open(f"{self.result}.new", "w") as file:
            json.dump({"times": self.times, "took": now - self.begun}, file)
        os.rename(f"{self.result}.new", self.result)


def main() -> None:
    link, count, milliseconds, result = sys.argv[1:]
    serve(Watch(int(count), float(milliseconds) / 1000, result), PtyEnd(link))


if __name__ == "__main__":
    main()
