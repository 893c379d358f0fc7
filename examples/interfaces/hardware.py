#!/usr/bin/env python3
"""A skeleton of an interface for a real DALI bus, over the library or firmware of an adapter.

THIS WAS NEVER RUN ON HARDWARE. It shows where the calls of a library go. What a library calls them,
what it returns and which of the duties below it keeps by itself, its own manual says.

  hardware.py LINK        makes a pseudo terminal, and the symbolic link LINK to it

What the controller leaves to the interface (docs/LINES.md, 'What an interface keeps'):

  - the times of IEC 62386-101: the settling time before a frame by its priority, and 5.5 to 10.5 ms
    to a backward frame
  - two equal frames of which the second has priority 1 are a pair: both within 100 ms, with nothing
    of its own between
  - whether a frame met a collision
  - that its own frames are not among those that it hears

`gushewa_line` (programs/gushewa_line) keeps the other duties. Once the bodies of `Adapter` are there,
`check.py LINK` tries what can be seen of them over the line.
"""

from __future__ import annotations

import os
import sys
from typing import Callable, Union

HERE = os.path.dirname(os.path.realpath(__file__))
sys.path.insert(1, os.path.join(HERE, "../../programs"))  # the library of the line, gushewa_line
from gushewa_line.ends import PtyEnd  # noqa: E402
from gushewa_line.line import DAMAGED, LOST, QUIET, Fault, HearingBus, answer, serve  # noqa: E402


class Adapter:
    """The library's side: replace the bodies."""

    def __init__(self, on_frame: Callable[[int, int], None]) -> None:
        """Opens the adapter.

        `on_frame(bits, frame)` is to be called for each forward frame of another device.
        """
        raise NotImplementedError

    def send(self, bits: int, frame: int, priority: int) -> Union[None, int, str]:
        """Sends a forward frame and waits for the time of a backward frame.

        Returns None where nothing came, the byte of a backward frame, 'damaged' where something
        came that is no backward frame, or 'collision'. Raises OSError where the adapter failed.
        """
        raise NotImplementedError


class HardwareBus(HearingBus):
    """An adapter as the line asks it."""

    def __init__(self, make_adapter: Callable[[Callable[[int, int], None]], Adapter]) -> None:
        super().__init__()
        self.adapter = make_adapter(self.hear)

    def hear(self, bits: int, frame: int) -> None:
        """A frame of another device came. A library may say so in a thread of its own, also while a frame is sent."""
        if bits == 24:
            self.events.add(frame)

    def send(self, bits: int, frame: int, priority: int) -> str:
        try:
            came = self.adapter.send(bits, frame, priority)
        except OSError as error:
            raise Fault from error
        if isinstance(came, int):
            return answer(came)
        return {None: QUIET, "damaged": DAMAGED, "collision": LOST}[came]


if __name__ == "__main__":
    if len(sys.argv) != 2:
        sys.exit(__doc__)
    serve(HardwareBus(Adapter), PtyEnd(sys.argv[1]))
