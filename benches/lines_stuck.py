"""Check of benches/lines: a line that takes no bytes, beside one that is well."""

from __future__ import annotations

import os
import re
import termios
import threading
import time
from typing import List, Optional, Tuple, Type, Union

from lines_back import judge_presses
from lines_bench import Bench, Checks
from lines_houses import House
from lines_live import Found, Live
from lines_neighbour import BACK, BIND, PATIENCE, Presser, TWO
from lines_ports import Attended, Fifos, Pty

# Seconds: until the bus is down; in which a press lights its lamp, also where a run ends just then; and in which the
# building ends.
DOWN, LIT, END = 2 * PATIENCE / 1000 + 1, PATIENCE / 1000 + 0.5, PATIENCE / 1000 + 2
XOFF, XON = b"\x13", b"\x11"


class Paused(Pty):
    """A pseudo terminal whose output the interface stops by a control byte."""

    def plug(self) -> None:
        super().plug()
        attributes = termios.tcgetattr(self.theirs)
        attributes[0] |= termios.IXON
        termios.tcsetattr(self.theirs, termios.TCSANOW, attributes)

    def hold(self) -> None:
        self.write(XOFF)

    def free(self) -> None:
        self.write(XON)


class Stopped(Pty):
    """A pseudo terminal whose output is stopped, as by a driver that takes nothing."""

    def hold(self) -> None:
        termios.tcflow(self.theirs, termios.TCOOFF)

    def free(self) -> None:
        termios.tcflow(self.theirs, termios.TCOON)


class Full(Fifos):
    """Two FIFOs of which nothing is read while it is held, and the one that is written has no room."""

    def plug(self) -> None:
        super().plug()
        self.goes_on = threading.Event()
        self.goes_on.set()
        self.bus.goes_on = self.goes_on

    def hold(self) -> None:
        self.goes_on.clear()
        filling = os.open(self.sink, os.O_WRONLY | os.O_NONBLOCK)
        try:
            while True:
                os.write(filling, b"x")
        except BlockingIOError:
            os.close(filling)

    def free(self) -> None:
        self.goes_on.set()


class Holding(House):
    """A bus that answers nothing while it is held."""

    goes_on: Optional[threading.Event] = None

    def answer(self, request: str) -> bytes:
        if self.goes_on:
            self.goes_on.wait()
        return super().answer(request)


Held = Union[Paused, Stopped, Full]
WAYS: List[Tuple[str, Type[Held]]] = [
    ("XOFF", Paused),
    ("stopped output", Stopped),
    ("a FIFO without room", Full),
]


def judge_stuck(bench: Bench) -> Found:
    """Bus 1 takes nothing, is well again, and takes nothing at the end; each press on bus 0 lights its lamp in time."""
    found = Found()
    for name, kind in WAYS:
        found.extend(f"{name}: {one}" for one in judge_way(bench, name, kind))
    return found


def judge_way(bench: Bench, name: str, kind: Type[Held]) -> Found:
    found, presser, house = Found(), Presser((0.02, 0.06)), Holding()
    port, line = Pty(bench.folder, presser), kind(bench.folder, house)
    words = ["--patience", str(PATIENCE), "--limit", "300"]
    with Attended(port), Attended(line), bench.live(TWO, BIND, [port.word(), line.word()], *words) as live:
        try:
            judge_hold(bench, found, live, presser, house, line)
            line.hold()
            time.sleep(0.3)
            asked = time.monotonic()
            said = found.ended(live, live.end(), 3)
            took = time.monotonic() - asked
        finally:
            line.free()
    found.hold(took < END, f"it ended after {took:.1f} s")
    judge_presses(found, said, presser)
    worst = max(presser.from_press, default=END)
    found.hold(worst < LIT, f"a press took {worst:.1f} s")
    bench.row(
        f"bus 1 with {name}: bus 0, {len(presser.from_press)} presses", f"worst {worst:.2f} s", f"under {LIT:g} s"
    )
    bench.row(f"bus 1 with {name}: the end", f"after {took:.1f} s", f"under {END:g} s")
    for it in (port, line):
        it.close()
    return found


def judge_hold(bench: Bench, found: Found, live: Live, presser: Presser, house: House, line: Held) -> None:
    """Bus 1 takes nothing for some seconds, which is said, and then is well again; at last no button is pressed any more."""
    found.hold(bench.eventually(lambda: len(presser.from_event) >= 5), "no presses before")
    well = presses_in(presser, 3)
    line.hold()
    is_down = re.compile(f"bus 1 down: {re.escape(line.word())}: silent for {PATIENCE // 1000} s")
    found.hold(
        bench.eventually(lambda: any(map(is_down.fullmatch, live.err())), DOWN), "it is not said that bus 1 is silent"
    )
    lit = presses_in(presser, 3)
    found.hold(lit > well / 3, f"{lit} presses on bus 0 in three seconds, and {well} before")
    greetings = house.greetings
    line.free()
    found.hold(bench.eventually(lambda: house.greetings > greetings, BACK), "bus 1 does not come back")
    time.sleep(0.5)
    presser.is_on = False
    time.sleep(LIT)


def presses_in(presser: Presser, seconds: float) -> int:
    """How many presses light the lamp in a time. A program without proofs checks itself, and so takes its time for each."""
    before = len(presser.from_event)
    time.sleep(seconds)
    return len(presser.from_event) - before


CHECKS: Checks = [("stuck: a line that takes no bytes", judge_stuck)]
