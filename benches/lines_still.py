"""Check of benches/lines: a machine that stands still for a while, as one that was suspended or has too much to do."""

from __future__ import annotations

import random
import signal
import threading
import time

from lines_bench import Bench, Checks
from lines_ends import judge_lines
from lines_houses import Unhurried
from lines_live import Found, Live
from lines_neighbour import PATIENCE

LINES = 6


class Lateness(threading.Thread):
    """How late the machine itself wakes somebody who sleeps, in seconds. Where that is some 50 ms, it has too much to do, and a
    line that falls silent says nothing of the program."""

    def __init__(self) -> None:
        super().__init__(daemon=True)
        self.worst, self.is_over = 0.0, False
        self.start()

    def run(self) -> None:
        while not self.is_over:
            began = time.monotonic()
            time.sleep(0.01)
            self.worst = max(self.worst, time.monotonic() - began - 0.01)


def judge_still(bench: Bench) -> Found:
    """Six lines, and standstills that are longer than the patience: no bus goes down, and no press is lost."""
    count, most = (8, 4.0) if bench.is_quick else (20, 12.0)

    def stand_still(live: Live) -> None:
        time.sleep(2)
        for turn in range(count):
            time.sleep(random.uniform(0.5, 1.5))
            live.process.send_signal(signal.SIGSTOP)
            time.sleep(random.uniform(1.5, most) if turn else most)
            live.process.send_signal(signal.SIGCONT)
        time.sleep(1)
        lateness.is_over = True
        bench.told("standstills", count)
        bench.told("the machine itself was late by", f"{1000 * lateness.worst:.0f} ms")

    lateness = Lateness()
    return judge_lines(bench, LINES, LINES, stand_still, Unhurried, ("--patience", str(PATIENCE)))


CHECKS: Checks = [("still: standstills of 1.5 to 12 seconds", judge_still)]
