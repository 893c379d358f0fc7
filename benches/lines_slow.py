"""Check of benches/lines: a bus that answers just within its patience, beside one that is well."""

from __future__ import annotations

import os
import time
from typing import List, Tuple, Type, Union

from gushewa_line import line
from lines_back import judge_presses
from lines_bench import Bench, Checks
from lines_houses import House
from lines_live import Found
from lines_neighbour import BIND, PATIENCE, Presser, TWO
from lines_ports import Attended, NUMBERS, Pty

# Seconds: what bus 1 takes for an answer; between two ticks; and from a press to its frame.
LATE, GAP, LIT = 0.8 * PATIENCE / 1000, 1.5, 1.0


class Late(House):
    """A bus on which each answer takes its time, but those of greetings."""

    def answer(self, request: str) -> bytes:
        if not request.startswith("gushewa"):
            time.sleep(LATE)
        return super().answer(request)


class Losing(House):
    """A bus on which each frame is lost after a long time."""

    def send(self, bits: int, frame: int, priority: int) -> str:
        super().send(bits, frame, priority)
        time.sleep(LATE)
        return line.LOST


Kind = Union[Type[Late], Type[Losing]]
WAYS: List[Tuple[str, Kind]] = [("answers late", Late), ("loses each frame late", Losing)]


def judge_slow(bench: Bench) -> Found:
    """Runs follow one another in ticks that come in time, and each press on bus 0 lights its lamp in time."""
    found = Found()
    for name, kind in WAYS:
        found.extend(f"bus 1 {name}: {one}" for one in judge_beside(bench, name, kind))
    return found


def judge_beside(bench: Bench, name: str, kind: Kind) -> Found:
    found, presser, house = Found(), Presser((0.02, 0.06)), kind()
    port, other = Pty(bench.folder, presser), Pty(bench.folder, house)
    log = f"{bench.folder}/log{next(NUMBERS)}"
    words = ["--patience", str(PATIENCE), "--limit", "200", "--log", log]
    with Attended(port), Attended(other), bench.live(TWO, BIND, [port.word(), other.word()], *words) as live:
        found.hold(bench.eventually(lambda: len(presser.from_event) >= 10), "no presses")
        gap = longest_pause(log, 10 if bench.is_quick else 30)
        presser.is_on = False
        time.sleep(2 * LIT)
        status = live.end()
        said = found.ended(live, status, 0 if status == 0 else 3)
        slow = [text.split()[2] for text in live.err() if text.startswith(("bus 1 slow", "bus 1 up"))]
    judge_presses(found, said, presser)
    found.hold(gap < GAP, f"{gap:.1f} s between two ticks")
    worst = max(presser.from_press, default=0)
    found.hold(worst < LIT, f"a press took {worst:.1f} s")
    found.hold("slow:" in slow, "it is not said that bus 1 is slow")
    again = [one for one, other in zip(slow, slow[1:]) if (one, other) == ("slow:", "slow:")]
    found.hold(not again, f"it is said again without need: {' '.join(slow)}")
    presses = f"bus 1 {name}: bus 0, {len(presser.from_press)} presses"
    bench.row(presses, f"worst {worst:.2f} s", f"under {LIT:g} s")
    bench.row(f"bus 1 {name}: between two ticks", f"worst {gap:.2f} s", f"under {GAP:g} s")
    for it in (port, other):
        it.close()
    return found


def longest_pause(log: str, seconds: float) -> float:
    """The longest time in which a log did not grow, of so many seconds. Each tick of the house adds a line to it."""
    end, size, grew, longest = time.monotonic() + seconds, 0, time.monotonic(), 0.0
    while (now := time.monotonic()) < end:
        longest = max(longest, now - grew)
        known, size = size, os.path.getsize(log)
        grew = now if size > known else grew
        time.sleep(0.01)
    return longest


CHECKS: Checks = [("slow: a bus that answers just within its patience", judge_slow)]
