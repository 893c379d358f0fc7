"""Checks of benches/lines: lines that are silent, that are not there, or that flood, and descriptors that are closed."""

from __future__ import annotations

import contextlib
import itertools
import os
import time
from typing import List

from lines_bench import Bench, Checks
from lines_houses import House
from lines_live import Found
from lines_neighbour import Neighbour, PATIENCE, TWO
from lines_ports import Attended, NUMBERS, Pty
from lines_texts import binding


def judge_silent(bench: Bench) -> Found:
    """A line that is silent, from the greeting on or later: --for ends within its time and the patience."""
    found = Found()
    for at in (0, 30):
        with Neighbour(bench.folder, "--silent-at", f"{at}:600") as neighbour:
            began = time.monotonic()
            words = ["--for", "1", "--patience", str(PATIENCE)]
            with bench.live(TWO, binding(2), [neighbour.path, f"{bench.folder}/none"], *words) as live:
                status = live.wait()
                took = time.monotonic() - began
                found.ended(live, status, 3)
        # The program waits a second at most for its lines before it begins.
        found.hold(1 <= took < 3 + PATIENCE / 1000, f"silent at request {at}: --for 1 ended after {took:.1f} s")
    return found


def judge_absent(bench: Bench) -> Found:
    """No line is there: the program goes on and says so, and takes up a line that comes."""
    found = Found()
    status = f"{bench.folder}/status{next(NUMBERS)}"
    paths = [f"{bench.folder}/absent0", f"{bench.folder}/absent1"]

    def has(text: str) -> bool:
        try:
            with open(status) as file:
                return any(line.startswith(text) for line in file)
        except OSError:
            return False

    house = House()
    with bench.live(TWO, binding(2), paths, "--status", status) as live:
        for bus in (0, 1):
            found.hold(
                bench.eventually(lambda: has(f"bus {bus} down")), f"the status does not say that bus {bus} is down"
            )
        time.sleep(3)
        found.same("status after 3 seconds", live.process.poll(), None)
        port = Pty(bench.folder, house)
        os.symlink(port.word(), paths[0])
        with Attended(port):
            found.hold(bench.eventually(lambda: has("bus 0 up"), 5), "bus 0 does not come up")
            found.hold(has("bus 1 down"), "the status does not say that bus 1 is down")
            found.counts(found.ended(live, live.end(), 3), 0, house, unsaid=1)
        port.close()
    os.unlink(paths[0])
    return found


def judge_flood_ends(bench: Bench) -> Found:
    """The end by --for and by the stop file, while the line has an event at each request, or says one each millisecond."""
    found = Found()
    for version, by_time in itertools.product((2, 3), (True, False)):
        with Neighbour(bench.folder, "--flood", *(["--version-2"] if version == 2 else [])) as neighbour:
            words = ["--for", "2"] if by_time else []
            with bench.live(TWO, binding(2), [neighbour.path, f"{bench.folder}/none"], *words) as live:
                if not by_time:
                    time.sleep(2)
                began = time.monotonic()
                status = live.wait() if by_time else live.end()
                took = time.monotonic() - began
                said = found.ended(live, status, 3)
            events = sum(way == ">" and text.startswith("event") for _, way, text in neighbour.lines())
        how = f"version {version}, {'--for 2' if by_time else '--stop'}"
        heard = said.buses.get(0, (0, 0))[1]
        if version == 2:
            found.same(f"{how}: events heard", heard, events)
        else:  # it says some more, which nobody reads
            found.hold(0 < heard <= events, f"{how}: {heard} events heard, of {events}")
        found.hold(took < 6, f"{how} ended after {took:.1f} s")
        bench.told(how, f"ended after {took:.1f} s and {events} events")
    return found


def judge_closed(bench: Bench) -> Found:
    """Descriptors 0, 1 and 2 are closed, so lines may get them: nothing that is printed or logged may go there."""
    found = Found()
    ways: List[List[str]] = [[], ["--log", "-"]]
    for words in ways:
        with contextlib.ExitStack() as stack:
            neighbours = [stack.enter_context(Neighbour(bench.folder)) for _ in range(3)]
            paths = [neighbour.path for neighbour in neighbours]
            with bench.live(TWO, binding(3), paths, "--for", "2", *words, is_closed=True) as live:
                found.hold(live.wait() is not None, "it goes on")
            for bus, neighbour in enumerate(neighbours):
                asked = [text for _, way, text in neighbour.lines() if way == "<"]
                other = [text for text in asked if not text.startswith(("gushewa ", "send ")) and text != "hear"]
                found.same(f"{' '.join(words) or 'no log'}: other lines on bus {bus}", other[:3], [])
                found.hold(asked, f"nothing was asked on bus {bus}")
    return found


CHECKS: Checks = [
    ("a silent line, --for", judge_silent),
    ("no line is there", judge_absent),
    ("ends on a line that floods", judge_flood_ends),
    ("closed descriptors", judge_closed),
]
