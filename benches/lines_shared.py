"""Checks of benches/lines: one line under two names, a second program on it, another interface at its path, and what is said."""

from __future__ import annotations

import os
import subprocess
import time
from typing import List

from lines_back import judge_presses
from lines_bench import Bench, Checks
from lines_houses import House, Pressed
from lines_live import ENVIRONMENT, Found, Live
from lines_neighbour import BACK, BIND, PATIENCE, Presser, TWO
from lines_ports import KINDS, NUMBERS, Attended, Kind, Pty
from lines_texts import HALL, HALL_LEVELS, binding, town

# Seconds until it is said that a line is busy; until the interface that stands at the path now is greeted, where the one
# before hangs; and until another reason is said.
BUSY, GREETED, SAID = 3.0, 4 * PATIENCE / 1000 + 3, 5.0


def judge_names(bench: Bench) -> Found:
    """Two buses with one line, under two names: one of them has it, and the other one is told that it is busy."""
    found = Found()
    for name, kind in KINDS:
        found.extend(f"{name}: {one}" for one in judge_two_names(bench, kind))
    return found


def judge_two_names(bench: Bench, kind: Kind) -> Found:
    found, house = Found(), Pressed(0.02, 0.06)
    port = kind(bench.folder, house)
    links = [f"{path}-again" for path in port.word().split(",")]
    for path, link in zip(port.word().split(","), links):
        os.symlink(path, link)
    # The lamp of bus 1 has another address than that of bus 0, so a frame says whose it is.
    text, lines = town(2).replace("%QB1.5", "%QB1.6"), [port.word(), ",".join(links)]
    with Attended(port), bench.live(text, binding(2), lines, "--patience", str(PATIENCE)) as live:
        said = [f"bus {bus} down: {path}: busy" for bus, path in enumerate(lines)]
        found.hold(bench.eventually(lambda: set(said) & set(live.err()), BUSY), "it is not said that the line is busy")
        time.sleep(5)
        house.is_on = False
        time.sleep(0.5)
        ended = found.ended(live, live.end(), 3)
        owner = 1 if said[0] in live.err() else 0
        found.same("buses that are told busy", [text for text in live.err() if text in said], [said[1 - owner]])
    for link in links:
        os.unlink(link)
    port.close()
    found.counts(ended, owner, house)
    found.same("presses", ended.values.get(f"presses{owner}"), str(house.handed % 65536))
    found.same("presses of the other bus", ended.values.get(f"presses{1 - owner}"), "0")
    found.same("lamps that were sent something", {frame >> 8 for frame in house.sends}, {(0x0A, 0x0C)[owner]})
    found.same("greetings", house.greetings, 1)
    return found


def judge_programs(bench: Bench) -> Found:
    """A second program on the line of a house is told that it is busy, and the house loses no press. Where the house has ended,
    the second one has the line."""
    found, presser, other = Found(), Presser((0.02, 0.06)), House()
    port, line = Pty(bench.folder, presser), Pty(bench.folder, other)
    words = ["--patience", str(PATIENCE)]
    with Attended(port), Attended(line), bench.live(TWO, BIND, [port.word(), line.word()], *words) as live:
        found.hold(bench.eventually(lambda: len(presser.from_event) >= 10), "no presses")
        for command in (["probe"], ["listen", "--for", "2"], ["ask", "query-actual-level", "5"], ["blink", "5"]):
            found.extend(judge_tool(bench, port.word(), command))
        with bench.live(HALL, binding(1), [port.word()], *words) as second:
            said = f"bus 0 down: {port.word()}: busy"
            found.hold(
                bench.eventually(lambda: said in second.err(), BUSY), "a second house is not told that it is busy"
            )
            time.sleep(3)
            presser.is_on = False
            time.sleep(0.5)
            ended = found.ended(live, live.end(), 0)
            judge_presses(found, ended, presser)
            found.same("greetings", presser.greetings, 1)
            before = presser.greetings
            found.hold(bench.eventually(lambda: presser.greetings > before, BACK), "the second house has no line")
            time.sleep(0.5)
            found.ended(second, second.end(), 0)
    for it in (port, line):
        it.close()
    return found


def judge_tool(bench: Bench, path: str, command: List[str]) -> List[str]:
    """A command at one line says that it is busy, and ends in time."""
    name, words = command[0], command[1:]
    try:
        ran = subprocess.run(
            [bench.program, name, "--line", path, *words],
            stdin=subprocess.DEVNULL,
            capture_output=True,
            text=True,
            timeout=10,
            env=ENVIRONMENT,
        )
    except subprocess.TimeoutExpired:
        return [f"{name} goes on"]
    said = ran.stdout + ran.stderr
    is_told = ran.returncode == 3 and any(path in text and "busy" in text for text in said.splitlines())
    return [] if is_told else [f"{name} ends with {ran.returncode}, and says {said.splitlines()[-1:]}"]


def judge_hung(bench: Bench) -> Found:
    """The interface of bus 0 hangs, and stays open; another one stands at its path, and is greeted."""
    found, hangs, well = Found(), Hangs(), House()
    ports = [Pty(bench.folder, hangs), Pty(bench.folder, well)]
    path = f"{bench.folder}/device{next(NUMBERS)}"
    os.symlink(os.readlink(ports[0].path), path)
    with Attended(*ports), bench.live(HALL, binding(1), [path], "--patience", str(PATIENCE)) as live:
        found.hold(bench.eventually(lambda: HALL_LEVELS <= set(hangs.sends)), "not all levels were sent")
        hangs.is_well = False
        os.unlink(path)
        os.symlink(os.readlink(ports[1].path), path)
        began = time.monotonic()
        is_back = bench.eventually(lambda: HALL_LEVELS <= set(well.sends), 2 * GREETED)
        took = time.monotonic() - began
        found.hold(is_back and took < GREETED, f"the other interface has its levels after {took:.1f} s")
        time.sleep(0.2)
        found.ended(live, live.end(), 0)
    bench.row("another interface at the path of one that hangs", f"levels after {took:.1f} s", f"under {GREETED:g} s")
    for port in ports:
        port.close()
    os.unlink(path)
    return found


class Hangs(House):
    """A bus that answers until it hangs."""

    is_well = True

    def answer(self, request: str) -> bytes:
        return super().answer(request) if self.is_well else b""


def judge_reasons(bench: Bench) -> Found:
    """Each other reason of a bus that is down is said, and stands in the status; and none is said again and again."""
    found, house = Found(), House()
    port, status = Pty(bench.folder, house), f"{bench.folder}/status{next(NUMBERS)}"
    with bench.live(HALL, binding(1), [port.word()], "--patience", str(PATIENCE), "--status", status) as live:
        with Attended(port):
            found.hold(bench.eventually(lambda: HALL_LEVELS <= set(house.sends)), "not all levels were sent")
        port.unplug()
        judge_reason(bench, found, live, status, f"bus 0 down: {port.path}: no such file")
        with open(port.path, "w"):
            pass
        judge_reason(bench, found, live, status, f"bus 0 down: {port.path}: is a regular file")
        os.unlink(port.path)
        os.mkdir(port.path)
        judge_reason(bench, found, live, status, f"bus 0 down: {port.path}: is a directory")
        os.rmdir(port.path)
        port.plug()
        with Attended(port):
            found.hold(bench.eventually(lambda: f"bus 0 up: {port.path}" in live.err(), SAID), "it does not come up")
            found.ended(live, live.end(), 0)
        said = [text for text in live.err() if text.startswith("bus 0 ")]
        found.hold(len(said) < 8, f"{len(said)} lines on standard error: {said[-4:]}")
    port.close()
    found.extend(judge_echo(bench))
    return found


def judge_reason(bench: Bench, found: Found, live: Live, status: str, line: str) -> None:
    """This line is said in time, and its reason stands in the status."""
    reason = line.rsplit(": ", 1)[1]
    found.hold(bench.eventually(lambda: line in live.err(), SAID), f"it is not said: {reason}")

    def stands() -> bool:
        with open(status) as file:
            return any(text.startswith("bus 0 down") and reason in text for text in file)

    found.hold(bench.eventually(stands, SAID), f"it is not in the status: {reason}")


def judge_echo(bench: Bench) -> Found:
    """A line that echoes for a while goes down at each try: that is said a few times, and not each time."""
    found, port = Found(), Pty(bench.folder, Echoes())
    with Attended(port), bench.live(HALL, binding(1), [port.word()], "--patience", str(PATIENCE)) as live:
        time.sleep(15)
        live.end()
        said = [text for text in live.err() if text.startswith("bus 0 ")]
        found.hold(0 < len(said) < 8, f"{len(said)} lines of a line that echoes: {said[-2:]}")
    port.close()
    return found


class Echoes(House):
    """A bus whose line sends back each request before its answer."""

    def answer(self, request: str) -> bytes:
        return f"{request}\n".encode() + super().answer(request)


CHECKS: Checks = [
    ("shared: one line under two names", judge_names),
    ("shared: a second program on a line", judge_programs),
    ("shared: another interface at the path of one that hangs", judge_hung),
    ("shared: what is said of a line that is down", judge_reasons),
]
