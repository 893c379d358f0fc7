"""Checks of benches/lines: how a building ends, or is killed, while a button is pressed; and many lines at once."""

from __future__ import annotations

import multiprocessing
import os
import random
import signal
import subprocess
import sys
import tempfile
import time
from multiprocessing.connection import Connection
from typing import Callable, List, Optional, Sequence, Tuple, Type

from lines_bench import Bench, Checks
from lines_houses import HERE, House, Pressed
from lines_live import Found, Live
from lines_ports import Attended, Desk, Fifos, Pty
from lines_texts import HALL, binding, town


def judge_ends(bench: Bench) -> Found:
    """The end by the stop file and by --for, while a button is pressed all the time: nothing is left, and nothing is lost."""
    found = Found()
    for turn in range(bench.ends):
        house = Pressed(0.001, 0.003 if turn % 3 else 0.012)
        port = (Pty, Fifos)[turn % 2](bench.folder, house)
        by_time = turn % 5 == 4
        began = time.monotonic()
        with Attended(port), bench.live(
            HALL, binding(1), [port.word()], "--period", "20", *(["--for", "1"] if by_time else [])
        ) as live:
            if not by_time:
                found.hold(bench.eventually(lambda: house.handed), "no event was asked for")
                time.sleep(random.uniform(0.1, 0.4))
            said = found.ended(live, live.wait() if by_time else live.end(), 0)
            found.counts(said, 0, house)
            if said.tasks.get("push") == (house.handed, 0):
                lamp = 200 * (house.handed % 2)
                found.same("lamp", said.values.get("lamp"), str(lamp))
                found.same(
                    "the lamp's last level", [frame & 0xFF for frame in house.sends if frame >> 8 == 0x0A][-1:], [lamp]
                )
            else:
                found.same("scans and lost events", sum(said.tasks.get("push", ())), house.handed)
            if by_time and live.ended_at:
                found.hold(0.9 < live.ended_at - began, f"--for 1 ended after {live.ended_at - began:.2f} s")
        port.close()
    idle = House()
    port = Pty(bench.folder, idle)
    with Attended(port), bench.live(HALL, binding(1), [port.word()], is_stopped=True) as live:
        found.same("the status of a start that finds the stop file", live.wait(), 0)
        found.same("what it sends", idle.sends, [])
    port.close()
    return found


def judge_killed(bench: Bench) -> Found:
    """A controller that is killed, and started again on the same line of examples/interfaces/simulated.py."""
    # What was not read on a pseudo terminal is dropped within a second.
    return Found(
        f"{end}: {one}"
        for end, pause, kills in (("--pty", 1.5, bench.kills), ("--fifo", 0.3, 2 * bench.kills))
        for one in judge_killed_on(bench, end, pause, kills)
    )


def judge_killed_on(bench: Bench, end: str, pause: float, kills: int) -> List[str]:
    """So on a pseudo terminal, or on FIFOs, with a pause before each start."""
    path, log = f"{bench.folder}/simulated{end}", f"{bench.folder}/simulated.log"
    paths = [path] if end == "--pty" else [path, f"{path}-sink"]
    with open(log, "w"):
        pass
    interface = subprocess.Popen(
        [
            sys.executable,
            f"{HERE}/examples/interfaces/simulated.py",
            end,
            *paths,
            "--gear",
            "5",
            "--button",
            "0A8809:0.01",
            "--log",
            log,
        ]
    )
    try:
        if not bench.eventually(lambda: all(map(os.path.lexists, paths))):
            return ["simulated.py makes no line"]
        return judge_restarts(bench, ",".join(paths), log, pause, kills)
    finally:
        interface.terminate()
        interface.wait()


def judge_restarts(bench: Bench, word: str, log: str, pause: float, kills: int) -> Found:
    """Kills some on this line, and compares what one that comes to its end says with the log of the interface."""
    found = Found()
    for turn in range(kills):
        with bench.live(HALL, binding(1), [word]) as live:
            time.sleep(random.uniform(0.3, 0.5))
            found.same("status before it is killed", live.process.poll(), None)
            live.process.send_signal((signal.SIGKILL, signal.SIGTERM)[turn % 2])
            live.wait()
        time.sleep(pause)
    with bench.live(HALL, binding(1), [word]) as live:
        time.sleep(1)
        said = found.ended(live, live.end(), 0)
    with open(log) as file:
        found.same("sent and heard", said.buses.get(0), sent_and_heard(file.read().splitlines()))
    return found


def sent_and_heard(lines: Sequence[str]) -> Tuple[int, int]:
    """What was sent and heard by the log of an interface, from its last answer to a greeting on. In version 3 the interface
    goes on to say events that nobody reads: those behind the last `none` are not counted."""
    greeted = max(at for at, text in enumerate(lines) if " > gushewa" in text)
    ended = max(at for at, text in enumerate(lines) if text.endswith(" > none"))
    return sum(" < send" in text for text in lines[greeted:]), sum(" > event" in text for text in lines[greeted:ended])


def serve_lines(folder: str, count: int, kind: Type[Pressed], pipe: Connection) -> None:
    """A process of its own: as many lines, each with a button that is pressed each 0.2 to 0.6 seconds."""
    houses = [kind(0.2, 0.6) for _ in range(count)]
    ports = [(Pty, Fifos)[at % 2](folder, house) for at, house in enumerate(houses)]
    pipe.send([port.word() for port in ports])
    desk = Desk(ports)
    desk.serve(pipe.poll)
    pipe.recv()
    for house in houses:
        house.is_on = False
    desk.serve(pipe.poll)
    pipe.send([(house.handed, house.greetings, len(house.sends), house.sends[-1:]) for house in houses])


def judge_lines(
    bench: Bench,
    buses: int,
    processes: int,
    meanwhile: Optional[Callable[[Live], None]] = None,
    kind: Type[Pressed] = Pressed,
    more: Sequence[str] = (),
) -> Found:
    """Many lines at once, each with a button and a lamp; `meanwhile` is what is done with the program."""
    found = Found()
    context = multiprocessing.get_context("fork")
    pipes = []
    for _ in range(processes):
        pipe, theirs = context.Pipe()
        words = tempfile.mkdtemp(dir=bench.folder), buses // processes, kind, theirs
        context.Process(target=serve_lines, args=words, daemon=True).start()
        pipes.append(pipe)
    lines = [word for pipe in pipes for word in pipe.recv()]
    with bench.live(town(buses), binding(buses), lines, *more) as live:
        if meanwhile:
            meanwhile(live)
        else:
            time.sleep(bench.seconds)
        for pipe in pipes:
            pipe.send("no more presses")
        time.sleep(1)
        said = found.ended(live, live.end(), 0)
    found.same("buses that were down", [text for text in live.err() if " down: " in text], [])
    for pipe in pipes:
        pipe.send("the end")
    houses = [house for pipe in pipes for house in pipe.recv()]
    for bus, (handed, greetings, sends, last) in enumerate(houses):
        found.same(f"bus {bus}: greetings", greetings, 1)
        found.same(f"bus {bus}: sent and heard", said.buses.get(bus), (sends, handed))
        found.same(f"bus {bus}: presses", said.values.get(f"presses{bus}"), str(handed))
        found.same(f"bus {bus}: the last level", last, [0x0AC8 if handed % 2 else 0x0A00])
    handed = sum(house[0] for house in houses)
    found.hold(handed > buses, f"{handed} events on {buses} buses")
    bench.told(f"{buses} lines", f"{handed} events, {sum(house[2] for house in houses)} frames")
    return found


def judge_16(bench: Bench) -> Found:
    return judge_lines(bench, 16, 4)


def judge_64(bench: Bench) -> Found:
    return judge_lines(bench, 64, 8)


CHECKS: Checks = [
    ("ends while a button is pressed", judge_ends),
    ("killed and started again", judge_killed),
    ("16 lines at once", judge_16),
    ("64 lines at once", judge_64),
]
