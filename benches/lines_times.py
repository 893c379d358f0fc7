"""Checks of benches/lines that measure: many events, the time with nothing to do, from event to frame, and memory."""

from __future__ import annotations

import statistics
import time

from lines_bench import Bench, Checks
from lines_houses import House, Stopwatch, Storm
from lines_live import Found
from lines_ports import Attended, Fifos, Pty
from lines_texts import HALL, STORM, binding, busy


def judge_storm(bench: Bench) -> Found:
    """As many events as the line takes: each is counted once, also where one run follows another."""
    found = Found()
    for name, kind, words in (
        ("pseudo terminal", Pty, ("--limit", "1000")),
        ("FIFOs", Fifos, ("--limit", "1000")),
        ("pseudo terminal", Pty, ()),
    )[: 1 if bench.is_quick else 3]:
        house = Storm(bench.presses)
        port = kind(bench.folder, house)
        began = time.monotonic()
        with Attended(port), bench.live(STORM, binding(1), [port.word()], *words) as live:
            found.hold(bench.eventually(lambda: not house.left, 120), f"{house.left} events are left")
            took = time.monotonic() - began
            time.sleep(0.2)
            said = found.ended(live, live.end(), 0)
        found.counts(said, 0, house)
        scans, lost = said.tasks.get("push", (0, 0))
        found.same("presses counted", said.values.get("presses"), str(house.handed % 65536))
        found.same("scans and lost events", scans + lost, house.handed)
        found.same("scans counted", said.values.get("scans"), str(scans % 65536))
        if not lost:
            found.same("events out of order", said.values.get("wrong"), "0")
        bench.row(
            f"events a second that the line takes, {name}{' in runs of 1,000' if words else ''}",
            f"{house.handed / took:.0f}; {lost} of {house.handed} given up",
            "",
        )
        port.close()
    return found


def judge_idle(bench: Bench) -> Found:
    """One line, and 16, on which nothing happens."""
    found = Found()
    for count, wanted in ((1, ""), (16, "under 2 %")):
        houses = [House() for _ in range(count)]
        ports = [Pty(bench.folder, house) for house in houses]
        with Attended(*ports), bench.live(HALL, binding(count), [port.word() for port in ports]) as live:
            found.hold(bench.eventually(lambda: all(house.hears > 20 for house in houses)), "not all buses hear")
            time.sleep(1)
            began, before, hears = time.monotonic(), live.seconds(), sum(house.hears for house in houses)
            time.sleep(bench.seconds)
            took, used = time.monotonic() - began, live.seconds() - before
            hears = sum(house.hears for house in houses) - hears
            said = found.ended(live, live.end(), 0)
            for bus, house in enumerate(houses):
                found.counts(said, bus, house)
        lines = "a line" if count == 1 else f"{count} lines"
        bench.row(f"processor time with nothing to do, {lines}", f"{100 * used / took:.1f} %", wanted)
        bench.numbers.append(f"idle, {lines}: {100 * used / took:.1f} % of a processor")
        bench.row(f"how often a line is asked to hear then, {lines}", f"{hears / took / count:.0f} times a second", "")
        for port in ports:
            port.close()
    return found


def judge_latency(bench: Bench) -> Found:
    """From an event to the frame that answers it, as the interface sees it."""
    found = Found()
    for buses in (1, 16):
        watch = Stopwatch(bench.watched)
        ports = [Pty(bench.folder, house) for house in [watch] + [House() for _ in range(buses - 1)]]
        with Attended(*ports), bench.live(HALL, binding(buses), [port.word() for port in ports]) as live:
            found.hold(bench.eventually(watch.is_done, 120), f"{len(watch.from_event)} presses were answered")
            found.counts(found.ended(live, live.end(), 0), 0, watch)
        for what, times, wanted in (
            ("an event", watch.from_event, "under 15 ms"),
            ("a press", watch.from_press, "5 ms more"),
        ):
            if times:
                lines = "a line" if buses == 1 else f"{buses} lines"
                took = f"median {statistics.median(times) * 1000:.1f}, worst {max(times) * 1000:.1f} ms"
                bench.row(f"from {what} to its frame, {lines}, {len(times)} presses", took, wanted)
                if what == "an event":
                    bench.numbers.append(f"event to frame, {lines}: {took}")
        for port in ports:
            port.close()
    return found


def judge_memory(bench: Bench) -> Found:
    """The most memory, half-way and at the end, of many runs that follow each other."""
    found = Found()
    for limit in (1_000, 100_000):
        house = House()
        port = Pty(bench.folder, house)
        with Attended(port), bench.live(busy(), binding(1), [port.word()], "--limit", str(limit)) as live:
            bench.eventually(lambda: house.hears > 5)
            time.sleep(bench.memory_seconds / 2)
            half = live.memory()
            time.sleep(bench.memory_seconds / 2)
            whole = live.memory()
            said = found.ended(live, live.end(), 0)
            found.counts(said, 0, house)
        bench.numbers.append(f"memory, runs of {limit:,} events: {whole / 1024:.1f} MiB after {said.events:,} events")
        bench.row(
            f"most memory, runs of {limit:,} events",
            f"{half} KiB, then {whole} KiB, at {said.events:,} events",
            "the same" if said.events > 4 * limit else "",
        )
        if said.events > 4 * limit:
            found.hold(whole < half + 1024, f"runs of {limit} events: {half} KiB, and later {whole} KiB")
        port.close()
    return found


CHECKS: Checks = [
    ("many events", judge_storm),
    ("idle", judge_idle),
    ("latency", judge_latency),
    ("memory", judge_memory),
]
