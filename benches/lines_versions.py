"""Checks of benches/lines of versions of the line: what an interface of each is asked, and the times of version 3.

The interfaces of version 3 are those of programs/gushewa_line, each in a thread of its own; those of the other checks
speak version 2, but for simulated.py.
"""

from __future__ import annotations

import contextlib
import random
import re
import statistics
import threading
import time
from typing import Callable, List, Optional, Sequence, Tuple

from gushewa_line.ends import PtyEnd
from gushewa_line.line import QUIET, HearingBus, Interface
from lines_bench import Bench, Checks
from lines_live import Found
from lines_neighbour import Neighbour
from lines_ports import NUMBERS
from lines_texts import HALL, PRESS, STORM, binding

IDLE_SECONDS = 5.0
# Wanted of version 3, with nothing to do: percents of a processor for so many lines; and from an event to its frame.
IDLE_WANTED, LATENCY_WANTED = {1: 0.3, 16: 1.5}, 2.5
# What standard error says of what is about to run: the period, the bus with its line, the tasks and the levels.
ABOUT_TO_RUN = re.compile(
    r"a tick each \d+ ms|bus \d+ /\S+|task \w+ (each \d+ ms|on an event) bound \d+|"
    r"level bus \d+ (short \d+|group \d+|broadcast) begins at \d+"
)
# How an interface of each version is greeted, and what it answers to that.
GREETED = {
    1: [("gushewa 3", "fault"), ("gushewa 2", "fault"), ("gushewa 1", "gushewa 1")],
    2: [("gushewa 3", "fault"), ("gushewa 2", "gushewa 2 hears")],
    3: [("gushewa 3", "gushewa 3 hears")],
}


class Told(HearingBus):
    """A bus without times behind an interface of version 3, which notes what it was asked and what it said."""

    def __init__(self) -> None:
        super().__init__()
        self.greetings, self.hears, self.handed, self.asked = 0, 0, 0, ""
        self.sends: List[int] = []
        self.last: Optional[Tuple[str, str]] = None

    def forget(self) -> None:
        super().forget()
        self.greetings += 1

    def send(self, bits: int, frame: int, priority: int) -> str:
        self.sends.append(frame)
        return QUIET

    def note(self, way: str, line: str) -> None:
        if way == "<":
            self.asked = line
            self.hears += line == "hear"
        elif line.startswith("event"):
            self.handed += 1
        else:
            self.last = self.asked, line


class Watched(Told):
    """Takes the time from an event that it says to the frame that is sent then."""

    def __init__(self, count: int, span: Tuple[float, float] = (0.005, 0.040)) -> None:
        super().__init__()
        self.count, self.span = count, span
        self.from_event: List[float] = []
        self.said: Optional[float] = None

    def press(self) -> None:
        """Presses again and again, each time a while after the frame of the press before."""
        time.sleep(1.0)  # the levels of the start go first
        while not self.is_done():
            if self.greetings and not self.said:
                time.sleep(random.uniform(*self.span))
                self.said = time.monotonic()
                self.events.add(PRESS)
            time.sleep(0.001)

    def send(self, bits: int, frame: int, priority: int) -> str:
        now = time.monotonic()
        if self.said:
            self.from_event.append(now - self.said)
            self.said = None
        return super().send(bits, frame, priority)

    def is_done(self) -> bool:
        return len(self.from_event) >= self.count


class Spoken:
    """A line on which an interface of version 3 answers, in a thread of its own."""

    def __init__(self, folder: str, bus: Told) -> None:
        self.bus, self.path = bus, f"{folder}/line{next(NUMBERS)}"
        self.end = PtyEnd(self.path)
        self.interface = Interface(bus, self.end, bus.note)
        threading.Thread(target=self.serve, daemon=True).start()

    def serve(self) -> None:
        with contextlib.suppress(OSError, ValueError):  # the line has ended
            self.interface.serve()

    def __enter__(self) -> Spoken:
        return self

    def __exit__(self, *_: object) -> None:
        self.end.unplug()


def judge_version(bench: Bench, version: int) -> Found:
    """An interface that knows no newer version: how it is greeted, and that each press is heard and answered."""
    found = Found()
    words = ["--gear", "5,6", "--button", "0A8809:0.1"] + ([f"--version-{version}"] if version < 3 else [])
    with Neighbour(bench.folder, *words) as neighbour:
        with bench.live(HALL, binding(1), [neighbour.path], "--patience", "1000") as live:
            time.sleep(IDLE_SECONDS)
            said = found.ended(live, live.end(), 0)
            found.same("what is said", [text for text in live.err() if not ABOUT_TO_RUN.fullmatch(text)], [])
        lines = neighbour.lines()
    asked = [(when, text) for when, way, text in lines if way == "<"]
    greetings = len(GREETED[version])
    found.same(
        "the greetings",
        [without_number(text) for _, _, text in lines[: 2 * greetings]],
        [text for pair in GREETED[version] for text in pair],
    )
    numbers = {text for _, text in asked[:greetings]}
    found.same("greetings with a number of their own", len(numbers), greetings)
    found.same("greetings later", [text for _, text in asked[greetings:] if text.startswith("gushewa")], [])
    judge_answers(found, version, [(way, text) for _, way, text in lines])
    events = [at for at, (_, way, text) in enumerate(lines) if text.startswith("event")]
    last = max(at for at, (_, _, text) in enumerate(lines) if text == "none")
    heard = sum(at < last for at in events)
    found.same("sent and heard", said.buses.get(0), (sum(text.startswith("send") for _, text in asked), heard))
    hears = sum(text == "hear" for _, text in asked) / (asked[-1][0] - asked[0][0])
    most, least = (3.0, 0.5) if version == 3 else (1000.0, 30.0)
    found.hold(least <= hears <= most, f"asked to hear {hears:.1f} times a second")
    bench.told("asked to hear", f"{hears:.1f} times a second")
    return found


def judge_answers(found: Found, version: int, lines: Sequence[Tuple[str, str]]) -> None:
    """Each request has one answer before the next one comes. In versions 1 and 2 an event is the answer to `hear`."""
    waits = ""
    for way, text in lines:
        is_event = text.startswith("event")
        if way == "<":
            found.hold(not waits, f"{text!r} is asked before the answer to {waits!r}")
            waits = text
        elif version < 3 or not is_event:
            found.hold(waits, f"{text!r} answers nothing")
            found.hold(not is_event or waits == "hear", f"{text!r} answers {waits!r}")
            waits = ""


def without_number(text: str) -> str:
    """A line without the number of its greeting."""
    words = text.split()
    return " ".join(words[:-1]) if text.startswith("gushewa") and words[-1] != "1" else text


def version_check(version: int) -> Callable[[Bench], Found]:
    return lambda bench: judge_version(bench, version)


def judge_idle(bench: Bench) -> Found:
    """One line of version 3, and 16, on which nothing happens."""
    found = Found()
    for count, wanted in IDLE_WANTED.items():
        buses = [Told() for _ in range(count)]
        with contextlib.ExitStack() as stack:
            lines = [stack.enter_context(Spoken(bench.folder, bus)) for bus in buses]
            live = stack.enter_context(bench.live(HALL, binding(count), [line.path for line in lines]))
            found.hold(bench.eventually(lambda: all(bus.hears for bus in buses)), "not all buses hear")
            time.sleep(1)
            began, before, hears = time.monotonic(), live.seconds(), sum(bus.hears for bus in buses)
            time.sleep(2 * bench.seconds)  # the clock of the machine counts hundredths of a second
            took, used = time.monotonic() - began, live.seconds() - before
            hears = sum(bus.hears for bus in buses) - hears
            said = found.ended(live, live.end(), 0)
            for number, bus in enumerate(buses):
                found.counts(said, number, bus)
        name = "a line" if count == 1 else f"{count} lines"
        share = f"{100 * used / took:.2f} %"
        bench.row(f"processor time with nothing to do, version 3, {name}", share, f"at most {wanted} %")
        bench.numbers.append(f"idle, version 3, {name}: {share} of a processor")
        bench.row(
            f"how often a line is asked to hear then, version 3, {name}", f"{hears / took / count:.1f} a second", ""
        )
    return found


def judge_latency(bench: Bench) -> Found:
    """From an event that is said to the frame that answers it, as an interface of version 3 sees it."""
    found = Found()
    for count in (1, 16):
        watch = Watched(bench.watched)
        buses = [watch] + [Told() for _ in range(count - 1)]
        with contextlib.ExitStack() as stack:
            lines = [stack.enter_context(Spoken(bench.folder, bus)) for bus in buses]
            live = stack.enter_context(bench.live(HALL, binding(count), [line.path for line in lines]))
            threading.Thread(target=watch.press, daemon=True).start()
            found.hold(bench.eventually(watch.is_done, 120), f"{len(watch.from_event)} presses were answered")
            found.counts(found.ended(live, live.end(), 0), 0, watch)
        name = "a line" if count == 1 else f"{count} lines"
        if watch.from_event:
            times = [1000 * it for it in watch.from_event]
            took = f"median {statistics.median(times):.1f}, worst {max(times):.1f} ms"
            what = f"from an event to its frame, version 3, {name}, {len(times)} presses"
            bench.row(what, took, f"median at most {LATENCY_WANTED} ms")
            bench.numbers.append(f"event to frame, version 3, {name}: {took}")
    return found


def judge_storm(bench: Bench) -> Found:
    """As many events as the line takes, said by themselves: each is counted once, in order."""
    found, bus = Found(), Told()
    with Spoken(bench.folder, bus) as line, bench.live(STORM, binding(1), [line.path], "--limit", "1000") as live:
        found.hold(bench.eventually(lambda: bus.greetings), "nobody greets")
        began = time.monotonic()
        for number in range(bench.presses):
            while len(bus.events.frames) > 100:  # the oldest would go
                time.sleep(0.001)
                line.interface.say_unasked()
            bus.events.add(PRESS & ~0x3FF | number % 1024)
        found.hold(bench.eventually(lambda: not bus.events.frames, 120), f"{len(bus.events.frames)} events are left")
        took = time.monotonic() - began
        time.sleep(1.5)  # `hear` comes again
        said = found.ended(live, live.end(), 0)
    found.counts(said, 0, bus)
    scans, lost = said.tasks.get("push", (0, 0))
    found.same("presses counted", said.values.get("presses"), str(bus.handed % 65536))
    found.same("scans and lost events", scans + lost, bus.handed)
    if not lost:
        found.same("events out of order", said.values.get("wrong"), "0")
    bench.row(
        "events a second that the line takes, version 3",
        f"{bus.handed / took:.0f}; {lost} of {bus.handed} given up",
        "",
    )
    return found


CHECKS: Checks = [
    ("an interface of version 1", version_check(1)),
    ("an interface of version 2", version_check(2)),
    ("an interface of version 3", version_check(3)),
    ("many events, version 3", judge_storm),
    ("idle, version 3", judge_idle),
    ("latency, version 3", judge_latency),
]
