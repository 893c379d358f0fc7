"""Two buses of benches/lines: a button on bus 0, a simulated interface on bus 1, and what may happen to this."""

from __future__ import annotations

import os
import subprocess
import sys
import time
from typing import Dict, Iterator, List, Optional, Sequence, Tuple

from lines_bench import Bench
from lines_houses import HERE, Stopwatch
from lines_ports import NUMBERS
from lines_texts import SOURCE

# How long a line may be silent in these checks, in milliseconds.
PATIENCE = 1000
# Seconds in which a press is to light its lamp; in which it does beside other work, but for one press in fifty; and in
# which a bus that comes back has all levels.
QUICK, SLOW, BACK = 0.020, 0.100, 5.0

# A button on bus 0, whose presses light the lamp there, every second one, and say the level of a lamp on bus 1. Two
# lamps on bus 1 stay as they are. A timer runs from the start.
TWO = """PROGRAM follow
VAR_EXTERNAL presses : UINT; lamp : USINT (0..254); far : USINT (0..254); END_VAR
LD presses
MOD 2
MUL 200
ST lamp
LD presses
MOD 250
ST far
END_PROGRAM
PROGRAM watch
VAR_EXTERNAL elapsed : TIME; END_VAR
VAR since : TON; END_VAR
LD TRUE
ST since.IN
CAL since(PT := T#23h)
LD since.ET
ST elapsed
END_PROGRAM
CONFIGURATION two
VAR_GLOBAL
pressed AT %IX0.0 : BOOL;
presses AT %IW0.192 : UINT;
lamp AT %QB0.5 : USINT (0..254);
far AT %QB1.5 : USINT (0..254);
sign AT %QB1.6 : USINT (0..254) := 120;
group AT %QB1.65 : USINT (0..254) := 254;
elapsed : TIME;
END_VAR
TASK push (SINGLE := pressed, PRIORITY := 0);
TASK clock (INTERVAL := T#100ms, PRIORITY := 1);
PROGRAM light WITH push : follow;
PROGRAM hours WITH clock : watch;
END_CONFIGURATION
"""
BIND = f"buses 2\nsource 0.0 {SOURCE}\n"
# The first bytes of the frames that set the lamps of bus 1.
FAR, SIGN, GROUP = 0x0A, 0x0C, 0x82


class Presser(Stopwatch):
    """A button that is pressed again soon after its lamp was set, until it is switched off."""

    def __init__(self, span: Tuple[float, float]) -> None:
        super().__init__(1 << 62, span)
        self.is_on = True
        self.presses: List[float] = []
        self.greeted: Optional[float] = None

    def forget(self) -> None:
        super().forget()
        self.greeted = time.monotonic()

    def event(self) -> Optional[int]:
        if not self.is_on:
            return None
        event = super().event()
        if event is not None:
            self.presses.append(time.monotonic())
        return event

    def counts_about(self, moment: float) -> range:
        """How many presses there may have been for the controller just before this moment."""
        before = sum(press < moment - 0.5 for press in self.presses)
        return range(before, sum(press < moment + 0.1 for press in self.presses) + 1)


class Neighbour:
    """A simulated interface in a process of its own, and what its log says, in seconds of this machine's clock."""

    def __init__(self, folder: str, *words: str) -> None:
        number = next(NUMBERS)
        self.path, self.log = f"{folder}/neighbour{number}", f"{folder}/neighbour{number}.log"
        command = [sys.executable, f"{HERE}/examples/interfaces/simulated.py", "--pty", self.path, "--log", self.log]
        self.process = subprocess.Popen([*command, "--group", "5:1", *words])
        while not os.path.exists(self.log):
            time.sleep(0.005)
        self.begun = time.monotonic()
        self.file, self.left = open(self.log), ""
        self.known: List[Tuple[float, str, str]] = []
        while not os.path.exists(self.path) and "--start-after" not in words:
            time.sleep(0.005)

    def __enter__(self) -> Neighbour:
        return self

    def __exit__(self, *_: object) -> None:
        self.process.kill()
        self.process.wait()
        self.file.close()
        if os.path.islink(self.path):
            os.unlink(self.path)

    def lines(self) -> List[Tuple[float, str, str]]:
        """Each line of the log: when, `<`, `>` or `!`, and the text. What was read before is not read again."""
        *whole, self.left = (self.left + self.file.read()).split("\n")
        words = [text.split(" ", 2) for text in whole]
        self.known += [(self.begun + float(when), way, text) for when, way, text in words]
        return self.known

    def frames(self) -> Iterator[Tuple[float, Optional[int]]]:
        """When the gear was sent which 16-bit frame, and None for a greeting."""
        for when, way, text in self.lines():
            if way == "<" and "gushewa" in text:
                yield when, None
            elif way == "<" and text.startswith("send") and len(text) == len("send 4 0A80"):
                yield when, int(text.split()[2], 16)

    def well_again(self) -> List[float]:
        """When the line was well again after each of its troubles."""
        return [when + float(text.split()[1]) for when, way, text in self.lines() if way == "!"]

    def is_back(self, case: Case, presser: Presser) -> bool:
        """Whether the line had all troubles of this case, and after the last one all lamps have their levels again."""
        times = self.times_of(case)
        return len(times) >= case.troubles and self.back_at(times[-1], presser) is not None

    def times_of(self, case: Case) -> List[float]:
        """When the line was well again after each trouble of this case; where it was not there at the start, when it came."""
        if case.words[0] != "--start-after":
            return self.well_again()
        came = self.begun + float(case.words[1])
        return [came] if time.monotonic() > came else []

    def back_at(self, begun: float, presser: Presser) -> Optional[float]:
        """When all lamps had their levels again, sent since a greeting after this moment, or None."""
        levels: Dict[int, int] = {}
        for when, frame in self.frames():
            if frame is None:
                levels = {}
            elif when >= begun:
                levels[frame >> 8] = frame & 0xFF
                wanted = {count % 250 for count in presser.counts_about(when)}
                if levels.get(FAR) in wanted and levels.get(SIGN) == 120 and levels.get(GROUP) == 254:
                    return when
        return None

    def last_levels(self) -> Dict[int, int]:
        levels: Dict[int, int] = {}
        for _, frame in self.frames():
            if frame is not None:
                levels[frame >> 8] = frame & 0xFF
        return levels


class Case:
    """What bus 1 does, with so many troubles after which it comes back, or for so many seconds; and what is to come of it.
    A line that `speaks_on` once the end was asked for is let go of then. Where it `is_busy` it takes two processors."""

    def __init__(
        self,
        name: str,
        words: Sequence[str],
        troubles: int = 0,
        seconds: float = 0.0,
        ends_up: bool = True,
        speaks_on: bool = False,
        back: float = BACK,
        is_busy: bool = False,
    ) -> None:
        self.name, self.words, self.troubles, self.seconds = name, words, troubles, seconds
        self.ends_up, self.speaks_on, self.back, self.is_busy = ends_up and not speaks_on, speaks_on, back, is_busy
        self.is_long = list(words[:1]) == ["--start-after"] and float(words[1]) > 1000


def cases(bench: Bench) -> List[Case]:
    """All that may happen to bus 1. A line falls out of order at its 100th request after the greeting."""
    times = 50 if bench.is_full else 5
    absent = 3600.0 if bench.is_long else 60.0 if bench.is_full else 4.0
    return [
        Case("is well", [], seconds=2),
        Case("falls silent", ["--silent-at", "100:3"], 1),
        Case("answers late", ["--silent-at", "100:1.2"], 1),
        Case("gives half a line", ["--half-at", "100"], 1),
        Case("says fault", ["--fault-once", "100"], 1),
        Case("talks without end", ["--babble-at", "100:0.5"], 1, back=20.0, is_busy=True),
        Case("echoes", ["--echo"], seconds=6, ends_up=False),
        Case("floods", ["--flood"], seconds=4, speaks_on=True, is_busy=True),
        Case("is unplugged", ["--unplug-at", "100:3"], 1),
        Case(f"is unplugged {times} times", ["--unplug-at", "100:0.2"] * times, times),
        Case("is not there at the start", ["--start-after", str(absent)], 1),
        Case("speaks version 1, and falls silent", ["--version-1", "--silent-at", "100:3"], 1),
        Case("speaks version 2, and falls silent", ["--version-2", "--silent-at", "100:3"], 1),
    ]
