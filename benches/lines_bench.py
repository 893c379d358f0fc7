"""What all checks of benches/lines share: the folder, the sizes, what was otherwise, and the table."""

from __future__ import annotations

import argparse
import copy
import os
import tempfile
import time
from typing import Any, Callable, List, Sequence, Tuple

from lines_live import Found, Live
from waiting import wait_for


class Bench:
    """A run of the checks."""

    def __init__(self, program: str, folder: str, given: argparse.Namespace) -> None:
        self.program, self.folder = program, folder
        self.is_quick, self.is_full, self.is_long = bool(given.quick), bool(given.full), bool(given.long)
        self.rows: List[Tuple[str, str, str]] = []
        self.numbers: List[str] = []
        self.notes: List[str] = []
        self.fault_times: List[float] = []
        self.beside_well: List[float] = []
        self.requests, self.ends, self.kills, self.seconds, self.watched, self.memory_seconds, self.presses = (
            (4, 5, 2, 3, 80, 5, 10_000) if self.is_quick else (7, 20, 6, 10, 400, 30, 10_000)
        )
        self.back_runs, self.back_presses = (20, 500) if self.is_full else (1, 40) if self.is_quick else (1, 100)
        self.back_at_once = os.cpu_count() or 1

    def live(self, text: str, bind: str, lines: Sequence[str], *words: str, **how: Any) -> Live:
        """A call of the program."""
        return Live(self.program, self.folder, text, bind, lines, *words, **how)

    def row(self, what: str, value: str, wanted: str) -> None:
        self.rows.append((what, value, wanted))

    def told(self, what: str, value: object) -> None:
        self.notes.append(f"{what}: {value}")

    def apart(self) -> Bench:
        """A bench of its own for one run, with its own folder."""
        twin = copy.copy(self)
        twin.folder, twin.rows, twin.notes = tempfile.mkdtemp(dir=self.folder), [], []
        return twin

    def eventually(self, holds: Callable[[], object], seconds: float = 20, pause: float = 0.01) -> bool:
        """Whether this holds before so many seconds are over."""
        return wait_for(holds, seconds, pause)

    def run(self, name: str, judge: Check) -> bool:
        """Makes a check, and prints what came of it; whether all was as it should be."""
        began = time.monotonic()
        try:
            found = judge(self)
        except Exception as error:
            found = Found([f"the bench itself: {error!r}"])
        notes = "".join(f"; {note}" for note in self.notes)
        self.notes = []
        print(f"{name}: {'ok' if not found else found[0]}{notes} ({time.monotonic() - began:.0f} s)", flush=True)
        for otherwise in found[1:20]:
            print(f"  {otherwise}", flush=True)
        if len(found) > 20:
            print(f"  and {len(found) - 20} more", flush=True)
        return not found

    def print_table(self) -> None:
        widths = [max((len(row[column]) for row in self.rows), default=0) for column in (0, 1)]
        print()
        for what, value, wanted in self.rows:
            print(f"{what:{widths[0]}}  {value:{widths[1]}}  {'wanted: ' + wanted if wanted else ''}".rstrip())
        print()
        for number in self.numbers:
            print(number)


# A check gives what was otherwise.
Check = Callable[[Bench], Found]
Checks = List[Tuple[str, Check]]
