#!/usr/bin/python3
"""Watches a building by its status and its log, and reports what is wrong, by a command of yours.

  watch.py --status FILE ..   watches the building whose `--status` is FILE
  watch.py --say MESSAGE ..   reports this message, and ends

  --tell COMMAND    runs COMMAND with the message as its last word, such as /etc/dalictl/tell or
                    'logger -t house'. It is split into words as a shell does, and run without one
  --log FILE        reads what the building's `--log` adds to FILE, too
  --after SECONDS   what is wrong is reported once it has lasted for so long (10 if none is given)

Each message is a line of standard output, with the date in front of it. What is reported:

  building away     the status is not there, or its date stands still: the building ended, hangs, or
                    waits for its disk
  building again    it was started again
  bus N down        the bus is down
  dropped, lost     requests of a bus were dropped, or events of a task given up
  frames            with --log: frames that were lost or damaged, or at which the interface failed

The end of what lasts is reported too. What comes again within ten minutes is counted, and reported
once at their end. Where COMMAND fails or takes longer than a minute, standard error says so.
"""

from __future__ import annotations

import argparse
import datetime
import json
import os
import queue
import re
import shlex
import subprocess
import threading
import time
from typing import Any, Callable, Dict, List, Optional, TextIO, Tuple

from gushewa_line.program import give_up, report

LOOK, QUIET, LONGEST_COMMAND = 1.0, 600.0, 60.0  # seconds
MOST_WAITING = 100  # messages
MOST_BYTES = 1 << 20  # of a status, and of what is read of a log at a time
BUS = re.compile(r"bus (\d+) (up|down) .* dropped (\d+)")
TASK = re.compile(r"task (\S+) scans \d+ lost (\d+)")
# A line of a log that reports what is wrong, but what the status says too.
TROUBLE = re.compile(r"\d+ \d+ \S+ ! (done .*)")


class Status:
    """What a status says of a building."""

    def __init__(self, text: str) -> None:
        self.date, self.events = "", 0
        self.down: Dict[int, bool] = {}
        self.losses: Dict[str, int] = {}
        if text.startswith("{"):
            self.read_json(json.loads(text))
        else:
            self.read_lines(text.splitlines())
        if not self.date:
            raise ValueError("it has no date")

    def read_lines(self, lines: List[str]) -> None:
        for line in lines:
            word, _, rest = line.partition(" ")
            if word == "date":
                self.date = rest
            elif word == "events":
                self.events = int(rest)
            elif bus := BUS.fullmatch(line):
                self.add_bus(int(bus[1]), bus[2], int(bus[3]))
            elif task := TASK.fullmatch(line):
                self.add_task(task[1], int(task[2]))

    def read_json(self, said: Any) -> None:
        self.date, self.events = said["date"], said["events"]
        for bus in said["buses"]:
            self.add_bus(bus["bus"], bus["state"], bus["dropped"])
        for task in said["tasks"]:
            self.add_task(task["task"], task["lost"])

    def add_bus(self, bus: int, state: str, dropped: int) -> None:
        self.down[bus] = state == "down"
        self.losses[f"requests of bus {bus} were dropped"] = dropped

    def add_task(self, task: str, lost: int) -> None:
        self.losses[f"events of the task {task} were lost"] = lost


def read_status(path: str) -> Optional[Status]:
    """The status at a path, or None where none is there, or none that can be read."""
    try:
        with open(path, encoding="utf-8", errors="replace") as file:
            return Status(file.read(MOST_BYTES))
    except (OSError, ValueError, KeyError, TypeError):
        return None


class Log:
    """What a building adds to its log, from now on."""

    def __init__(self, path: str) -> None:
        self.path, self.left = path, ""
        self.file = self.open()
        if self.file:
            self.file.seek(0, os.SEEK_END)

    def open(self) -> Optional[TextIO]:
        try:
            return open(self.path, encoding="utf-8", errors="replace")
        except OSError:
            return None

    def troubles(self) -> List[str]:
        """What is wrong in the lines that were added."""
        said = self.read_more()
        if self.was_renamed():  # it was full
            if self.file:
                self.file.close()
            self.file = self.open()
            said += self.read_more()
        lines = (self.left + said).split("\n")
        self.left = lines.pop()[-MOST_BYTES:]
        return [found[1] for found in map(TROUBLE.fullmatch, lines) if found]

    def read_more(self) -> str:
        return self.file.read(MOST_BYTES) if self.file else ""

    def was_renamed(self) -> bool:
        try:
            there = os.stat(self.path)
        except OSError:
            return False
        return not self.file or not os.path.samestat(there, os.fstat(self.file.fileno()))


class Teller:
    """Reports messages, one after another, so that a command that is slow keeps nobody waiting."""

    def __init__(self, command: List[str]) -> None:
        self.command = command
        self.waiting: queue.Queue[str] = queue.Queue(MOST_WAITING)
        threading.Thread(target=self.run, daemon=True).start()

    def tell(self, message: str) -> None:
        date = datetime.datetime.now(datetime.timezone.utc)
        line = f"{date:%Y-%m-%dT%H:%M:%SZ} {message}"
        print(line, flush=True)
        try:
            if self.command:
                self.waiting.put_nowait(line)
        except queue.Full:
            report("too many messages wait for the command")

    def run(self) -> None:
        while True:
            message = self.waiting.get()
            try:
                status = subprocess.run([*self.command, message], stdin=subprocess.DEVNULL, timeout=LONGEST_COMMAND)
                if status.returncode:
                    report(f"{self.command[0]} ended with status {status.returncode}")
            except (OSError, subprocess.TimeoutExpired) as error:
                report(str(error))
            self.waiting.task_done()


class Lasting:
    """Something wrong that lasts: its begin is reported once it has lasted for a time, and then its end."""

    def __init__(self, begin: str, end: str) -> None:
        self.begin, self.end, self.told = begin, end, False
        self.since: Optional[float] = None

    def look(self, holds: bool, now: float, after: float) -> Optional[str]:
        """What is to be reported now."""
        if not holds:
            was, self.told, self.since = self.told, False, None
            return self.end if was else None
        self.since = now if self.since is None else self.since
        if self.told or now - self.since < after:
            return None
        self.told = True
        return self.begin


class Watch:
    """What was seen of a building, and what was reported of it."""

    def __init__(self, path: str, after: float, tell: Callable[[str], None]) -> None:
        self.after, self.tell = after, tell
        self.last: Optional[Status] = None
        stands = f"the building does not go on: {path} is not there, or its date stands still"
        self.away = Lasting(stands, "the building goes on")
        self.buses: Dict[int, Lasting] = {}
        self.counted: Dict[str, Tuple[float, int]] = {}

    def look(self, status: Optional[Status], troubles: List[str], now: float) -> None:
        """Looks at a status, or at none, and at lines of the log."""
        is_new = status is not None and (self.last is None or status.date != self.last.date)
        self.report(self.away.look(not is_new, now, self.after))
        if status is not None and is_new:
            self.look_at_buses(status, now)
            self.look_at_counts(status, now)
            self.last = status
        for trouble in troubles:
            self.count(trouble, 1, now)
        self.end_counts(now)

    def look_at_counts(self, status: Status, now: float) -> None:
        """What a building counts grows while it runs, and begins again at 0 where it was started again."""
        is_again = self.last is not None and status.events < self.last.events
        if is_again:
            self.count("the building was started again", 1, now)
        for what, count in status.losses.items():
            before = 0 if is_again else self.last.losses.get(what, 0) if self.last else count
            if count > before:
                self.count(what, count - before, now)

    def look_at_buses(self, status: Status, now: float) -> None:
        for bus, is_down in status.down.items():
            lasting = self.buses.setdefault(bus, Lasting(f"bus {bus} is down", f"bus {bus} is up again"))
            self.report(lasting.look(is_down, now, self.after))

    def report(self, message: Optional[str]) -> None:
        if message:
            self.tell(message)

    def count(self, what: str, times: int, now: float) -> None:
        """Reports what happened, or counts it where it was reported within the last minutes."""
        if what in self.counted:
            since, count = self.counted[what]
            self.counted[what] = since, count + times
        else:
            self.tell(f"{what}: {times}" if times > 1 else what)
            self.counted[what] = now, 0

    def end_counts(self, now: float) -> None:
        """Reports what came again in the minutes that are over."""
        for what, (since, count) in list(self.counted.items()):
            if now - since >= QUIET:
                del self.counted[what]
                if count:
                    self.tell(f"{what}: {count} more in ten minutes")
                    self.counted[what] = now, 0


def main() -> None:
    parser = argparse.ArgumentParser(usage=__doc__)
    what = parser.add_mutually_exclusive_group(required=True)
    what.add_argument("--status")
    what.add_argument("--say")
    parser.add_argument("--tell", default="")
    parser.add_argument("--log")
    parser.add_argument("--after", type=float, default=10)
    given = parser.parse_args()
    try:
        teller = Teller(shlex.split(given.tell))
    except ValueError as error:
        give_up(f"--tell: {error}")
    if given.say:
        teller.tell(given.say)
        teller.waiting.join()
        return
    watch, log = Watch(given.status, given.after, teller.tell), Log(given.log) if given.log else None
    try:
        while True:
            watch.look(read_status(given.status), log.troubles() if log else [], time.monotonic())
            time.sleep(LOOK)
    except KeyboardInterrupt:
        pass  # ended by hand


if __name__ == "__main__":
    main()
