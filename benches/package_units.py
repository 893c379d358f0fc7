#!/usr/bin/env python3
"""What benches/package asks of a unit: it runs the lines of a unit as systemd would, without systemd.

  package_units.py devices UNIT SETTINGS   runs the lines ExecStartPre with two devices, of which one is missing

The devices are pseudo terminals, whose paths stand in the place of those of SETTINGS, the file of the unit's environment.
Prints what is otherwise, and exits with 1 then: a line without `-` that fails, so that the service does not start, or the
device that is there is not set.
"""

from __future__ import annotations

import fnmatch
import os
import pathlib
import pty
import re
import shlex
import subprocess
import sys
import tempfile
import termios
from typing import Dict, List

# What %t, %S and %E are in a service of the machine.
FOLDERS = {"t": "run", "S": "var/lib", "E": "etc"}


def settings_of(path: pathlib.Path) -> Dict[str, str]:
    """The variables of a file for EnvironmentFile."""
    lines = [line for line in path.read_text().splitlines() if line and not line.startswith("#")]
    return {name: shlex.split(value)[0] if value else "" for name, value in (it.split("=", 1) for it in lines)}


class Unit:
    """A unit of systemd, whose folders are below a root of its own."""

    def __init__(self, path: pathlib.Path, root: pathlib.Path, instance: str = "") -> None:
        text = path.read_text().replace("\\\n", " ")
        self.instance = instance
        self.options = [line.split("=", 1) for line in text.splitlines() if re.match("[A-Z][A-Za-z]+=", line)]
        self.root = root
        for name in self.of("RuntimeDirectory"):
            (root / "run" / name).mkdir(parents=True)

    def of(self, option: str) -> List[str]:
        """The values of an option, in their order."""
        return [value for name, value in self.options if name == option]

    def words(self, line: str, settings: Dict[str, str]) -> List[str]:
        """The words of a command line: specifiers first, then quotes, then variables."""
        line = re.sub("%([tSE])", lambda it: str(self.root / FOLDERS[it[1]]), line)
        line = line.replace("%I", self.instance.replace("-", "/")).replace("%%", "%")
        words: List[str] = []
        for word in shlex.split(line):
            whole = re.fullmatch(r"\$([A-Z_]+)", word)
            if whole:
                words += shlex.split(settings.get(whole[1], ""))
            else:
                words.append(re.sub(r"\$\{([A-Z_]+)\}", lambda it: settings.get(it[1], ""), word))
        return words

    def starts(self, settings: Dict[str, str]) -> bool:
        """Whether systemd would come to ExecStart, once the lines ExecStartPre ran."""
        return all(self.runs(line, settings) for line in self.of("ExecStartPre"))

    def runs(self, line: str, settings: Dict[str, str]) -> bool:
        """Runs a command line. Whether it ends well, or may end otherwise, since it begins with `-`."""
        ran = subprocess.run(self.words(line.lstrip("-"), settings), env={**os.environ, **settings})
        if ran.returncode and not line.startswith("-"):
            print(f"status {ran.returncode}, and so no start: {line}")
            return False
        return True


def wanted_of(rules: pathlib.Path, event: Dict[str, str]) -> List[str]:
    """The units that the rules of a file for udev have started at an event, as where a device was plugged in."""
    wanted: List[str] = []
    for line in rules.read_text().replace("\\\n", " ").splitlines():
        parts = re.findall(r'([A-Z_]+(?:\{\w+\})?)\s*(==|\+=|=)\s*"([^"]*)"', "" if line.startswith("#") else line)
        asked = [(event.get(key, ""), value.split("|")) for key, mark, value in parts if mark == "=="]
        if all(any(fnmatch.fnmatchcase(of_event, it) for it in values) for of_event, values in asked):
            units = [value for key, mark, value in parts if mark != "==" and key == "ENV{SYSTEMD_WANTS}"]
            wanted += [unit.replace("%k", event["KERNEL"]) for unit in units]
    return wanted


def is_set(device: int) -> bool:
    """Whether a terminal is raw, has no echo, and has the speed of the settings."""
    _in, out, control, local, speed, _out_speed, special = termios.tcgetattr(device)
    raw = not local & (termios.ECHO | termios.ICANON) and not out & termios.OPOST
    return raw and speed == termios.B115200 and special[termios.VMIN] == 1


def devices(unit: str, defaults: str) -> bool:
    """Whether a device that is missing harms nothing, in front of one that is there and behind it."""
    holds = True
    for front in (True, False):
        with tempfile.TemporaryDirectory() as folder:
            ours, theirs = pty.openpty()
            paths = [os.ttyname(theirs), f"{folder}/missing"]
            settings = settings_of(pathlib.Path(defaults))
            settings["DEVICES"] = " ".join(paths[::-1] if front else paths)
            starts = Unit(pathlib.Path(unit), pathlib.Path(folder)).starts(settings)
            if not is_set(theirs):
                print("the device that is there is not set")
            holds = holds and starts and is_set(theirs)
            os.close(ours)
            os.close(theirs)
    return holds


if __name__ == "__main__":
    if len(sys.argv) != 4 or sys.argv[1] != "devices":
        sys.exit(__doc__)
    sys.exit(not devices(*sys.argv[2:]))
