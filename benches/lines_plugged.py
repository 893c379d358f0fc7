"""Check of benches/lines: a serial adapter that is plugged in while the house runs, and set by what the package installs."""

from __future__ import annotations

import os
import pathlib
import tempfile
import time

from lines_bench import Bench, Checks
from lines_houses import HERE, Stopwatch
from lines_live import Found
from lines_ports import Attended, Cooked
from lines_texts import HALL, HALL_LEVELS, binding
from package_units import Unit, is_set, settings_of, wanted_of

RULES = pathlib.Path(f"{HERE}/examples/systemd/dalictl-device.rules")
UNIT = pathlib.Path(f"{HERE}/examples/systemd/dalictl-device@.service")
SETTINGS = pathlib.Path(f"{HERE}/packaging/dalictl-live.default")
# Seconds from the moment at which it is plugged in until all levels were sent again.
BACK = 5.0


def judge_plugged(bench: Bench) -> Found:
    """The device comes cooked. It is set at once, or once the controller has met its echo."""
    found = Found()
    for after in (0.0, 1.5):
        found.extend(f"set after {after:g} s: {one}" for one in judge_replug(bench, after))
    return found


def judge_replug(bench: Bench, after: float) -> Found:
    """The device is set so many seconds after it was plugged in; its bus is up in time, and presses light the lamp."""
    found = Found()
    first, again = Stopwatch(3), Stopwatch(3)
    port = Cooked(bench.folder, first)
    device_of(found, port)
    with bench.live(HALL, binding(1), [port.word()], "--patience", "1000") as live:
        with Attended(port):
            found.hold(bench.eventually(first.is_done), "no press lit the lamp before it was unplugged")
        port.unplug()
        time.sleep(1)
        port.bus = again
        port.plug()
        plugged = time.monotonic()
        with Attended(port) as attended:
            found.hold(not is_set(port.theirs), "the device came set")
            time.sleep(after)
            device_of(found, port)
            found.hold(bench.eventually(lambda: HALL_LEVELS <= set(again.sends), 2 * BACK), "it does not come back")
            took = time.monotonic() - plugged
            found.hold(took < BACK, f"its levels were sent after {took:.1f} s")
            found.hold(bench.eventually(again.is_done), "no press lights the lamp")
            found.same("status before the end was asked for", live.process.poll(), None)
            time.sleep(0.2)
            found.ended(live, live.end(), 0)
        found.hold(attended.fault is None, f"the interface: {attended.fault}")
        said = [text for text in live.err() if text.startswith("bus 0 ")]
        found.hold(len(said) < 12, f"{len(said)} lines on standard error, such as {said[-1:]}")
    bench.row(
        f"a device that was plugged in, set after {after:g} s", f"levels after {took:.1f} s", f"under {BACK:.0f} s"
    )
    port.close()
    return found


def device_of(found: Found, port: Cooked) -> None:
    """Sets a device as the package does: the rule of udev starts a unit for it, whose command line is run. The name of the
    pseudo terminal stands in the place of the adapter's name."""
    wanted = wanted_of(RULES, {"ACTION": "add", "SUBSYSTEM": "tty", "KERNEL": "ttyUSB0"})
    found.same("what the rule starts", wanted, ["dalictl-device@ttyUSB0.service"])
    name = os.ttyname(port.theirs).removeprefix("/dev/")
    settings = {**settings_of(SETTINGS), "DEVICES": f"{port.path}-away {port.path}"}
    with tempfile.TemporaryDirectory() as folder:
        unit = Unit(UNIT, pathlib.Path(folder), name.replace("/", "-"))
        found.hold(all(unit.runs(line, settings) for line in unit.of("ExecStart")), "the unit fails")
    found.hold(is_set(port.theirs), "the device is not set")


CHECKS: Checks = [("cooked: an adapter that is plugged in again", judge_plugged)]
