#!/usr/bin/env python3
"""Plays a day of the services of a package, for benches/package, on a machine of its own (package_machine.py).

  package_day.py PACKAGE LATER

LATER is the same package with a later version. The house has an adapter (simulated, behind a device of the group dialout), a
program between the controller and another adapter, the clock, and MQTT with a mosquitto. Prints what was otherwise, and
exits with 1 then. Where no such machine can be made it says so, and exits with 0.
"""

from __future__ import annotations

import pathlib
import re
import shutil
import sys
import tempfile
from typing import Callable, List

from package_machine import Machine, machine
from waiting import wait_for

HERE = pathlib.Path(__file__).resolve().parent.parent
EXAMPLES, USER = "/usr/share/doc/dalictl/examples", "lights"
SIMULATED = f"{EXAMPLES}/interfaces/simulated.py"
UNITS = ["dalictl-live", "dalictl-watch", "dalictl-clock", "dalictl-mqtt", "dalictl-line@far"]
OTHERS = ["adapter", "broker"]
DEVICE, KEPT = "/run/adapters/near", "/var/lib/private/dalictl-live/kept"
# A wish over MQTT lights a lamp behind the adapter and one behind the program; what the clock says is stored.
TEXT = """
PROGRAM follow
VAR_EXTERNAL
  wish : UINT (0..1023);
  near : USINT (0..254);
  far : USINT (0..254);
  shown : USINT (0..254);
END_VAR
  LD wish
  MIN 254
  ST near
  ST far
  ST shown
END_PROGRAM
PROGRAM tell
VAR_EXTERNAL
  quarter : UINT (0..1023);
  told : UINT (0..1023);
END_VAR
  LD quarter
  ST told
END_PROGRAM
CONFIGURATION house
VAR_GLOBAL
  wished AT %IX1.0 : BOOL;
  wish AT %IW1.128 : UINT (0..1023);
  turned AT %IX2.0 : BOOL;
  quarter AT %IW2.128 : UINT (0..1023);
  told : UINT (0..1023) := 1000;
  near AT %QB0.5 : USINT (0..254);
  far AT %QB3.5 : USINT (0..254);
  shown AT %QB1.5 : USINT (0..254);
END_VAR
TASK wishing (SINGLE := wished, PRIORITY := 0);
TASK telling (SINGLE := turned, PRIORITY := 1);
PROGRAM lamps WITH wishing : follow;
PROGRAM clock WITH telling : tell;
END_CONFIGURATION
"""
FILES = {
    "/etc/dalictl/house.il": TEXT,
    "/etc/dalictl/house.bind": "buses 4\nsource 1.0 device-instance 5 31\nsource 2.0 device-instance 63 0\n",
    "/etc/dalictl/broker.conf": "listener 1883 127.0.0.1\nallow_anonymous true\n",
    "/etc/default/dalictl-line@far": f'COMMAND="{SIMULATED} --pty /run/dalictl-line@far/line --gear 5 '
    '--log /run/dalictl-line@far/log"\n',
}
BUS_LINES = (
    f'BUS_LINES="--line 0={DEVICE} --line 1=/run/dalictl-mqtt/line --line 2=/run/dalictl-clock/line'
    ' --line 3=/run/dalictl-line@far/line"'
)
# Settings that are changed: a file, what begins the line, and the line.
SETTINGS = (
    ("dalictl-live", "BUS_LINES=", BUS_LINES),
    ("dalictl-live", "DEVICES=", f'DEVICES="/dev/serial/by-id/away {DEVICE}"'),
    ("dalictl-watch", "TELL=", 'TELL="/usr/bin/logger -t house"'),
    ("dalictl-watch", "OPTIONS=", 'OPTIONS="--log /run/dalictl-live/log --after 3"'),
)
FETCH = "import sys, urllib.request as it; print(it.urlopen(sys.argv[1], timeout=10).read().decode())"
PUBLISH = "import sys, paho.mqtt.publish as it; it.single(*sys.argv[1:], hostname='127.0.0.1')"
SUBSCRIBE = "import sys, paho.mqtt.subscribe as it; print(it.simple(sys.argv[1], hostname='127.0.0.1').payload)"


class Day:
    """The machine of the house, and what was otherwise there."""

    def __init__(self, its: Machine, package: str, later: str) -> None:
        self.machine, self.package, self.later = its, package, later
        self.wrong = False

    def hold(self, what: str, holds: object, more: str = "") -> None:
        if not holds:
            self.wrong = True
            print(f"{what} is otherwise", *more.splitlines()[-20:], sep="\n", flush=True)

    def comes(self, what: str, holds: Callable[[], object], seconds: float = 60) -> None:
        """Waits for something."""
        self.hold(what, wait_for(holds, seconds), self.state())

    def state(self) -> str:
        units = [f"{it}.service" for it in UNITS]
        return self.call("systemctl", "list-units", "--all", "--no-legend", *units) + self.status() + self.told()

    def call(self, *words: object) -> str:
        return self.machine.call(*words).stdout

    def do(self, *words: object) -> str:
        """A command that has to end well."""
        done = self.machine.call(*words)
        self.hold(" ".join(map(str, words)), done.returncode == 0, done.stdout)
        return done.stdout

    def put(self, path: str, text: str) -> None:
        there = self.machine.root(path)
        there.parent.mkdir(exist_ok=True)
        there.write_text(text)

    def set(self, name: str, begin: str, line: str) -> None:
        """Puts a line in the place of the one of a file of settings that begins so."""
        path = f"/etc/default/{name}"
        self.put(path, re.sub(f"^{begin}.*$", line, self.read(path), flags=re.M))

    def read(self, path: str) -> str:
        try:
            return self.machine.root(path).read_text()
        except OSError:
            return ""

    def status(self) -> str:
        return self.read("/run/dalictl-live/status")

    def told(self) -> str:
        """What was reported by the command of the watch."""
        return self.call("journalctl", "-q", "-o", "cat", "-t", "house")

    def shows(self, name: str, *properties: str) -> str:
        words = [f"--property={it}" for it in properties]
        return self.call("systemctl", "show", "--value", *words, name).strip()

    def restarts(self) -> List[str]:
        """How often each service was started again since it was started by hand."""
        return [self.shows(it, "NRestarts") for it in UNITS]

    def all_up(self) -> bool:
        return re.findall(r"^bus \d (up|down)", self.status(), re.M) == ["up"] * 4

    def wish(self, level: int) -> None:
        """A wish over MQTT lights both lamps. It is sent until somebody is there who hears it."""

        def is_lit() -> bool:
            self.do("/usr/bin/python3", "-c", PUBLISH, "gushewa/house/lamp/5/set", level)
            return wait_for(
                lambda: all(f"level bus {bus} short 5 sent {level}\n" in self.status() for bus in (0, 3)), 3
            )

        self.comes(f"level {level}", is_lit)

    def at_broker(self, topic: str) -> str:
        """What the broker keeps of a topic, once it has something."""
        return self.machine.call("timeout", 40, "/usr/bin/python3", "-c", SUBSCRIBE, f"gushewa/house/{topic}").stdout

    def start(self, name: str) -> None:
        if name == "adapter":
            folder = ["-p", "RuntimeDirectory=adapters", "-p", "RuntimeDirectoryMode=0775", "-p", "Group=dialout"]
            log = ["--pty", DEVICE, "--gear", "5", "--log", "/run/adapters/log"]
            self.do("systemd-run", "--unit=adapter", *folder, SIMULATED, *log)
        elif name == "broker":
            self.do("systemd-run", "--unit=broker", "/usr/sbin/mosquitto", "-c", "/etc/dalictl/broker.conf")
        else:
            self.do("systemctl", "enable", "--now", name)

    def stop(self, *names: str) -> None:
        self.do("systemctl", "stop", *names)
        self.call("systemctl", "reset-failed")  # so that a name is free for systemd-run

    def install(self) -> None:
        """The package is installed, nothing is started, and each unit is as systemd wants it."""
        shutil.copy(self.package, self.machine.root("/root/package.deb"))
        self.do("dpkg", "--install", "/root/package.deb")
        self.hold(
            "what runs after the installation",
            not self.call("systemctl", "list-units", "--plain", "--no-legend", "dalictl-*"),
        )
        units = [it.name for it in self.machine.root("/usr/lib/systemd/system").glob("dalictl-*")]
        self.hold("the units", {f"{it}.service" for it in UNITS if "@" not in it} <= set(units), " ".join(units))
        for unit in units:
            said = self.do("systemd-analyze", "verify", unit.replace("@", "@any"))
            self.hold(f"what systemd-analyze says of {unit}", "dalictl" not in said, said)
            self.hold(f"the limit of {unit}", self.shows(unit.replace("@", "@any"), "LimitFSIZE") in ("infinity", ""))
        for path, text in FILES.items():
            self.put(path, text)
        for setting in SETTINGS:
            self.set(*setting)

    def begin(self, names: List[str]) -> None:
        """The services are started in an order, and the house is whole behind the last one."""
        for name in names:
            self.start(name)
            if name == "dalictl-live":
                self.comes(f"live, started at place {names.index(name)}", self.status)
        self.comes(f"the house, in the order {' '.join(names)}", self.all_up)
        self.comes("the house at the broker", lambda: self.at_broker("available") == "b'online'\n")
        self.wish(100)
        self.comes("the clock", lambda: "told = 1000" not in self.status())
        self.hold("what was started again", self.restarts() == ["0"] * len(UNITS), self.state())

    def lose_adapter(self) -> None:
        """Its bus is down alone, which is reported, and comes back; its device is set again, where it is plugged in."""
        self.stop("adapter")
        self.comes("a report that bus 0 is down", lambda: "bus 0 is down" in self.told())
        self.do("/usr/bin/python3", "-c", PUBLISH, "gushewa/house/lamp/5/set", 77)
        self.comes("the lamp behind the other bus", lambda: "level bus 3 short 5 sent 77\n" in self.status())
        self.start("adapter")
        self.comes("bus 0 again", self.all_up)
        self.comes("a report of it", lambda: "bus 0 is up again" in self.told())
        self.comes("its level", lambda: "0A4D" in self.read("/run/adapters/log"))
        device = self.call("readlink", "-f", DEVICE).strip().removeprefix("/dev/")
        self.do("systemctl", "start", f"dalictl-device@{device.replace('/', '-')}")
        self.hold("the speed of a device that came", self.call("stty", "-F", DEVICE, "speed") == "115200\n")
        self.hold("the bus of a device that was set", self.all_up())

    def lose_broker(self) -> None:
        """Nothing of the house changes, and the levels are there again with it."""
        self.do("systemctl", "kill", "--signal=KILL", "broker")
        wait_for(lambda: False, 3)
        self.hold("the house without a broker", self.all_up(), self.state())
        self.call("systemctl", "reset-failed", "broker")
        self.start("broker")
        self.comes("the level at the broker", lambda: '"brightness": 77,' in self.at_broker("lamp/5"))
        self.wish(120)

    def crash(self) -> None:
        """A building that is killed, and one that hangs: each goes on, and each is reported."""
        before = self.shows("dalictl-live", "MainPID")
        self.do("systemctl", "kill", "--signal=KILL", "dalictl-live")
        self.comes(
            "the building again", lambda: self.shows("dalictl-live", "MainPID") not in (before, "0") and self.all_up()
        )
        self.comes("a report of it", lambda: "the building was started again" in self.told())
        self.do("systemctl", "kill", "--signal=STOP", "dalictl-live")
        self.comes("a report that it hangs", lambda: "the building does not go on" in self.told())
        self.do("systemctl", "kill", "--signal=CONT", "dalictl-live")
        self.comes("a report that it goes on", lambda: "the building goes on" in self.told())
        self.comes("all buses", self.all_up)

    def end_in_order(self) -> None:
        """A stop keeps the values of just before, also where a line is silent, and the next start begins with them."""
        self.wish(137)
        self.stop("dalictl-live")
        self.hold("how it ended", self.shows("dalictl-live", "ExecMainStatus", "Result") == "success\n0", self.state())
        self.hold("what is kept", "near = 137\n" in self.read(KEPT), self.read(KEPT))
        self.do("systemctl", "start", "dalictl-live")
        self.comes("its level again", lambda: "level bus 0 short 5 sent 137\n" in self.status())
        self.comes("all buses", self.all_up)
        self.wish(42)
        self.do("systemctl", "kill", "--signal=STOP", "adapter")
        self.stop("dalictl-live")
        self.hold("what is kept beside a silent line", "near = 42\n" in self.read(KEPT), self.read(KEPT))
        self.hold("its end", "timeout" not in self.shows("dalictl-live", "Result"), self.state())
        self.do("systemctl", "kill", "--signal=CONT", "adapter")

    def refuse(self) -> None:
        """A text that is refused is not started for ever, and is reported."""
        self.put("/etc/dalictl/house.il", TEXT.replace("ST near", "ST neer"))
        self.machine.call("systemctl", "start", "dalictl-live")
        self.comes("a text that is refused", lambda: self.shows("dalictl-live", "ActiveState") == "failed")
        self.comes("a report of it", lambda: "the service dalictl-live failed" in self.told())
        self.put("/etc/dalictl/house.il", TEXT)
        self.do("systemctl", "start", "dalictl-live")
        self.comes("the text that is mended", self.all_up)

    def misuse(self) -> None:
        """A program with a setting that it does not know is not started for ever, and is reported."""
        self.set("dalictl-clock", "OPTIONS=", 'OPTIONS="--plaice 52.5,13.4"')
        self.machine.call("systemctl", "restart", "dalictl-clock")
        self.comes("a report of wrong usage", lambda: "the service dalictl-clock failed" in self.told())
        self.set("dalictl-clock", "OPTIONS=", 'OPTIONS="--zone Europe/Berlin"')
        self.do("systemctl", "start", "dalictl-clock")
        self.comes("the clock again", self.all_up)

    def upgrade(self) -> None:
        """Services go on with the program of before, which is said, until they are started again."""
        before = self.shows("dalictl-live", "MainPID")
        shutil.copy(self.later, self.machine.root("/root/later.deb"))
        said = self.do("dpkg", "--install", "/root/later.deb")
        self.hold(
            "what an upgrade says",
            "still run the programs of version" in said and "dalictl-live.service" in said,
            said,
        )
        self.hold("the house behind an upgrade", self.shows("dalictl-live", "MainPID") == before and self.all_up())
        self.do("systemctl", "restart", *UNITS)
        self.comes(
            "the house with the new programs", lambda: self.shows("dalictl-live", "MainPID") != before and self.all_up()
        )
        self.hold("what was started again behind an upgrade", self.restarts() == ["0"] * len(UNITS), self.state())
        self.hold("a setting", "--after 3" in self.read("/etc/default/dalictl-watch"))

    def run_as_user(self) -> None:
        """The units of examples/systemd do the same for a user without root, whose building hears its clock."""
        self.do("useradd", "--create-home", "--user-group", USER)
        number = self.call("id", "-u", USER).strip()
        home, running = f"/home/{USER}", f"/run/user/{number}"
        for link, there in (("crates/dalictl/out/dalictl", "/usr/bin/dalictl"), ("programs", "/usr/lib/dalictl")):
            self.do("install", "-d", pathlib.PurePath(f"{home}/gushewa/{link}").parent)
            self.do("ln", "-sT", there, f"{home}/gushewa/{link}")
        units = f"{home}/.config/systemd/user"
        for name, source in (("live", "live"), ("clock", "program")):
            self.do(
                "install",
                "-D",
                "-m",
                "644",
                f"{EXAMPLES}/systemd/dalictl-{source}.service",
                f"{units}/dalictl-{name}.service",
            )
        settings = (HERE / "packaging/dalictl-live.default").read_text().replace("/run/", f"{running}/")
        lines = BUS_LINES.replace("/run/dalictl-clock", f"{running}/dalictl-clock")
        self.do("install", "-d", f"{home}/.config/default")
        self.put(f"{home}/.config/default/dalictl-live", re.sub("^BUS_LINES=.*$", lines, settings, flags=re.M))
        self.put(f"{home}/.config/default/dalictl-clock", 'OPTIONS=""\n')
        self.do("chown", "-R", f"{USER}:", home)
        self.do("systemctl", "start", f"user@{number}")
        words = ("runuser", "-u", USER, "--", "env", f"XDG_RUNTIME_DIR={running}", "systemctl", "--user")
        self.do(*words, "enable", "--now", "dalictl-live", "dalictl-clock")
        self.comes("the clock of a user", lambda: "\nbus 2 up" in self.read(f"{running}/dalictl-live/status"))
        self.do(*words, "stop", "dalictl-live")
        self.hold(
            "how it ended for a user",
            self.call(*words, "show", "--value", "-p", "Result", "dalictl-live") == "success\n",
        )
        self.hold("what is kept for a user", "told = " in self.read(f"{home}/.config/dalictl-live/kept"))
        self.do("systemctl", "stop", f"user@{number}")

    def purge(self) -> None:
        """Nothing runs any more, what the package brought is gone, and what is the house's stays."""
        self.wish(9)
        files = [it for it in self.call("dpkg", "--listfiles", "dalictl").split() if not self.machine.root(it).is_dir()]
        self.do("dpkg", "--purge", "dalictl")
        self.hold(
            "what runs yet", not self.call("systemctl", "list-units", "--plain", "--no-legend", "dalictl-*.service")
        )
        enabled = self.call("find", "/etc/systemd", "-name", "dalictl*")
        self.hold("what is enabled yet", not enabled, enabled)
        left = [it for it in files if self.machine.root(it).exists()]
        self.hold("what is left", not left, "\n".join(left))
        self.hold("the house's files", all(self.read(path) == text for path, text in FILES.items()))
        self.hold("the values of its end", "near = 9\n" in self.read(KEPT), self.read(KEPT))

    def look_at_page(self) -> None:
        """The page stands between the controller and the adapter, and says what the building is like."""
        if not self.machine.root("/usr/bin/dalictl-page").exists():
            return
        self.set("dalictl-page", "OPTIONS=", f'OPTIONS="--line 0={DEVICE}"')
        self.set("dalictl-live", "BUS_LINES=", BUS_LINES.replace(DEVICE, "/run/dalictl-page/dali0"))
        self.start("dalictl-page")
        self.do("systemctl", "restart", "dalictl-live")
        self.comes("the house behind the page", self.all_up)
        self.wish(200)
        said = self.do("/usr/bin/python3", "-c", FETCH, "http://127.0.0.1:8480/")
        self.hold("the page", "<html" in said, said)


def main() -> None:
    if len(sys.argv) != 3:
        sys.exit(__doc__)
    with tempfile.TemporaryDirectory() as folder, machine(pathlib.Path(folder)) as its:
        if its is None:
            print("no machine of its own can be made here: the day is left out")
            return
        day = Day(its, *sys.argv[1:])
        day.install()
        day.begin(UNITS + OTHERS)
        day.stop(*UNITS, *OTHERS)
        day.begin([*OTHERS, *reversed(UNITS)])
        day.lose_adapter()
        day.lose_broker()
        day.crash()
        day.end_in_order()
        day.refuse()
        day.misuse()
        day.upgrade()
        day.look_at_page()
        day.run_as_user()
        day.purge()
    sys.exit(day.wrong)


if __name__ == "__main__":
    main()
