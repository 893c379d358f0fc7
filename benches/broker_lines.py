"""What benches/broker tries of lines that are seen, of names, and of a broker that lets not everybody in."""

from __future__ import annotations

import json
import pathlib
import subprocess
from typing import Any, Dict, Optional

from broker_parts import Broker, Home
from programs_parts import HERE, PROGRAMS, Bench
from waiting import wait_for

from gushewa_line.controller import Controller, LineFailed
from gushewa_line.gateway import device_event

BASE = "gushewa/house"
FIRST_HOUSE = HERE / "examples/first-house"
# Where the button of the first house is said.
BUTTON = f"{BASE}/bus/0/event/device-instance/2/1"
# Frames, what they are answered, and what is said of which address of bus 0 then.
LEVELS: Any = (
    (0x0EC8, "quiet", "7", {"state": "ON", "brightness": 200, "color_mode": "brightness"}),
    (0x0FA0, "answer 200", "7", {"state": "ON", "brightness": 200, "color_mode": "brightness", "answered": 200}),
    (0x0F00, "quiet", "7", {"state": "OFF", "answered": 200}),
    (0x0F05, "quiet", "7", {"state": None, "answered": 200}),
    (0x0FA0, "answer 254", "7", {"state": None, "answered": 254}),
    (0x8264, "quiet", "group-1", {"state": "ON", "brightness": 100, "color_mode": "brightness"}),
    (0xFE00, "quiet", "all", {"state": "OFF"}),
    (0xFE0A, "quiet", "7", {"state": "ON", "brightness": 10, "color_mode": "brightness", "answered": 254}),
)
STATUS = {
    "version": 1,
    "date": "2026-12-01T07:17:47Z",
    "moment_ms": 4000,
    "buses": [{"bus": 0, "state": "up", "sent": 5, "heard": 4, "waiting": 0, "dropped": 0}],
    "levels": [{"bus": 0, "address": 7, "sent": 0}],
    "variables": {"pressed": False, "event": 2, "lamp": 0},
}
# What is announced: where, and some of what it says.
ANNOUNCED: Dict[str, Dict[str, Any]] = {
    "binary_sensor/gushewa_house_bus_0": {"name": "Bus 0", "state_topic": f"{BASE}/bus/0", "payload_on": "up"},
    "sensor/gushewa_house_bus_0_lamp_7": {"name": "lamp", "state_topic": f"{BASE}/bus/0/lamp/7"},
    "sensor/gushewa_house_bus_0_lamp_group-1": {"name": "Group 1"},
    "light/gushewa_house_lamp_5": {
        "name": "Hall",
        "command_topic": f"{BASE}/lamp/5/set",
        "state_topic": f"{BASE}/bus/0/lamp/7",
    },
    "device_automation/gushewa_house_bus_0_event_device-instance_2_1_2": {
        "automation_type": "trigger",
        "type": "button_short_press",
        "subtype": "pressed",
        "topic": BUTTON,
        "payload": "2",
    },
    "sensor/gushewa_house_bus_0_event_device-instance_2_1": {"name": "pressed", "state_topic": BUTTON},
    "binary_sensor/gushewa_house_value_pressed": {"name": "pressed", "state_topic": f"{BASE}/value/pressed"},
    "sensor/gushewa_house_value_event": {"name": "event", "availability_topic": f"{BASE}/available"},
}


class Guarded(Broker):
    """mosquitto with TLS, passwords, and the rules of examples/mosquitto."""

    def __init__(self, bench: Bench) -> None:
        super().__init__(bench)
        self.certificate, self.passwords = bench.folder / "house.pem", bench.folder / "passwords"
        key = bench.folder / "house.key"
        words = ("req", "-x509", "-newkey", "rsa:2048", "-nodes", "-subj", "/CN=house", "-days", "2")
        names = ("-addext", "subjectAltName=IP:127.0.0.1", "-keyout", key, "-out", self.certificate)
        bench.same("openssl", bench.run("openssl", *words, *names).returncode, 0)
        self.passwords.touch(0o600)
        for user in ("gushewa", "homeassistant", "telephone", "display"):
            bench.run("mosquitto_passwd", "-b", self.passwords, user, f"secret of {user}")
        example = (HERE / "examples/mosquitto/gushewa.conf").read_text()
        for path, own in (
            ("listener 8883", f"listener {self.port} 127.0.0.1\nuser {self.user}"),
            ("/etc/mosquitto/certs/house.pem", str(self.certificate)),
            ("/etc/mosquitto/certs/house.key", str(key)),
            ("/etc/mosquitto/gushewa.passwords", str(self.passwords)),
            ("/etc/mosquitto/gushewa.acl", str(HERE / "examples/mosquitto/gushewa.acl")),
        ):
            bench.hold(path in example, f"gushewa.conf has no {path}")
            example = example.replace(path, own)
        self.path.write_text(example)

    def home(self, user: str) -> Home:
        return Home(self.port, user, f"secret of {user}", str(self.certificate))


class Seen:
    """mqtt.py between a controller of the bench's own and a simulated bus, at a guarded broker."""

    def __init__(self, bench: Bench) -> None:
        self.bench, self.broker = bench, Guarded(bench)
        self.broker.come()
        self.home, self.interface_link = self.broker.home("homeassistant"), bench.folder / "adapter"
        self.status, self.lines = bench.folder / "status", bench.folder / "lines"
        self.lines.mkdir(0o700)
        self.interface = self.start_interface()
        (bench.folder / "password").write_text("secret of gushewa\n")
        self.words: Any = ["--broker", f"127.0.0.1:{self.broker.port}", "--tls", self.broker.certificate]
        self.words += ["--user", "gushewa", "--password-file", bench.folder / "password"]
        self.words += ["--line", f"0={self.interface_link}", "--folder", self.lines, "--status", self.status]
        self.words += ["--text", FIRST_HOUSE / "hall.il", "--bind", FIRST_HOUSE / "hall.bind"]
        self.own = bench.folder / "own"
        lamp = ("--lamp", "5=Hall@0.7")
        self.mqtt = bench.interface(self.own, "mqtt.py", *self.words, *lamp, stderr=subprocess.DEVNULL)
        self.controller = Controller(str(self.lines / "dali0"))

    def start_interface(self) -> subprocess.Popen[str]:
        return self.bench.interface(self.interface_link, "simulated.py", "--gear", 7, "--button", "048402:1")

    def waits(self, what: str, holds: Any, seconds: float = 10) -> None:
        self.bench.hold(wait_for(holds, seconds), f"{what}: not within {seconds:g} seconds")

    def said(self, topic: str) -> Any:
        """What is said last at a topic, as JSON."""
        return json.loads(self.home.last(f"{BASE}/{topic}") or "null")

    def bus_is(self, what: str, state: str) -> None:
        self.waits(f"{what}: bus 0 {state}", lambda: (self.said("bus/0") or {}).get("state") == state)

    def open(self) -> None:
        self.waits("a line for the controller", (self.lines / "dali0").exists)
        self.controller.open()


def see_lines(bench: Bench, program: Optional[pathlib.Path]) -> None:
    """What passes on a line goes out: levels, events, and what the bus is like."""
    seen = Seen(bench)
    seen.bus_is("before a greeting", "down")
    seen.open()
    seen.bus_is("greeted", "up")
    for frame, came, address, wanted in LEVELS:
        bench.same(f"bus 0 {frame:04X}", seen.controller.send(frame), came)
        seen.waits(f"bus 0 {frame:04X}", lambda: seen.said(f"bus/0/lamp/{address}") == wanted)
    seen.waits("a press", lambda: seen.controller.hear() == device_event(2, 1, 2))
    seen.waits("a press goes out", lambda: seen.home.last(BUTTON) == "2")
    seen.status.write_text(json.dumps(STATUS))
    seen.waits("a value", lambda: seen.home.last(f"{BASE}/value/event") == "2")
    seen.waits("a value of BOOL", lambda: seen.home.last(f"{BASE}/value/pressed") == "OFF")
    for place, wanted in ANNOUNCED.items():
        config = json.loads(seen.home.last(f"homeassistant/{place}/config") or "{}")
        bench.same(place, {key: config.get(key) for key in wanted}, wanted)
    lose_interface(seen)
    rules(seen)
    bench.end(seen.mqtt)
    bench.hold(not (seen.lines / "dali0").is_symlink(), "the line for the controller stays")
    seen.waits("the will", lambda: seen.home.last(f"{BASE}/available") == "offline")
    if program:
        see_building(seen, program)
    seen.home.client.loop_stop()
    seen.broker.go()


def see_building(seen: Seen, program: pathlib.Path) -> None:
    """The first house behind mqtt.py, which has no bus of its own: presses, levels, values, and its end."""
    link, available, stop = seen.lines / "dali0", f"{BASE}/available", seen.bench.folder / "first.stop"
    seen.bench.start(PROGRAMS / "mqtt.py", *seen.words, stderr=subprocess.DEVNULL)
    seen.waits("live: a line for the controller", link.exists)
    words: Any = ["live", FIRST_HOUSE / "hall.il", FIRST_HOUSE / "hall.bind", "--line", f"0={link}", "--stop", stop]
    seen.status.unlink()
    building = seen.bench.start(program, *words, "--status", seen.status, "--json", stdout=-1, stderr=-3)
    seen.waits("live: available", lambda: seen.home.last(available) == "online")
    for level in (200, 0, 200):
        seen.waits(f"live: level {level}", lambda: seen.home.level(f"{BASE}/bus/0/lamp/7") == level)
        seen.waits(f"live: value {level}", lambda: seen.home.last(f"{BASE}/value/lamp") == str(level))
    stop.touch()
    building.communicate(timeout=30)
    seen.bench.same("live: status", building.returncode, 0)
    seen.waits("live: not available any more", lambda: seen.home.last(available) == "offline", 15)


def lose_interface(seen: Seen) -> None:
    """An adapter that goes away is a bus that is down; the line for the controller goes and comes with it."""
    seen.bench.end(seen.interface)
    seen.bus_is("no adapter", "down")
    try:
        seen.controller.send(0x0E00)
        seen.bench.hold(False, "no adapter: its line answers")
    except LineFailed:
        pass
    seen.interface = seen.start_interface()
    seen.open()
    seen.bus_is("the adapter is back", "up")
    seen.bench.same("the adapter is back", seen.controller.send(0x0EC8), "quiet")


def rules(seen: Seen) -> None:
    """By the rules of the example each user switches what it may, and nothing else."""
    own = Controller(str(seen.own))
    own.open()
    seen.waits("available", lambda: (own.hear(), seen.home.last(f"{BASE}/available"))[1] == "online")
    trials = (
        ("homeassistant", "lamp/6/set", device_event(6, 31, 255)),
        ("telephone", "lamp/5/set", device_event(5, 31, 255)),
        ("telephone", "lamp/05/set", None),
        ("telephone", "lamp/6/set", None),
        ("display", "lamp/5/set", None),
    )
    for user, topic, event in trials:
        home = seen.broker.home(user)
        home.send(f"{BASE}/{topic}", "ON")
        if event is None:
            seen.home.send(f"{BASE}/event/9/9", "9")  # behind it, so nothing else is to be heard
            event = device_event(9, 9, 9)
        found: Any = []
        wait_for(lambda: found.append(own.hear()) or found[-1] is not None)
        seen.bench.same(f"{user}: {topic}", found[-1], event)
        home.client.loop_stop()
    own.close()


def look_at_warning(bench: Bench) -> None:
    """A broker on another machine without TLS and without a password is warned of."""
    for words, is_warned in (
        (("--broker", "192.0.2.1"), True),
        (("--broker", "house.example:1883"), True),
        (("--broker", "192.0.2.1", "--user", "gushewa"), False),
        (("--broker", "localhost"), False),
        (("--broker", "127.0.0.1:1"), False),
    ):
        done = bench.run(PROGRAMS / "mqtt.py", "--pty", bench.folder / "none" / "link", *words)
        bench.same(f"{words}: warned", "warning" in done.stderr, is_warned)


def look_at_absence(bench: Bench, home: Home, controller: Controller) -> None:
    """Where the controller does not ask its line any more, `available` is `offline`, until it asks again."""
    available = f"{BASE}/available"
    bench.hold(wait_for(lambda: home.last(available) == "offline", 15), "no controller: it is still available")
    controller.hear()
    bench.hold(wait_for(lambda: home.last(available) == "online"), "the controller again: it is not available")
