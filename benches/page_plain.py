"""What of programs/page.py decides, without a browser, a line or a controller: tried by tables, for benches/page."""

from __future__ import annotations

import json
import pathlib
import random
from typing import Any, List, Optional, Tuple

from programs_parts import Bench

from dalictl_page import allowed, beside, doors, names, picture, state, view, words
from dalictl_page.channel import Sight, sight_of
from dalictl_page.relay import Relay

BINDING = "# a house\nbuses 2\nsource 0.0 device-instance 2 1\nsource 0.1 device 5 3\nsource 1.0 instance 4 0\n"
TEXT = """(* no AT %QB0.9 here *) VAR_GLOBAL
  pressed AT %IX0.0 : BOOL;  event at %iw0.128 : UINT (0..1023);
  there AT %IW0.129 : UINT; there_count AT %IW0.193 : UINT; lux AT %IW1.192 : UINT;
  lamp AT %QB0.7 : USINT (0..254); all_1 AT %QB1.80 : USINT; answer AT %IW0.7 : UINT (0..258);
END_VAR"""
TABLE = "# names\nlamp 0.7 Hall, <ceiling>\n\ngroup 0.3 Upper floor\nall 1 Garden\nbutton 0.0 Door\nbus 1 Garden bus\n"
WRONG_ROWS = (
    "lamp 0.64 Hall",
    "group 0.16 Hall",
    "lamp 0.7",
    "lamp 0.7 ",
    "lamp 7 Hall",
    "button 0.9 Door",
    "window 0.1 Door",
    f"lamp 0.1 {'x' * 61}",
    "lamp 0.1 a\x07b",
)

# A frame of 24 bits, its source, its information, and what it says there.
EVENTS = (
    (0x048402, "device-instance 2 1", 2, "information 2 (of a button: short press)"),
    (0x0A0C02, "device 5 3", 2, "somebody is there"),
    (0x0A0C05, "device 5 3", 5, "nobody is there, movement, as before"),
    (0x88812C, "instance 4 0", 300, "measured 300"),
    (0x800409, "device-group 0 1", 9, "long press began"),
    (0xFE7FFF, "instance-group 31 31", 1023, "information 1023"),
    (0x7EFC00, "device-instance 63 31", 0, "information 0 (of a button: released)"),
    (0xC14402, "", 0, ""),
    (0xFFFE00, "", 0, ""),
)


def try_words(bench: Bench) -> None:
    for frame, key, information, said in EVENTS:
        found = words.source_of(0, frame)
        bench.same(f"{frame:06X}", found and (found[0].key(), found[1]), (f"0 {key}", information) if key else None)
        if found:
            bench.same(f"{frame:06X} again", found[0].frame(information), frame)
            bench.same(f"{frame:06X} says", words.said(found[0].kind(), information), said)
    sent = {
        0x0AC8: words.Sent(200, "200"),
        0x0AFF: None,
        0x0B00: words.Sent(0, "OFF"),
        0x0B05: words.Sent(None, "RECALL MAX LEVEL"),
        0x0B12: words.Sent(None, "scene 2"),
        0x0BA0: None,
        0x0B20: None,
    }
    bench.same("frames", {frame: words.sent_by(frame) for frame in sent}, sent)


def try_frames(bench: Bench, program: pathlib.Path) -> None:
    """What any frame is, is the same as the program says."""
    chance = random.Random(7)
    for _ in range(40):
        frame = chance.randrange(1 << 24)
        said = bench.run(program, "frame", f"{frame:06X}").stdout
        found = words.source_of(0, frame)
        wanted = f", scheme {found[0].scheme}, information {found[1]}\n" if found else ""
        spoken = found[0].where().partition(", ")[2] if found else ""
        bench.hold(
            said.startswith(f"{frame:06X} event: {spoken}, ") and said.endswith(wanted)
            if found
            else "event" not in said,
            f"{frame:06X}: the page has {spoken!r}{wanted!r}, and the program says {said!r}",
        )


def house() -> names.Names:
    it = names.Names()
    it.read_binding(BINDING)
    it.read_text(TEXT)
    it.read_table(TABLE)
    return it


def try_names(bench: Bench) -> None:
    it = house()
    lamps = {(0, 7): "Hall, <ceiling>", (0, 67): "Upper floor", (1, 80): "Garden"}
    bench.same("lamps", it.lamps, lamps)
    sources = {named.name: (source.key(), named.kind) for source, named in it.sources.items()}
    wanted = {
        "Door": ("0 device-instance 2 1", words.BUTTON),
        "there": ("0 device 5 3", words.PRESENCE),
        "lux": ("1 instance 4 0", words.LIGHT),
    }
    bench.same("sources", sources, wanted)
    bench.same("no name", it.lamp((0, 9)), "Gear 9")
    bench.same("no name", it.named(words.Source(0, "device", 1, 4)).name, "Device 1 type 4")
    for row in WRONG_ROWS:
        bench.same(f"a row {row!r}", refused(lambda: it.read_table(f"# names\n{row}\n"), ValueError), True)


def refused(call: Any, error: type[Exception]) -> bool:
    try:
        call()
    except error:
        return True
    return False


# The relay.


class Passed:
    """A relay, and what it told."""

    def __init__(self) -> None:
        self.told: List[Tuple[str, str]] = []
        self.relay = Relay(lambda way, text: self.told.append((way, text)))

    def ask(self, request: str, answer: bytes, now: float = 0.0) -> bytes:
        """What the controller gets for what the interface answers."""
        asked = self.relay.pass_request(request.encode() + b"\n", now)
        assert asked == request.encode() + b"\n", "a request was changed"
        return self.relay.pass_answer(answer, now)

    def greet(self, version: int = 2) -> None:
        self.ask(f"gushewa {version} 17", b"gushewa %d hears 17\n" % version)


# Lines that the interface says, to which requests, and what the page then knows of the line.
JUDGED_3: Tuple[Tuple[str, bytes, Optional[str]], ...] = (
    ("hear", b"none\n", None),
    ("hear", b"event 048402\nevent 048403\nnone\n", None),
    ("send 3 0BA0", b"event 048402\nanswer 255\n", None),
    ("send 3 0BA0", b"event 048402\nevent 048403\nnone\n", "the interface said 'none'"),
    ("hear", b"event 048402\nquiet\n", "the interface said 'quiet'"),
    ("hear", b"event 0484\n", "the interface said 'event 0484'"),
    ("gushewa 3 18", b"gushewa 3 hears 18\nevent 048402\n", "greeted"),
    ("gushewa 3 18", b"event 048402\ngushewa 3 hears 18\n", "greeted"),
    ("gushewa 3 18", b"fault\n", None),
    ("gushewa 2 18", b"gushewa 2 hears 18\n", "greeted"),
)
JUDGED: Tuple[Tuple[str, bytes, Optional[str]], ...] = (
    ("hear", b"none\n", None),
    ("hear", b"event 048402\n", None),
    ("send 3 0BA0", b"answer 255\n", None),
    ("send 3 0BA0", b"lost\n", None),
    ("send 3 0BA0", b"answer 256\n", "the interface said 'answer 256'"),
    ("send 3 0BA0", b"none\n", "the interface said 'none'"),
    ("hear", b"fault\n", "the interface said 'fault'"),
    ("hear", b"event 0484\n", "the interface said 'event 0484'"),
    ("nonsense", b"fault\n", None),
    ("gushewa 2 18", b"gushewa 2 hears 18\n", "greeted"),
    ("xxgushewa 1", b"gushewa 1\n", "greeted"),
    ("gushewa 2 18", b"gushewa 2 hears 17\n", None),
    ("gushewa 2 18", b"gushewa 2 18\n", None),
)


def try_relay(bench: Bench) -> None:
    judged = [(2, *row) for row in JUDGED] + [(3, *row) for row in JUDGED_3]
    for version, request, answer, wanted in judged:
        it = Passed()
        it.greet(version)
        it.told.clear()
        what = f"version {version}: {request} {answer!r}"
        bench.same(what, it.ask(request, answer), answer)
        bench.same(what, [text for way, text in it.told if way == "="], [wanted] if wanted else [])
        events = [f"event {text}" for text in answer.decode().split("event ")[1:]]
        said = "".join(f"{text}\n" for way, text in it.told if way == ">" and text.startswith("event "))
        bench.same(f"{what}: events that are seen", said, "".join(it.split("\n")[0] + "\n" for it in events))
    try_passing(bench)
    try_pressing(bench)
    try_pressing_at_once(bench)


def try_passing(bench: Bench) -> None:
    """Whatever bytes come in whatever pieces: the same go on, in their order, while nobody presses."""
    chance = random.Random(5)
    pieces = [
        b"none",
        b"\n",
        b"no",
        b"ne\n",
        b"quiet\n",
        b"\xff\x00",
        b"hear\n",
        b"x" * 90,
        b"event 048402\n",
        b"gushewa",
    ]
    for turn in range(300):
        it = Passed()
        if turn % 3:
            it.greet(1 + turn % 3)
        asked, answered, requests, answers = b"", b"", b"", b""
        for _ in range(40):
            piece = chance.choice(pieces)
            if chance.random() < 0.5:
                asked, requests = asked + piece, requests + it.relay.pass_request(piece, 0.0)
            else:
                answered, answers = answered + piece, answers + it.relay.pass_answer(piece, 0.0)
        answers += it.relay.pass_answer(b"\n", 0.0)
        bench.same(f"requests {turn}", requests, asked)
        bench.same(f"answers {turn}", answers, answered + b"\n")


def try_pressing(bench: Bench) -> None:
    """An event by hand stands in place of one `none` that answers `hear`, and of nothing else."""
    it = Passed()
    it.relay.press("1", 0x048402, 0.0)
    bench.same("not greeted", it.told, [("-", "1 048402")])
    it.greet()
    it.relay.press("2", 0x048402, 0.0)
    bench.same("a frame", it.ask("send 3 0A80", b"quiet\n"), b"quiet\n")
    bench.same("an event of the bus", it.ask("hear", b"event 0A8809\n"), b"event 0A8809\n")
    bench.same("half", it.ask("hear", b"no"), b"")
    bench.same("whole", it.relay.pass_answer(b"ne\n", 0.0), b"event 048402\n")
    bench.same("told", it.told[-1], ("+", "2 048402"))
    bench.same("once", it.ask("hear", b"none\n"), b"none\n")
    it.relay.press("3", 0x048402, 0.0)
    bench.same("begun before", it.ask("hear", b"x"), b"x")
    bench.same("no `none`", it.relay.pass_answer(b"none\n", 0.0), b"none\n")
    it.greet()
    bench.hold(("-", "3 048402") in it.told, "a greeting does not drop what waits")
    it.relay.press("4", 0x048402, 0.0)
    bench.same("too late", it.ask("hear", b"none\n", 2.1), b"none\n")
    for number in range(80):
        it.relay.press(str(number), 0x048402, 3.0)
    bench.same("too many", len(it.relay.presses), 64)
    it.relay.begin()
    bench.same("a new line", len(it.relay.presses), 0)


def try_pressing_at_once(bench: Bench) -> None:
    """In version 3 an event by hand is said at once between two lines, and not in place of any."""
    it = Passed()
    it.greet(3)
    it.relay.press("1", 0x048402, 0.0)
    bench.same("idle", it.relay.pass_presses(0.0), b"event 048402\n")
    bench.same("told", it.told[-1], ("+", "1 048402"))
    bench.same("once", it.relay.pass_presses(0.0), b"")
    bench.same("hear", it.ask("hear", b"none\n"), b"none\n")
    for begun, rest in ((b"no", b"ne\n"), (b"event 0A", b"8809\n"), (b"qui", b"et\n")):
        passed = it.ask("hear" if begun == b"no" else "send 3 0A80", begun)
        it.relay.press("2", 0x048402, 0.0)
        bench.same(f"half said: {begun!r}", it.relay.pass_presses(0.0), b"")
        passed += it.relay.pass_answer(rest, 0.0)
        bench.same(f"behind the line: {begun!r}", passed, begun + rest + b"event 048402\n")
    it.relay.pass_request(b"send 3 0A80\n", 0.0)
    it.relay.press("3", 0x048402, 0.0)
    bench.same("a frame is under way", it.relay.pass_presses(0.0), b"event 048402\n")
    it.told.clear()
    bench.same("its answer", it.relay.pass_answer(b"quiet\n", 0.0), b"quiet\n")
    bench.same("its answer is seen", it.told, [(">", "quiet")])
    it.relay.pass_request(b"gushewa 3 18\n", 0.0)
    it.relay.press("4", 0x048402, 0.0)
    bench.same("a greeting is under way", (it.relay.pass_presses(0.0), it.told[-1]), (b"", ("-", "4 048402")))


# The state.

# What is seen on bus 0, and what is shown of the lamp 0.7 then: sent, answered, whether they differ.
SEEN: Tuple[Tuple[str, str, str, bool], ...] = (
    ("send 2 0EC8|quiet", "200", "", False),
    ("send 5 0FA0|answer 200", "200", "200", False),
    ("send 5 0FA0|answer 0", "200", "0", True),
    ("send 2 0E00|quiet", "0", "0", False),  # not asked since then
    ("send 5 0FA0|answer 0", "0", "0", False),
    ("send 2 0E0A|lost", "0", "0", False),
    ("send 2 FE0A|quiet", "10 to all gear", "0", False),
    ("send 5 0FA0|answer 0", "10 to all gear", "0", True),
    ("send 2 8664|quiet", "10 to all gear", "0", False),  # it may be in group 3
    ("send 5 0FA0|answer 100", "10 to all gear", "100", False),
    ("send 2 0F05|quiet", "RECALL MAX LEVEL", "100", False),
    ("send 5 0FA0|answer 254", "RECALL MAX LEVEL", "254", False),
    ("send 5 0FA0|quiet", "RECALL MAX LEVEL", "nothing", True),
    ("send 5 0FA0|damaged", "RECALL MAX LEVEL", "damaged", True),
    ("send 5 0FA0|answer 255", "RECALL MAX LEVEL", "no level: it starts, or its lamp failed", True),
    ("send 5 0F90|answer 4", "RECALL MAX LEVEL", "no level: it starts, or its lamp failed", True),
)


def try_state(bench: Bench) -> None:
    it, nothing = state.Building(house(), 2), beside.Beside(house())
    at = 1000.0
    for seen, sent, answered, differs in SEEN:
        for way, text in zip("<>", seen.split("|")):
            at += 1
            it.note(sight_of(Sight(at, 0, way, text).line()))
        lamp = [lamp for lamp in view.show(it, nothing, at)["lamps"] if lamp["id"] == "0.7"][0]
        bench.same(seen, (lamp["sent"], lamp["answered"], lamp["differs"]), (sent, answered, differs))
    shown = view.show(it, nothing, at)
    bench.same("lost", [bus["lost"] for bus in shown["buses"]], [1, 0])
    bench.same("lost, an hour later", view.show(it, nothing, at + 3660)["buses"][0]["lost"], 0)
    bench.same("counted", (it.buses[0].sent, it.buses[0].heard), (len(SEEN), 0))
    it.note(Sight(at, 0, ">", "event 048409"))
    it.note(Sight(at, 0, "+", "7 048402"))
    door = [source for source in view.show(it, nothing, at)["sources"] if source["name"] == "Door"][0]
    bench.same("door", (door["said"], door["by_hand"], door["choices"][0]), ("short press", True, (2, "short press")))
    for number in range(8000):
        it.note(Sight(at, 1, ">", f"event {number << 10 & 0x7EFC00 | 0x8000:06X}"))
    bench.hold(len(it.sources) <= state.MOST_SOURCES and it.missed > 0, "sources without end")
    try_buses(bench)
    try_patience(bench)


def try_patience(bench: Bench) -> None:
    """A controller of a long patience may be silent for longer, and asks an idle line of version 3 less often."""
    it = state.Building(house(), 2, 5.0)
    bus = it.buses[1]
    it.note(Sight(1, 1, "=", "greeted"))
    for at in range(2, 12):
        it.note(Sight(at, 1, "~", "0 0"))
        bench.same("asked each five seconds", bus.state, "up")
    it.note(Sight(12, 1, "~", "0 0"))
    bench.same("asked by nobody for two patiences", (bus.state, bus.why), ("down", state.NOBODY_ASKS))
    it.note(Sight(13, 1, "~", "1 4900"))
    bench.same("a long patience", bus.state, "up")
    it.note(Sight(14, 1, "~", "0 5100"))
    bench.same("a long patience is over", (bus.state, bus.why), ("down", "silent for 5 s"))


def try_buses(bench: Bench) -> None:
    """A bus is up or down, since when and why."""
    it, nothing = state.Building(house(), 2), beside.Beside(house())

    def bus(at: float, way: str, text: str) -> Tuple[Any, ...]:
        it.note(Sight(at, 1, way, text))
        shown = view.show(it, nothing, at)["buses"][1]
        return shown["state"], shown["why"], shown["since"]

    bench.same("open", bus(1, "=", "open"), ("down", "no controller has greeted yet", 1))
    bench.same("greeted", bus(2, "=", "greeted"), ("up", "the interface greeted", 2))
    bench.same("waits", bus(3, "~", "10 900"), ("up", "the interface greeted", 2))
    bench.same("silent", bus(9, "~", "0 1100"), ("down", "silent for 1 s", 9))
    bench.same("silent still", bus(10, "~", "1 100"), ("down", "silent for 1 s", 9))
    bench.same("again", bus(11, "=", "greeted"), ("up", "the interface greeted", 11))
    for at in range(12, 16):
        bench.same("asked by nobody", bus(at, "~", "0 0")[0], "up")
    bench.same("asked by nobody", bus(16, "~", "0 0"), ("down", state.NOBODY_ASKS, 16))
    bench.same("asked again", bus(17, "~", "9 0"), ("up", "the controller asks again", 17))
    bench.same("closed", bus(18, "=", "closed"), ("down", "closed", 18))
    bench.same("away", bus(19, "=", "no such file"), ("down", "no such file", 19))
    nothing.status, nothing.written = beside.Status(0, [0], {}, {}), 20.0
    bus(20, "=", "greeted")
    it.note(Sight(20, 0, "=", "greeted"))
    states = [(one["state"], one["why"]) for one in view.show(it, nothing, 21)["buses"]]
    bench.same("status", states, [("down", "the controller says so"), ("up", "the interface greeted")])
    states = [(one["state"], one["why"]) for one in view.show(it, nothing, 200)["buses"]]
    bench.same("an old status", states[0], ("up", "the interface greeted"))
    bench.hold("old" in view.show(it, nothing, 200)["troubles"][0], "an old status is not told")


# What is written beside the building.

STATUS = {
    "version": 1,
    "moment_ms": 10000,
    "buses": [{"bus": 0, "state": "up"}, {"bus": 1, "state": "down"}],
    "levels": [{"bus": 0, "address": 7, "sent": 200}],
    "variables": {"pressed": False, "lamp": 200},
}
KEPT = """kept by dalictl live at 1795815310 moment 9000
lamp = 200
light.rest.IN = TRUE
light.rest.PT = 180000
light.rest.start = 4000
light.over.IN = TRUE
light.over.PT = 5000
light.over.start = 1000
light.off.IN = FALSE
light.off.PT = 5000
light.off.start = 9000
end 9
sum 1
"""
LOGGED = (
    ("1 116 2026-12-01T07:07:33Z hand bus 0: short 7 level 200 (0EC8)", "Hall, <ceiling>: 200"),
    ("2 116 2026-12-01T07:07:33Z heard bus 0: device 2 instance 1, .. information 2 (048402)", "Door: short press"),
    ("3 116 2026-12-01T07:07:33Z hand bus 0: GEAR_ASK short 7 ACTUAL LEVEL (0FA0)", ""),
    ("4 116 2026-12-01T07:07:33Z ! down bus 0", ""),
    ("5 116 2026-12-01T07:07:33Z tick", None),
    ("6 116 2026-12-01T07:07:33Z take push worker 1", None),
    ("7 116 2026-12-01T07:07:33Z commit push steps 9", None),
    ("8 116 nonsense", None),
)


def try_beside(bench: Bench) -> None:
    status = beside.read_status(json.dumps(STATUS))
    wanted = beside.Status(10000, [1], {(0, 7): 200}, {"pressed": False, "lamp": 200})
    bench.same("status", status, wanted)
    for text in ("", "[]", "bus 0 up", json.dumps({**STATUS, "version": 2}), json.dumps({**STATUS, "levels": 3})):
        bench.same(f"status {text[:20]}", refused(lambda: beside.read_status(text), ValueError), True)
    kept = beside.read_kept(KEPT)
    bench.same("timers", beside.timers(kept, 10000), [beside.Timer("light.rest", 174000, 180000)])
    bench.same("a timer of a status", beside.timers({"t.PT": 9, "t.ET": 4, "t.IN": True}, 0), [beside.Timer("t", 5, 9)])
    for text in ("", "lamp = 3\n", KEPT[:80]):
        bench.same(f"kept {text!r}", refused(lambda: beside.read_kept(text), ValueError), True)
    for line, means in LOGGED:
        logged = beside.read_logged(line, house())
        bench.same(line, logged and (logged.means, logged.is_trouble), None if means is None else (means, "!" in line))
    try_log(bench)
    recorded = "gear 0 7\ntick 5\nevent 0 048402\ntick 3700000\n"
    found = picture.words_of("dalictl", "t", "b", "r", recorded)
    bench.same("the last hour", found[3:], ["dalictl", "look", "t", "b", "r", "--from", "100000"])
    found = picture.words_of("dalictl", "t", "b", "r", f"{picture.KEPT}: dalictl play ..\ntick 5\n")
    bench.same("a short record", found[3:], ["dalictl", "look", "t", "b", "r", "--keep", "r.keep"])


def try_log(bench: Bench) -> None:
    """A log that grows, is renamed, and is long."""
    path, lines = bench.folder / "growing.log", [line for line, _ in LOGGED]
    log = beside.Log(str(path), house(), 3)
    path.write_text("\n".join(lines[:2]) + "\n" + lines[3][:20])
    log.read_more()
    bench.same("a log", [it.words[:4] for it in log.lines], ["hand", "hear"])
    with open(path, "a") as file:
        file.write(lines[3][20:] + "\n" + lines[4] + "\n")
    log.read_more()
    bench.same("a log that grew", [it.words[:4] for it in log.lines], ["hand", "hear", "! do"])
    path.rename(bench.folder / "growing.log.1")
    path.write_text((lines[4] + "\n") * 20_000 + lines[0] + "\n")
    log.read_more()
    bench.same("a log of a new file", [it.words[:4] for it in log.lines], ["hear", "! do", "hand"])


# Who may do what.

Asked, HOST = allowed.Asked, "192.168.1.5:8480"
OWN, JSON, FORM = f"http://{HOST}", "application/json", "application/x-www-form-urlencoded; charset=UTF-8"
# A request, and the status by which it is refused, if it is.
ASKED = (
    (Asked("GET", "/", HOST), None),
    (Asked("GET", "/state", "localhost:8480", "http://evil.example", "cross-site"), None),
    (Asked("GET", "/state", "[::1]:8480"), None),
    (Asked("GET", "/state", "house.example"), None),
    (Asked("GET", "/state", "evil.example:8480"), 403),
    (Asked("GET", "/state", "127.0.0.1.evil.example"), 403),
    (Asked("GET", "/state", "user@evil.example"), 403),
    (Asked("GET", "/state", ""), 403),
    (Asked("GET", "/state", "127.0.0.1:port"), 403),
    (Asked("POST", "/state", HOST, OWN, None, JSON), 405),
    (Asked("GET", "/press", HOST, OWN, "same-origin", JSON), 405),
    (Asked("PUT", "/press", HOST, OWN, "same-origin", JSON), 405),
    (Asked("POST", "/press", HOST, OWN, "same-origin", JSON), None),
    (Asked("POST", "/press", HOST, OWN, None, f"{JSON}; charset=utf-8"), None),
    (Asked("POST", "/press", HOST, f"https://{HOST}", "same-origin", JSON), None),
    (Asked("POST", "/press", HOST, None, "same-origin", JSON), 403),
    (Asked("POST", "/press", HOST, "null", None, JSON), 403),
    (Asked("POST", "/press", HOST, "http://evil.example", "cross-site", JSON), 403),
    (Asked("POST", "/press", HOST, "http://192.168.1.5", "same-site", JSON), 403),
    (Asked("POST", "/press", HOST, OWN, "cross-site", JSON), 403),
    (Asked("POST", "/press", HOST, OWN, "same-origin", "text/plain"), 415),
    (Asked("POST", "/press", HOST, OWN, "same-origin", FORM), 415),
    (Asked("POST", "/press", "evil.example", "http://evil.example", "same-origin", JSON), 403),
    (Asked("POST", "/press", HOST, None, None, JSON, True), None),
    (Asked("POST", "/press", HOST, "http://evil.example", None, JSON, True), 403),
    (Asked("GET", "/login", HOST), None),
    (Asked("POST", "/login", HOST, OWN, "same-origin", FORM), None),
    (Asked("POST", "/login", HOST, "http://evil.example", "cross-site", FORM), 403),
    (Asked("GET", "/logout", HOST, OWN), 405),
)
# What is brought to /press, and the status by which it is refused, if it is.
DOOR = "0 device-instance 2 1"
BROUGHT = (
    ({"source": DOOR, "information": 2}, None),
    ({"source": DOOR, "information": 1024}, 400),
    ({"source": DOOR, "information": -1}, 400),
    ({"source": DOOR, "information": True}, 400),
    ({"source": DOOR, "information": "2"}, 400),
    ({"source": DOOR, "information": 2.0}, 400),
    ({"source": [DOOR], "information": 2}, 400),
    ({"source": DOOR}, 400),
    ({"source": DOOR, "information": 2, "frame": "FFFFFF"}, 400),
    ({"source": "0 device-instance 2 2", "information": 2}, 404),
    ({"source": "1 instance 4 0", "information": 2}, 409),
    ([DOOR, 2], 400),
    ({"source": "x" * 2000, "information": 2}, 413),
)


def status_of(call: Any) -> Optional[int]:
    try:
        call()
    except allowed.Refused as error:
        return error.status
    return None


def try_allowed(bench: Bench) -> None:
    for asked, wanted in ASKED:
        bench.same(f"{asked}", status_of(lambda: allowed.check(asked, ["house.example"])), wanted)
    it = state.Building(house(), 2)
    it.note(Sight(1.0, 0, "=", "greeted"))
    for brought, wanted in BROUGHT:
        bench.same(f"{brought}"[:80], status_of(lambda: allowed.press_of(json.dumps(brought).encode(), it)), wanted)
    for body in (b"", b"{", b"\xff", b"[" * 1000, b'{"source": NaN}'):
        bench.same(f"{body!r}"[:40], status_of(lambda: allowed.press_of(body, it)), 400)
    presses = allowed.Presses()
    statuses = [status_of(lambda: presses.take(100.0)) for _ in range(12)]
    bench.same("presses at once", statuses, [None] * 10 + [429, 429])
    bench.same("presses later", [status_of(lambda: presses.take(100.5)) for _ in range(3)], [None, None, 429])


def try_doors(bench: Bench) -> None:
    line = doors.line_of("anna", "korrekt horse")
    hashes = doors.read_hashes(f"# who may come in\n{line}\n")
    bench.hold("korrekt" not in line and line != doors.line_of("anna", "korrekt horse"), "a hash without salt")
    for text in ("", "anna:korrekt horse", line[:-3], f"{line}\n{line}", line.replace("16384", "65536")):
        bench.same(f"hashes {text[:30]}", refused(lambda: doors.read_hashes(text), ValueError), True)
    for name, password in (("", "long enough"), ("a b", "long enough"), ("a:b", "long enough"), ("anna", "short")):
        bench.same(f"{name} {password}", refused(lambda: doors.line_of(name, password), ValueError), True)
    it = doors.Doors(hashes, "t" * 24)
    tries = {("anna", "korrekt horse"): "anna", ("anna", "wrong horse"): None, ("nobody", "korrekt horse"): None}
    tries.update({("", "t" * 24): "token", ("anna", "t" * 23): None, ("anna", "x" * 5000): None})
    bench.same("who", {words: it.who(*words) for words in tries}, tries)
    bench.same("no token", doors.Doors(hashes, "").is_token(""), False)
    key = it.let_in("anna", 0.0)
    bench.same(
        "let in", (it.holder(key, 43_000.0), it.holder(key, 86_000.0), it.holder("x", 1.0)), ("anna", "anna", None)
    )
    bench.same("later", it.holder(key, 86_000.0 + 43_201.0), None)
    key = it.let_in("anna", 0.0)
    it.shut(key)
    bench.same("shut", it.holder(key, 1.0), None)
    keys = [it.let_in("anna", float(at)) for at in range(100)]
    bench.same("many", sum(it.holder(key, 100.0) is not None for key in keys), doors.MOST_OPEN)
    path = bench.folder / "token"
    path.write_text("a" * 30)
    path.chmod(0o644)
    bench.same("a token for all", refused(lambda: doors.read_token(str(path)), ValueError), True)
    path.chmod(0o600)
    bench.same("a token", doors.read_token(str(path)), "a" * 30)


def try_all(bench: Bench, program: Optional[pathlib.Path]) -> None:
    for check in (try_words, try_names, try_relay, try_state, try_beside, try_allowed, try_doors):
        check(bench)
    if program:
        try_frames(bench, program)
