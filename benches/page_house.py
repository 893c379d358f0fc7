"""A house with its page in a browser, for benches/page: two simulated buses, the controller, and Chromium."""

from __future__ import annotations

import json
import pathlib
import re
import socket
import subprocess
import urllib.error
import urllib.request
from typing import Any, Dict, List, Optional, Tuple

from browser_parts import Chromium
from programs_parts import PROGRAMS, Bench, path_of
from waiting import wait_for

# A name that would be more than text, if it were put into the page as HTML.
EVIL = "<img src=x onerror=document.title='stolen'> & \"hall\""
ROOMS = {"hall": 7, "kitchen": 8, "stairs": 9, "living": 10}  # the lamps of bus 0
SWITCH = """PROGRAM sw_{room}
VAR_EXTERNAL
  said_{room} : UINT (0..1023);
  {room} : USINT (0..254);
END_VAR
  LD said_{room}
  NE 2
  RETC
  LD {room}
  EQ 0
  JMPC lit
  LD 0
  ST {room}
  RET
lit:
  LD 200
  ST {room}
END_PROGRAM

PROGRAM ask_{room}
VAR
  ask : GEAR_ASK;
END_VAR
  LD FALSE
  ST ask.REQ
  CAL ask
  LD TRUE
  ST ask.REQ
  CAL ask(ADR := {address}, CMD := 16)
END_PROGRAM
"""
GARDEN = """PROGRAM garden
VAR_EXTERNAL
  there : UINT (0..1023);
  path : USINT (0..254);
END_VAR
VAR
  rest : TON;
END_VAR
  LD there
  EQ 0
  ST rest.IN
  CAL rest(PT := T#5m)
  LD there
  EQ 0
  JMPC dark
  LD 120
  ST path
  RET
dark:
  LD rest.Q
  RETCN
  LD 0
  ST path
END_PROGRAM
"""
DOOR, GATE = "0 device-instance 2 1", "1 device-instance 4 0"
NICE = "Garden path"
TABLE = """# names for the page
bus 0 House
bus 1 Garden
lamp 0.7 Hall
lamp 0.8 Kitchen
lamp 0.9 Stairs
lamp 0.10 Living room
lamp 1.9 {garden}
button 0.0 Hall door
button 0.1 Kitchen door
button 0.2 Stairs, below
button 0.3 Living room
presence 1.0 Gate
"""


def text_of_house() -> str:
    """A button for each lamp of bus 0, which is asked each second; the garden is lit while somebody is there."""
    text = "".join(SWITCH.format(room=room, address=address) for room, address in ROOMS.items()) + GARDEN
    text += "CONFIGURATION house\nVAR_GLOBAL\n"
    for place, (room, address) in enumerate(ROOMS.items()):
        text += f"  pressed_{room} AT %IX0.{place} : BOOL;\n  said_{room} AT %IW0.{128 + place} : UINT (0..1023);\n"
        text += f"  {room} AT %QB0.{address} : USINT (0..254);\n"
    text += "  there AT %IW1.128 : UINT (0..1023);\n  path AT %QB1.9 : USINT (0..254);\nEND_VAR\n"
    text += "".join(f"TASK push_{room} (SINGLE := pressed_{room}, PRIORITY := 0);\n" for room in ROOMS)
    text += "TASK clock (INTERVAL := T#1s, PRIORITY := 1);\n"
    for room in ROOMS:
        text += f"PROGRAM light_{room} WITH push_{room} : sw_{room};\nPROGRAM look_{room} WITH clock : ask_{room};\n"
    return text + "PROGRAM outside WITH clock : garden;\nEND_CONFIGURATION\n"


def binding_of_house() -> str:
    sources = [f"source 0.{place} device-instance {place + 2} 1\n" for place in range(len(ROOMS))]
    return "buses 2\n" + "".join(sources) + "source 1.0 device-instance 4 0\n"


def free_port() -> int:
    with socket.socket() as it:
        it.bind(("127.0.0.1", 0))
        return int(it.getsockname()[1])


class House:
    """The interfaces, the page and the controller, in a folder of their own."""

    def __init__(self, bench: Bench, program: pathlib.Path, garden: str = EVIL) -> None:
        self.bench, self.program, self.port = bench, program.resolve(), free_port()
        self.folder = bench.folder
        (self.folder / "house.il").write_text(text_of_house())
        (self.folder / "house.bind").write_text(binding_of_house())
        (self.folder / "names").write_text(TABLE.format(garden=garden))
        self.gear = {bus: self.start_interface(bus) for bus in (0, 1)}
        self.said = self.folder / "page.said"
        self.page = self.start_page()
        self.live = self.start_live()

    def start_interface(self, bus: int, gear: Any = None) -> subprocess.Popen[str]:
        """The simulated interface of a bus, with its lamps, or with other gear."""
        there = ("7,8,9,10", 9)[bus] if gear is None else gear
        log = self.folder / f"gear{bus}"
        link = self.folder / f"interface{bus}"
        link.unlink(missing_ok=True)
        words = (path_of("simulated.py"), "--pty", link, "--gear", there, "--log", log)
        process = self.bench.start(*words, start_new_session=True)
        self.bench.hold(wait_for(link.exists, 120), "simulated.py makes no line")
        return process

    def start_page(self, *words: Any) -> subprocess.Popen[str]:
        files: List[Any] = []
        for bus in (0, 1):
            files += ["--line", f"{bus}={self.folder}/interface{bus}"]
        for option, name in (("text", "house.il"), ("bind", "house.bind"), ("names", "names")):
            files += [f"--{option}", name]
        for option in ("status", "log", "record", "keep"):
            files += [f"--{option}", option]
        at = ("--at", f"127.0.0.1:{self.port}", "--program", self.program, "--folder", self.folder)
        said = open(self.said, "a")
        own = {"stderr": said, "start_new_session": True, "cwd": self.folder}
        process = self.bench.start(PROGRAMS / "page.py", *files, *at, *words, **own)
        self.bench.hold(wait_for((self.folder / "dali1").exists, 120), "page.py makes no line")
        return process

    def start_live(self) -> subprocess.Popen[str]:
        words: List[Any] = [self.folder / "house.il", self.folder / "house.bind", "--stop", self.folder / "stop"]
        for bus in (0, 1):
            words += ["--line", f"{bus}={self.folder}/dali{bus}"]
        for option in ("status", "log", "record", "keep"):
            words += [f"--{option}", self.folder / option]
        said = open(self.folder / "live.said", "w")
        own = {"stdout": subprocess.PIPE, "stderr": said, "start_new_session": True}
        return self.bench.start(self.program, "live", *words, "--json", **own)

    def address(self) -> str:
        return f"http://127.0.0.1:{self.port}"

    def frames(self, bus: int) -> List[str]:
        """The frames that an interface was asked to send."""
        return re.findall(r"< send \d (\w+)", (self.folder / f"gear{bus}").read_text())

    def told(self) -> str:
        """What the controller said on standard error."""
        return (self.folder / "live.said").read_text()

    def end(self) -> Tuple[int, str]:
        """Ends the building in order: its status, and what it printed."""
        (self.folder / "stop").touch()
        printed = self.live.communicate(timeout=60)[0]
        return self.live.returncode, printed


def ask(
    address: str, method: str = "GET", body: Optional[bytes] = None, headers: Optional[Dict[str, str]] = None
) -> Tuple[int, str]:
    """The status and the body that answer a request; no redirection is followed."""

    class Stay(urllib.request.HTTPRedirectHandler):
        def redirect_request(self, *_: Any) -> None:
            return None

    request = urllib.request.Request(address, body, headers or {}, method=method)
    try:
        with urllib.request.build_opener(Stay).open(request, timeout=60) as answer:
            return answer.status, answer.read().decode()
    except urllib.error.HTTPError as error:
        return error.code, error.headers.get("Location") or error.read().decode()


class Visit:
    """The house in a browser."""

    def __init__(self, house: House, browser: Chromium) -> None:
        self.house, self.browser, self.bench = house, browser, house.bench
        browser.open(house.address())

    def sees(self, what: str, script: str, wanted: Any, seconds: float = 60.0) -> None:
        wrong = self.browser.becomes(script, wanted, seconds)
        self.bench.hold(wrong is None, f"{what}: {wrong}")

    def text(self, item: str, name: str) -> str:
        """The script for what stands at a part of an item."""
        return f"document.querySelector(`[data-id={json.dumps(item)}] [data-{name}]`)?.textContent"

    def read(self) -> None:
        """The page says what the building is like."""
        self.sees("bus 0", self.text("0", "state"), "up")
        self.sees("bus 1", self.text("1", "name"), "Bus 1, Garden")
        self.sees("hall", self.text("0.7", "name"), "Hall")
        self.sees("hall's level", self.text("0.7", "level"), "off")
        self.sees("hall's answer", self.text("0.7", "answered"), "answered 0")
        self.sees("a name that is no HTML", self.text("1.9", "name"), EVIL)
        self.sees("no image of a name", "document.querySelectorAll('main img:not(#picture)').length", 0)
        self.sees("the log", "document.querySelectorAll('#log li').length > 2", True)
        self.sees("no scans", "/ (tick|take|commit) /.test(document.getElementById('log').textContent)", False)
        self.sees("the summary", "document.getElementById('summary').textContent", "All is well: 0 of 5 lamps lit")

    def press_by_keys(self) -> None:
        """Without a mouse: by the tabulator to the button of the hall, and Enter."""
        self.browser.value("document.activeElement.blur()")
        for _ in range(30):
            self.browser.key("Tab")
            if self.browser.value("document.activeElement.getAttribute('aria-label')") == "Press Hall door":
                break
        self.sees("the focus", "document.activeElement.getAttribute('aria-label')", "Press Hall door")
        self.sees("is seen", "getComputedStyle(document.activeElement).outlineStyle", "solid")
        self.browser.key("Enter")
        self.sees("the lamp", self.text("0.7", "level"), "200")
        self.sees("its answer", self.text("0.7", "answered"), "answered 200")
        self.sees("the button", self.text(DOOR, "said"), "short press")
        self.sees("by hand", self.text(DOOR, "hand"), "by hand")
        noted = "document.getElementById('notes').firstElementChild.querySelector('[data-words]').textContent"
        words = "pressed by hand from 127.0.0.1: Hall door, short press (bus 0, device 2 instance 1)"
        self.sees("the page's log", noted, words)
        self.sees("a word for the ear", "/Hall: 200/.test(document.getElementById('told').textContent)", True)
        self.bench.same("frames", self.house.frames(0).count("0EC8"), 1)
        self.bench.hold(words in self.house.said.read_text(), "standard error does not tell the press")
        heard = " heard bus 0: device 2 instance 1, scheme device-instance, information 2 (048402)"
        self.bench.hold(
            wait_for(lambda: heard in (self.house.folder / "log").read_text(), 60), "not in the house's log"
        )

    def measure(self) -> None:
        """Other words of a press, and a sensor: the lamp in the garden is on while somebody is there."""
        gate = f"document.querySelector(`[data-id='{GATE}'] form`)"
        self.browser.value(f"{gate}.elements.choice.value = '3', {gate}.requestSubmit()")
        self.sees("the garden", self.text("1.9", "level"), "120")
        self.sees("the gate", self.text(GATE, "said"), "somebody is there, movement")
        self.browser.value(f"{gate}.elements.choice.value = '0', {gate}.requestSubmit()")
        self.sees("the timer", "document.querySelector('#timers [data-name]')?.textContent", "outside.rest")
        left = "/^4:[0-9][0-9] left$/.test(document.querySelector('#timers [data-left]').textContent)"
        self.sees("what is left", left, True)

    def pull(self) -> None:
        """A line is pulled out: the page says so, and so does the controller. It comes back without its lamp."""
        self.bench.end(self.house.gear[0])
        self.sees("bus 0", self.text("0", "state"), "down")
        self.sees("why", self.text("0", "why"), "no such file")
        self.sees("since", "/^since /.test(document.querySelector('[data-id=\"0\"] [data-since]').textContent)", True)
        self.sees("the summary", "document.getElementById('summary').textContent", "Bus 0 is down")
        down = f"bus 0 down: {self.house.folder}/dali0: closed"
        self.bench.hold(wait_for(lambda: down in self.house.told(), 60), "the controller does not see its bus down")
        self.bench.same("a press of a bus that is down", self.press(DOOR, 2)[0], 409)
        self.house.gear[0] = self.house.start_interface(0, gear="8,9,10")
        self.sees("bus 0 again", self.text("0", "state"), "up")
        self.sees("no lamp", self.text("0.7", "differs"), "differs: sent 200, answered nothing")
        self.sees("it is red", "document.querySelector('[data-id=\"0.7\"]').classList.contains('differs')", True)
        self.sees("the summary", "document.getElementById('summary').textContent", "A lamp differs from what was sent")
        self.bench.end(self.house.gear[0])
        self.house.gear[0] = self.house.start_interface(0)
        self.sees("the lamp again", self.text("0.7", "answered"), "answered 200")
        self.sees("it is not red", self.text("0.7", "differs"), "")
        self.bench.hold(wait_for(lambda: "0EC8" in self.house.frames(0), 60), "the level is not sent again")

    def press(self, source: str, information: int, **headers: str) -> Tuple[int, str]:
        """A press by a program, as the page's own script would do it."""
        body = json.dumps({"source": source, "information": information}).encode()
        own = {"Content-Type": "application/json", "Origin": self.house.address()}
        return ask(f"{self.house.address()}/press", "POST", body, {**own, **headers})

    def pose(self, path: pathlib.Path) -> None:
        """The picture of the pages: some lamps are lit, and one does not answer."""
        for source, information in (("0 device-instance 3 1", 2), ("0 device-instance 5 1", 2), (GATE, 3), (GATE, 0)):
            self.bench.same(source, self.press(source, information)[0], 200)
        self.draw()
        self.bench.end(self.house.gear[0])
        self.house.gear[0] = self.house.start_interface(0, gear="7,8,10")
        self.sees("bus 0 again", self.text("0", "state"), "up")
        self.sees("no lamp", self.text("0.9", "differs"), "differs: sent 0, answered nothing")
        self.sees("the timer", "document.querySelector('#timers [data-name]')?.textContent", "outside.rest")
        self.press(DOOR, 2)
        self.sees("hall", self.text("0.7", "answered"), "answered 200")
        self.browser.value("document.activeElement.blur(), scrollTo(0, 0)")
        self.browser.picture(path)

    def draw(self) -> None:
        """The last hour, once the record was written."""
        record = self.house.folder / "record"
        self.bench.hold(wait_for(lambda: "event" in record.read_text(), 100), "the record has no press")
        self.browser.value("document.getElementById('draw').click()")
        self.sees("the picture", "document.getElementById('picture').naturalWidth > 300", True)
        self.sees("drawn", "/^Drawn at/.test(document.getElementById('drawn').textContent)", True)


# What is said of a page by looking at all of it: names of what can be used, sizes, colours.

NAMELESS = """[...document.querySelectorAll('button, select, input, a, img')].filter((node) => node.checkVisibility() &&
  !(node.labels?.length || node.getAttribute('aria-label') || node.alt !== undefined && node.tagName === 'IMG' ||
    node.textContent.trim() && node.tagName !== 'SELECT')).map((node) => node.outerHTML.slice(0, 80))"""
SMALL = """[...document.querySelectorAll('button, select, input')].filter((node) => node.checkVisibility() &&
  (node.getBoundingClientRect().height < 44 || node.getBoundingClientRect().width < 44)).map((node) => node.outerHTML)"""
PALE = """(() => {
  const light = (rgb) => rgb.slice(0, 3).map((it) => it / 255)
    .map((it) => it <= .04045 ? it / 12.92 : ((it + .055) / 1.055) ** 2.4)
    .reduce((sum, it, at) => sum + it * [.2126, .7152, .0722][at], 0);
  const rgb = (text) => text.match(/[\\d.]+/g).map(Number);
  const back = (node) => { for (; node; node = node.parentElement) {
    const it = rgb(getComputedStyle(node).backgroundColor); if (it.length < 4 || it[3] === 1) return it; }
    return [255, 255, 255]; };
  const found = [];
  for (const node of document.querySelectorAll('body *')) {
    if (!node.checkVisibility() || node.closest('.unseen, .skip, noscript')) continue;
    if (![...node.childNodes].some((it) => it.nodeType === 3 && it.textContent.trim())) continue;
    const [a, b] = [light(rgb(getComputedStyle(node).color)), light(back(node))].sort((x, y) => y - x);
    const ratio = (a + .05) / (b + .05);
    if (ratio < 4.5) found.push(`${ratio.toFixed(2)} ${node.tagName} ${node.textContent.slice(0, 40)}`);
  }
  return found;
})()"""


def look_over(visit: Visit) -> None:
    """On a telephone and on a desk, by light and by night: nothing is cut off, small, nameless or pale."""
    for width, height, is_phone in ((390, 844, True), (320, 568, True), (1280, 900, False)):
        visit.browser.size(width, height, is_phone)
        visit.sees(f"{width} wide", "document.documentElement.scrollWidth <= innerWidth", True)
        visit.sees(f"{width} wide: small", SMALL, [])
        visit.sees(f"{width} wide: nameless", NAMELESS, [])
        for scheme in ("dark", "light"):
            visit.browser.media(scheme)
            visit.sees(f"{width} wide, {scheme}", PALE, [])
