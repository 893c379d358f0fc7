#!/usr/bin/python3
"""A house over an MQTT broker: what passes on its lines goes out, and wishes come in as events.

  mqtt.py --pty LINK ..             is a bus of its own, behind a pseudo terminal and the link LINK to it
  mqtt.py --fifo SOURCE SINK ..     the same over two FIFOs, which it makes where they are missing
  mqtt.py --line B=PATH ..          stands between the controller and the interface of bus B

  --line 0=PATH              the interface of bus 0: a device, a pseudo terminal, or two FIFOs (FROM,TO);
                             each bus from 0 on needs its own. May stand beside --pty
  --folder FOLDER            with --line: where the lines for the controller are, FOLDER/dali0 and so on
  --patience MS              that of the controller, for which a line may be silent (1000 if none is given)

The broker:

  --broker HOST[:PORT]       the broker (localhost:1883 if none is given)
  --user NAME                the name to log in with
  --password-file FILE       a file with the password alone
  --tls FILE                 speaks TLS, and trusts the certificates of FILE
  --base TOPIC               what all topics begin with (gushewa/house if none is given)

What Home Assistant finds, and by which names:

  --discovery PREFIX         where Home Assistant looks for what there is (homeassistant)
  --lamp A=NAME[@B.P]        a light: its wishes are those for address A of this bus. What it shows was sent
                             to A here, or to address P of bus B. May stand again
  --button S.I=NAME          a button on the screen, instance I of device S of this bus. May stand again
  --status FILE              the status of the building, which it writes with --json: each value
  --text FILE, --bind FILE   the text and the binding: lamps, buttons and sensors of the lines
  --names FILE               a table of names; dalictl_page/names.py has its lines

It needs python3-paho-mqtt. Topics stand behind the base:

  out   available      `online` or `offline`, retained: whether the controller is at its line (at that of
                       this bus where it has one), and this program has the broker
        lamp/A         {"state": "ON", "brightness": 200, ..}, retained: the level that the controller sent
                       last to A of this bus. A is an address, group-0 to group-15, or all
        bus/B          {"state": "up", "why": ..}, retained: what the line of bus B is like
        bus/B/lamp/A   as lamp/A, of bus B, with the level that it answered last, where it was asked
        bus/B/event/SCHEME/X/Y   the information of an event, in the words of a binding
        value/NAME     a value of the status, retained: a number, ON or OFF
  in    lamp/A/set     {"state": "ON", "brightness": 120}, ON, OFF, or a level, 0 to 254:
                       the event of instance 31 of device A whose information is the level,
                       or 255 for ON without a level
        event/S/I      an information, 0 to 1023: the event of instance I of device S; I is 0 to 30

The text decides what becomes of a wish. The binding has events as `source B.K device-instance S I`. A
number has one spelling, as 5 and not 05. While the broker is away what is retained is kept, and each
goes out with its last value once it is back. Events that are sent meanwhile are lost, and retained
ones do nothing: a press of some minutes ago must not switch a light now. On the lines of --line it
passes on all that comes, and sends no frame of its own.
"""

from __future__ import annotations

import argparse
import os
import queue
import threading
import time
from typing import Optional

from dalictl_mqtt.broker import KEEP_ALIVE, LONGEST_PAUSE, Broker, is_here, new_client
from dalictl_mqtt.discovery import Announced
from dalictl_mqtt.house import House, Values, lines_of, read_names
from dalictl_mqtt.lines import Lines
from dalictl_mqtt.topics import address_topic, event_of, state_message
from gushewa_line.ends import end_in_order
from gushewa_line.gateway import Gateway
from gushewa_line.program import add_ends, give_up, report, run

# The controller is taken for away from a line that nobody asked for so many seconds, and for longer than two patiences.
UNASKED_SECONDS = 10.0
LOOK_SECONDS = 1.0


class OwnBus(Gateway):
    """A bus whose levels and events are messages of a broker."""

    def __init__(self, broker: Broker, patience: float) -> None:
        super().__init__(lambda address, level: broker.say(f"lamp/{address_topic(address)}", state_message(level)))
        self.most_unasked = max(UNASKED_SECONDS, 2 * patience)
        self.asked: Optional[float] = None
        broker.subscribe(["lamp/+/set", "event/+/+"], lambda topic, text: self.events.add(event_of(topic, text)))

    def note(self, way: str, line: str) -> None:
        """Notes when the controller asked something last."""
        if way == "<":
            self.asked = time.monotonic()

    def is_up(self) -> bool:
        """Whether the controller is at its line."""
        return self.asked is not None and time.monotonic() - self.asked < self.most_unasked


class Program:
    """What the command line asks for."""

    def __init__(self, given: argparse.Namespace) -> None:
        """Raises OSError or ValueError where a word or a file is none."""
        self.given = given
        self.broker = connect(given)
        announced = Announced(given.base, given.discovery, self.broker.say_at)
        self.bus = OwnBus(self.broker, given.patience / 1000) if given.pty or given.fifo else None
        self.values = Values(given.status, self.broker, announced) if given.status else None
        paths = lines_of(given.line)
        names = read_names(given.text, given.bind, given.names)
        self.lines = Lines([(path, os.path.join(given.folder, f"dali{bus}")) for bus, path in enumerate(paths)])
        self.house = House(names, len(paths), self.broker, announced, given.patience / 1000)
        for word in given.lamp:
            announced.lamp(word)
        for word in given.button:
            announced.button(word)
        self.broker.become(False)

    def run(self) -> None:
        """Goes on until the program ends."""
        end_in_order()
        self.broker.client.loop_start()
        self.lines.start()
        if not self.bus:
            self.look()
            return
        threading.Thread(target=self.look, daemon=True).start()
        run(self.bus, self.given, self.bus.note)

    def look(self) -> None:
        """Says what is seen on the lines, and each second what else there is."""
        looked = 0.0
        while True:
            try:
                self.house.see(self.lines.sights.get(timeout=LOOK_SECONDS))
            except queue.Empty:
                pass
            if time.monotonic() - looked >= LOOK_SECONDS:
                looked = time.monotonic()
                self.broker.become(self.bus.is_up() if self.bus else self.house.is_up())
                if self.values:
                    self.values.look()


def connect(given: argparse.Namespace) -> Broker:
    """The broker, to which the client connects once it runs."""
    client = new_client()
    broker = Broker(client, given.base)
    if given.user:
        password = open(given.password_file, encoding="utf-8").read().strip() if given.password_file else None
        client.username_pw_set(given.user, password)
    if given.tls:
        client.tls_set(given.tls)
    host, _, port = given.broker.partition(":")
    if not (given.user or given.tls or is_here(host)):
        report(
            f"warning: the broker {host} is another machine, and neither --tls nor --user is given: "
            "whoever is on the network may switch your lamps"
        )
    client.connect_async(host, int(port or 1883), KEEP_ALIVE)
    client.reconnect_delay_set(1, LONGEST_PAUSE)
    return broker


def read_words() -> argparse.Namespace:
    parser = argparse.ArgumentParser(usage=__doc__)
    add_ends(parser, is_required=False)
    parser.add_argument("--line", action="append", default=[])
    parser.add_argument("--folder")
    parser.add_argument("--patience", type=int, default=1000)
    parser.add_argument("--broker", default="localhost:1883")
    parser.add_argument("--base", default="gushewa/house")
    parser.add_argument("--discovery", default="homeassistant")
    for option in ("--user", "--password-file", "--tls", "--status", "--text", "--bind", "--names"):
        parser.add_argument(option)
    for option in ("--lamp", "--button"):
        parser.add_argument(option, action="append", default=[])
    given = parser.parse_args()
    if not (given.pty or given.fifo or given.line):
        parser.error("one of --pty, --fifo and --line is needed")
    if bool(given.line) != bool(given.folder):
        parser.error("--line and --folder belong together")
    return given


def main() -> None:
    given = read_words()
    try:
        program = Program(given)
    except (OSError, ValueError) as error:
        give_up(str(error))
    program.run()


if __name__ == "__main__":
    main()
