"""What Home Assistant is told, so that it finds the lamps, buttons, sensors and values of a house.

Each is a retained message below `homeassistant`, or below another prefix. A kind of theirs is named
by its words: a light is one that can be switched, by wishes that the text gets as events.
"""

from __future__ import annotations

import json
import re
from typing import Any, Callable, Dict, Union

from dalictl_page.names import Names, Place
from dalictl_page.words import BUTTON, LIGHT, OTHER, PRESENCE, Source
from gushewa_line.gateway import device_event

from .topics import NUMBER, WISH, address_topic, event_of

LAMP = re.compile(rf"{NUMBER}=([^@]+)(?:@{NUMBER}\.{NUMBER})?")
BUTTON_WORD = re.compile(rf"{NUMBER}\.{NUMBER}=(.+)")
SHORT_PRESS = 2
# What a button says (IEC 62386-301), and what Home Assistant calls it.
PRESSES = {2: "button_short_press", 5: "button_double_press", 9: "button_long_press"}
LEVEL_TEMPLATE = "{{ value_json.brightness | default(0) if value_json.state else None }}"
PRESENCE_TEMPLATE = "{{ 'ON' if (value | int) // 2 % 2 else 'OFF' }}"


class Announced:
    """The messages. `say(topic, text)` says a retained one."""

    def __init__(self, base: str, prefix: str, say: Callable[[str, str], None]) -> None:
        self.base, self.prefix, self.say = base, prefix, say
        self.house = re.sub(r"\W", "_", base)

    def announce(self, kind: str, thing: str, name: str, config: Dict[str, Any]) -> None:
        """One thing; of a trigger (`device_automation`) the name is its subtype."""
        whole = dict(config, device={"identifiers": [self.house], "name": self.base, "manufacturer": "Gushewa"})
        if kind != "device_automation":
            whole.update(name=name, unique_id=f"{self.house}_{thing}", availability_topic=f"{self.base}/available")
        self.say(f"{self.prefix}/{kind}/{self.house}_{thing}/config", json.dumps(whole))

    # What the command line names.

    def lamp(self, word: str) -> None:
        """A=NAME, or A=NAME@B.P: a light that shows lamp A of the program's own bus, or lamp P of bus B.

        Raises ValueError.
        """
        found = matched(LAMP, word, "A=NAME or A=NAME@B.P")
        device_event(int(found[1]), WISH, 0)  # raises where it is no address
        state = f"bus/{found[3]}/lamp/{found[4]}" if found[3] else f"lamp/{found[1]}"
        light = {
            "schema": "json",
            "command_topic": f"{self.base}/lamp/{found[1]}/set",
            "state_topic": f"{self.base}/{state}",
            "brightness": True,
            "brightness_scale": 254,
            "supported_color_modes": ["brightness"],
        }
        self.announce("light", f"lamp_{found[1]}", found[2], light)

    def button(self, word: str) -> None:
        """S.I=NAME: a button on the screen, which is an event of the program's own bus. Raises ValueError."""
        found = matched(BUTTON_WORD, word, "S.I=NAME")
        topic = f"event/{found[1]}/{found[2]}"
        event_of(topic, "0")  # raises where it is no button
        press = {"command_topic": f"{self.base}/{topic}", "payload_press": str(SHORT_PRESS)}
        self.announce("button", f"button_{found[1]}_{found[2]}", found[3], press)

    # What stands on the lines.

    def bus(self, bus: int, name: str) -> None:
        state = {
            "state_topic": f"{self.base}/bus/{bus}",
            "value_template": "{{ value_json.state }}",
            "payload_on": "up",
            "payload_off": "down",
            "device_class": "connectivity",
        }
        self.announce("binary_sensor", f"bus_{bus}", name, state)

    def level(self, place: Place, name: str) -> None:
        """The level of a lamp, which a sensor shows."""
        topic = f"bus/{place[0]}/lamp/{address_topic(place[1])}"
        level = {"state_topic": f"{self.base}/{topic}", "value_template": LEVEL_TEMPLATE}
        self.announce("sensor", topic.replace("/", "_"), name, level)

    def source(self, source: Source, names: Names) -> None:
        """A button as triggers, a presence detector, or another sensor by what it says."""
        name, kind, topic = names.named(source).name, names.named(source).kind, source_topic(source)
        thing, state = topic.replace("/", "_"), {"state_topic": f"{self.base}/{topic}"}
        if kind in (BUTTON, OTHER):
            for information, press in PRESSES.items():
                self.trigger(thing, name, topic, information, press)
        if kind == PRESENCE:
            occupancy = dict(state, value_template=PRESENCE_TEMPLATE, device_class="occupancy")
            self.announce("binary_sensor", thing, name, occupancy)
        elif kind in (LIGHT, OTHER):
            self.announce("sensor", thing, name, state)

    def trigger(self, thing: str, name: str, topic: str, information: int, press: str) -> None:
        config = {
            "automation_type": "trigger",
            "type": press,
            "subtype": name,
            "topic": f"{self.base}/{topic}",
            "payload": str(information),
        }
        self.announce("device_automation", f"{thing}_{information}", name, config)

    def value(self, name: str, value: Union[bool, int]) -> None:
        """A value of the status."""
        kind = "binary_sensor" if isinstance(value, bool) else "sensor"
        self.announce(kind, "value_" + re.sub(r"\W", "_", name), name, {"state_topic": f"{self.base}/value/{name}"})


def source_topic(source: Source) -> str:
    """The topic of a source, in the words of a binding."""
    return f"bus/{source.bus}/event/{source.scheme}/{source.first}/{source.second}"


def matched(form: "re.Pattern[str]", text: str, shown: str) -> "re.Match[str]":
    found = form.fullmatch(text)
    if not found:
        raise ValueError(f"{text} is not {shown}")
    return found
