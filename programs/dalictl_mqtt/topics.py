"""What messages are made of: topics and texts that come in as events, and texts that go out."""

from __future__ import annotations

import json
import re
from typing import Any, Optional

from gushewa_line.gateway import device_event, name_of

WISH, ON_AT_ANY_LEVEL = 31, 255
# A number has one spelling, so that a broker's rules for a topic hold for whoever is meant by it.
NUMBER = r"(0|[1-9][0-9]{0,3})"
LAMP_TOPIC = re.compile(f"lamp/{NUMBER}/set")
EVENT_TOPIC = re.compile(f"event/{NUMBER}/{NUMBER}")


def event_of(topic: str, text: str) -> int:
    """The event frame of a message, whose topic stands behind the base. Raises ValueError."""
    if lamp := LAMP_TOPIC.fullmatch(topic):
        return device_event(int(lamp[1]), WISH, wish_of(text))
    event = EVENT_TOPIC.fullmatch(topic)
    if not event:
        raise ValueError("it is no lamp/A/set and no event/S/I")
    if int(event[2]) == WISH:
        raise ValueError(f"instance {WISH} is that of wishes, which come by lamp/A/set")
    if not re.fullmatch(NUMBER, text):
        raise ValueError("an information is a number, 0 to 1023")
    return device_event(int(event[1]), int(event[2]), int(text))


def wish_of(text: str) -> int:
    """The information of a wish: a level, or 255 for 'on' without one. Raises ValueError."""
    if text in ("ON", "OFF"):
        return ON_AT_ANY_LEVEL if text == "ON" else 0
    wish = json.loads(text)
    if isinstance(wish, dict):
        if wish.get("state") == "OFF":
            return 0
        if wish.get("state") != "ON":
            raise ValueError("state is ON or OFF")
        if "brightness" not in wish:
            return ON_AT_ANY_LEVEL
        wish = wish["brightness"]
    if type(wish) is not int or not 0 <= wish < ON_AT_ANY_LEVEL:
        raise ValueError("a level is 0 to 254")
    return wish


def address_topic(address: int) -> str:
    """An address as a topic has it: 5, group-3, or all."""
    return name_of(address).replace(" ", "-")


def state_message(level: Optional[int], **more: Any) -> str:
    """What is said of a lamp at a level; of one whose level only the lamp knows, the state is null."""
    if level is None:
        return json.dumps({"state": None, **more})
    if not level:
        return json.dumps({"state": "OFF", **more})
    return json.dumps({"state": "ON", "brightness": level, "color_mode": "brightness", **more})
