"""The connection to a broker, which goes away and comes back."""

from __future__ import annotations

import ipaddress
import threading
from typing import Any, Callable, Dict, List

from gushewa_line.program import needs, report

try:
    import paho.mqtt.client as paho
except ImportError:
    needs("paho, which speaks MQTT,", "python3-paho-mqtt")

MOST_BYTES = 256  # of a message that comes in
KEEP_ALIVE, LONGEST_PAUSE = 30, 30  # seconds


class Broker:
    """A broker to which all is said below one topic.

    What is retained is kept here too, and said anew once a broker that was away is back. It asks
    for no receipt (QoS 0).
    """

    def __init__(self, client: paho.Client, base: str) -> None:
        self.client, self.base = client, base
        self.said: Dict[str, str] = {}
        self.saying = threading.Lock()
        self.is_online = False
        self.topics: List[str] = []
        self.hear_event: Callable[[str, str], None] = lambda topic, text: None
        client.will_set(f"{base}/available", "offline", retain=True)
        client.on_connect, client.on_disconnect, client.on_message = self.came, self.went, self.hear

    # What goes out.

    def say(self, topic: str, text: str) -> None:
        """Says a retained message behind the base, so that what is said last is what was last."""
        self.say_at(f"{self.base}/{topic}", text)

    def say_at(self, topic: str, text: str) -> None:
        with self.saying:
            if self.said.get(topic) != text:
                self.said[topic] = text
                self.client.publish(topic, text, retain=True)

    def say_once(self, topic: str, text: str) -> None:
        """Says what is over at once: it is not retained, and lost where the broker is away."""
        if self.client.is_connected():
            self.client.publish(f"{self.base}/{topic}", text)

    def become(self, is_online: bool) -> None:
        """Says whether the controller is at its line."""
        self.is_online = is_online
        self.say("available", "online" if is_online else "offline")

    # The connection.

    def subscribe(self, topics: List[str], hear_event: Callable[[str, str], None]) -> None:
        """What is to come in, by topics behind the base; `hear_event` raises ValueError where it is nothing."""
        self.topics, self.hear_event = topics, hear_event

    def came(self, client: paho.Client, *rest: Any) -> None:
        """The broker is there. It may have forgotten what was said before, so all is said anew."""
        if rest[2]:
            report(f"the broker refuses: {paho.connack_string(rest[2])}")
            return
        report("the broker is there")
        if self.topics:
            client.subscribe([(f"{self.base}/{topic}", 0) for topic in self.topics])
        with self.saying:
            for topic, text in self.said.items():
                client.publish(topic, text, retain=True)

    def went(self, *rest: Any) -> None:
        report("the broker is away")

    def hear(self, client: paho.Client, data: Any, message: paho.MQTTMessage) -> None:
        """A message is an event, if it is not an old one that the broker kept."""
        if message.retain:
            return
        try:
            topic = message.topic
        except UnicodeDecodeError:
            report("a message does nothing: its topic is not UTF-8")
            return
        try:
            if len(message.payload) > MOST_BYTES:
                raise ValueError("it is too long")
            self.hear_event(topic[len(self.base) + 1 :], message.payload.decode("ascii"))
        except ValueError as error:
            report(f"{topic} does nothing: {error}")


def new_client() -> paho.Client:
    if hasattr(paho, "CallbackAPIVersion"):  # paho 2 wants to know which callbacks it calls
        return paho.Client(paho.CallbackAPIVersion.VERSION1)
    return paho.Client()


def is_here(host: str) -> bool:
    """Whether a host is this machine, by its name or address alone."""
    try:
        return ipaddress.ip_address(host).is_loopback
    except ValueError:
        return host == "localhost"
