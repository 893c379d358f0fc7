"""What benches/broker is made of: a broker, and a client of it."""

from __future__ import annotations

import collections
import getpass
import json
import socket
import subprocess
from typing import Any, DefaultDict, List, Optional

import paho.mqtt.client as paho

from programs_parts import Bench
from waiting import wait_for

from dalictl_mqtt.broker import new_client


class Broker:
    """mosquitto on a free port of this machine. It keeps retained messages in a file."""

    def __init__(self, bench: Bench) -> None:
        self.bench, self.process = bench, subprocess.Popen(["true"], text=True)
        with socket.socket() as it:
            it.bind(("127.0.0.1", 0))
            self.port = int(it.getsockname()[1])
        self.user, self.path = getpass.getuser(), bench.folder / f"mosquitto{self.port}.conf"
        self.path.write_text(
            f"listener {self.port} 127.0.0.1\nallow_anonymous true\nuser {self.user}\n"
            f"persistence true\npersistence_location {bench.folder}/\n"
        )

    def come(self) -> None:
        self.process = self.bench.start(
            "/usr/sbin/mosquitto",
            "-c",
            self.path,
            stdout=subprocess.DEVNULL,
            stderr=subprocess.DEVNULL,
        )
        self.bench.hold(wait_for(self.is_there), "mosquitto does not listen")

    def is_there(self) -> bool:
        with socket.socket() as it:
            return it.connect_ex(("127.0.0.1", self.port)) == 0

    def go(self) -> None:
        self.bench.end(self.process)


class Home:
    """A client of the broker, as Home Assistant is one: it notes each message."""

    def __init__(self, port: int, user: str = "", password: str = "", certificate: str = "") -> None:
        self.came: DefaultDict[str, List[str]] = collections.defaultdict(list)
        self.client = new_client()
        if user:
            self.client.username_pw_set(user, password)
        if certificate:
            self.client.tls_set(certificate)
        self.client.on_connect = lambda client, *rest: client.subscribe("#")
        self.client.on_message = self.hear
        self.client.reconnect_delay_set(1, 1)
        self.client.connect_async("127.0.0.1", port)
        self.client.loop_start()

    def hear(self, client: paho.Client, data: Any, message: paho.MQTTMessage) -> None:
        self.came[message.topic].append(message.payload.decode("utf-8"))

    def last(self, topic: str) -> Optional[str]:
        return self.came[topic][-1] if self.came[topic] else None

    def level(self, topic: str) -> Optional[int]:
        said = json.loads(self.last(topic) or "{}")
        if said.get("state") == "OFF":
            return 0
        level: Optional[int] = said.get("brightness")
        return level

    def send(self, topic: str, message: str, retain: bool = False) -> None:
        wait_for(self.client.is_connected)
        self.client.publish(topic, message, 1, retain).wait_for_publish(5)
