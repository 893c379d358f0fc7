"""Which requests of a browser are allowed. All here is plain, and has no part in the network."""

from __future__ import annotations

import ipaddress
import json
from typing import Any, List, NamedTuple, Optional, Tuple
from urllib.parse import urlsplit

from .state import UP, Building
from .words import INFORMATION, Source

# What a request may change something by. All else is only read.
CHANGES = ("/press", "/login", "/logout")
FORM, JSON = "application/x-www-form-urlencoded", "application/json"
MOST_BODY = 1024
# Presses a second in the long run, and at once.
PRESSES_A_SECOND, PRESSES_AT_ONCE = 5.0, 10.0


class Asked(NamedTuple):
    """What a request says of itself."""

    method: str
    path: str
    host: str
    origin: Optional[str] = None
    site: Optional[str] = None  # Sec-Fetch-Site
    kind: str = ""  # its Content-Type
    has_token: bool = False  # whether it brought a token that is right in its header


class Refused(Exception):
    """A request is not allowed: a status of HTTP, and why."""

    def __init__(self, status: int, why: str) -> None:
        super().__init__(why)
        self.status, self.why = status, why


def is_known_host(host: str, names: List[str]) -> bool:
    """Whether a name is one of this page: an address in digits, localhost, or one that was given.

    Whoever has a name of his own may let it lead here, and then a browser takes his page for one of
    the same origin. He has no address in digits that leads here.
    """
    try:
        name = urlsplit(f"//{host}").hostname or ""
        urlsplit(f"//{host}").port  # raises ValueError where it is none
    except ValueError:
        return False
    if name == "localhost" or name in names:
        return True
    try:
        ipaddress.ip_address(name)
    except ValueError:
        return False
    return True


def check(asked: Asked, names: List[str]) -> None:
    """Raises Refused where a request is not one of this page's own."""
    if not is_known_host(asked.host, names):
        raise Refused(403, "this page does not answer to that name: give it after --host")
    if asked.path not in CHANGES:
        if asked.method not in ("GET", "HEAD"):
            raise Refused(405, "this can only be read")
        return
    if asked.method != "POST" and not (asked.path == "/login" and asked.method in ("GET", "HEAD")):
        raise Refused(405, "this is done by POST alone")
    if asked.method == "POST":
        check_origin(asked)
        wanted = JSON if asked.path == "/press" else FORM
        if asked.kind.partition(";")[0].strip().lower() != wanted:
            raise Refused(415, f"this takes {wanted}")


def check_origin(asked: Asked) -> None:
    """Raises Refused where another page has the browser send this.

    A token in a header is sent by no browser on its own, so with it no origin is needed.
    """
    if asked.origin is None and asked.has_token:
        return
    if asked.origin not in (f"http://{asked.host}", f"https://{asked.host}"):
        raise Refused(403, "this comes from another page")
    if asked.site not in (None, "same-origin"):
        raise Refused(403, "this comes from another page")


def press_of(body: bytes, building: Building) -> Tuple[Source, int]:
    """The source and the information of a press. Raises Refused where it is none."""
    if len(body) > MOST_BODY:
        raise Refused(413, "it is too long")
    try:
        whole: Any = json.loads(body)
        if set(whole) != {"source", "information"}:
            raise ValueError
        key, information = whole["source"], whole["information"]
    except (ValueError, TypeError, RecursionError):
        raise Refused(400, "it is no press") from None
    if type(key) is not str or type(information) is not int or not 0 <= information <= INFORMATION:
        raise Refused(400, f"an information is 0 to {INFORMATION}")
    source = building.source(key)
    if not source:
        raise Refused(404, "there is no such button")
    if building.buses[source.bus].state != UP:
        raise Refused(409, f"bus {source.bus} is down, so nothing was pressed")
    return source, information


class Presses:
    """How many presses may come."""

    def __init__(self) -> None:
        self.left, self.at = PRESSES_AT_ONCE, 0.0

    def take(self, now: float) -> None:
        """Raises Refused where too many come."""
        self.left = min(PRESSES_AT_ONCE, self.left + (now - self.at) * PRESSES_A_SECOND)
        self.at = now
        if self.left < 1:
            raise Refused(429, "too many presses: wait a second")
        self.left -= 1
