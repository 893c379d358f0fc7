"""What lamps, buttons and sensors are called, and where each is.

A text says it by its located variables (`lamp AT %QB0.7`), a binding by its lines `source ..`, and a
table of the installer's own by lines such as

    lamp 0.7 Hall, ceiling
    group 0.3 Upper floor
    all 1 Garden
    button 0.0 Hall, at the door
    presence 0.1 Corridor
    light 0.2 Roof
    other 1.0 Gate
    bus 0 Ground floor

where `lamp 0.7` is the gear with short address 7 on bus 0, and `button 0.0` the source 0.0 of the
binding. Empty lines and lines that begin with # are skipped.
"""

from __future__ import annotations

import re
from typing import Dict, NamedTuple, Tuple

from gushewa_line.gateway import name_of
from gushewa_line.numbers import ALL, FIRST_COUNT, FIRST_GROUP, FIRST_INFORMATION, SOURCES

from .words import BUTTON, LIGHT, OTHER, PRESENCE, SCHEMES, Source

Place = Tuple[int, int]  # a bus, and an address or a place there
COMMENT = re.compile(r"\(\*.*?(?:\*\)|\Z)", re.S)
LOCATED = re.compile(r"\b([A-Za-z_]\w*)\s+AT\s+%(QB|IX|IW)([0-9]+)\.([0-9]+)", re.I)
SOURCE = re.compile(r"source ([0-9]+)\.([0-9]+) ([a-z-]+) ([0-9]+) ([0-9]+)")
ROW = re.compile(
    r"(lamp|group|button|presence|light|other) ([0-9]{1,2})\.([0-9]{1,2}) (\S.*)|(all|bus) ([0-9]{1,2}) (\S.*)"
)
KINDS = (BUTTON, PRESENCE, LIGHT, OTHER)
MOST_LETTERS = 60


class Named(NamedTuple):
    """A source of events with its name and its kind."""

    source: Source
    name: str
    kind: str


class Names:
    """The lamps and sources of a building that somebody named."""

    def __init__(self) -> None:
        self.buses: Dict[int, str] = {}
        self.lamps: Dict[Place, str] = {}
        self.places: Dict[Place, Source] = {}
        self.sources: Dict[Source, Named] = {}

    def read_binding(self, text: str) -> None:
        """Takes the sources of a binding, which the program has accepted."""
        for line in text.splitlines():
            found = SOURCE.fullmatch(line)
            if found and found[3] in SCHEMES:
                source = Source(int(found[1]), found[3], int(found[4]), int(found[5]))
                self.places[int(found[1]), int(found[2])] = source
                self.sources.setdefault(source, Named(source, "", source.kind()))

    def read_text(self, text: str) -> None:
        """Takes the names of located variables: a source has that of its trigger, its information or its count."""
        found = [
            (name, what.upper(), (int(bus), int(number)))
            for name, what, bus, number in LOCATED.findall(COMMENT.sub(" ", text))
        ]
        for what, first in (("IW", FIRST_COUNT), ("IW", FIRST_INFORMATION), ("IX", 0)):
            for name, of, (bus, number) in found:
                if of == what and first <= number < first + SOURCES:
                    self.name_source((bus, number - first), name)
        self.lamps.update({place: name for name, what, place in found if what == "QB" and place[1] <= ALL})

    def name_source(self, place: Place, name: str, kind: str = "") -> bool:
        """Names the source at a place of the binding. Whether there is one."""
        source = self.places.get(place)
        if source:
            self.sources[source] = Named(source, name, kind or self.sources[source].kind)
        return source is not None

    def read_table(self, text: str) -> None:
        """Takes the names of an installer's table. Raises ValueError at a line that is none."""
        for number, line in enumerate(text.splitlines(), 1):
            if line.strip() and not line.startswith("#"):
                try:
                    self.read_row(line.strip())
                except ValueError as error:
                    raise ValueError(f"line {number}: {error}") from None

    def read_row(self, line: str) -> None:
        row = ROW.fullmatch(line)
        if not row:
            raise ValueError("it is none of lamp, group, all, button, presence, light, other or bus")
        what, bus, name = row[1] or row[5], int(row[2] or row[6]), row[4] or row[7]
        if len(name) > MOST_LETTERS or not name.isprintable():
            raise ValueError(f"a name has at most {MOST_LETTERS} letters, and nothing that cannot be printed")
        number = int(row[3] or 0)
        if what == "bus":
            self.buses[bus] = name
        elif what in KINDS:
            if not self.name_source((bus, number), name, what):
                raise ValueError(f"the binding has no source {bus}.{number}")
        else:
            self.lamps[bus, address_of_row(what, number)] = name

    def lamp(self, place: Place) -> str:
        """The name of a lamp, or its address in words."""
        return self.lamps.get(place) or address_words(place[1]).capitalize()

    def named(self, source: Source) -> Named:
        """The name of a source, or where it is in words."""
        known = self.sources.get(source)
        if known and known.name:
            return known
        return Named(source, source.where().partition(", ")[2].capitalize(), known.kind if known else source.kind())


def address_of_row(what: str, number: int) -> int:
    """The address that a row of the table speaks of: 0 to 63, 64 to 79 for groups, 80 for all."""
    if what == "all":
        return ALL
    limit = FIRST_GROUP if what == "lamp" else ALL - FIRST_GROUP
    if number >= limit:
        raise ValueError(f"{what} {number}: the last one is {limit - 1}")
    return number if what == "lamp" else FIRST_GROUP + number


def address_words(address: int) -> str:
    """An address of a level in words: gear 5, group 3, or all gear."""
    if address == ALL:
        return "all gear"
    return f"gear {address}" if address < FIRST_GROUP else name_of(address)
