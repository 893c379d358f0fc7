"""The table of a house: what is in which room, at which address, and what it is set to.

`read_table` reads the lines of a file of comma separated values, or of semicolons where its first
line has them. Its first line has the names of the columns. A line whose first cell begins with `#`
says nothing. All that is wrong is reported at once, each with its line.
"""

from __future__ import annotations

import csv
import dataclasses
import pathlib
from typing import Callable, Dict, Iterator, List, Mapping, Optional, Tuple

from dalictl_house.device_codes import BRIGHTNESS, BUTTON, MOTION, InstanceType
from dalictl_house.instances import values_of
from dalictl_house.lamps import GROUPS, VALUES
from dalictl_house.names import identifier, is_reserved
from dalictl_house.settings import parse_settings
from dalictl_house.values import Value
from gushewa_line import numbers

COLUMNS = ("room", "name", "bus", "kind", "address", "group", "device", "instance", "settings")
LAMP, GROUP = "lamp", "group"
# The kinds of inputs, with the type of their instance; None is any.
INPUTS: Dict[str, Optional[InstanceType]] = {
    "button": BUTTON,
    "motion": MOTION,
    "brightness": BRIGHTNESS,
    "input": None,
}
KINDS = (LAMP, GROUP, *INPUTS)
BUSES = 64
# A source of events in the binding names what these schemes say. The others need groups of devices.
SCHEMES = {0: "instance", 1: "device", 2: "device-instance"}
AT_FIRST = {"scheme": 2, "enabled": 1}  # of an input, where its settings say nothing else


@dataclasses.dataclass(frozen=True)
class Row:
    """One line of the table."""

    line: int
    room: str
    name: str
    bus: int
    kind: str
    address: int  # of gear, of a group, or of a device
    instance: int  # of a device
    settings: Mapping[str, int]  # by their words; the groups of a lamp are one

    @property
    def title(self) -> str:
        return f"{self.room}, {self.name}"

    @property
    def variable(self) -> str:
        """Its name in a text."""
        return identifier(self.room, self.name)

    @property
    def variables(self) -> List[str]:
        """All names that it has in a text: an input has one for what it said, and for how often."""
        made = self.variable
        if self.is_input:
            return [made, f"{made}_said", f"{made}_count"] if self.is_bound else []
        return [made]

    @property
    def is_input(self) -> bool:
        return self.kind in INPUTS

    @property
    def is_bound(self) -> bool:
        """Whether it is an input that says something."""
        return self.is_input and bool(self.settings.get("enabled"))

    @property
    def groups(self) -> List[int]:
        return [group for group in range(numbers.GROUPS) if self.settings.get(GROUPS, 0) >> group & 1]

    @property
    def place(self) -> Tuple[int, str, int, int]:
        """What no other line has."""
        return self.bus, "device" if self.is_input else self.kind, self.address, self.instance

    @property
    def where(self) -> str:
        if self.is_input:
            return f"device {self.address} instance {self.instance}"
        return f"gear {self.address}" if self.kind == LAMP else f"group {self.address}"


class Faulty(Exception):
    """What is wrong with a table, a line each."""

    def __init__(self, faults: List[Tuple[int, str]]) -> None:
        super().__init__("the table has faults")
        self.faults = sorted(faults)


class Cells:
    """The cells of one line, and what is wrong with them."""

    def __init__(self, line: int, cells: Mapping[str, str]) -> None:
        self.line, self.cells = line, cells
        self.faults: List[Tuple[int, str]] = []

    def fault(self, words: str) -> None:
        self.faults.append((self.line, words))

    def words(self, column: str) -> str:
        """Text that a person reads."""
        words = " ".join(self.cells[column].split())
        if not words or not words.isprintable():
            self.fault(
                f"{column}: it is missing" if not words else f"{column}: it has characters that cannot be printed"
            )
        return words

    def number(self, column: str, limit: int) -> int:
        """A number below a limit; 0 where it is none."""
        cell = self.cells[column].strip()
        if cell.isascii() and cell.isdecimal() and len(cell) < 4 and int(cell) < limit:
            return int(cell)
        self.fault(f"{column}: it is 0 to {limit - 1}, and not {cell!r}")
        return 0

    def bits(self, column: str, limit: int) -> int:
        """Some numbers below a limit, with blanks between them, a bit each."""
        found = 0
        for cell in self.cells[column].split():
            if cell.isascii() and cell.isdecimal() and len(cell) < 4 and int(cell) < limit:
                found |= 1 << int(cell)
            else:
                self.fault(f"{column}: each is 0 to {limit - 1}, and not {cell!r}")
        return found

    def need_empty(self, kind: str, *columns: str) -> None:
        for column in columns:
            if self.cells[column].strip():
                self.fault(f"{column}: a {kind} has none")

    def settings(self, values: Mapping[str, Value]) -> Dict[str, int]:
        try:
            return parse_settings(self.cells["settings"].split(), values)
        except ValueError as fault:
            self.fault(f"settings: {fault}")
            return {}

    def row(self) -> Optional[Row]:
        """The line, as far as it can be read; None where its kind cannot."""
        room, name, bus = self.words("room"), self.words("name"), self.number("bus", BUSES)
        kind = self.cells["kind"].strip()
        if kind not in KINDS:
            self.fault(f"kind: it is one of {', '.join(KINDS)}, and not {kind!r}")
            return None
        address, instance, settings = self.place_of(kind)
        row = Row(self.line, room, name, bus, kind, address, instance, settings)
        if not row.variable:
            self.fault("name: no letter or digit in it can stand in a name of a text")
        elif any(is_reserved(made) for made in row.variables):
            self.fault(f"name: the language has {row.variable} as a word of its own")
        return row

    def place_of(self, kind: str) -> Tuple[int, int, Dict[str, int]]:
        """The address, the instance and the settings of a line."""
        if kind == LAMP:
            self.need_empty(kind, "device", "instance")
            settings = {**self.settings(VALUES), GROUPS: self.bits("group", numbers.GROUPS)}
            return self.number("address", numbers.ADDRESSES), 0, settings
        if kind == GROUP:
            self.need_empty(kind, "address", "device", "instance", "settings")
            return self.number("group", numbers.GROUPS), 0, {}
        self.need_empty(kind, "address", "group")
        settings = {**AT_FIRST, **self.settings(values_of(INPUTS[kind]))}
        if settings["scheme"] not in SCHEMES:
            self.fault(
                f"settings: scheme is {', '.join(SCHEMES.values())} here, since a table has no groups of devices"
            )
        elif INPUTS[kind] is None and SCHEMES[settings["scheme"]] != "device-instance":
            self.fault("settings: the scheme of an input is device-instance, since its type is not known")
        return self.number("device", numbers.ADDRESSES), self.number("instance", numbers.INSTANCES), settings


def read_table(path: pathlib.Path) -> List[Row]:
    """The lines of a table. Raises Faulty, OSError."""
    try:
        text = path.read_text(encoding="utf-8-sig")
    except UnicodeDecodeError as error:
        line = path.read_bytes()[: error.start].count(b"\n") + 1
        raise Faulty([(line, "it is not written in UTF-8")]) from None
    return rows_of(text)


def rows_of(text: str) -> List[Row]:
    """The lines of a table. Raises Faulty."""
    rows: List[Row] = []
    faults: List[Tuple[int, str]] = []
    for cells in lines_of(text):
        row = cells.row() if cells.cells else None
        faults += cells.faults
        if row and not cells.faults:
            rows.append(row)
    if not rows and not faults:
        faults.append((1, "no line below the first one says anything"))
    if not faults:
        faults = empty_groups(rows)  # a lamp may stand in a line with a fault
    faults += [fault for find in FINDERS for fault in find(rows)]
    if faults:
        raise Faulty(faults)
    return rows


def lines_of(text: str) -> Iterator[Cells]:
    """The lines below the first one that say something."""
    first = text.split("\n", 1)[0]
    reader = csv.reader(text.splitlines(keepends=True), delimiter=";" if ";" in first else ",", strict=True)
    try:
        columns = [cell.strip().lower() for cell in next(reader, [])]
        if sorted(columns) != sorted(COLUMNS):
            yield faulty_line(1, f"the first line has the columns {', '.join(COLUMNS)}")
            return
        for cells in reader:
            if not any(cell.strip() for cell in cells) or cells[0].lstrip().startswith("#"):
                continue
            if len(cells) == len(COLUMNS):
                yield Cells(reader.line_num, dict(zip(columns, cells)))
            else:
                yield faulty_line(reader.line_num, f"there are {len(cells)} cells, and {len(COLUMNS)} columns")
    except csv.Error as error:
        yield faulty_line(reader.line_num, str(error))


def faulty_line(line: int, words: str) -> Cells:
    """A line that has no cells to read."""
    cells = Cells(line, {})
    cells.fault(words)
    return cells


# What is wrong with lines beside each other.

Found = List[Tuple[int, str]]


def same_places(rows: List[Row]) -> Found:
    first: Dict[Tuple[int, str, int, int], Row] = {}
    return [
        (row.line, f"{row.where} of bus {row.bus} stands in line {before.line} already")
        for row in rows
        if (before := first.setdefault(row.place, row)) is not row
    ]


def same_names(rows: List[Row]) -> Found:
    first: Dict[str, Row] = {}
    found = []
    for row in rows:
        for variable in row.variables:
            before = first.setdefault(variable, row)
            if variable and before is not row:
                found.append(
                    (row.line, f"a text would call it {variable}, as line {before.line}: give it another name")
                )
                break
    return found


def empty_groups(rows: List[Row]) -> Found:
    return [
        (row.line, f"no lamp of bus {row.bus} is in group {row.address}")
        for row in rows
        if row.kind == GROUP
        and not any(row.bus == lamp.bus and row.address in lamp.groups for lamp in rows if lamp.kind == LAMP)
    ]


def too_many_inputs(rows: List[Row]) -> Found:
    count: Dict[int, int] = {}
    found = []
    for row in rows:
        count[row.bus] = count.get(row.bus, 0) + row.is_bound
        if row.is_bound and count[row.bus] == numbers.SOURCES + 1:
            found.append(
                (
                    row.line,
                    f"bus {row.bus} has more than {numbers.SOURCES} inputs, and a binding has {numbers.SOURCES} places",
                )
            )
    return found


def hidden_inputs(rows: List[Row]) -> Found:
    """Two inputs whose events are the same, since their scheme leaves out the device or the instance."""
    first: Dict[Tuple[int, str, int, int], Row] = {}
    return [
        (row.line, f"its events are those of line {before.line} too: give both the scheme device-instance")
        for row in rows
        if row.is_bound and (before := first.setdefault((row.bus, *source_of(row)), row)) is not row
    ]


def source_of(row: Row) -> Tuple[str, int, int]:
    """The source of its events as a binding has it: the scheme, and two numbers."""
    scheme = SCHEMES.get(row.settings["scheme"], "")
    kind = INPUTS[row.kind]
    number = kind.number if kind else 0
    if scheme == "instance":
        return scheme, number, row.instance
    return (scheme, row.address, number) if scheme == "device" else (scheme, row.address, row.instance)


FINDERS: Tuple[Callable[[List[Row]], Found], ...] = (
    same_places,
    same_names,
    too_many_inputs,
    hidden_inputs,
)
