"""The page of a house for the customer: which lamps, buttons and sensors are in which room, and where."""

from __future__ import annotations

import html
from typing import Dict, Iterable, List, Sequence

from dalictl_house.instances import values_of
from dalictl_house.lamps import GROUPS, VALUES
from dalictl_house.table import AT_FIRST, GROUP, INPUTS, LAMP, Row

KINDS = {
    "button": "push button",
    "motion": "motion sensor",
    "brightness": "brightness sensor",
    "input": "other input",
}
STYLE = """
body { font: 11pt/1.4 sans-serif; max-width: 50em; margin: 2em auto; padding: 0 1em; }
table { border-collapse: collapse; width: 100%; margin: 0 0 1.5em; }
th, td { border: 1px solid #999; padding: 0.25em 0.6em; text-align: left; vertical-align: top; }
th { background: #eee; }
section { break-inside: avoid; }
@media print { body { margin: 0; max-width: none; } th { background: none; } }
"""


def page(rows: List[Row], title: str, made_of: str) -> str:
    """The page, as HTML that a browser shows and prints without anything else."""
    rooms = list(dict.fromkeys(row.room for row in rows))
    parts = [room_part(room, rows) for room in rooms]
    parts.append(f"<h2>{text('What is at which address')}</h2>")
    parts += [bus_part(bus, rows) for bus in sorted({row.bus for row in rows})]
    head = f'<meta charset="utf-8">\n<meta name="generator" content="{text(made_of)}">\n<title>{text(title)}</title>'
    head += f"\n<style>{STYLE}</style>"
    body = "\n".join([f"<h1>{text(title)}</h1>", contents(rooms, rows), *parts])
    return f'<!DOCTYPE html>\n<html lang="en">\n<head>\n{head}\n</head>\n<body>\n{body}\n</body>\n</html>\n'


def contents(rooms: Sequence[str], rows: List[Row]) -> str:
    """How many of each are in which room."""
    counts = []
    for room in rooms:
        of_room = [row for row in rows if row.room == room]
        lamps = sum(row.kind == LAMP for row in of_room)
        buttons = sum(row.kind == "button" for row in of_room)
        others = sum(row.is_input for row in of_room) - buttons
        counts.append([room, str(lamps), str(buttons), str(others)])
    return table(("room", "lamps", "buttons", "sensors and others"), counts)


def room_part(room: str, rows: List[Row]) -> str:
    groups = group_names(rows)
    lamps = [
        [
            row.name,
            f"bus {row.bus}, {row.where}",
            ", ".join(name_of(groups, row.bus, it) for it in row.groups),
            settings(row),
        ]
        for row in rows
        if row.room == room and row.kind == LAMP
    ]
    inputs = [
        [row.name, KINDS[row.kind], f"bus {row.bus}, {row.where}", settings(row)]
        for row in rows
        if row.room == room and row.is_input
    ]
    tables = table(("lamp", "where", "groups", "is set to"), lamps) + table(
        ("button or sensor", "is", "where", "is set to"), inputs
    )
    return f"<section>\n<h2>{text(room)}</h2>\n{tables}</section>"


def bus_part(bus: int, rows: List[Row]) -> str:
    """All addresses of a bus in their order."""
    of_bus = sorted(
        (row for row in rows if row.bus == bus), key=lambda row: (row.is_input, row.kind == GROUP, row.place)
    )
    lines = [[row.where, KINDS.get(row.kind, row.kind), row.title] for row in of_bus]
    return f"<section>\n<h3>Bus {bus}</h3>\n{table(('address', 'is', 'room and name'), lines)}</section>"


def group_names(rows: List[Row]) -> Dict[tuple[int, int], str]:
    return {(row.bus, row.address): row.name for row in rows if row.kind == GROUP}


def name_of(groups: Dict[tuple[int, int], str], bus: int, group: int) -> str:
    """A group in words: its number, and its name where it has a line of its own."""
    name = groups.get((bus, group))
    return f"{group} ({name})" if name else str(group)


def settings(row: Row) -> str:
    """What a line says of its settings, in words, as far as it tells the customer something."""
    if row.is_input and not row.is_bound:
        return "not used"
    values = VALUES if row.kind == LAMP else values_of(INPUTS[row.kind])
    said = ((word, number) for word, number in row.settings.items() if word not in (GROUPS, *AT_FIRST))
    return ", ".join(f"{word} {values[word].show(number)}" for word, number in said)


def table(heads: Iterable[str], lines: List[List[str]]) -> str:
    """A table; nothing where it has no lines."""
    if not lines:
        return ""
    head = "".join(f"<th>{text(it)}</th>" for it in heads)
    body = "\n".join("<tr>" + "".join(f"<td>{text(it)}</td>" for it in line) + "</tr>" for line in lines)
    return f"<table>\n<thead><tr>{head}</tr></thead>\n<tbody>\n{body}\n</tbody>\n</table>\n"


def text(words: str) -> str:
    return html.escape(words)
