"""What is made of the table of a house: the binding, and the global variables of the text."""

from __future__ import annotations

from typing import Dict, Iterator, List, Tuple

from dalictl_house.table import GROUP, LAMP, Row, source_of
from gushewa_line.numbers import FIRST_COUNT, FIRST_GROUP, FIRST_INFORMATION

LEVEL, INFORMATION, COUNT = "USINT (0..254)", "UINT (0..1023)", "UINT"


def inputs_of(rows: List[Row]) -> Iterator[Tuple[Row, int]]:
    """Each input that says something, with its place among the sources of its bus."""
    count: Dict[int, int] = {}
    for row in rows:
        if row.is_bound:
            count[row.bus] = count.get(row.bus, -1) + 1
            yield row, count[row.bus]


def binding(rows: List[Row], made_of: str) -> str:
    """The lines of the binding (docs/BINDINGS.md)."""
    lines = [f"# {made_of}", f"buses {max(row.bus for row in rows) + 1}"]
    for row, place in inputs_of(rows):
        scheme, one, other = source_of(row)
        lines += [f"# {row.title}", f"source {row.bus}.{place} {scheme} {one} {other}"]
    return "\n".join(lines) + "\n"


def global_variables(rows: List[Row], made_of: str) -> str:
    """The block of VAR_GLOBAL (docs/LANGUAGE.md, 'Located variables')."""
    places = {row.line: place for row, place in inputs_of(rows)}
    lines = [f"(* {comment(made_of)} *)", "VAR_GLOBAL"]
    for row in rows:
        declared = declarations(row, places, rows)
        words = "" if declared else ": its group has a level" if row.kind == LAMP else ": not enabled"
        lines.append(f"  (* {comment(row.title)}: {row.kind}, {row.where}{words} *)")
        lines += [f"  {name} AT %{address} : {kind};" for name, address, kind in declared]
    return "\n".join([*lines, "END_VAR", ""])


def declarations(row: Row, places: Dict[int, int], rows: List[Row]) -> List[Tuple[str, str, str]]:
    """The variables of a line: name, address, type.

    A lamp of a group that has a line of its own has none. The level of the lamp would be sent again
    after that of its group, where a bus comes up.
    """
    if row.kind == GROUP:
        return [(row.variable, f"QB{row.bus}.{FIRST_GROUP + row.address}", LEVEL)]
    if row.kind == LAMP:
        is_grouped = any(it.kind == GROUP and it.bus == row.bus and it.address in row.groups for it in rows)
        return [] if is_grouped else [(row.variable, f"QB{row.bus}.{row.address}", LEVEL)]
    place = places.get(row.line)
    if place is None:
        return []
    addresses = (
        f"IX{row.bus}.{place}",
        *(f"IW{row.bus}.{first + place}" for first in (FIRST_INFORMATION, FIRST_COUNT)),
    )
    return list(zip(row.variables, addresses, ("BOOL", INFORMATION, COUNT)))


def comment(words: str) -> str:
    """Words that do not end the comment in which they stand."""
    return words.replace("*", "+")
