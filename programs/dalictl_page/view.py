"""What the page shows: the state of a building as one value that can be written as JSON.

Names and words stand in it as they are. The page's script puts them into the page as text, and never
as HTML.
"""

from __future__ import annotations

from typing import Any, Dict, List, Optional

from gushewa_line.line import QUIET
from gushewa_line.numbers import ALL, FIRST_GROUP, MASK

from .beside import Beside
from .names import Place, address_words
from .state import DOWN, UP, Building, Lamp
from .words import Source, choices, said

# A status is written each second, or at each tick where ticks are rarer.
OLD_SECONDS = 90.0
Shown = Dict[str, Any]


def show(building: Building, beside: Beside, now: float) -> Shown:
    """All that the page shows."""
    is_old = bool(beside.status) and now - beside.written > OLD_SECONDS
    return {
        "buses": [show_bus(building, beside, number, is_old, now) for number in range(len(building.buses))],
        "lamps": [show_lamp(building, beside, place) for place in places(building, beside)],
        "sources": [show_source(building, source) for source in sorted(building.sources)],
        "timers": show_timers(beside),
        "log": [line._asdict() for line in beside.log.lines] if beside.log else None,
        "notes": [note._asdict() for note in building.notes],
        "written": beside.written if beside.status else None,
        "troubles": troubles(building, beside, is_old),
    }


def show_bus(building: Building, beside: Beside, number: int, is_old: bool, now: float) -> Shown:
    """A bus is up where both its line and the controller's status say so."""
    bus = building.buses[number]
    state, why = bus.state, bus.why
    if state == UP and beside.status and not is_old and number in beside.status.down:
        state, why = DOWN, "the controller says so"
    return {
        "bus": number,
        "name": building.names.buses.get(number, ""),
        "state": state,
        "why": why,
        "since": bus.since,
        "sent": bus.sent,
        "heard": bus.heard,
        "lost": bus.lost.count(now),
    }


def places(building: Building, beside: Beside) -> List[Place]:
    """The addresses that are shown: those that were named, declared, or seen."""
    known = beside.status.levels if beside.status else {}
    return sorted({*building.lamps, *(place for place in known if place[0] < len(building.buses))})


def show_lamp(building: Building, beside: Beside, place: Place) -> Shown:
    lamp = building.lamps.get(place, Lamp())
    level, words = (lamp.sent.level, lamp.sent.words) if lamp.sent else (None, "")
    if not lamp.sent and beside.status:  # it was sent before this page began
        level = beside.status.levels.get(place)
        words = "" if level is None else str(level)
    return {
        "id": f"{place[0]}.{place[1]}",
        "name": building.names.lamp(place),
        "where": f"bus {place[0]}, {address_words(place[1])}",
        "is_one": place[1] < FIRST_GROUP,
        "level": level if level is not None else lamp.level(),
        "sent": words + (" to all gear" if lamp.by_all and place[1] != ALL else ""),
        "sent_at": lamp.sent_at or None,
        "answered": answer_words(lamp),
        "answered_at": lamp.answer_at or None,
        "later": lamp.later,
        "differs": lamp.differs(),
    }


def answer_words(lamp: Lamp) -> str:
    """What a lamp answered, when it was asked for its level."""
    level = lamp.level()
    if level is not None:
        return str(level) if level != MASK else "no level: it starts, or its lamp failed"
    return {"": "", QUIET: "nothing"}.get(lamp.answer, lamp.answer)


def show_source(building: Building, source: Source) -> Shown:
    named, last = building.names.named(source), building.sources[source]
    return {
        "id": source.key(),
        "name": named.name,
        "where": source.where(),
        "said": said(named.kind, last.information) if last else "",
        "at": last.at if last else None,
        "by_hand": bool(last and last.is_by_hand),
        "choices": choices(named.kind),
    }


def show_timers(beside: Beside) -> Optional[List[Shown]]:
    """The timers that run, with the moment at which each is over; None where nothing says so."""
    if not beside.status or not (beside.kept or any(name.endswith(".PT") for name in beside.status.values)):
        return None
    return [
        {"name": it.name, "ends": round(beside.written + it.left / 1000), "of": it.of // 1000} for it in beside.timers()
    ]


def troubles(building: Building, beside: Beside, is_old: bool) -> List[str]:
    """What the page itself cannot show, and why."""
    found = [f"{path}: {why}" for path, why in beside.troubles.items()]
    if is_old:
        found.append("the status is old: the building has ended, or its clock waits for the disk")
    if building.missed:
        found.append(f"{building.missed} events came from more sources than are shown")
    return found
