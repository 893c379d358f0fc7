"""Sunrise and sunset at a place, by Debian's python3-astral. Version 1.6 was tried; later ones name
things otherwise."""

from __future__ import annotations

import datetime
import functools
from typing import Any, Optional, Tuple

from gushewa_line.program import needs

MINUTES_OF_DAY = 24 * 60
# Sunrise and sunset where the sun does not cross the horizon: of a day without a night, and of a
# night without a day.
ALWAYS_DAY, ALWAYS_NIGHT = (0, MINUTES_OF_DAY), (MINUTES_OF_DAY, 0)


class Sun:
    """The sun over a place, a latitude and a longitude in degrees, north and east positive."""

    def __init__(self, latitude: float, longitude: float, zone: Optional[datetime.tzinfo]) -> None:
        if not (-90 <= latitude <= 90 and -180 <= longitude <= 180):
            raise ValueError("a place is LATITUDE,LONGITUDE in degrees, as 52.5,13.4")
        self.latitude, self.longitude, self.zone = latitude, longitude, zone
        self.minutes = functools.lru_cache(maxsize=16)(self._minutes)

    def _minutes(self, day: datetime.date) -> Tuple[int, int]:
        """Sunrise and sunset of a day, in minutes after its midnight by the local clock.

        By the rule of the almanac the sun is up where its upper edge is above the horizon.
        """
        rise, down = self._crossing(day, "sunrise"), self._crossing(day, "sunset")
        if rise is None or down is None:
            noon = datetime.datetime.combine(day, datetime.time(12)).astimezone(self.zone)
            return ALWAYS_DAY if self._elevation(noon) > 0 else ALWAYS_NIGHT
        return self._minute_of(rise, day), self._minute_of(down, day)

    def _minute_of(self, moment: datetime.datetime, day: datetime.date) -> int:
        local = moment.astimezone(self.zone)
        days = (local.date() - day).days
        return min(max(days * MINUTES_OF_DAY + local.hour * 60 + local.minute, 0), MINUTES_OF_DAY)

    def _crossing(self, day: datetime.date, name: str) -> Optional[datetime.datetime]:
        """The moment of the name, or None where the sun does not cross the horizon on this day."""
        try:
            if hasattr(astral(), "Astral"):
                return aware(getattr(astral().Astral(), f"{name}_utc")(day, self.latitude, self.longitude))
            return aware(getattr(astral_sun(), name)(self._observer(), date=day))
        except Exception as error:
            if str(error).startswith("Sun "):  # 'Sun never reaches the horizon ..', an AstralError or a ValueError
                return None
            raise

    def _elevation(self, moment: datetime.datetime) -> float:
        utc = moment.astimezone(datetime.timezone.utc)
        if hasattr(astral(), "Astral"):
            return float(astral().Astral().solar_elevation(utc, self.latitude, self.longitude))
        return float(astral_sun().elevation(self._observer(), utc))

    def _observer(self) -> Any:
        return astral().Observer(self.latitude, self.longitude)


def aware(moment: Any) -> datetime.datetime:
    """A moment of astral as one of Python, in UTC."""
    assert isinstance(moment, datetime.datetime)
    return moment.astimezone(datetime.timezone.utc)


def astral() -> Any:
    try:
        import astral as module  # type: ignore[import]
    except ImportError:
        needs("astral, which knows the sun,", "python3-astral")
    return module


def astral_sun() -> Any:
    import astral.sun as module  # type: ignore[import]

    return module
