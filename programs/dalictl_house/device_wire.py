"""How control devices are spoken to: by frames of 24 bits (IEC 62386-103)."""

from __future__ import annotations

from typing import Optional

from dalictl_house.device_codes import ALL_DEVICES, DEVICE, SPECIAL, code
from gushewa_line.line import QUIET, byte_of
from gushewa_line.numbers import MASK
from searching import Wire


class DeviceWire(Wire):
    """Transactions with control devices. Their short addresses are apart from those of gear."""

    noun, some, several = "device", "a device", "devices"
    without_address = 0x7F

    def special_frame(self, command: str, data: int = 0) -> int:
        return SPECIAL << 16 | code(command) << 8 | data

    def frame(self, address: int, to: int, third: int) -> int:
        """A command to one device, or to an instance of it."""
        return (address << 1 | 1) << 16 | to << 8 | third

    def address_byte(self, short: Optional[int]) -> int:
        return MASK if short is None else short

    def presence(self, address: int) -> str:
        return self.transaction(self.frame(address, DEVICE, code("QUERY DEVICE STATUS")))

    def is_of_one(self, came: str) -> bool:
        return byte_of(came) is not None

    def is_missing(self) -> bool:
        frame = ALL_DEVICES << 16 | DEVICE << 8 | code("QUERY MISSING SHORT ADDRESS")
        return self.transaction(frame) != QUIET

    def set_address(self, old: int, new: Optional[int]) -> None:
        command = self.frame(old, DEVICE, code("SET SHORT ADDRESS"))
        self.transaction(self.special_frame("DTR0", self.address_byte(new)), command, command)
