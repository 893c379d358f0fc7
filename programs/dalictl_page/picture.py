"""The last hour, as `dalictl look` draws it from the record."""

from __future__ import annotations

import asyncio
import re
from typing import List, Optional, Tuple, Union

from .beside import read_file

HOUR = 3_600_000
# A picture stays for so many seconds, since the record is written each minute alone.
FRESH_SECONDS, PATIENCE_SECONDS = 10.0, 30.0
MOST_BYTES = 8_000_000
TICK = re.compile(r"^tick ([0-9]+)$", re.M)
KEPT = "# this FILE begins with the values that FILE.keep keeps"


class NoPicture(Exception):
    """There is no picture, and why."""


def words_of(program: str, text: str, bind: str, record: str, recorded: str) -> List[str]:
    """The command that draws the last hour of a record."""
    last = max((int(it) for it in TICK.findall(recorded)), default=0)
    words = ["nice", "-n", "19", program, "look", text, bind, record]
    if recorded.startswith(KEPT):
        words += ["--keep", f"{record}.keep"]
    return words + (["--from", str(last - HOUR)] if last > HOUR else [])


class Painter:
    """Draws one picture at a time, and keeps it for a while."""

    def __init__(self, program: str, text: str, bind: str, record: str) -> None:
        self.program, self.text, self.bind, self.record = program, text, bind, record
        self.drawing = asyncio.Lock()
        self.last: Optional[Tuple[float, Union[bytes, NoPicture]]] = None

    async def picture(self) -> bytes:
        """The picture as SVG. Raises NoPicture. Whoever comes while one is drawn gets this one."""
        async with self.drawing:
            now = asyncio.get_running_loop().time()
            if not self.last or now - self.last[0] > FRESH_SECONDS:
                try:
                    self.last = now, await self.draw()
                except NoPicture as error:
                    self.last = now, error
            if isinstance(self.last[1], NoPicture):
                raise self.last[1]
            return self.last[1]

    async def draw(self) -> bytes:
        try:
            words = words_of(self.program, self.text, self.bind, self.record, read_file(self.record)[0])
            process = await asyncio.create_subprocess_exec(
                *words, stdout=asyncio.subprocess.PIPE, stderr=asyncio.subprocess.DEVNULL
            )
        except (OSError, ValueError) as error:
            raise NoPicture(f"{self.record}: {getattr(error, 'strerror', None) or error}") from None
        try:
            drawn, _ = await asyncio.wait_for(process.communicate(), PATIENCE_SECONDS)
        except asyncio.TimeoutError:
            raise NoPicture(f"dalictl look was not done in {PATIENCE_SECONDS:g} seconds") from None
        finally:
            if process.returncode is None:
                process.kill()
                await process.wait()
        # Its status is 3 where a bus went down in that hour, and it has drawn all the same.
        if not drawn.startswith(b"<svg ") or not drawn.endswith(b"</svg>\n") or len(drawn) > MOST_BYTES:
            raise NoPicture(f"dalictl look draws no picture of {self.record}: its status is {process.returncode}")
        return drawn
