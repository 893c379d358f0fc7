"""Calls of `dalictl live` by benches/lines, what they print, and what was otherwise than it should be."""

from __future__ import annotations

import os
import re
import subprocess
import time
from typing import Dict, Iterable, List, Optional, Protocol, Sequence, Tuple

from lines_ports import NUMBERS

# A build with run-time checks keeps memory that was given back, unless it is told not to.
ENVIRONMENT = dict(os.environ, ASAN_OPTIONS="quarantine_size_mb=0:thread_local_quarantine_size_kb=0")


class Live:
    """A call of `dalictl live`, with words `before` it; where it `leads`, its process begins a session of its own; where it
    `is_closed`, it begins without descriptors 0, 1 and 2."""

    def __init__(
        self,
        program: str,
        folder: str,
        text: str,
        bind: str,
        lines: Sequence[str],
        *words: str,
        before: Sequence[str] = (),
        leads: bool = False,
        is_stopped: bool = False,
        is_closed: bool = False,
    ) -> None:
        number = next(NUMBERS)
        self.stop = f"{folder}/stop{number}"
        if is_stopped:
            self.ask_for_end()
        self.out_path, self.err_path = f"{folder}/out{number}", f"{folder}/err{number}"
        self.text, self.bind = f"{folder}/{number}.il", f"{folder}/{number}.bind"
        for path, data in ((self.text, text), (self.bind, bind)):
            with open(path, "w") as file:
                file.write(data)
        named = [word for bus, path in enumerate(lines) for word in ("--line", f"{bus}={path}")]
        with open(self.out_path, "w") as out, open(self.err_path, "w") as err:
            self.process = subprocess.Popen(
                [*before, program, "live", self.text, self.bind, *named, "--stop", self.stop, *words],
                stdin=subprocess.DEVNULL,
                stdout=out,
                stderr=err,
                start_new_session=leads,
                env=ENVIRONMENT,
                preexec_fn=(lambda: os.closerange(0, 3)) if is_closed else None,
            )
        self.ended_at: Optional[float] = None

    def __enter__(self) -> Live:
        return self

    def __exit__(self, *_: object) -> None:
        if self.process.poll() is None:
            self.process.kill()
            self.process.wait()

    def ask_for_end(self) -> None:
        with open(self.stop, "w"):
            pass

    def end(self) -> Optional[int]:
        """Asks for the end by the stop file, and waits for it."""
        self.ask_for_end()
        return self.wait()

    def wait(self, seconds: float = 20) -> Optional[int]:
        """The status, or None where it goes on."""
        try:
            status = self.process.wait(seconds)
        except subprocess.TimeoutExpired:
            return None
        self.ended_at = time.monotonic()
        return status

    def out(self) -> List[str]:
        with open(self.out_path) as file:
            return file.read().splitlines()

    def err(self) -> List[str]:
        with open(self.err_path) as file:
            return file.read().splitlines()

    def unnamed(self, lines: Iterable[str]) -> List[str]:
        """Lines with TEXT and BIND for the paths of these files."""
        return [it.replace(self.text, "TEXT").replace(self.bind, "BIND") for it in lines]

    def said(self) -> Said:
        return Said(self.out())

    def seconds(self) -> float:
        """The processor time of the process up to now."""
        with open(f"/proc/{self.process.pid}/stat") as file:
            fields = file.read().rsplit(")", 1)[1].split()
        return (int(fields[11]) + int(fields[12])) / os.sysconf("SC_CLK_TCK")

    def memory(self) -> int:
        """The most memory that the process had up to now, in KiB."""
        with open(f"/proc/{self.process.pid}/status") as file:
            found = re.search(r"VmHWM:\s+(\d+)", file.read())
        return int(found[1]) if found else 0


class Said:
    """What is printed at the end."""

    def __init__(self, lines: Iterable[str]) -> None:
        self.ended: Optional[str] = None
        self.events = 0
        self.buses: Dict[int, Tuple[int, int]] = {}
        self.tasks: Dict[str, Tuple[int, int]] = {}
        self.values: Dict[str, str] = {}
        self.other: List[str] = []
        for text in lines:
            words = text.split()
            if re.fullmatch(r"ended (asked|a bus went down|limit|no memory|no thread)", text):
                self.ended = text[len("ended ") :]
            elif re.fullmatch(r"events \d+", text):
                self.events = int(words[1])
            elif re.fullmatch(r"bus \d+ (down )?sent \d+ heard \d+", text):
                self.buses[int(words[1])] = int(words[-3]), int(words[-1])
            elif re.fullmatch(r"task \w+ scans \d+ lost \d+", text):
                self.tasks[words[1]] = int(words[3]), int(words[5])
            elif re.fullmatch(r"\w+ = (\d+|TRUE|FALSE)", text):
                self.values[words[0]] = words[2]
            else:
                self.other.append(text)


class Counted(Protocol):
    """An interface that counts the events that it handed over, and has what was sent, and its last request with the answer."""

    handed: int
    sends: List[int]
    last: Optional[Tuple[str, str]]


class Found(List[str]):
    """What was otherwise than it should be."""

    def same(self, what: str, found: object, wanted: object) -> None:
        if found != wanted:
            self.append(f"{what} {found!r} and not {wanted!r}")

    def hold(self, holds: object, what: str) -> None:
        if not holds:
            self.append(what)

    def ended(self, live: Live, status: Optional[int], wanted: int, why: str = "asked") -> Said:
        """The status, and where it is 0 or 3 after a start why the run was ended: as it was asked."""
        if status is None:
            self.append(f"it goes on; on standard error {live.err()[-1:]}")
            return live.said()
        self.hold(status == wanted, f"status {status} and not {wanted}; on standard error {live.err()[-2:]}")
        said = live.said()
        self.same("ended", said.ended, why)
        self.same("other lines", said.other, [])
        return said

    def counts(self, said: Said, bus: int, house: Counted, is_up: bool = True, unsaid: int = 0) -> None:
        """What the program says of a bus is what its interface says, which had nothing more where the bus is up. A frame
        that failed since the line was not there counts as sent; so many more there may be."""
        sent, heard = said.buses.get(bus, (-1, -1))
        self.same(f"bus {bus}: heard", heard, house.handed)
        self.hold(0 <= sent - len(house.sends) <= unsaid, f"bus {bus}: sent {sent} and not {len(house.sends)}")
        if is_up:
            self.same(f"bus {bus}: asked at last", house.last, ("hear", "none"))
