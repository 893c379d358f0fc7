"""Checks of benches/lines: words that name no lines, interfaces that fail or are unplugged, and buses that stay down."""

from __future__ import annotations

import collections
import concurrent.futures
import contextlib
import time
from typing import List, Optional, Sequence, Tuple

from lines_bench import Bench, Checks
from lines_houses import Faulty, House, Pressed
from lines_live import Found
from lines_ports import KINDS, Attended, Fifos, Kind, Pty
from lines_texts import HALL, HALL_LEVELS, SET_ONCE, binding


def judge_words(bench: Bench) -> Found:
    """Words that name no lines, and files that are refused."""
    found = Found()
    house = House()
    port = Pty(bench.folder, house)
    none = f"{bench.folder}/none"
    cases = [
        ("no line of bus 1", HALL, [port.word()], 2, [], ["error: bus 1 has no --line"]),
        (
            "a line of bus 2",
            HALL,
            [port.word(), none, f"{none}2"],
            2,
            [],
            ["error: bus 2 of --line is not in the binding"],
        ),
        (
            "a text that is none",
            "PROGRAM",
            [port.word(), none],
            1,
            ["text fault 4 at 1:8"],
            ["the fault is in TEXT: dalictl explain TEXT BIND"],
        ),
    ]
    for what, text, lines, status, out, err in cases:
        with Attended(port), bench.live(text, binding(2), lines) as live:
            found.same(f"{what}: status", live.wait(), status)
            found.same(f"{what}: printed", live.out(), out)
            found.same(f"{what}: on standard error", live.unnamed(live.err()), err)
    with Attended(port), bench.live(HALL, binding(1), [], "--line", "x") as live:
        found.same("a word that is none: status", live.wait(), 2)
    with Attended(port), bench.live(HALL, binding(2), [port.word()] * 2) as live:
        found.same("one path of two lines: status", live.wait(), 2)
        found.hold("another line has this path" in "".join(live.err()), "one path of two lines: it is not said")
    found.same("requests", house.requests, 0)
    port.close()
    return found


# What an interface says in place of an answer, and whether its line ends then.
FORMS = {
    "silence": (b"", False),
    "garbage": (b"\xff\x00 nonsense\n", False),
    "end of file": (b"", True),
    "half a line": (b"qui", False),
    "80 bytes": (b"x" * 80, False),
    "fault": (b"fault\n", False),
    "a carriage return": (b"quiet\r\n", False),
}


def judge_fault(bench: Bench, kind: Kind, form: str, at: int) -> Tuple[str, Optional[str], Found]:
    """An interface that fails in one way at one request, and then is well again: its bus comes back."""
    says, ends = FORMS[form]
    house = Faulty(at, says, ends)
    port = kind(bench.folder, house)
    found = Found()

    def is_back() -> bool:
        return house.greetings > (at > 0) and SET_ONCE <= set(house.sends[house.before :])

    with Attended(port) as attended, bench.live(HALL, binding(1), [port.word()], "--patience", "300") as live:
        found.hold(bench.eventually(lambda: house.failed), "the request didn't come")
        with contextlib.ExitStack() as again:
            if ends:
                time.sleep(0.2)
                house.is_over = False
                port.plug()
                if kind is Pty:
                    again.enter_context(Attended(port))
            found.hold(bench.eventually(is_back), "not all levels were sent again")
            if house.failed:
                bench.fault_times.append(time.monotonic() - house.failed)
            house.is_on = False
            time.sleep(0.1)
            said = found.ended(live, live.end(), 0)
        found.counts(said, 0, house, unsaid=int(at == 0))
        found.hold(attended.fault is None, f"the interface: {attended.fault}")
    port.close()
    return f"{form} at {'the greeting' if at == 0 else f'request {at}'}", house.failed_at, found


def judge_faults(bench: Bench) -> Found:
    """An interface that fails, in each way, at each of the first requests. Four at once."""
    found = Found()
    for name, kind in KINDS:
        met = collections.defaultdict(set)
        cases = [(form, at) for form in FORMS for at in range(bench.requests)]
        with concurrent.futures.ThreadPoolExecutor(4) as pool:
            for (form, _), (what, request, otherwise) in zip(
                cases, pool.map(lambda case: judge_fault(bench, kind, *case), cases)
            ):
                met[form].add(request)
                found.extend(f"{name}, {what}: {one}" for one in otherwise)
        for form, requests in met.items():
            found.same(f"{name}, {form}: failed at", requests, {"gushewa", "send", "hear"})
        bench.told(f"faults on a {name}" if kind is Pty else f"faults on {name}", f"{len(cases)} starts")
    bench.row("from a fault to all levels again, worst", f"{max(bench.fault_times, default=0):.1f} s", "under 5 s")
    return found


def judge_plug(bench: Bench, before: Sequence[str] = (), leads: bool = False) -> Found:
    """A line that is unplugged, and plugged in again: the program goes on, and sends all levels again."""
    found = Found()
    house, other = House(), House()
    port = Pty(bench.folder, house)
    with bench.live(HALL, binding(1), [port.word()], before=before, leads=leads) as live:
        with Attended(port):
            found.hold(bench.eventually(lambda: len(house.sends) >= 3), "not all levels were sent")
            time.sleep(0.3)
        port.unplug()
        time.sleep(1)
        found.same("status while it is unplugged", live.process.poll(), None)
        port.bus = other
        port.plug()
        with Attended(port):
            found.hold(bench.eventually(lambda: len(other.sends) >= 3, 5), "plugged again: not all levels were sent")
            time.sleep(0.2)
            said = found.ended(live, live.end(), 0)
        found.same("bus 0: sent and heard", said.buses.get(0), (len(house.sends) + len(other.sends), 0))
        found.same("plugged again: greetings", other.greetings, 1)
        found.same("plugged again: levels", set(other.sends), HALL_LEVELS)
    port.close()
    return found


def judge_session(bench: Bench) -> Found:
    """The same where the process leads a session, as under a supervisor: the device is its terminal, and nohup keeps it alive."""
    return judge_plug(bench, before=["nohup"], leads=True)


def judge_stay(bench: Bench) -> Found:
    """A bus that goes down, and stays so: the other one goes on, or with --end-on-down the program ends."""
    found = Found()
    ways: List[List[str]] = [[], ["--stay"], ["--end-on-down"]]
    for words in ways:
        name = " ".join(words) or "no word"
        good, bad = Pressed(0.02, 0.04), Faulty(6, b"fault\n", False, is_well=False)
        ports = [Pty(bench.folder, good), Fifos(bench.folder, bad)]
        lines = [port.word() for port in ports]
        with Attended(*ports), bench.live(HALL, binding(2), lines, "--patience", "300", *words) as live:
            found.hold(bench.eventually(lambda: bad.failed), f"{name}: bus 1 didn't fail")
            if words == ["--end-on-down"]:
                said = found.ended(live, live.wait(), 3, "a bus went down")
            else:
                sends = len(good.sends)
                time.sleep(1)
                found.same(f"{name}: status before the end was asked for", live.process.poll(), None)
                found.hold(len(good.sends) > sends + 10, f"bus 0 was sent {len(good.sends) - sends} frames in a second")
                said = found.ended(live, live.end(), 3)
            found.counts(said, 0, good)
            found.counts(said, 1, bad, is_up=False)
        for port in ports:
            port.close()
    return found


CHECKS: Checks = [
    ("words", judge_words),
    ("faults", judge_faults),
    ("unplugged and plugged", judge_plug),
    ("unplugged and plugged, leading a session", judge_session),
    ("a bus that stays down, --end-on-down", judge_stay),
]
