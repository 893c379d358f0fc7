"""Checks of benches/lines: a line that fails, and comes back, while the other bus goes on undisturbed."""

from __future__ import annotations

import concurrent.futures
import itertools
import multiprocessing
import os
import statistics
import time
from typing import Iterable, List, Tuple

from lines_bench import Bench, Checks
from lines_live import Found, Said
from lines_neighbour import BIND, Case, FAR, GROUP, Neighbour, PATIENCE, Presser, QUICK, SIGN, SLOW, TWO, cases
from lines_ports import Attended, NUMBERS, Pty

# What was otherwise in a run, how long each press took on bus 0, and each return of bus 1.
Run = Tuple[Found, List[float], List[float]]


def judge_back(bench: Bench) -> Found:
    """Two buses, of which one is in trouble: the other one's presses light their lamp in time, each once."""
    found = Found()
    bench.beside_well = []
    for case in cases(bench):
        otherwise, took, back = Found(), list[float](), list[float]()
        for more, presses, returns in judge_runs(bench, case):
            otherwise += more
            took += presses
            back += returns
        bench.beside_well = took if case.name == "is well" else bench.beside_well
        judge_times(otherwise, took, bench.beside_well)
        tell_times(bench, case, took, back)
        print(f"  bus 1 {case.name}: {'otherwise' if otherwise else 'ok'}", flush=True)
        found.extend(f"bus 1 {case.name}: {one}" for one in otherwise)
    return found


def judge_runs(bench: Bench, case: Case) -> List[Run]:
    """What came of each run of a case. In full some run beside each other, each in a process and a folder of its own."""
    runs = 1 if case.is_long else bench.back_runs
    at_once = min(runs, bench.back_at_once // (2 if case.is_busy else 1))
    if at_once <= 1:
        return [judge_case(bench, case) for _ in range(runs)]
    fork = multiprocessing.get_context("fork")
    with concurrent.futures.ProcessPoolExecutor(at_once, mp_context=fork) as pool:
        return list(pool.map(judge_case, [bench.apart() for _ in range(runs)], [case] * runs))


def tell_times(bench: Bench, case: Case, took: List[float], back: List[float]) -> None:
    """The rows of a case: how long presses took on bus 0, and until the lamps of bus 1 were right again."""
    if took:
        value = f"median {statistics.median(took) * 1000:.1f}, worst {max(took) * 1000:.1f} ms"
        bench.row(f"bus 1 {case.name}: bus 0, {len(took)} presses", value, "under 20 ms")
    if back:
        what = f"bus 1 {case.name}: until its lamps are right, {len(back)} times"
        bench.row(what, f"worst {max(back):.1f} s", f"under {case.back:.0f} s")


def judge_times(found: Found, took: List[float], well: List[float]) -> None:
    """Each press lit its lamp in time. On a machine with other work a press may take longer whatever bus 1 does: what is
    late is compared with the same beside a bus that is well."""
    late = [time for time in took if time > QUICK]
    if os.getloadavg()[0] < (os.cpu_count() or 1) / 2:
        found.same(f"presses above {QUICK * 1000:.0f} ms", len(late), 0)
    share = max(1 / 50, 2 * sum(time > QUICK for time in well) / max(1, len(well)))
    found.hold(len(late) <= share * len(took), f"{len(late)} of {len(took)} presses above {QUICK * 1000:.0f} ms")
    slow = max([SLOW, *(2 * time for time in well)])
    found.hold(max(took, default=0) <= slow, f"a press took {1000 * max(took, default=0):.0f} of {1000 * slow:.0f} ms")


def judge_case(bench: Bench, case: Case) -> Run:
    """What was otherwise in one run, how long each press took on bus 0, and each return of bus 1."""
    found, back = Found(), list[float]()
    presser = Presser((0.2, 0.6) if case.is_long else (0.005, 0.040))
    port = Pty(bench.folder, presser)
    log = f"{bench.folder}/log{next(NUMBERS)}"
    # Where one run follows another all buses wait, which is no trouble of bus 1.
    words = ["--patience", str(PATIENCE), "--log", log, "--log-size", "4000000000", "--limit", "300000"]
    with Neighbour(bench.folder, *case.words) as neighbour, Attended(port) as attended:
        with bench.live(TWO, BIND, [port.word(), neighbour.path], *words) as live:
            wait_for(bench, case, presser, neighbour)
            presser.is_on = False
            time.sleep(0.5)
            found.same("status before the end was asked for", live.process.poll(), None)
            asked = time.monotonic()
            status = live.end()
            said = found.ended(live, status, 0 if case.ends_up or status == 0 else 3)
        found.hold(attended.fault is None, f"the interface of bus 0: {attended.fault}")
        judge_presses(found, said, presser)
        with open(log) as file:
            events = Events(file)
        judge_timer(found, said, events, asked - (presser.greeted or asked))
        judge_log(found, events, case)
        if case.ends_up or case.speaks_on:
            values = {FAR: said.values.get("far"), SIGN: "120", GROUP: "254"}
            found.same("the levels of bus 1", {at: str(level) for at, level in neighbour.last_levels().items()}, values)
        if case.troubles:
            back = judge_return(found, neighbour, presser, case)
    port.close()
    return found, presser.from_event, back


def wait_for(bench: Bench, case: Case, presser: Presser, neighbour: Neighbour) -> None:
    """Until there were enough presses, and bus 1 had its troubles and is back."""
    time.sleep(case.seconds)
    bench.eventually(lambda: len(presser.from_event) >= bench.back_presses, 120)
    if case.troubles:
        absent = float(case.words[1]) if case.words[0] == "--start-after" else 0.0
        most = absent + case.troubles * (2 * case.back + 10)
        bench.eventually(lambda: neighbour.is_back(case, presser), most, pause=0.25)


class Events:
    """What an event log says: the moments of the scans of the task `clock` that changed a variable, which is each but the first,
    and which buses went down or came up, in all and before the last of these scans."""

    def __init__(self, lines: Iterable[str]) -> None:
        self.scans: List[int] = []
        self.turns: List[str] = []
        self.early_turns: List[str] = []
        for text in lines:
            words = text.split()
            if words[3:5] == ["commit", "clock"]:
                self.scans.append(int(words[1]))
                self.early_turns = self.turns[:]
            elif words[3:5] in (["!", "down"], ["!", "up"]):
                self.turns.append(" ".join(words[4:]))


def judge_presses(found: Found, said: Said, presser: Presser) -> None:
    """Each press was taken once, and set the lamp once."""
    presses = presser.handed
    found.same("scans and lost events", said.tasks.get("push"), (presses, 0))
    found.same("presses", said.values.get("presses"), str(presses % 65536))
    found.same("lamp", said.values.get("lamp"), str(200 * (presses % 2)))
    found.same("frames of bus 0", presser.sends, [0x0A00 | 200 * (count % 2) for count in range(presses + 1)])
    found.counts(said, 0, presser)


def judge_timer(found: Found, said: Said, events: Events, seconds: float) -> None:
    """The timer ran from the first scan of its task, before those of the log, to the last one, and these go on until the end was
    asked for, so many seconds after bus 0 greeted. The clock begins at the greeting at the soonest, and a second later at the
    latest."""
    first, last = events.scans[:1] or [0], events.scans[-1:] or [0]
    elapsed = int(said.values.get("elapsed", -1))
    found.hold(last[0] - first[0] <= elapsed <= last[0], f"the timer ran {elapsed} ms of {last[0]}")
    ran = last[0] / 1000
    found.hold(seconds - 2.5 < ran < seconds + 0.5, f"the last scan is at {ran:.1f} s of {seconds:.1f}")


def judge_log(found: Found, events: Events, case: Case) -> None:
    """Bus 1 alone goes down, and up again after each time, but for the last where it ends down; once for each trouble."""
    turns = events.turns
    found.same("buses that went down or up", {text.split()[-1] for text in turns} - {"1"}, set())
    wanted = list(itertools.islice(itertools.cycle(["down bus 1", "up bus 1"]), len(turns)))
    found.same("downs and ups in turn", turns, wanted)
    if case.ends_up:
        found.same("the last one", turns[-1:], ["up bus 1"] if turns else [])
    if case.speaks_on:
        found.same("downs before the end, and at it", (events.early_turns, turns), ([], ["down bus 1"]))
    if case.troubles:
        found.same("times that bus 1 went down", turns.count("down bus 1"), case.troubles)


def judge_return(found: Found, neighbour: Neighbour, presser: Presser, case: Case) -> List[float]:
    """After each trouble all lamps of bus 1 have their levels in time. Gives how long each took."""
    times = neighbour.times_of(case)
    found.same("troubles of bus 1", len(times), case.troubles)
    back = [neighbour.back_at(well, presser) for well in times]
    found.hold(None not in back, "the lamps of bus 1 did not get their levels again")
    took = [then - well for then, well in zip(back, times) if then is not None]
    most = case.back + (PATIENCE / 1000 if "--half-at" in case.words else 0)
    found.hold(max(took, default=0) <= most, f"the lamps of bus 1 had their levels after {max(took, default=0):.1f} s")
    return took


CHECKS: Checks = [("two buses, of which one is in trouble", judge_back)]
