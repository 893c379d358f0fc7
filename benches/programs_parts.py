"""What benches/address, broker and clock are made of: processes, and what was otherwise."""

from __future__ import annotations

import contextlib
import os
import pathlib
import signal
import subprocess
import sys
import tempfile
from typing import Any, Iterator, List, Optional

from waiting import wait_for

HERE = pathlib.Path(__file__).resolve().parent.parent
PROGRAMS, INTERFACES = HERE / "programs", HERE / "examples/interfaces"
PROGRAM = HERE / "crates/dalictl/out/dalictl"
TOO_LATE = -1
SIGNALS = (signal.SIGTERM, signal.SIGINT, signal.SIGHUP)
sys.path[:0] = [str(PROGRAMS), str(INTERFACES)]
sys.dont_write_bytecode = True


def path_of(name: str) -> pathlib.Path:
    """A program of programs, or else an example of examples/interfaces."""
    own = PROGRAMS / name
    return own if own.exists() else INTERFACES / name


class Bench:
    """A folder, the processes that were started, and what was otherwise than it should be."""

    def __init__(self, folder: pathlib.Path) -> None:
        self.folder, self.started = folder, list[subprocess.Popen[str]]()
        self.wrong: List[str] = []

    def same(self, what: str, found: Any, wanted: Any) -> None:
        self.hold(found == wanted, f"{what}: found {found!r}, wanted {wanted!r}")

    def hold(self, holds: bool, what: str) -> None:
        if not holds:
            self.wrong.append(what)
            print(what, flush=True)

    def start(self, *words: Any, **options: Any) -> subprocess.Popen[str]:
        """A process that goes on beside the bench, and ends with it."""
        process = subprocess.Popen([str(word) for word in words], text=True, **options)
        self.started.append(process)
        return process

    def interface(self, link: pathlib.Path, *words: Any, **options: Any) -> subprocess.Popen[str]:
        """A program behind a pseudo terminal, or the simulated bus, once that is there."""
        link.unlink(missing_ok=True)
        process = self.start(path_of(words[0]), "--pty", link, *words[1:], **options)
        self.hold(wait_for(link.exists, 60), f"{words[0]} makes no line")
        return process

    def run(self, *words: Any, seconds: float = 60, types: str = "") -> subprocess.CompletedProcess[str]:
        """A process that ends by itself, with what it printed; what takes longer than this time ends with TOO_LATE. What is
        typed is its input."""
        command = [str(word) for word in words]
        try:
            return subprocess.run(command, capture_output=True, text=True, timeout=seconds, input=types)
        except subprocess.TimeoutExpired:
            return subprocess.CompletedProcess(command, TOO_LATE, "", "")

    def end(self, process: Optional[subprocess.Popen[str]] = None) -> None:
        """Ends a process that was started, or all of them."""
        for it in [process] if process else self.started:
            it.terminate()
            try:
                it.wait(5)
            except subprocess.TimeoutExpired:
                it.kill()
                it.wait()


def look_at_links(bench: Bench, name: str, *words: Any) -> None:
    """No link of a program stays where a signal ends it; that of another program does."""
    link = bench.folder / "link"
    for number in SIGNALS:
        process = bench.interface(link, name, *words, stderr=subprocess.DEVNULL)
        process.send_signal(number)
        bench.same(f"{name} at {number.name}: status", process.wait(10), 0)
        bench.hold(not os.path.islink(link), f"{name} at {number.name}: its link stays")
    first = bench.interface(link, name, *words, stderr=subprocess.DEVNULL)
    second = bench.interface(link, name, *words, stderr=subprocess.DEVNULL)
    bench.end(first)
    bench.hold(link.exists(), f"{name}: it takes the link of another program away")
    bench.end(second)
    nowhere = bench.run(path_of(name), "--pty", bench.folder / "none" / "link", *words)
    bench.same(f"{name}: a folder that is not there", nowhere.returncode, 1)
    bench.same(f"{name}: how many lines it says then", nowhere.stderr.count("\n"), 1)


def look_at_package(bench: Bench, package: str, *words: Any) -> None:
    """Without a package of Debian a program says which one it needs, in one line."""
    done = bench.run("/usr/bin/python3", "-S", *words)
    bench.same(f"without {package}", [done.returncode, done.stderr.count("\n")], [1, 1])
    bench.hold(f"apt install {package}" in done.stderr, f"without {package}: it says {done.stderr!r}")


@contextlib.contextmanager
def bench(seconds: int) -> Iterator[Bench]:
    """A bench that ends by itself after this time, and says `ok` or `otherwise` in its last line."""
    signal.signal(signal.SIGALRM, lambda *_: sys.exit(f"otherwise: not done in {seconds} seconds"))
    signal.alarm(seconds)
    with tempfile.TemporaryDirectory() as folder:
        it = Bench(pathlib.Path(folder))
        try:
            yield it
        finally:
            it.end()
    print("otherwise" if it.wrong else "ok")
    sys.exit(1 if it.wrong else 0)


def program_of(words: List[str]) -> Optional[pathlib.Path]:
    """The program that the command line names, or the built one; None where none is there."""
    path = pathlib.Path(words[0]) if words else PROGRAM
    if os.access(path, os.X_OK):
        return path
    print(f"{path} is not there: what needs the program is left out")
    return None
