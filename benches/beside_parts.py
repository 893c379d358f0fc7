"""What benches/beside, benches/files and benches/kept are made of: the simulated interface in a process of its own, and a
bench that runs the program, compares and counts what is otherwise."""
import itertools, os, subprocess, time

from waiting import wait_for

HERE = os.path.dirname(os.path.dirname(os.path.abspath(__file__)))
TEXT, BIND = f"{HERE}/examples/first-house/hall.il", f"{HERE}/examples/first-house/hall.bind"
BUTTON = "048402"


class Interface:
    """The simulated interface, in a process of its own."""

    def __init__(self, folder, seconds):
        self.begin(folder, "7", (f"{BUTTON}:{seconds}",))

    def begin(self, folder, gear, buttons):
        self.path, self.log = f"{folder}/dali0", f"{folder}/interface.log"
        words = [f"{HERE}/examples/interfaces/simulated.py", "--pty", self.path, "--gear", gear, "--log", self.log]
        for button in buttons:
            words += ["--button", button]
        self.process = subprocess.Popen(words)
        while not os.path.exists(self.path):
            time.sleep(0.05)

    def lines(self):
        with open(self.log) as it:
            return [line.split(maxsplit=1)[1].strip() for line in it]

    def end(self):
        self.process.terminate()
        self.process.wait()


NUMBERS = itertools.count()


class Building:
    """A building that runs until it is asked to end, and what it has said so far."""

    def __init__(self, bench, *words):
        self.base = f"{bench.folder}/building{next(NUMBERS)}"
        with open(f"{self.base}.out", "w") as out, open(f"{self.base}.err", "w") as err:
            self.process = subprocess.Popen(
                bench.program + ["live", *words, "--stop", f"{self.base}.stop"], stdout=out, stderr=err
            )

    def lines(self, name):
        with open(f"{self.base}.{name}") as it:
            return it.read().splitlines()

    def told(self):
        return self.lines("err")

    def reaches(self, holds):
        """Whether this comes to hold while it runs."""
        return wait_for(lambda: holds() or self.process.poll() is not None, 600) and holds()

    def kill(self):
        self.process.kill()
        self.process.wait()
        return self.told()

    def end(self):
        """Asks it to end: its status, what it printed, and what it told."""
        with open(f"{self.base}.stop", "w"):
            pass
        try:
            self.process.wait(600)
        except subprocess.TimeoutExpired:
            self.kill()
        return self.process.returncode, self.lines("out"), self.told()


class Bench:
    def __init__(self, program, folder, seconds):
        self.program, self.folder, self.seconds, self.wrong = program, folder, seconds, 0

    def run(self, *words):
        done = subprocess.run(self.program + list(words), capture_output=True, text=True)
        return done.returncode, done.stdout.splitlines(), done.stderr.splitlines()

    def same(self, what, found, wanted):
        good = found == wanted
        self.wrong += not good
        print(f"{what}: " + ("ok" if good else f"found {found!r}, wanted {wanted!r}"), flush=True)

    def file(self, name, text=None):
        path = f"{self.folder}/{name}"
        if text is not None:
            with open(path, "w") as it:
                it.write(text)
        return path

    def read(self, name):
        with open(self.file(name)) as it:
            return it.read().splitlines()


def values(lines):
    """The variables among printed lines."""
    return [line for line in lines if " = " in line]
