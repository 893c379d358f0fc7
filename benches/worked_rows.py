"""Worked rows as benches/worked reads them: crates/rows/README.md has the format, and crates/workedrows is its other reader."""

import pathlib
import re
import subprocess

# Names of files that no folder has, and what stands for them in the memory of crates/rows.
SPECIAL = ("torn", "starved", "full", "nearly-full", "late", "passing", "falling")
PARTS = ("file", "text", "hex", "out")
COMPARED = ("stdout", "stdout has", "stderr", "stderr has", "shown", "shown like", "shown first")
ENDS = ("whole", "stdout-full", "stderr-full", "stdout-starved", "stderr-starved")


class PassedOver(Exception):
    """What a row needs that a folder and a terminal do not have."""


class Difference(Exception):
    """Why a row does not hold: the kind in a word, the line that shows it, and what was found."""

    def __init__(self, kind, line, found=""):
        super().__init__(f"at '{line}': {kind}" + (f"\n{found}" if found else ""))
        self.kind, self.line = kind, line


class Body:
    """The lines of a part; empty ones count where another one follows."""

    def __init__(self):
        self.text, self.blanks = "", 0

    def add(self, line):
        if line == "":
            self.blanks += 1
            return
        self.text, self.blanks = f"{self.text}{self.blanks * chr(10)}{line}\n", 0

    def repeat(self, many, pattern):
        numbered = (re.sub(r"\{(1|/|)\}", lambda it, at=at: number(it[1], at), pattern) for at in range(many))
        self.text, self.blanks = self.text + self.blanks * "\n" + "".join(f"{it}\n" for it in numbered), 0


def number(mark, at):
    """What stands for a mark of a pattern in the line of this number."""
    return "\n" if mark == "/" else str(at + (mark == "1"))


def end_of(text, first):
    """What a text shows, cut off behind the first lines."""
    return text if len(text) <= first else f"{text[:first]} .."


class Judge:
    """Judges the lines of a row in a folder: puts its files there, runs its commands, and compares."""

    def __init__(self, program, folder, seconds):
        self.program, self.folder, self.seconds = program, pathlib.Path(folder), seconds
        self.heading, self.body, self.is_text = "", Body(), False
        self.part, self.ends, self.status, self.out, self.err = None, ENDS[:1], None, b"", b""

    def refuse(self, kind, found=""):
        raise Difference(kind, self.heading, end_of(found, 2000))

    def take_line(self, line):
        """Takes a line that begins no row."""
        if not line.startswith("-- "):
            return self.take_body_line(line)
        kind, _, rest = line[3:].partition(" ")
        if kind == "times":
            return self.take_times(line[3:], rest)
        self.end_part()
        self.heading = line[3:]
        if kind == "run":
            self.run(rest)
        elif kind == "status":
            self.compare_status(rest)
        elif kind == "terminal":
            self.ends = rest.split(" ")
            if any(it not in ENDS for it in self.ends):
                self.refuse("line")
        elif kind in PARTS or line[3:] in COMPARED:
            self.part = kind if kind in PARTS else line[3:]
        else:
            self.refuse("line")

    def take_times(self, heading, rest):
        many, blank, pattern = rest.partition(" ")
        if not (blank and many.isascii() and many.isdigit()):
            self.heading = heading
            self.refuse("line")
        self.body.repeat(int(many), pattern)

    def take_body_line(self, line):
        if self.part == "text" and not self.body.text:
            self.body.add("PROGRAM p")
            line = "" if line == "-" else line
        self.body.add(line)

    def end_part(self):
        """Ends the part that is open: puts its file, or compares."""
        part, text, self.part, self.body = self.part, self.body.text, None, Body()
        if part in ("file", "text", "hex"):
            self.put(text + ("END_PROGRAM\n" if part == "text" else ""), part == "hex")
        elif part == "out":
            path = self.path()
            if (path.read_bytes() if path.is_file() else None) != self.bytes_of(text):
                self.refuse("wrote", path.read_bytes().hex() if path.is_file() else "no file")
        elif part:
            self.compare(part, text.encode())

    def path(self):
        name = self.heading.partition(" ")[2]
        if name in SPECIAL or name.startswith("/"):
            raise PassedOver(f"the file {name} of no folder")
        return self.folder / name

    def bytes_of(self, digits):
        digits = digits.replace(" ", "").replace("\n", "")
        if len(digits) % 2 or not re.fullmatch(r"[0-9A-Fa-f]*", digits):
            self.refuse("line")
        return bytes.fromhex(digits)

    def put(self, text, is_hex):
        data, path = self.bytes_of(text) if is_hex else text.encode(), self.path()
        path.parent.mkdir(parents=True, exist_ok=True)
        path.write_bytes(data)

    def run(self, line):
        """Runs a command line in the folder, over standard outputs that take all or nothing."""
        words = line.split(" ") if line else []
        if any(it == "--line" or it.startswith("--line=") for it in words):
            raise PassedOver("lines of a building")
        if named := [it for it in words if it.rpartition("=")[2] in SPECIAL]:
            raise PassedOver(f"the file {named[0].rpartition('=')[2]} of no folder")
        if any(it.startswith("/") for it in words):
            raise PassedOver("a path outside its folder")
        if any(it.endswith("-starved") for it in self.ends):
            raise PassedOver("an output without memory")
        given = [b"\xff" if it == "{255}" else it.encode() for it in words]
        outputs = [open("/dev/full", "wb") if f"{it}-full" in self.ends else None for it in ("stdout", "stderr")]
        try:
            done = subprocess.run(
                [self.program, *given],
                cwd=self.folder,
                stdin=subprocess.DEVNULL,
                stdout=outputs[0] or subprocess.PIPE,
                stderr=outputs[1] or subprocess.PIPE,
                timeout=self.seconds,
            )
        except subprocess.TimeoutExpired:
            return self.refuse("end", f"it does not end in {self.seconds} s")
        finally:
            for it in filter(None, outputs):
                it.close()
        self.status, self.out, self.err = done.returncode, done.stdout or b"", done.stderr or b""

    def compare_status(self, wanted):
        if self.status is None or not (wanted.isascii() and wanted.isdigit() and int(wanted) < 256):
            self.refuse("line")
        if self.status != int(wanted):
            self.refuse("status", f"{self.status}\n{self.err.decode(errors='replace')}")

    def compare(self, part, wanted):
        """Compares what the last command printed with the body of a part."""
        if self.status is None:
            self.refuse("line")
        stream, _, how = part.partition(" ")
        found = {"stdout": self.out, "stderr": self.err, "shown": self.out + self.err}[stream]
        if part == "stdout has":
            holds = set(wanted.split(b"\n")) <= set(found.split(b"\n"))
        elif part == "stderr has":
            holds = all(it in found for it in wanted.split(b"\n"))
        elif how == "like":
            holds = re.sub(rb"\d", b"", found) == re.sub(rb"\d", b"", wanted)
        elif how == "first":
            holds = found.startswith(wanted.removesuffix(b"..\n"))
        else:
            holds = found == wanted
        if not holds:
            self.refuse("complained" if stream == "stderr" else "printed", found.decode(errors="replace"))


def rows_of(text):
    """Each row of a file: its name and its lines."""
    for row in f"\n{text}".split("\n== ")[1:]:
        name, _, lines = row.partition("\n")
        yield name, lines.split("\n")


def judge_row(judge, lines):
    """Judges the lines of a row."""
    for line in lines:
        judge.take_line(line)
    judge.end_part()
