"""What the help of a built program says, which is made from the tables of crates/commandline/src/tables.rt."""
import re
import subprocess

# The groups of commands in the help.
GROUPS = ["At the desk:", "Trying:", "On a bus:", "By hand:"]

# The names in the help whose values are files.
FILES = {"FILE", "TEXT", "BIND", "SCENARIO", "OUT", "PATH"}


def printed(program, *words):
    """The lines that the program prints."""
    return subprocess.run([program, *words], capture_output=True, text=True, check=True).stdout.splitlines()


def help_of(program, *words):
    """The lines of the help of the program, or of one of its commands."""
    return printed(program, *words, "--help")


def rows_below(lines, title):
    """The rows of a section of the help: each is what stands in front, and what is said of it."""
    if title not in lines:
        return []
    rows = []
    for line in lines[lines.index(title) + 1 :]:
        if not line.startswith(" "):
            break
        rows.append(re.split(r" {2,}", line.strip(), maxsplit=1))
    return rows


def option_of(front, about):
    """An option of the help: its name, the name of its value or nothing, and what is said of it."""
    name = re.search(r"--[a-z-]+", front)[0]
    value = re.search(r"<(.+)>", front)
    return name, value and value[1], about


def commands_of(program):
    """Each command: its name, what is said of it, its words and its options."""
    for group in GROUPS:
        for name, about in rows_below(help_of(program), group):
            lines = help_of(program, name)
            if lines[0] != about:
                raise SystemExit(f"the help says of {name} what its own help does not")
            words = rows_below(lines, "Arguments:")
            yield name, about, words, [option_of(*row) for row in rows_below(lines, "Options:")]


def is_stale(path, text):
    """Whether a file is not there, or has another text."""
    try:
        with open(path, encoding="utf-8") as file:
            return file.read() != text
    except FileNotFoundError:
        return True
