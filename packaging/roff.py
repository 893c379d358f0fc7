"""Parts of a manual page, for packaging/man and packaging/man-program."""

import re


def escaped(text):
    """A text in which roff finds no commands; words between backquotes are bold."""
    text = text.replace("\\", "\\e").replace("-", "\\-").replace("'", "\\(aq")
    text = re.sub(r"^\.", r"\\&.", text)
    return re.sub(r"`([^`]+)`", r"\\fB\1\\fR", text)


def term(front, about):
    """A term, and what is said of it."""
    return [".TP", f"\\fB{escaped(front)}\\fR", escaped(about[:1].upper() + about[1:]) + "."]


def shown(lines):
    """Lines that are shown as they are typed and printed."""
    return [".PP", ".RS 4", ".EX", *map(escaped, lines), ".EE", ".RE"]
