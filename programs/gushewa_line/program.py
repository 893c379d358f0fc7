"""What the programs that are a bus share: the words for their end of the line, and what they say.

    parser = argparse.ArgumentParser(usage=__doc__)
    add_ends(parser)
    given = parser.parse_args()
    run(MyBus(), given)
"""

from __future__ import annotations

import argparse
import os
import sys
from typing import Callable, NoReturn

from gushewa_line.ends import End, FifoEnd, PtyEnd, end_in_order
from gushewa_line.line import Bus, note_nothing, serve


def add_ends(parser: argparse.ArgumentParser, is_required: bool = True) -> argparse._MutuallyExclusiveGroup:
    """The words --pty LINK and --fifo SOURCE SINK, of which one is needed."""
    ends = parser.add_mutually_exclusive_group(required=is_required)
    ends.add_argument("--pty")
    ends.add_argument("--fifo", nargs=2)
    return ends


def end_of(given: argparse.Namespace) -> End:
    """The end that the words name. Its link is gone where the program ends."""
    end_in_order()
    return PtyEnd(given.pty) if given.pty else FifoEnd(*given.fifo)


def run(bus: Bus, given: argparse.Namespace, note: Callable[[str, str], None] = note_nothing) -> None:
    """Serves a bus at the end that the words name, until the line or the program ends."""
    try:
        serve(bus, end_of(given), note)
    except OSError as error:
        give_up(f"the line is not there: {error}")


def name() -> str:
    """What this program was called by."""
    return os.path.basename(sys.argv[0])


def visible(text: str) -> str:
    """A text that does nothing to a terminal: what cannot be printed is shown by its number."""
    return "".join(it if it.isprintable() else it.encode("unicode_escape").decode("ascii") for it in text)


def report(text: str) -> None:
    """Says something on standard error, in a line of its own."""
    print(f"{name()}: {visible(text)}", file=sys.stderr, flush=True)


def give_up(text: str) -> NoReturn:
    """Says why, and ends with 1."""
    report(text)
    sys.exit(1)


def needs(what: str, package: str) -> NoReturn:
    """Says which package of Debian has what is missing, and ends with 1."""
    give_up(f"{what} is not there: sudo apt install {package}")
