#!/usr/bin/env python3
"""Asks an interface by hand, as the controller does, and prints what is asked and what is answered.

  ask.py PATH REQUEST ..           PATH is a serial device or a pseudo terminal
  ask.py SOURCE,SINK REQUEST ..    or two FIFOs

It greets first, and passes over what is not the answer to this greeting. So
`ask.py /run/dali0 'send 4 0A80' 'send 5 0BA0' hear` sets gear 5 to level 128, asks its level, and
hears. In version 3 of the line the events that came by then stand before an answer.
"""

from __future__ import annotations

import argparse
import sys

from gushewa_line.controller import Ended, Line


def main() -> None:
    words = argparse.ArgumentParser(usage=__doc__)
    words.add_argument("path")
    words.add_argument("request", nargs="*")
    given = words.parse_args()
    try:
        line = Line(given.path)
        greeted = line.greet()
        if greeted is None:
            sys.exit("the interface does not answer the greeting")
        print(f'{"greeting":13}  {greeted}', flush=True)
        for request in given.request:
            came = line.ask(request) or "no answer"
            for said in (*line.events, came):
                print(f"{request:13}  {said}", flush=True)
            line.events.clear()
    except Ended:
        sys.exit("the interface ended")
    except OSError as error:
        sys.exit(f"cannot open {given.path}: {error.strerror}")


if __name__ == "__main__":
    main()
