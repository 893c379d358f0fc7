"""What all benches wait by."""

from __future__ import annotations

import time
from typing import Callable


def wait_for(holds: Callable[[], object], seconds: float = 10.0, pause: float = 0.02) -> bool:
    """Whether something comes to hold before so many seconds are over. It is asked again after each pause."""
    end = time.monotonic() + seconds
    while not holds():
        if time.monotonic() > end:
            return False
        time.sleep(pause)
    return True
