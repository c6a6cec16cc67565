"""Waits for other processes, and the slowness of a busy host."""

from __future__ import annotations

import os
import sys
import time

LEAST_PAUSE, MAX_PAUSE = 0.005, 0.1  # seconds
SHARE = 20  # of the time that it took already
# A program that takes some time of a processor.
WORK = "import time\nwhile time.process_time() < 0.3: pass"


def slowness() -> float:
    """Return this host's present slowness: a program's time as a multiple of its processor time, 1 on an idle host.

    It alone can judge a time that depends on the host's load.
    """
    began = time.monotonic()
    _, _, used = os.wait4(os.posix_spawn(sys.executable, [sys.executable, "-c", WORK], os.environ), 0)
    return max(1.0, (time.monotonic() - began) / float(used.ru_utime + used.ru_stime))


def pause_since(began: float) -> None:
    """Pause before a further look: longer pauses after a longer wait, as each look has a cost."""
    time.sleep(min(max((time.monotonic() - began) / SHARE, LEAST_PAUSE), MAX_PAUSE))
