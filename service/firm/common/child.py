"""The first steps of a process that firmd starts: it will end with firmd and run at a lower priority."""

from __future__ import annotations

import ctypes
import os
import signal
from contextlib import suppress
from pathlib import Path

PR_SET_PDEATHSIG = 1  # of prctl
OVER_TIME = (-signal.SIGXCPU, -signal.SIGKILL)  # statuses of one that took too long


def end_with(parent: int) -> None:
    """End this process with its parent, however that ends."""
    ctypes.CDLL(None, use_errno=True).prctl(PR_SET_PDEATHSIG, signal.SIGKILL)
    if os.getppid() != parent:
        os.kill(os.getpid(), signal.SIGKILL)


def give_way(niceness: int, out_of_memory_score: int) -> None:
    """Give other processes priority, and have this one end first if the host runs out of memory."""
    with suppress(OSError):
        os.nice(niceness)
        Path("/proc/self/oom_score_adj").write_text(str(out_of_memory_score))
