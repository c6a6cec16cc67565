"""Capabilities of a process beyond its user's rights (capabilities(7)).

A unit grants them to the service; only one of its programs needs each, and the others drop it.
"""

from __future__ import annotations

import ctypes
from collections.abc import Iterator
from contextlib import contextmanager

PR_CAP_AMBIENT, RAISE, LOWER = 47, 2, 3  # of prctl
CAP_DAC_READ_SEARCH = 2  # to read outputs of tasks in their users' folders


def withhold() -> None:
    """Drop the right to read all files for programs that are started from now on."""
    ambient(LOWER)


@contextmanager
def raised() -> Iterator[None]:
    """Start programs with this right, if this process has it."""
    ambient(RAISE)
    try:
        yield
    finally:
        ambient(LOWER)


def ambient(change: int) -> int:
    """Change the right in the set that programs inherit. A change that the system refuses changes nothing."""
    return int(ctypes.CDLL(None).prctl(PR_CAP_AMBIENT, change, CAP_DAC_READ_SEARCH, 0, 0))
