"""Removes the folders of old runs whose end the queue has acknowledged.

A folder without an output, as of a run that wrote to a file of its user, is removed after a day. One with an output
stays as long as the queue keeps the task in its history.
"""

from __future__ import annotations

import shutil
from collections.abc import Collection, Iterator
from contextlib import suppress
from pathlib import Path

SWEEP_SECONDS = 600.0
SHORT_SECONDS, HISTORY_SECONDS = 86_400.0, 30 * 86_400.0  # the latter until the queue has reported its own
MAX_AT_ONCE = 10_000  # folders removed by one sweep


def sweep(runs: Path, needed: Collection[str], seconds: float, now: float) -> int:
    """Remove folders of runs that are old at this time, except those needed. Return their number."""
    count = 0
    for folder in folders(runs):
        if f"{folder.parent.name}/{folder.name}" in needed or folder.name in needed:
            continue
        with suppress(OSError):  # the next sweep tries again
            if is_over(folder, seconds, now):
                shutil.rmtree(folder)
                count += 1
        if count >= MAX_AT_ONCE:
            break
    return count


def folders(runs: Path) -> Iterator[Path]:
    """Yield the folders of runs of all states."""
    with suppress(OSError):
        for history in runs.iterdir():
            if history.is_dir() and "." not in history.name:
                with suppress(OSError):
                    yield from (folder for folder in history.iterdir() if folder.is_dir())


def is_over(folder: Path, seconds: float, now: float) -> bool:
    """Return whether a run ended long ago. Without a status it has surely ended only if it never began."""
    status, output = folder / "status", folder / "output"
    ended = status if status.exists() else folder
    if ended is folder and (folder / "process").exists() and (folder / "process").read_bytes() != b"null":
        return False
    has_output = output.exists() and output.stat().st_size > 0
    return now - ended.stat().st_mtime > max(SHORT_SECONDS, seconds if has_output else 0.0)
