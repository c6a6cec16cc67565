"""Locks a folder for one process."""

from __future__ import annotations

import fcntl
import os
from pathlib import Path
from typing import IO

from .faults import Exit, Fault, reason
from .files import make_folder, open_lock, require_own

LOCK = "lock"


class InUse(Fault):
    """Another process has locked the folder."""


def lock_alone(folder: Path, mode: int = 0o750) -> IO[bytes]:
    """Lock a folder for this process, until it ends or closes this file. Make a missing folder."""
    try:
        require_own(folder)
        make_folder(folder, mode)
        require_own(folder)  # another may have made it meanwhile
        lock = open_lock(folder / LOCK)
    except OSError as error:
        raise Fault(Exit.STATE, f"cannot use the state {folder}: {reason(error)}") from error
    try:
        fcntl.flock(lock, fcntl.LOCK_EX | fcntl.LOCK_NB)
    except BlockingIOError as error:
        holder = lock.read(20).decode(errors="replace").strip()
        raise InUse(Exit.STATE, f"the state {folder} is in use by process {holder or 'unknown'}") from error
    try:
        lock.truncate(0)
        lock.write(f"{os.getpid()}\n".encode())
    except OSError as error:
        raise Fault(Exit.STATE, f"cannot use the state {folder}: {reason(error)}") from error
    return lock
