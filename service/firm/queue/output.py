"""What a task has written, as it comes."""

from __future__ import annotations

import asyncio
import os
import stat
from collections.abc import AsyncIterator, Callable
from dataclasses import dataclass
from functools import partial
from typing import Protocol

from ..common.faults import reason
from ..common.threads import Threads
from .answers import Caller
from .core import Core
from ..common.refused import Refused
from .rows import Attempt, Task

PIECE_BYTES = 48 * 1024
LOOK_SECONDS = 0.1  # between two looks at a file that is followed
HIDDEN = (FileNotFoundError, NotADirectoryError, PermissionError)


@dataclass(frozen=True, slots=True)
class Output:
    """A file that a task writes to."""

    path: str
    owners: frozenset[int]  # the task's user, and the one whose process it is: whose files may be shown
    is_chosen: bool  # by the user, rather than the run's own

    def open(self) -> int:
        """The file. The queue may read what the task's user perhaps may not, as by a link, so a file of others is
        refused like one that is not there. Nothing else is opened: a terminal would become the queue's own, a device
        may start something. Raises OSError."""
        place = os.open(self.path, os.O_PATH | os.O_CLOEXEC | (0 if self.is_chosen else os.O_NOFOLLOW))
        try:
            found = os.fstat(place)
            if not stat.S_ISREG(found.st_mode) or found.st_uid not in self.owners:
                raise PermissionError
            return os.open(f"/proc/self/fd/{place}", os.O_RDONLY | os.O_CLOEXEC | os.O_NOCTTY)
        finally:
            os.close(place)

    def refusal(self, error: OSError) -> Refused:
        """Says of what is another's as little as of what is not there."""
        if isinstance(error, HIDDEN):
            return Refused("no-output", f"{self.path} is not a file of the task's user that the queue can read")
        return Refused("no-output", f"{self.path}: {reason(error)}")


def piece_of(output: Output, start: int) -> bytes:
    """What a file has from an offset on, at most a piece; raises OSError."""
    file = output.open()
    try:
        return os.pread(file, PIECE_BYTES, start)
    finally:
        os.close(file)


class Reading(Protocol):
    """Who reads an output."""

    async def turn(self) -> None:
        """Returns once a further piece may be read, after those of others."""

    def goes_on(self) -> bool:
        """Whether more may be written that is wanted."""

    async def read(self, work: Callable[[], bytes]) -> bytes:
        """What some work with the file gives, which may hang; raises TimeoutError then."""


async def pieces(output: Output, start: int, reading: Reading) -> AsyncIterator[tuple[int, bytes]]:
    """A file from an offset on, in pieces with their offsets; once it is read, what is added, while it goes on."""
    at = start
    while True:
        await reading.turn()
        is_last = not reading.goes_on()  # asked before the file is read, so that all which was written till then is
        try:
            piece = await reading.read(partial(piece_of, output, at))
        except OSError as error:
            if isinstance(error, TimeoutError) or at == start and is_last:  # what hangs is not tried again
                raise output.refusal(error) from error
            piece = b""
        if piece:
            yield at, piece
            at += len(piece)
        elif is_last:
            return
        else:
            await asyncio.sleep(LOOK_SECONDS)


def output_of(task: Task, attempt: Attempt) -> Output:
    """The output of an attempt; of an older queue's nobody knows whose process it was, but the agent chose the path."""
    if attempt.host is not None:
        raise Refused("elsewhere", f"{attempt.host}:{attempt.output}", host=attempt.host, path=attempt.output)
    if attempt.output is None:
        raise Refused("no-output", f"attempt {attempt.number} of {task.name} has no output")
    is_chosen = task.submission.spec.output is not None
    runs_as = attempt.runs_as if attempt.runs_as is not None or is_chosen else os.geteuid()
    owners = {task.submission.user if runs_as is None else runs_as}
    if runs_as == os.geteuid():  # no other user's agent: it could name files of the task's user that it may not read
        owners.add(task.submission.user)
    return Output(attempt.output, frozenset(owners), is_chosen)


@dataclass(frozen=True, slots=True)
class OutputFollower:
    """Reads the output of an attempt, until that has ended."""

    caller: Caller
    core: Core
    token: str
    threads: Threads
    user: int  # whose file it is, which may hang

    async def turn(self) -> None:
        await self.caller.turn()

    async def read(self, work: Callable[[], bytes]) -> bytes:
        return await self.threads.do(self.user, work)

    def goes_on(self) -> bool:
        return self.token in self.core.rows.open and not self.caller.is_gone()
