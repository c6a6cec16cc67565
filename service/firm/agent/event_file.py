"""The file of an agent's events, on a disk that may be full, fail or hang."""

from __future__ import annotations

import asyncio
import errno
import json
import os
import threading
from collections.abc import Callable, Sequence
from contextlib import suppress
from pathlib import Path
from queue import SimpleQueue
from typing import Any, TypeVar
from zlib import crc32

from ..common.files import replace_synced

AT = "at"  # an event's field: the place where its write began; everything before that place was synced
HANG_SECONDS = 5.0  # for which a work is waited for

Result = TypeVar("Result")


class Hangs(OSError):
    """A disk gives no answer; once it does, it may have done what it was asked."""


SUM = b', "sum": "%08x"}\n'  # the end of an object: its checksum without that field, as supervisor.c writes it too
SUM_BYTES = len(SUM % 0)


def sealed(row: dict[str, Any]) -> bytes:
    """Return an object as a line of JSON with a checksum."""
    text = json.dumps(row).encode()
    return text[:-1] + SUM % crc32(text)


def opened(line: bytes) -> dict[str, Any] | None:
    """Return the object of a line, None if it is damaged."""
    text = line[:-SUM_BYTES] + b"}"
    if line[-SUM_BYTES:] != SUM % crc32(text):
        return None
    with suppress(ValueError):
        row = json.loads(text.decode(errors="replace"))  # as a command's name may be no text
        return row if isinstance(row, dict) else None
    return None


class EventFile:
    """Whole writes that the disk has taken count, and nothing is written behind the remains of others."""

    def __init__(self, path: Path, size: int) -> None:
        """So much of it counts. Raises OSError where the rest can't be taken back."""
        self._path = path
        self._file = os.open(path, os.O_RDWR | os.O_CREAT | os.O_APPEND, 0o644)
        self.size, self._last = size, 0  # and that of the last write
        self._has_more = True  # perhaps, which is taken back first
        self._take_back()

    def write(self, rows: Sequence[dict[str, Any]]) -> None:
        """Write rows. Raise OSError, with no row written, if the disk fails."""
        self._take_back()
        self._has_more = True
        text = b"".join(sealed({**row, AT: self.size}) for row in rows)
        left = memoryview(text)
        try:
            while left:
                left = left[os.write(self._file, left) :]
            os.fdatasync(self._file)
        except OSError:
            with suppress(OSError):
                self._take_back()
            raise
        self.size += len(text)
        self._last = len(text)
        self._has_more = False

    def drop(self) -> None:
        """Discard the last write."""
        self.size -= self._last
        self._last, self._has_more = 0, True
        with suppress(OSError):
            self._take_back()

    def replace(self, rows: Sequence[dict[str, Any]]) -> None:
        """Replace the file's rows. Raise OSError, with the file unchanged, if the disk fails."""
        text = b"".join(sealed({**row, AT: 0}) for row in rows)
        replace_synced(self._path, text, 0o644)
        file = os.open(self._path, os.O_RDWR | os.O_APPEND)
        os.close(self._file)
        self._file, self.size, self._last, self._has_more = file, len(text), 0, False

    def _take_back(self) -> None:
        if self._has_more:
            os.ftruncate(self._file, self.size)
            self._has_more = False


class ThreadWork:
    """A thread's work, which may hang."""

    def __init__(self, do: Callable[[], object], undo: Callable[[], None] = lambda: None) -> None:
        self._do, self._undo = do, undo
        self._lock, self._is_over = threading.Lock(), threading.Event()
        self._is_dropped = False
        self._error: Exception | None = None

    def run(self) -> None:
        try:
            self._do()
        except Exception as error:
            self._error = error
        with self._lock:
            self._is_over.set()
        if self._is_dropped and self._error is None:
            self._undo()

    def wait(self, seconds: float) -> None:
        """Returns at its end; raises its error, or `Hangs` after so many seconds."""
        if not self._is_over.wait(seconds):
            raise Hangs(errno.ETIMEDOUT, f"the disk has not answered for {HANG_SECONDS:g} s")
        if self._error is not None:
            raise self._error

    def drop(self) -> bool:
        """Has it undone once it is done, before any other work; False where it is done already."""
        with self._lock:
            self._is_dropped = not self._is_over.is_set()
            return self._is_dropped


async def aside(do: Callable[[], Result]) -> Result:
    """Return what a function returns, or raise what it raises, in a thread for which no end of the program waits."""
    loop = asyncio.get_running_loop()
    done: asyncio.Future[Result] = loop.create_future()

    def take(result: Callable[[], None]) -> None:
        with suppress(RuntimeError):  # the loop is closed
            loop.call_soon_threadsafe(lambda: None if done.done() else result())

    def run() -> None:
        try:
            found = do()
        except Exception as error:
            fault = error  # which Python forgets with this clause
            take(lambda: done.set_exception(fault))
        else:
            take(lambda: done.set_result(found))

    threading.Thread(target=run, name="aside", daemon=True).start()
    return await done


class Aside:
    """A thread for one work after another, for which no end of the program waits."""

    def __init__(self) -> None:
        self._works: SimpleQueue[ThreadWork] = SimpleQueue()
        self._is_there = False

    def begin(self, work: ThreadWork) -> ThreadWork:
        if not self._is_there:
            threading.Thread(target=self._serve, name="disk", daemon=True).start()
            self._is_there = True
        self._works.put(work)
        return work

    def _serve(self) -> None:
        while True:
            self._works.get().run()
