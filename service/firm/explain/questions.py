"""Questions that run firm's programs: why a task is where it is, what lines would do, a state before a past round.

Each runs in a separate process at a low priority (`process.py`), one at a time. Users take turns.
"""

from __future__ import annotations

import asyncio
import json
import os
import signal
import sys
from contextlib import suppress
from pathlib import Path
from typing import Any

from ..common.books import Book
from ..common.child import OVER_TIME
from ..common.refused import Refused
from .book_states import copy_of, text_of

MAX_SECONDS, MAX_OF_USER = 120.0, 4  # for an answer, including its turn; waiting questions of a user
PACKAGE = Path(__file__).resolve().parents[2]
Answer = dict[str, Any]


class Questions:
    """Runs one question at a time, and serves users in turn."""

    def __init__(self) -> None:
        self._all = asyncio.Lock()
        self._turns: dict[int, asyncio.Lock] = {}  # by user
        self._asking: dict[int, int] = {}

    async def ask(self, user: int, ask: str, book: Book | None, **fields: Any) -> Answer:
        """Return the answer for a tenant with these rows, or with a past state from the journal. Raise `Refused`."""
        if self._asking.get(user, 0) >= MAX_OF_USER:
            raise Refused("too-many-questions", f"question limit exceeded: {MAX_OF_USER} of yours are waiting")
        self._asking[user] = self._asking.get(user, 0) + 1
        try:
            async with asyncio.timeout(MAX_SECONDS), self._turns.setdefault(user, asyncio.Lock()), self._all:
                text = await asyncio.to_thread(text_of, copy_of(book)) if book is not None else None
                found = await answer({"ask": ask, "text": text, **fields})
        except TimeoutError:
            raise Refused("too-long", f"no answer after {MAX_SECONDS:g} s") from None
        finally:
            self._asking[user] -= 1
            if not self._asking[user]:
                del self._asking[user], self._turns[user]
        if "error" in found:
            raise Refused(found.pop("error"), found.pop("text"), **found)
        return found


async def answer(asked: Answer) -> Answer:
    """Run a process for a question, and return its answer. The process and its children end with the question."""
    process = await asyncio.create_subprocess_exec(
        *[sys.executable, "-P", "-m", "firm.explain.process", str(os.getpid())],
        stdin=asyncio.subprocess.PIPE,
        stdout=asyncio.subprocess.PIPE,
        stderr=asyncio.subprocess.PIPE,
        env={**os.environ, "PYTHONPATH": str(PACKAGE)},
        process_group=0,
    )
    try:
        answered, errors = await process.communicate(json.dumps(asked).encode())
    finally:
        with suppress(ProcessLookupError):
            os.killpg(process.pid, signal.SIGKILL)
    if process.returncode in OVER_TIME:
        raise Refused("too-long", "time limit exceeded: the question was stopped")
    if process.returncode:
        last = errors.decode(errors="replace").strip().splitlines()[-1:] or [f"status {process.returncode}"]
        raise Refused("failed", last[0])
    found: Answer = json.loads(answered)
    return found
