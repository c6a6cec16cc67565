"""Faults of the programs: those that end one, with its exit status, and those that it survives and counts."""

from __future__ import annotations

import time
import traceback
from collections import Counter
from collections.abc import Callable
from enum import IntEnum

from . import logs

MAX_KINDS = 100  # of faults to report
RESTORE = "restore the state from a copy"  # if a part of it is missing or changed
REPEAT_SECONDS = 60.0  # before a persisting fault is reported again
MAX_IN_A_ROW = 8  # faults of a reader: the loop calls it again at once, so further ones would be a busy loop


class Exit(IntEnum):
    """Exit statuses, as `firmd --help` lists them."""

    SERVED = 0
    INTERNAL = 1  # an error of firmd itself
    WORDS = 2
    ROSTER = 3
    STATE = 4  # the state's folder, its lock or its journal can't be read or written now
    JOURNAL = 5  # the journal is damaged, or firm's replies differ from the stored ones
    FIRM = 6  # firm can't be started, or ended by itself
    SOCKET = 7


class Fault(Exception):
    """The reason for a program's end, printed on standard error."""

    def __init__(self, status: Exit, text: str) -> None:
        super().__init__(text)
        self.status = status


def fault_in(error: BaseException) -> Fault | None:
    """Return the first fault of an error, or of a group of errors, if any."""
    if isinstance(error, BaseExceptionGroup):
        return next(filter(None, map(fault_in, error.exceptions)), None)
    return error if isinstance(error, Fault) else None


class Faults:
    """Faults that end a connection at most: counted by part, and each kind reported once with its traceback."""

    def __init__(self) -> None:
        self.counts: Counter[str] = Counter()
        self.give_up: Callable[[Fault], None] = lambda fault: None  # ends the service, after answers to accepted lines
        self._reported: set[tuple[str, ...]] = set()

    def count(self, part: str, text: str) -> None:
        """Count a fault without a Python exception."""
        self.counts[part] += 1
        self._report((part, text), f"{text}; further ones are only counted")

    def note(self, part: str, error: BaseException) -> None:
        self.counts[part] += 1
        frames = traceback.extract_tb(error.__traceback__)
        kind = (part, type(error).__name__, *[f"{frame.filename}:{frame.lineno}" for frame in frames])
        text = f"fault of {part}, which at most ends a connection; further ones are only counted"
        self._report(kind, text, error)

    def _report(self, kind: tuple[str, ...], text: str, error: BaseException | None = None) -> None:
        if kind not in self._reported and len(self._reported) < MAX_KINDS:
            self._reported.add(kind)
            logs.tell(logs.WARNING, text, error, part=kind[0])


class GuardedReader:
    """A callback for a readable file. If it fails repeatedly, the service ends."""

    def __init__(self, part: str, read: Callable[[], None], faults: Faults, give_up: Callable[[Fault], None]) -> None:
        self._part, self._read, self._faults, self._give_up = part, read, faults, give_up
        self._in_a_row = 0

    def __call__(self) -> None:
        try:
            self._read()
            self._in_a_row = 0
        except Exception as error:
            self._in_a_row += 1
            if self._in_a_row < MAX_IN_A_ROW:
                self._faults.note(self._part, error)
            else:
                self._give_up(Fault(Exit.INTERNAL, f"a reader of {self._part} fails each time: {error!r}"))


class Repeated:
    """Reports repeated faults to the operator, each kind once a minute."""

    def __init__(self) -> None:
        self._at: dict[str, float] = {}  # time of the last report, by kind

    def say(self, text: str, level: int = logs.WARNING, kind: str = "") -> None:
        """Report a fault, unless its kind (by default, its text) was reported within a minute."""
        now = time.monotonic()
        self._at = {kind: at for kind, at in self._at.items() if now - at < REPEAT_SECONDS}
        if (kind or text) not in self._at:
            self._at[kind or text] = now
            say(text, level)


def reason(error: OSError) -> str:
    """Return the system's message without its number."""
    return error.strerror or str(error)


def say(text: str, level: int = logs.WARNING) -> None:
    """Print a message for the operator; ignore a failure to print."""
    logs.tell(level, text)
