"""What an agent knows of its runs: a file of events, each written before it is acted on, and what follows from them.

Notes of open runs stand beside it, a file for each, so a lost file of events loses no run. They are not synced: they
matter only where the events alone are lost.

A run's folder is `runs/NAME/TASK.RUN`: NAME is drawn with the first event, RUN counts all runs. It may be removed once
the run has ended.

Each event has a checksum and the place where its write began. So a start tells damage from a write that a power cut
has torn: no later write follows a torn one. The file is rewritten once it has grown, with open runs and unacknowledged
events alone.
"""

from __future__ import annotations

import fcntl
import json
import re
import secrets
import time
from collections.abc import Iterator, Sequence
from contextlib import suppress
from dataclasses import asdict, dataclass, field
from functools import partial
from itertools import count
from pathlib import Path
from typing import Any, NamedTuple

from ..common.files import open_lock, require_own
from ..common.logs import INFO, WARNING, tell
from .event_file import AT, HANG_SECONDS, Aside, EventFile, Hangs, ThreadWork, opened

EVENTS = "events.jsonl"
OPEN = "open"  # a folder with the start of each run that is open, for where the events are put back or moved away
DROPPED = "dropped"  # the event of a run that can't be asked for any more, and is left to its lease
ENDS = frozenset({"ended", "lost", "void", DROPPED})  # events that end a run
REPORTED = "reported"  # the field of an event that the queue had acknowledged before the file was written anew
TOKEN_BYTES = 16  # so many that no two of the runs of all times are the same
FIRST = frozenset({"state", "start", "keep"})  # events on which something rests that a restart would not find out

SLOW_SECONDS = 0.1  # of a write, after which what may wait is not written for as long again
MAX_FILE = 2**20  # bytes of the file before it is shortened; more if so much is needed

_BEGINNING = re.compile(rb'\{"(?:time|event)":')  # of an event

Event = dict[str, Any]


class StateError(Exception):
    """A state folder that can't be used."""


@dataclass(frozen=True)
class Key:
    """One task of firm; its name alone may come again."""

    task: str
    line: int  # that submitted it, counted from the beginning of firmd's state
    state: str  # firmd's, by its id


@dataclass
class Run:
    """One execution of a task."""

    number: int
    key: Key
    job: str
    machine: str
    folder: str  # below the folder of runs
    token: str  # that no other run has, one of an older history neither
    has_run: bool = False  # its supervisor has said so
    ends: str | None = None  # why its end is asked for
    is_kept: bool = False  # though firm will have no row of it
    slot: int | None = None  # of its machine, from 0; None: begun by an agent that did not count them

    @property
    def name(self) -> str:
        return f"{self.key.task}.{self.number}"

    def __str__(self) -> str:
        return f"{self.key.task} on {self.machine} (run {self.number})"

    def tell(self, text: str, level: int = INFO) -> None:
        """Tells the operator of it."""
        tell(level, f"{self}{text}", run=self.number, task=self.key.task, job=self.job, machine=self.machine)


@dataclass
class History:
    """What follows from the events."""

    name: str = ""  # of this state
    runs: dict[int, Run] = field(default_factory=dict)  # begun and not known to have ended
    last_run: int = 0
    rewrites: int = 0  # of the file

    def free_slot(self, machine: str) -> int:
        """Return the lowest slot of a machine that no open run has."""
        used = {run.slot for run in self.runs.values() if run.machine == machine}
        return next(slot for slot in count() if slot not in used)

    def take(self, event: Event) -> None:
        kind = event["event"]
        if kind == "state":
            self.name, self.last_run = event["name"], event.get("last_run", self.last_run)
            self.rewrites = event.get("rewrites", 0)
        elif kind == "start":
            number = event["run"]
            self.last_run = max(self.last_run, number)
            key = Key(event["task"], event["line"], event["state"])
            place = (event["job"], event["machine"], event["folder"], event["token"])
            self.runs[number] = Run(number, key, *place, slot=event.get("slot"))
        elif kind == "end":
            self.runs[event["run"]].ends = event["why"]
        elif kind == "keep":
            self.runs[event["run"]].is_kept = True
        elif kind == "running":
            self.runs[event["run"]].has_run = True
        elif kind in ENDS:
            del self.runs[event["run"]]


def events_of(path: Path) -> Iterator[tuple[Event, int]]:
    """Yield the events of a file, each with its end, up to a torn write. Raise `StateError` at damage."""
    with open(path, "rb") as file:
        end = 0
        for number, line in enumerate(file, 1):
            event = opened(line)
            if event is None:
                if is_synced_past(line + file.read(), end):
                    raise StateError(f"{EVENTS}: line {number} is not an event")
                return
            end += len(line)
            yield event, end


def is_synced_past(text: bytes, place: int) -> bool:
    """Return whether a later event in the text was written once its first one was synced."""
    for found in _BEGINNING.finditer(text, 1):
        event = opened(text[found.start() : text.find(b"\n", found.start()) + 1])
        if event is not None and event[AT] > place:
            return True
    return False


def start_of(run: Run) -> Event:
    """Return the event of a run's start, with the fields that a restart needs."""
    place: Event = {"job": run.job, "machine": run.machine, "folder": run.folder, "token": run.token}
    return {"event": "start", "run": run.number, **asdict(run.key), **place, "slot": run.slot}


class Observer:
    """Follows the events, each with its run as it was before."""

    def begin(self) -> None:
        """Start again: all events follow."""

    def heard(self, event: Event, run: Run | None) -> None:
        """Follow an event."""

    def pending(self) -> list[tuple[Event, Run]]:
        """Return the events that a restart must report again, with their runs."""
        return []


class Entry(NamedTuple):
    """An event as it is written."""

    event: Event
    note: Path | None  # of the run that it begins or ends


class Late(NamedTuple):
    """A write without an outcome yet."""

    work: ThreadWork
    entries: int  # how many of the first that wait it writes
    rows: list[Event] | None = None  # of which the file consists then


class State:
    """The state folder of one agent, which holds it alone.

    It outlasts a disk that is full, slow or hangs: what a restart would find out again waits in memory until it is
    written, and nobody waits for the disk for long.
    """

    def __init__(self, folder: Path, owner: str, observer: Observer | None = None) -> None:
        """Raises `StateError`, and OSError where the folder can't be read and written."""
        require_own(folder)
        folder.mkdir(mode=0o750, parents=True, exist_ok=True)
        require_own(folder)  # another may have made it meanwhile
        self.lock = open_lock(folder / "lock")
        try:
            fcntl.flock(self.lock, fcntl.LOCK_EX | fcntl.LOCK_NB)
        except BlockingIOError:
            raise StateError(f"{folder}: another agent has it") from None
        self.folder, self.history = folder.absolute(), History()
        self.observer = observer or Observer()
        self._unwritten: list[Entry] = []  # that wait for the disk
        self._late: Late | None = None
        self._is_failing = False  # as was told
        self._rests = 0.0  # until when the disk is not waited for again, by `time.monotonic`
        self._max_file = MAX_FILE
        self._aside = Aside()
        (folder / OPEN).mkdir(exist_ok=True)
        unknown = self._replay({path.name for path in (folder / OPEN).iterdir()})
        if not self.history.name:
            self.record("state", name=f"{owner}-{secrets.token_hex(4)}")
        self.regained = self._regain(unknown)
        tokens = {run.token for run in self.history.runs.values()}
        for path in (folder / OPEN).iterdir():
            if path.name not in tokens:
                path.unlink()
        self._shorten()

    def _replay(self, tokens: set[str]) -> set[str]:
        """Takes in the events of the file; those of the tokens that no start has."""
        path, size = self.folder / EVENTS, 0
        for number, (event, end) in enumerate(events_of(path) if path.exists() else (), 1):
            try:
                self._take(event)
                if event["event"] == "start":
                    tokens.discard(str(event.get("token")))
            except (KeyError, TypeError) as error:
                raise StateError(f"{EVENTS}: line {number} doesn't follow from those before: {error!r}") from None
            size = end
        self._file = EventFile(path, size)
        return tokens

    def _take(self, event: Event) -> None:
        run = self.history.runs.get(event.get("run", 0))
        self.history.take(event)
        self.observer.heard(event, run)

    def _regain(self, tokens: set[str]) -> list[Run]:
        """Takes in runs that are open and are not among the events."""
        starts = [start for token in tokens if (start := self._start_of(token)) is not None]
        found = []
        for start in sorted(starts, key=lambda start: int(start["run"])):
            again: Event = {**start, "run": self.history.last_run + 1}
            self.record(**again)
            found.append(self.history.runs[self.history.last_run])
        return found

    def _start_of(self, token: str) -> Event | None:
        """The start of an open run, None where its note is torn."""
        try:
            start: Event = {**json.loads((self.folder / OPEN / token).read_text())}
            History().take(start)
        except (ValueError, TypeError, KeyError):
            return None
        return start if (start["event"], start.get("token")) == ("start", token) else None

    def start(self, key: Key, row: Event) -> Run:
        """Records a run with a number of its own, before it is made; no restart can make it twice."""
        number = self.history.last_run + 1
        place = {"folder": f"{self.history.name}/{key.task}.{number}", "token": secrets.token_hex(TOKEN_BYTES)}
        slot = self.history.free_slot(row["machine"])
        self.record("start", run=number, **asdict(key), **row, **place, slot=slot)
        return self.history.runs[number]

    def record(self, event: str, **more: Any) -> None:
        """Writes an event, and returns once it is on the disk; raises OSError where it can't be."""
        told: Event = {"time": round(time.time(), 3), "event": event, **more}
        entry = Entry(told, self._note_of(told))
        if event not in FIRST and time.monotonic() < self._rests:  # many in a turn would take longer than a lease
            self._unwritten.append(entry)
        else:
            self._record_now(entry)
        self._take(told)
        self._shorten()

    def _record_now(self, entry: Entry) -> None:
        is_first = entry.event["event"] in FIRST
        try:
            self.write_waiting()
            self._write([entry], stays=not is_first)
        except OSError as error:
            if is_first:
                raise
            if not self._is_failing:
                self._is_failing = True
                tell(WARNING, f"{self.folder}: {error}; nothing is started until it can be written")
            self._unwritten.append(entry)

    @property
    def waits(self) -> bool:
        """Whether something waits for the disk."""
        return bool(self._unwritten) or self._late is not None

    def write_waiting(self) -> None:
        """Writes the events that wait for the disk; raises OSError where it does not take them."""
        self._take_late()
        if self._unwritten:
            self._write(self._unwritten)
            self._unwritten = []
        if self._is_failing:
            self._is_failing = False
            tell(INFO, f"{self.folder}: it is written again")

    def _take_late(self) -> None:
        """Takes in the outcome of a late write; raises `Hangs` while there is none."""
        if self._late is None:
            return
        try:
            self._late.work.wait(0)
        except Hangs:
            raise
        except OSError:
            pass  # it is written anew
        else:
            del self._unwritten[: self._late.entries]
            self._shortened(self._late.rows)
        self._late = None

    # Shortening

    def _shorten(self) -> None:
        """Rewrite a long file with the events that a restart needs. Keep the old file if the disk fails."""
        if self.waits or self._file.size <= self._max_file:
            return
        rows = self._rows()
        self._max_file = 2 * self._file.size  # it is tried again then
        work = self._aside.begin(ThreadWork(partial(self._file.replace, rows)))
        try:
            work.wait(HANG_SECONDS)
        except Hangs:
            self._late = Late(work, 0, rows)
        except OSError as error:
            tell(WARNING, f"{self.folder}: {error}; {EVENTS} can't be shortened")
        else:
            self._shortened(rows)

    def _rows(self) -> list[Event]:
        """Return the events that a restart needs."""
        history, pending = self.history, self.observer.pending()
        told = {run.number for event, run in pending if event["event"] == "running"}
        rows: list[Event] = []
        for run in history.runs.values():
            rows.append(start_of(run))
            if run.has_run and run.number not in told:
                rows.append({"event": "running", "run": run.number, REPORTED: True})
            rows += [{"event": "end", "run": run.number, "why": run.ends}] if run.ends is not None else []
            rows += [{"event": "keep", "run": run.number}] if run.is_kept else []
        first: Event = {"event": "state", "name": history.name, "last_run": history.last_run}
        rows.insert(0, {**first, "rewrites": history.rewrites + 1})
        begun = set(history.runs)
        for event, run in pending:
            if run.number not in begun:
                begun.add(run.number)
                rows.append(start_of(run))
                rows += [{"event": "end", "run": run.number, "why": run.ends}] if run.ends is not None else []
            rows.append(event)
        return rows

    def _shortened(self, rows: list[Event] | None) -> None:
        """Follow a rewrite of the file: its events, and those that wait for the disk, are counted again."""
        if rows is None:
            return
        self._max_file = max(MAX_FILE, 2 * self._file.size)
        self.history.rewrites += 1
        self.observer.begin()
        history = History()
        for event in [*rows, *(entry.event for entry in self._unwritten)]:
            run = history.runs.get(event.get("run", 0))
            history.take(event)
            self.observer.heard(event, run)

    def _write(self, entries: Sequence[Entry], stays: bool = True) -> None:
        """All of the events are on the disk, or none counts. A late write counts once it is done if it stays, otherwise
        never."""
        do, began = partial(self._write_now, tuple(entries)), time.monotonic()
        work = self._aside.begin(ThreadWork(do, partial(self._drop, tuple(entries))))
        try:
            work.wait(HANG_SECONDS)
        except Hangs:
            if not stays and not work.drop():
                return work.wait(0)
            self._late = Late(work, len(entries) if stays else 0)
            raise
        finally:
            if (seconds := time.monotonic() - began) > SLOW_SECONDS:
                self._rests = time.monotonic() + seconds

    def _write_now(self, entries: Sequence[Entry]) -> None:
        self._file.write([entry.event for entry in entries])
        try:
            for event, note in entries:
                if note is not None and event["event"] == "start":
                    note.write_text(json.dumps(event))
        except OSError:
            self._drop(entries)
            raise
        for event, note in entries:
            if note is not None and event["event"] in ENDS:
                with suppress(OSError):  # the next start removes it
                    note.unlink()

    def _drop(self, entries: Sequence[Entry]) -> None:
        """Has what was written last count for nothing."""
        self._file.drop()
        for event, note in entries:
            if note is not None and event["event"] == "start":
                with suppress(OSError):
                    note.unlink()

    def _note_of(self, event: Event) -> Path | None:
        run = self.history.runs.get(event.get("run", 0))
        token = event["token"] if event["event"] == "start" else run.token if run is not None else None
        return self.folder / OPEN / token if token is not None else None
