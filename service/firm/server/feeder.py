"""Keeps the viewer running, the process that answers readers, and sends it the feed.

firmd never waits for the viewer, so that readers don't slow writers down, and buffers a bounded amount for it. A slow
viewer gets no more lines until it has read the buffer, and then all rows anew. firmd replaces a viewer that dies or
doesn't respond.
"""

from __future__ import annotations

import asyncio
import os
import socket
import subprocess
from collections import deque
from collections.abc import Callable, Sequence
from contextlib import suppress
from dataclasses import dataclass
from functools import partial
from itertools import islice

from ..common.books import Books
from ..common.bounds import MEBIBYTE
from ..common.faults import Faults, say
from ..common.programs import program_words
from .feed import BEGIN, END, LINES, LOAD, STATUS, TENANT, begin_text, lines_text, load_text, message, status_text
from .feed import tenant_text
from .load import Load
from .observers import Status

MAX_BEHIND = 16 * MEBIBYTE  # of messages for a viewer: some hundred thousand lines
AHEAD = MEBIBYTE  # of messages, from which on no rows are added
PIECES = 64  # messages to send together
PAUSE_SECONDS = 0.25  # before a slow viewer gets all rows anew
SILENT_SECONDS = 60.0  # without a heartbeat, after which a viewer is killed
START_SECONDS = 60.0  # more, for the first heartbeat
PATIENCE_SECONDS = 1.0  # for the end of a viewer that has closed its feed
STOP_SECONDS = 2.0  # for the last lines, and the viewer's end
STEADY_SECONDS, SHORTEST_PAUSE, MAX_PAUSE = 10.0, 0.1, 5.0  # after this long a viewer is restarted at once; pauses
POLL_SECONDS = 0.01  # between two polls of a process


class Pipe:
    """Messages that a viewer has not read yet."""

    def __init__(self, end: socket.socket, on_room: Callable[[], None], on_end: Callable[[], None]) -> None:
        self._end, self._on_room, self._on_end = end, on_room, on_end
        self._loop = asyncio.get_running_loop()
        self._messages: deque[bytes] = deque()
        self._sent = 0  # bytes of the first
        self.size = 0  # bytes of all, including the sent part of the first
        self.heartbeat = self._loop.time() + START_SECONDS  # time of the viewer's last heartbeat
        self._is_due = False  # messages are sent soon, or once there is room
        end.setblocking(False)
        self._loop.add_reader(end, self._read_heartbeat)

    def put(self, text: bytes) -> None:
        self._messages.append(text)
        self.size += len(text)
        self._send_soon()

    def forget(self) -> None:
        """Discard all messages, except one that is partly sent."""
        while len(self._messages) > bool(self._sent):
            self.size -= len(self._messages.pop())
        self._send_soon()

    def finish(self) -> None:
        """Send the end of the feed."""
        with suppress(OSError):
            self._end.shutdown(socket.SHUT_WR)

    def close(self) -> None:
        if self._end.fileno() >= 0:
            self._loop.remove_reader(self._end)
            self._loop.remove_writer(self._end)
            self._end.close()

    def _send_soon(self) -> None:
        if not self._is_due:
            self._is_due = True
            self._loop.call_soon(self._send)

    def _send(self) -> None:
        if self._end.fileno() < 0:
            return
        try:
            while self._messages:
                first = memoryview(self._messages[0])[self._sent :]
                self._remove_sent(self._end.sendmsg([first, *islice(self._messages, 1, PIECES)]))
        except (BlockingIOError, InterruptedError):
            self._loop.add_writer(self._end, self._send)
        except Exception:  # after any error another viewer is needed
            self._on_end()
            return
        else:
            self._loop.remove_writer(self._end)
            self._is_due = False
        self._on_room()

    def _remove_sent(self, count: int) -> None:
        self._sent += count
        while self._messages and self._sent >= len(self._messages[0]):
            size = len(self._messages.popleft())
            self._sent -= size
            self.size -= size

    def _read_heartbeat(self) -> None:
        try:
            if self._end.recv(4096):
                self.heartbeat = self._loop.time()
                return
        except (BlockingIOError, InterruptedError):
            return
        except OSError:
            pass
        self._on_end()


@dataclass(frozen=True, slots=True)
class ViewerSources:
    """The sources of the feed."""

    books: Books
    status: Status
    faults: Faults
    state: str  # the state's id


class Feeder:
    """Sends the feed to a viewer: an observer of each line after the replay."""

    def __init__(self, sources: ViewerSources, view: socket.socket, log_format: str) -> None:
        self._sources, self._view, self._log_format = sources, view, log_format
        self._load = Load()  # as last sent
        self._loop = asyncio.get_running_loop()
        self._process: subprocess.Popen[bytes] | None = None
        self._pipe: Pipe | None = None
        self._is_feeding = False  # whether lines are sent: the rows that were sent need them
        self._rows: deque[str] | None = None  # the tenants whose rows remain to be sent; None: all are
        self._is_closing = False
        self._began = self._pause = 0.0

    def start(self) -> None:
        """Start a viewer. If that fails, try again later."""
        if self._is_closing:
            return
        self._began = self._loop.time()
        try:
            end, other = socket.socketpair()
            with other:
                self._process = self._spawn(other)
        except OSError as error:
            self._sources.faults.note("viewer", error)
            self._loop.call_later(self._next_pause(), self.start)
            return
        self._pipe = Pipe(end, self._go_on, self._lose)
        self._begin()

    def replied_all(self, lines: Sequence[bytes], replies: Sequence[bytes], seconds: float | None) -> None:
        if self._is_feeding:
            self._send(LINES, lambda: lines_text(lines, replies, seconds))

    def send_status(self) -> None:
        """Send firmd's status; called periodically."""
        if self._is_feeding:
            self._send(STATUS, lambda: status_text(self._sources.status, self._sources.faults.counts))
        silent = self._loop.time() - self._pipe.heartbeat if self._pipe is not None else 0.0
        if silent > SILENT_SECONDS and self._process is not None:
            say(f"the viewer, process {self._process.pid}, does not respond: killing it")
            self._process.kill()

    def send_load(self, load: Load) -> None:
        """Send firmd's load; called periodically, less often than the status, as it is longer."""
        self._load = load
        if self._is_feeding:
            self._send(LOAD, partial(load_text, load))

    async def close(self) -> None:
        """Send the rest, and wait some seconds for the viewer's end."""
        self._is_closing = True
        ends = self._loop.time() + STOP_SECONDS
        while self._pipe is not None and self._pipe.size and self._loop.time() < ends:
            await asyncio.sleep(POLL_SECONDS)
        if self._pipe is not None:
            self._pipe.finish()
        while self._process is not None and self._process.poll() is None and self._loop.time() < ends:
            await asyncio.sleep(POLL_SECONDS)
        if self._process is not None:
            self._process.kill()
            self._process.wait()
        if self._pipe is not None:
            self._pipe.close()
        self._view.close()

    # The feed.

    def _begin(self) -> None:
        """Send the current rows, one tenant at a time: firmd serves lines in between."""
        if self._pipe is not None and not self._is_feeding:
            self._is_feeding, self._rows = True, deque(self._sources.books.tenants)
            self._send(BEGIN, lambda: begin_text(self._sources.books, self._sources.state))
            self.send_status()
            self.send_load(self._load)

    def _go_on(self) -> None:
        """Continue, since there is room for further rows, or a slow viewer has read the rest."""
        if self._pipe is None:
            return
        if not self._is_feeding:
            if not self._pipe.size:
                self._loop.call_later(PAUSE_SECONDS, self._begin)
        elif self._rows is not None and self._pipe.size < AHEAD:
            book = self._sources.books.tenants.get(self._rows.popleft()) if self._rows else None
            if book is not None:  # otherwise it was retired meanwhile
                self._send(TENANT, partial(tenant_text, book))
            if self._is_feeding and not self._rows:
                self._rows = None
                self._send(END, bytes)

    def _send(self, kind: int, text: Callable[[], bytes]) -> None:
        try:
            if self._pipe is not None:
                self._pipe.put(message(kind, text()))
                if self._pipe.size > MAX_BEHIND:
                    self._end_feeding()
        except Exception as error:  # the viewer lacks a part now
            self._end_feeding()
            self._sources.faults.note("viewer", error)

    def _end_feeding(self) -> None:
        """Send no more lines to a slow viewer until it has read the rest."""
        self._sources.status.viewer_gaps += 1
        self._is_feeding, self._rows = False, None
        if self._pipe is not None:
            self._pipe.forget()

    # The process.

    def _spawn(self, end: socket.socket) -> subprocess.Popen[bytes]:
        """Start the process in a separate process group, since firmd alone handles signals of the terminal. A session
        would get a share of the processors regardless of its processes' niceness."""
        files = [end.fileno(), self._view.fileno()]
        options = [f"--parent={os.getpid()}", f"--log-format={self._log_format}"]
        return subprocess.Popen(
            [*program_words("firm-viewer", "firm.viewer.daemon"), ",".join(map(str, files)), *options],
            stdin=subprocess.DEVNULL,
            stdout=subprocess.DEVNULL,
            pass_fds=files,
            process_group=0,
        )

    def _lose(self) -> None:
        """Handle a viewer that closed its end."""
        if self._pipe is not None:
            self._pipe.close()
            self._pipe = None
            self._is_feeding, self._rows = False, None
            self._reap(self._loop.time() + PATIENCE_SECONDS)

    def _reap(self, ends: float) -> None:
        if self._process is None or self._is_closing:
            return
        status = self._process.poll()
        if status is None:
            if self._loop.time() > ends:
                self._process.kill()
            self._loop.call_later(POLL_SECONDS, self._reap, ends)
            return
        self._process = None
        self._sources.status.viewer_restarts += 1
        pause = self._next_pause()
        say(f"the viewer exited with status {status}: restarting in {pause:g} s")
        self._loop.call_later(pause, self.start)

    def _next_pause(self) -> float:
        is_steady = self._loop.time() - self._began > STEADY_SECONDS
        self._pause = 0.0 if is_steady else min(max(2 * self._pause, SHORTEST_PAUSE), MAX_PAUSE)
        return self._pause
