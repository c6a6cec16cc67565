"""Clients of firmd's sockets, and the limits of each.

A client sends lines for firm and gets firm's replies in the same order. firmd's own messages begin with `?`, which no
reply of firm begins with. firmd also answers a line itself if the line would change nothing and firm's reply is known.
"""

from __future__ import annotations

import asyncio
import socket
import struct
import time
from collections import deque
from dataclasses import dataclass
from pathlib import Path
from typing import TYPE_CHECKING, NamedTuple

from ..common import lines
from ..common.bounds import NOTE_BYTES, BATCH_BYTES, UNREAD_PIECE, BytesBySocket, UnansweredLines, ByteLimits, Unread
from ..common.faults import Faults, say
from ..common.fd_pressure import Held
from .budgets import Accounts
from .fair_selector import FairSelector
from .rights import TenantLines, Rights, LocalReply, few_lines, with_reply
from .tenant_queues import LineBatch
from .turns import MIN_BYTES, MAX_BYTES, TURN_SECONDS, SocketTurns

if TYPE_CHECKING:
    from .stream import Stream

KEPT_BYTES = lines.MAX_BYTES + 2  # of an incomplete line: one this long is too long, with or without a CR at its end
# Of a read, in the system: bytes that were sent one by one take a microsecond each.
RECEIVE_SECONDS, MIN_RECEIVED = 0.00002, 16
LINES_AHEAD = 8_192  # unanswered lines of a client, from which on it is not read
BYTES_AHEAD = 32_768  # of a client's lines in the queues, from which on it is not read
HIGH_WATER = 262_144  # bytes of replies that a client has not read, from which on it is not read
LINGER_SECONDS = 60.0  # for a closed client to read the rest
STOP_SECONDS = 5.0  # for all clients to do so at the end of the service
CREDENTIALS = struct.Struct("iII")  # of a connection's other end: process, user, group

TOO_MANY = b"? too-many-clients: %d are connected\n"
UNREAD = b"? unread-replies: more than %d bytes were not read; further replies are dropped\n"
STOPPING = b"? stopping: no longer accepting lines\n"
UNREAD_EXCEEDED = "unread replies exceed their bound: closing the newest client of the socket with most"


@dataclass(frozen=True, slots=True)
class ClientLimits:
    clients: int  # of a socket
    unread_bytes: int  # unread replies of a client
    unread_together: ByteLimits  # unread replies of several clients
    unanswered: ByteLimits  # unanswered lines


class PendingLines(NamedTuple):
    """A batch that has left its queue and is unanswered."""

    sent: int  # the client's lines that firm has got, up to and including this batch
    size: int  # bytes of memory


@dataclass(frozen=True, slots=True)
class Note:
    """firmd's own line, to be sent after a number of firm's replies."""

    after: int  # this many replies, counted from the client's first
    text: bytes


class Clients:
    """All connected clients."""

    def __init__(
        self, taker: Stream, limits: ClientLimits, accounts: Accounts, faults: Faults, selector: FairSelector
    ) -> None:
        self.taker, self.limits, self.faults, self.selector = taker, limits, faults, selector
        self.connected: dict[Client, None] = {}  # the newest last
        self.buffer = memoryview(bytearray(MAX_BYTES))  # of all clients: each read empties it
        self.turns, self.counters = SocketTurns(accounts), accounts.counters
        self.unread = BytesBySocket(limits.unread_together)
        self.backlog = UnansweredLines(limits.unanswered)
        selector.pending = self.backlog.account.bytes.__getitem__
        self._full_queues = taker.queues.full
        taker.queues.on_room = self._choose_readings

    def add_unread(self, socket: bytes, size: int) -> None:
        """Count unread bytes of a socket's clients, and close some clients past the bound."""
        self.unread.add(socket, size)
        if size <= 0 or not self.unread.is_over(socket):
            return
        for client in self.connected:  # some may have read meanwhile
            client.count_unread()
        while (fullest := self.unread.fullest()) is not None:
            newest = next((one for one in reversed(self.connected) if one.has_unread(fullest)), None)
            if newest is None:
                break
            self.faults.count("unread", UNREAD_EXCEEDED)
            newest.drop()

    def add_unanswered(self, socket: bytes, size: int) -> None:
        """Count unanswered bytes of a socket's clients, and stop reading them at the bound."""
        if self.backlog.add(socket, size):
            self._choose_readings()

    def holds(self, socket: bytes, queue: bytes) -> bool:
        """Return whether a socket's clients with lines in this queue must not be read."""
        return queue in self._full_queues or self.backlog.is_full(socket)

    def of_sockets(self) -> Held:
        """Return the connections of each socket."""
        found: Held = {}
        for client in self.connected:
            found.setdefault(client.rights.socket.decode(), []).append(client.transport)
        return found

    def unread_bytes(self) -> int:
        return sum(client.unread_bytes() for client in self.connected)

    def _choose_readings(self) -> None:
        for client in self.connected:
            try:
                client.choose_reading()
            except Exception as error:  # only this client is lost: the others must be read again
                client.drop()
                self.faults.note("client", error)

    def stop_reading(self) -> None:
        for client in self.connected:
            client.stop_reading()

    async def close(self) -> None:
        """Close all connections; each has some seconds to read its replies."""
        for client in list(self.connected):
            client.close_with(STOPPING if client.is_answered else b"")  # the journal may have an unanswered line
        ends = asyncio.get_running_loop().time() + STOP_SECONDS
        while self.connected and asyncio.get_running_loop().time() < ends:
            await asyncio.sleep(0.01)


class Client(asyncio.BufferedProtocol):
    """One client's connection."""

    transport: asyncio.Transport

    def __init__(self, clients: Clients, rights: Rights) -> None:
        self._clients = clients
        self.rights = rights
        self.socket = rights.socket
        self.sender = self.socket  # and its user, once it is connected
        self._of_socket = clients.turns.socket(self.socket)
        self.expected = 0
        self._file = -1
        self._most = MAX_BYTES  # of a read
        self._receiving = 0.0  # when it began
        self._half = b""  # of a line
        self._rest = b""  # lines that were read, for further turns
        self._queue = b""  # of the lines that were accepted last
        self._waiting = self._waiting_bytes = 0  # lines in that queue, and the bytes of all that wait
        self._later: deque[LineBatch | LocalReply] = deque()  # lines after those, of other queues or none
        self._sent = self._answered = 0  # lines that firm has got, and their replies
        self._notes: deque[Note] = deque()
        self._pending: deque[PendingLines] = deque()  # in order
        self._unread = Unread()  # replies that are not with the transport yet, which has at most one piece
        self._left = 0  # bytes of unread replies as last counted, with the transport's
        self._has_ended = False  # one side sends no more
        self._lingering: asyncio.TimerHandle | None = None  # its end, once it is closed
        self._is_stopped = self._is_full = self._is_reading = self._waits_turn = False

    def connection_made(self, transport: asyncio.BaseTransport) -> None:
        if not isinstance(transport, asyncio.Transport):
            raise TypeError(f"{transport!r} is not a stream")
        self.transport = transport
        try:
            self._begin()
        except Exception as error:
            self._clients.faults.note("client", error)
            transport.abort()

    def _begin(self) -> None:
        self._file = self.transport.get_extra_info("socket").fileno()
        self._clients.selector.join(self._file, self.socket)
        self.transport.set_write_buffer_limits(high=0)  # the rest of a write is stored here, and counted
        self.sender = b"%b:%d" % (self.socket, user_of(self.transport))
        self._is_reading = True
        most = self._clients.limits.clients
        if self._of_socket.count >= most:
            self._clients.counters.reply(self.socket, b"", TOO_MANY, 1)
            self.close_with(TOO_MANY % most)
        self._of_socket.count += 1
        self._clients.connected[self] = None
        # Not at once: asyncio is about to begin reading, and early versions of 3.11 ignore a pause before that.
        asyncio.get_running_loop().call_soon(self.choose_reading)

    def connection_lost(self, error: Exception | None) -> None:
        self._has_ended = True
        self._clients.selector.leave(self._file)
        if self._lingering is not None:  # it would keep the connection in memory
            self._lingering.cancel()
        if self._waits_turn:  # so would its turn, which may be long in coming
            self._of_socket.waiting.remove(self)
        self._leave(b"")
        if self in self._clients.connected:
            del self._clients.connected[self]
            self._of_socket.count -= 1
        self._unread.clear()
        self.count_unread()

    # Lines

    def get_buffer(self, sizehint: int) -> memoryview:
        self._receiving = time.monotonic()
        return self._clients.buffer[: min(self._of_socket.may_read, self._most)]

    def buffer_updated(self, nbytes: int) -> None:
        began = time.monotonic()
        if began - self._receiving > RECEIVE_SECONDS:
            self._most = max(MIN_RECEIVED, nbytes // 2)
        elif nbytes >= self._most < MAX_BYTES:
            self._most *= 2
        data = self._half + self._clients.buffer[:nbytes]
        end = data.rfind(b"\n") + 1
        # The first bytes of a line suffice to detect that it is too long.
        self._half = data[end : end + KEPT_BYTES]
        self._clients.turns.read(self, self._of_socket, nbytes)
        if end:
            self._take(data[:end])
            self.choose_reading()
        if nbytes >= MIN_BYTES:
            self._of_socket.fit(nbytes, time.monotonic() - began)

    def take_turn(self, waits: bool) -> None:
        self._waits_turn = waits
        if self._rest and not waits:
            try:
                self._go_on()
            except Exception as error:  # only this client is lost, as after an error in a read
                return self._report("cannot accept lines", error)
            self._close_at_end()
        self.choose_reading()

    def eof_received(self) -> bool:
        """Drop an unfinished line, and answer the others."""
        self._has_ended = True
        self.choose_reading()
        self._close_at_end()
        return True

    def given(self, batch: LineBatch, reply: bytes | None) -> None:
        self._waiting -= batch.count
        self._waiting_bytes -= len(batch.text)
        if reply is None:
            self._sent += batch.count
        else:
            self._note(reply * batch.count)
        self._pending.append(PendingLines(self._sent, batch.cost))
        if reply is not None:
            self._settle()
        while self._later and not (self._waiting and self._is_other(self._later[0])):
            line = self._later.popleft()
            if isinstance(line, LocalReply):
                self._clients.add_unanswered(self.socket, -NOTE_BYTES)
            self._enter(line)
        if not self._is_reading:
            self.choose_reading()
            self._close_at_end()

    def answered(self, replies: bytes, count: int) -> None:
        self._answered += count
        self._settle()
        if self._notes and self._notes[0].after <= self._answered:
            replies = self._with_notes(replies, count)
        self._write(replies)
        if not self._is_reading or self._left > HIGH_WATER:
            self.choose_reading()
            self._close_at_end()

    def _take(self, text: bytes) -> None:
        """Accept whole lines, in further turns if they take long."""
        plain = self.rights.plain_parts(text) if not self._rest else None
        if plain is not None:
            self._take_parts(plain)
        else:
            self._leave(self._rest + with_reply(text))
            self._go_on()

    def _go_on(self) -> None:
        """Accept as many of the remaining lines as the socket's turn allows."""
        turn = self._of_socket
        while self._rest and turn.spent < TURN_SECONDS and not self._is_held():
            began, some = time.monotonic(), few_lines(self._rest)
            self._leave(self._rest[len(some) :])
            self._take_parts(self.rights.parts(some))
            turn.spent += time.monotonic() - began

    def _leave(self, rest: bytes) -> None:
        self._of_socket.rest += len(rest) - len(self._rest)
        self._rest = rest

    def _take_parts(self, parts: list[TenantLines | LocalReply]) -> None:
        for part in parts:
            if isinstance(part, LocalReply):
                self._clients.counters.reply(self.socket, b"", part.reply, part.lines)
                line: LineBatch | LocalReply = part
            else:
                cost = len(part.text) + BATCH_BYTES
                line = LineBatch(self, part.text, part.lines, part.queue, part.is_round, cost)
                self._waiting_bytes += len(part.text)
                self._clients.add_unanswered(self.socket, cost)
            if self._later or self._waiting and self._is_other(line):
                self._later.append(line)
                if isinstance(line, LocalReply):  # a batch is counted already
                    self._clients.add_unanswered(self.socket, NOTE_BYTES)
            else:
                self._enter(line)

    def _is_other(self, line: LineBatch | LocalReply) -> bool:
        """Return whether it belongs to another queue than the line before it."""
        return isinstance(line, LocalReply) or line.queue != self._queue

    def _enter(self, line: LineBatch | LocalReply) -> None:
        if isinstance(line, LocalReply):
            self._note(line.reply * line.lines)
        else:
            self._queue = line.queue
            self._waiting += line.count
            self._clients.taker.take(line)

    def _note(self, text: bytes) -> None:
        if self.is_answered:
            self._write(text)
        else:
            self._notes.append(Note(self._sent, text))
            self._clients.add_unanswered(self.socket, NOTE_BYTES + len(text))

    def _settle(self) -> None:
        """Release the memory of answered lines."""
        while self._pending and self._pending[0].sent <= self._answered:
            self._clients.add_unanswered(self.socket, -self._pending.popleft().size)

    def _with_notes(self, replies: bytes, count: int) -> bytes:
        """Return the replies, with the notes between and after them."""
        lines = [reply + b"\n" for reply in replies.split(b"\n")[:-1]]
        first = self._answered - count
        parts: list[bytes] = []
        done = first
        while self._notes and self._notes[0].after <= self._answered:
            note = self._notes.popleft()
            parts += [*lines[done - first : note.after - first], note.text]
            done = note.after
            self._clients.add_unanswered(self.socket, -NOTE_BYTES - len(note.text))
        return b"".join(parts + lines[done - first :])

    def choose_reading(self) -> None:
        is_stopped = self._is_stopped or self._has_ended or self._waits_turn
        reads = not is_stopped and not self._is_held()
        if reads and self._rest:
            return self._clients.turns.wait(self, self._of_socket)
        if reads != self._is_reading and not self.transport.is_closing():
            self._is_reading = reads
            if reads:
                self.transport.resume_reading()
            else:
                self.transport.pause_reading()

    def _is_held(self) -> bool:
        """Return whether it must not be read until it has read, or received, some replies."""
        waiting = self._sent - self._answered + self._waiting + len(self._notes) + len(self._later)
        is_ahead = waiting > LINES_AHEAD or self._waiting_bytes > BYTES_AHEAD or self._left > HIGH_WATER
        return is_ahead or self._clients.holds(self.socket, self._queue if self._waiting else b"")

    def stop_reading(self) -> None:
        self._is_stopped = True
        self.choose_reading()

    # Replies

    def pause_writing(self) -> None:
        self._is_full = True

    def resume_writing(self) -> None:
        # Not at once: if a write fails before this call returns, asyncio ends the connection twice.
        asyncio.get_running_loop().call_soon(self._go_on_writing)

    def _go_on_writing(self) -> None:
        self._is_full = False
        try:
            self._flush()
            self.count_unread()
            self.choose_reading()
        except Exception as error:
            self._report("cannot write replies", error)

    def _report(self, message: str, error: Exception) -> None:
        """Report an error that asyncio doesn't catch to the loop's handler, and close the connection."""
        context = {"message": message, "exception": error, "protocol": self, "transport": self.transport}
        asyncio.get_running_loop().call_exception_handler(context)

    def has_unread(self, socket: bytes) -> bool:
        """Return whether it belongs to the socket and has unread replies."""
        return self._left > 0 and self.socket == socket

    def unread_bytes(self) -> int:
        return self._unread.size + self.transport.get_write_buffer_size()

    def count_unread(self) -> None:
        """Count the change of its unread bytes since the last call."""
        left = self.unread_bytes()
        if left != self._left:
            more, self._left = left - self._left, left
            self._clients.add_unread(self.socket, more)

    def drop(self) -> None:
        self.transport.abort()
        self._unread.clear()
        self.count_unread()

    @property
    def is_answered(self) -> bool:
        """Return whether firm has answered all its lines."""
        return self._sent == self._answered

    def close_with(self, text: bytes) -> None:
        """Send a last text, and close once the client has read it, or after LINGER_SECONDS."""
        if self.transport.is_closing():
            return
        self._has_ended = True
        self._unread.add(text)
        self._close()
        self._lingering = asyncio.get_running_loop().call_later(LINGER_SECONDS, self.transport.abort)

    def _write(self, text: bytes) -> None:
        if self.transport.is_closing():
            return
        if len(text) <= UNREAD_PIECE and not self._is_full:
            self.transport.write(text)
        else:
            self._unread.add(text)
            self._flush()
        self.count_unread()
        most = self._clients.limits.unread_bytes
        if self._left > most and not self.transport.is_closing():
            say(f"closed a client: more than {most} bytes of unread replies")
            self._clients.counters.reply(self.socket, b"", UNREAD, 1)
            self.close_with(UNREAD % most)

    def _flush(self) -> None:
        """Write as much as the transport accepts at once."""
        while self._unread.size and not self._is_full and not self.transport.is_closing():
            self.transport.write(self._unread.take())

    def _close_at_end(self) -> None:
        is_idle = self.is_answered and not (self._waiting or self._later or self._rest)
        if self._has_ended and is_idle:
            self._close()

    def _close(self) -> None:
        """Close once it has read everything."""
        while self._unread.size and not self.transport.is_closing():
            self.transport.write(self._unread.take())
        self.transport.close()
        self.count_unread()


def user_of(transport: asyncio.BaseTransport) -> int:
    """Return the user at the other end."""
    credentials = transport.get_extra_info("socket").getsockopt(socket.SOL_SOCKET, socket.SO_PEERCRED, CREDENTIALS.size)
    _, user, _ = CREDENTIALS.unpack(credentials)
    return int(user)


@dataclass(frozen=True, slots=True)
class Listener:
    """A socket to listen on."""

    path: Path
    rights: Rights
