"""Accepts connections in small batches, so that a flood at one socket leaves descriptors for the others."""

from __future__ import annotations

import asyncio
import socket
import ssl
from collections import Counter
from collections.abc import Callable

from .faults import Fault, Faults, GuardedReader
from .fd_pressure import SHORTAGES, FdPressure

AT_ONCE = 1  # connection of a socket in a turn of the loop, since one costs more than some reads
HANDSHAKE_SECONDS, MAX_HANDSHAKES = 10.0, 64  # of TLS; past it the oldest of the address with the most is closed
RETRY_SECONDS = 0.01  # until a closed connection has released its descriptor


class Acceptor:
    """A listening socket."""

    def __init__(
        self,
        listening: socket.socket,
        name: str,
        protocol: Callable[[], asyncio.BaseProtocol],
        relief: FdPressure,
        faults: Faults,
    ) -> None:
        self._socket, self._name, self._protocol = listening, name, protocol
        self._relief, self._faults = relief, faults
        self._loop = asyncio.get_running_loop()
        self._tasks: dict[asyncio.Task[None], str] = {}  # by the clients' addresses, the newest last
        self._is_closed = False
        self.tls: ssl.SSLContext | None = None
        self._reader = GuardedReader("client", self._accept, faults, self._give_up)
        listening.setblocking(False)
        self._listen()

    def close(self) -> None:
        self._is_closed = True
        if self._socket.fileno() >= 0:
            self._loop.remove_reader(self._socket)
        self._socket.close()
        for task in self._tasks:
            task.cancel()

    def _give_up(self, fault: Fault) -> None:
        self.close()
        self._faults.give_up(fault)

    def _listen(self) -> None:
        if not self._is_closed:
            self._loop.add_reader(self._socket, self._reader)

    def _accept(self) -> None:
        try:
            for _ in range(AT_ONCE):
                connection, place = self._socket.accept()
                task = self._loop.create_task(self._begin(connection))
                self._tasks[task] = place[0] if self.tls is not None else ""
                task.add_done_callback(self._tasks.pop)
                if self.tls is not None and len(self._tasks) > MAX_HANDSHAKES:
                    ((most, _),) = Counter(self._tasks.values()).most_common(1)
                    next(one for one, address in self._tasks.items() if address == most).cancel()
        except (BlockingIOError, InterruptedError, ConnectionAbortedError):
            pass
        except OSError as error:
            if error.errno not in SHORTAGES:
                raise
            if not self._relief.make_room(self._name, self._socket):
                self._loop.call_later(RETRY_SECONDS, self._listen)
                self._loop.remove_reader(self._socket)

    async def _begin(self, connection: socket.socket) -> None:
        seconds = None if self.tls is None else HANDSHAKE_SECONDS
        try:
            await self._loop.connect_accepted_socket(
                self._protocol, connection, ssl=self.tls, ssl_handshake_timeout=seconds
            )
        except Exception as error:
            connection.close()
            if self.tls is None or not isinstance(error, OSError):  # anything that a client sends instead of TLS
                self._faults.note("client", error)
        except asyncio.CancelledError:
            connection.close()
            raise
