"""The viewer: the process that answers readers. firmd starts it and sends it the feed, and never waits for it.

It serves the view socket at a low priority. It ends with firmd, or if it can't follow the feed.
"""

from __future__ import annotations

import argparse
import asyncio
import signal
import socket
import sys
from contextlib import suppress

from ..common import logs
from ..common.books import Books
from ..common.child import end_with, give_way
from ..common.fd_pressure import note_uncaught, source_of
from ..common.service_manager import allow_files
from ..common.version import add_version
from ..server.feed import Messages
from ..server.observers import Status
from .follower import Follower
from .view import MOST_CLIENTS, serve_view
from .view_model import ViewModel

NICENESS = 5
OUT_OF_MEMORY_SCORE = 500  # of 1,000: if the host runs out of memory, this process ends before firmd and firm
READ_BYTES = 1 << 18
BEAT_SECONDS = 1.0  # between heartbeats
END_SECONDS = 0.5  # for watchers to read the last lines


class Viewer:
    """Follows the feed and serves the view."""

    def __init__(self, feed: socket.socket, view: socket.socket) -> None:
        self._feed, self._view = feed, view
        self._loop = asyncio.get_running_loop()
        self._messages = Messages()
        self._shown = ViewModel(Books(), Status(0.0, 0, 0, 0, 0, 0, 0, 0), "")
        self._follower = Follower(self._shown, self._begin_serving)
        self._group = asyncio.TaskGroup()
        self._is_serving = False
        self._ended: asyncio.Future[None] = self._loop.create_future()
        self._servers: list[asyncio.Server] = []
        feed.setblocking(False)

    async def run(self) -> None:
        """Follow firmd until its end."""
        self._loop.set_exception_handler(self._note_error)
        self._loop.add_reader(self._feed, self._read)
        async with self._group:
            beating = self._group.create_task(self._beat())
            try:
                await self._ended
            finally:
                beating.cancel()
                self._loop.remove_reader(self._feed)
        await self._close()

    def _read(self) -> None:
        try:
            piece = self._feed.recv(READ_BYTES)
            for kind, text in self._messages.add(piece):
                self._follower.take(kind, text)
            if not piece:
                self._end(None)
        except BlockingIOError:
            pass
        except Exception as error:  # its rows would be wrong from here on
            self._end(error)

    def _end(self, error: Exception | None) -> None:
        if self._ended.done():
            return
        if error is None or isinstance(error, ConnectionError):
            self._ended.set_result(None)
        else:
            self._ended.set_exception(error)

    def _begin_serving(self) -> None:
        if not self._is_serving:
            self._is_serving = True
            self._group.create_task(self._serve())

    async def _serve(self) -> None:
        try:
            self._servers.append(await serve_view(self._view, self._shown))
        except Exception as error:
            self._end(error)

    async def _beat(self) -> None:
        """Send heartbeats to firmd."""
        while True:
            with suppress(OSError):  # firmd does not read them just now
                self._feed.send(b".")
            await asyncio.sleep(BEAT_SECONDS)

    async def _close(self) -> None:
        """Close all connections, once watchers have read the last lines or after END_SECONDS."""
        for server in self._servers:
            server.close()
        for watcher in list(self._shown.watchers):
            watcher.finish()
        ends = self._loop.time() + END_SECONDS
        while self._shown.watchers and self._loop.time() < ends:
            await asyncio.sleep(0.01)

    def _note_error(self, loop: asyncio.AbstractEventLoop, context: dict[str, object]) -> None:
        source = source_of(context)
        is_views = isinstance(source, asyncio.StreamReaderProtocol) or "View.serve" in repr(source)
        note_uncaught(self._shown.faults, "view" if is_views else "viewer", context)


def sockets_of(words: str) -> tuple[socket.socket, socket.socket]:
    """Return the feed and the view, by their descriptors."""
    try:
        feed, view = (socket.socket(fileno=int(word)) for word in words.split(","))
    except (ValueError, OSError) as error:
        raise argparse.ArgumentTypeError("not firmd's descriptors; only firmd starts this program") from error
    return feed, view


def parser() -> argparse.ArgumentParser:
    found = argparse.ArgumentParser(prog="firm-viewer", description="Answer firmd's readers; only firmd starts it.")
    add_version(found)
    found.add_argument("sockets", metavar="FEED,VIEW", type=sockets_of, help="descriptors")
    found.add_argument("--parent", type=int, required=True, metavar="PID", help="process to end with")
    logs.add_form(found)
    return found


def main() -> int:
    given = parser().parse_args()
    # SIGTERM and SIGINT may stop the whole service: the viewer ends with the feed, which has the last lines. SIGTTOU
    # would stop it at a message on a terminal.
    for number in (signal.SIGTERM, signal.SIGINT, signal.SIGTTOU):
        signal.signal(number, signal.SIG_IGN)
    logs.begin("firm-viewer", given.log_format)
    end_with(given.parent)
    give_way(NICENESS, OUT_OF_MEMORY_SCORE)
    allow_files(MOST_CLIENTS)

    async def run() -> None:
        await Viewer(*given.sockets).run()

    try:
        asyncio.run(run())
    except Exception as error:
        logs.tell(logs.ERROR, "internal error of the viewer", error)
        return 1
    return 0


if __name__ == "__main__":
    sys.exit(main())
