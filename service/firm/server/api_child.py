"""Keeps firm-api running, the process that serves HTTP and JSON and has the queues.

firmd serves lines even while firm-api fails, and restarts it after a pause that grows while it keeps failing. firm-api
gets the text of the configuration that firmd has checked, since the file may have changed meanwhile.
"""

from __future__ import annotations

import asyncio
import os
import signal
import subprocess
from contextlib import suppress

from ..common import logs
from ..common.capabilities import raised
from ..common.faults import Faults, say
from ..common.programs import program_words
from ..common.settings import SettingsFile

STEADY_SECONDS, SHORTEST_PAUSE, MAX_PAUSE = 60.0, 0.1, 30.0  # after this long a restart is soon again; pauses
STOP_SECONDS = 15.0  # for its end: its queues get ten


class ApiChild:
    """firm-api, with a configuration file."""

    def __init__(self, config: SettingsFile, faults: Faults) -> None:
        self._words = [
            *program_words("firm-api", "firm.api.daemon"),
            "run",
            f"--config={config.path}",
            f"--parent={os.getpid()}",
        ]
        self._text, self._faults = config.text.encode(), faults
        self._loop = asyncio.get_running_loop()
        self._process: subprocess.Popen[bytes] | None = None
        self._gone = asyncio.Event()
        self._is_ending = False
        self._began, self._pause = 0.0, 0.0

    def start(self) -> None:
        """Start it. If that fails, try again later."""
        if self._is_ending:
            return
        self._began = self._loop.time()
        environment = {name: value for name, value in os.environ.items() if name != "NOTIFY_SOCKET"}
        try:
            with raised(), os.fdopen(os.memfd_create("configuration"), "r+b") as file:
                file.write(self._text)
                file.seek(0)
                self._process = subprocess.Popen(
                    self._words,
                    stdin=file,
                    stdout=subprocess.DEVNULL,
                    env=environment,
                    process_group=0,  # firmd alone handles signals of the terminal
                )
            watched = os.pidfd_open(self._process.pid)
        except OSError as error:
            self._faults.note("api", error)
            if self._process is not None:  # its end would go unnoticed
                self._process.kill()
                self._process.wait()
                self._process = None
            self._loop.call_later(self._next_pause(), self.start)
            return
        self._gone.clear()
        self._loop.add_reader(watched, self._take_end, watched)

    def _take_end(self, watched: int) -> None:
        """Handle its end."""
        self._loop.remove_reader(watched)
        os.close(watched)
        status = self._process.wait() if self._process is not None else 0
        self._process = None
        self._gone.set()
        if not self._is_ending:
            pause = self._next_pause()
            say(f"firm-api exited with status {status}: restarting in {pause:g} s", logs.ERROR)
            self._loop.call_later(pause, self.start)

    def _next_pause(self) -> float:
        is_steady = self._loop.time() - self._began > STEADY_SECONDS
        self._pause = SHORTEST_PAUSE if is_steady else min(max(2 * self._pause, SHORTEST_PAUSE), MAX_PAUSE)
        return self._pause

    def end(self) -> None:
        """Request its end. All that it has acknowledged is on the disk."""
        self._is_ending = True
        if self._process is not None:
            self._process.send_signal(signal.SIGTERM)

    async def close(self) -> None:
        """Wait for its end, for a limited time."""
        self.end()
        if self._process is None:
            return
        with suppress(TimeoutError):
            async with asyncio.timeout(STOP_SECONDS):
                await self._gone.wait()
        if self._process is not None:
            say(f"firm-api has not exited after {STOP_SECONDS:.0f} s: killing it")
            self._process.kill()
            await self._gone.wait()
