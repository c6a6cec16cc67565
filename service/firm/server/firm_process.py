"""The process of firm, and the pipes to it."""

from __future__ import annotations

import fcntl
import os
import subprocess
from collections.abc import Sequence
from contextlib import suppress

from ..common.faults import Exit, Fault, reason

PIPE_BYTES = 1_048_576  # of a pipe to or from firm, if the system allows it


class FirmProcess:
    """A running firm."""

    def __init__(self, words: Sequence[str]) -> None:
        pipe = subprocess.PIPE
        try:
            # In a separate process group, since firmd alone handles signals of the terminal. A session would get a
            # share of the processors regardless of its processes' niceness.
            self.process = subprocess.Popen(words, stdin=pipe, stdout=pipe, stderr=pipe, bufsize=0, process_group=0)
        except OSError as error:
            raise Fault(Exit.FIRM, f"cannot start {words[0]}: {reason(error)}") from error
        stdin, stdout, stderr = self.process.stdin, self.process.stdout, self.process.stderr
        if stdin is None or stdout is None or stderr is None:
            raise Fault(Exit.INTERNAL, "firm was started without pipes")
        self.input, self.output, self._errors = stdin, stdout, stderr
        for file in (stdin, stdout):
            with suppress(OSError):  # if the system allows less, the size stays
                fcntl.fcntl(file, fcntl.F_SETPIPE_SZ, PIPE_BYTES)
        os.set_blocking(stdout.fileno(), False)

    def give(self, text: bytes) -> None:
        """Write all of the text; wait while firm does not read."""
        rest = memoryview(text)
        while rest:
            rest = rest[os.write(self.input.fileno(), rest) :]

    def close_input(self) -> None:
        self.input.close()

    def end(self) -> str | None:
        """Wait for its end. Return its failure, if any."""
        errors = self._errors.read().decode(errors="replace").strip()
        status = self.process.wait()
        if not status:
            return None
        return (f"status {status}" if status > 0 else f"signal {-status}") + (f", and said: {errors}" if errors else "")
