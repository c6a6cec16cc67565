"""Messages to the operator: Python's `logging`, on standard error, in one form.

Control characters are escaped, and further lines of a message are indented, so no message steers a terminal or
resembles another one. Where standard error is systemd's journal, each line begins with its priority. Messages in words
have no time, as systemd's journal adds it. An object of JSON has `time`, `level` (`info` to `critical`), `program`,
`message`, and if known `part` (as in `firm_faults_total`), `run`, `task`, `job`, `machine`, `host` and `traceback`.
"""

from __future__ import annotations

import json
import logging
import os
import sys
import threading
import time
from contextlib import suppress
from logging import ERROR, INFO, WARNING
from typing import TYPE_CHECKING, Any

from .tables import printable

if TYPE_CHECKING:
    import argparse

__all__ = ["ERROR", "INFO", "WARNING", "add_form", "begin", "short", "tell"]

FORMS = ("text", "json")
PRIORITIES = {logging.DEBUG: 7, INFO: 6, WARNING: 4, ERROR: 3, logging.CRITICAL: 2}  # syslog's, by level
SHOWN_LETTERS = 200  # of a word in a message
JOURNAL = "JOURNAL_STREAM"  # systemd names the device and inode of the journal's socket so


def tell(level: int, text: str, error: BaseException | None = None, **fields: Any) -> None:
    """Report a message to the operator, with an error's traceback, and fields for programs."""
    logging.getLogger().log(level, "%s", text, exc_info=error, extra={"fields": fields})


def short(word: str) -> str:
    """Return a word for a message, cut if it is long."""
    return word if len(word) <= SHOWN_LETTERS else f"{word[:SHOWN_LETTERS]} .."


def begin(program: str, form: str = "text") -> None:
    """Print all log messages, including those of libraries, in this form from now on."""
    handler = Standard()
    handler.setFormatter(JsonFormatter(program) if form == "json" else Text(program))
    root = logging.getLogger()
    root.handlers[:] = [handler]
    root.setLevel(INFO)
    sys.excepthook = lambda kind, error, trace: tell_uncaught(error)
    threading.excepthook = lambda found: tell_uncaught(found.exc_value)


def tell_uncaught(error: BaseException | None) -> None:
    tell(logging.CRITICAL, "an error that nothing has caught", error)


def add_form(parser: argparse.ArgumentParser) -> None:
    """Add the option for the form."""
    explained = "form of messages on standard error: words, or an object on each line (default: %(default)s)"
    parser.add_argument("--log-format", choices=FORMS, default=FORMS[0], help=explained)


def safe(text: str) -> list[str]:
    """Return the lines of a text, with control characters escaped."""
    return [printable(line) for line in text.split("\n")]


def is_journal(file: int) -> bool:
    """Return whether a descriptor is systemd's journal."""
    found = os.fstat(file)
    return os.environ.get(JOURNAL) == f"{found.st_dev}:{found.st_ino}"


class Text(logging.Formatter):
    """Formats a message for people: `PROGRAM: words`."""

    def __init__(self, program: str) -> None:
        super().__init__()
        self.program = program

    def format(self, record: logging.LogRecord) -> str:
        text = record.getMessage()
        if record.exc_info:
            text += f"\n{self.formatException(record.exc_info)}"
        first, *others = safe(text)
        return "\n".join([f"{self.program}: {first}", *[f"  {line}" for line in others]])


class JsonFormatter(logging.Formatter):
    """Formats a message for programs: an object of JSON."""

    def __init__(self, program: str) -> None:
        super().__init__()
        self.program = program

    def format(self, record: logging.LogRecord) -> str:
        clock = time.strftime("%Y-%m-%dT%H:%M:%S", time.gmtime(record.created))
        row = {
            "time": f"{clock}.{int(record.msecs):03}Z",
            "level": record.levelname.lower(),
            "program": self.program,
            "message": "\n".join(safe(record.getMessage())),
            **getattr(record, "fields", {}),
        }
        if record.exc_info:
            row["traceback"] = "\n".join(safe(self.formatException(record.exc_info)))
        return json.dumps(row, default=str)


class Standard(logging.Handler):
    """Writes to standard error; ignores a failure to write."""

    def emit(self, record: logging.LogRecord) -> None:
        text = self.format(record)
        with suppress(OSError, ValueError):  # closed
            if is_journal(sys.stderr.fileno()):
                begins = f"<{PRIORITIES.get(record.levelno, PRIORITIES[INFO])}>"
                text = "\n".join([begins + line for line in text.split("\n")])
            print(text, file=sys.stderr, flush=True)
