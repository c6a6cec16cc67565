"""Common parts of the commands: verbs, options, failures with their exit status, and printing of answers."""

from __future__ import annotations

import argparse
import json
import os
import signal
import sys
from collections.abc import Callable
from dataclasses import dataclass
from typing import Any

from ..common.tables import Row, printable

# Exit statuses. The first is also for refusals, such as of a roster with a fault.
NOT_THERE, USAGE, NO_SERVICE, NOT_BUILT = 1, 2, 3, 4
Verb = Callable[[argparse.Namespace], None]


class Failure(Exception):
    """The end of the program with a message and an exit status."""

    def __init__(self, status: int, message: str) -> None:
        super().__init__(message)
        self.status = status


class Unused(argparse.ArgumentParser):
    """A stand-in for the parser of an unused verb, since adding its options would take time."""

    def __init__(self) -> None:
        """Make no parser."""

    def add_argument(self, *_: Any, **__: Any) -> Any:
        return None

    def set_defaults(self, **_: Any) -> None:
        return None


@dataclass(frozen=True)
class Verbs:
    """The verbs of a program, with their common options."""

    commands: argparse._SubParsersAction[argparse.ArgumentParser]
    common: argparse.ArgumentParser
    only: str | None = None  # the verb to make; None: all, as for a list of them

    def has(self, name: str) -> bool:
        return self.only in (None, name)

    def add(self, name: str, run: Verb, explained: str, epilog: str | None = None) -> argparse.ArgumentParser:
        if not self.has(name):
            return Unused()
        command = self.commands.add_parser(
            name,
            help=explained,
            description=explained,
            epilog=epilog,
            formatter_class=argparse.RawDescriptionHelpFormatter,
            parents=[self.common],
        )
        command.set_defaults(run=run)
        return command


def run(parser: argparse.ArgumentParser) -> int:
    """Run the verb that the command line names. Return the program's exit status."""
    options = parsed(parser)
    try:
        options.run(options)
    except Failure as failure:
        print(f"{parser.prog}: {printable(str(failure))}", file=sys.stderr)
        return failure.status
    except KeyboardInterrupt:
        return 128 + signal.SIGINT
    return 0


def in_pipe(work: Callable[[], int]) -> int:
    """Return the exit status of the program's work. If the reader of standard output is gone, as in
    `firmctl tasks | head`, end by SIGPIPE as other programs do. The signal stays ignored until then, so that a closed
    socket or a dead program is reported as an error."""
    try:
        try:
            return work()
        finally:
            print(end="", flush=True)
    except BrokenPipeError:
        signal.signal(signal.SIGPIPE, signal.SIG_DFL)
        os.kill(os.getpid(), signal.SIGPIPE)
        raise


def parsed(parser: argparse.ArgumentParser) -> argparse.Namespace:
    """Return the options of the command line; one that belongs to a submitted command gets a hint."""
    options, unknown = parser.parse_known_args()
    command, words = getattr(options, "command", None) or [], sys.argv[1:]
    if unknown:
        hint = f"; write -- before the command: {parser.prog} .. -- {' '.join([*command, *unknown])}" if command else ""
        parser.error(f"unrecognized arguments: {' '.join(unknown)}{hint}")
    last = words[words.index("--") + 1 :] if "--" in words else words[len(words) - len(command) :]
    if command and last != command:  # it may belong to the command
        fault = f"an option follows {command[0]!r}; write it, or --, before the command"
        parser.error(f"{fault}: {parser.prog} .. -- {' '.join(command)}")
    return options


def show(options: argparse.Namespace, answer: Row, plain: Callable[[Row], str]) -> None:
    """Print an answer, as JSON with --json."""
    sys.stdout.write(json.dumps(answer, indent=2) + "\n" if options.json else plain(answer))
