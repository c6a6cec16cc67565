"""Reads submissions from the command line or from a file, for `firmctl submit`."""

from __future__ import annotations

import argparse
import json
import os
import sys
from collections.abc import Callable, Iterable, Mapping
from dataclasses import dataclass
from functools import partial
from pathlib import Path
from typing import Any

from ..client import calls
from ..client.blocking import PATIENCE, ApiError, Json
from ..common import quantities
from .command_line import NOT_THERE, USAGE, Failure
from .target import Asking

SUBMIT_NOTE = """\
FILE has an object of JSON on each line, as {"label": "prepare", "command": ["./prepare.sh"], "time": "2h"} and then
{"command": ["./train.sh"], "array": "1-500", "after": ["@prepare"]}. Its fields have the names of the options, and
the options are the defaults of all lines. The queue accepts all lines, or none.

exit statuses:
  0  submitted: the printed tasks are on the queue's disk
  1  refused: the queue accepted none of it
  2  the command line, or the file
  3  no server answers; the queue may have accepted it: submit it again with the same --key"""
ABSENT: tuple[Any, ...] = (None, [], {})  # values of options that are not given


@dataclass(frozen=True)
class Option:
    """An option of a submission, and the field of a file with the same meaning."""

    name: str
    read: Callable[[str], Any] | None  # reads its text; None: a flag
    metavar: str
    explained: str
    is_list: bool = False

    @property
    def flag(self) -> str:
        return f"--{self.name.replace('_', '-')}"


OPTIONS = [
    Option("job", str, "NAME", "name of the job (default: your login name)"),
    Option(
        "weight",
        quantities.whole_of,
        "N",
        "of the job, set by its first task: the cost of a round of waiting (default: 10)",
    ),
    Option(
        "array",
        quantities.array_of,
        "INDEXES",
        "a task for each index, which is FIRM_INDEX: 1-500; 1,3,5; 0-20:5 in steps; 1-40%%10 with at most 10 at a time",
    ),
    Option("after", quantities.names_of, "TASK,..", "tasks that must succeed first", is_list=True),
    Option("after_any", quantities.names_of, "TASK,..", "tasks that must end first", is_list=True),
    Option("time", quantities.seconds_of, "TIME", "time limit of a run: 90 (seconds), 30m, 2h, 1-12:00:00"),
    Option("near", quantities.names_of, "MACHINE,..", "preferred machines, at most 4", is_list=True),
    Option("output", str, "FILE", "file to append output to; %%A is the number, %%a the index, %%t the task"),
    Option("retries", quantities.whole_of, "N", "further runs after failures"),
    Option("grace", quantities.seconds_of, "TIME", "from SIGTERM to SIGKILL (default: 5)"),
    Option("memory", quantities.bytes_of, "SIZE", "memory limit of a run, as 2G, on hosts with cgroups"),
    Option("processors", quantities.number_of, "N", "processors of a run"),
    Option("hold", None, "", "don't start before a release"),
]
BY_NAME = {option.name: option for option in OPTIONS}
KNOWN = set(calls.SubmissionFields.__annotations__)


def typed_text(read: Callable[[str], Any], text: str) -> Any:
    """Return the value of an option's text, with the reason in the error, which argparse would omit."""
    try:
        return read(text)
    except ValueError as error:
        raise argparse.ArgumentTypeError(str(error)) from error


def variable(text: str) -> tuple[str, str]:
    """Return an environment variable from NAME=VALUE, or from NAME with its current value."""
    name, equals, value = text.partition("=")
    if not equals and name not in os.environ:
        raise ValueError(f"{name!r} is not in the environment; write {name}=VALUE")
    return name, value if equals else os.environ[name]


def add_options(parser: argparse.ArgumentParser) -> None:
    """Add the options of a submission."""
    for option in OPTIONS:
        if option.read is None:
            parser.add_argument(option.flag, action="store_true", help=option.explained)
            continue
        kind = partial(typed_text, option.read)
        kind.__dict__["__name__"] = option.metavar
        action = "extend" if option.is_list else "store"
        parser.add_argument(option.flag, type=kind, action=action, metavar=option.metavar, help=option.explained)
    explained = "a variable of the command's environment; may be repeated"
    kind = partial(typed_text, variable)
    parser.add_argument("--env", type=kind, action="append", default=[], metavar="NAME[=VALUE]", help=explained)
    parser.add_argument("--dir", metavar="DIR", help="folder to run it in (default: the current one)")
    explained = "a unique text for this submission, so that a repetition submits nothing"
    parser.add_argument("--key", metavar="TEXT", help=explained)
    parser.add_argument("--file", metavar="FILE", help="submit the lines of a file; - for standard input")
    explained = "time of retries if no server answers (default: %(default)g seconds)"
    kind = partial(typed_text, quantities.seconds_of)
    parser.add_argument("--patience", type=kind, default=PATIENCE, metavar="TIME", help=explained)
    parser.add_argument("command", nargs="*", metavar="COMMAND", help="command to run, after --")


def given_of(options: argparse.Namespace) -> dict[str, Any]:
    """Return the fields that the command line sets."""
    given = {option.name: getattr(options, option.name) for option in OPTIONS}
    given |= {"env": dict(options.env), "dir": os.path.abspath(options.dir or os.curdir)}
    return {name: value for name, value in given.items() if value not in ABSENT}


def submission_of(given: Mapping[str, Any]) -> calls.SubmissionFields:
    """Return a submission with the output's path below the command's folder."""
    output = given.get("output")
    rest = {"output": os.path.join(given["dir"], output)} if output else {}
    found: Any = {**given, **rest}  # the server checks it
    return found  # type: ignore[no-any-return]


def of_options(options: argparse.Namespace) -> calls.SubmissionFields:
    return submission_of({**given_of(options), "command": options.command})


def of_file(name: str, defaults: Mapping[str, Any]) -> tuple[list[calls.SubmissionFields], list[int]]:
    """Yield the submissions of a file, each with its line number."""
    found, numbers = [], []
    for number, line in enumerate(lines_of(name), 1):
        if line.strip():
            try:
                found.append(submission_of({**defaults, **of_line(line, str(defaults["dir"]))}))
            except (TypeError, ValueError) as error:
                raise Failure(USAGE, f"{name}:{number}: {error}") from error
            numbers.append(number)
    if not found:
        raise Failure(USAGE, f"{name}: no submission is in it")
    return found, numbers


def lines_of(name: str) -> Iterable[str]:
    try:
        text = sys.stdin.buffer.read() if name == "-" else Path(name).read_bytes()
        return text.decode().split("\n")
    except OSError as error:
        raise Failure(USAGE, f"cannot read {name}: {error.strerror}") from error
    except UnicodeDecodeError as error:
        raise Failure(USAGE, f"{name} is no UTF-8: {error}") from error


def of_line(line: str, folder: str) -> dict[str, Any]:
    """Return the fields of a submission in a file; the queue checks their values."""
    row = json.loads(line)
    if not isinstance(row, dict):
        raise ValueError("a submission is an object")
    unknown = [name for name in row if name not in KNOWN]
    if unknown:
        raise ValueError(f"{unknown[0]!r} is not a field; there are {', '.join(sorted(KNOWN))}")
    if not isinstance(row.get("command"), list):
        raise ValueError("command: a list of words is needed")
    values = {name: of_form(name, value) for name, value in row.items()}
    return {**values, **({"dir": os.path.join(folder, values["dir"])} if isinstance(values.get("dir"), str) else {})}


def of_form(name: str, value: Any) -> Any:
    """Return a value that may be written as on the command line."""
    option = BY_NAME.get(name)
    return option.read(value) if option is not None and option.read is not None and isinstance(value, str) else value


def submit(options: argparse.Namespace) -> list[Json]:
    """Submit the command or the file of the options. Raise `Failure` if it is refused."""
    if options.file is None:
        if not options.command:
            raise Failure(USAGE, "name a command after --, or a --file")
        found, numbers = [of_options(options)], None
    elif options.command:
        raise Failure(USAGE, "a --file has its commands itself")
    else:
        found, numbers = of_file(options.file, given_of(options))
    client = Asking(options, options.patience).use_queue()
    try:
        return client.ask(calls.submit(found, options.key))
    except ApiError as refusal:
        place = refusal.more.get("at")
        if numbers is None or not isinstance(place, int):
            raise
        raise Failure(NOT_THERE, f"{options.file}:{numbers[place]}: {refusal} ({refusal.name})") from refusal
