"""Settings of the programs, from a configuration file in TOML and a command line.

A program has a table of settings by section for both forms, so each setting has one range, one default and one
explanation. `SettingsFile` collects all faults of a file, by line and name.
"""

from __future__ import annotations

import argparse
import difflib
import grp
import json
import tomllib
from collections.abc import Callable, Iterator, Mapping, Sequence
from dataclasses import dataclass, field
from functools import cached_property
from pathlib import Path
from typing import IO, Any

from .address import Address
from .fields import FieldKind, Value, checked
from .quantities import bytes_of

MAX_SOCKET = 107  # bytes of a Unix socket's path, by unix(7)
MAX_BYTES = 2**16  # of a file
NEAR = 0.6  # similarity at which a known name is proposed for an unknown one
Sections = Mapping[str, Sequence["Setting"]]
Place = tuple[str, ...]  # of a value in a file: its tables, and its key


@dataclass(frozen=True)
class Setting:
    """A setting of a program, in a section of its file."""

    key: str  # in its section of the file
    kind: FieldKind[Any]
    explained: str
    default: Any = None
    option: str | None = None  # of the command line

    @property
    def attribute(self) -> str:
        """The option's name in what argparse has read."""
        return (self.option or self.key).lstrip("-").replace("-", "_")

    def add(self, found: argparse._ActionsContainer, default: Any = ...) -> None:
        """Add it to a command line, with the file's default unless another is given."""
        chosen = self.default if default is ... else default
        explained = self.explained if chosen is None else f"{self.explained} (default: {chosen})"
        kind, explained = self.kind, explained.replace("%", "%%")
        more: dict[str, Any] = {"choices": kind.choices} if kind.choices else {"metavar": kind.metavar}
        found.add_argument(self.option or f"--{self.key}", type=kind.argument, default=chosen, help=explained, **more)


def size(low: int, high: int) -> FieldKind[int]:
    """Return the kind of sizes: bytes, also as 64M."""
    wanted = f"a size from {low:,} to {high:,} bytes, as 64M"

    def read(value: Any) -> int:
        try:
            found = bytes_of(value) if isinstance(value, str) else value
        except ValueError:
            found = None
        if type(found) is not int or not low <= found <= high:
            raise ValueError(wanted)
        return found

    return FieldKind(wanted, read, read, "SIZE")


def word(read: Callable[[str], Value], wanted: str, metavar: str) -> FieldKind[Value]:
    """Return the kind of texts that a function reads; it raises `ValueError` for others."""

    def read_text(value: Any) -> Value:
        try:
            return read(any_text(value))
        except ValueError:
            raise ValueError(wanted) from None

    any_text = checked(wanted, str, lambda value: True)
    return FieldKind(wanted, read_text, read_text, metavar)


def path(metavar: str = "FILE") -> FieldKind[Path]:
    """A path; in a file, below its folder unless absolute."""
    wanted = "a path"

    def read(text: str) -> Path:
        if not text or "\0" in text:
            raise ValueError(text)
        return Path(text)

    return word(read, wanted, metavar)


def read_group(text: str) -> int:
    try:
        return grp.getgrnam(text).gr_gid
    except KeyError:
        raise ValueError(text) from None


GROUP = word(read_group, "a group of this host: addgroup --system creates one", "GROUP")
ADDRESS = word(Address.read, "an address, as HOST:PORT", "HOST:PORT")


def shown(value: Any) -> str:
    """Return a value as the file writes it."""
    if isinstance(value, Path | Address):
        value = str(value)
    return json.dumps(value)


@dataclass(frozen=True)
class Finding:
    """A fault of a file, or a warning."""

    line: int  # from 1; 0: the file as a whole
    name: str  # the setting's, with its tables
    text: str  # the fault, and its cure
    is_warning: bool = False

    def __str__(self) -> str:
        return f"{'warning: ' if self.is_warning else ''}{self.name}{': ' if self.name else ''}{self.text}"


@dataclass
class SettingsFile:
    """A configuration file, and its faults."""

    path: Path
    text: str
    table: dict[str, Any] = field(default_factory=dict)
    findings: list[Finding] = field(default_factory=list)
    is_toml: bool = True

    @classmethod
    def read(cls, path: Path, most: int = MAX_BYTES) -> SettingsFile:
        """Read a file. Raise OSError, or ValueError if it is no text, too long or nested too deeply."""
        with open(path, "rb") as file:
            return cls.of(path, file, most)

    @classmethod
    def of(cls, path: Path, file: IO[bytes], most: int = MAX_BYTES) -> SettingsFile:
        """Read the text of the file of this path from an open one. Raise the same."""
        data = file.read(most + 1)
        if len(data) > most:
            raise ValueError(f"it has more than {most:,} bytes")
        found = cls(path.absolute(), data.decode())
        try:
            found.table = tomllib.loads(found.text)
        except tomllib.TOMLDecodeError as error:
            found.is_toml = False
            found.findings.append(Finding(found._faulty_line(), "", f"this is not TOML: {error}"))
        except RecursionError as error:
            raise ValueError("its values are nested too deeply") from error
        return found

    def note(self, place: Place, text: str, is_warning: bool = False) -> None:
        """Note a fault of the value of a place."""
        line = next((self.lines[place[:size]] for size in range(len(place), 0, -1) if place[:size] in self.lines), 0)
        finding = Finding(line, ".".join(place), text, is_warning)
        if finding not in self.findings:  # a table may be read twice
            self.findings.append(finding)

    @property
    def is_good(self) -> bool:
        """Return whether there are no errors; warnings may remain."""
        return all(finding.is_warning for finding in self.findings)

    @cached_property
    def lines(self) -> dict[Place, int]:
        """Return the line of each table and value."""
        return lines_of(self.text)

    def _faulty_line(self) -> int:
        """Return the line of the statement that can't be read."""
        return next((line for line, _, found in statements_of(self.text) if found is None), 1)

    def section(self, place: Place) -> Mapping[str, Any]:
        """Return the table of a place, empty if missing. Note another value in its place."""
        at: dict[str, Any] = self.table
        for size, key in enumerate(place, 1):
            at = at.get(key, {})
            if not isinstance(at, dict):
                self.note(place[:size], f"a table, begun by [{'.'.join(place[:size])}]")
                return {}
        return at

    def values(self, place: Place, settings: Sequence[Setting], tables: Sequence[str] = ()) -> dict[str, Any]:
        """Return the values of a section by key, with the defaults of missing ones. Note faults, such as keys that are
        neither settings nor one of these tables."""
        found = {setting.key: setting.default for setting in settings}
        by_key = {setting.key: setting for setting in settings}
        for key, value in self.section(place).items():
            if key in by_key:
                try:
                    found[key] = self._below(by_key[key].kind.read(value))
                except ValueError as error:
                    self.note((*place, key), f"{shown_value(value)} is not {error}")
            elif key not in tables:
                self.note((*place, key), f"unknown key; {proposal(key, [*by_key, *tables])}")
        return found

    def entries(self, place: Place, kind: FieldKind[Value]) -> dict[str, Value]:
        """Return a table with any keys and values of one kind. Note its faults."""
        found = {}
        for key, value in self.section(place).items():
            try:
                found[key] = kind.read(value)
            except ValueError as error:
                self.note((*place, key), f"{shown_value(value)} is not {error}")
        return found

    def _below(self, value: Any) -> Any:
        """Return a path as one below the file's folder."""
        return self.path.parent / value if isinstance(value, Path) else value


def shown_value(value: Any) -> str:
    """Return a value of a file for a message."""
    text = json.dumps(value, default=str)
    return text if len(text) <= 60 else f"{text[:57]}..."


def proposal(key: str, known: Sequence[str]) -> str:
    near = difflib.get_close_matches(key, known, 1, NEAR)
    return f"did you mean {near[0]}?" if near else f"here may be {', '.join(known)}"


def statements_of(text: str) -> Iterator[tuple[int, str, dict[str, Any] | None]]:
    """Yield the statements of a file: the first line of each, its text, and its values; None if it can't be read. A
    value continues on further lines until it can."""
    gathered, first = "", 1
    for number, line in enumerate(text.split("\n"), 1):
        gathered, first = (f"{gathered}\n{line}", first) if gathered else (line, number)
        try:
            yield first, gathered, tomllib.loads(gathered)
        except tomllib.TOMLDecodeError:
            continue
        gathered = ""
    if gathered:
        yield first, gathered, None


def lines_of(text: str) -> dict[Place, int]:
    """Return the line of each table and value of a file."""
    found: dict[Place, int] = {}
    table: Place = ()
    for line, statement, said in statements_of(text):
        places = list(places_of(said or {}))
        if statement.lstrip().startswith("["):
            table = places[-1] if places else ()
            found.setdefault(table, line)
        else:
            for place in places:
                found.setdefault((*table, *place), line)
    return found


def places_of(table: Mapping[str, Any]) -> Iterator[Place]:
    """Yield the places of a table's values and of the tables in it, the outer ones first."""
    for key, value in table.items():
        yield (key,)
        if isinstance(value, dict):
            yield from ((key, *rest) for rest in places_of(value))


def template(sections: Sections) -> Iterator[str]:
    """Yield the lines of a file that sets nothing, and shows each setting with its default."""
    for name, settings in sections.items():
        if name:
            yield from ("", f"#[{name}]")
        for setting in settings:
            chosen = setting.default
            yield f"# {setting.explained}"
            yield f"#{setting.key} = {shown(chosen) if chosen is not None else setting.kind.metavar}"
