"""Kinds of fields, settings and options, each with one message for all wrong values.

A `FieldKind` reads a value of JSON or TOML, or a word of a command line. The caller adds the place to a message:
`Fields` for a request, `settings.SettingsFile` for a file, argparse for an option.
"""

from __future__ import annotations

import argparse
import json
import re
from collections.abc import Callable, Mapping, Sequence
from dataclasses import dataclass
from typing import Any, Generic, TypeVar

from .lines import NAME_FORM
from .refused import Refused

MAX_VALUES = 250_000  # commas and brackets of a text, each of which may be a value
Json = dict[str, Any]
Value = TypeVar("Value")
Kept = TypeVar("Kept", covariant=True)


@dataclass(frozen=True)
class FieldKind(Generic[Kept]):
    """A kind of values. Its functions raise `ValueError` with a description of allowed values."""

    wanted: str
    read: Callable[[Any], Kept]  # a value of JSON or TOML
    of_text: Callable[[str], Kept]  # a word of the command line
    metavar: str | None = None
    choices: Sequence[str] | None = None

    def argument(self, text: str) -> Kept:
        """Return a value of the command line."""
        try:
            return self.of_text(text)
        except ValueError as error:
            raise argparse.ArgumentTypeError(f"{text!r} is not {error}") from error

    def maybe(self, value: Any) -> Kept | None:
        """Return a value; None for one of another kind."""
        try:
            return self.read(value)
        except ValueError:
            return None


def checked(wanted: str, kind: type[Value], is_good: Callable[[Value], object]) -> Callable[[Any], Value]:
    """Return a function that accepts only some values of a type, and none of a type derived from it."""

    def read(value: Any) -> Value:
        if type(value) is not kind or not is_good(value):
            raise ValueError(wanted)
        return value

    return read


def amount(value: float) -> str:
    return f"{value:,.0f}" if value == int(value) else f"{value:,g}"


def whole(low: int, high: int, metavar: str = "N") -> FieldKind[int]:
    wanted = f"a whole number from {low:,} to {high:,}"
    read = checked(wanted, int, lambda value: low <= value <= high)
    digits = re.compile(r"0*[0-9]{1,20}", re.ASCII)  # int() refuses thousands of them by another message
    return FieldKind(wanted, read, lambda text: read(int(text[-20:]) if digits.fullmatch(text) else None), metavar)


def number(low: float, high: float, metavar: str | None = None, is_above: bool = False) -> FieldKind[float]:
    """Return the kind of numbers of this unit, the lowest one excepted if `is_above`."""
    wanted = f"a number {f'above {amount(low)}, up' if is_above else f'from {amount(low)}'} to {amount(high)}"

    def read(value: Any) -> float:
        if type(value) not in (int, float) or not low <= value <= high or is_above and value == low:  # as NaN is
            raise ValueError(wanted)
        return float(value) + 0.0  # -0.0 becomes 0.0, as in the database, whose row would count as damaged otherwise

    def read_text(text: str) -> float:
        try:
            return read(float(text))
        except ValueError:
            raise ValueError(wanted) from None

    return FieldKind(wanted, read, read_text, metavar)


def text_up_to(most: int) -> FieldKind[str]:
    """Return the kind of texts of at most this length."""
    return text_with(lambda value: True, most, "a text")


def absolute(most: int) -> FieldKind[str]:
    return text_with(lambda value: value.startswith("/"), most, "an absolute path")


def text_with(is_good: Callable[[str], object], most: int, what: str) -> FieldKind[str]:
    wanted = f"{what} of at most {most:,} letters of Unicode, without zero bytes"
    read = checked(wanted, str, lambda value: len(value) <= most and is_plain(value) and is_good(value))
    return FieldKind(wanted, read, read)


def is_plain(value: str) -> bool:
    """Return whether a system call takes a text: one of Unicode without zero bytes."""
    try:
        return "\0" not in value and (value.isascii() or bool(value.encode()))
    except UnicodeEncodeError:
        return False


def matching(pattern: str, wanted: str, metavar: str | None = None) -> FieldKind[str]:
    """Return the kind of texts that match a pattern."""
    read = checked(wanted, str, re.compile(pattern).fullmatch)
    return FieldKind(wanted, read, read, metavar)


def choice(*choices: str) -> FieldKind[str]:
    wanted = f"one of {', '.join(choices)}"
    read = checked(wanted, str, choices.__contains__)
    return FieldKind(wanted, read, read, None, choices)


def flag() -> FieldKind[bool]:
    wanted, texts = "true or false", {"true": True, "false": False}
    read = checked(wanted, bool, lambda value: True)
    return FieldKind(wanted, read, lambda text: read(texts.get(text)))


def listed(kind: FieldKind[Value], most: int, least: int = 0) -> FieldKind[tuple[Value, ...]]:
    wanted = f"a list of {f'{least} to' if least else 'at most'} {most:,}, each {kind.wanted}"

    def read(value: Any) -> tuple[Value, ...]:
        if type(value) is not list or not least <= len(value) <= most:
            raise ValueError(wanted)
        return tuple(map(kind.read, value))

    metavar = None if kind.metavar is None else f"{kind.metavar},.."
    return FieldKind(wanted, read, lambda text: tuple(map(kind.of_text, text.split(","))), metavar)


def table(keys: FieldKind[str], kind: FieldKind[Value], most: int) -> FieldKind[dict[str, Value]]:
    """Return the kind of objects, or tables, that give names a value."""
    wanted = f"at most {most:,} names with values"

    def read(value: Any) -> dict[str, Value]:
        if type(value) is not dict or len(value) > most:
            raise ValueError(wanted)
        return {keys.read(name): kind.read(one) for name, one in value.items()}

    return FieldKind(wanted, read, read)


FLAG = flag()
NAME = matching(NAME_FORM, "a name: 1 to 16 of a-z, 0-9 and -", "NAME")
TOKEN = matching(r"[0-9a-f]{8,64}", "a token: 8 to 64 of 0-9 and a-f")  # of a run


def bad(field: str, text: str) -> Refused:
    from .logs import short  # here, since firmctl doesn't need it, and logging takes long to import

    return Refused("bad-field", f"{short(field)}: {text}", field=short(field))


def shown(value: Any) -> str:
    """Return a value for a refusal. A long value is cut, since many answers to large requests would fill the memory."""
    from .logs import short  # here, as above

    return repr(short(value)) if isinstance(value, str) else short(repr(value))


class Fields:
    """The fields of a request."""

    def __init__(self, given: Mapping[str, Any], known: Sequence[str]) -> None:
        self._given = given
        for field in given:
            if field not in known:
                raise bad(field, f"unknown; there are {', '.join(known)}")

    def get(self, field: str) -> Any:
        return self._given.get(field)

    def read(self, field: str, kind: FieldKind[Value]) -> Value | None:
        """Return a field, None if it is left out. Raise `Refused` for one of another kind."""
        return None if self._given.get(field) is None else self.need(field, kind)

    def need(self, field: str, kind: FieldKind[Value]) -> Value:
        """Return a field that may not be left out."""
        try:
            return kind.read(self._given.get(field))
        except ValueError as error:
            raise bad(field, str(error)) from None


def object_of(data: bytes) -> Json:
    """Return the JSON object of a text. Count its values first, since each takes far more memory than its text."""
    if sum(map(data.count, (b",", b"[", b"{"))) > MAX_VALUES:
        raise Refused("too-large", f"JSON may have at most {MAX_VALUES:,} values")
    try:
        found = json.loads(data, parse_constant=no_constant)
    except (ValueError, RecursionError) as error:
        raise Refused("bad-request", f"not valid JSON: {error}") from None
    if not isinstance(found, dict):
        raise Refused("bad-request", "JSON of another kind than an object")
    return found


def no_constant(text: str) -> None:
    raise ValueError(f"{text} is no number of JSON's")
