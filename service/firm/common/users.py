"""Users of the system, as the other end of a socket shows them, and their rights in a queue."""

from __future__ import annotations

import os
import pwd
import re
from collections.abc import Iterable
from contextlib import suppress
from dataclasses import dataclass

from .lines import NAME_FORM
from .peers import ROOT, Peer
from .threads import Threads

MAX_KNOWN = 65_536  # users whose names are stored
_names: dict[int, str] = {}  # by user


@dataclass(frozen=True, slots=True)
class User:
    number: int
    is_operator: bool = False

    @property
    def name(self) -> str:
        return name_of(self.number)

    @property
    def sees(self) -> int | None:
        """Return the user whose rows this one may see; None: those of all."""
        return None if self.is_operator else self.number

    def may_see(self, other: int) -> bool:
        """Return whether this user may see and change what belongs to another."""
        return self.is_operator or self.number == other


@dataclass(frozen=True, slots=True)
class Operators:
    """Root, the queue's own user, and a group."""

    group: int | None = None

    def has(self, peer: Peer) -> bool:
        return peer.user in (ROOT, os.geteuid()) or self.group in peer.groups


def name_of(number: int) -> str:
    """Return a user's login name, or the number without one."""
    return _names.get(number) or look_up(number)


def look_up(number: int) -> str:
    """Return the same from the directory of users, which may hang."""
    try:
        found = pwd.getpwuid(number).pw_name
    except KeyError:
        found = str(number)
    if len(_names) >= MAX_KNOWN:
        _names.clear()
    _names[number] = found
    return found


def is_known(number: int) -> bool:
    """Return whether a user's name is known without a look-up."""
    return number in _names


def presume(number: int) -> None:
    """Name a user by its number until a look-up ends."""
    _names.setdefault(number, str(number))


async def know(threads: Threads, user: int, numbers: Iterable[int]) -> None:
    """Look up names of users for one of them. If that hangs, the users have their numbers for now."""
    unknown = [number for number in set(numbers) if not is_known(number)]
    if unknown:
        with suppress(TimeoutError):
            await threads.do(user, lambda: [*map(look_up, unknown)])
        for number in unknown:
            presume(number)


def number_of(name: str) -> int | None:
    """Return a user's number by login name or number; None if there is no such user."""
    try:
        return pwd.getpwnam(name).pw_uid
    except KeyError:
        return int(name) if re.fullmatch(r"[0-9]{1,10}", name) else None


def job_of(number: int) -> str:
    """Return the default name of a user's job."""
    name = name_of(number)
    if re.fullmatch(NAME_FORM, name) and not name.isdigit() and owner_of(name) is None:
        return name
    return f"u{number}"


def owner_of(job: str) -> int | None:
    """Return the user for whom a job's name is reserved, if any."""
    digits = job[1:]
    is_reserved = job[:1] == "u" and digits.isdigit() and (digits[0] != "0" or digits == "0")
    return int(digits) if is_reserved else None
