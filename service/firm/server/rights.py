"""The lines that each socket accepts, and the tenant of each line."""

from __future__ import annotations

import re
from collections.abc import Iterator
from dataclasses import dataclass
from itertools import groupby
from typing import NamedTuple

from ..common.lines import LINE_TOO_LONG, MAX_BYTES, UNKNOWN_TENANT, first_word, is_name, is_operators, is_round
from ..common.lines import is_too_long
from .tenant_queues import OPERATORS, BATCH_LINES

NOT_OPERATOR = b"? operator-only: lines that begin with + go to the operator's socket\n"
OTHER_TENANT = b"? other-tenant: this socket takes the lines of %b alone\n"

# Lines without a reply: comments, and lines without a word that are not too long. A match has all consecutive ones, so
# that thousands of them delay no other client for long.
_SILENT = re.compile(rb"(?m)^(?:#[^\n]*+\n|[ \t]{0,%d}+\r?\n)+" % MAX_BYTES)
FEW_LINES = 32  # to route one by one before other clients have a turn
_FEW = re.compile(rb"(?:[^\n]*\n){1,%d}" % FEW_LINES)
_BATCHES = re.compile(rb"(?:[^\n]*\n){1,%d}" % BATCH_LINES)


class TenantLines(NamedTuple):
    """Consecutive lines of one tenant; a round, or an operator's line, is alone."""

    queue: bytes
    text: bytes
    lines: int
    is_round: bool = False


class LocalReply(NamedTuple):
    """firmd's own reply to each of some consecutive lines."""

    reply: bytes
    lines: int


class RoutedLine(NamedTuple):
    """The queue of a line, or firmd's reply to it."""

    queue: bytes
    reply: bytes | None
    single: int  # a unique number for a line that must be a separate part; otherwise 0


@dataclass(frozen=True, slots=True)
class Rights:
    """The lines that the clients of a socket may send."""

    tenant: bytes | None = None  # only this tenant's lines; None: all tenants'
    is_operator: bool = False

    @property
    def socket(self) -> bytes:
        """Return the socket's name in the journal: its tenant, * for all, + for the operator's."""
        return self.tenant or (b"+" if self.is_operator else b"*")

    def parts(self, text: bytes) -> list[TenantLines | LocalReply]:
        """Return the parts of some whole lines that get replies, in order."""
        plain = self.plain_parts(text)
        return list(self._route_all(text)) if plain is None else plain

    def plain_parts(self, text: bytes) -> list[TenantLines | LocalReply] | None:
        """Return the same by a fast check if all lines are commands of one tenant; otherwise None."""
        count, queue = text.count(b"\n"), text[: text.find(b" ")]
        if not (self._accepts(queue) and is_plain(text, count, queue)):
            return None
        if count <= BATCH_LINES:
            return [TenantLines(queue, text, count)]
        return [TenantLines(queue, piece, piece.count(b"\n")) for piece in _BATCHES.findall(text)]

    def _accepts(self, word: bytes) -> bool:
        return is_name(word) if self.tenant is None else word == self.tenant

    def _route_all(self, text: bytes) -> Iterator[TenantLines | LocalReply]:
        lines = with_reply(text).split(b"\n")[:-1]
        numbers = iter(range(1, len(lines) + 1))
        routed = [self._route(line, numbers) for line in lines]
        at = 0
        for route, group in groupby(routed):
            count = len(list(group))
            if route.reply is not None:
                yield LocalReply(route.reply, count)
            else:
                for start in range(at, at + count, BATCH_LINES):
                    some = lines[start : min(start + BATCH_LINES, at + count)]
                    is_round = route.single > 0 and route.queue != OPERATORS
                    yield TenantLines(route.queue, b"\n".join(some) + b"\n", len(some), is_round)
            at += count

    def _route(self, line: bytes, numbers: Iterator[int]) -> RoutedLine:
        if is_too_long(line):  # for any tenant
            return RoutedLine(b"", LINE_TOO_LONG, 0)
        word = first_word(line) or b""
        if self.tenant is not None and word != self.tenant:
            return RoutedLine(b"", OTHER_TENANT % self.tenant, 0)
        if is_operators(line):
            return RoutedLine(OPERATORS, None, next(numbers)) if self.is_operator else RoutedLine(b"", NOT_OPERATOR, 0)
        if not is_name(word):  # and so no tenant's
            return RoutedLine(b"", UNKNOWN_TENANT, 0)
        return RoutedLine(word, None, next(numbers) if is_round(line) else 0)


def with_reply(text: bytes) -> bytes:
    """Return the lines that get replies."""
    return _SILENT.sub(b"", text)


def few_lines(text: bytes) -> bytes:
    """Return the first few of some lines."""
    found = _FEW.match(text)
    return found[0] if found else text


def is_plain(text: bytes, count: int, queue: bytes) -> bool:
    """Return whether all lines are plainly commands of the queue: none is a round or too long, and all get replies."""
    if b"round" in text or count > 1 and text.count(b"\n%b " % queue) != count - 1:
        return False
    return len(text) <= MAX_BYTES + 1 or max(map(len, text.split(b"\n"))) <= MAX_BYTES
