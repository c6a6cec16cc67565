"""The part of a line's form (docs/FORMATS.md) that the service must read."""

from __future__ import annotations

import re

NAME_FORM = "[a-z0-9-]{1,16}"  # of a tenant, machine, job or task
MAX_BYTES = 256  # of a line without its end; a longer one is answered `! line-too-long`

NO_MEMORY, OPERATOR_NO_MEMORY = b"no 14 memory", b"+ no 28 operator-memory"
WORN = b"no 1 worn"
LINE_TOO_LONG, UNKNOWN_TENANT = b"! line-too-long\n", b"! unknown-tenant\n"

_FIRST_WORD = re.compile(rb"[ \t]*([^ \t]+)")
_NAME = re.compile(NAME_FORM.encode())
_ROUND = re.compile(rb"[ \t]*[^ \t]+[ \t]+round[ \t]*\r?")


def is_name(word: bytes) -> bool:
    """Return whether the word is a name of a tenant, machine, job or task."""
    return _NAME.fullmatch(word) is not None


def gets_reply(line: bytes) -> bool:
    """Return whether a line, without its LF, gets a reply: comments and empty lines don't."""
    line = line.removesuffix(b"\r")
    return not line.startswith(b"#") and (len(line) > MAX_BYTES or line.strip(b" \t") != b"")


def first_word(line: bytes) -> bytes | None:
    """Return a line's first word; None for comments, empty lines and those that are too long."""
    line = line.removesuffix(b"\r")
    if line.startswith(b"#") or len(line) > MAX_BYTES:
        return None
    word = _FIRST_WORD.match(line)
    return word[1] if word else None


def addressee(line: bytes) -> bytes | None:
    """Return the name that a line, without its LF, begins with, if it could be a tenant's."""
    word = first_word(line)
    return word if word is not None and is_name(word) else None


def is_operators(line: bytes) -> bool:
    """Return whether a line, without its LF, is the operator's, even if faulty."""
    return first_word(line) == b"+"


def is_too_long(line: bytes) -> bool:
    """Return whether a line, without its LF, gets `! line-too-long`, if it gets a reply."""
    return len(line) > MAX_BYTES and len(line.removesuffix(b"\r")) > MAX_BYTES


def is_round(line: bytes) -> bool:
    """Return whether a line, without its LF, requests a round."""
    return _ROUND.fullmatch(line) is not None


def outcome(reply: bytes) -> bytes:
    """Return the part of a reply to a command after its tenant and number; empty for other replies."""
    parts = reply.split(b" ", 2)
    return parts[2] if len(parts) == 3 and parts[1].isdigit() else b""


def is_memory_refused(reply: bytes) -> bool:
    """Return whether memory was refused to the line. Names may end another reply likewise: `.. move no 14 memory`."""
    return outcome(reply) == NO_MEMORY or reply == OPERATOR_NO_MEMORY


def changes_rows(reply: bytes) -> bool:
    """Return whether a command other than a round has changed rows."""
    done = outcome(reply)
    return done == b"ok" or done.startswith(b"ok evicted ")
