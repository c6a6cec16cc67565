"""Lines to firmd, and questions to its view."""

from __future__ import annotations

import asyncio
import json
from collections.abc import Sequence
from contextlib import closing
from pathlib import Path

from ..common.fields import Json
from ..common.refused import Refused
from ..server.clients import STOPPING as STOPPING_LINE

LINE_SECONDS = 60.0  # for all replies to the lines of a request
VIEW_SECONDS = 60.0  # for an answer of the view
STOPPING = STOPPING_LINE.decode().rstrip("\n")
LONGEST_REPLY = 2**26  # bytes: of a view, or of a round that moves all tasks


class NotReached(Exception):
    """firmd does not listen: nothing was sent."""


async def replies_to(path: Path, lines: Sequence[str]) -> list[str]:
    """Return firm's replies to lines, one to each, by a client socket of firmd's. Raise `NotReached` before, and
    `Refused` with the replies that came after lines were sent."""
    replies: list[str] = []
    try:
        async with asyncio.timeout(LINE_SECONDS):
            reader, writer = await reached(path)
            with closing(writer):
                writer.write("".join(f"{line}\n" for line in lines).encode())
                writer.write_eof()
                while len(replies) < len(lines) and (reply := await reader.readline()):
                    replies.append(reply.decode().rstrip("\n"))
    except (OSError, ValueError, TimeoutError) as error:
        raise Refused("not-there", f"firmd does not answer: {error}", replies=replies) from error
    if replies[:1] == [STOPPING]:
        raise Refused("stopping", "firmd is ending, and has taken no line")
    if len(replies) < len(lines):
        told = f"firmd has closed the connection after {len(replies)} of {len(lines)} replies"
        raise Refused("not-there", told, replies=replies)
    return replies


async def view_of(path: Path, ask: str) -> Json:
    """Return an answer of firmd's view. Raise `NotReached`, or `Refused` if none comes."""
    try:
        async with asyncio.timeout(VIEW_SECONDS):
            reader, writer = await reached(path)
            with closing(writer):
                writer.write(json.dumps({"ask": ask}).encode() + b"\n")
                answer = json.loads(await reader.readline())
    except (OSError, ValueError, TimeoutError) as error:
        raise Refused("not-there", f"firmd's view does not answer: {error}") from error
    if not isinstance(answer, dict) or ask not in answer:
        raise Refused("not-there", f"firmd's view answers no {ask}")
    return answer


async def reached(path: Path) -> tuple[asyncio.StreamReader, asyncio.StreamWriter]:
    try:
        return await asyncio.open_unix_connection(path, limit=LONGEST_REPLY)
    except OSError as error:
        raise NotReached(f"firmd does not listen: {error}") from error
