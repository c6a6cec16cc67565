"""Kinds of answers beside plain JSON, the making of long ones, and for whom they are made."""

from __future__ import annotations

import asyncio
from collections.abc import AsyncIterator, Iterable, Sequence
from typing import Any, Protocol

from ..common.fields import Json
from .agents import Session
from .rows import SINGLE, Name, Submission, Task

ROWS_AT_ONCE = 100  # that are made in a turn of the loop


class Caller(Session, Protocol):
    """A connection of any user."""

    def is_gone(self) -> bool:
        """Whether nobody is there any more to be answered."""

    async def turn(self) -> None:
        """Returns once a further part of an answer may be made, after those of other users."""

    async def alone(self) -> None:
        """Return once no other long answer of the user's is made. None is until this one is sent."""


class Answers(list[Json]):
    """Answers to a submission."""

    def __init__(self, answers: Any, is_again: bool = False) -> None:
        super().__init__(answers)
        self.is_again = is_again


async def in_turns(tasks: Sequence[Task]) -> AsyncIterator[Sequence[Task]]:
    """Tasks of which rows are made, some in each turn of the loop."""
    for at in range(0, len(tasks), ROWS_AT_ONCE):
        yield tasks[at : at + ROWS_AT_ONCE]
        await asyncio.sleep(0)


def tasks_of(name: Name, submission: Submission) -> Iterable[Task]:
    """Return the task of a name, or all of a submission."""
    return submission.tasks.values() if name.index == SINGLE else [submission.tasks[name.index]]
