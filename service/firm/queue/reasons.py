"""Why a task is where it is: the queue's own reason, and for one that firm has firm_explain's.

Names of tasks that the user may not see are left out.
"""

from __future__ import annotations

import re
from collections import Counter
from collections.abc import Callable, Iterator, Sequence
from typing import Any

from ..common.books import Book
from ..explain.questions import Questions
from ..explain.trials import PlacementChange
from ..explain.why import Choice, Free, Heavier, Reasons
from ..explain.why_text import sentences
from ..common.fields import Json
from ..common.refused import Refused

EARLIER = re.compile(r"([a-z0-9-]+)(, submitted earlier, .*)")
Shown = Callable[[str], str | None]  # firm's name of a task, by which the user has it; None: hidden from the user


class Explainer:
    def __init__(self, tenant: str) -> None:
        self._tenant = tenant
        self.questions = Questions()  # those of all tenants, in a process that serves several

    async def reasons(self, user: int, book: Book, row: str, shown: Shown) -> list[str]:
        """Return lines on a task in firm, by its name there, with the tenant's rows."""
        try:
            found = await self.questions.ask(user, "why", book, tenant=self._tenant, task=row, line=0)
        except Refused as error:
            if error.name == "too-many-questions":
                raise
            return [f"firm's reasons are missing: {error}"]
        return list(lines_of(found, shown))


def lines_of(answer: Json, shown: Shown) -> Iterator[str]:
    """Write an answer in words."""
    own, rounds = answer["task"], dict(answer["round"])
    for choice in rounds["others"]:
        choice["tie"] = tie_of(choice["tie"], shown)
    rounds["others"] = [Choice(**choice) for choice in rounds["others"]]
    rounds["cheapest"] = rounds["cheapest"] and Free(**rounds["cheapest"])
    if (heavier := rounds["heavier"]) is not None:
        rounds["heavier"] = Heavier(heavier["weight"], heavier["machine"], list(changes_of(heavier["changes"], shown)))
    if rounds["untried"]:
        rounds["untried"] = rounds["untried"].replace(own, shown(own) or own)
    yield from sentences(Reasons(lines=[], **rounds), answer, None)


def tie_of(tie: str | None, shown: Shown) -> str | None:
    found = EARLIER.fullmatch(tie or "")
    return tie if found is None else f"{shown(found[1]) or 'a task of another user'}{found[2]}"


def changes_of(changes: Sequence[dict[str, Any]], shown: Shown) -> Iterator[PlacementChange]:
    """Return what would become of tasks, with one entry for all that are alike and not to be shown."""
    hidden: Counter[tuple[str, str | None, str | None]] = Counter()
    for change in changes:
        name = shown(change["task"])
        if name is None:
            hidden[change["change"], change["before"], change["after"]] += 1
        else:
            yield PlacementChange(**{**change, "task": name})
    for (what, before, after), count in hidden.items():
        yield PlacementChange(
            "a task of another user" if count == 1 else f"{count} tasks of others", "", what, before, after
        )
