"""What the queue says to an agent, judged word by word.

A malformed word, as of a faulty queue or of another version's, is told and stands for nothing: for no lease, no token
and no pause. Well-formed words beside it count.
"""

from __future__ import annotations

from collections.abc import Callable
from typing import Any

from ..common.fields import TOKEN, FieldKind, Value
from ..common.logs import short


class Said:
    """An object of the queue's, its name for messages, and a listener to the reasons against its words."""

    def __init__(self, what: str, row: Any, refuse: Callable[[str], None]) -> None:
        self._what, self._row, self._refuse = what, row, refuse

    def get(self, word: str) -> Any:
        return self._row.get(word) if isinstance(self._row, dict) else None

    def has(self, word: str) -> bool:
        return isinstance(self._row, dict) and word in self._row

    def read(self, word: str, kind: FieldKind[Value]) -> Value | None:
        """Return a word of this kind; report any other value, and return None."""
        try:
            return self.need(word, kind)
        except ValueError as fault:
            self._refuse(str(fault))
            return None

    def need(self, word: str, kind: FieldKind[Value]) -> Value:
        """Return a word of this kind. Raise ValueError for any other value."""
        try:
            return kind.read(self.get(word))
        except ValueError as error:
            raise ValueError(self._fault(word, self.get(word), str(error))) from None

    def tokens(self, word: str) -> list[str]:
        """The tokens of a list; anything else in it is refused."""
        fault = self._fault_of_tokens(word)
        if fault is not None:
            self._refuse(fault)
        value = self.get(word)
        return [*filter(TOKEN.maybe, value)] if isinstance(value, list) else []

    def all_tokens(self, word: str) -> list[str]:
        """A list of tokens alone; raises ValueError where there is none."""
        fault = self._fault_of_tokens(word)
        if fault is not None:
            raise ValueError(fault)
        return list(self.get(word))

    def _fault_of_tokens(self, word: str) -> str | None:
        value = self.get(word)
        if not isinstance(value, list):
            return self._fault(word, value, "a list of tokens")
        others = [token for token in value if TOKEN.maybe(token) is None]
        return self._fault(f"one of {word}", others[0], TOKEN.wanted) if others else None

    def _fault(self, word: str, value: Any, wanted: str) -> str:
        if isinstance(self._row, dict):
            return f"{self._what}: {word} is {shown(value)}; it must be {wanted}"
        return f"{self._what} is {shown(self._row)}; it must be an object, with {word}"


def shown(value: Any) -> str:
    """A value for a message; of a list or an object only its kind."""
    return {list: "a list", dict: "an object", type(None): "not there"}.get(type(value)) or short(repr(value))
