"""The refusal of a request or a question."""

from __future__ import annotations

from typing import Any


class Refused(Exception):
    """A refusal: a name for programs, a text, and further fields of the answer."""

    def __init__(self, name: str, text: str, **more: Any) -> None:
        super().__init__(text)
        self.name, self.more = name, more

    def answer(self) -> dict[str, Any]:
        return {"error": self.name, "text": str(self), **self.more}
