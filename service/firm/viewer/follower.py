"""Applies the feed to the view model."""

from __future__ import annotations

from collections.abc import Callable

from ..common.books import Books
from ..server.feed import BEGIN, END, LINES, LOAD, STATUS, TENANT, begun, book_of, lines_of, load_of, status_of
from .view_model import ViewModel


class Follower:
    """Applies messages of the feed, and shows new rows once they are complete."""

    def __init__(self, shown: ViewModel, on_shown: Callable[[], None]) -> None:
        self._shown, self._on_shown = shown, on_shown
        self._coming: Books | None = None  # books whose rows are incomplete
        self._state = ""

    def take(self, kind: int, text: bytes) -> None:
        """Apply a message. After an error the view model is wrong, and the viewer must end."""
        if kind == LINES:
            (self._coming or self._shown).replied_all(*lines_of(text))
        elif kind == STATUS:
            self._shown.take_status(*status_of(text))
        elif kind == LOAD:
            self._shown.load = load_of(text)
        elif kind == BEGIN:
            self._state, self._coming = begun(text)
        elif kind == TENANT and self._coming is not None:
            self._coming.put(book_of(text))
        elif kind == END and self._coming is not None:
            self._shown.replace(self._coming, self._state)
            self._coming = None
            self._on_shown()
        else:
            raise ValueError(f"unexpected message of kind {kind}")
