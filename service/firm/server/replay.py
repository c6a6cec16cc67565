"""Cuts the journal's lines into the pieces of a replay."""

from __future__ import annotations

from collections import deque
from collections.abc import Iterator
from dataclasses import dataclass
from typing import NamedTuple

from ..common.lines import NO_MEMORY, OPERATOR_NO_MEMORY, first_word
from .records import Block, plain
from .recovery import Found, damaged, read_file

PIECE_BYTES = 262_144  # of lines without a block


class Place(NamedTuple):
    """The place of lines among all lines."""

    number: int  # of the first, from 1
    end: int  # in bytes, as firm reads them


@dataclass(frozen=True, slots=True)
class Piece:
    """Lines of a replay: a block, or lines after the last block."""

    text: bytes
    count: int
    place: Place
    block: Block | None
    refused: frozenset[int]  # lines whose memory was refused, counted from 0 in the piece

    def effective(self) -> bytes:
        """Return the text for firm. Lines whose memory was refused are their first word: they only count."""
        if not self.refused:
            return self.text
        lines = self.text.split(b"\n")
        for number in self.refused:
            lines[number] = first_word(lines[number]) or b"+"
        return b"\n".join(lines)

    def restore_refused(self, first: int, replies: list[bytes]) -> None:
        """Restore the original replies to lines whose memory was refused; `first` is the number of the first reply."""
        for number in self.refused:
            if first <= number < first + len(replies):
                tenant, count, *_ = replies[number - first].split(b" ")
                is_operators = tenant == b"+"
                replies[number - first] = (
                    OPERATOR_NO_MEMORY if is_operators else b"%b %b %b" % (tenant, count, NO_MEMORY)
                )


def pieces_of(found: Found) -> Iterator[Piece]:
    """Yield all lines of the journal in order."""
    blocks = deque(sorted(found.blocks, key=lambda block: block.start))
    text, start, number = b"", found.base.size, found.base.lines + 1  # lines that remain, and their place
    segments = list(found.segments)
    for segment in segments:
        data = read_file(segment.path)
        if segment is segments[-1]:
            data = data[: found.last_size]
        text += plain(data)
        at = 0
        for end, block in _cuts(text, start, blocks):
            piece = _piece(found, text[at:end], Place(number, start + end), block)
            at, number = end, number + piece.count
            yield piece
        text, start = text[at:], start + at


def _cuts(text: bytes, start: int, blocks: deque[Block]) -> Iterator[tuple[int, Block | None]]:
    """Yield the ends of a text's pieces, with their blocks. The rest of the text is of a block that ends after it."""
    at = 0
    while at < len(text):
        while blocks and blocks[0].start < start + at:
            blocks.popleft()  # another block has its lines, or it began before the text
        block = blocks[0] if blocks else None
        if block is None or block.start > start + at:
            at = _piece_end(text, at, len(text) if block is None else block.start - start)
            yield at, None
        elif block.end - start <= len(text):
            at = block.end - start
            yield at, blocks.popleft()
        else:
            return


def _piece_end(text: bytes, start: int, most: int) -> int:
    """Return the end of a piece without a block: the end of a line, within the bound if possible."""
    end = text.rfind(b"\n", start, min(most, start + PIECE_BYTES)) + 1
    return end if end else text.index(b"\n", start) + 1


def _piece(found: Found, text: bytes, place: Place, block: Block | None) -> Piece:
    count = text.count(b"\n")
    if block is not None and (block.count != count or not text.endswith(b"\n")):
        last = place.number + count - 1
        damaged(f"{found.segments[0].path.parent}: the replies to lines {place.number} to {last} are of others")
    refused = frozenset(number - place.number for number in found.refused if 0 <= number - place.number < count)
    return Piece(text, count, place, block, refused)
