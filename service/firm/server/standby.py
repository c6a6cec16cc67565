"""A standby: a second firm that gets the lines of the first, and whose replies must fit the stored digests."""

from __future__ import annotations

import os
import select
from collections.abc import Iterable

from ..common.faults import Exit, Fault
from ..common.lines import NO_MEMORY, OPERATOR_NO_MEMORY, is_memory_refused
from .firm_process import FirmProcess
from .records import Answered
from .replay import Piece

READ_BYTES = 262_144


class Standby:
    """Gives pieces of the journal to a firm and reads its replies, in the caller's thread."""

    def __init__(self, firm: FirmProcess, lines: int, seconds: float) -> None:
        self.firm = firm
        self.lines = lines  # before the next one
        self._milliseconds = seconds * 1_000  # that firm may be silent
        os.set_blocking(firm.input.fileno(), False)

    def take_until(self, pieces: Iterable[Piece], line: int) -> None:
        """Give firm its missing lines up to this one."""
        for piece in pieces:
            before, most = self.lines + 1 - piece.place.number, line + 1 - piece.place.number
            if before < min(most, piece.count):
                self.take(piece, before, min(most, piece.count))

    def take(self, piece: Piece, before: int = 0, most: int | None = None) -> list[bytes]:
        """Give firm a piece, or some of its lines. Return the replies as they were originally."""
        text, behind = piece.effective(), piece.count if most is None else most
        is_whole = (before, behind) == (0, piece.count)
        if not is_whole:
            text = b"".join([line + b"\n" for line in text.split(b"\n")[before:behind]])
        replies = self._answers(text, behind - before)
        whole, what = b"\n".join(replies), f"lines {self.lines + 1} to {self.lines + len(replies)} of the journal"
        if (NO_MEMORY in whole or OPERATOR_NO_MEMORY in whole) and any(map(is_memory_refused, replies)):
            raise Fault(Exit.FIRM, f"firm is out of memory: {what}")
        piece.restore_refused(before, replies)
        if piece.block is not None and is_whole:
            answered = Answered(piece.block.start, piece.block.end, piece.count)
            answered.replies.update(b"\n".join(replies) + b"\n")
            if answered.block() != piece.block:
                raise Fault(Exit.JOURNAL, f"firm's replies differ from the stored ones: {what}")
        self.lines += len(replies)
        return replies

    def settle(self) -> FirmProcess:
        """Return firm, with blocking pipes."""
        os.set_blocking(self.firm.input.fileno(), True)
        return self.firm

    def drop(self) -> None:
        self.firm.process.kill()
        self.firm.close_input()
        self.firm.output.close()
        self.firm.end()

    def _answers(self, text: bytes, count: int) -> list[bytes]:
        """Return the replies to lines, one for each."""
        rest, parts, missing = memoryview(text), list[bytes](), count
        poll, given, got = select.poll(), self.firm.input.fileno(), self.firm.output.fileno()
        poll.register(got, select.POLLIN)
        poll.register(given, select.POLLOUT)
        while missing > 0:
            ready = dict(poll.poll(self._milliseconds))
            if not ready:
                raise Fault(Exit.STATE, f"firm has not answered for {self._milliseconds / 1_000:g} s")
            if given in ready and rest:
                rest = rest[self._give(rest) :]
                if not rest:
                    poll.unregister(given)
            if got in ready:
                parts.append(os.read(got, READ_BYTES))
                if not parts[-1]:
                    raise Fault(Exit.FIRM, f"firm ended with {self.firm.end() or 'status 0 before its last reply'}")
                missing -= parts[-1].count(b"\n")
        *replies, half = b"".join(parts).split(b"\n")
        if missing or half:
            raise Fault(Exit.FIRM, "unexpected reply from firm")
        return replies

    def _give(self, text: memoryview) -> int:
        try:
            return os.write(self.firm.input.fileno(), text)
        except BrokenPipeError:
            raise Fault(Exit.FIRM, f"firm ended with {self.firm.end() or 'status 0 before its last reply'}") from None
