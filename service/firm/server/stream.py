"""The stream through firm: lines into the journal and to firm, replies to their senders and to the observers.

Three threads work on it: the loop's accepts lines and hands out replies; a writer waits for the disk and for firm's
input; and one waits for firm's end. Shared state has a lock or goes through a queue; all other state belongs to one
thread. Lines wait in the queues of their tenants. All lines that leave the queues while the writer is busy share its
next write and its next sync.

A standby can replace the running firm between two writes, once that has answered all its lines.
"""

from __future__ import annotations

import asyncio
import os
import time
from collections import deque
from collections.abc import Callable, Iterator, Sequence
from dataclasses import dataclass
from itertools import groupby, islice
from queue import SimpleQueue
from threading import Event, Thread
from typing import NamedTuple, Protocol

from ..common.faults import Exit, Fault, Faults, GuardedReader, say
from ..common.lines import NO_MEMORY, OPERATOR_NO_MEMORY, WORN, is_memory_refused
from ..common.logs import ERROR, INFO, tell
from .budgets import Accounts
from .firm_process import FirmProcess
from .load import SYNC_SECONDS, Histogram
from .observers import ReplyObserver
from .pending import PendingBatches
from .records import UNKNOWN, Answered, Base, JournalBatch, Block, grouped
from .replay import Piece, Place
from .tenant_queues import OPERATORS, TenantQueueLimits, TenantQueues, Owner, LineBatch

BLOCK_LINES = 1_024  # at least, in a block of the journal
GROUP_BYTES = 1_048_576  # of lines that are written and synced together, unless one batch has more
READ_BYTES = 65_536  # small enough that the allocator needs no new memory from the system
WATCH_SECONDS = 1.0  # between checks of firm's and the disk's silence
LATE_SECONDS = 30.0  # of a write or a sync of the journal, after which firmd reports it
IDLE_SECONDS = 0.002  # between checks for unanswered lines
OPERATED, EXHAUSTED_END = (
    b"+ ok ",
    b" %b\n" % WORN,
)  # part of replies that admit or retire; end of an exhausted tenant's


class LineJournal(Protocol):
    """The stream's part of the journal: all pieces of the replay first, then appended lines."""

    @property
    def base(self) -> Base:
        """Return the base before the pieces."""

    @property
    def is_following(self) -> bool:
        """Return whether pieces come from another firmd, the leader."""

    @property
    def writing_since(self) -> float | None:
        """Return since when a write to its disk is under way, if any."""

    def pieces(self) -> Iterator[Piece]:
        ...

    def append(self, batches: Sequence[JournalBatch]) -> Place:
        ...

    def keep(self, block: Block) -> None:
        ...

    def keep_refused(self, numbers: list[int]) -> None:
        ...

    def close(self) -> None:
        ...


@dataclass(frozen=True, slots=True)
class Options:
    queues: TenantQueueLimits
    firm_timeout: float  # seconds without output of firm while replies are due


class Successor(NamedTuple):
    """A firm that replaces another one; it has read the same lines, from this base on."""

    firm: FirmProcess
    base: Base


class Stopping(Exception):
    """The stream is ending, so nothing may begin."""


Order = Callable[[], None]  # called by the writer between two writes


class Stream:
    """Passes lines to firm, and replies to their owners. Methods are for the loop's thread by default."""

    def __init__(
        self, firm: FirmProcess, journal: LineJournal, accounts: Accounts, faults: Faults, options: Options
    ) -> None:
        self.status, self._accounts, self._faults, self._options = accounts.status, accounts, faults, options
        self._observers: list[ReplyObserver] = []
        self.on_stop: Callable[[], None] = lambda: None  # called once, before the last lines leave the queues
        self.on_late: Callable[[], None] = lambda: None  # called at each check while a write of the journal is late
        self._loop = asyncio.get_running_loop()
        self.replayed: asyncio.Future[None] = self._loop.create_future()
        self.ended: asyncio.Future[None] = self._loop.create_future()  # with the fault, if any
        self._firm, self._journal, self._register = firm, journal, accounts.register
        self._written_to = firm  # the writer's
        self._expected = firm  # the same, as known to the loop, which reads the replies of `_firm`
        self._base = journal.base  # of the running firm
        self.status.lines = self._base.lines
        self.queues = TenantQueues(accounts, self._report_left, options.queues)
        self._is_dispatching = False  # lines are about to leave the queues
        # For the writer; None: the end.
        self._queue: SimpleQueue[list[LineBatch] | Block | Order | None] = SimpleQueue()
        self._under_way: deque[LineBatch] = deque()  # batches that have left the queues, in order
        self._pending = PendingBatches()
        self.sync_times = Histogram(SYNC_SECONDS)
        self._last_output = self._loop.time()  # of firm
        self._silence = 0.0  # at the last check
        self._is_late = False  # whether the journal was reported as late
        self._half = b""  # of a reply
        self._answered = Answered(self._base.size)
        self._replay_is_sent = False
        self._is_stopping, self._is_replayed = Event(), Event()
        self._may_write = Event()  # the replay is compared, or the stream is ending
        self._ending: asyncio.Task[None] | None = None
        self._fault: Fault | None = None
        self._written: asyncio.Future[None] = self._loop.create_future()  # at the writer's end
        self._firm_ended: asyncio.Future[str | None] = self._loop.create_future()  # with its failure, if any
        # All threads are made at the start, since the system may refuse one later.
        self._reader = GuardedReader("stream", self._read, faults, self._give_up)
        self._threads = [
            Thread(target=self._write, daemon=True),
            Thread(target=self._wait_for_firm, args=(firm,), daemon=True),
        ]

    def start(self) -> None:
        """Begin with the replay; `replayed` and `ended` report its progress."""
        try:
            for thread in self._threads:
                thread.start()
        except RuntimeError as error:
            raise Fault(Exit.INTERNAL, f"cannot start a thread: {error}") from error
        self._loop.add_reader(self._firm.output, self._reader)
        self._watch()

    def observe(self, observer: ReplyObserver) -> None:
        """Add an observer of each line from now on."""
        self._observers.append(observer)

    def take(self, batch: LineBatch) -> None:
        """Put a batch into the queue of its tenant."""
        if self.is_stopping:
            return
        batch.taken = self._loop.time()
        self.queues.take(batch)
        self._dispatch_soon()

    def stop(self) -> None:
        """Answer what has left the queues, and end; the caller accepts no further lines."""
        if not self.is_stopping:
            self._is_stopping.set()
            try:
                self.on_stop()
            except Exception as error:
                self._faults.note("client", error)
            self.queues.clear()
            self._dispatch()
            self._queue.put(None)
            self._may_write.set()

    def fail(self, fault: Fault) -> None:
        """End with this fault, unless there is an earlier one."""
        self._fault = self._fault or fault
        self.stop()

    @property
    def is_stopping(self) -> bool:
        return self._is_stopping.is_set()

    @property
    def is_replayed(self) -> bool:
        """Return whether the replay is complete; called by any thread."""
        return self._is_replayed.is_set()

    def order(self, order: Order) -> None:
        """Have the writer do something between two writes; called by any thread."""
        self._queue.put(order)

    def change_firm(self, finish: Callable[[], Successor]) -> None:
        """Replace the running firm; called by the writer, as an order.

        Once all lines have replies, `finish` makes the successor. If it raises, the running firm continues.
        """
        while self._pending.first() is not None and not self.is_stopping:
            time.sleep(IDLE_SECONDS)
        if self.is_stopping:
            raise Stopping
        successor = finish()
        self.call_in_loop(self._expect, successor.firm)  # before its end is reported
        Thread(target=self._wait_for_firm, args=(successor.firm,), daemon=True).start()
        self._written_to = successor.firm
        self.call_in_loop(self._switch, successor)

    def oldest_seconds(self) -> float:
        """Return the seconds since the oldest line without a reply was accepted."""
        waiting = [taken for taken in (self.queues.oldest(),) if taken is not None]
        waiting += [batch.taken for batch in islice(self._under_way, 1)]
        return self._loop.time() - min(waiting) if waiting else 0.0

    def silent_seconds(self) -> float:
        """Return the seconds without output of firm while replies, or its end, are due."""
        batch = self._pending.first()
        if batch is None:
            return self._loop.time() - self._last_output if self._written.done() else 0.0
        return self._loop.time() - max(self._last_output, batch.taken if batch.sent is None else batch.sent)

    def _watch(self) -> None:
        """End the service if firm is silent for too long: a restart may cure a hung one."""
        most = self._options.firm_timeout
        seconds = min(WATCH_SECONDS, most / 4)
        self._watch_disk()
        # Time in which firmd itself stood still, as on a suspended host, doesn't count.
        self._silence = min(self.silent_seconds(), self._silence + 2 * seconds)
        if self.ended.done():
            return
        if self._silence > most:
            self._faults.count("firm", f"firm has not answered for {most:g} s")
            return self._give_up(Fault(Exit.STATE, f"firm has not answered for {most:g} s: killing it"))
        self._loop.call_later(seconds, self._watch)

    def _watch_disk(self) -> None:
        """Report a late write of the journal. No line is refused: written ones may be on the disk, and others wait,
        unless another replica can lead."""
        since = self._journal.writing_since
        is_late = since is not None and time.monotonic() - since > LATE_SECONDS
        if is_late and not self._is_late:
            say(f"no journal write has completed for {LATE_SECONDS:g} s: lines wait")
        if self._is_late and not is_late:
            say("journal writes complete again", INFO)
        self._is_late = is_late
        if is_late:
            self.on_late()

    def _dispatch_soon(self) -> None:
        if not self._is_dispatching:
            self._is_dispatching = True
            self._loop.call_soon(self._dispatch)

    def _dispatch(self) -> None:
        """Dispatch ready batches to the writer."""
        self._is_dispatching = True  # lines that are accepted meanwhile leave too
        given: list[LineBatch] = []
        try:
            self.queues.next(given, self._loop.time())
            for name, seconds in self.queues.late():
                self._loop.call_later(seconds, self._wake, name)
            if given:
                self._queue.put(given)
                self._under_way += given
        except Exception as error:  # lines are lost
            tell(ERROR, "internal error", error)
            return self._give_up(Fault(Exit.INTERNAL, f"internal error: {error!r}"))
        self._is_dispatching = False
        if self.queues.has_ready:
            self._dispatch_soon()

    def _wake(self, queue: bytes) -> None:
        self.queues.wake(queue)
        self._dispatch_soon()

    def _report_left(self, batch: LineBatch, reply: bytes | None) -> None:
        """Notify a batch's owner that it has left its queue."""
        owner = batch.owner
        if owner is not None:
            try:
                owner.given(batch, reply)
            except Exception as error:
                self._lose(owner, error)

    def _lose(self, owner: Owner, error: Exception) -> None:
        """Drop an owner that can't be notified."""
        self._faults.note("client", error)
        owner.drop()

    # Other threads.

    def _wait_for_firm(self, firm: FirmProcess) -> None:
        try:
            trouble = firm.end()
        except BaseException as error:  # of any kind, since the service's end waits for this
            trouble = f"an unreadable status: {error!r}"
        self.call_in_loop(self._take_end, firm, trouble)

    def _write(self) -> None:
        try:
            self._replay()
            self._may_write.wait()
            while self.is_replayed and self._write_waiting():  # a journal that differs is not written
                pass
        except BrokenPipeError:  # firm has ended; the reading side reports it
            pass
        except Fault as fault:
            self.call_in_loop(self.fail, fault)
        except BaseException as error:  # of any kind, since the loop must learn of it
            self.call_in_loop(self.fail, Fault(Exit.INTERNAL, f"the writer failed: {error!r}"))
        try:
            self._written_to.close_input()
        except BaseException as error:
            self.call_in_loop(self._give_up, Fault(Exit.INTERNAL, f"firm's input can't be closed: {error!r}"))
        self.call_in_loop(self._end_writing)

    def call_in_loop(self, call: Callable[..., None], *arguments: object) -> None:
        """Call a function in the loop soon."""
        try:
            self._loop.call_soon_threadsafe(call, *arguments)
        except MemoryError:  # the service's end would wait for the call
            os._exit(Exit.INTERNAL)
        except RuntimeError:  # the loop has ended before
            pass

    def _replay(self) -> None:
        for piece in self._journal.pieces():
            if self.is_stopping:
                return
            batch = LineBatch(None, piece.text, piece.count, taken=time.monotonic(), place=piece.place, piece=piece)
            self.call_in_loop(self._count_replayed, len(piece.text))
            self._pending.add([batch])
            self._written_to.give(piece.effective())
            if self._journal.is_following:
                self._keep_blocks()
        if not self.is_stopping:
            self._loop.call_soon_threadsafe(self._end_replay)

    def _keep_blocks(self) -> None:
        """Store the blocks of a long replay, and execute orders meanwhile."""
        while not self._queue.empty():
            given = self._queue.get()
            if isinstance(given, Block):
                self._journal.keep(given)
            elif given is None or isinstance(given, list):  # None: the end
                return self._queue.put(given)
            else:
                given()

    def _write_waiting(self) -> bool:
        """Wait for batches, and write all waiting ones. Return False at the end."""
        batches: list[LineBatch] = []
        order: Order | None = None
        goes_on, is_first = True, True
        while goes_on and order is None and (is_first or not self._queue.empty()):
            is_first = False
            given = self._queue.get()
            if given is None:
                goes_on = False
            elif isinstance(given, Block):
                self._journal.keep(given)
            elif isinstance(given, list):
                batches += given
            else:
                order = given
        for group in grouped(batches, GROUP_BYTES, lambda batch: len(batch.text)):
            self._write_batches(group)
        if order is not None:
            order()
        return goes_on

    def _write_batches(self, batches: list[LineBatch]) -> None:
        records = journal_batches_of(batches)
        text = b"".join([record.text for record in records])
        began = time.monotonic()
        place = self._journal.append(records)
        number, end, now = place.number, place.end - len(text), time.monotonic()
        self.sync_times.add(now - began)
        for batch in batches:
            end += len(batch.text)
            batch.place, batch.sent = Place(number, end), now
            number += batch.count
        self._pending.add(batches)
        self._written_to.give(text)

    # The loop's thread.

    def _expect(self, firm: FirmProcess) -> None:
        self._expected = firm

    def _switch(self, successor: Successor) -> None:
        """Read the successor's replies from now on. The former firm has answered all lines, and ends."""
        former, self._firm = self._firm, successor.firm
        self._loop.remove_reader(former.output)
        self._loop.add_reader(self._firm.output, self._reader)
        self._last_output = self._loop.time()
        self.status.firm_process = self._firm.process.pid
        self.status.journal_bytes -= successor.base.size - self._base.size
        self._base = successor.base
        former.close_input()
        self._loop.call_later(self._options.firm_timeout, former.process.kill)  # if it has not ended by then
        if self._fault is not None:  # the end has begun
            self._firm.process.kill()

    def _take_end(self, firm: FirmProcess, trouble: str | None) -> None:
        """Handle the end of a firm."""
        if firm is not self._firm and firm is not self._expected:
            firm.output.close()
            if trouble is not None:
                self._faults.count("firm", f"a replaced firm ended with {trouble}")
        elif not self._firm_ended.done():
            self._firm_ended.set_result(trouble)

    def _end_writing(self) -> None:
        self._last_output = self._loop.time()  # from now on firm's end is due
        self._written.set_result(None)

    def _count_replayed(self, size: int) -> None:
        self.status.journal_bytes += size

    def _end_replay(self) -> None:
        self._replay_is_sent = True
        self._end_replay_once_answered()

    def _end_replay_once_answered(self) -> None:
        if self._pending.first() is None and not self.replayed.done():
            self.status.replayed_lines = self.status.lines - self._base.lines
            self.replayed.set_result(None)
            self._is_replayed.set()
            self._may_write.set()

    def _read(self) -> None:
        try:
            chunk = os.read(self._firm.output.fileno(), READ_BYTES)
        except BlockingIOError:
            return
        self._last_output = self._loop.time()
        if chunk:
            self._take_in(chunk)
        else:
            self._loop.remove_reader(self._firm.output)
            self._begin_end()

    def _take_in(self, chunk: bytes) -> None:
        """Hand out complete replies. If that fails, give up: the owner of each reply is unknown then."""
        try:
            *replies, self._half = (self._half + chunk).split(b"\n")
            done = 0
            while done < len(replies):
                done += self._answer_next(replies, done)
            if self._replay_is_sent and not self.replayed.done():
                self._end_replay_once_answered()
        except Fault as fault:
            self._give_up(fault)
        except Exception as error:
            tell(ERROR, "internal error", error)
            self._give_up(Fault(Exit.INTERNAL, f"internal error: {error!r}"))

    def _answer_next(self, replies: list[bytes], done: int) -> int:
        """Hand out the next replies to one batch. Return their number."""
        batch = self._pending.first()
        if batch is None:
            reply = replies[done].decode(errors="replace")
            raise Fault(Exit.FIRM, f"unexpected reply from firm: {reply}")
        count = min(batch.count - batch.answered, len(replies) - done)
        if batch.piece is not None and batch.piece.block is not None and batch.answered == 0:
            self._end_block()  # of earlier lines, whose record was lost
        self._answer_batch(batch, replies[done : done + count])
        if batch.answered == batch.count:
            self._pending.drop_first()
            self._end_batch(batch)
            if batch.piece is None:
                self._leave(batch)
            batch.text, batch.lines = b"", ()  # the writer may hold the batch, with many others, for some time
        return count

    def _leave(self, batch: LineBatch) -> None:
        """Account for an answered batch, and release the queues that waited for it."""
        self._under_way.popleft()
        self._accounts.count_heading(batch)
        self.queues.answered(batch)
        if self.queues.has_ready:
            self._dispatch_soon()

    def _answer_batch(self, batch: LineBatch, replies: list[bytes]) -> None:
        first, last = batch.answered, batch.answered + len(replies)
        text = b"\n".join(replies) + b"\n"
        batch.lines = batch.lines or batch.text.split(b"\n")
        lines = batch.lines[first:last]
        if NO_MEMORY in text or OPERATOR_NO_MEMORY in text:
            self._keep_refused(batch, replies)
        if batch.piece is not None and batch.piece.refused:
            batch.piece.restore_refused(first, replies)
            text = b"\n".join(replies) + b"\n"
        self._answered.replies.update(text)
        self._update_register(batch, text, replies)
        if batch.owner is not None:
            try:
                batch.owner.answered(text, len(replies))
            except Exception as error:
                self._lose(batch.owner, error)
        seconds = None if batch.sent is None else time.monotonic() - batch.sent
        try:
            for observer in self._observers:
                observer.replied_all(lines, replies, seconds)
        except Exception as error:
            trouble = f"the books can't apply {replies[0]!r} to {lines[0]!r}, or a later reply: {error!r}"
            raise Fault(Exit.INTERNAL, trouble) from error
        batch.answered = last
        self.status.lines += len(replies)

    def _update_register(self, batch: LineBatch, text: bytes, replies: list[bytes]) -> None:
        """Update the register of tenants by replies."""
        if batch.queue == OPERATORS:
            self._register.operated(replies)
        elif batch.piece is not None and OPERATED in text:
            self._register.take_in(replies)
        elif text.endswith(EXHAUSTED_END) and batch.piece is None:
            self._register.exhaust(replies[-1])

    def _keep_refused(self, batch: LineBatch, replies: list[bytes]) -> None:
        """Record refusals of memory, since a replay may have more. This waits for the disk; it is rare."""
        first = placed(batch).number + batch.answered
        numbers = [first + below for below, reply in enumerate(replies) if is_memory_refused(reply)]
        if numbers and batch.piece is not None:
            raise Fault(Exit.FIRM, "out of memory in the replay: restart with more memory")
        if numbers:
            self._journal.keep_refused(numbers)

    def _end_batch(self, batch: LineBatch) -> None:
        answered = self._answered
        answered.count += batch.count
        answered.end = placed(batch).end
        block = batch.piece.block if batch.piece is not None else None
        if block is None:
            if answered.count >= BLOCK_LINES:
                self._end_block()
            return
        if answered.block() != block:
            last = placed(batch).number + batch.count - 1
            what = f"lines {last - batch.count + 1} to {last} of the journal"
            raise Fault(Exit.JOURNAL, f"the replay's replies differ from the stored ones: {what}; was firm replaced?")
        self._answered = Answered(block.end)

    def _end_block(self) -> None:
        if self._answered.count:
            self._queue.put(self._answered.block())
            self._answered = Answered(self._answered.end)

    def _give_up(self, fault: Fault) -> None:
        """Stop at once: no further reply can be delivered."""
        try:
            self._loop.remove_reader(self._firm.output)
            self._pending.clear()
            self.fail(fault)
            for firm in {self._firm, self._expected}:
                firm.process.kill()
            self._begin_end()
        except MemoryError:  # the end can't begin either; answered lines are on the disk
            os._exit(Exit.INTERNAL)

    def _begin_end(self) -> None:
        if self._ending is None:
            self._ending = self._loop.create_task(self._end())

    async def _end(self) -> None:
        """Finish once firm has ended."""
        try:
            self.stop()
            trouble = await self._firm_ended
            await self._written
            if trouble is None and self._pending.first() is not None:
                trouble = "status 0 before its last reply"
            if trouble is not None:
                self._fault = self._fault or Fault(Exit.FIRM, f"firm ended with {trouble}")
            if self._fault is None:
                self._fault = self._close_journal()
        except Exception as error:  # the service must not wait for a failed end
            self._fault = self._fault or Fault(Exit.INTERNAL, f"the end failed: {error!r}")
        if self.ended.done():
            return
        if self._fault is None:
            self.ended.set_result(None)
        else:
            self.ended.set_exception(self._fault)

    def _close_journal(self) -> Fault | None:
        """Store the remaining blocks, and close the journal."""
        self._end_block()
        try:
            while self.is_replayed and not self._queue.empty():
                if isinstance(block := self._queue.get(), Block):
                    self._journal.keep(block)
            self._journal.close()
        except Fault as fault:
            return fault
        return None


def journal_batches_of(batches: list[LineBatch]) -> list[JournalBatch]:
    """Return the batches for the journal. Consecutive ones of one sender are joined."""
    found: list[JournalBatch] = []
    for sender, group in groupby(batches, sender_of):
        held = list(group)
        text = held[0].text if len(held) == 1 else b"".join([batch.text for batch in held])
        found.append(JournalBatch(sender, text, sum([batch.count for batch in held])))
        held[0].heading = found[-1].heading_bytes
    return found


def sender_of(batch: LineBatch) -> bytes:
    return batch.owner.sender if batch.owner is not None else UNKNOWN


def placed(batch: LineBatch) -> Place:
    if batch.place is None:
        raise Fault(Exit.INTERNAL, "firm answered lines that the journal does not have")
    return batch.place
