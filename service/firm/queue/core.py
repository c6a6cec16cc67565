"""What the queue knows and decides: submissions, their ends, and what firm should have.

All is decided at once, from rows in memory, and written. What follows from it outside, as answers, lines to firm and
words to agents, waits until the writes are on the disk.
"""

from __future__ import annotations

import asyncio
import time
from collections import Counter
from collections.abc import Collection, Iterable, Mapping, Sequence
from dataclasses import dataclass, field
from types import MappingProxyType

from ..common.books import Book, FirmTask as Row
from ..common.fields import Json
from ..common.quantities import DEFAULT_WEIGHT
from ..common.seen_time import boot_time
from ..common.users import User, job_of, owner_of
from . import queries, states
from .array_limits import ArrayLimits
from .backlog import Machines
from .disk_budget import ATTEMPT_BYTES, HOLD_BYTES, NEED_BYTES, Spending, attempts_bytes, rows_bytes
from .fair_order import Backlog
from ..common.refused import Refused
from .fields import Submit
from .firmd import Firm, Heard
from .placeholders import Placeholders
from .rows import DRAINED, IDLE, MOST_NUMBER, SINGLE, WORD_BYTES, Attempt, QueueJob, Mark, Name, Need, LiveRows
from .rows import Submission, Task
from .rows import idle_state
from .states import UserAction, End, Facts, Judgement, Needed, Past, TaskState
from .store import Store, text_of

MOST_ENDED = 20_000  # tasks that have ended and are kept in memory
MOST_ENDED_BYTES = 2**26  # that their words take
MOST_ANSWERS = 100_000  # submissions of requests with keys, whose answers are kept in memory
MOST_BYTES_OF_USER, MOST_BYTES = 2**26, 2**29  # of memory, that the words of tasks take which have not ended
ANSWER_BYTES = 100  # of the disk, for a submission of a request with a key


@dataclass(frozen=True, slots=True)
class QueueLimits:
    """How much there may be."""

    of_user: int  # tasks of one user, operators excepted, that have not ended
    in_all: int
    array: int  # tasks of one array
    budget: int = 2**30  # bytes of the disk that a user, operators excepted, may take, and again in each week
    weight: int = DEFAULT_WEIGHT  # of a job of such a user; a heavier job could preempt all tasks of others
    shares: Mapping[int, float] = field(default_factory=dict)  # of users in the order of work; of all others 1


Forgotten = Mapping[int, Submission]  # such as have ended and are not in memory any more
NONE: Forgotten = MappingProxyType({})


@dataclass(frozen=True, slots=True)
class Named:
    """For whom, and where beside memory, the names of what is waited for are looked up."""

    user: User
    labels: Mapping[str, int]  # numbers of submissions of the same list
    forgotten: Forgotten


class Core:
    def __init__(self, store: Store, firm: Firm, bounds: QueueLimits) -> None:
        self.store, self.firm, self.bounds = store, firm, bounds
        self.rows = LiveRows()
        self.backlog = Backlog(bounds.shares)
        self.left_free = False  # the last round left slots of firm's free
        self.array_limits = ArrayLimits()
        self.placeholders = Placeholders()
        self.unwanted: set[str] = set()  # rows of firm's that are to go
        self.leaving: set[str] = set()  # rows that firm was told to drop: none of them is begun meanwhile
        self.own_jobs: set[str] = set()  # of the queue's making, in firm
        self.strangers: set[Name] = set()  # rows of firm's with such names that memory does not have
        self.others: Counter[int] = Counter()  # rows of others in firm whose names have numbers yet to be assigned
        self.marks: dict[str, Mark] = {}  # machines that are cordoned or drained
        self.answers: dict[tuple[int, str], list[Json]] = {}  # to requests with keys, lately
        self._answered = 0  # submissions that they name
        self.spending = Spending(bounds.budget, boot_time)
        self.ends = Ends()
        self.ended_attempts: Counter[str] = Counter()  # since the start, by outcome
        self.news = asyncio.Event()  # set once more is heard of firm; there is another one then
        self._aged_by: Book | None = None  # whose rounds `Task.since` counts
        self._dirty: set[Name] = set()  # tasks of which it is to be looked whether firm should have them

    # Memory

    async def load(self) -> queries.StoredState:
        """Has memory say what the database says."""
        kept = await self.store.read(queries.load)
        last = self.rows.last_number
        self.rows, self.marks = kept.rows, kept.marks
        self.store.read_anew(kept.point, kept.seals)
        self.rows.last_number = max(self.rows.last_number, last)
        self.spending.load(kept.spent)
        self.answers.clear()
        self._answered = 0
        self._begin_needs([submission for submission in self.rows.submissions.values() if submission.live])
        self.look_at_all()
        self.ends.tell_all()
        return kept

    async def find(self, number: int) -> Submission | None:
        """A submission, from the database where memory has it no more."""
        found = self.rows.submissions.get(number)
        if found is None and 0 < number <= self.rows.last_number:
            await self.store.settled()  # what memory has just forgotten has ended on the disk too then
            read = await self.store.read(lambda connection: queries.submissions(connection, [number]))
            found = self.rows.submissions.get(number) or (read[0] if read else None)
        return found

    def has_ended(self, name: Name) -> bool:
        """Whether a task has, or all of a submission; what memory has no more has ended."""
        submission = self.rows.submissions.get(name.number)
        if submission is None or name.index == SINGLE:
            return submission is None or not submission.live
        return not submission.tasks[name.index].is_live

    def facts(self, task: Task) -> Facts:
        """What the task's state follows from, by what is known of firm now."""
        return facts_of(task, self.firm.rows)

    # Submissions

    def submit(self, user: User, asked: Sequence[Submit], key: str | None, forgotten: Forgotten) -> list[Submission]:
        """Makes submissions, all or none; those that they wait for are in memory, or forgotten there."""
        self.store.require_good()
        texts = [text_of(one.spec) for one in asked]
        size = self._require_room(user, asked, texts) + len(key or "")
        jobs: dict[str, QueueJob] = {}
        numbers = self._next_numbers(len(asked))
        labels = {one.label: number for number, one in zip(numbers, asked) if one.label is not None}
        named, made = Named(user, labels, forgotten), []
        for at, one in enumerate(asked):
            try:
                made.append(self._made(one, jobs, named))
            except Refused as refusal:
                refusal.more["at"] = at
                raise
        now = time.time()
        for text, number, submission in zip(texts, numbers, made):
            submission.number, submission.sent = number, now
            submission.measure(text)
            self.rows.add(submission)
            self.store.add(submission, text)
            self._dirty.update(task.name for task in submission.tasks.values())
        self._begin_needs(made, forgotten)
        self._spend(user.number, size)
        self.rows.forget(MOST_ENDED, MOST_ENDED_BYTES)
        if key is not None:
            self._keep_answer(user, key, [submission.answer() for submission in made])
        self.firm.changed.set()
        return made

    def _next_numbers(self, count: int) -> list[int]:
        """Return free numbers for submissions. Names of others, as of a queue whose database was lost, occupy some."""
        found: list[int] = []
        number = self.rows.last_number
        while len(found) < count:
            number += 1
            if number not in self.others:
                found.append(number)
        if number > MOST_NUMBER:
            raise Refused("queue-full", f"the numbers up to {MOST_NUMBER:,} are used up: begin a new state")
        return found

    def _keep_answer(self, user: User, key: str, answer: list[Json]) -> None:
        self.answers[user.number, key] = answer
        self.store.keep_answer(user.number, key, answer)
        self._answered += len(answer)
        while self._answered > MOST_ANSWERS:
            self._answered -= len(self.answers.pop(next(iter(self.answers))))

    def _spend(self, user: int, size: int) -> None:
        self.store.spend(user, self.spending.spend(user, size))

    def _require_room(self, user: User, asked: Sequence[Submit], texts: Sequence[str]) -> int:
        """The bytes of the disk that submissions take; raises `Refused` where they may not."""
        bounds = self.bounds
        count = sum(one.count for one in asked)
        for at, one in enumerate(asked):
            if one.count > bounds.array:
                told = f"{one.count:,} tasks; an array may have {bounds.array:,}"
                raise Refused("array-too-large", told, at=at)
        live = self.rows.live_of_user.get(user.number, 0)
        if not user.is_operator and live + count > bounds.of_user:
            told = f"task limit exceeded: {live:,} active + {count:,} new > {bounds.of_user:,}"
            raise Refused("quota", told)
        if self.rows.live + count > bounds.in_all:
            raise Refused("queue-full", f"{self.rows.live:,} tasks have not ended; there may be {bounds.in_all:,}")
        needs = sum(len(one.after) + len(one.after_any) for one in asked)
        words = sum(len(one.spec.command) + len(one.spec.env) for one in asked) + needs
        self._require_memory(user, sum(map(len, texts)) + WORD_BYTES * words)
        answers = ANSWER_BYTES * len(asked)
        size = (
            sum(rows_bytes(len(text), 0, one.count) for text, one in zip(texts, asked)) + NEED_BYTES * needs + answers
        )
        size += sum(attempts_bytes(one.spec, one.count) for one in asked)
        if not user.is_operator:
            self.spending.require(user.number, size)
        return size

    def _require_memory(self, user: User, size: int) -> None:
        """Raises `Refused` where the words of what has not ended would take too much."""
        held, told = self.rows.bytes_of_user.get(user.number, 0), f"{size:,} more would pass"
        if not user.is_operator and held + size > MOST_BYTES_OF_USER:
            what = f"the words of your tasks that have not ended take {held:,} bytes"
            raise Refused("quota", f"{what}, {told} {MOST_BYTES_OF_USER:,}")
        if self.rows.bytes + size > MOST_BYTES:
            what = f"the words of all tasks that have not ended take {self.rows.bytes:,} bytes"
            raise Refused("queue-full", f"{what}, {told} {MOST_BYTES:,}")

    def _made(self, one: Submit, jobs: dict[str, QueueJob], named: Named) -> Submission:
        """A submission without number; `jobs` are those of the same request."""
        name, job = self._job(named.user, one, jobs)
        if not named.user.is_operator and job.weight > self.bounds.weight:  # one of before the bound, too
            told = f"the job {name} with the weight {job.weight:,}; a job of yours may have {self.bounds.weight:,}"
            raise Refused("weight-too-large", told)
        jobs[name] = job
        first, last = (one.indexes[0], one.indexes[-1]) if one.indexes is not None else (None, None)
        needs = [self._need(text, True, named) for text in one.after]
        needs += [self._need(text, False, named) for text in one.after_any]
        place = (name, job.weight, one.spec, first, last)
        made = Submission(0, named.user.number, *place, 0.0, tuple(dict.fromkeys(needs)))
        made.add_tasks(one.is_held)
        return made

    def _job(self, user: User, one: Submit, jobs: dict[str, QueueJob]) -> tuple[str, QueueJob]:
        """The job of a submission, and its name."""
        name = one.job or job_of(user.number)
        if (owner := owner_of(name)) not in (None, user.number):  # the default job of that user
            raise Refused("not-yours", f"the job {name} is the user {owner}'s")
        found = jobs.get(name) or self.rows.jobs.get(name)
        if found is not None and found.user != user.number and one.job is None:
            name = f"u{user.number}"
            found = jobs.get(name) or self.rows.jobs.get(name)
        if found is None:
            usual = DEFAULT_WEIGHT if user.is_operator else min(DEFAULT_WEIGHT, self.bounds.weight)
            return name, QueueJob(user.number, one.weight or usual)
        if found.user != user.number:
            raise Refused("not-yours", f"the job {name} is another user's")
        if one.weight not in (None, found.weight):
            raise Refused("job-has-weight", f"the job {name} has the weight {found.weight}")
        return name, found

    def _need(self, text: str, is_ok: bool, named: Named) -> Need:
        if text.startswith("@"):
            if text[1:] not in named.labels:
                raise Refused("no-such-label", f"{text}: no submission of the list has this label")
            return Need(named.labels[text[1:]], None, is_ok)
        name = Name.read(text)
        submission = self._submission(name.number, named.forgotten) if name is not None else None
        if name is None or submission is None or not named.user.may_see(submission.user):
            raise Refused("no-such-task", f"{text}: no such task")
        if name.index == SINGLE:
            return Need(name.number, None, is_ok)
        if name.index not in submission.tasks:
            raise Refused("no-such-task", f"{text}: no such task")
        return Need(name.number, name.index, is_ok)

    def _submission(self, number: int, forgotten: Forgotten) -> Submission | None:
        return self.rows.submissions.get(number) or forgotten.get(number)

    def _begin_needs(self, submissions: Sequence[Submission], forgotten: Forgotten = NONE) -> None:
        """Looks what these wait for; from then on each end is counted once. Ends what never may begin."""
        for submission in submissions:
            submission.open_needs = sum(self.needed(need).live > 0 for need in submission.needs)
            if submission.is_blocked and submission.live:
                self.rows.recount(submission)
        for submission in submissions:
            judgement = states.judge(self.needed(need, forgotten) for need in submission.needs)
            if judgement == Judgement.UNMET and submission.live:
                self._follow(self._end_unmet(submission, forgotten))

    def _end_unmet(self, submission: Submission, forgotten: Forgotten = NONE) -> list[Task]:
        """Ends what never may begin."""
        unmet = next(need for need in submission.needs if need.is_ok and self.needed(need, forgotten).failed)
        idle = [task for task in self.rows.live_of([submission]) if task.open_attempt is None]
        why = self._why_unmet(unmet, forgotten)
        for task in idle:
            self._finish(task, TaskState.UNMET, why)
        return idle

    def _why_unmet(self, need: Need, forgotten: Forgotten) -> str:
        """Return how the first needed task that did not end with `done` has ended. Thousands may ask at once."""
        submission, first = self._submission(need.number, forgotten), None
        if submission is not None:
            first = submission.failure if need.index is None else submission.tasks[need.index]
        if first is None:
            return f"{need} did not end with done"
        return f"{first.name} {first.outcome}{f', status {first.status}' if first.status is not None else ''}"

    def needed(self, need: Need, forgotten: Forgotten = NONE) -> Needed:
        submission = self._submission(need.number, forgotten)
        if submission is None:  # it ended long ago, as it should: what waited for it would have ended otherwise
            return Needed(need.is_ok, 0, 0)
        if need.index is None:
            return Needed(need.is_ok, submission.live, submission.failed)
        task = submission.tasks[need.index]
        return Needed(need.is_ok, int(task.is_live), int(task.outcome not in (None, TaskState.DONE)))

    # Changes

    def unchanged(self, change: UserAction, tasks: Iterable[Task]) -> dict[str, str]:
        """Return why a change leaves tasks as they are, by the names of those that it does."""
        found = ((task, states.refusal(change, self.facts(task))) for task in tasks)
        return {str(task.name): why for task, why in found if why is not None}

    def change(self, user: User, change: UserAction, tasks: Collection[Task]) -> tuple[list[Task], dict[str, str]]:
        """Cancels, holds or releases tasks; those that it changed, and why the others were left."""
        self.store.require_good()
        unchanged = self.unchanged(change, tasks)
        changed = [task for task in tasks if str(task.name) not in unchanged]
        if changed and change != UserAction.CANCEL and not user.is_operator:
            self.spending.require(user.number, HOLD_BYTES * len(changed))
            self._spend(user.number, HOLD_BYTES * len(changed))
        for task in changed:
            if change != UserAction.CANCEL:
                self.rows.hold(task, change == UserAction.HOLD)
            elif task.open_attempt is None:
                self.end(task, TaskState.CANCELLED)
            else:
                task.is_cancelled = True
        self.store.save(task for task in changed if task.is_live)
        self.look_at(task.name for task in changed)
        return changed, unchanged

    def end(self, task: Task, outcome: str, reason: str = "", status: int | None = None) -> None:
        """Ends a task, and what can't begin any more without it."""
        self._finish(task, outcome, reason, status)
        self._follow([task])
        self.rows.forget(MOST_ENDED, MOST_ENDED_BYTES)
        self.firm.changed.set()

    def _finish(self, task: Task, outcome: str, reason: str, status: int | None = None) -> None:
        task.outcome, task.reason, task.status, task.ended = outcome, reason, status, time.time()
        self.rows.ended(task)
        self.store.save([task])
        self._dirty.add(task.name)
        self.ends.tell(task.submission.number)

    def _follow(self, ended: list[Task]) -> None:
        """Looks at what waits for tasks that have ended, and at what waits for that."""
        while ended:
            task = ended.pop()
            for number, is_lost in self.rows.waiting_for(task):
                waiter = self.rows.submissions[number]
                if is_lost:
                    ended += self._end_unmet(waiter)
                    continue
                waiter.open_needs -= 1
                if not waiter.is_blocked:
                    self.rows.recount(waiter)
                    self._dirty.update(one.name for one in self.rows.live_of([waiter]))

    def may_drop(self, number: int) -> bool:
        """Return whether no live task needs a submission."""
        submission = self.rows.submissions.get(number)
        return (submission is None or not submission.live) and number not in self.rows.waiters

    def drop(self, number: int, is_large: bool) -> None:
        """Remove a submission that ended long ago."""
        self.store.require_good()
        self.rows.drop(number)
        self.store.drop(number, is_large)

    # Attempts

    def begin_attempt(self, task: Task, attempt: Attempt) -> None:
        task.attempts, task.attempt, task.told, task.since = attempt.number, attempt, "", None
        self.rows.begin(attempt)
        self.store.save_attempt(attempt)
        self.store.save([task])
        self._spend(task.submission.user, ATTEMPT_BYTES)

    def end_attempt(self, attempt: Attempt, end: End, seconds: float | None = None) -> float:
        """Ends an attempt, and its task where that follows; the seconds until the task may be tried again."""
        task = self.rows.task(attempt.name)
        if task is None:
            raise RuntimeError(f"{attempt.name}: an open attempt without its task")
        past = Past(task.submission.spec.retries, task.failures, task.lost, task.is_cancelled)
        verdict = states.after(end, past)
        has_status = end.kind == "ended"
        attempt.outcome, attempt.reason, attempt.ended = verdict.attempt, verdict.reason, time.time()
        mark = self.marks.get(attempt.machine)
        if verdict.attempt in states.BY_FIRM and mark is not None and mark.kind == DRAINED:
            attempt.reason = f"drained by {mark.told}"
        self.ended_attempts[verdict.attempt] += 1
        attempt.status = end.status if has_status else None
        if seconds is None and attempt.began is not None:
            seconds = max(0.0, attempt.ended - attempt.began)  # by clocks that may have been set
        attempt.seconds = seconds
        self.rows.end(attempt)
        task.failures, task.lost = verdict.failures, verdict.lost
        self.store.save_attempt(attempt)
        if verdict.task is not None:
            self.end(task, verdict.task, verdict.reason, attempt.status)
        else:
            task.due = boot_time() + verdict.pause
            task.told = f"{verdict.reason}; tried again in {verdict.pause:g} s" if verdict.pause else ""
            self.store.save([task])
        self.look_at([task.name])
        return verdict.pause

    # What firm should have

    def look_at(self, names: Iterable[Name]) -> None:
        """Has it looked at soon whether firm should have these tasks."""
        self._dirty.update(names)
        self.firm.changed.set()

    def _keep_ages(self) -> None:
        """Keep the waits of tasks when firm's rows are read again, with another count of rounds."""
        before, self._aged_by = self._aged_by, self.firm.rows
        more = (self._aged_by.rounds if self._aged_by is not None else 0) - (before.rounds if before is not None else 0)
        for task in self.rows.live_tasks() if before is not self._aged_by else ():
            task.since = task.since + more if task.since is not None else None

    def look_at_all(self) -> None:
        self._keep_ages()
        self.backlog, self.array_limits, self.strangers = Backlog(self.bounds.shares), ArrayLimits(), set()
        self.placeholders.clear()
        self.unwanted.clear()
        self.others.clear()
        self._dirty = {task.name for task in self.rows.live_tasks()}
        for row in self.firm.rows.tasks if self.firm.rows is not None else ():
            if (name := Name.of_firm(row)) is not None:
                self._dirty.add(name)
                self._skip(name, 1)
                self.placeholders.enter(row, name)
        self.firm.changed.set()

    def announce(self) -> None:
        """Have those who wait for news of firm look anew."""
        self.news.set()
        self.news = asyncio.Event()

    def hear(self, heard: Heard) -> None:
        """Takes in what firm has obeyed."""
        self.announce()
        if not heard.words or heard.words[0] == "round":
            rows = self.firm.rows
            self.left_free = rows is not None and rows.running < rows.slots
        if not heard.words:
            self.leaving.clear()
            self.look_at_all()
        elif heard.words[0] in ("task", "done"):
            row = heard.words[2] if heard.words[0] == "task" else heard.words[1]
            self.leaving.discard(row)
            self.unwanted.discard(row)
            name = Name.of_firm(row)
            if name is not None:
                self._dirty.add(name)
                is_new = heard.words[0] == "task"
                self._skip(name, 1 if is_new else -1)
                (self.placeholders.enter if is_new else self.placeholders.leave)(row, name)
        elif heard.words[0] == "close":
            self.own_jobs.discard(heard.words[1])

    def sort(self, machines: Machines) -> None:
        """Looks at the tasks that changed: what is to go into firm, and what is to leave it."""
        book = self.firm.book
        if book is None:
            return
        for firm in self.placeholders.look(machines, book, self.rows.jobs):
            if (name := Name.of_firm(firm)) is not None:
                self._dirty.add(name)
        names, self._dirty = self._dirty, set()
        for name in names:
            task = self.rows.task(name)
            rows = self.placeholders.rows_of(name, task, book)
            if task is not None:
                self._sort(task, rows, book)
                continue
            self.backlog.claims.forget(name)
            if rows:
                self.strangers.add(name)
        for task in self.array_limits.next():
            self.backlog.put(task)

    def _sort(self, task: Task, rows: dict[str, Row], book: Book) -> None:
        row = self.placeholders.choose(task, rows)
        is_wanted = states.is_wanted(self.facts(task)) and (row is not None or task.firm not in rows)
        self.backlog.claims.note(task, is_wanted and row is not None or task.open_attempt is not None)
        if is_wanted and task.since is None and task.open_attempt is None:
            task.since = book.rounds - (book.waited(row) if row is not None else 0)
        if is_wanted and (row is None or self.placeholders.replace(task, row, book)):
            if self.array_limits.admits(task):
                self.backlog.put(task)
        elif is_wanted:
            self.array_limits.admit(task)
            self.backlog.drop(task)
        else:
            self.array_limits.leave(task)
            self.backlog.drop(task)
            task.since = None
        for firm, each in rows.items():
            is_own, is_run = is_wanted and firm == task.firm, each is row and task.open_attempt is not None
            stands = not is_own and not is_run and self.placeholders.may_stand(each, book, self.rows.jobs)
            set_member(self.placeholders.standing, firm, stands)
            set_member(self.unwanted, firm, not is_own and not stands)

    def rows_in_firm(self, task: Task) -> dict[str, Row]:
        """Return a task's rows in firm, by their names."""
        book = self.firm.book
        return self.placeholders.rows_of(task.name, task, book) if book is not None else {}

    def foreign(self) -> dict[str, Row]:
        """Return the rows in firm that the queue has not submitted, by their names."""
        rows = self.firm.rows.tasks if self.firm.rows is not None else {}
        return {firm: row for firm, row in rows.items() if self._is_foreign(firm, row)}

    def _is_foreign(self, firm: str, row: Row) -> bool:
        name = Name.of_firm(firm)
        task = self.rows.task(name)
        if name is None or task is None:
            return firm not in self.placeholders.standing
        return firm != name.firm and row.job != task.submission.job

    def _skip(self, name: Name, more: int) -> None:
        """Count the rows of others in firm that occupy a number."""
        if more > 0 and name.number > self.rows.last_number or name.number in self.others:
            self.others[name.number] += more
            if not self.others[name.number]:
                del self.others[name.number]

    async def know_strangers(self) -> None:
        """Finds out whether rows that memory does not have are those of tasks that ended."""
        numbers = {name.number for name in self.strangers if name.number <= self.rows.last_number}
        found = await self.store.read(lambda connection: queries.submissions(connection, numbers)) if numbers else []
        for submission in found:
            if submission.number not in self.rows.submissions and not submission.live:
                self.rows.add(submission)
                self._dirty.update(task.name for task in submission.tasks.values())
        self.strangers.clear()

    def idle_jobs(self) -> frozenset[str]:
        """Jobs of the queue's own in firm that have no tasks, or another weight than they should."""
        book = self.firm.book
        if book is None:
            return frozenset()
        return frozenset(
            job
            for job in self.own_jobs
            if job in book.jobs and (job not in self.rows.jobs or self.rows.jobs[job].weight != book.jobs[job])
        )

    async def know_jobs(self) -> None:
        """Finds out which jobs in firm are of the queue's own."""
        book = self.firm.book
        if book is not None:
            unknown = [job for job in book.jobs if job not in self.own_jobs]
            self.own_jobs |= await self.store.read(lambda connection: queries.own_jobs(connection, unknown))

    def counts(self, tasks: Iterable[Task]) -> Counter[str]:
        return Counter(states.state_of(self.facts(task)).value for task in tasks)

    def begun(self) -> dict[Name, Task]:
        """Return the queue's tasks with a row in firm or a process."""
        rows, names = self.firm.rows, [attempt.name for attempt in self.rows.open.values()]
        names += filter(None, map(Name.of_firm, rows.tasks if rows is not None else ()))
        found = ((name, self.rows.task(name)) for name in names)
        return {name: task for name, task in found if task is not None and task.is_live}

    def states_of(self, user: int | None) -> Counter[str]:
        """Return the number of live tasks in each state, of a user or of all."""
        idle = self.rows.counts if user is None else self.rows.counts_of_user.get(user, [])
        return self.states_with(idle, [task for task in self.begun().values() if user in (None, task.submission.user)])

    def states_with(self, idle: Sequence[int], begun: Sequence[Task]) -> Counter[str]:
        """Return the numbers of tasks by state, from those by idle state and the tasks that are not idle."""
        counts = Counter({state: count for state, count in zip(IDLE, idle) if count})
        if not begun:  # as of most jobs
            return counts
        counts.subtract(map(idle_state, begun))
        return counts + self.counts(begun)

    def oldest(self) -> dict[str, float]:
        """Return the time of the oldest task's submission, by state."""
        found, begun = dict[str, float](), Counter[tuple[int, str]]()
        for task in self.begun().values():
            state, sent = states.state_of(self.facts(task)).value, task.submission.sent
            found[state] = min(found.get(state, sent), sent)
            begun[task.submission.number, idle_state(task)] += 1
        for place, state in enumerate(IDLE):
            for number in self.rows.numbers[place]:
                submission = self.rows.submissions[number]
                if submission.counted[place] > begun[number, state]:
                    found[state] = min(found.get(state, submission.sent), submission.sent)
                    break
        return found

    def ages(self) -> tuple[Counter[str], dict[str, float]]:
        """How many tasks are in each state, and when the oldest of them was submitted."""
        return self.states_of(None), self.oldest()


def set_member(found: set[str], name: str, is_in: bool) -> None:
    """Add a name to a set, or discard it."""
    if is_in:
        found.add(name)
    else:
        found.discard(name)


def facts_of(task: Task, rows: Book | None) -> Facts:
    """Return the facts that decide a task's state, by firm's rows."""
    row = rows.tasks.get(task.firm) if rows is not None and task.outcome is None else None
    attempt = task.open_attempt
    return Facts(
        task.outcome,
        task.is_held,
        task.submission.is_blocked,
        task.is_cancelled,
        row is not None,
        row.machine if row is not None else None,
        attempt.machine if attempt is not None else None,
        attempt is not None and attempt.began is not None,
        attempt is not None and attempt.is_kept,
    )


class Ends:
    """Those that wait for tasks to end."""

    def __init__(self) -> None:
        self._waiting: dict[int, set[asyncio.Event]] = {}

    def add(self, numbers: Iterable[int], event: asyncio.Event) -> None:
        for number in numbers:
            self._waiting.setdefault(number, set()).add(event)

    def drop(self, numbers: Iterable[int], event: asyncio.Event) -> None:
        for number in numbers:
            self._waiting.get(number, set()).discard(event)
            if not self._waiting.get(number):
                self._waiting.pop(number, None)

    def tell(self, number: int) -> None:
        for event in self._waiting.get(number, ()):
            event.set()

    def tell_all(self) -> None:
        for number in self._waiting:
            self.tell(number)
