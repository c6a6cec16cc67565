"""What users, operators and agents ask of a queue, and what it answers. `/v1/openapi.json` has what users and operators
ask by HTTP; the words of agents are below. A refusal changes nothing. What is acknowledged is on the disk.

Names. A *submission* has a number: 1, 2, .. One without an array is the task `12`, of an array of 1 to 3 the tasks
`12_1`, `12_2`, `12_3`; `12` then names all of them. firm's names are `12` and `12-1`. A task that firm places on a busy
machine whose agent is away is given again, if others have room, as `12a` or `12a1`, with `b` the next time, ..; the row
there stays until the agent is back. Times are seconds of the Unix clock for people; nothing is decided by them.

States of a task: `held`, `blocked` (waits for other tasks), `queued` (not in firm), `waiting` (in firm, no slot),
`starting` (placed, no process yet), `running`, `ending` (its process is to end); ended ones are `done` (status 0),
`failed`, `timeout`, `cancelled`, `unmet` (what it waited for failed), `lost` (nobody knows how it ended). `foreign` are
tasks in firm that the queue did not submit; only operators see them, and the queue leaves them alone.

Agents
======

An agent keeps one WebSocket, and whoever has the right to connect is an agent. Each text frame is a JSON object, a
request with `ask`, or an answer; answers come in the order of the requests. What rests on another request, send after
its answer. Between answers come objects with "tell", which are no answers:

    {"tell": "again"}                                 claims that were told to wait may be asked again now
    {"tell": "end", "tokens": [..], "why": WORDS}     these runs must end
    {"tell": "keep", "tokens": [..]}                  these runs go on although firm will have no row of them any more;
                                                      told again at each beat until `kept`
    {"tell": "lease", "lease": 60}                    the next beat was heard, whose answer may wait for others
    {"tell": "firm", "state": ID|null, "machines": {"m1": 4}, "tasks": [{"task": "12-4", "line": 7, "job": "web",
     "weight": 10, "machine": "m1"|null}, ..]}        once registered and after changes: all that firm has
        of the agent's machines, of tasks on them, and of tasks that it runs, wherever these are. state null: firm is
        away, and nothing else is known

register, first: {"ask": "register", "agent": "a1", "id": ID, "machines": {"m1": 4, ..}, "memory": {"m1": bytes, ..},
  "host": NAME, "runs": [RUN, ..]}
  host: the host's own name, of any length, shown beside the names that firm has; it and "memory" may be left out.
  id: that of the agent's own state folder (History.name), new with a new one. RUN: {"token": T, "task": firm's name,
  "run": 7, "machine": "m1", "state": "claiming"|"starting"|"running"|"ended"}: all that are open, and all whose end is
  not acknowledged yet.
  -> {"register": {"lease": 60, "beat": 20, "history": s, "end": [T, ..], "keep": [T, ..], "state": firmd's id|null}}
  history: seconds for which outputs of ended runs are kept. end: runs that must end (the queue knows nothing of them,
  or took them as lost). keep: runs that go on although firm lacks their rows; all others end or stay as firm's rows
  say. Open attempts of this id that are not among `runs` count as lost once the lease that they had, the longest grace
  and the margin are over. The same id again takes over from its older connection, once that is gone or silent. Machines
  that an agent no longer names are drained. A machine on an agent's list, whose slots firm has otherwise, is drained
  and added anew once no run is open there.
  Errors: `agent-taken` (another id has this name and its lease is not over, with "seconds" until it is; or the same id
  has a connection that still beats, as an agent with a copy of the state has),
  `machine-taken` (another live agent has it; with "machine", "agent": register without it), `too-many-agents`,
  `too-many-machines`, `bad-field`. The same agent alone may ask it again on the same connection, as where a run that it
  named can't be asked for any more.
  The queue says `machine m SLOTS` to firm for each that is not there (unless it is cordoned or drained).

beat, every "beat" seconds: {"ask": "beat", "runs": [T, ..]} (all open ones; may be left out)
  -> {"beat": {"lease": 60}}; `not-registered`: register again. The tell "lease" says the same at once: beats are sent
  though those before have no answer, so that a disk of the queue's that hangs ends no lease.
  **The lease runs from the moment before the request was sent** (register or beat), not from its answer. Once it is
  over each supervisor ends its run by itself. lease + a run's grace + `--margin` (10 s) after the queue answered last,
  by CLOCK_BOOTTIME, it takes the run for lost and lets the task start elsewhere; after the last it drains the machines.

claim: {"ask": "claim", "token": T, "task": firm's name, "line": the row's, "state": firmd's id, "machine": "m1", "run":
  7} before a process is started, with a token that no other run has (8 to 64 of 0-9a-f); the run is recorded before.
  -> {"claim": {"work": WORK}}: start it. The same token again gives the same answer, until its attempt has ended: then
     a tell "end" names it.
   | {"claim": {"wait": WORDS, "seconds": s}}: ask again with the same or another token after `seconds` (at most;
     earlier once told "again"), as long as firm's row says so.
   | {"claim": {"void": WORDS}}: never to be run (ended, cancelled, foreign, or not placed there): wait for firm's row
     to go or change.
  WORK: {"task": "12_4", "job": "web", "user": uid, "attempt": 1, "command": [..], "dir": "/abs", "env": {..},
   "output": "/abs"|null, "time": s|null, "grace": s, "memory": bytes|null, "processors": n|null}. env has FIRM_ID
   (12_4), FIRM_NUMBER, FIRM_INDEX (of an array) and FIRM_ATTEMPT beside the user's. There are no retries in it: a
   further attempt is a further claim. output null: the run's own file.

told: {"ask": "told", "events": [EVENT, ..]}, at most 1,000, in their order; again until acknowledged, also after
  restarts. -> {"told": HOW MANY} once they are on the disk. Events of tokens that are unknown, or have ended, are
  acknowledged too. EVENT: {"token": T, "time": t, "event": ..} with
    "running", "pid": n, "output": "/abs", "host": NAME|null (where the file is; null: the server's own)
    "ended", "status": n (as a shell says it, 128 + the signal; or minus the signal), "asked": bool (the agent, not the
        process, ended it), "why": null|"timeout"|"memory"|"lease"|"preempted"|"moved"|"drained"|"removed"|"told",
        "fault": null|WORDS (status 126, 127: `no such folder: /x`, `no such command: ./x`), "seconds": s|null by the
        agent's BOOTTIME clock, "max_rss", "cpu_seconds", "output" and "host" as of `running`, which may not have been
        seen
    "lost"    nothing is known of its end, but nothing of it runs any more
    "void"    it was never begun
  asked and why `timeout`: the task is `timeout`. asked otherwise: the attempt has ended and the task goes on as firm's
  rows say (or is `cancelled`). `memory` counts as a failure. The queue alone says `done` to firm, an agent never does.

kept: {"ask": "kept", "tokens": [..]} -> {"kept": n}, once the agent has recorded a tell "keep", and of all kept runs as
  it is registered. Only then does the queue take the rows out of firm, though the cordon may be gone. Such a run is
  ended by a tell "end", as it is cancelled or its machine drained.

Errors of any request are {"error": NAME, "text": WORDS}: `bad-request` (no JSON, no object, nothing to be asked),
`bad-field` (unknown ones too; a field that may be null may be left out), `not-written` (the disk is full or fails, or
has not answered for 30 seconds: nothing is changed; what it is at work on has no answer until then), `not-read` (it
fails, and memory does not have what is asked), `not-registered`.
"""

from __future__ import annotations

import asyncio
import time
from array import array
from collections import defaultdict
from collections.abc import AsyncIterator, Awaitable, Callable, Iterable, Mapping, Sequence
from functools import cache, partial
from itertools import chain, islice
from typing import Any

from ..common.fields import FLAG, Fields, Json, bad, listed, text_up_to, whole
from ..common.threads import Threads
from ..common.users import User, know, name_of
from . import queries
from .agents import Agents
from .answers import Answers, Caller, tasks_of
from .core import Core
from .estimates import Estimates
from ..common.refused import Refused
from .fields import DURATION, KEY, REASON, Submit, require_acyclic, submit_of
from .listing import Lists
from .output import LOOK_SECONDS, OutputFollower, output_of, pieces
from .reasons import Explainer
from .rows import CORDONED, DRAINED, SINGLE, Attempt, Mark, Name, Submission, Task, packed, unpacked
from .states import UserAction, TaskState
from .store import NotWritten

MOST_SUBMISSIONS = 10_000
TASK, ATTEMPT, OFFSET = text_up_to(32), whole(1, 2**31), whole(0, 2**62)
NAMES = listed(TASK, 100_000)
MOST_READ = 200_000  # tasks that ended long ago, for one request
READ_AT_ONCE = 100  # submissions
NAMED_AT_ONCE = 200  # tasks, and submissions of a list, that are looked at in a turn
GONE_SECONDS = 5.0  # between two looks whether a client that waits is still there
ANEW_SECONDS = 1.0  # until it is waited anew, where an end was not written
OPERATORS_ALONE = {"cordon", "uncordon", "drain", "register", "beat", "claim", "told", "kept"}


class Requests:
    """Answers requests."""

    def __init__(self, core: Core, agents: Agents, tenant: str) -> None:
        self._core, self._agents, self._tenant = core, agents, tenant
        self._lists, self._estimates = Lists(core, agents), Estimates(core)
        self.explainer = Explainer(tenant)
        self._started = time.time()
        self._reads: defaultdict[int, asyncio.Lock] = defaultdict(asyncio.Lock)  # by user
        self._threads = Threads()
        self._asks: Mapping[str, Callable[[Caller, Json], Awaitable[Any]]] = {
            "submit-all": self._submit_all,
            "starts": self._starts,
            "why": self._why,
            "cancel": self._change,
            "hold": self._change,
            "release": self._change,
            "wait": self._wait,
            "machines": self._machines,
            "agents": self._list_agents,
            "jobs": self._jobs,
            "status": self._status,
            "cordon": self._mark,
            "uncordon": self._mark,
            "drain": self._mark,
            "register": lambda caller, given: self._agents.register(caller, given),
            "claim": lambda caller, given: self._agents.claim(caller, given),
            "told": lambda caller, given: self._agents.told(caller, given),
            "kept": lambda caller, given: self._agents.kept(caller, given),
            "beat": self._beat,
        }

    async def answer(self, caller: Caller, given: Json) -> Json:
        """Return the answer to a request of the API's or, of those that an agent may make, of an agent's."""
        ask: str = given["ask"]
        if ask in OPERATORS_ALONE and not caller.user.is_operator:
            raise Refused("operator-only", f"{ask} is asked by operators alone")
        others = self._core.rows.live_of_user if caller.user.is_operator and ask == "jobs" else ()
        await self.know(caller.user, (caller.user.number, *others))
        return {ask: await self._asks[ask](caller, given)}

    # Submissions

    async def _submit_all(self, caller: Caller, given: Json) -> list[Json]:
        fields = Fields(given, ["ask", "key", "submissions"])
        entries = fields.get("submissions")
        if not isinstance(entries, list) or not 1 <= len(entries) <= MOST_SUBMISSIONS:
            raise bad("submissions", f"a list of 1 to {MOST_SUBMISSIONS:,} submissions")
        asked, count, bounds = list[Submit](), 0, self._core.bounds
        name, most = ("queue-full", bounds.in_all) if caller.user.is_operator else ("quota", bounds.of_user)
        for at, entry in enumerate(entries):
            if at % NAMED_AT_ONCE == NAMED_AT_ONCE - 1:
                await caller.turn()
            try:
                if not isinstance(entry, dict):
                    raise bad("submissions", "each is an object")
                asked.append(submit_of(entry, "label", most=bounds.array))
                count += asked[-1].count
                if count > most and asked[-1].count <= bounds.array:  # a larger array is refused as that
                    raise Refused(name, f"the list has {count:,} tasks or more; there may be {most:,}")
            except Refused as refusal:
                refusal.more["at"] = at
                raise
        require_acyclic(asked)
        made = await self._made(caller.user, asked, fields.read("key", KEY))
        again = {"again": True} if made.is_again else {}
        return [{**answer, "label": one.label, **again} for answer, one in zip(made, asked)]

    async def _made(self, user: User, asked: list[Submit], key: str | None) -> Answers:
        answers = await self._begun(user, asked, key)
        await self._core.store.settled()
        return answers

    async def _begun(self, user: User, asked: list[Submit], key: str | None) -> Answers:
        """What is answered to a submit once it is written."""
        names = (Name.read(text) for one in asked for text in (*one.after, *one.after_any))
        numbers, rows = {name.number for name in names if name is not None}, None
        while rows is not self._core.rows:  # they may be read anew meanwhile
            rows = self._core.rows
            found = await self._found(user, numbers)
            if key is not None and (again := await self._known(user, key)) is not None:
                return Answers(again, is_again=True)
        self._require_machines(asked)
        self._require_memory(asked)
        made = self._core.submit(user, asked, key, found)
        return Answers([submission.answer() for submission in made])

    def _require_machines(self, asked: Sequence[Submit]) -> None:
        """Raises `Refused` for a preferred machine that neither firm nor an agent has, once firm's rows are known."""
        rows, agent_of = self._core.firm.rows, cache(self._agents.of_machine)  # which looks at all agents
        for at, one in enumerate(asked) if rows is not None else ():
            for machine in one.spec.near:
                is_known = rows is None or machine in rows.machines or machine in self._core.marks
                if not is_known and agent_of(machine) is None:
                    raise Refused("no-such-machine", f"near: no such machine: {machine}", at=at)

    def _require_memory(self, asked: Sequence[Submit]) -> None:
        """Raise `Refused` for more memory than any machine has, if all agents tell that of theirs."""
        most = self._agents.max_memory()
        for at, one in enumerate(asked):
            if most is not None and one.spec.memory is not None and one.spec.memory > most:
                told = f"memory: {one.spec.memory:,} bytes; the largest machine has {most:,}"
                raise Refused("memory-too-large", told, at=at)

    async def _known(self, user: User, key: str) -> Any:
        """What was answered to an earlier request with this key; None where there was none."""
        answers = self._core.answers
        if (user.number, key) not in answers:
            known: Any = await self._core.store.read(lambda connection: queries.answer_to(connection, user.number, key))
            if known is not None:
                return known
        if (user.number, key) in answers:  # perhaps it is not on the disk yet
            found = answers[user.number, key]
            await self._core.store.settled()
            return found
        return None

    # Lists

    async def _starts(self, caller: Caller, given: Json) -> dict[str, float]:
        """Return when tasks that wait may start, by an estimate."""
        names = Fields(given, ["ask", "tasks"]).need("tasks", NAMES)
        starts = await self._estimates.starts()
        return {text: starts[name] for text in names if (name := name_from(text)) in starts}

    async def know(self, user: User, numbers: Iterable[int]) -> None:
        """Looks up names of users for one of them."""
        await know(self._threads, user.number, numbers)

    def _visible(self, user: User) -> Iterable[Task]:
        """The tasks that have not ended and that the user may see."""
        rows = self._core.rows
        return rows.live_of(one for one in rows.submissions.values() if one.live and user.may_see(one.user))

    async def _why(self, caller: Caller, given: Json) -> Json:
        task = await self._one(caller.user, Fields(given, ["ask", "task"]).need("task", TASK))
        await self.know(caller.user, [task.submission.user])
        lines, firm = [*self._lists.summary(task)], self._core.firm
        state = self._lists.state_of(task)
        row = firm.rows.tasks.get(task.firm) if firm.rows is not None and task.outcome is None else None
        if firm.rows is not None and row is not None and row.job == task.submission.job and not firm.trouble:
            shown = partial(self._shown, caller.user)
            lines += await self.explainer.reasons(caller.user.number, firm.rows, task.firm, shown)
        if state is TaskState.QUEUED and not firm.trouble:
            claims, owner = self._core.backlog.claims, task.submission.user
            told = f"{claims.counts[owner]:,} tasks of {name_of(owner)} run or wait in firm"
            lines.append(f"users take turns by their shares: {told}, for a share of {claims.share(owner):g}")
        if state in (TaskState.QUEUED, TaskState.WAITING) and (
            start := (await self._estimates.starts()).get(task.name)
        ):
            lines.append(f"it may start at {time.strftime('%Y-%m-%d %H:%M', time.localtime(start))}, by an estimate")
        return {"task": str(task.name), "state": state, "text": lines}

    def _shown(self, user: User, row: str) -> str | None:
        """The name by which a user knows a task in firm; None: it is not to be shown."""
        name = Name.of_firm(row)
        task = self._core.rows.task(name)
        if task is None or not user.may_see(task.submission.user):
            return row if user.is_operator else None
        return str(name)

    async def _machines(self, caller: Caller, given: Json) -> list[Json]:
        begun = self._core.begun().values()
        return self._lists.machines(task for task in begun if caller.user.may_see(task.submission.user))

    async def _list_agents(self, caller: Caller, given: Json) -> list[Json]:
        return self._lists.agents()

    async def _jobs(self, caller: Caller, given: Json) -> list[Json]:
        return self._lists.jobs(caller.user)

    async def _status(self, caller: Caller, given: Json) -> Json:
        core, user = self._core, caller.user
        found: Json = {"tenant": self._tenant, "user": user.name, "is_operator": user.is_operator}
        found |= {"states": dict(core.states_of(user.sees)), "firm": self._lists.firm()}
        found |= {"writes": {"are_good": not core.store.trouble, "reason": core.store.trouble}}
        found |= {"quota": None if user.is_operator else core.bounds.of_user, "started": self._started}
        spent = {"spent": round(core.spending.of(user.number)), "most": core.bounds.budget}
        found |= {"budget": None if user.is_operator else spent, "last_number": core.rows.last_number}
        return {**found, "differences": self._agents.differences()} if user.is_operator else found

    # Changes

    async def _change(self, caller: Caller, given: Json) -> Json:
        fields, change = Fields(given, ["ask", "tasks", "jobs"]), UserAction(given["ask"])
        missing, ended, live = dict[str, str](), dict[str, str](), list[Name]()
        async for some in self._named_in_turns(caller, fields.read("tasks", NAMES) or (), missing):
            ended |= self._core.unchanged(change, [task for task in some if not task.is_live])
            live += [task.name for task in some if task.is_live]
        tasks = {name: task for name in live if (task := self._core.rows.task(name)) is not None}  # as they are now
        jobs = dict.fromkeys(fields.read("jobs", NAMES) or ())
        if jobs:
            of_jobs = [task for task in self._visible(caller.user) if task.submission.job in jobs]
            tasks.update((task.name, task) for task in of_jobs)
            absent = jobs.keys() - {task.submission.job for task in of_jobs}
            missing |= dict.fromkeys(absent, "no such job with tasks that have not ended")
        if missing and not tasks and not ended:
            name, why = next(iter(missing.items()))
            raise Refused("no-such-job" if name in jobs else "no-such-task", f"{name}: {why}")
        changed, unchanged = self._core.change(caller.user, change, tasks.values())
        await self._core.store.settled()
        self._agents.end_kept(changed)
        return {
            "changed": [str(task.name) for task in changed],
            "unchanged": {**ended, **unchanged, **missing},
        }

    async def _mark(self, caller: Caller, given: Json) -> Json:
        fields = Fields(given, ["ask", "machines"] + ["reason"] * (given["ask"] != "uncordon"))
        machines = list(fields.need("machines", NAMES))
        reason = fields.read("reason", REASON) or ""
        await know(self._threads, caller.user.number, [caller.user.number])
        kind = {"cordon": CORDONED, "drain": DRAINED, "uncordon": None}[given["ask"]]
        mark = Mark(kind, caller.user.number, reason) if kind is not None else None
        changed, unchanged = await self._agents.set_mark(machines, mark)
        return {"changed": changed, "unchanged": unchanged}

    async def _beat(self, caller: Caller, given: Json) -> Json:
        return self._agents.beat(caller, given)

    async def _wait(self, caller: Caller, given: Json) -> Json:
        fields = Fields(given, ["ask", "tasks", "seconds"])
        names = packed(map(name_from, dict.fromkeys(fields.need("tasks", NAMES))))
        seconds = fields.read("seconds", DURATION)
        given.clear()  # as texts they take twenty times as much, perhaps for days
        loop = asyncio.get_running_loop()
        ends = loop.time() + (1e10 if seconds is None else seconds)
        while True:
            try:
                return await self._waited(caller, names, ends)
            except NotWritten:  # what has ended in memory alone has not ended: the rows are read anew
                if loop.time() >= ends or caller.is_gone():
                    raise
            await asyncio.sleep(ANEW_SECONDS)

    async def _waited(self, caller: Caller, names: array[int], ends: float) -> Json:
        """What has become of tasks once they have ended, or the time is over; raises `NotWritten`."""
        await self._submissions_of(caller.user, list(map(str, unpacked(names))))
        await self._wait_for(caller, names[:], ends)
        found = dict[str, Json]()
        async for some in self._named_in_turns(caller, list(map(str, unpacked(names)))):
            found |= {str(one.name): {"state": self._lists.state_of(one), "status": one.status} for one in some}
        await self._core.store.settled()
        return found

    async def _wait_for(self, caller: Caller, left: array[int], ends: float) -> None:
        """Returns once tasks, or all of submissions, have ended, or the time is over."""
        event, loop = asyncio.Event(), asyncio.get_running_loop()
        numbers = {name.number for name in unpacked(left)}
        self._core.ends.add(numbers, event)
        try:
            while True:
                event.clear()
                while left and self._core.has_ended(next(unpacked(left[-1:]))):
                    left.pop()
                if not left or loop.time() >= ends or caller.is_gone():
                    return
                try:
                    async with asyncio.timeout(min(ends - loop.time(), GONE_SECONDS)):
                        await event.wait()
                except TimeoutError:
                    pass
        finally:
            self._core.ends.drop(numbers, event)

    # Output

    async def output(self, caller: Caller, given: Json) -> AsyncIterator[tuple[int, bytes]]:
        """Yield a task's output in pieces, with their offsets."""
        fields = Fields(given, ["ask", "task", "attempt", "from", "follow"])
        task = await self._one(caller.user, fields.need("task", TASK))
        wanted, start = fields.read("attempt", ATTEMPT), fields.read("from", OFFSET) or 0
        follows = bool(fields.read("follow", FLAG))
        attempt = await self._attempt(task, wanted)
        # An attempt may end before it has begun, as where firm moves its task: what is followed then is the next.
        is_next = follows and wanted is None
        while attempt is None or attempt.began is None and (attempt.is_open or is_next and task.outcome is None):
            if not follows or caller.is_gone() or task.outcome is not None:
                raise Refused("no-output", f"{task.name} has not begun")
            await asyncio.sleep(LOOK_SECONDS)
            task = await self._current(task.name)
            attempt = await self._attempt(task, wanted)
        token = attempt.token if follows else ""
        reading = OutputFollower(caller, self._core, token, self._threads, task.submission.user)
        async for found in pieces(output_of(task, attempt), start, reading):
            yield found

    async def _attempt(self, task: Task, wanted: int | None) -> Attempt | None:
        if wanted is None:
            return task.attempt
        found = await self._core.store.read(lambda connection: queries.attempts_of(connection, task.name))
        for attempt in found:
            if attempt.number == wanted:
                return attempt
        raise Refused("no-such-attempt", f"{task.name} has {len(found)} attempts")

    # Names

    async def _found(self, user: User, numbers: set[int]) -> dict[int, Submission]:
        """Submissions by their numbers, as far as they are there, and the user may see them. What memory has forgotten
        is read, for one request of a user at a time, and has no words."""
        forgotten: dict[int, Submission] = {}
        if not all(number in self._core.rows.submissions for number in numbers):
            async with self._reads[user.number]:
                forgotten = await self._forgotten(user, numbers)
        rows = self._core.rows.submissions  # as they are now: they may have been read anew
        found = (rows.get(number) or forgotten.get(number) for number in numbers)
        return {one.number: one for one in found if one is not None and user.may_see(one.user)}

    async def _forgotten(self, user: User, numbers: set[int]) -> dict[int, Submission]:
        """Those of these that memory has not, read some at a time, so that others have their turns between."""
        found, asked, tasks = dict[int, Submission](), set[int](), 0
        while missing := [one for one in numbers - asked if one not in self._core.rows.submissions]:
            await self._core.store.settled_soon()  # what memory has just forgotten has ended on the disk too then
            for at in range(0, len(missing), READ_AT_ONCE):
                some, left = missing[at : at + READ_AT_ONCE], MOST_READ + 1 - tasks
                read = await self._core.store.read(
                    lambda connection: queries.forgotten(connection, some, user.sees, left)
                )
                found.update((one.number, one) for one in read)
                tasks += sum(len(one.tasks) for one in read)
                if tasks > MOST_READ:
                    raise bad("tasks", f"what has ended has more than {MOST_READ:,} tasks here; name less at a time")
            asked.update(missing)
        return found

    async def _submissions_of(
        self, user: User, texts: Sequence[str], missing: dict[str, str] | None = None
    ) -> dict[Name, Submission]:
        """These names with their submissions. Names that the user does not see are added to `missing`, if given, and
        refused otherwise."""
        names = {text: name_from(text) for text in texts}
        submissions = await self._found(user, {name.number for name in names.values()})
        found = dict[Name, Submission]()
        for text, name in names.items():
            submission = submissions.get(name.number)
            if submission is not None and (name.index == SINGLE or name.index in submission.tasks):
                found[name] = submission
            elif missing is None:
                raise Refused("no-such-task", f"{text}: no such task")
            else:
                missing[text] = "no such task"
        return found

    async def _named_in_turns(
        self, caller: Caller, texts: Sequence[str], missing: dict[str, str] | None = None
    ) -> AsyncIterator[list[Task]]:
        """Yield the tasks of these names, or all of submissions, some in each of the caller's turns."""
        await caller.alone()
        submissions = await self._submissions_of(caller.user, texts, missing)
        tasks = chain.from_iterable(tasks_of(name, submission) for name, submission in submissions.items())
        while some := [*islice(tasks, NAMED_AT_ONCE)]:
            yield some
            await caller.turn()

    async def _one(self, user: User, text: str) -> Task:
        """Return a task with its words."""
        name = name_from(text)
        submission = self._core.rows.submissions.get(name.number)
        if submission is None:
            async with self._reads[user.number]:
                submission = await self._whole(user, name)
        if submission is None or not user.may_see(submission.user):
            raise Refused("no-such-task", f"{text}: no such task")
        if name.index != SINGLE and name.index not in submission.tasks:
            raise Refused("no-such-task", f"{text}: no such task")
        first, *others = islice(tasks_of(name, submission), 2)
        if others:
            raise Refused("no-such-task", f"{text} is an array; name a task of it, as {first.name}")
        return first

    async def _whole(self, user: User, name: Name) -> Submission | None:
        """Return a submission that memory may have forgotten, with no other tasks than one, or the first two: all of a
        large array would take a second of the thread for which claims wait."""
        await self._core.store.settled_soon()  # what memory has just forgotten has ended on the disk too then
        index, most = (None, 2) if name.index == SINGLE else (name.index, 1)
        read = await self._core.store.read(
            lambda connection: queries.submissions(connection, [name.number], user.sees, most, index)
        )
        return self._core.rows.submissions.get(name.number) or (read[0] if read else None)

    async def _current(self, name: Name) -> Task:
        """A task as it is now, also once memory was read anew."""
        submission = await self._core.find(name.number)
        if submission is None:
            raise Refused("no-such-task", f"{name}: no such task")
        return submission.tasks[name.index]


def name_from(text: str) -> Name:
    name = Name.read(text)
    if name is None:
        raise Refused("no-such-task", f"{text}: no such task")
    return name
