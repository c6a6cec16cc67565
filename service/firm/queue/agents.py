"""Agents as the queue knows them: their machines, leases, and the attempts that they run."""

from __future__ import annotations

import asyncio
import time
from collections import Counter
from collections.abc import Iterable
from contextlib import suppress
from dataclasses import dataclass, field, replace
from typing import Protocol

from ..common.fields import NAME, Fields, Json, bad
from ..common.logs import INFO, WARNING, short, tell
from ..common.peers import ROOT
from ..common.refused import Refused
from ..common.seen_time import boot_time
from ..common.users import User
from . import queries
from .backlog import Machines
from .core import Core
from .fields import KEY
from .queries import StoredState
from .reports import HOST, MACHINES, TOKENS, RunClaim, RunReport, claim_of, memory_of, runs_of, told_of, work_of
from .rows import CORDONED, DRAINED, GONE, Attempt, Mark, Task
from .states import End
from .store import NotWritten

LOOK_SECONDS = 0.5  # between two looks at the leases
LAG_SECONDS = 1.0  # for which a claim waits until the queue has heard what its agent has heard
ASK_AGAIN_SECONDS = 1.0
BEATS = 3  # in a lease
SILENT_BEATS = 1.5  # without one for this long an agent is called silent
AWAY_SECONDS = 5.0  # for an agent to return once its connection has ended, or the queue has begun
DAY_SECONDS = 86_400.0
LOST_SECONDS = DAY_SECONDS  # of silence, after which a lost agent is forgotten
MAX_KNOWN, MAX_MACHINES, MAX_GONE = 4_096, 16_384, 1_024  # of a queue: agents; their machines; and former ones


@dataclass(frozen=True, slots=True)
class Terms:
    """How long an agent may be silent."""

    lease: float = 60.0
    margin: float = 10.0  # until its runs are taken for lost, after the lease and the longest grace
    history: float = 30 * DAY_SECONDS  # seconds for which ended tasks and their outputs are kept

    @property
    def beat(self) -> float:
        return self.lease / BEATS


class Session(Protocol):
    """A connection of an agent, with the user at its other end."""

    user: User
    is_remote: bool  # by TLS, perhaps of another host

    def tell(self, words: Json) -> None:
        """Says what is no answer."""

    def end(self) -> None:
        """Closes it."""

    def is_gone(self) -> bool:
        """Whether nobody is there any more to be answered."""


@dataclass(slots=True, eq=False)
class AgentRecord:
    name: str
    id: str
    machines: dict[str, int]
    answered: float  # by CLOCK_BOOTTIME; at a start, when the queue began
    session: Session | None = None
    user: int | None = None  # since it has registered
    is_known: bool = False  # it has registered since the queue began
    is_lost: bool = False
    is_waiting: bool = False  # with a claim
    runs: frozenset[str] | None = None  # what its last beat said that it has
    since: float | None = None  # when it registered
    left: float = field(default_factory=boot_time)  # when its last connection ended, by CLOCK_BOOTTIME
    is_late: bool = False  # at the last look
    memory: dict[str, int] = field(default_factory=dict)  # bytes, of machines that share it among their slots
    host: str | None = None  # its host's own name, of any length; machines have the short names that firm takes

    @property
    def silence(self) -> float:
        return boot_time() - self.answered


@dataclass
class Agents:
    core: Core
    terms: Terms
    agents: dict[str, AgentRecord] = field(default_factory=dict)
    _former_over: float = 0.0  # when no longer lease of the queue before this one holds any more, by CLOCK_BOOTTIME
    _is_former_kept: bool = False  # the database has that one still
    _unknown: dict[str, float] = field(default_factory=dict)  # until when attempts may run that their agents don't know
    _to_keep: set[str] = field(default_factory=set)  # tokens of which agents were told so, and perhaps have not done it

    # Memory

    async def begin(self, kept: StoredState) -> None:
        """Takes in what the database says at a start, and has it keep a longer lease before that is given; raises
        `NotWritten` where it can't."""
        self.load(kept.agents)
        former = kept.lease or (Terms().lease if kept.agents else 0.0)  # an older queue has kept none
        if former > self.terms.lease:
            self._former_over, self._is_former_kept = boot_time() + former, True
        elif former < self.terms.lease:
            self.core.store.keep_lease(self.terms.lease)
            await self.core.store.settled()

    def load(self, kept: dict[str, tuple[str, dict[str, int]]]) -> None:
        """Takes in what the database says, and keeps what only memory knows."""
        before, self.agents = self.agents, {}
        for name, (agent_id, machines) in kept.items():
            known = before.get(name)
            if known is not None and known.id == agent_id:
                known.machines = machines
                self.agents[name] = known
            else:
                self.agents[name] = AgentRecord(name, agent_id, machines, boot_time())
        for name, agent in before.items():
            if self.agents.get(name) is not agent and agent.session is not None:
                agent.session.end()

    def of_session(self, session: Session) -> AgentRecord:
        """The agent that has registered on a connection."""
        for agent in self.agents.values():
            if agent.session is session and not agent.is_lost:
                return agent
        raise Refused("not-registered", "register first")

    def of_machine(self, machine: str) -> AgentRecord | None:
        """The agent that has a machine; one that is not lost before others."""
        found = [agent for agent in self.agents.values() if machine in agent.machines]
        return next((agent for agent in found if not agent.is_lost), found[0] if found else None)

    def by_machine(self) -> dict[str, AgentRecord]:
        """Return the agents that have machines, by machine, as `of_machine` does: to find each takes a look at all."""
        agents = sorted(self.agents.values(), key=lambda agent: agent.is_lost)
        return {machine: agent for agent in reversed(agents) for machine in agent.machines}

    def attempts_of(self, agent: AgentRecord) -> list[Attempt]:
        """Its attempts that are open."""
        return [*self.core.rows.open_of_agent.get(agent.name, {}).values()]

    def max_memory(self) -> int | None:
        """Return the bytes of memory of the largest machine; None unless all machines tell theirs."""
        agents = [agent for agent in self.agents.values() if not agent.is_lost]
        if not all(agent.is_known and agent.memory.keys() == agent.machines.keys() for agent in agents):
            return None
        return max((size for agent in agents for size in agent.memory.values()), default=None)

    def machines(self) -> Machines:
        """What firm should have of machines."""
        wanted, closed = dict[str, int](), set[str]()
        unwanted = {machine for machine, mark in self.core.marks.items() if mark.kind in (DRAINED, GONE)}
        unwanted |= {machine for agent in self.agents.values() if agent.is_lost for machine in agent.machines}
        loads = Counter(attempt.machine for attempt in self.core.rows.open.values() if not attempt.is_kept)
        # Firm has no rows of the runs that a cordon has kept, and would give their slots to others.
        kept = Counter(attempt.machine for attempt in self.core.rows.open.values() if attempt.is_kept)
        for agent in self.agents.values():
            is_late = self.is_late(agent)
            for machine, slots in agent.machines.items() if (agent.is_known or is_late) and not agent.is_lost else ():
                mark = self.core.marks.get(machine)
                if is_late and (loads[machine] or kept[machine]):
                    closed.add(machine)
                if mark is None and is_late and not loads[machine] and not kept[machine]:
                    unwanted.add(machine)  # no task could begin there; draining a busy one would end its tasks
                elif not agent.is_known:
                    continue
                elif mark is None and not kept[machine]:
                    wanted[machine] = slots
                elif not loads[machine]:  # cordoned, or with runs that were kept only after the cordon was taken back
                    unwanted.add(machine)
                else:
                    closed.add(machine)
        book = self.core.firm.book  # other slots than there would drain a machine: they wait until nothing runs on it
        busy = {name: slots for name, slots in book.machines.items() if loads[name]} if book is not None else {}
        wanted = {name: busy.get(name, slots) for name, slots in wanted.items()}
        return Machines(wanted, unwanted - wanted.keys(), closed - unwanted)

    # Registrations and leases

    async def register(self, session: Session, given: Json) -> Json:
        fields = Fields(given, ["ask", "agent", "id", "machines", "memory", "runs", "host"])
        name, agent_id, host = fields.need("agent", NAME), fields.need("id", KEY), fields.read("host", HOST)
        machines, runs = fields.need("machines", MACHINES), runs_of(fields.get("runs"))
        memory = memory_of(fields, machines)
        self._require_single(session, name, agent_id)
        self._require_free(name, agent_id, machines)
        self.core.store.require_prompt()
        self._require_few(name, machines)
        before = self.agents.get(name)
        is_news = before is None or before.session is not session or before.machines != machines
        agent = self._enter(name, agent_id, machines)
        present = {run.token for run in runs}
        over = self.over_at(agent)
        for attempt in self.attempts_of(agent):
            if attempt.token in present:
                self._unknown.pop(attempt.token, None)
            else:  # it may run all the same, as where the agent's state was put back from a copy
                self._unknown.setdefault(attempt.token, over)
        if agent.session is not None and agent.session is not session:
            agent.session.end()
        agent.session, agent.user = session, session.user.number
        agent.is_known, agent.is_lost, agent.memory, agent.host = True, False, memory, host
        agent.since = time.time() if is_news else agent.since
        agent.runs = frozenset(present)
        agent.answered = boot_time()  # before the disk is waited for: it is not silent meanwhile
        self.core.firm.changed.set()
        await self.core.store.settled_soon()
        if is_news:
            there = f"{name} on {short(host)}" if host else name
            told = f"{there}: registered with {', '.join(machines) or 'no machines'}, {len(runs)} runs"
            tell(INFO, told, agent=name)
        ending = [run.token for run in runs if run.is_there and self._must_end(agent, run.token)]
        keep = [attempt.token for attempt in self.attempts_of(agent) if self._is_to_keep(attempt)]
        self._to_keep.update(keep)
        state = self.core.firm.state
        more = {"beat": self.terms.beat, "history": self.terms.history}
        return {**self._granted(), **more, "end": ending, "keep": keep, "state": state}

    def _require_single(self, session: Session, name: str, agent_id: str) -> None:
        """Raises `Refused` where an agent with a copy of this one's state is there: each would take the other's runs
        for its own that never began. A connection that only seems to be there is silent soon."""
        if any(agent.session is session and agent.name != name for agent in self.agents.values()):
            raise Refused("bad-field", "agent: this connection is another agent's", field="agent")
        known = self.agents.get(name)
        if known is None or known.id != agent_id or known.session in (None, session) or known.is_lost:
            return
        if known.session is not None and not known.session.is_gone() and self.state_of(known) == "up":
            told = f"another agent with the name {name} and a copy of its state is there"
            raise Refused("agent-taken", f"{told}; each needs a state folder of its own", seconds=self.terms.beat)

    def _require_free(self, name: str, agent_id: str, machines: dict[str, int]) -> None:
        """Raises `Refused` where another one has the name or a machine."""
        known = self.agents.get(name)
        if known is not None and known.id != agent_id and self._has_hold(known, self.attempts_of(known)):
            left = max(0.0, self.over_at(known) - boot_time())
            raise Refused("agent-taken", f"another agent has the name {name}, for {left:.0f} s", seconds=left)
        others = [other for other in self.agents.values() if other.name != name and not other.is_lost]
        others = [other for other in others if machines.keys() & other.machines.keys()]
        busy = {attempt.machine for attempt in self.core.rows.open.values()} if others else set[str]()
        for other in others:
            for machine in machines.keys() & other.machines.keys():
                if other.session is not None or machine in busy:
                    told = f"the agent {other.name} has the machine {machine}"
                    raise Refused("machine-taken", told, machine=machine, agent=other.name)

    @staticmethod
    def _has_hold(agent: AgentRecord, attempts: list[Attempt]) -> bool:
        """Whether another one can't take its place."""
        return not agent.is_lost and (agent.session is not None or bool(attempts))

    def _require_few(self, name: str, machines: dict[str, int]) -> None:
        """Forget a lost agent to make room for a further one. Raise `Refused` if there are too many."""
        if name not in self.agents and len(self.agents) >= MAX_KNOWN:
            oldest = min(self._idle_lost(), key=lambda agent: agent.answered, default=None)
            if oldest is None:
                raise Refused("too-many-agents", f"{MAX_KNOWN:,} agents are known already")
            self._forget(oldest)
        others = sum(len(agent.machines) for agent in self.agents.values() if agent.name != name)
        if others + len(machines) > MAX_MACHINES:
            raise Refused("too-many-machines", f"other agents have {others:,} machines; all have {MAX_MACHINES:,}")

    def _idle_lost(self) -> list[AgentRecord]:
        """Return the lost agents without runs."""
        busy = self.core.rows.open_of_agent
        return [agent for agent in self.agents.values() if agent.is_lost and agent.name not in busy]

    def _forget(self, agent: AgentRecord) -> None:
        """Forget a lost agent without runs. Its machines leave firm."""
        self.core.store.forget_agent(agent.name)
        del self.agents[agent.name]
        held = {machine for other in self.agents.values() for machine in other.machines}
        for machine in agent.machines.keys() - held - self.core.marks.keys():
            self._mark(machine, Mark(GONE))

    def _forget_old(self) -> None:
        """Forget agents that were lost long ago, and former machines that have left firm, if they are many: a fleet
        whose hosts have new names each day would fill memory, and each look at them would take longer."""
        firm, book = self.core.firm, self.core.firm.book
        if self.core.store.trouble:
            return
        for agent in self._idle_lost():
            if agent.silence > LOST_SECONDS:
                self._forget(agent)
        gone = [machine for machine, mark in self.core.marks.items() if mark.kind == GONE]
        if len(gone) > MAX_GONE and book is not None and firm.is_current and not firm.owes:
            needed = book.machines.keys() | {attempt.machine for attempt in self.core.rows.open.values()}
            for machine in [machine for machine in gone if machine not in needed][: len(gone) - MAX_GONE]:
                self._mark(machine, None)

    def _enter(self, name: str, agent_id: str, machines: dict[str, int]) -> AgentRecord:
        """The agent with these machines, as it is written."""
        agent = self.agents.get(name)
        if agent is None or agent.id != agent_id:
            self.core.store.save_agent(name, agent_id, machines)
            if agent is not None and agent.session is not None:
                agent.session.end()
            dropped = set(agent.machines) - machines.keys() if agent is not None else set()
            agent = self.agents[name] = AgentRecord(name, agent_id, machines, boot_time())
        else:
            dropped = agent.machines.keys() - machines.keys()
            if agent.machines != machines:
                self.core.store.save_agent(name, agent_id, machines)
                agent.machines = machines
        for machine in dropped:
            self._mark(machine, Mark(GONE))
        for machine in machines:
            if self._is_marked(machine, GONE):
                self._mark(machine, None)
        self._take_from_others(agent)
        return agent

    def _take_from_others(self, agent: AgentRecord) -> None:
        for other in list(self.agents.values()):
            if other is not agent and other.machines.keys() & agent.machines.keys():
                left = {name: slots for name, slots in other.machines.items() if name not in agent.machines}
                self.core.store.save_agent(other.name, other.id, left)
                other.machines = left
                if not other.machines and other.session is None:
                    del self.agents[other.name]
                    self.core.store.forget_agent(other.name)

    def _own(self, agent: AgentRecord, token: str) -> Attempt | None:
        """The open attempt of an agent's run. One with a copy of its state, by another name, has none."""
        attempt = self.core.rows.open.get(token)
        is_own = attempt is not None and (attempt.agent, attempt.agent_id) == (agent.name, agent.id)
        return attempt if is_own else None

    def _must_end(self, agent: AgentRecord, token: str) -> bool:
        attempt = self._own(agent, token)
        task = self.core.rows.task(attempt.name) if attempt is not None else None
        if attempt is None or task is None:
            return True
        return attempt.is_kept and (task.is_cancelled or self._is_marked(attempt.machine, DRAINED))

    def _is_to_keep(self, attempt: Attempt) -> bool:
        return attempt.is_kept or self._is_marked(attempt.machine, CORDONED)

    def _granted(self) -> Json:
        return {"lease": self.terms.lease}

    def beat(self, session: Session, given: Json) -> Json:
        runs, agent = Fields(given, ["ask", "runs"]).read("runs", TOKENS), self.of_session(session)
        if runs is not None:
            agent.runs = frozenset(runs)
        agent.answered = boot_time()
        session.tell({"tell": "lease", **self._granted()})  # its answer may wait behind one that waits for the disk
        self._tell_keep_again(agent)
        return self._granted()

    def _tell_keep_again(self, agent: AgentRecord) -> None:
        """Tells of runs that are still to be kept: an agent with a full disk could not record that."""
        found = [attempt for token in self._to_keep if (attempt := self.core.rows.open.get(token)) is not None]
        lacking = [attempt for attempt in found if self._is_to_keep(attempt) and not attempt.is_kept]
        self._to_keep = {attempt.token for attempt in lacking}
        self._tell_tokens((attempt for attempt in lacking if attempt.agent == agent.name), {"tell": "keep"})

    def leave(self, session: Session) -> None:
        """Takes in that a connection has ended."""
        for agent in self.agents.values():
            if agent.session is session:
                agent.session, agent.left = None, boot_time()
                tell(WARNING, f"{agent.name}: its connection has ended; its runs go on for the lease", agent=agent.name)

    def over_at(self, agent: AgentRecord) -> float:
        """When nothing of what it has begun runs any more, if it stays silent; by CLOCK_BOOTTIME."""
        return max((self._over_at(agent, attempt) for attempt in self.attempts_of(agent)), default=self._over_at(agent))

    def _over_at(self, agent: AgentRecord, attempt: Attempt | None = None) -> float:
        """When an attempt of it surely has ended, or its lease is over."""
        task = self.core.rows.task(attempt.name) if attempt is not None else None
        grace = task.submission.spec.grace if task is not None else 0.0
        return max(agent.answered + self.terms.lease, self._former_over) + grace + self.terms.margin

    async def expire_for_ever(self) -> None:
        """Gives up agents whose leases are over."""
        while True:
            await asyncio.sleep(LOOK_SECONDS)
            self._forget_lease()
            self._lose_unknown()
            with suppress(NotWritten):
                self._forget_old()
            for agent in list(self.agents.values()):
                busy = self.core.rows.open_of_agent  # of the present rows: they are read anew after a failed write
                if agent.is_late != (is_late := self.is_late(agent)):
                    agent.is_late = is_late
                    self.core.firm.changed.set()
                now = boot_time()
                if self.core.store.why_bad or now <= self._over_at(agent) or agent.is_lost and agent.name not in busy:
                    continue
                with suppress(NotWritten):  # the rows are read anew then, and it is found again
                    if now <= self.over_at(agent):  # the graces of its other runs do not hold up these
                        self._lose_over(agent, now)
                    elif not agent.is_lost or self.attempts_of(agent):
                        self._lose(agent)

    def _forget_lease(self) -> None:
        """Keeps the present lease once no longer one holds any more: until then a further start must go by that."""
        if self._is_former_kept and boot_time() > self._former_over:
            with suppress(NotWritten):
                self.core.store.keep_lease(self.terms.lease)
                self._is_former_kept = False

    def _lose_unknown(self) -> None:
        """Takes for lost what its own agent does not know, once it can't run any more."""
        now = boot_time()
        for token in [token for token, over in self._unknown.items() if over < now]:
            attempt = self.core.rows.open.get(token)
            if attempt is not None:
                if self.core.store.why_bad:
                    continue
                tell(WARNING, f"{attempt.name}: attempt {attempt.number} is unknown to its agent {attempt.agent}: lost")
                self.core.end_attempt(attempt, End("lost"))
            del self._unknown[token]

    def _lose_over(self, agent: AgentRecord, now: float) -> None:
        """Takes for lost what has surely ended of a silent agent's runs, while others may be in their graces."""
        for attempt in self.attempts_of(agent):
            if now > self._over_at(agent, attempt):
                told = f"{attempt.name}: attempt {attempt.number} on {attempt.machine} is taken for lost"
                tell(WARNING, f"{told}: {agent.name} is silent for {agent.silence:.0f} s", agent=agent.name)
                self.core.end_attempt(attempt, End("lost"))

    def _lose(self, agent: AgentRecord) -> None:
        attempts = self.attempts_of(agent)
        told = f"{agent.name}: silent for {agent.silence:.0f} s; {len(attempts)} runs are taken for lost"
        tell(WARNING, f"{told}, {', '.join(agent.machines) or 'no machines'} drained", agent=agent.name)
        agent.is_lost = True
        if agent.session is not None:
            agent.session.end()
            agent.session = None
        for attempt in attempts:
            self.core.end_attempt(attempt, End("lost"))
        self.core.firm.changed.set()

    # Attempts

    async def claim(self, session: Session, given: Json) -> Json:
        """Whether a run may begin: once no other attempt of its task is open."""
        claim, loop = claim_of(given), asyncio.get_running_loop()
        if await self._has_ended(claim.token):  # while its agent was away: the claim's answer was lost
            session.tell({"tell": "end", "tokens": [claim.token], "why": "its attempt has ended"})
            return {"wait": "the attempt of this token has ended", "seconds": ASK_AGAIN_SECONDS}
        ends = loop.time() + LAG_SECONDS
        while True:
            agent, news = self.of_session(session), self.core.news
            found = self._try_claim(agent, claim)
            if found is not None or loop.time() >= ends:
                break
            try:
                async with asyncio.timeout(ends - loop.time()):
                    await news.wait()
            except TimeoutError:
                pass
        if found is None:
            found = {"wait": "the queue sees another row of firm's", "seconds": ASK_AGAIN_SECONDS}
        agent.is_waiting |= "wait" in found
        await self.core.store.settled()
        return found

    async def _has_ended(self, token: str) -> bool:
        """Return whether a token is that of an attempt that has ended, which no further one may have."""
        if token in self.core.rows.open:
            return False
        await self.core.store.settled_soon()  # what memory has just forgotten has ended on the disk too then
        is_known = await self.core.store.read(lambda connection: queries.has_token(connection, token))
        return is_known and token not in self.core.rows.open

    def _try_claim(self, agent: AgentRecord, claim: RunClaim) -> Json | None:
        """What is answered to a claim; None where the queue and the agent see firm's rows differently."""
        attempt, task = self.core.rows.open.get(claim.token), self.core.rows.task(claim.name)
        if attempt is not None and task is not None and (attempt.agent, attempt.name) == (agent.name, claim.name):
            return {"work": work_of(task, attempt)}
        if attempt is not None:  # its row would be lost
            raise bad("token", f"{claim.token} is the token of another run")
        if task is None or task.outcome is not None or task.is_cancelled:
            return {"void": "no task of the queue's" if task is None else task.outcome or "it is cancelled"}
        self.core.store.require_good()
        if self.is_late(agent):  # though its claims come
            return {"wait": f"the heartbeat of {agent.name} is late", "seconds": ASK_AGAIN_SECONDS}
        if claim.machine not in agent.machines:
            raise bad("machine", f"{claim.machine} is none of {agent.name}'s")
        book = self.core.firm.book
        row = book.tasks.get(claim.task) if book is not None else None
        if row is None or (row.line, self.core.firm.state, row.machine) != (claim.line, claim.state, claim.machine):
            return None
        return self._hindrance(task, claim) or {"work": self._begin(agent, task, claim)}

    def _hindrance(self, task: Task, claim: RunClaim) -> Json | None:
        """Why a task that is placed can't begin yet."""
        wait, rows = ASK_AGAIN_SECONDS, self.core.rows_in_firm(task)
        there = [firm for firm, row in rows.items() if row.machine == claim.machine]
        if claim.task != task.firm or len(there) > 1:  # behind a restart it must be clear which row the attempt has
            return {"wait": "it has another row in firm", "seconds": wait}
        mark, other = self.core.marks.get(claim.machine), task.open_attempt
        if other is not None:
            task.told = f"attempt {other.number} on {other.machine} has not ended"
        elif mark is not None:
            task.told = f"{claim.machine} is {mark.kind}"
        elif task.is_held:
            task.told = "it is held"
        elif claim.task in self.core.leaving:
            task.told = "it makes room for another one"
        elif (left := task.due - boot_time()) > 0:
            task.told, wait = f"tried again in {left:.1f} s", left
        else:
            return None
        return {"wait": task.told, "seconds": round(wait, 3)}

    def _begin(self, agent: AgentRecord, task: Task, claim: RunClaim) -> Json:
        number = task.attempts + 1
        place = (agent.name, agent.id, claim.machine, claim.run, claim.token)
        attempt = Attempt(task.name, number, *place, time.time())
        attempt.runs_as = task.submission.user if agent.user == ROOT else agent.user
        self.core.begin_attempt(task, attempt)
        return work_of(task, attempt)

    async def told(self, session: Session, given: Json) -> int:
        """Takes in what an agent has seen; how many events they were, once they are written."""
        agent, events = self.of_session(session), told_of(given)
        self.core.store.require_good()
        for event in events:
            attempt = self._own(agent, event.token)
            if session.is_remote and event.output is not None:  # else it could name a file of the server's
                event = replace(event, host=event.host or agent.name)
            if attempt is not None:
                self._hear(attempt, event)
        await self.core.store.settled()
        return len(events)

    def _hear(self, attempt: Attempt, event: RunReport) -> None:
        if event.end is None:
            if attempt.began is None:  # an agent that has started again says that it still runs
                attempt.began = event.time
            attempt.output, attempt.host = event.output, event.host
            self.core.store.save_attempt(attempt)
            return
        if attempt.began is None and event.seconds is not None:
            attempt.began = event.time - event.seconds
        if attempt.output is None:  # it ended before it was seen to run
            attempt.output, attempt.host = event.output, event.host
        attempt.max_rss, attempt.cpu_seconds = event.max_rss, event.cpu_seconds
        pause = self.core.end_attempt(attempt, event.end, event.seconds)
        self.core.announce()  # its task may be none of the agent's any more, though firm has no news
        asyncio.get_running_loop().call_later(pause, self.tell_again)

    def tell_again(self) -> None:
        """Tells agents whose claims were told to wait that they may ask again."""
        for agent in self.agents.values():
            if agent.is_waiting and agent.session is not None:
                agent.is_waiting = False
                agent.session.tell({"tell": "again"})

    async def kept(self, session: Session, given: Json) -> int:
        """Takes in that an agent goes on with runs although firm will have no rows of them. That holds though a cordon
        was taken back meanwhile, since firm's rows end them no more: what is not to go on is told to end."""
        tokens = Fields(given, ["ask", "tokens"]).need("tokens", TOKENS)
        agent, found = self.of_session(session), []
        for token in tokens:
            attempt = self._own(agent, token)
            if attempt is None:
                continue
            found.append(attempt)
            if not attempt.is_kept:
                self.core.store.require_good()
                attempt.is_kept = True
                self.core.store.save_attempt(attempt)
                self.core.look_at([attempt.name])
        await self.core.store.settled()
        ending = [attempt for attempt in found if self._must_end(agent, attempt.token)]
        self._tell_tokens(ending, {"tell": "end", "why": "cancelled or drained meanwhile"})
        return len(found)

    def end_kept(self, tasks: Iterable[Task]) -> None:
        """Has agents end runs of cancelled tasks of which firm has no rows."""
        kept = [attempt for task in tasks if (attempt := task.open_attempt) is not None and attempt.is_kept]
        self._tell_tokens(kept, {"tell": "end", "why": "cancelled"})

    def _tell_tokens(self, attempts: Iterable[Attempt], words: Json) -> None:
        by_agent: dict[str, list[str]] = {}
        for attempt in attempts:
            by_agent.setdefault(attempt.agent, []).append(attempt.token)
        for name, tokens in by_agent.items():
            session = self.agents[name].session if name in self.agents else None
            if session is not None:
                session.tell({**words, "tokens": tokens})

    # Marks

    async def set_mark(self, machines: list[str], mark: Mark | None) -> tuple[list[str], dict[str, str]]:
        """Cordons or drains machines, or takes that back; those that it changed, and why the others were left."""
        kind = mark.kind if mark is not None else None
        book, agents = self.core.firm.rows, self.by_machine()
        for machine in machines:
            is_there = book is not None and machine in book.machines
            if not is_there and machine not in self.core.marks and machine not in agents:
                raise Refused("no-such-machine", f"{machine}: no such machine")
        changed, unchanged = [], {}
        for machine in dict.fromkeys(machines):
            if self._kind(machine) == kind:
                unchanged[machine] = f"is {kind}" if kind else "is neither cordoned nor drained"
            else:
                self.core.store.require_good()
                self._mark(machine, mark)
                changed.append(machine)
        self.core.firm.changed.set()
        await self.core.store.settled()
        still = {machine for machine in changed if self._kind(machine) == kind}  # others may have changed it
        there = [attempt for attempt in self.core.rows.open.values() if attempt.machine in still]
        if kind == CORDONED:
            lacking = [attempt for attempt in there if not attempt.is_kept]
            self._to_keep.update(attempt.token for attempt in lacking)
            self._tell_tokens(lacking, {"tell": "keep"})
        elif kind == DRAINED:  # firm, which has no rows of these, ends them no more
            self._tell_tokens((attempt for attempt in there if attempt.is_kept), {"tell": "end", "why": "drained"})
        return changed, unchanged

    def _kind(self, machine: str) -> str | None:
        mark = self.core.marks.get(machine)
        return mark.kind if mark is not None else None

    def _is_marked(self, machine: str, kind: str) -> bool:
        return self._kind(machine) == kind

    def _mark(self, machine: str, mark: Mark | None) -> None:
        self.core.store.mark(machine, mark)
        if mark is None:
            self.core.marks.pop(machine, None)
        else:
            self.core.marks[machine] = mark

    # What is shown

    def why_not_begun(self, task: Task, machine: str) -> str:
        """Why a task that is placed has no process."""
        agent = self.of_machine(machine)
        if agent is None:
            return f"no agent has the machine {machine}"
        state = self.state_of(agent)
        if state == "up":
            return task.told
        return f"the agent {agent.name} is {state} for {agent.silence:.0f} s"

    def is_late(self, agent: AgentRecord) -> bool:
        """Return whether an agent is to get no task now. One that has just left may be back at once."""
        state = self.state_of(agent)
        return state == "silent" or state == "away" and boot_time() - agent.left > AWAY_SECONDS

    def state_of(self, agent: AgentRecord) -> str:
        if agent.is_lost:
            return "lost"
        if agent.silence > SILENT_BEATS * self.terms.beat:
            return "silent"
        return "up" if agent.session is not None else "away"

    def machine_states(self) -> dict[str, tuple[str, str]]:
        """The state of each machine that firm or an agent has, with the reason."""
        book, agents, found = self.core.firm.rows, self.by_machine(), {}
        names = dict.fromkeys(book.machines if book is not None else ())
        names.update(dict.fromkeys(machine for agent in self.agents.values() for machine in agent.machines))
        for machine in names:
            is_there = book is not None and machine in book.machines
            found[machine] = self._machine_state(machine, agents.get(machine), is_there)
        return found

    def _machine_state(self, machine: str, agent: AgentRecord | None, is_there: bool) -> tuple[str, str]:
        mark = self.core.marks.get(machine)
        if mark is not None and mark.kind in (CORDONED, DRAINED):
            return mark.kind, mark.told
        if agent is None:
            return "no-agent", f"no agent has the machine {machine}"
        state = self.state_of(agent)
        if state != "up":
            return "silent", f"the agent {agent.name} is {state} for {agent.silence:.0f} s"
        if not is_there:
            return "adding", "firm does not have it yet"
        book, slots = self.core.firm.rows, agent.machines[machine]
        is_same = book is None or book.machines[machine] == slots
        return "up", "" if is_same else f"it has {slots} slots once nothing runs there"

    def differences(self) -> list[str]:
        """Where firm's rows and what agents say differ."""
        states = self.machine_states().items()
        found = [f"{name}: {why}" for name, (state, why) in states if why and state not in (CORDONED, DRAINED)]
        for agent in self.agents.values():
            late = time.time() - 2 * self.terms.beat
            for attempt in self.attempts_of(agent) if agent.runs is not None else []:
                if attempt.claimed < late and attempt.token not in (agent.runs or ()):
                    told = f"{attempt.name}: attempt {attempt.number} on {attempt.machine} is open"
                    found.append(f"{told}, and the agent {agent.name} does not have it")
        if foreign := self.core.foreign():
            found.append(f"{len(foreign)} tasks in firm are not the queue's, as {next(iter(foreign))}")
        return found
