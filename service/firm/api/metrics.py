"""Metrics of the API, of both its processes, and of the tenants that a caller operates."""

from __future__ import annotations

import json
import time
from collections import Counter
from collections.abc import Callable, Iterator, Mapping
from operator import itemgetter
from typing import Any

from prometheus_client import CollectorRegistry, ProcessCollector, generate_latest
from prometheus_client.core import Metric
from prometheus_client.exposition import CONTENT_TYPE_LATEST
from prometheus_client.registry import Collector

from ..common.books import Book
from ..common.faults import Faults
from ..common.metric_families import COUNTER, GAUGE, family
from ..queue.core import Core
from ..queue.service import Queue
from ..queue.states import ENDED, TaskState
from ..viewer.metrics import rows_metrics

Count = tuple[str, int]  # an operation and a status


class ApiMetrics:
    """Counts of a process, and the last ones that the other process has sent."""

    def __init__(self, process: str, faults: Faults) -> None:
        self._process, self._faults = process, faults
        self._counts, self._seconds = Counter[Count](), dict[str, float]()
        self.connections = 0
        self._others: dict[str, list[Any]] = {}

    def count(self, operation: str, status: int, seconds: float) -> None:
        self._counts[operation, status] += 1
        self._seconds[operation] = self._seconds.get(operation, 0.0) + seconds

    def message(self) -> bytes:
        """Return this process's counts, for the other one."""
        counts = [[*key, count] for key, count in self._counts.items()]
        rest = [[*self._seconds.items()], self.connections, self._faults.counts.total()]
        return json.dumps([self._process, [counts, *rest]]).encode()

    def take(self, message: bytes) -> None:
        process, counts = json.loads(message)
        self._others[process] = counts

    def text(self, books: Mapping[str, Book], queues: Mapping[str, Queue]) -> tuple[bytes, str]:
        """Return the metrics, with those of firm's rows if any are given."""
        registry = CollectorRegistry()
        registry.register(QueueCollector(queues))
        registry.register(ApiCollector({**self._others, **dict([json.loads(self.message())])}, books))
        ProcessCollector(namespace=f"firm_api_{self._process}", registry=registry)
        return generate_latest(registry), CONTENT_TYPE_LATEST


class ApiCollector(Collector):
    def __init__(self, processes: Mapping[str, list[Any]], books: Mapping[str, Book]) -> None:
        self._processes, self._books = processes, books

    def collect(self) -> Iterator[Metric]:
        parts = [(name, *part) for name, part in self._processes.items()]
        counts = ((name, of, str(status), count) for name, some, *_ in parts for of, status, count in some)
        yield family(COUNTER, "firm_api_requests", "Requests.", "process operation status", counts)
        times = ((name, of, total) for name, _, some, *_ in parts for of, total in some)
        yield family(COUNTER, "firm_api_request_seconds", "Time that their answers took.", "process operation", times)
        yield family(GAUGE, "firm_api_connections", "Connections.", "process", map(itemgetter(0, 3), parts))
        told = "Faults that ended a connection at most."
        yield family(COUNTER, "firm_api_faults", told, "process", map(itemgetter(0, 4), parts))
        if self._books:
            yield from rows_metrics(self._books)


AGENT_STATES = ("up", "silent", "away", "lost")
OF_QUEUES: tuple[tuple[str, str, Callable[[Core], int]], ...] = (
    ("processes", "Attempts that are open.", lambda core: len(core.rows.open)),
    ("given_tasks", "Tasks that firm has.", lambda core: len(core.firm.rows.tasks) if core.firm.rows else 0),
    ("firm_there", "Whether firm answers.", lambda core: int(not core.firm.trouble)),
    ("writes_good", "Whether the disk takes changes.", lambda core: int(not core.store.trouble)),
)


class QueueCollector(Collector):
    """Counts of queues, by tenant."""

    def __init__(self, queues: Mapping[str, Queue]) -> None:
        self._queues = queues

    def collect(self) -> Iterator[Metric]:
        queues, now = self._queues.items(), time.time()
        cores = [(tenant, queue.core) for tenant, queue in queues]
        ages = [(tenant, state, *age) for tenant, core in cores for state, age in ages_of(core, now).items()]
        tasks = ((tenant, state, count) for tenant, state, count, _ in ages)
        yield family(GAUGE, "firm_queue_tasks", "Tasks that have not ended.", "tenant state", tasks)
        told, oldest = "Since the submission of the oldest such task.", map(itemgetter(0, 1, 3), ages)
        yield family(GAUGE, "firm_queue_oldest_seconds", told, "tenant state", oldest)
        told = "Attempts that have ended since the start."
        ends = ((tenant, *end) for tenant, core in cores for end in core.ended_attempts.items())
        yield family(COUNTER, "firm_queue_attempts", told, "tenant outcome", ends)
        states = [(tenant, Counter(map(one.agents.state_of, one.agents.agents.values()))) for tenant, one in queues]
        agents = ((tenant, name, counts[name]) for tenant, counts in states for name in AGENT_STATES)
        yield family(GAUGE, "firm_queue_agents", "Agents by their state.", "tenant state", agents)
        for name, told, read in OF_QUEUES:
            yield family(GAUGE, f"firm_queue_{name}", told, "tenant", [(tenant, read(core)) for tenant, core in cores])


def ages_of(core: Core, now: float) -> dict[str, tuple[int, float]]:
    """Return by each state the number of tasks, and the age of the oldest."""
    counts, oldest = core.ages()
    states = [str(state) for state in TaskState if state not in ENDED]
    return {state: (counts[state], max(0.0, now - oldest.get(state, now))) for state in states}
