"""Metrics in Prometheus' text, read from the books at each scrape; a retired tenant's series go with its book."""

from __future__ import annotations

from collections.abc import Callable, Iterator, Mapping
from itertools import accumulate

from prometheus_client import CollectorRegistry, ProcessCollector, generate_latest
from prometheus_client.core import CounterMetricFamily, GaugeMetricFamily, HistogramMetricFamily, Metric
from prometheus_client.registry import Collector

from ..common.books import ROUND_SECONDS, Book
from ..common.metric_families import COUNTER, GAUGE, FamilyKind, family
from .load_metrics import families
from .view_model import ViewModel


def longest_wait(book: Book) -> int:
    return max(map(book.waited, book.tasks.values()), default=0)


OF_TENANTS: tuple[tuple[FamilyKind, str, str, Callable[[Book], float | None]], ...] = (
    (COUNTER, "firm_rounds", "Rounds since the tenant's admission.", lambda book: book.rounds),
    (COUNTER, "firm_commands", "Commands since the tenant's admission.", lambda book: book.commands),
    (GAUGE, "firm_life_commands", "Commands that the tenant may send in its life.", lambda book: book.limits.life),
    (GAUGE, "firm_machines", "Machines.", lambda book: len(book.machines)),
    (GAUGE, "firm_jobs", "Jobs.", lambda book: len(book.jobs)),
    (GAUGE, "firm_longest_wait_rounds", "Rounds of the longest wait.", longest_wait),
    (GAUGE, "firm_round_cost", "Cost of the last round, if there was one.", lambda book: book.last_cost),
)


def rows_metrics(books: Mapping[str, Book]) -> Iterator[Metric]:
    """Yield the metrics of tenants' rows that their operators see too."""
    states = [(name, "running", book.running) for name, book in books.items()]
    states += [(name, "waiting", book.waiting) for name, book in books.items()]
    yield family(GAUGE, "firm_tasks", "Tasks in firm by their state.", "tenant state", states)
    slots = {name: book.slots for name, book in books.items()}
    yield family(GAUGE, "firm_slots", "Slots of all machines.", "tenant", slots.items())
    free = ((name, slots[name] - book.running) for name, book in books.items())
    yield family(GAUGE, "firm_free_slots", "Slots without a task.", "tenant", free)


class BooksCollector(Collector):
    """The metrics of the books, and of firmd's status and load."""

    def __init__(self, shown: ViewModel) -> None:
        self._shown = shown

    def collect(self) -> Iterator[Metric]:
        yield from self._of_service()
        yield from families(self._shown.load)
        if self._shown.status.etcd_quota:
            yield from self._of_etcd()
        yield self._faults()
        yield from rows_metrics(self._shown.books.tenants)
        for kind, name, explained, read in OF_TENANTS:
            rows = ((tenant, read(book)) for tenant, book in self._shown.books.tenants.items())
            yield family(kind, name, explained, "tenant", (row for row in rows if row[1] is not None))
        yield self._refusals()
        yield self._round_seconds()

    def _of_service(self) -> Iterator[Metric]:
        status, lines = self._shown.status, self._shown.books.lines
        yield CounterMetricFamily("firm_lines", "Lines with a reply, since the journal's beginning.", lines)
        explained = "Restarts of the process that answers readers, since the start."
        yield CounterMetricFamily("firm_viewer_restarts", explained, status.viewer_restarts)
        explained = "Times that this process was too slow, so that watchers missed lines, since the start."
        yield CounterMetricFamily("firm_viewer_gaps", explained, status.viewer_gaps)
        yield CounterMetricFamily("firm_snapshots", "Snapshots made since the start.", status.snapshots)
        explained = "Failures to make a snapshot or to restart firm from one, since the start."
        yield CounterMetricFamily("firm_snapshot_failures", explained, status.snapshot_failures)
        explained = "Restarts of firm from a snapshot, since the start."
        yield CounterMetricFamily("firm_change_overs", explained, status.change_overs)
        for name, explained, value in (
            ("firm_snapshot_lines", "Lines in the last snapshot.", status.snapshot_lines),
            (
                "firm_snapshot_time_seconds",
                "Time of the last snapshot, in seconds since 1970; 0 without one.",
                status.snapshot_time,
            ),
            ("firm_replayed_lines", "Lines replayed at the start.", status.replayed_lines),
            ("firm_clients", "Connected clients.", status.clients),
            ("firm_unread_reply_bytes", "Bytes of replies that clients have not read yet.", status.unread_replies),
            ("firm_unanswered_line_bytes", "Bytes of memory for unanswered lines.", status.owed_bytes),
            (
                "firm_journal_bytes",
                "Bytes of lines that firm has read, from its state or the journal's beginning.",
                status.journal_bytes,
            ),
            ("firm_journal_limit_bytes", "Bytes of lines that firm can read.", status.journal_limit),
            ("firm_start_time_seconds", "Start of the service, in seconds since 1970.", status.started),
            ("firm_tenants", "Number of tenants.", len(self._shown.books.tenants)),
            ("firm_status_age_seconds", "Seconds since firmd last sent its status.", self._shown.age),
        ):
            yield GaugeMetricFamily(name, explained, value)

    def _of_etcd(self) -> Iterator[Metric]:
        status = self._shown.status
        yield GaugeMetricFamily("firm_etcd_bytes", "Bytes that etcd uses of its quota.", status.etcd_bytes)
        yield GaugeMetricFamily(
            "firm_etcd_quota_bytes", "Bytes at which etcd accepts no further lines.", status.etcd_quota
        )
        explained = "Bytes of lines on the disk of a replica, at least a second ago."
        yield family(GAUGE, "firm_replica_bytes", explained, "replica", status.replicas.items())

    def _refusals(self) -> Metric:
        books, explained = self._shown.books, "Refused lines by tenant (empty for lines without a tenant) and reason."
        refusals = {"": books.refusals} | {name: book.refusals for name, book in books.tenants.items()}
        rows = ((name, reason, count) for name, counts in refusals.items() for reason, count in counts.items())
        return family(COUNTER, "firm_refusals", explained, "tenant reason", rows)

    def _faults(self) -> Metric:
        explained = "Faults since the start, by part. Each ended at most a connection."
        return family(COUNTER, "firm_faults", explained, "part", self._shown.all_faults().items())

    def _round_seconds(self) -> Metric:
        times = self._shown.books.round_times
        bounds = [*map(str, ROUND_SECONDS), "+Inf"]
        counts = list(zip(bounds, accumulate(times.counts)))
        explained = "Seconds from a round's line to its reply, since the start, except in the replay."
        return HistogramMetricFamily("firm_round_seconds", explained, buckets=counts, sum_value=times.seconds)


def metrics_text(shown: ViewModel) -> str:
    """Return all metrics, with those of the processes of firmd, of firm and of this viewer."""
    registry = CollectorRegistry()
    registry.register(BooksCollector(shown))
    ProcessCollector(pid=lambda: shown.status.process, registry=registry)
    ProcessCollector(namespace="firm", pid=lambda: shown.status.firm_process, registry=registry)
    ProcessCollector(namespace="firm_viewer", registry=registry)
    return generate_latest(registry).decode()
