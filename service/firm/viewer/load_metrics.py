"""The metrics of the service's load, in Prometheus' terms."""

from __future__ import annotations

from collections.abc import Iterator, Sequence
from dataclasses import astuple
from itertools import accumulate
from operator import attrgetter

from prometheus_client.core import GaugeMetricFamily, HistogramMetricFamily, Metric

from ..common.metric_families import COUNTER, GAUGE, family
from ..server.load import SYNC_SECONDS, Load, SocketLoad, TenantLoad

OF_TENANTS = {
    "waiting_lines": ("firm_waiting_lines", "Lines in the tenant's queue."),
    "waiting_bytes": ("firm_waiting_line_bytes", "Bytes of these lines."),
    "lines_under_way": ("firm_lines_under_way", "Lines that have left the queue and have no reply yet."),
    "rounds_under_way": ("firm_rounds_under_way", "Rounds among these."),
    "journal_bytes_left": ("firm_journal_bytes_left", "Bytes left in the tenant's daily budget of the journal."),
}
OF_SOCKETS = {
    "clients": ("firm_socket_clients", "Clients connected to the socket."),
    "journal_bytes_left": ("firm_socket_journal_bytes_left", "Bytes left in the socket's daily budget of the journal."),
}


def families(load: Load) -> Iterator[Metric]:
    for name, explained, value in (
        (
            "firm_oldest_line_seconds",
            "Seconds since the oldest line without a reply was accepted.",
            load.oldest_line_seconds,
        ),
        ("firm_silent_seconds", "Seconds without output of firm while replies are due.", load.firm_silent_seconds),
    ):
        yield GaugeMetricFamily(name, explained, value)
    yield from _gauges(OF_TENANTS, "tenant", load.tenants)
    yield from _gauges(OF_SOCKETS, "socket", load.sockets)
    yield _waits(load)
    explained = "firmd's own replies since the start, by socket, by the line's tenant, if any, and by name."
    yield family(COUNTER, "firm_own_replies", explained, "socket tenant reply", map(astuple, load.own_replies))
    explained = "Seconds from the write of lines to the journal until they are on the disk, since the start."
    counts = list(zip([*map(str, SYNC_SECONDS), "+Inf"], accumulate(load.sync_counts)))
    yield HistogramMetricFamily("firm_sync_seconds", explained, buckets=counts, sum_value=load.sync_seconds)


def _gauges(
    names: dict[str, tuple[str, str]], label: str, loads: Sequence[TenantLoad | SocketLoad]
) -> Iterator[Metric]:
    for field, (name, explained) in names.items():
        yield family(GAUGE, name, explained, label, map(attrgetter(label, field), loads))


def _waits(load: Load) -> Metric:
    explained = "Waits of lines for the bytes a second of their tenant or their socket, since the start."
    waits = [(socket.socket, "", socket.waits) for socket in load.sockets]
    waits += [("", tenant, count) for tenant, count in load.tenant_waits.items()]
    return family(COUNTER, "firm_waits", explained, "socket tenant", waits)
