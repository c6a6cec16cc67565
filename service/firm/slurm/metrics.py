"""The bridge's metrics in Prometheus' text, read at each scrape."""

from __future__ import annotations

import socket
import time
from collections.abc import Callable, Iterator
from contextlib import suppress
from socketserver import ThreadingMixIn
from threading import BoundedSemaphore, Thread
from typing import Any
from wsgiref.simple_server import WSGIRequestHandler, WSGIServer, make_server

from prometheus_client import CollectorRegistry, ProcessCollector, make_wsgi_app
from prometheus_client.core import CounterMetricFamily, GaugeMetricFamily, Metric
from prometheus_client.registry import Collector

from ..common.address import Address
from ..common.metric_families import COUNTER, GAUGE, family
from .bridge import Bridge, Counts
from .differences import Standing
from .reading import Use

MAX_SCRAPES = 8  # at a time
COUNTERS: dict[str, tuple[str, str, Callable[[Counts], dict[str, int]]]] = {
    "lines": ("verb", "Lines that firm was said.", lambda counts: dict(counts.lines)),
    "refused_lines": ("reason", "Lines that firm refused.", lambda counts: dict(counts.refused)),
    "commands": ("command", "Commands that Slurm was given.", lambda counts: dict(counts.commands)),
}
JOBS: dict[str, Callable[[Standing], int]] = {
    "running": lambda standing: standing.running,
    "waiting": lambda standing: standing.waiting,
    "untold": lambda standing: standing.untold,
    "held": lambda standing: standing.held,
    "needing": lambda standing: standing.needing,
    "stranger": lambda standing: standing.strangers,
}


class BridgeCollector(Collector):
    def __init__(self, bridge: Bridge) -> None:
        self._bridge = bridge

    def collect(self) -> Iterator[Metric]:
        bridge = self._bridge
        yield CounterMetricFamily("firm_slurm_turns", "Looks at firm and Slurm.", bridge.turns)
        yield CounterMetricFamily("firm_slurm_failures", "Times that firm or Slurm did not answer.", bridge.failures)
        yield GaugeMetricFamily("firm_slurm_turn_seconds", "What the last look and its work took.", bridge.seconds)
        sides = [(side.partition.name, side.counts) for side in bridge.sides]
        for name, (label, told, read) in COUNTERS.items():
            rows = ((of, *row) for of, counts in sides for row in read(counts).items())
            yield family(COUNTER, f"firm_slurm_{name}", told, f"partition {label}", rows)
        complaints = ((of, counts.complaints) for of, counts in sides)
        yield family(COUNTER, "firm_slurm_complaints", "Commands that Slurm refused.", "partition", complaints)
        rivals = ((of, counts.rival_lines) for of, counts in sides)
        told = "Lines that another client had said."
        yield family(COUNTER, "firm_slurm_rival_lines", told, "partition", rivals)
        nodes = ((of, use.name.lower(), counts.nodes[use]) for use in Use for of, counts in sides)
        yield family(GAUGE, "firm_slurm_nodes", "Nodes by what they are used for.", "partition use", nodes)
        known = [(of, counts.standing, counts.at) for of, counts in sides if counts.standing is not None]
        jobs = ((of, state, read(standing)) for of, standing, _ in known for state, read in JOBS.items())
        yield family(GAUGE, "firm_slurm_jobs", "Jobs by how they stand.", "partition state", jobs)
        different = ((of, len(standing.differences)) for of, standing, _ in known)
        yield family(GAUGE, "firm_slurm_different", "Tasks that differ in Slurm.", "partition", different)
        now, told = time.time(), "Since when the longest does."
        longest = ((of, longest_of(standing, now)) for of, standing, _ in known)
        yield family(GAUGE, "firm_slurm_longest_difference_seconds", told, "partition", longest)
        ages = ((of, now - at) for of, _, at in known)
        yield family(GAUGE, "firm_slurm_age_seconds", "Since Slurm was last asked.", "partition", ages)


def longest_of(standing: Standing, now: float) -> float:
    """Return the seconds since the longest difference began."""
    times = [one.since for one in standing.differences if one.since is not None]
    return max(0.0, now - min(times, default=now))


class Scrape(WSGIRequestHandler):
    """Answers one request, and logs none."""

    timeout = 5.0  # seconds for a part of it

    def handle(self) -> None:
        with suppress(OSError):  # the client has left, or says nothing
            super().handle()

    def log_message(self, *_: object) -> None:
        pass


class ScrapeServer(ThreadingMixIn, WSGIServer):
    """Has few connections at a time: the commands of Slurm need descriptors of the same process."""

    daemon_threads = True
    places = BoundedSemaphore(MAX_SCRAPES)

    def process_request(self, request: Any, client_address: Any) -> None:
        if self.places.acquire(blocking=False):
            super().process_request(request, client_address)
        else:
            self.shutdown_request(request)

    def process_request_thread(self, request: Any, client_address: Any) -> None:
        try:
            super().process_request_thread(request, client_address)
        finally:
            self.places.release()


def serve(bridge: Bridge, address: Address) -> None:
    """Answers scrapes from threads of its own; raises `OSError`."""
    registry = CollectorRegistry()
    registry.register(BridgeCollector(bridge))
    ProcessCollector(registry=registry)
    ScrapeServer.address_family = socket.getaddrinfo(address.host, address.port)[0][0]
    server = make_server(address.host, address.port, make_wsgi_app(registry), ScrapeServer, Scrape)
    Thread(target=server.serve_forever, daemon=True).start()
