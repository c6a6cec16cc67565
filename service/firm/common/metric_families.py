"""Families of metrics in Prometheus' terms, from their values."""

from __future__ import annotations

from collections.abc import Iterable
from typing import Any

from prometheus_client.core import CounterMetricFamily, GaugeMetricFamily

FamilyKind = type[CounterMetricFamily] | type[GaugeMetricFamily]
COUNTER: FamilyKind = CounterMetricFamily
GAUGE: FamilyKind = GaugeMetricFamily


def family(
    kind: FamilyKind, name: str, explained: str, labels: str, values: Iterable[tuple[Any, ...]]
) -> CounterMetricFamily | GaugeMetricFamily:
    """Return a family of metrics. Each value follows those of its labels, which have spaces between them."""
    found = kind(name, explained, labels=labels.split())
    for *of, value in values:
        found.add_metric(of, value)
    return found
