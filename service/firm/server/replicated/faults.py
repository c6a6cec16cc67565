"""Faults of replicas, which a lone firmd never has."""

from __future__ import annotations

from ...common.faults import Exit, Fault


class Anew(Fault):
    """The process must begin anew, from the snapshot in etcd."""

    def __init__(self, why: str) -> None:
        super().__init__(Exit.STATE, f"{why}: begins anew")


class NotLeading(Fault):
    """Another firmd leads, or may."""

    def __init__(self) -> None:
        super().__init__(Exit.STATE, "another firmd leads by now")
