"""Settings of a replica."""

from __future__ import annotations

from typing import TYPE_CHECKING

from ...common.faults import Exit, Fault
from ..state import REPLICA, ServiceState

if TYPE_CHECKING:
    from .etcd import Member

LEASE_SECONDS, MAX_LEASE = 3, 60
RETAINED = 64 * 2**20


def member(text: str) -> Member:
    from .etcd import Member  # here, as a firmd that is alone needs no client of etcd

    return Member.read(text)


def prefix(text: str) -> str:
    if not text.isascii() or not text.isprintable() or not text.strip("/") or " " in text:
        raise ValueError(f"{text!r} is not a prefix of keys")
    return text.rstrip("/")


def require_lone(state: ServiceState) -> None:
    """Raise a fault if a state is a replica's, since a lone firmd's lines there would begin another history."""
    path = state.folder / REPLICA
    if path.exists():
        raise Fault(
            Exit.STATE,
            f"{state.folder} is a replica's: name --etcd, or remove {path} to continue without the other replicas",
        )
