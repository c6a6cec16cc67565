"""Observers of firm's replies, and the status of firmd."""

from __future__ import annotations

from collections.abc import Sequence
from dataclasses import dataclass, field
from typing import Literal, Protocol

WARNED_SHARE = 0.75  # of firm's input limit, for a warning: from a half on a restarted firm should replace it


class ReplyObserver(Protocol):
    """An observer of each line with its reply, in the order of the lines, also in a replay.

    A replay has a million lines a second, so an observer should take half a microsecond for one.
    """

    def replied_all(self, lines: Sequence[bytes], replies: Sequence[bytes], seconds: float | None) -> None:
        """Observe lines and their replies, without their LF (a line may end with CR).

        `seconds` is the time from firm's standard input to the replies, None in a replay.
        """


@dataclass
class Status:
    """The status of firmd. Only the loop's thread changes it."""

    started: float  # seconds since the epoch
    firm_process: int  # the process id of firm; 0 without one
    clients: int  # connected now
    unread_replies: int  # bytes of replies that clients have not read yet, as of a second ago at most
    journal_bytes: int  # bytes of lines that firm has read after the state that it began with
    journal_limit: int  # bytes of lines that firm can read
    replayed_lines: int  # at the start
    lines: int  # answered, including the replay's
    owed_bytes: int = 0  # bytes of memory for unanswered lines, as of a second ago at most
    process: int = 0  # the process id of firmd
    viewer_restarts: int = 0  # of the process that answers readers
    viewer_gaps: int = 0  # times that it was too slow and got all rows anew
    snapshots: int = 0  # made since the start
    snapshot_failures: int = 0  # failures to make or use a snapshot, since the start
    snapshot_lines: int = 0  # in the last snapshot
    snapshot_time: float = 0.0  # its time, in seconds since the epoch; 0 without one
    change_overs: int = 0  # restarts of firm from a snapshot, since the start
    etcd_bytes: int = 0  # that etcd uses
    etcd_quota: int = 0  # bytes that etcd may use; 0 without replicas
    replicas: dict[str, int] = field(default_factory=dict)  # bytes of lines on the disk of each

    def count(self, what: Literal["snapshots", "snapshot_failures", "change_overs"]) -> None:
        setattr(self, what, getattr(self, what) + 1)

    def take_snapshot(self, lines: int, time: float) -> None:
        self.snapshot_lines, self.snapshot_time = lines, time
