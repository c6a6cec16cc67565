"""The parts of service/ that checks use."""

from __future__ import annotations

import socket
from pathlib import Path

from harness.program import ROOT

import firm.slurm.check
import firm.slurm.commands
import firm.slurm.differences
import firm.slurm.actions
import firm.slurm.refusals
import firm.slurm.firm_lines
from firm.agent import (
    events as agent_events,
    event_file as agent_file,
    link as agent_link,
    queue as agent_queue,
    state as agent_state,
    work as agent_work,
)
from firm.server import archive, budgets, feed, feeder
from firm.common import books
from firm.cli import firmctl
from firm.server import stored_books as kept_books, tenant_queues, records
from firm.explain import history as past
from firm.common import roster, sizes
from firm.server import snapshots, firm_state as service_states
from firm.agent import supervisor
from firm.slurm import firm_lines
from firm.slurm.firm_lines import Observed
from firm.explain import trials, what_if, why, why_text
from firm.agent.work import NotAllowed, work_of
from firm.explain.book_states import book_of, text_of
from firm.common.books import Book, Books
from firm.server.clients import HIGH_WATER
from firm.server.daemon import TICK_SECONDS
from firm.viewer.follower import Follower
from firm.server.journal_reader import found_now, stored_lines
from firm.common.lines import gets_reply
from firm.server.observers import Status
from firm.queue import array_limits, backlog, estimates, fair_order, output, reports, rows
from firm.cli import columns
from firm.common import quantities as forms
from firm.queue import quotas as shares, states
from firm.cli import submissions as submitting
from firm.queue.firmd import FirmdSockets, Firm
from firm.common.refused import Refused
from firm.common.roster import Limits
from firm.queue.rows import Attempt, Name, Spec, Submission, Task
from firm.common.sockets import LOCK_SECONDS
from firm.server.state import ID
from firm.viewer.view_model import ViewModel
from firm.viewer.view import MOST_CLIENTS, MOST_UNREAD, serve_view

SERVICE = ROOT / "service"
slurm = firm.slurm


def bound(path: Path) -> socket.socket:
    """Return a Unix socket of this path, in the place of one that is served no longer."""
    path.unlink(missing_ok=True)
    found = socket.socket(socket.AF_UNIX)
    found.bind(str(path))
    return found


__all__ = [
    "Attempt",
    "Book",
    "Books",
    "FirmdSockets",
    "Firm",
    "Follower",
    "HIGH_WATER",
    "ID",
    "LOCK_SECONDS",
    "Limits",
    "MOST_CLIENTS",
    "MOST_UNREAD",
    "Name",
    "NotAllowed",
    "Observed",
    "Refused",
    "SERVICE",
    "ViewModel",
    "Spec",
    "Status",
    "Submission",
    "Task",
    "TICK_SECONDS",
    "agent_events",
    "agent_file",
    "agent_link",
    "agent_queue",
    "agent_state",
    "agent_work",
    "archive",
    "array_limits",
    "backlog",
    "book_of",
    "books",
    "bound",
    "budgets",
    "columns",
    "estimates",
    "fair_order",
    "feed",
    "feeder",
    "firm_lines",
    "firmctl",
    "forms",
    "found_now",
    "gets_reply",
    "kept_books",
    "output",
    "stored_lines",
    "past",
    "records",
    "reports",
    "roster",
    "rows",
    "serve_view",
    "shares",
    "service_states",
    "sizes",
    "snapshots",
    "slurm",
    "states",
    "submitting",
    "supervisor",
    "tenant_queues",
    "text_of",
    "trials",
    "what_if",
    "why",
    "why_text",
    "work_of",
]
