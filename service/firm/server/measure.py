"""Collects the load of the service from its parts."""

from __future__ import annotations

from .budgets import Accounts
from .clients import Clients
from .load import Load, OwnReply, SocketLoad, TenantLoad
from .stream import Stream
from .tenant_queues import TenantQueue, TenantQueues


def load_of(stream: Stream, clients: Clients, accounts: Accounts) -> Load:
    counters = accounts.counters
    counts, seconds = stream.sync_times.read()
    return Load(
        oldest_line_seconds=stream.oldest_seconds(),
        firm_silent_seconds=stream.silent_seconds(),
        sync_counts=counts,
        sync_seconds=seconds,
        tenants=[tenant_load(name, stream.queues, accounts) for name in accounts.register],
        sockets=[
            SocketLoad(
                socket.name.decode(), socket.count, counters.waits[socket.name, b""], int(socket.account.day.left)
            )
            for socket in clients.turns.all()
        ],
        own_replies=[
            OwnReply(socket.decode(), tenant.decode(), reply.decode(), count)
            for (socket, tenant, reply), count in counters.replies.items()
        ],
        tenant_waits={tenant.decode(): count for (_, tenant), count in counters.waits.items() if tenant},
    )


def tenant_load(name: bytes, queues: TenantQueues, accounts: Accounts) -> TenantLoad:
    queue, account = queues.by_name.get(name, TenantQueue(name)), accounts.of_tenant.get(name)
    left = accounts.budgets.of_tenant.day if account is None else int(account.day.left)
    return TenantLoad(name.decode(), queue.lines, queue.size, queue.under_way, int(queue.is_away), left)
