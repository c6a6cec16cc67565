"""Ports of the loopback for servers that a check starts."""

from __future__ import annotations

import socket

_held: list[socket.socket] = []


def free_port() -> int:
    """Return a port that nobody has, nor gets from the system as long as this process lives.

    A socket is bound to it here and never listens; so a server that allows an address to be used again, as those of the
    service do, may listen there.
    """
    held = socket.socket()
    held.setsockopt(socket.SOL_SOCKET, socket.SO_REUSEADDR, 1)
    held.bind(("127.0.0.1", 0))
    _held.append(held)
    return int(held.getsockname()[1])
