"""Notifies systemd of the service's state, and raises the limit of open files."""

from __future__ import annotations

import os
import resource
import socket
from contextlib import suppress

SPARE_FILES = 256  # open files beside the clients'


def notify(text: bytes) -> None:
    """Notify the service manager, if any (`Type=notify` in systemd)."""
    address = os.environ.get("NOTIFY_SOCKET")
    if address:
        with socket.socket(socket.AF_UNIX, socket.SOCK_DGRAM) as manager, suppress(OSError):
            manager.sendto(text, address.replace("@", "\0", 1) if address.startswith("@") else address)


def allow_files(clients: int) -> None:
    """Raise the limit of open files to one for each client, as far as the system allows."""
    _, most = resource.getrlimit(resource.RLIMIT_NOFILE)
    wanted = clients + SPARE_FILES
    with suppress(ValueError, OSError):
        resource.setrlimit(
            resource.RLIMIT_NOFILE, (wanted if most == resource.RLIM_INFINITY else min(wanted, most), most)
        )
