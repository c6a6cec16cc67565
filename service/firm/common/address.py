"""The address that HTTP is served at."""

from __future__ import annotations

import re
import socket
from dataclasses import dataclass

LOOPBACK = "127.0.0.1"
LOOPBACK_NAMES = frozenset({LOOPBACK, "localhost"})


@dataclass(frozen=True, slots=True)
class Address:
    host: str
    port: int

    @classmethod
    def read(cls, text: str) -> Address:
        """Return the address of HOST:PORT, [HOST]:PORT, or PORT on the loopback. Raise `ValueError` for others."""
        found = re.fullmatch(r"(?:(?P<host>[^:\[\]]*):|\[(?P<six>[0-9a-fA-F:.]+)\]:)?(?P<port>[0-9]{1,5})", text)
        if found is None or int(found["port"]) > 65535:
            raise ValueError(f"{text!r} is not an address: write HOST:PORT, or PORT for the loopback")
        (found["host"] or "").encode("idna")  # the form for getaddrinfo(3)
        return cls(found["six"] or found["host"] or LOOPBACK, int(found["port"]))

    def __str__(self) -> str:
        return f"[{self.host}]:{self.port}" if ":" in self.host else f"{self.host}:{self.port}"

    def is_named(self, host: str) -> bool:
        """Return whether a Host header names this address. Another may be a page's name rebound to this host."""
        found = re.fullmatch(r"\[([0-9a-fA-F:.]+)\](?::[0-9]+)?|([^:\[\]]+)(?::[0-9]+)?", host)
        return found is not None and (found[1] or found[2]).lower() in LOOPBACK_NAMES | {self.host.lower()}

    def listen(self) -> list[socket.socket]:
        """Return listening sockets for each address of the host. Raise `OSError`."""
        found: list[socket.socket] = []
        try:
            for family, _, _, _, place in socket.getaddrinfo(self.host, self.port, type=socket.SOCK_STREAM):
                found.append(socket.create_server(place[:2], family=family, backlog=100))
        except OSError:
            for listening in found:
                listening.close()
            raise
        return found
