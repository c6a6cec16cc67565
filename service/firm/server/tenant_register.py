"""The tenants that exist, by firm's replies, so that firmd can answer lines that would change nothing.

firm answers a line of an unknown tenant `! unknown-tenant`, and every line of an exhausted tenant like the one before.
firm counts neither, so no later reply depends on them. Only the roster and the operator's lines make tenants, and an
exhausted one stays so until it is retired. So firm's reply to such a line is known, except while an operator's line is
under way: then the line goes to firm.
"""

from __future__ import annotations

from collections.abc import Iterable, Iterator, Sequence

from ..common.lines import UNKNOWN_TENANT, WORN, outcome

_OPERATED, _ADMITTED, _RETIRED = b"+ ok ", b"admitted", b"retired"


class TenantRegister:
    """The tenants as of the last reply."""

    def __init__(self, names: Iterable[bytes]) -> None:
        self._replies: dict[bytes, bytes | None] = dict.fromkeys(
            names
        )  # by tenant: the reply to all lines, once exhausted
        self._operators = 0  # operators' lines under way

    def __contains__(self, tenant: bytes) -> bool:
        return tenant in self._replies

    def __iter__(self) -> Iterator[bytes]:
        return iter(self._replies)

    def reply(self, tenant: bytes) -> bytes | None:
        """Return firm's reply to any line of this tenant, with its LF; None if the line must go to firm."""
        return None if self._operators else self._replies.get(tenant, UNKNOWN_TENANT)

    def operate(self, lines: int) -> None:
        """Record that operators' lines are under way to firm."""
        self._operators += lines

    def operated(self, replies: Sequence[bytes]) -> None:
        """Record replies to operators' lines."""
        self._operators -= len(replies)
        self.take_in(replies)

    def take_in(self, replies: Sequence[bytes]) -> None:
        """Apply admissions and retirements; one of the replies has `+ ok `."""
        for reply in replies:
            if reply.startswith(_OPERATED):
                _, _, verb, name = reply.split(b" ")
                if verb == _ADMITTED:
                    self._replies[name] = None
                elif verb == _RETIRED:
                    self._replies.pop(name, None)

    def exhaust(self, reply: bytes) -> None:
        """Record a reply, without its LF, that ends like an exhausted tenant's."""
        tenant = reply[: reply.index(b" ")]
        if outcome(reply) == WORN and tenant in self._replies:
            self._replies[tenant] = reply + b"\n"
