"""Finds the server and the tenant that the command line names, and maps refusals to exit statuses."""

from __future__ import annotations

import argparse
import os
from collections.abc import Callable
from typing import TypeVar

from ..client.blocking import DEFAULT_SERVER, ApiClient, ApiError, Json, LostAnswer, Unreachable, get, one
from ..common.fields import NAME
from .command_line import NOT_BUILT, NOT_THERE, NO_SERVICE, USAGE, Failure, Verb

# Exit statuses of refusals; of others it is 1.
STATUSES = dict.fromkeys(["not-there", "not-leading", "not-read", "not-written", "journal", "stopping"], NO_SERVICE)
STATUSES |= dict.fromkeys(["not-built", "too-long", "too-many-questions", "memory", "failed"], NOT_BUILT)
Result = TypeVar("Result")


def add_server(parser: argparse.ArgumentParser, default: str | None) -> None:
    for name, metavar, explained in (
        ("server", "ADDRESS", "unix:PATH, https://HOST:PORT or several (otherwise FIRM_SERVER, unix:/run/firm/api)"),
        ("tenant", "NAME", "tenant of the queue (otherwise FIRM_TENANT, or the only one)"),
        ("token", "FILE", "file with the token for https (otherwise FIRM_TOKEN)"),
        ("ca", "FILE", "file with the authorities of the server's certificate (otherwise FIRM_CA)"),
    ):
        parser.add_argument(f"--{name}", dest=f"{name}_given", metavar=metavar, default=default, help=explained)


def given(options: argparse.Namespace, name: str) -> str | None:
    """Return an option for the server, or its value in the environment."""
    found = getattr(options, f"{name}_given", None) or os.environ.get(f"FIRM_{name.upper()}") or None
    return str(found) if found is not None else None


def new_tenant(name: str) -> str:
    """Return the name of a new roster's tenant. Raise `Failure` if it is no name."""
    if NAME.maybe(name) is None:
        raise Failure(USAGE, f"the tenant {name!r} is not {NAME.wanted}")
    return name


class Asking:
    """The server, as the command line names it."""

    def __init__(self, options: argparse.Namespace, patience: float = 0.0) -> None:
        try:
            token = given(options, "token")
            secret = open(token).read().strip() if token is not None else ""
            self.client = ApiClient(given(options, "server") or DEFAULT_SERVER, "", secret, given(options, "ca"))
        except (OSError, ValueError) as error:
            raise Failure(USAGE, str(error)) from error
        self.client.patience, self._named = patience, given(options, "tenant")

    @property
    def named(self) -> str | None:
        """Return the tenant that an option or the environment names."""
        return self._named

    def rights(self) -> dict[str, Json]:
        """Return the caller's rights by tenant."""
        return {row["tenant"]: row for row in self.client.ask(one(get("/v1/status")))["tenants"]}

    def tenants(self, name: str | None) -> list[str]:
        """Return the named tenant, or all whose rows in firm the caller may see."""
        return [name] if name is not None else [key for key, row in self.rights().items() if row["lines"]]

    def use_queue(self) -> ApiClient:
        """Return the client, for the named tenant or the only one with a queue."""
        if self._named is None:
            names = [name for name, row in self.rights().items() if row["queue"]]
            if len(names) != 1:
                raise Failure(
                    USAGE, f"name a tenant, by --tenant or FIRM_TENANT: {', '.join(names) or 'none has a queue'}"
                )
            self._named = names[0]
        self.client.tenant = self._named
        return self.client

    def has_queue(self) -> bool:
        """Return whether the named tenant, or the only one, has a queue for the caller."""
        rights = self.rights()
        if self._named is None and len(rights) == 1 and not any(row["lines"] for row in rights.values()):
            (self._named,) = rights
        return self._named in rights and bool(rights[self._named]["queue"])


def with_statuses(work: Callable[[argparse.Namespace], None], failed: int | None = None, is_named: bool = True) -> Verb:
    """Return a verb that exits with the status of a refusal, or with `failed`. `is_named` adds the refusal's name."""

    def run(options: argparse.Namespace) -> None:
        try:
            work(options)
        except Unreachable as error:
            raise Failure(failed or NO_SERVICE, str(error)) from error
        except LostAnswer as error:
            raise Failure(failed or NO_SERVICE, f"the server has closed the connection: {error}") from error
        except ApiError as error:
            status = STATUSES.get(error.name, NOT_THERE)
            has_name = status == NOT_BUILT and error.name != "not-built" or error.name == "no-round"
            text = f"{error.name}: {error}" if has_name else str(error)
            raise Failure(failed or status, f"{error} ({error.name})" if is_named else text) from error

    return run
