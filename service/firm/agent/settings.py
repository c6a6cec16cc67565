"""The settings of an agent, and its configuration file."""

from __future__ import annotations

import argparse
import os
import re
import socket
from pathlib import Path
from typing import Any

from ..common.fields import NAME, FieldKind, choice, whole
from ..common.files import require_own
from ..common.lines import is_name
from ..common.logs import FORMS
from ..common.quantities import bytes_of
from ..common.settings import Setting, SettingsFile, path, word
from .cgroups import SYSTEMD, group_trouble

MAX_SLOTS = 64  # of a machine, as firm has them
SERVER = "unix:PATH or https://HOST:PORT,.."
WANTED_MEMORY = 'a list of machines with their memory, as {m1 = "64G"}'
TOLD_SERVER = "API's address; of several, one has the tenant's queue"
SLOTS = whole(1, MAX_SLOTS)


def read_servers(text: str) -> str:
    if not all(re.fullmatch(r"unix:.+|https://[^/]+", one) for one in addresses_of(text)):
        raise ValueError(text)
    return text


def addresses_of(text: str) -> list[str]:
    """Return the addresses of servers: one Unix socket, or several servers that are reached by TLS."""
    return text.split(",") if text.startswith("https:") else [text]


def machines_of(text: str) -> dict[str, int]:
    """Return machines with their slots, of a list on the command line, as m1=4,m2=8."""
    found: dict[str, int] = {}
    for part in text.split(","):
        name, _, slots = part.partition("=")
        if not is_name(name.encode()) or not slots.isdecimal():
            raise argparse.ArgumentTypeError(f"{part!r} is not a machine with its slots, as m1=4")
        if name in found:
            raise argparse.ArgumentTypeError(f"{name} is there twice")
        if not 1 <= int(slots) <= MAX_SLOTS:
            raise argparse.ArgumentTypeError(f"{name} has {slots} slots; it may have 1 to {MAX_SLOTS}")
        found[name] = int(slots)
    return found


def memory_of(value: Any) -> dict[str, int]:
    """Return the bytes of machines, of a table. Raise `ValueError`."""
    if not isinstance(value, dict) or not all(isinstance(size, str) for size in value.values()):
        raise ValueError(WANTED_MEMORY)
    try:
        return {name: bytes_of(size) for name, size in value.items()}
    except ValueError as error:
        raise ValueError(f"{WANTED_MEMORY}: {error}") from None


def memory_in(text: str) -> dict[str, int]:
    """Return the bytes of machines, of a list on the command line, as m1=64G,m2=32G. Raise `ValueError`."""
    return memory_of({name: size for name, _, size in (part.partition("=") for part in text.split(","))})


def memory_fault(machines: dict[str, int], memory: dict[str, int]) -> str | None:
    """Return what keeps these machines from giving each slot its part of their memory, if anything."""
    for machine, size in memory.items():
        if machine not in machines:
            return f"{machine} is not a machine of this agent"
        if size < machines[machine]:
            return f"{machine} has less than a byte for each slot"
    if memory and not SYSTEMD.is_dir() and (why := group_trouble({"memory.max": "max"})) is not None:
        return f"no limits can be kept here: {why}"
    return None


MEMORY = FieldKind(WANTED_MEMORY, memory_of, memory_in, "LIST")
TOLD_MEMORY = "memory of machines: each slot's run may have an equal part, or what its task names"
AGENT = (
    Setting("tenant", NAME, "tenant whose tasks are run", None, "--tenant"),
    Setting("server", word(read_servers, SERVER, "ADDRESS"), TOLD_SERVER, "unix:/run/firm/api", "--server"),
    Setting("token", path(), "with https: file of the agent's token, which firm-api token prints", None, "--token"),
    Setting("ca", path(), "certificates that may sign the server's, by default the system's", None, "--ca"),
    Setting("name", NAME, "agent's own name in its tenant, by default the host's", None, "--name"),
    Setting("state", path("DIR"), "agent's own folder, by default /var/lib/firm-agent-TENANT", None, "--state"),
    Setting("memory", MEMORY, TOLD_MEMORY, {}, "--memory"),
    Setting("log_format", choice(*FORMS), "form of lines on standard error", FORMS[0], "--log-format"),
)
MACHINE = Setting("NAME", SLOTS, "slots of a machine, by default one machine named as the agent, a slot a processor")
SECTIONS = {"": AGENT, "machines": (MACHINE,)}


class AgentConfiguration:
    """An agent's settings: those of its file, and defaults."""

    def __init__(self, file: SettingsFile) -> None:
        self.file = file
        self.values: dict[str, Any] = file.values((), AGENT, ("machines",))
        if self.values["tenant"] is None and file.is_toml:
            file.note(("tenant",), "name the tenant whose tasks are run")
        if self.values["tenant"] is None:
            return
        self.values["name"] = self.values["name"] or self._host()
        self.values["state"] = self.values["state"] or Path(f"/var/lib/firm-agent-{self.values['tenant']}")
        self.values["machines"] = self._machines()
        self._judge()

    def _host(self) -> str:
        """Return this host's name without its domain, if firm can have it."""
        name = socket.gethostname().partition(".")[0].lower()
        if not is_name(name.encode()):
            self.file.note(("name",), f"this host is called {name!r}, which is not {NAME.wanted}: choose one")
        return name

    def _machines(self) -> dict[str, int]:
        found = self.file.entries(("machines",), SLOTS)
        for name in self.file.section(("machines",)):
            if not is_name(name.encode()):
                self.file.note(("machines", name), f"{name!r} is not {NAME.wanted}")
        return found or {self.values["name"]: min(MAX_SLOTS, len(os.sched_getaffinity(0)))}

    def _judge(self) -> None:
        """Note what does not go together, and files that are missing."""
        if self.values["server"].startswith("https:") != (self.values["token"] is not None):
            told = "https needs a token, and a Unix socket takes none: there the system knows the user"
            self.file.note(("server",), told)
        if (why := memory_fault(self.values["machines"], self.values["memory"])) is not None:
            self.file.note(("memory",), why)
        for key in ("token", "ca"):
            if self.values[key] is not None and not self.values[key].is_file():
                self.file.note((key,), f"there is no file {self.values[key]}")
        try:
            require_own(self.values["state"])
        except OSError as error:
            self.file.note(("state",), f"{error.filename}: {error.strerror}")
