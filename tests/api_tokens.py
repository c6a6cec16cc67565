"""Checks of callers' tokens and certificates for firm-api over TLS, and of firmctl's, for tests/api.py."""

from __future__ import annotations

import json
import resource
import socket
import ssl
import subprocess
import sys
from concurrent.futures import ThreadPoolExecutor
from contextlib import closing, suppress
from functools import partial
from pathlib import Path
from typing import Any

from queue_client import LIMIT_SECONDS, Answer, Connection
from api_kit import Site, certificate, expire, port_of, site
from harness.checks import require
from harness.deployed import SERVICE
from queue_kit import ANN, BOB, FIRM_API, Setup


def tokens(setup: Setup) -> None:
    """Over TLS a token or a certificate gives a user, a role and tenants, until its line is removed."""
    with site(setup) as served:
        server, key = certificate(served.case.folder, "server")
        client, client_key = certificate(served.case.folder, "client")
        tenant, of = served.case.tenant, served.of
        made = {role: served.token(str(ANN), role, tenant) for role in ("user", "operator", "agent")}
        foreign = served.token(str(BOB), "operator", "other")
        words = [*FIRM_API, "token", f"--tokens={served.tokens}", f"--user={BOB}", f"--tenants={tenant}"]
        done = subprocess.run([*words, f"--client-certificate={client}"], capture_output=True, text=True)
        require((done.returncode, done.stdout) == (0, ""), done)
        text = served.tokens.read_text()
        require(not any(token in text for token in made.values()), "a token stands in the file")
        require(served.tokens.stat().st_mode & 0o777 == 0o600, "others can read it")
        tls = ["--tls=127.0.0.1:0", f"--certificate={server}", f"--key={key}", f"--client-ca={client}"]
        served.restart(*tls, f"--tokens={served.tokens}")
        port = port_of(served)

        def ask(token: str, *request: Any, with_certificate: bool = False) -> Answer:
            context = ssl.create_default_context(cafile=str(server))
            if with_certificate:
                context.load_cert_chain(client, client_key)
            headers = {"Authorization": f"Bearer {token}"} if token else {}
            with closing(Connection(port, context)) as connection:
                return connection.ask(*request, **headers)

        one = {"submissions": [{"command": ["x"], "dir": "/tmp"}]}
        ask(made["user"], "POST", of("submissions"), one).good(201)
        require(ask(made["user"], "GET", of("tasks")).good()["tasks"][0]["user"] == str(ANN), "its user")
        require(ask(made["operator"], "GET", of("tasks")).good()["tasks"], "an operator's")
        ask(made["user"], "POST", of("drain"), {"machines": ["m1"]}).refused(403, "operator-only")
        ask(made["agent"], "GET", of("tasks")).refused(404, "no-such-tenant")
        require(ask(foreign, "GET", "/v1/status").good()["tenants"] == [], "a tenant that there is not")
        ask(foreign, "GET", of("tasks")).refused(404, "no-such-tenant")
        ask("", "GET", "/v1/status").refused(401, "no-token")
        require(ask("", "GET", "/").status == ask("", "GET", "/v1/openapi.json").status == 200, "what is open to all")
        for bad in ("x", made["user"][:-1], f"{made['user']}x", "", "é", "x" * 8_000):
            found = ask(bad or " ", "GET", "/v1/status")
            require(found.status in (400, 401), f"{bad[:50]!r}: {found}")
        require(ask("", "GET", "/v1/status", with_certificate=True).good()["number"] == BOB, "a certificate's user")
        with closing(Connection(port)) as plain, suppress(OSError):
            plain.ask("GET", "/v1/status")
            require(False, "an answer without TLS")
        rest = [line for line in text.splitlines() if '"user"' not in line or '"role": "user"' not in line]
        served.tokens.write_text("".join(f"{line}\n" for line in rest))
        served.case.until(lambda: ask(made["user"], "GET", "/v1/status").status == 401, "a revoked token is refused")
        require(ask(made["operator"], "GET", "/v1/status").status == 200, "the others stay")
        command_line_over_tls(served, port, server, made["operator"])
        served.tokens.chmod(0o666)
        served.tokens.write_text(text)
        served.case.until(lambda: ask(made["operator"], "GET", "/v1/status").status == 401, "others may write the file")


def torn(setup: Setup) -> None:
    """A token is added as a whole line or not at all, also after a last line without its end: one invalid line would
    end all tokens."""
    with site(setup) as served:
        tenant = served.case.tenant
        served.token(str(ANN), "user", tenant)
        served.tokens.write_text(served.tokens.read_text().rstrip("\n"))
        served.token(str(BOB), "agent", tenant)
        before = served.tokens.read_text()
        require([json.loads(line)["user"] for line in before.splitlines()] == [ANN, BOB], before)
        words = [*FIRM_API, "token", f"--tokens={served.tokens}", f"--user={ANN}", f"--tenants={tenant}"]
        limit = partial(resource.setrlimit, resource.RLIMIT_FSIZE, (len(before) + 20,) * 2)  # a disk that is full
        done = subprocess.run(words, capture_output=True, text=True, preexec_fn=limit)
        require((done.returncode, done.stdout) == (4, "") and "cannot write" in done.stderr, done)
        require(served.tokens.read_text() == before, served.tokens.read_text())


def command_line_over_tls(served: Site, port: int, server: Path, token: str) -> None:
    """firmctl accepts a server with a valid certificate, sends it a token, and reports a fault of either."""
    folder = served.case.folder
    expired, key = certificate(folder, "expired")
    expire(expired, key)
    good, bad, odd = folder / "token", folder / "bad-token", folder / "odd-token"
    for path, text in ((good, f"{token}\n"), (bad, "x\n"), (odd, "x\r\nX: y\n")):
        path.write_text(text)
    name, trusted = f"https://localhost:{port}", f"--ca={server}"
    found = partial(firmctl_at, served.case.tenant)
    done = found(name, f"--token={good}", trusted)
    require(done.returncode == 0 and done.stdout.startswith("TASK "), done)
    cases: list[tuple[list[str], int, str]] = [
        ([name, f"--token={good}"], 3, "certificate verify failed"),
        ([name, f"--token={good}", f"--ca={expired}"], 3, "certificate verify failed"),
        ([f"https://127.0.0.1:{port}", f"--token={good}", trusted], 3, "IP address mismatch"),
        ([name, f"--token={bad}", trusted], 1, "(bad-token)"),
        ([name, trusted], 1, "(no-token)"),
        ([name, f"--token={odd}", trusted], 2, "a token has no such letters"),
        ([name, f"--token={folder / 'none'}", trusted], 2, "No such file"),
        ([name, f"--token={good}", f"--ca={folder / 'none'}"], 2, "No such file"),
        ([name, f"--token={good}", f"--ca={good}"], 3, "no firm-api answers"),
    ]
    for words, status, told in cases:
        done = found(*words)
        require(done.returncode == status and told in done.stderr, f"{words}: {done}")
    context = ssl.SSLContext(ssl.PROTOCOL_TLS_SERVER)
    context.load_cert_chain(expired, key)
    with socket.create_server(("127.0.0.1", 0)) as listening, ThreadPoolExecutor(1) as pool:
        shaken = pool.submit(shake_hands, listening, context)
        done = found(f"https://localhost:{listening.getsockname()[1]}", f"--ca={expired}")
        shaken.result()
    require(done.returncode == 3 and "certificate has expired" in done.stderr, done)


def firmctl_at(tenant: str, server: str, *words: str) -> subprocess.CompletedProcess[str]:
    command = [sys.executable, str(SERVICE / "firmctl"), "ps", "--tenant", tenant, "--server", server, *words]
    return subprocess.run(command, capture_output=True, text=True, timeout=LIMIT_SECONDS)


def shake_hands(listening: socket.socket, context: ssl.SSLContext) -> None:
    """Begin TLS with one client, which refuses it."""
    with listening.accept()[0] as plain, suppress(OSError):
        context.wrap_socket(plain, server_side=True).close()
