"""Install the package into a separate environment, without network, and run its programs there.

usage: tools/run tests/package.py [--program FILE]
Each check prints a line; the last line is 'N passed, M failed', and the exit status is 1 if one failed. It needs a
Python with venv, setuptools and wheel (Debian: python3-venv, python3-setuptools, python3-wheel), and for the dashboard
python3-prometheus-client; a check that can't run here is skipped with a line.
"""

from __future__ import annotations

import argparse
import json
import os
import re
import shutil
import subprocess
import sys
import tempfile
import tomllib
from functools import partial
from pathlib import Path
from typing import Any

import firmd_kit
from front_kit import front, metrics_of, missing_of
from front_kit import api_of
from harness import program
from harness.checks import Check, Skipped, Suite, require, run_script, run_suites
from harness.deployed import SERVICE, FirmdSockets, Firm
from harness.files import tracked_files
from harness.program import ROOT

NEEDED = "import ensurepip, setuptools, venv, wheel"
PIP = ["install", "--quiet", "--no-index", "--no-build-isolation", "--no-deps", "--disable-pip-version-check"]
SECONDS = 600
DASHBOARD = SERVICE / "firm" / "cli" / "grafana.json"


def project() -> dict[str, Any]:
    found: dict[str, Any] = tomllib.loads((ROOT / "pyproject.toml").read_text())["project"]
    return found


def scripts() -> dict[str, str]:
    """Return the programs of the package, each with the function that it calls."""
    found: dict[str, str] = project()["scripts"]
    return found


def python_with_tools() -> str:
    for python in (sys.executable, "/usr/bin/python3"):
        if subprocess.run([python, "-c", NEEDED], capture_output=True).returncode == 0:
            return python
    raise Skipped("no Python has venv, setuptools and wheel (apt-get install python3-venv python3-wheel)")


def install(folder: Path) -> Path:
    """Install a copy of the package, as pip writes beside the sources; return the folder of the programs."""
    source, environment = folder / "source", folder / "environment"
    shutil.copytree(SERVICE, source / "service", ignore=shutil.ignore_patterns("__pycache__"))
    shutil.copy(ROOT / "pyproject.toml", source)
    python = python_with_tools()
    output_of([python, "-m", "venv", "--system-site-packages", "--without-pip", str(environment)])
    own = str(environment / "bin" / "python3")
    output_of([own, "-m", "pip", *PIP, str(source)])
    shutil.rmtree(source)
    return environment / "bin"


def output_of(words: list[str], status: int = 0) -> str:
    """Return a command's output, in a folder without the package."""
    done = subprocess.run(words, stdin=subprocess.DEVNULL, capture_output=True, text=True, cwd="/", timeout=SECONDS)
    require(done.returncode == status, f"{words}: status {done.returncode}: {done.stdout}{done.stderr}")
    return done.stdout


def installed(built: str) -> None:
    """Each program runs, a firmd serves with its viewer, and page, dashboard and types are installed."""
    with tempfile.TemporaryDirectory(prefix="firm-") as name:
        programs = install(Path(name))
        for script in scripts():
            told = output_of([str(programs / script), "--help"])
            require(f"usage: {script} " in told, told)
            told = output_of([str(programs / script), "--version"])
            require(told == f"{script} {project()['version']}\n", told)
        for script in ("firm-snapshot", "firm-viewer"):  # only firmd starts these
            output_of([str(programs / script), "x"], 2)
        require(output_of([str(programs / "firmctl"), "dashboard"]) == DASHBOARD.read_text(), "the dashboard")
        package = "import firm; print(firm.__path__[0])"
        folder = Path(output_of([str(programs / "python3"), "-c", package]).strip())
        require(folder.is_relative_to(name), folder)
        brought = ("py.typed", "agent/supervisor.c", "api/page.html", "cli/grafana.json", "slurm/job_submit.lua")
        missing = [name for name in brought if not (folder / name).exists()]
        require(not missing, missing)
        serves(built, programs)


def serves(built: str, programs: Path) -> None:
    with firmd_kit.Setup(built, True, 1).daemon() as daemon:
        daemon.words = [str(programs / "firmd")]
        daemon.start()
        with daemon.client() as client:
            require(client.ask(b"alpha job web 10") == b"alpha 1 ok", "a reply")
        with api_of(daemon.state, "alpha") as server:
            jobs = output_of([str(programs / "firmctl"), "--server", server, "jobs"])
        require("web" in jobs, jobs)
        daemon.stop()


def scripts_are_those_of_the_tree() -> None:
    """Each program of the package stands in service/ too, and calls the same function."""
    in_tree = {path.name: path.read_text() for path in SERVICE.iterdir() if path.is_file()}
    require(set(in_tree) == set(scripts()), set(in_tree) ^ set(scripts()))
    for name, function in scripts().items():
        module = function.partition(":")[0]
        require(f"from {module} import main\n" in in_tree[name], f"{name} does not import main of {module}")


# Forbidden in units, pages and files for tmpfiles.d: root would follow a link that the folder's user has put there.
AS_ROOT = {
    "a line of a unit that root runs": re.compile(r"^Exec\w+=[-@:|]*[+!].*|^PermissionsStartOnly=.*", re.M),
    "a command of root's in a user's folder": re.compile(
        r"^(?!.*\b(?:sudo|runuser) -u ).*\b(?:install|mkdir|chown|chgrp|chmod|cp|mv|ln|tee|touch|setfacl)\b.* "
        r"/(?:var/lib|run)/firm/.*",
        re.M,
    ),
    "a path in a user's folder, made by root": re.compile(r"\b[a-zA-Z][-+!=~^$]* /(?:var/lib|run)/firm/.*", re.M),
}
ALLOWED = ("ExecStartPre=install ", "ExecStartPre=-install ")  # by the unit's own user


def as_root(text: str) -> list[str]:
    """Return lines that make root act in a folder of another user."""
    found = [f"{what}: {match[0]}" for what, pattern in AS_ROOT.items() for match in pattern.finditer(text)]
    return [fault for fault in found if not any(f": {begin}" in fault for begin in ALLOWED)]


def nothing_as_root() -> None:
    """No unit, page or maintainer's script makes root act in a folder of another user."""
    bad = "ExecStartPre=+install -d /x\nExecStart=-!!x\nExecStop=@+x\nPermissionsStartOnly=yes\n"
    bad += "install -d -m 2750 -o firm /run/firm/alpha\nsudo mkdir /var/lib/firm/x\nd /run/firm/alpha 2750 firm alpha\n"
    bad += "echo 'd! /var/lib/firm/x' > /etc/tmpfiles.d/firm.conf\n"
    require(len(as_root(bad)) == bad.count("\n"), as_root(bad))
    require(not as_root("sudo -u firm mkdir /var/lib/firm/x\nd /run/firm-alpha 2750 firm alpha\n"), "the firm's own")
    endings = (".service", ".socket", ".timer", ".conf", ".md")
    files = [path for path in tracked_files() if path.suffix in endings or path.parts[0] in ("examples", "tools")]
    require(Path("service/systemd/firm.service") in files, files)
    faults = [f"{path}: {fault}" for path in files for fault in as_root((ROOT / path).read_text(errors="replace"))]
    require(not faults, "\n".join(["", *faults]))


def texts_of(board: object) -> list[str]:
    """Return the queries of a dashboard."""
    if isinstance(board, dict):
        own = [text for key, text in board.items() if key in ("expr", "query") and isinstance(text, str)]
        return own + [text for value in board.values() for text in texts_of(value)]
    return [text for value in board for text in texts_of(value)] if isinstance(board, list) else []


def dashboard_asks_what_is_there() -> None:
    """The dashboard's queries name metrics, and labels, that /metrics has."""
    missing = missing_of(["aiohttp", "prometheus_client"])
    if missing:
        raise Skipped(f"{sys.executable} has no {' and no '.join(missing)}")
    with front() as started:
        started.status.process = os.getpid()
        text = metrics_of(started.state) + metrics_of_a_queue()
    kinds = dict(re.findall(r"^# TYPE (\S+) (\S+)$", text, re.M))
    names = {name + ending for name, kind in kinds.items() for ending in endings(kind)}
    queries = texts_of(json.loads(DASHBOARD.read_text()))
    asked = {name for query in queries for name in re.findall(r"\b(?:firm|process)_[a-z_]+", query)}
    require(len(asked) > 20 and asked <= names, f"there is no {', '.join(sorted(asked - names))}")


def metrics_of_a_queue() -> str:
    """Return the metrics of a queue that does not serve yet."""
    from firm.api.metrics import QueueCollector
    from firm.queue.agents import Terms
    from firm.queue.core import QueueLimits
    from firm.queue.placement_sync import SyncOptions
    from firm.queue.service import Queue, QueueOptions
    from prometheus_client import CollectorRegistry, generate_latest

    firm = Firm(FirmdSockets("alpha", Path(), Path()), lambda heard: None)
    queue = Queue("alpha", Path(), firm, QueueOptions(QueueLimits(1, 1, 1), SyncOptions(), Terms()))
    registry = CollectorRegistry()
    registry.register(QueueCollector({"alpha": queue}))
    return generate_latest(registry).decode()


def endings(kind: str) -> list[str]:
    return ["_bucket", "_sum", "_count"] if kind == "histogram" else [""]


def main() -> int:
    parser = argparse.ArgumentParser(description=(__doc__ or "").splitlines()[0])
    program.add_program(parser)
    options = parser.parse_args()
    os.environ.pop("PYTHONPATH", None)  # what is installed must find its own package
    checks: dict[str, Check] = {
        "programs of the tree": scripts_are_those_of_the_tree,
        "Grafana's dashboard": dashboard_asks_what_is_there,
        "nothing as root in users' folders": nothing_as_root,
        "installed": partial(installed, options.program),
    }
    return run_suites(Suite(checks))


if __name__ == "__main__":
    run_script(main)
