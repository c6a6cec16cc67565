"""firm-slurm: Slurm executes what firm decides. docs/CLUSTER.md says how to use it."""

from __future__ import annotations

import argparse
import asyncio
import os
import signal
import sys
from collections.abc import Iterator
from contextlib import contextmanager, suppress
from importlib.util import find_spec
from pathlib import Path

from ..cli import command_line
from ..cli.command_line import NOT_THERE, USAGE, Failure, Verbs
from ..common import logs
from ..common.address import Address
from ..common.service_manager import notify
from ..common.version import add_version
from . import status
from .bridge import Bridge, lock_alone
from .check import Conf, advice, remarks, sizes_of
from .hook import hook
from .table import Table, TableError

EXITS = """\
exit statuses, each but 0 with the reason on standard error:
  0  stopped by SIGTERM or SIGINT; it is printed; nothing is to be changed
  1  check: something is to be changed
  2  the command line, a faulty table, or a file that can't be read
  3  firmd or Slurm does not answer; --http can't be had"""
CONF = "/etc/slurm/slurm.conf"


def table_of(options: argparse.Namespace) -> Table:
    try:
        return Table.read(options.table)
    except (OSError, TableError) as error:
        raise Failure(USAGE, f"{options.table}: {error}") from error


def run(options: argparse.Namespace) -> None:
    table = table_of(options)
    logs.begin("firm-slurm", options.log_format)
    bridge = Bridge(table)
    if options.http is not None:
        serve_metrics(bridge, options.http)
    lock = options.table.with_name(f"{options.table.name}.lock")
    try:
        with suppress(asyncio.CancelledError):
            asyncio.run(serve(bridge, lock))
    except OSError as error:
        raise Failure(USAGE, f"{lock}: {error.strerror or error}") from error


def serve_metrics(bridge: Bridge, address: Address) -> None:
    if find_spec("prometheus_client") is None:
        raise Failure(USAGE, "--http needs prometheus_client (Debian: python3-prometheus-client)")
    from . import metrics

    try:
        metrics.serve(bridge, address)
    except OSError as error:
        raise Failure(command_line.NO_SERVICE, f"cannot serve HTTP: {error.strerror or error}") from error


async def serve(bridge: Bridge, lock: Path) -> None:
    task = asyncio.ensure_future(serve_alone(bridge, lock))
    for number in (signal.SIGTERM, signal.SIGINT):
        asyncio.get_running_loop().add_signal_handler(number, task.cancel)
    names = ", ".join(f"{side.partition.name} is {side.partition.tenant}" for side in bridge.sides)
    logs.tell(logs.INFO, f"ready: {names}")
    notify(b"READY=1")
    await task


async def serve_alone(bridge: Bridge, lock: Path) -> None:
    with await lock_alone(lock):
        await bridge.serve()


def check(options: argparse.Namespace) -> None:
    table, path = table_of(options), conf_of(options)
    with reported(options, table):
        conf = Conf.read(path)
        found, remarked = list(advice(table, conf)), list(remarks(table, conf))
    told = "".join(f"{one.what}\n    {one.write}\n" for one in found) or f"{path}: nothing is to be changed\n"
    told += "".join(f"{one}\n" for one in remarked)
    answer = {"conf": str(path), "advice": [one._asdict() for one in found], "remarks": remarked}
    command_line.show(options, answer, lambda _: told)
    if found:
        raise Failure(NOT_THERE, f"{path}: {len(found)} to be changed")


def conf_of(options: argparse.Namespace) -> Path:
    return Path(options.conf or os.environ.get("SLURM_CONF", CONF))


@contextmanager
def reported(options: argparse.Namespace, table: Table) -> Iterator[None]:
    """Turn what fails while the files of Slurm are read into `Failure`."""
    try:
        yield
    except OSError as error:
        raise Failure(USAGE, f"{error.filename or conf_of(options)}: {error.strerror or error}") from error
    except KeyError:
        raise Failure(USAGE, f"{options.table}: there is no user {table.user}") from None


def print_hook(options: argparse.Namespace) -> None:
    table = table_of(options)
    with reported(options, table):
        sys.stdout.write(hook(table, sizes_of(table, Conf.read(conf_of(options)))))


def print_status(options: argparse.Namespace) -> None:
    logs.begin("firm-slurm")
    command_line.show(options, asyncio.run(status.ask(table_of(options))), status.plain)


def address(text: str) -> Address:
    try:
        return Address.read(text)
    except ValueError as error:
        raise argparse.ArgumentTypeError(str(error)) from None


def parser() -> argparse.ArgumentParser:
    found = argparse.ArgumentParser(
        prog="firm-slurm",
        description=(__doc__ or "").splitlines()[0],
        epilog=EXITS,
        formatter_class=argparse.RawDescriptionHelpFormatter,
    )
    add_version(found)
    common = argparse.ArgumentParser(add_help=False)
    common.add_argument("--table", type=Path, required=True, metavar="FILE", help="partitions and tenants (TOML)")
    verbs = Verbs(found.add_subparsers(metavar="COMMAND", required=True), common)
    one = verbs.add("run", run, "have Slurm do what firm decides")
    told = "serve /metrics (an address alone is a port of the loopback)"
    one.add_argument("--http", type=address, metavar="ADDRESS:PORT", help=told)
    logs.add_form(one)
    two = verbs.add("check", check, "look at slurm.conf before the first start, and say what to write")
    three = verbs.add("status", print_status, "what firm and Slurm have now, and where they differ")
    four = verbs.add("hook", print_hook, "print Slurm's job_submit.lua for the table")
    for command in (two, four):
        command.add_argument("--conf", type=Path, metavar="FILE", help=f"otherwise SLURM_CONF, or {CONF}")
    for command in (two, three):
        command.add_argument("--json", action="store_true", help="print JSON")
    return found


def main() -> int:
    return command_line.run(parser())
