"""Slurm's own commands: what it has, and what it is to do."""

from __future__ import annotations

import asyncio
import os
import time
from collections.abc import Awaitable, Sequence
from typing import TypeVar

from .reading import JOB_FIELDS, NODE_FIELDS, Picture, format_of, read_jobs, read_licences, read_nodes
from .reading import read_reservations, with_reservations, without_shared

ANSWER_SECONDS = 60.0
MAX_AT_A_TIME, LEAST_TOGETHER = 4, 20  # commands that scontrol gives at a time, and how many of them one by one
# Whole lists of an array's indices, and times as seconds.
ENVIRONMENT = {"SLURM_TIME_FORMAT": "%s", "SLURM_BITSTR_LEN": "0"}
PRESET = ("SQUEUE_", "SINFO_", "SCONTROL_")  # options of users, in the environment
NAMES: dict[str, list[str]] = {}  # the nodes of lists like node[1-3]
Answer = TypeVar("Answer")


class NoSlurm(Exception):
    """A command of Slurm's is not there, or fails."""


def environment() -> dict[str, str]:
    return {name: value for name, value in os.environ.items() if not name.startswith(PRESET)} | ENVIRONMENT


async def run(*words: str, text: str = "") -> tuple[int, str, str]:
    """The status of a command, and what it wrote."""
    pipe = asyncio.subprocess.PIPE
    try:
        process = await asyncio.create_subprocess_exec(*words, stdin=pipe, stdout=pipe, stderr=pipe, env=environment())
    except OSError as error:
        raise NoSlurm(f"{words[0]}: {error.strerror}") from error
    try:
        async with asyncio.timeout(ANSWER_SECONDS):
            output, errors = await process.communicate(text.encode())
    except TimeoutError as error:
        raise NoSlurm(f"{words[0]} has not answered for {ANSWER_SECONDS:g} s") from error
    finally:
        if process.returncode is None:
            process.kill()
            await process.wait()
    return process.returncode or 0, output.decode(errors="replace"), errors.decode(errors="replace")


async def answer(*words: str) -> str:
    status, output, errors = await run(*words)
    if status:
        raise NoSlurm(f"{words[0]}: {errors.strip() or f'status {status}'}")
    return output


async def together(*work: Awaitable[Answer]) -> list[Answer]:
    """What each of some commands gives once all have ended: a look after a failure is to find none still at it."""
    found: list[Answer] = []
    for one in await asyncio.gather(*work, return_exceptions=True):
        if isinstance(one, BaseException):
            raise one
        found.append(one)
    return found


async def look(partitions: Sequence[str]) -> Picture:
    """What Slurm has of some partitions."""
    names, at = ",".join(partitions), time.time()
    told = await together(
        answer("sinfo", "-h", "-N", "-p", names, "-O", format_of(NODE_FIELDS)),
        answer("squeue", "-h", "--array-unique", "-p", names, "-O", format_of(JOB_FIELDS)),
        answer("scontrol", "-o", "show", "licenses"),
        answer("scontrol", "-o", "show", "reservation"),
    )
    try:
        nodes, jobs = without_shared(read_nodes(told[0]), partitions), read_jobs(told[1])
    except ValueError as error:
        raise NoSlurm(f"sinfo or squeue printed what can't be read: {error}") from error
    begins = await first_reservations(told[3])
    for name, rows in nodes.items():
        nodes[name] = with_reservations(rows, jobs.get(name, {}).values(), begins, at)
    return Picture(nodes, jobs, read_licences(told[2]), at)


async def first_reservations(text: str) -> dict[str, float]:
    """Return when the first reservation of each node begins, or has begun."""
    found: dict[str, float] = {}
    for at, listed in sorted(read_reservations(text)):
        if listed not in NAMES:
            NAMES[listed] = (await answer("scontrol", "show", "hostnames", listed)).split()
        for name in NAMES[listed]:
            found.setdefault(name, at)
    return found


async def obey(phases: Sequence[Sequence[str]]) -> list[str]:
    """Gives scontrol the commands of each phase, several at a time; what it complained of."""
    complaints: list[str] = []
    for phase in phases:
        count = min(MAX_AT_A_TIME, len(phase) // LEAST_TOGETHER + 1)
        for _, _, errors in await together(*(give(phase[first::count]) for first in range(count))):
            complaints += [line.strip() for line in errors.splitlines() if line.strip()]
    return complaints


async def give(commands: Sequence[str]) -> tuple[int, str, str]:
    return await run("scontrol", text="".join(command + "\n" for command in commands))
