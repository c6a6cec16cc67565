"""What firm and Slurm have now, where they differ, and since when."""

from __future__ import annotations

import asyncio
import time
from collections import Counter
from contextlib import suppress

from ..cli.command_line import NO_SERVICE, Failure
from ..common import tables
from ..common.tables import Column, Row, number, text
from ..queue.firmd import Away
from . import commands
from .bridge import Side
from .commands import NoSlurm
from .differences import Difference, standing
from .reading import Picture
from .table import Table

PARTITIONS = [text("PARTITION", "partition"), text("TENANT", "tenant")]
COUNTS = ("nodes", "machines", "slots", "running", "waiting", "untold", "held", "needing", "strangers", "different")
PARTITIONS += [number(key.upper(), key) for key in COUNTS]
SINCE = Column("SINCE", lambda row: tables.duration(row["seconds"]), is_number=True)
DIFFERENCES = [text("PARTITION", "partition"), text("TASK", "task"), text("FIRM", "firm"), text("SLURM", "slurm")]
DIFFERENCES += [SINCE]


async def ask(table: Table) -> Row:
    """Asks firm and Slurm; raises `Failure` where one doesn't answer."""
    sides = [Side(partition, table) for partition in table.partitions]
    watches = [asyncio.create_task(side.firm.watch()) for side in sides]
    try:
        for side in sides:
            await side.begin()
        picture = await commands.look([partition.name for partition in table.partitions])
        rows = [row_of(side, picture) for side in sides]
    except (Away, NoSlurm) as error:
        raise Failure(NO_SERVICE, str(error)) from error
    finally:
        for watch in watches:
            watch.cancel()
            with suppress(asyncio.CancelledError):
                await watch
    return {"partitions": rows}


def row_of(side: Side, picture: Picture) -> Row:
    name, book = side.partition.name, side.firm.book
    if book is None:
        raise Away(side.firm.reason)
    found = standing(book, picture.jobs.get(name, {}), picture.at)
    nodes = picture.nodes.get(name, {})
    return {
        "partition": name,
        "tenant": side.partition.tenant,
        "nodes": len(nodes),
        "uses": {use.name.lower(): count for use, count in Counter(node.use for node in nodes.values()).items()},
        "machines": len(book.machines),
        "slots": book.slots,
        "running": found.running,
        "waiting": found.waiting,
        "untold": found.untold,
        "held": found.held,
        "needing": found.needing,
        "strangers": found.strangers,
        "different": len(found.differences),
        "differences": [difference_of(name, one) for one in found.differences],
    }


def difference_of(partition: str, one: Difference) -> Row:
    seconds = None if one.since is None else max(0.0, time.time() - one.since)
    return {"partition": partition, "task": one.task, "firm": one.firm, "slurm": one.slurm, "seconds": seconds}


def plain(answer: Row) -> str:
    rows = answer["partitions"]
    differences = [row for partition in rows for row in partition["differences"]]
    told = tables.table(PARTITIONS, rows)
    return f"{told}\n{tables.table(DIFFERENCES, differences)}" if differences else told
