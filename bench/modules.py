"""List the time of a crate's check, module by module, after a `rt check` of it.

usage: tools/run bench/modules.py CRATE [CRATE ...] [--most N] [--since SECONDS]
A check stores each checked module in the crate's out/incremental, as a file written at the end of the module. The gap
between two files is the later one's time, on the clock: exact if the check had one job and the machine to itself (`rt
check --jobs 1` with out/incremental removed), a share of the whole otherwise. A name that ends in Lts is the part of a
function in which every field of each value is followed on every way out of it, Tie joins it to the contract, and Proof
searches for goals without an answer.
"""

from __future__ import annotations

import argparse
from typing import NamedTuple

from shared import ROOT, CannotRun, run_script


class Module(NamedTuple):
    """A checked module, and the seconds between the end of the one before it and its own."""

    name: str
    seconds: float


def modules_of(crate: str, since: float) -> list[Module]:
    """Return the stored modules of the crate's checks, in the order of their ends; only those of the last `since`
    seconds."""
    kept = ROOT / "crates" / crate / "out" / "incremental"
    ends = sorted((file.stat().st_mtime, file.stem) for file in kept.rglob("*.oantt"))
    if since and ends:
        ends = [end for end in ends if ends[-1][0] - since <= end[0]]
    return [Module(name.removeprefix("Rattle-"), end - before) for (before, _), (end, name) in zip(ends, ends[1:])]


def report(crate: str, most: int, since: float) -> None:
    """Print the crate's dearest modules, with their shares of it."""
    modules = modules_of(crate, since)
    if not modules:
        raise CannotRun(f"no checked modules of {crate}: run rt check in crates/{crate} first")
    whole = sum(module.seconds for module in modules)
    print(f"{crate}: {len(modules)} modules, {whole:.0f} s")
    for name, seconds in sorted(modules, key=lambda module: -module.seconds)[:most]:
        print(f"  {seconds:7.1f} s  {seconds / whole:6.1%}  {name}")


def main() -> int:
    parser = argparse.ArgumentParser(description=(__doc__ or "").splitlines()[0])
    parser.add_argument("crates", nargs="+", metavar="CRATE", help="checked crate, as firm_rules")
    parser.add_argument("--most", type=int, default=10, help="modules shown of each crate (default: %(default)s)")
    parser.add_argument("--since", type=float, default=0, help="only modules of as many last seconds of the check")
    options = parser.parse_args()
    for crate in options.crates:
        report(crate, options.most, options.since)
    return 0


if __name__ == "__main__":
    run_script(main)
