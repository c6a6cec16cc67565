"""Draw tables of docs/results: rounds beside LEMON, their growth with the arcs, rounds a second by workers.

usage: tools/run bench/pictures.py [--to FOLDER] [PICTURE ...]
The pictures are ratios and growth (of rounds.md) and workers (of workers.md), by default all; PICTURE.svg goes into
docs/pictures. The same tables give the same bytes. It needs Debian's python3-matplotlib; if another python3 is first on
the PATH, PYTHON=/usr/bin/python3 names Debian's. The exit status is 2 if a table is missing.
"""

from __future__ import annotations

import argparse
from dataclasses import dataclass
from itertools import takewhile
from math import log
from pathlib import Path
from typing import Any, Callable, Iterable

from shared import ROOT, CannotRun, run_script

RESULTS = ROOT / "docs" / "results"
# Seven colours that most of the colour-blind can tell apart; from the eighth on they repeat, dashed.
COLOURS = ("#3b7dd8", "#e08a1e", "#3c9d5d", "#b0508e", "#c2504a", "#7a6fd0", "#7d8b99")
STYLE = {
    "axes.axisbelow": True,
    "axes.edgecolor": "#8b949e",
    "axes.grid": True,
    "axes.titlelocation": "left",
    "figure.constrained_layout.use": True,
    "font.size": 9,
    "grid.alpha": 0.3,
    "legend.frameon": False,
    "svg.fonttype": "none",  # text stays text
    "svg.hashsalt": "firm",
}
COLD = "1"  # the first round of a stream
TICKS = (1, 2, 5)  # times powers of ten
LEAST_GAP = 0.045  # between names at the ends of lines, as a part of the height
Rows = list[dict[str, str]]


@dataclass(frozen=True)
class Options:
    to: Path
    pictures: list[str]


def once(values: Iterable[str]) -> list[str]:
    """Return the values, each once, in the order of their first occurrences."""
    return list(dict.fromkeys(values))


def cells(line: str) -> list[str]:
    return [cell.strip() for cell in line.strip("|").split("|")]


def table(page: str, *columns: str) -> Rows:
    """Return the rows of the page's first table with these columns."""
    lines = (RESULTS / page).read_text().splitlines()
    for number, line in enumerate(lines):
        names = cells(line)
        if set(columns) <= set(names):
            rows = takewhile(lambda row: row.startswith("|"), lines[number + 2 :])
            return [dict(zip(names, cells(row))) for row in rows]
    raise CannotRun(f"{RESULTS / page} has no table with the columns {', '.join(columns)}")


def tasks_of(size: str) -> int:
    """Return the tasks of a size, as 3,000 of 3000x1000."""
    return int(size.partition("x")[0])


def figure(text: str) -> float:
    return float(text.replace(",", ""))


def mark(axis: Any) -> None:
    """Mark a logarithmic axis at 1, 2 and 5 times powers of ten."""
    axis.get_major_locator().set_params(subs=TICKS)
    axis.get_minor_locator().set_params(subs=())
    axis.set_major_formatter(lambda value, _: f"{value / 1000:g}k" if value >= 1000 else f"{value:g}")


def draw_ratios(plot: Any) -> Any:
    """Draw a row for each kind, a dot for each size's cold round and a ring for the worst that follows."""
    rows = table("rounds.md", "kind", "size", "round", "firm / faster")
    kinds, sizes = once(row["kind"] for row in rows), sorted(once(row["size"] for row in rows), key=tasks_of)
    drawn, axes = plot.subplots(figsize=(7.2, 4.2))
    for place, size in enumerate(sizes):
        shift = (place - (len(sizes) - 1) / 2) * 0.2
        for is_cold in (True, False):
            own = [row for row in rows if row["size"] == size and (row["round"] == COLD) == is_cold]
            axes.scatter(
                [figure(row["firm / faster"]) for row in own],
                [kinds.index(row["kind"]) + shift for row in own],
                s=28,
                facecolors=COLOURS[place] if is_cold else "none",
                edgecolors=COLOURS[place],
                label=f"{size}, {'cold round' if is_cold else 'worst later one'}",
            )
    axes.axvline(1, color="#8b949e", linestyle="--")
    axes.set_xscale("log")
    mark(axes.xaxis)
    axes.set_yticks(range(len(kinds)), kinds)
    axes.invert_yaxis()
    axes.set_title("Rounds beside LEMON's faster solver: times its time")
    axes.legend(loc="upper center", bbox_to_anchor=(0.5, -0.06), ncols=2)
    return drawn


def heights_of(names: dict[str, float]) -> dict[str, float]:
    """Return the heights of names, as parts of a picture's, from the top, moved down if two would be too close."""
    found: dict[str, float] = {}
    last = 1 + LEAST_GAP
    for name, height in sorted(names.items(), key=lambda item: -item[1]):
        last = found[name] = min(height, last - LEAST_GAP)
    return found


def draw_curves(axes: Any, curves: dict[str, list[tuple[float, float]]], title: str) -> None:
    """Draw a line for each name, with the name at its end."""
    for place, points in enumerate(curves.values()):
        look = {"color": COLOURS[place % len(COLOURS)], "linestyle": "--" if place >= len(COLOURS) else "-"}
        axes.loglog(*zip(*points), marker="o", markersize=4, linewidth=1.2, **look)
    for axis in (axes.xaxis, axes.yaxis):
        mark(axis)
    least, most = map(log, axes.get_ylim())
    ends = {name: (log(points[-1][1]) - least) / (most - least) for name, points in curves.items()}
    for name, height in heights_of(ends).items():
        colour = COLOURS[list(curves).index(name) % len(COLOURS)]
        line = {"arrowstyle": "-", "color": colour, "linewidth": 0.5}
        end = curves[name][-1]
        axes.annotate(
            name, end, (1.05, height), textcoords="axes fraction", va="center", arrowprops=line, annotation_clip=False
        )
    axes.set_xlabel("arcs")
    axes.set_title(title)


def draw_growth(plot: Any) -> Any:
    """Draw a cold round's cost for each arc, in time and in looks, by the arcs of its network."""
    rows = table("rounds.md", "kind", "round", "arcs", "looks", "proposed", "firm ms")
    cold = sorted((row for row in rows if row["round"] == COLD), key=lambda row: figure(row["arcs"]))
    drawn, (left, right) = plot.subplots(1, 2, figsize=(7.2, 3.8))
    times: dict[str, list[tuple[float, float]]] = {row["kind"]: [] for row in rows}
    looks: dict[str, list[tuple[float, float]]] = {row["kind"]: [] for row in rows}
    for row in cold:
        arcs = figure(row["arcs"])
        times[row["kind"]].append((arcs, figure(row["firm ms"]) * 1_000 / arcs))
        looks[row["kind"]].append((arcs, (figure(row["looks"]) + figure(row["proposed"])) / arcs))
    draw_curves(left, times, "Microseconds for each arc")
    draw_curves(right, looks, "Looks for each arc")
    return drawn


def draw_workers(plot: Any) -> Any:
    """Draw rounds a second by the number of workers; level for the program that serves on one thread."""
    rows = table("workers.md", "workers", "rounds a second")
    drawn, axes = plot.subplots(figsize=(7.2, 3.4))
    own = [(int(row["workers"]), figure(row["rounds a second"])) for row in rows if row["workers"].isdigit()]
    for row in rows:
        if not row["workers"].isdigit():
            name = row["workers"].partition(", ")[2].strip("`")
            axes.axhline(figure(row["rounds a second"]), color=COLOURS[1], linestyle="--", label=f"{name}, one thread")
    axes.plot(*zip(*own), marker="o", color=COLOURS[0], label="firm")
    axes.set_xticks([workers for workers, _ in own])
    axes.set_ylim(bottom=0)
    axes.set_xlabel("workers")
    axes.set_title("Rounds a second by workers")
    axes.legend(loc="upper left")
    return drawn


PICTURES: dict[str, Callable[[Any], Any]] = {"ratios": draw_ratios, "growth": draw_growth, "workers": draw_workers}


def read_options() -> Options:
    parser = argparse.ArgumentParser(description=(__doc__ or "").splitlines()[0])
    parser.add_argument("--to", type=Path, default=ROOT / "docs" / "pictures", help="(default: %(default)s)")
    parser.add_argument("pictures", nargs="*", metavar="PICTURE", help=", ".join(PICTURES))
    options = Options(**vars(parser.parse_args()))
    unknown = [name for name in options.pictures if name not in PICTURES]
    if unknown:
        parser.error(f"no picture is called {' or '.join(unknown)}")
    return options


def main() -> int:
    options = read_options()
    try:
        from matplotlib import pyplot, rc_context  # type: ignore[import] # it has no types
    except ImportError:
        raise CannotRun("it needs matplotlib: apt-get install python3-matplotlib, and Debian's python3") from None
    with rc_context(STYLE):
        for name in options.pictures or PICTURES:
            path = options.to / f"{name}.svg"
            PICTURES[name](pyplot).savefig(path, metadata={"Date": None})
            path.write_text("".join(line.rstrip() + "\n" for line in path.read_text().splitlines()))
            print(path)
    return 0


if __name__ == "__main__":
    run_script(main)
