"""The links of the pages, each of which has to lead to an existing file, and to a heading in it."""

from __future__ import annotations

import re
from collections.abc import Iterator, Sequence
from pathlib import Path

from harness.program import ROOT

LINK = re.compile(r"\]\(([^)\s#]*)(?:#([^)\s]*))?\)")
HEADING = re.compile(r"#+ (.*)")
FENCE = "```"


def text_of(lines: Sequence[str]) -> list[str]:
    """Return the lines, with those of fenced blocks left empty."""
    kept, is_fenced = list[str](), False
    for line in lines:
        is_fence = line.startswith(FENCE)
        kept.append("" if is_fence or is_fenced else line)
        is_fenced ^= is_fence
    return kept


def anchor(heading: str) -> str:
    """Return the name by which a link finds a heading: its words in small letters, with hyphens between them."""
    shown = re.sub(r"\]\([^)]*\)", "", heading.strip().lower())
    return re.sub(r"[^\w\- ]", "", shown).replace(" ", "-")


def anchors(lines: Sequence[str]) -> set[str]:
    return {anchor(heading[1]) for line in text_of(lines) if (heading := HEADING.fullmatch(line))}


def link_faults(files: dict[Path, list[str]]) -> Iterator[str]:
    """Yield the links of pages to missing files and headings; links to other sites are not looked up."""
    pages = {(ROOT / path).resolve(): lines for path, lines in files.items() if path.suffix == ".md"}
    for page, lines in pages.items():
        for path, name in LINK.findall("\n".join(text_of(lines))):
            if "://" in path:
                continue
            target = (page.parent / path).resolve() if path else page
            if not target.exists() or (name and target in pages and name not in anchors(pages[target])):
                yield f"{page.relative_to(ROOT)}: {path}{'#' if name else ''}{name} leads nowhere"
