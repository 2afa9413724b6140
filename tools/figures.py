#!/usr/bin/env python3
"""Makes the figures of the pages, docs/figures/*.svg, of crates.txt and of tables of the pages.

    tools/figures.py
"""

from __future__ import annotations

import sys
from pathlib import Path

REPOSITORY = Path(__file__).resolve().parent.parent
FIGURES = REPOSITORY / "docs/figures"
sys.path.insert(0, str(REPOSITORY / "tools"))

import crate_figure  # noqa: E402
import size_figure  # noqa: E402
import speed_figure  # noqa: E402
import walk_figure  # noqa: E402

WALKS = {"search.svg": "The walk of a search", "splice.svg": "The walks of a splice and of its changes"}
"""The figures of the walks, in their order on the page, with their titles."""


def read(name: str) -> str:
    return (REPOSITORY / name).read_text(encoding="utf-8")


def figures() -> dict[str, str]:
    """All figures, by the names of their files."""
    walks = walk_figure.walks_of(read("docs/ARCHITECTURE.md"))
    times = read("docs/PERFORMANCE.md")
    drawn = {"crates.svg": crate_figure.figure(read("crates.txt")),
             "sizes.svg": size_figure.figure(read("docs/EVIDENCE.md")),
             "speed.svg": speed_figure.figure(times), "growth.svg": speed_figure.growth(times)}
    for (name, title), walk in zip(WALKS.items(), walks, strict=True):
        drawn[name] = walk_figure.figure(walk, title)
    return drawn


def main() -> int:
    FIGURES.mkdir(exist_ok=True)
    for name, drawn in figures().items():
        (FIGURES / name).write_text(drawn, encoding="utf-8")
        print(f"docs/figures/{name}")
    return 0


if __name__ == "__main__":
    sys.exit(main())
