"""The figure of sizes, made of the table of docs/EVIDENCE.md that `tools/count.py --size` prints."""

from __future__ import annotations

from svg import SIZE, drawing, rectangle, text
from tables import tables_of

WIDTH, LEFT, RIGHT, STEP = 760, 170, 660, 19
"""The width of the figure, where its bars begin and where the longest ends, and what is from one to the next."""

KINDS = {"code": "first", "specs": "second", "proofs": "third"}
"""The columns that are shown, with their colours."""


def figure(page: str) -> str:
    """The figure of sizes: a bar for each crate."""
    head, *rows = next(table for _, table in tables_of(page) if "proofs" in table[0])
    crates = {row[0].strip("`"): [int(row[head.index(kind)].replace(",", "")) for kind in KINDS] for row in rows[:-1]}
    most, parts, y = max(map(sum, crates.values())), [text((24, 12 + SIZE), "Kilobytes of the crates", "bold")], 48.0
    for place, (kind, colour) in enumerate(KINDS.items()):
        parts += [rectangle((330 + 110 * place, 15), 10, 10, colour), text((348 + 110 * place, 25), kind)]
    for name, sizes in crates.items():
        parts.append(text((LEFT - 12, y + SIZE / 3), name, "", "end"))
        x = LEFT
        for size, colour in zip(sizes, KINDS.values(), strict=True):
            width = (RIGHT - LEFT) * size / most
            parts.append(rectangle((x, y - 6), width, 12, colour))
            x += width
        parts.append(text((x + 8, y + SIZE / 3), f"{sum(sizes) / 1000:,.0f}"))
        y += STEP
    return drawing(WIDTH, y + 4, "The size of the crates", parts)
