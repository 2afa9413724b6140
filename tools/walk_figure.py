"""The figures of walks: the functions of which each calls the next, in bands of their crates.

A walk is a table of docs/ARCHITECTURE.md below a line on functions "each of which calls the next". Its
first column has the crates, each further one a walk: names in backquotes, each perhaps with a note after
a colon. A name after "of" is no function, and what follows "from" was called above.
"""

from __future__ import annotations

import re

from svg import SIZE, Point, dot, drawing, line, rectangle, text, width_of
from tables import Table, tables_of

Function = tuple[str, str]
"""The name of a function, and a note on it."""

STEP, EDGE, INDENT = 22, 8, 16
"""From one function to the next, what is above the first and below the last of a band, and from a dot to its name."""


def walks_of(page: str) -> list[Table]:
    """The tables of the walks on a page."""
    return [table for before, table in tables_of(page) if "each of which calls the next" in before]


def functions_of(cell: str) -> list[Function]:
    """The functions of a crate in a walk."""
    own = cell.partition(", from ")[0]
    found = re.findall(r"(of )?`([^`]+)`(?:: ([^;`]*))?", own)
    return [(name, note.strip()) for of, name, note in found if not of]


def labels_of(cell: str) -> list[str]:
    """What a band is named: a crate, and perhaps its file."""
    return re.findall(r"`([^`]+)`", cell)


def wide(function: Function) -> float:
    name, note = function
    return INDENT + width_of(name) + (12 + 0.85 * width_of(note) if note else 0)


def drawn_functions(functions: list[Function], at: Point) -> list[str]:
    """A band's functions of one walk, each with a dot before it."""
    parts = []
    for place, (name, note) in enumerate(functions):
        x, y = at[0], at[1] + place * STEP
        parts += [dot((x, y), 3.5, "first"), text((x + INDENT, y + SIZE / 3), name)]
        if note:
            parts.append(text((x + INDENT + width_of(name) + 12, y + SIZE / 3), note, "note"))
    return parts


def figure(table: Table, title: str) -> str:
    """The figure of a table of walks."""
    heads, rows = table[0][1:], table[1:]
    cells = [[functions_of(cell) for cell in row[1:]] for row in rows]
    left = 32 + max(width_of(label) for row in rows for label in labels_of(row[0]))
    widths = [36 + max(wide(function) for row in cells for function in row[column]) for column in range(len(heads))]
    starts = [left + sum(widths[:column]) for column in range(len(heads))]
    width = left + sum(widths)
    top = 12.0
    bands, marks, tracks = [], [], [[] for _ in heads]
    if len(heads) > 1:
        marks += [text((x - 4, top + SIZE), head.replace("`", ""), "bold") for x, head in zip(starts, heads)]
        top += 26
    for number, row in enumerate(rows):
        count = max(len(labels_of(row[0])), *(len(functions) for functions in cells[number]))
        high = 2 * EDGE + count * STEP
        bands.append(rectangle((8, top), width - 16, high, "band" if number % 2 == 0 else "page"))
        for place, label in enumerate(labels_of(row[0])):
            kind = "note" if place else "bold"
            marks.append(text((20, top + EDGE + place * STEP + STEP / 2 + SIZE / 3), label, kind))
        for column, functions in enumerate(cells[number]):
            at = starts[column], top + EDGE + STEP / 2
            marks += drawn_functions(functions, at)
            tracks[column] += [(at[0], at[1] + place * STEP) for place in range(len(functions))]
        top += high
    return drawing(width, top + 12, title, [*bands, *(line(track) for track in tracks), *marks])
