"""Reads the tables of pages, and writes those that a script makes: what is between its line and `<!-- end -->`."""

from __future__ import annotations

from pathlib import Path

Table = list[list[str]]
"""The cells by rows, the first of which names the columns."""

END = "<!-- end -->\n"


def cells_of(row: str) -> list[str]:
    return [cell.strip() for cell in row.strip().strip("|").split("|")]


def tables_of(page: str) -> list[tuple[str, Table]]:
    """The tables of a page, each with the last line of text before it."""
    found: list[tuple[str, Table]] = []
    before, inside = "", False
    for row in page.splitlines():
        if row.startswith("|"):
            if not inside:
                found.append((before, []))
            if set(row) - set("|-: "):
                found[-1][1].append(cells_of(row))
        elif row:
            before = row
        inside = row.startswith("|")
    return found


def table_of(page: Path, name: str) -> str:
    """The table that a page has below the line of its name; none where it has no such line."""
    return page.read_text(encoding="utf-8").partition(f"<!-- {name} -->\n")[2].partition(END)[0]


def written(table: Table) -> str:
    head, *rows = (f"| {' | '.join(row)} |\n" for row in table)
    return f"{head}|{'---|' * len(table[0])}\n{''.join(rows)}"


def write_table(page: Path, name: str, table: Table) -> None:
    """Puts a table in the place of the one that the page has."""
    before, mark, rest = page.read_text(encoding="utf-8").partition(f"<!-- {name} -->\n")
    if not mark or END not in rest:
        raise SystemExit(f"{page.name} has no lines <!-- {name} --> and {END.strip()}")
    page.write_text(before + mark + written(table) + END + rest.partition(END)[2], encoding="utf-8")
