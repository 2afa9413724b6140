"""The figures of speed and of growth, made of tables of docs/PERFORMANCE.md: speed of those of searches and of random
commands, whose times are given by that of GNU grep, and of a session; growth of that of longer and longer lines.

A cell may have the values of several cases, with semicolons between. A search without a text is of the
text above.
"""

from __future__ import annotations

from math import log10, prod

from svg import SIZE, Point, dot, drawing, line, rectangle, text
from tables import Table, tables_of

Ratios = dict[str, list[float]]
"""By the text that is searched, the time of each case, divided by that of GNU grep."""

PROGRAMS = {"now": ("Gaxtrel", "first"), "ripgrep": ("ripgrep", "second")}
"""The columns of searches, with the names of the programs and their colours."""

STEPS = ["one line replaced", "`changes` after an edit", "`page` of 50 hits", "one pattern more",
         "GNU grep over the same lines"]
"""How the rows of the session begin that are shown."""

WIDTH, LEFT, RIGHT = 760, 330, 690
"""The width of the figure, and where its scales begin and end."""

HIGH = 150
"""How high a figure of curves is."""

RATIOS = [0.05, 0.1, 0.2, 0.5, 1, 2]
MILLISECONDS = [0.01, 0.1, 1, 10, 100, 1000]
LENGTHS = [1_000, 10_000, 100_000, 1_000_000, 10_000_000]
SECONDS = [0.001, 0.01, 0.1, 1, 10]
"""What is written at the scales."""


def table_with(page: str, column: str) -> Table:
    return next(table for _, table in tables_of(page) if column in table[0])


def ratios_of(table: Table, column: str) -> Ratios:
    """The ratios of a program, by texts."""
    found: Ratios = {}
    place, name = table[0].index(column), ""
    for row in table[1:]:
        name = row[0].replace("`", "") or name
        found.setdefault(name, []).extend(float(value) for value in row[place].split(";"))
    return found


def steps_of(table: Table) -> list[tuple[str, float]]:
    """The steps of a session that are shown, with their milliseconds."""
    cases = [pair for row in table[1:] for pair in zip(row[0].split("; "), row[1].split("; "))]
    return [next((label.replace("`", ""), float(value)) for label, value in cases if label.startswith(step))
            for step in STEPS]


def mean(values: list[float]) -> float:
    """The geometric mean."""
    return prod(values) ** (1 / len(values))


def share_of(value: float, scale: list[float]) -> float:
    """Where a value is on a scale by its logarithm, from 0 to 1."""
    return log10(value / scale[0]) / log10(scale[-1] / scale[0])


def place_of(value: float, scale: list[float]) -> float:
    return LEFT + (RIGHT - LEFT) * share_of(value, scale)


def drawn_scale(scale: list[float], top: float, bottom: float) -> list[str]:
    """The upright lines of a scale, with their values below."""
    parts = []
    for value in scale:
        x = place_of(value, scale)
        parts += [line([(x, top), (x, bottom)], "faint"), text((x, bottom + 16), f"{value:,}", "note", "middle")]
    return parts


def drawn_heights(heights: dict[str, float], top: float) -> list[str]:
    """The level lines of a figure of curves, with what is written at them, each at a share of the height."""
    parts = []
    for label, share in heights.items():
        y = top + HIGH * (1 - share)
        parts += [line([(LEFT, y), (RIGHT, y)], "faint"), text((LEFT - 16, y + SIZE / 3), label, "note", "end")]
    return parts


def drawn_curve(name: str, points: list[Point], top: float, kind: str, label: Point) -> list[str]:
    """A program's curve: points by place and share of the height; and its name."""
    places = [(x, top + HIGH * (1 - share)) for x, share in points]
    return [line(places, f"line {kind}-line"), *(dot(place, 3, kind) for place in places),
            rectangle((label[0], label[1] - 10), 10, 10, kind), text((label[0] + 18, label[1]), name)]


def drawn_values(values: list[float], y: float, kind: str) -> list[str]:
    """A dot for each ratio, a bar at their mean, and the mean in figures."""
    middle = place_of(mean(values), RATIOS)
    dots = [dot((place_of(value, RATIOS), y), 3.5, kind, 0.45) for value in values]
    bar = rectangle((middle - 1.5, y - 8), 3, 16, kind)
    return [*dots, bar, text((RIGHT + 20, y + SIZE / 3), f"{mean(values):.2f}")]


def searches(page: str, top: float) -> tuple[list[str], float]:
    """The searches, and where they end."""
    table = table_with(page, "GNU grep, s")
    ratios = {column: ratios_of(table, column) for column in PROGRAMS}
    names = {name: len(values) for name, values in ratios["now"].items()}
    rows, y = [], top + 54.0
    for name, count in [*names.items(), ("all", sum(names.values()))]:
        rows += [text((24, y + SIZE / 3), name, "bold" if name == "all" else ""),
                 text((24, y + 20 + SIZE / 3), f"{count} cases", "note")]
        for column, (program, kind) in PROGRAMS.items():
            values = ratios[column].get(name, [value for each in ratios[column].values() for value in each])
            rows += [text((LEFT - 16, y + SIZE / 3), program, "note", "end"), *drawn_values(values, y, kind)]
            y += 20
        y += 14
    y -= 10
    one = place_of(1, RATIOS)
    head = [text((24, top + SIZE), "Time of a search, where that of GNU grep is 1", "bold"),
            text((24, top + SIZE + 18), "less is better; a dot is a case, a bar the geometric mean", "note"),
            text((one, top + 34), "GNU grep", "note", "middle")]
    return [*head, *drawn_scale(RATIOS, top + 40, y), line([(one, top + 40), (one, y)]), *rows], y + 16


def commands(page: str, top: float) -> tuple[list[str], float]:
    """The random commands, and where they end."""
    head, *rows = table_with(page, "greatest")
    start, parts = top + 40, []
    for place, (row, kind) in enumerate(zip(rows, ("first", "second"), strict=True)):
        points = [(place_of(float(most), RATIOS), float(share) / 100) for most, share in zip(head[1:-2], row[1:-2])]
        parts += drawn_curve(row[0], points, start, kind, (24, top + SIZE + 42 + 20 * place))
    one = place_of(1, RATIOS)
    titles = [text((24, top + SIZE), "Percent of random commands that take at most so long", "bold"),
              text((24, top + SIZE + 18), head[0], "note"),
              text((one, start - 6), "GNU grep", "note", "middle")]
    heights = {f"{percent} %": percent / 100 for percent in (0, 25, 50, 75, 100)}
    return [*titles, *drawn_scale(RATIOS, start, start + HIGH), *drawn_heights(heights, start),
            line([(one, start), (one, start + HIGH)]), *parts], start + HIGH + 16


def session(page: str, top: float) -> tuple[list[str], float]:
    """The steps of a session, and where they end."""
    steps = steps_of(table_with(page, "1 million lines"))
    rows, y = [], top + 48.0
    for label, value in steps:
        x = place_of(value, MILLISECONDS)
        kind = "third" if label.startswith("GNU") else "first"
        rows += [text((24, y + SIZE / 3), label.partition(", ")[0]), rectangle((LEFT, y - 6), x - LEFT, 12, kind),
                 text((x + 8, y + SIZE / 3), f"{value:g}")]
        y += 24
    head = [text((24, top + SIZE), "Milliseconds of occur, with 1 million lines", "bold")]
    return [*head, *drawn_scale(MILLISECONDS, top + 30, y - 6), *rows], y + 10


def figure(page: str) -> str:
    """The figure of speed."""
    upper, below = searches(page, 12)
    middle, lowest = commands(page, below + 28)
    lower, bottom = session(page, lowest + 28)
    return drawing(WIDTH, bottom + 14, "Times of Gaxtrel, GNU grep and ripgrep", [*upper, *middle, *lower])


def growth(page: str) -> str:
    """The figure of growth."""
    head, *rows = table_with(page, "bytes of the line")
    lengths, top, parts = [int(cell.replace(",", "")) for cell in head[1:]], 56.0, []
    for place, (row, kind) in enumerate(zip(rows, ("first", "third", "second"), strict=True)):
        points = [(place_of(length, LENGTHS), share_of(max(float(took), SECONDS[0]), SECONDS))
                  for length, took in zip(lengths, row[1:]) if took != "none"]
        parts += drawn_curve(row[0], points, top, kind, (24, top + 12 + 20 * place))
    titles = [text((24, 12 + SIZE), "Seconds for all parts of one line", "bold"),
              text((24, 30 + SIZE), "by its length in bytes", "note")]
    heights = {f"{seconds:,}": share_of(seconds, SECONDS) for seconds in SECONDS}
    return drawing(WIDTH, top + HIGH + 30, "Growth of the time for all parts of a line", [
        *titles, *drawn_scale(LENGTHS, top, top + HIGH), *drawn_heights(heights, top), *parts])
