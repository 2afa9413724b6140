"""What figures share: pieces of SVG, in colours for light and for dark pages."""

from __future__ import annotations

from html import escape

Point = tuple[float, float]

SIZE = 13
"""The height of text."""

STYLE = """\
text { font: 13px ui-monospace, Menlo, Consolas, "DejaVu Sans Mono", monospace; fill: #1f2328 }
.note { font-family: system-ui, "DejaVu Sans", sans-serif; fill: #59636e }
.bold { font-weight: bold }
.page { fill: #ffffff }
.band { fill: #f2f4f7 }
.box { fill: #ffffff; stroke: #8c959f }
.line { fill: none; stroke: #8c959f }
.faint { fill: none; stroke: #d1d9e0 }
.first { fill: #0969da }
.second { fill: #bc6c00 }
.third { fill: #8c959f }
.first-line { stroke: #0969da }
.second-line { stroke: #bc6c00 }
@media (prefers-color-scheme: dark) {
text { fill: #e6edf3 }
.note { fill: #9198a1 }
.page { fill: #0d1117 }
.band { fill: #1b2129 }
.box { fill: #0d1117; stroke: #6e7681 }
.line { stroke: #6e7681 }
.faint { stroke: #3d444d }
.first { fill: #58a6ff }
.second { fill: #e3a04c }
.first-line { stroke: #58a6ff }
.second-line { stroke: #e3a04c }
}"""


def width_of(words: str) -> float:
    """About how wide text is."""
    return 0.61 * SIZE * len(words)


def text(at: Point, words: str, kind: str = "", anchor: str = "start") -> str:
    """Text whose line of writing begins, ends or has its middle at a point."""
    return f'<text x="{at[0]:.0f}" y="{at[1]:.0f}" class="{kind}" text-anchor="{anchor}">{escape(words)}</text>'


def rectangle(at: Point, width: float, height: float, kind: str) -> str:
    return (f'<rect x="{at[0]:.0f}" y="{at[1]:.0f}" width="{width:.0f}" height="{height:.0f}" rx="4" '
            f'class="{kind}"/>')


def dot(at: Point, radius: float, kind: str, opacity: float = 1) -> str:
    return f'<circle cx="{at[0]:.1f}" cy="{at[1]:.1f}" r="{radius}" class="{kind}" opacity="{opacity}"/>'


def line(points: list[Point], kind: str = "line") -> str:
    places = " ".join(f"{x:.0f},{y:.0f}" for x, y in points)
    return f'<polyline points="{places}" class="{kind}"/>'


def curve(points: list[Point]) -> str:
    """A line down through these points, upright in each."""
    (x, y), path = points[0], f"M{points[0][0]:.0f},{points[0][1]:.0f}"
    for right, down in points[1:]:
        middle = (y + down) / 2
        path += f" C{x:.0f},{middle:.0f} {right:.0f},{middle:.0f} {right:.0f},{down:.0f}"
        x, y = right, down
    return f'<path d="{path}" class="line"/>'


def drawing(width: float, height: float, title: str, parts: list[str]) -> str:
    """A whole figure."""
    return "\n".join([
        f'<svg xmlns="http://www.w3.org/2000/svg" width="{width:.0f}" height="{height:.0f}" '
        f'viewBox="0 0 {width:.0f} {height:.0f}">',
        f"<title>{escape(title)}</title>", f"<style>\n{STYLE}\n</style>",
        '<rect width="100%" height="100%" rx="6" class="page"/>', *parts, "</svg>", ""])
