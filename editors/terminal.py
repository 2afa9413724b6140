"""What pictures of editors share: a program in a terminal, and its screen as SVG. It wants tmux."""

from __future__ import annotations

import html
import re
import shlex
import subprocess
import time
from collections.abc import Iterator
from dataclasses import dataclass, replace
from itertools import zip_longest
from pathlib import Path

COLUMNS, ROWS = 84, 26
CELL_WIDTH, CELL_HEIGHT = 8.43, 18
FONT = "DejaVu Sans Mono, Menlo, Consolas, monospace"

FILES = {
    "server.log": """\
09:14:02 info  listening on port 8080
09:14:07 info  GET /index.html 200
09:14:09 error GET /missing.css 404
09:15:31 warn  slow reply: 2300 ms
09:15:40 info  GET /index.html 200
09:16:12 Error cannot open /var/db: busy
09:16:13 info  retry in 5 s
""",
    "worker.log": """\
09:14:03 info  4 workers
09:16:12 error worker 2: no database
09:16:18 info  worker 2: database is back
""",
}

BASE = ["#1c1c1c", "#cc5555", "#5fa55f", "#c9a227", "#5f87d7", "#af6fbf", "#4fa8a8", "#d0d0d0",
        "#707070", "#ff7777", "#87d787", "#ffd75f", "#87afff", "#d787d7", "#7fd7d7", "#ffffff"]
"""The 16 colours that a terminal has by name."""


@dataclass(frozen=True)
class Look:
    """How a character is drawn."""

    fore: str = "#d8d8d8"
    back: str = "#1c1c1c"
    bold: bool = False
    underline: bool = False
    inverse: bool = False


def palette(number: int) -> str:
    """The colour of this number of the 256 that a terminal has."""
    if number < 16:
        return BASE[number]
    if number >= 232:
        level = 8 + 10 * (number - 232)
        return f"#{level:02x}{level:02x}{level:02x}"
    levels = [0, 95, 135, 175, 215, 255]
    number -= 16
    return "#" + "".join(f"{levels[n]:02x}" for n in (number // 36, number // 6 % 6, number % 6))


def changed(look: Look, codes: list[int]) -> Look:
    """The look after an escape sequence with these codes."""
    while codes:
        code = codes.pop(0)
        if code == 0:
            look = Look()
        elif code in (1, 4, 7):
            look = replace(look, **{{1: "bold", 4: "underline", 7: "inverse"}[code]: True})
        elif code in (22, 24, 27):
            look = replace(look, **{{22: "bold", 24: "underline", 27: "inverse"}[code]: False})
        elif code in (38, 48):
            kind = codes.pop(0)
            colour = palette(codes.pop(0)) if kind == 5 else "#%02x%02x%02x" % tuple(codes[:3])
            codes = codes if kind == 5 else codes[3:]
            look = replace(look, **{"fore" if code == 38 else "back": colour})
        elif code in (39, 49):
            look = replace(look, **({"fore": Look.fore} if code == 39 else {"back": Look.back}))
        elif 30 <= code <= 37 or 90 <= code <= 97:
            look = replace(look, fore=BASE[code - 30 if code < 90 else code - 82])
        elif 40 <= code <= 47 or 100 <= code <= 107:
            look = replace(look, back=BASE[code - 40 if code < 100 else code - 92])
    return look


def runs(line: str, look: Look) -> Iterator[tuple[str, Look]]:
    """The pieces of a captured line, each with its look; the last one is empty."""
    for escape, text in re.findall(r"\x1b\[([\d;:]*)m|([^\x1b]+)", line):
        if text:
            yield text, look
        else:
            look = changed(look, [int(code or 0) for code in re.split("[;:]", escape)])
    yield "", look


def drawn_rows(screen: str) -> list[str]:
    """The rows of a captured screen as SVG."""
    rows = []
    look = Look()
    for row, line in enumerate(screen.split("\n")[:ROWS]):
        out: list[str] = []
        column, top = 0, 10 + row * CELL_HEIGHT
        for text, look in runs(line, look):
            fore, back = (look.back, look.fore) if look.inverse else (look.fore, look.back)
            left, long = 10 + column * CELL_WIDTH, len(text) * CELL_WIDTH
            if text and back != Look.back:
                out.append(f'<rect x="{left:.1f}" y="{top}" width="{long:.1f}" '
                           f'height="{CELL_HEIGHT}" fill="{back}"/>')
            if text.strip():
                style = (' font-weight="bold"' if look.bold else "") + (
                    ' text-decoration="underline"' if look.underline else "")
                out.append(f'<text x="{left:.1f}" y="{top + 14}" textLength="{long:.1f}" '
                           f'fill="{fore}" xml:space="preserve"{style}>{html.escape(text)}</text>')
            column += len(text)
        rows.append("\n".join(out))
    return rows


def framed(parts: list[str]) -> str:
    """These parts of a screen as a whole SVG."""
    width, height = COLUMNS * CELL_WIDTH + 20, ROWS * CELL_HEIGHT + 20
    return "\n".join([
        f'<svg xmlns="http://www.w3.org/2000/svg" width="{width:.0f}" height="{height}" '
        f'font-family="{FONT}" font-size="14">',
        f'<rect width="100%" height="100%" rx="6" fill="{Look.back}"/>',
        *(part for part in parts if part), "</svg>", ""])


def drawn(screen: str) -> str:
    """A captured screen as SVG."""
    return framed(drawn_rows(screen))


@dataclass(frozen=True)
class Frame:
    """A screen of a recording, its cursor, and the seconds for which it is shown."""

    screen: str
    cursor: tuple[int, int]
    seconds: float

    def rows(self) -> list[str]:
        """The rows as SVG, with the cursor."""
        rows = drawn_rows(self.screen)
        column, row = self.cursor
        rows += [""] * (row + 1 - len(rows))
        rows[row] += (f'\n<rect x="{10 + column * CELL_WIDTH:.1f}" y="{10 + row * CELL_HEIGHT}" '
                      f'width="{CELL_WIDTH}" height="{CELL_HEIGHT}" fill="#d8d8d8" opacity="0.6"/>')
        return rows


def shown_from_to(times: list[float], first: int, last: int) -> str:
    """The style of what is shown from the frame FIRST until the frame LAST begins."""
    steps = {0.0: "hidden", times[first]: "visible"}
    if last < len(times) - 1:
        steps[times[last]] = "hidden"
    keys = " ".join(f"{100 * at / times[-1]:.2f}% {{visibility: {how}}}"
                    for at, how in steps.items())
    name = f"f{first}-{last}"
    return (f"@keyframes {name} {{{keys}}}\n.{name} {{visibility: {[*steps.values()][-1]}; "
            f"animation: {name} {times[-1]:.1f}s step-end infinite}}")


def recorded(frames: list[Frame]) -> str:
    """Frames as one SVG that moves. A row is drawn once for all frames in which it stays the same.

    Where nothing moves, the last frame is shown.
    """
    times = [sum(frame.seconds for frame in frames[:count]) for count in range(len(frames) + 1)]
    parts, spans = [], set()
    for column in zip_longest(*(frame.rows() for frame in frames), fillvalue=""):
        first = 0
        for last in range(1, len(frames) + 1):
            if last < len(frames) and column[last] == column[first]:
                continue
            if column[first]:
                spans.add((first, last))
                parts.append(f'<g class="f{first}-{last}">\n{column[first].strip()}\n</g>')
            first = last
    style = "\n".join(shown_from_to(times, *span) for span in sorted(spans))
    return framed([f"<style>\n{style}\n</style>", *parts])


class Terminal:
    """A program in a session of tmux with a server of its own."""

    def __init__(self, socket: Path, folder: Path, words: list[str]) -> None:
        self.tmux = ["tmux", "-S", str(socket)]
        shape = ["-x", str(COLUMNS), "-y", str(ROWS)]
        command = "cd " + shlex.quote(str(folder)) + " && TERM=screen-256color " + shlex.join(words)
        new = [*self.tmux, "-f", "/dev/null", "new-session", "-d", *shape, command]
        subprocess.run(new, check=True)
        subprocess.run([*self.tmux, "set", "-g", "status", "off"], check=True)

    def type(self, *keys: str) -> None:
        """Types keys, as tmux names them, with a pause after each."""
        for key in keys:
            subprocess.run([*self.tmux, "send-keys", key], check=True)
            time.sleep(0.3)

    def write(self, text: str) -> None:
        subprocess.run([*self.tmux, "send-keys", "-l", text], check=True)
        time.sleep(0.3)

    def screen(self, *flags: str) -> str:
        words = [*self.tmux, "capture-pane", "-p", *flags]
        return subprocess.run(words, check=True, capture_output=True, text=True).stdout

    def frame(self, seconds: float) -> Frame:
        """What is shown now, as a frame of a recording."""
        words = [*self.tmux, "display-message", "-p", "#{cursor_x} #{cursor_y}"]
        shown = subprocess.run(words, check=True, capture_output=True, text=True).stdout
        column, row = (int(word) for word in shown.split())
        return Frame(self.screen("-e"), (column, row), seconds)

    def close(self) -> None:
        subprocess.run([*self.tmux, "kill-server"], check=False)
