#!/usr/bin/env python3
"""Makes the picture of a list of live-occur, and a recording: Emacs in a terminal, as SVG.

    editors/emacs/picture.py OCCUR [PICTURE.svg RECORDING.svg]

Emacs runs in tmux without any settings of the user, and opens two small files. The picture shows a
list over both after an edit of one. The recording shows how the list follows a pattern that is
typed, and edits. It wants Emacs 28 and tmux.
"""

from __future__ import annotations

import sys
import tempfile
import time
from pathlib import Path

sys.path.insert(0, str(Path(__file__).resolve().parent.parent))

from terminal import FILES, Frame, Terminal, drawn, recorded  # noqa: E402

HERE = Path(__file__).resolve().parent


def emacs(occur: Path, folder: Path) -> Terminal:
    """Emacs with the files, in this folder."""
    for file, text in FILES.items():
        (folder / file).write_text(text)
    settings = [f'(setq live-occur-program "{occur}")', "(setq live-occur-syntax 'extended)",
                "(setq auto-save-default nil inhibit-startup-screen t)", "(menu-bar-mode -1)"]
    words = ["emacs", "-Q", "-nw", "-L", str(HERE), "-l", "live-occur",
             *(word for text in settings for word in ("--eval", text)),
             "worker.log", "server.log"]
    terminal = Terminal(folder / "tmux", folder, words)
    time.sleep(2)
    terminal.type("C-x", "1")
    return terminal


def picture(terminal: Terminal) -> str:
    """A list over both files after an edit of one."""
    terminal.type("M-x")
    terminal.write("live-occur-in-buffers")
    terminal.type("Enter")
    terminal.write("server.log,worker.log")
    terminal.type("Enter")
    terminal.write("error|warn")
    terminal.type("Enter", "C-x", "o", "i", "C-x", "o", "M->")
    terminal.write("09:16:20 ERROR disk full")
    terminal.type("C-x", "o")
    time.sleep(1)
    print(terminal.screen())
    return drawn(terminal.screen("-e"))


def recording(terminal: Terminal) -> str:
    """A pattern that is typed, and an edit, with the list after each."""
    frames: list[Frame] = [terminal.frame(1.5)]

    def shown(text: str, seconds: float) -> None:
        terminal.write(text)
        time.sleep(0.7)
        frames.append(terminal.frame(seconds))

    terminal.type("M-x")
    shown("live-occur", 1)
    terminal.type("Enter")
    for letter in "error":
        shown(letter, 0.4)
    for letter in "|(warn)":
        shown(letter, 0.5)
    terminal.type("Enter")
    shown("", 1.5)
    terminal.type("M->")
    for word in ("09:16:20 ", "error ", "disk ", "full"):
        shown(word, 0.8)
    terminal.type("M-<", "C-k", "C-k")
    shown("", 3)
    return recorded(frames)


def main() -> int:
    if len(sys.argv) not in (2, 4):
        sys.exit(__doc__)
    outs = sys.argv[2:] or [HERE / "live-occur.svg", HERE / "live-occur-recording.svg"]
    for make, out in zip((picture, recording), outs):
        with tempfile.TemporaryDirectory(prefix="live-occur-", ignore_cleanup_errors=True) as name:
            terminal = emacs(Path(sys.argv[1]).resolve(), Path(name))
            try:
                Path(out).write_text(make(terminal))
            finally:
                terminal.close()
    return 0


if __name__ == "__main__":
    sys.exit(main())
