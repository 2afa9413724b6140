#!/usr/bin/env python3
"""Makes the picture of a list of live occur: Neovim in a terminal, as SVG.

    editors/nvim/picture.py OCCUR [OUT.svg]

Neovim runs in tmux without any settings of the user, opens two small files, makes a list over both,
edits one of them, and what the terminal then shows is drawn. It wants Neovim 0.7 and tmux.
"""

from __future__ import annotations

import sys
import tempfile
import time
from pathlib import Path

sys.path.insert(0, str(Path(__file__).resolve().parent.parent))

from terminal import FILES, Terminal, drawn  # noqa: E402


def main() -> int:
    if len(sys.argv) not in (2, 3):
        sys.exit(__doc__)
    here = Path(__file__).resolve().parent
    occur = Path(sys.argv[1]).resolve()
    with tempfile.TemporaryDirectory(prefix="live-occur-", ignore_cleanup_errors=True) as name:
        folder = Path(name)
        for file, text in FILES.items():
            (folder / file).write_text(text)
        settings = [f"set runtimepath^={here}", "set hidden laststatus=2",
                    f"lua require('live_occur').setup({{program = '{occur}', height = 13}})"]
        words = ["nvim", "-u", "NONE", "-i", "NONE", "-n",
                 *(word for text in settings for word in ("--cmd", text)),
                 "-c", "runtime plugin/live_occur.lua", "server.log", "worker.log"]
        terminal = Terminal(folder / "tmux", folder, words)
        try:
            time.sleep(1)
            terminal.write(":LiveOccur! ++buffers=all error|warn")
            terminal.type("Enter", "i", "C-w", "p", "G", "o")
            terminal.write("09:16:20 ERROR disk full")
            terminal.type("Escape")
            terminal.write(":echo")
            terminal.type("Enter", "C-w", "p")
            time.sleep(1)
            out = Path(sys.argv[2]) if len(sys.argv) == 3 else here / "live-occur.svg"
            out.write_text(drawn(terminal.screen("-e")))
            print(terminal.screen())
        finally:
            terminal.close()
    return 0


if __name__ == "__main__":
    sys.exit(main())
