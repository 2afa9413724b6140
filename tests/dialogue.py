"""Dialogues: a program as a coprocess, which is sent one command after the other and has to give
each whole reply before it is sent the next. Replies that are known before are in steps; others are
read by their form.
"""

from __future__ import annotations

import os
import select
import subprocess
import threading
import time
from collections.abc import Sequence
from dataclasses import dataclass
from pathlib import Path

from program import SECONDS, Answer, finish

IN_TIME = 1.0
"""Seconds within which a whole reply has to be there."""

PAUSE = 0.2
"""Seconds for which nothing may come where no reply is due."""


@dataclass(frozen=True)
class Step:
    """What is sent to the program, and the reply that is due then; none where it is empty."""

    sent: bytes
    reply: bytes


def send(handle: int, content: bytes) -> None:
    """Writes all of these bytes."""
    while content:
        content = content[os.write(handle, content):]


def received(handle: int, size: int) -> bytes:
    """What comes from a handle while a reply of this size is due. Where none is due, what comes
    nevertheless."""
    seen = b""
    until = time.monotonic() + (IN_TIME if size else PAUSE)
    while len(seen) < max(size, 1):
        left = max(until - time.monotonic(), 0)
        if not select.select([handle], [], [], left)[0]:
            break
        piece = os.read(handle, 1 << 16)
        if not piece:
            break
        seen += piece
    return seen


def exchange(process: subprocess.Popen[bytes], steps: Sequence[Step], into: int) -> bytes:
    """Sends each step once the reply to the one before is there, and answers all that was heard.
    Where a reply does not come in time, or is another one, the program is stopped, so that its exit
    status is not the wanted one."""
    heard = b""
    watch = threading.Timer(SECONDS, process.kill)
    watch.start()
    try:
        for step in steps:
            send(into, step.sent)
            reply = received(process.stdout.fileno(), len(step.reply))
            heard += reply
            if reply != step.reply:
                process.kill()
                break
    except BrokenPipeError:
        process.kill()
    finally:
        watch.cancel()
    return heard


def hold(process: subprocess.Popen[bytes], steps: Sequence[Step], last: bytes = b"") -> Answer:
    """Holds a dialogue over standard input, gives the last bytes of the input, and ends it."""
    heard = exchange(process, steps, process.stdin.fileno())
    rest = finish(process, last)
    return Answer(heard + rest.out, rest.err, rest.status)


ENDS = (b"ok", b"refused", b"status", b"occur")
"""How the last line of a reply begins, and no other line of it."""


class Coprocess:
    """A running occur, as an editor has it."""

    def __init__(self, occur: Path, *words: str) -> None:
        pipes = {"stdin": subprocess.PIPE, "stdout": subprocess.PIPE}
        self.process = subprocess.Popen([occur, *words], **pipes)

    def ask(self, command: bytes) -> list[bytes]:
        """Sends a command with the lines that it counts, and answers the lines of the reply."""
        self.process.stdin.write(command)
        self.process.stdin.flush()
        reply = []
        while not reply or not reply[-1].startswith(ENDS):
            line = self.process.stdout.readline()
            if not line.endswith(b"\n"):
                raise SystemExit(f"no whole reply to {command!r}: {reply}")
            reply.append(line[:-1])
        return reply

    def close(self) -> None:
        """Ends the script, and waits for the end of the program."""
        self.process.stdin.close()
        self.process.wait()
