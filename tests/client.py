"""A client of occur that does no more than keep lists of hits right: an example for authors of others.

It was written from occur(1), and needs no other file. Lists have no text of lines: an editor has its lines.
"""

from __future__ import annotations

import subprocess
from collections.abc import Sequence
from itertools import islice
from typing import NamedTuple


class Hit(NamedTuple):
    """A hit: the number of its line in its file, and its matched parts as they were written."""

    place: int
    parts: bytes


class Client:
    """A running occur, and a list of hits for each of its files. Before `follow` they are those of the last one."""

    def __init__(self, *words: str) -> None:
        self.process = subprocess.Popen(words, stdin=subprocess.PIPE, stdout=subprocess.PIPE)
        self.lists: list[list[Hit]] = []
        version = self.ask(b"version")[0].split(b" ")
        self.script = int(version[3]) if version[0] == b"occur" else 1
        self.edit(b"text off")

    def ask(self, command: bytes, lines: Sequence[bytes] = ()) -> list[bytes]:
        """Sends a command with the lines that it counts, and answers the lines of the reply."""
        self.process.stdin.write(b"".join(line + b"\n" for line in (command, *lines)))
        self.process.stdin.flush()
        reply: list[bytes] = []
        while not reply or not reply[-1].startswith((b"ok", b"refused", b"status", b"occur")):
            line = self.process.stdout.readline()
            if not line.endswith(b"\n"):
                raise EOFError(f"no whole reply to {command!r}: {reply}")
            reply.append(line[:-1])
        return reply

    def edit(self, command: bytes, lines: Sequence[bytes] = ()) -> bool:
        """Sends an edit, and answers whether it was accepted."""
        accepted = self.ask(command, lines) == [b"ok"]
        if accepted and command.startswith((b"file ", b"missing ")):
            self.lists.append([])
        elif accepted and command.startswith(b"close "):
            del self.lists[int(command.split(b" ")[1])]
        return accepted

    def change_pattern(self, number: int, text: bytes) -> bool:
        """Puts a pattern in the place of another one; of an older occur, after the others."""
        if self.script > 1:
            return self.edit(b"pattern %d" % number, [text])
        return self.edit(b"patterns 1", [text]) and self.edit(b"drop %d" % number)

    def follow(self) -> None:
        """Asks what changed since the last time, and brings the lists up to date."""
        rows = iter(self.ask(b"changes")[:-1])
        for head in rows:
            file, front, removed, added, count = map(int, head.split(b" ")[1:])
            old, new = self.lists[file], [hit_of(row) for row in islice(rows, count)]
            tail = [Hit(place + added - removed, parts) for place, parts in old if place >= front + removed]
            self.lists[file] = [hit for hit in old if hit.place < front] + new + tail


def hit_of(row: bytes) -> Hit:
    """The hit of an `r` line; the text of its line, which an older occur writes, is left out."""
    place, parts = row.split(b" ", 3)[1:3]
    return Hit(int(place), parts)
