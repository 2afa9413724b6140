"""The programs under test: how one is run, what it answered, and the cases by which it is judged."""

from __future__ import annotations

import os
import subprocess
from collections.abc import Callable, Iterator
from dataclasses import dataclass, field
from itertools import chain
from pathlib import Path
from typing import Any

SECONDS = 20
"""A run that takes longer has failed."""

FLAGS = "cilnoqsvx"
"""The options of grep that are set or not."""

USAGE = f"usage: grep [-E|-F] [-{FLAGS}] [-A NUM] [-B NUM] [-C NUM] [-e LIST]... [-f FILE]... [LIST] [FILE...]"
"""What grep writes after a fault of its words."""

Word = str | bytes


class Skipped(Exception):
    """A case that can't be tried here, and why."""


@dataclass(frozen=True)
class Answer:
    """What a run wrote to standard output and to standard error, and its exit status."""

    out: bytes = b""
    err: bytes = b""
    status: int = 0


@dataclass(frozen=True)
class Verdict:
    """The answer that was wanted, and the one that was given."""

    wanted: Answer
    given: Answer


@dataclass(frozen=True)
class Bench:
    """A program by its name and its path, and the folder in which it runs, which is empty at first."""

    name: str
    program: Path
    folder: Path

    def write(self, name: str, content: bytes) -> None:
        """Writes a file, and the folders on its way."""
        path = self.folder / name
        path.parent.mkdir(parents=True, exist_ok=True)
        path.write_bytes(content)

    def start(
        self, *words: Word, called: Word | None = None, **options: Any
    ) -> subprocess.Popen[bytes]:
        """Starts the program. Streams that the options don't name are pipes."""
        streams = {stream: subprocess.PIPE for stream in ("stdin", "stdout", "stderr")}
        settings = {"cwd": self.folder, "executable": self.program, "bufsize": 0}
        command = [os.fsencode(word) for word in (called or self.name, *words)]
        return subprocess.Popen(command, **{**settings, **streams, **options})

    def ask(self, *words: Word, stdin: bytes | int = b"", **options: Any) -> Answer:
        """Runs the program to its end, on bytes or on a handle as standard input."""
        if isinstance(stdin, int):
            return finish(self.start(*words, stdin=stdin, **options))
        return finish(self.start(*words, **options), stdin)


Judge = Callable[[Bench], Verdict]


@dataclass(frozen=True)
class Case:
    """A question to a program: which one, where the question is from, what it shows, and the judging
    of one run."""

    program: str
    source: str
    name: str
    judge: Judge


@dataclass
class Cases:
    """The cases of one file on one program that are functions. `@case(NAME)` adds one, where `case`
    is such a collection."""

    program: str
    source: str
    added: list[Case] = field(default_factory=list)

    def __call__(self, name: str) -> Callable[[Judge], Judge]:
        """Makes a function a case of this name."""

        def add(judge: Judge) -> Judge:
            self.added.append(Case(self.program, self.source, name, judge))
            return judge

        return add


def all_of(*groups: Cases) -> Callable[[], Iterator[Case]]:
    """What gives the cases of these collections, one after the other."""
    return lambda: chain.from_iterable(group.added for group in groups)


def finish(process: subprocess.Popen[bytes], stdin: bytes | None = None) -> Answer:
    """Gives the rest of the input and waits for the end of the run. Streams that are no pipes
    count as empty."""
    with process:
        try:
            out, err = process.communicate(stdin, timeout=SECONDS)
        except subprocess.TimeoutExpired:
            process.kill()
            raise
    return Answer(out or b"", err or b"", process.returncode)
