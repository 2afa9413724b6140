#!/usr/bin/env python3
"""Compares the built occur with the built grep on random edits.

    tests/random_edits.py GREP OCCUR [--edits N] [--seed S]

What a session shows after edits has to be what grep writes for the files, patterns and options that
the session should hold then. The two programs share the definition and the matchers, but one keeps
what it found while lines move, and the other searches from scratch. What the session should hold is
followed here: an edit that was answered by `ok` is done, one that was refused is not.

The last line is `N edits, M comparisons, F differ`, and the exit status is 0 only where none differ.
"""

from __future__ import annotations

import argparse
import random
import subprocess
import sys
import tempfile
from collections.abc import Callable
from dataclasses import dataclass, field
from pathlib import Path

from dialogue import Coprocess
from program import FLAGS, Answer

PIECES = (
    *(b"a", b"b", b"ab", b"ba", b"B", b".", b"^a", b"b$", b"a*", b"[ab]", b"[^a]", b"\\.", b"x"),
    *(b"(a)", b"a|b", b"a+", b"b?", b"a{2}", b"\\(a\\)", b"a\\{2\\}", b"[", b"(", b"\\(", b"", b"^$"),
)
"""What patterns are made of. Some are refused in one syntax or another."""


@dataclass
class File:
    """A file of the session: its lines, or none where it can't be opened."""

    name: bytes
    lines: list[bytes] | None


@dataclass
class Session:
    """What a session should hold."""

    files: list[File] = field(default_factory=list)
    patterns: list[bytes] = field(default_factory=list)
    flags: set[str] = field(default_factory=set)
    syntax: str = "basic"
    context: tuple[int, int] | None = None
    named: int = 0


Done = Callable[[], None]


@dataclass(frozen=True)
class Edit:
    """An edit: its text in a script, and what is done where it is accepted."""

    text: bytes
    done: Done


def counted(command: str, lines: list[bytes]) -> bytes:
    """A command and the lines that it counts."""
    return b"\n".join([f"{command} {len(lines)}".encode(), *lines]) + b"\n"


Kinds = dict[Callable[[], Edit], int]
"""What makes edits, and how often each is chosen."""


class Edits:
    """Random edits of a session."""

    longest = 9
    """Added files have fewer lines."""

    def __init__(self, dice: random.Random, session: Session) -> None:
        self.dice = dice
        self.session = session

    def line(self) -> bytes:
        return bytes(self.dice.choice(b"aabbBx. \x00\xff") for _ in range(self.dice.randrange(7)))

    def lines(self, most: int) -> list[bytes]:
        return [self.line() for _ in range(self.dice.randrange(most))]

    def name(self) -> bytes:
        self.session.named += 1
        return f"f{self.session.named}".encode()

    def file(self) -> Edit:
        name, lines = self.name(), self.lines(self.longest)
        added = File(name, lines)
        return Edit(counted(f"file {name.decode()}", lines), lambda: self.session.files.append(added))

    def missing(self) -> Edit:
        name = self.name()
        return Edit(b"missing " + name + b"\n", lambda: self.session.files.append(File(name, None)))

    def close(self) -> Edit:
        at = self.dice.randrange(len(self.session.files) + 1)
        return Edit(f"close {at}\n".encode(), lambda: self.session.files.__delitem__(at))

    def splice(self) -> Edit:
        at = self.dice.randrange(len(self.session.files) + 1)
        start, removed, lines = self.dice.randrange(8), self.dice.randrange(4), self.lines(4)

        def put() -> None:
            self.session.files[at].lines[start:start + removed] = lines

        return Edit(counted(f"splice {at} {start} {removed}", lines), put)

    def pattern(self) -> bytes:
        return b"".join(self.dice.choices(PIECES, k=self.dice.choice((1, 1, 1, 2, 3))))

    def add_patterns(self) -> Edit:
        texts = [self.pattern() for _ in range(self.dice.choice((1, 1, 2, 3)))]
        return Edit(counted("patterns", texts), lambda: self.session.patterns.extend(texts))

    def drop(self) -> Edit:
        at = self.dice.randrange(len(self.session.patterns) + 1)
        return Edit(f"drop {at}\n".encode(), lambda: self.session.patterns.__delitem__(at))

    def change(self) -> Edit:
        at, text = self.dice.randrange(len(self.session.patterns) + 1), self.pattern()

        def put() -> None:
            self.session.patterns[at] = text

        return Edit(b"pattern %d\n%b\n" % (at, text), put)

    def flag(self) -> Edit:
        letter, is_on = self.dice.choice(FLAGS), self.dice.random() < 0.4
        change = self.session.flags.add if is_on else self.session.flags.discard
        state = "on" if is_on else "off"
        return Edit(f"flag {letter} {state}\n".encode(), lambda: change(letter))

    def choose_syntax(self) -> Edit:
        syntax = self.dice.choice(("basic", "extended", "fixed"))

        def choose() -> None:
            self.session.syntax = syntax

        return Edit(f"syntax {syntax}\n".encode(), choose)

    def choose_context(self) -> Edit:
        sizes = (self.dice.randrange(4), self.dice.randrange(4)) if self.dice.random() < 0.7 else None
        words = "off" if sizes is None else f"{sizes[0]} {sizes[1]}"

        def choose() -> None:
            self.session.context = sizes

        return Edit(f"context {words}\n".encode(), choose)

    def kinds(self) -> Kinds:
        """The kinds of edits; of few files and patterns more are added, of many more removed."""
        files, patterns = len(self.session.files), len(self.session.patterns)
        return {
            self.file: 3 if files < 6 else 1,
            self.missing: 1 if files < 6 else 0,
            self.close: 1 if files < 6 else 4,
            self.splice: 12,
            self.add_patterns: 3 if patterns < 6 else 1,
            self.drop: 1 if patterns < 6 else 4,
            self.change: 3,
            self.flag: 6,
            self.choose_syntax: 1,
            self.choose_context: 2,
        }

    def next(self) -> Edit:
        """The next edit."""
        kinds = self.kinds()
        return self.dice.choices(list(kinds), list(kinds.values()))[0]()


def report(running: Coprocess) -> Answer:
    """What the session shows."""
    *lines, status = running.ask(b"show\n")
    if unknown := [line for line in lines if line[:2] not in (b"o ", b"e ")]:
        raise SystemExit(f"no lines of a report: {unknown}")
    out, err = (b"".join(line[2:] + b"\n" for line in lines if line[:2] == form) for form in (b"o ", b"e "))
    return Answer(out, err, int(status.split()[1]))


def searched(grep: Path, folder: Path, session: Session) -> Answer:
    """What grep answers for all that the session should hold."""
    for file in session.files:
        if file.lines is not None:
            (folder / file.name.decode()).write_bytes(b"".join(line + b"\n" for line in file.lines))
    (folder / "patterns").write_bytes(b"".join(text + b"\n" for text in session.patterns))
    letters = "".join(sorted(session.flags)) + {"basic": "", "extended": "E", "fixed": "F"}[session.syntax]
    options = [f"-{letters}"] if letters else []
    if session.context is not None:
        before, after = session.context
        options += ["-B", str(before), "-A", str(after)]
    names = [file.name.decode() for file in session.files]
    words = [grep, *options, "-f", "patterns", "--", *names]
    ran = subprocess.run(words, cwd=folder, capture_output=True, check=False)
    for name in names:
        (folder / name).unlink(missing_ok=True)
    return Answer(ran.stdout, ran.stderr, ran.returncode)


def play(grep: Path, occur: Path, dice: random.Random, edits: int) -> tuple[int, int]:
    """Edits a session, and compares what it shows now and then. Answers how many comparisons were
    made, and how many of them differ."""
    session, made, differing = Session(), 0, 0
    choice, running = Edits(dice, session), Coprocess(occur)
    with tempfile.TemporaryDirectory(prefix="grep-random-") as folder:
        for number in range(edits):
            edit = choice.next()
            if running.ask(edit.text) == [b"ok"]:
                edit.done()
            if session.files and (dice.random() < 0.2 or number + 1 == edits):
                shown, wanted = report(running), searched(grep, Path(folder), session)
                made += 1
                if shown != wanted:
                    differing += 1
                    print(f"differs after {edit.text!r}:\n  {session}\n  occur {shown}\n  grep  {wanted}")
    running.close()
    return made, differing


def main() -> int:
    words = argparse.ArgumentParser(description="compare occur with grep on random edits")
    words.add_argument("grep", type=Path)
    words.add_argument("occur", type=Path)
    words.add_argument("--edits", type=int, default=100_000)
    words.add_argument("--seed", type=int, default=1)
    given = words.parse_args()
    dice, left, made, differing = random.Random(given.seed), given.edits, 0, 0
    while left > 0:
        some = min(left, 2_000)
        more, wrong = play(given.grep.resolve(), given.occur.resolve(), dice, some)
        left, made, differing = left - some, made + more, differing + wrong
    print(f"{given.edits} edits, {made} comparisons, {differing} differ")
    return 1 if differing else 0


if __name__ == "__main__":
    sys.exit(main())
