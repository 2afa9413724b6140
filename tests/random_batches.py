#!/usr/bin/env python3
"""Compares the lists of the example client (client.py) with pages of the built occur.

    tests/random_batches.py OCCUR [--edits N] [--seed S]

Random edits of files, lines, patterns and options are made in batches, after each of which the client asks
once what changed: then its lists have to be all hits of a page. If a batch is small, and no edit of it replaces
all lines, no more lines are told of than it put. Before it programs that are wrong on purpose are compared in
the same way: each has to differ.

The last line is `N edits, M comparisons, F differ`, and the exit status is 0 only where none differ.
"""

from __future__ import annotations

import random
import sys
from collections.abc import Callable, Sequence
from pathlib import Path

from client import Client
from random_changes import ALL, Spoil, Typing, compare, numbers_of, repeating, says_nothing, with_number
from random_edits import Edit, Kinds, Session

FEW = 16
"""A batch of so many edits is small."""

REPLACES_ALL = (b"pattern", b"drop", b"syntax", b"flag")
"""How commands begin after which all lines may count as replaced."""


class Batches(Typing):
    """Random edits, with patterns that take the place of others."""

    def change_pattern(self) -> Edit:
        patterns = self.session.patterns
        at, text = self.dice.randrange(len(patterns) + 1), self.pattern()
        return Edit(b"pattern %d\n%b\n" % (at, text), lambda: patterns.__setitem__(at, text))

    def kinds(self) -> Kinds:
        return super().kinds() | {self.change_pattern: 3}


class Followed:
    """A session that the example client follows, and what differs."""

    def __init__(self, client: Client, dice: random.Random, longest: int) -> None:
        self.client, self.dice = client, dice
        self.session = Session()
        self.choice = Batches(dice, self.session, longest)
        self.faults: list[str] = []

    def batch(self, edits: int) -> None:
        """Makes so many edits, and compares the lists then."""
        put, few = 0, edits <= FEW
        for _ in range(edits):
            edit = self.choice.next()
            command, *lines = edit.text.split(b"\n")[:-1]
            if self.client.edit(command, lines):
                edit.done()
                put, few = put + len(lines), few and not command.startswith(REPLACES_ALL)
        told = self.told()
        if few and told > put:
            self.faults.append(f"{told} lines are told of, after {put} were put")
        self.compare()

    def told(self) -> int:
        """Lets the client follow, and answers how many lines it was told of."""
        told, ask = [], self.client.ask

        def noted(*words: bytes) -> list[bytes]:
            reply = ask(*words)
            told.extend(numbers_of(row)[3] for row in reply if row.startswith(b"h "))
            return reply

        self.client.ask = noted
        try:
            self.client.follow()
        except (IndexError, ValueError) as fault:
            self.faults.append(f"a reply that the client can't read: {fault!r}")
        finally:
            self.client.ask = ask
        return sum(told)

    def compare(self) -> None:
        """Compares the lists with a page of all."""
        hits = [b"p %d %d %b" % (file, *hit) for file, hits in enumerate(self.client.lists) for hit in hits]
        given = self.client.ask(b"page 0 %d" % ALL)[:-1]
        if given != (wanted := [b"hits %d" % len(hits), *hits]):
            self.faults.append(f"all hits\n  occur  {given!r:.2000}\n  client {wanted!r:.2000}")


def play(client: Client, dice: random.Random, edits: int, longest: int) -> tuple[int, list[str]]:
    """Edits a session in batches. Answers how many comparisons were made, and what differs."""
    followed, made = Followed(client, dice, longest), 0
    while edits > 0 and not followed.faults:
        some = min(edits, dice.choice((1, 2, FEW, 100)))
        followed.batch(some)
        edits, made = edits - some, made + 1
    client.process.communicate()
    return made, followed.faults


# Programs that are wrong on purpose


class Wrong(Client):
    """A program whose replies are spoiled."""

    def __init__(self, occur: Path, spoil: Spoil) -> None:
        self.spoil: Callable[[bytes, list[bytes]], list[bytes]] = lambda command, reply: reply
        super().__init__(str(occur))
        self.spoil = spoil

    def ask(self, command: bytes, lines: Sequence[bytes] = ()) -> list[bytes]:
        return self.spoil(command + b"\n", super().ask(command, lines))


def at_old_places(command: bytes, reply: list[bytes]) -> list[bytes]:
    """The stretches of a file are told where they were before those above them."""
    rows, file, moved = [], None, 0
    for row in reply:
        if row.startswith(b"h "):
            numbers = numbers_of(row)
            if numbers[0] != file:
                file, moved = numbers[0], 0
            row = b"h %d %d %d %d %d" % (file, max(0, numbers[1] - moved), *numbers[2:])
            moved += numbers[3] - numbers[2]
        rows.append(row)
    return rows


def lacks_a_stretch(command: bytes, reply: list[bytes]) -> list[bytes]:
    """What is told ends before the second stretch."""
    heads = [place for place, row in enumerate(reply) if row.startswith(b"h ")]
    return reply[:heads[1]] + reply[-1:] if len(heads) > 1 else reply


def mutants() -> list[Spoil]:
    """All of them."""
    numbers = [with_number(2, lambda front: front + 1), with_number(3, lambda removed: 0),
               with_number(4, lambda added: added + 1)]
    return [*numbers, says_nothing, repeating(), at_old_places, lacks_a_stretch]


def main() -> int:
    return compare("compare the lists of the example client with pages of occur", play,
                   lambda occur: Client(str(occur)), Wrong, mutants())


if __name__ == "__main__":
    sys.exit(main())
