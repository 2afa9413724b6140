#!/usr/bin/env python3
"""Compares the lists of an editor that reads the replies of the built occur with what occur shows.

    tests/random_changes.py OCCUR [--edits N] [--seed S]

The editor keeps a list of hits for each file. It knows of them what the replies to `changes` say,
and nothing else. After random edits it asks for the changes, and then its lists have to be the hits
of a page of all, and those of which the session shows the lines; a second `changes` has to say
nothing, and a page the hits of its place in the lists, also one that was asked for before. After a
single edit no other lines may be reported than it touched. Some runs have files of thousands of
lines. Before them programs that are wrong on purpose are compared in the same way: each has to
differ. That a session shows what grep writes is compared by random_edits.py.

The last line is `N edits, M comparisons, F differ`, and the exit status is 0 only where none differ.
"""

from __future__ import annotations

import argparse
import random
import sys
from collections.abc import Callable, Iterator
from itertools import islice
from pathlib import Path
from typing import Any, NamedTuple

from dialogue import Coprocess
from random_edits import Edit, Edits, File, Kinds, Session, counted

ALL = 2**64 - 1
"""The greatest number of a command."""

SHORT, LONG = 12, 9_000
"""How many lines a file has, more or less."""

NO_COMMANDS = (b"changes 1\n", b"changes \n", b" changes\n", b"Changes\n", b"page\n", b"page 0\n", b"page 0 1 2\n",
               b"page -1 1\n", b"page 0 +1\n", b"page 0  1\n", b"page 18446744073709551616 0\n",
               b"page 0 18446744073709551616\n")
"""Lines that are no commands, though nearly."""


class Hit(NamedTuple):
    """A hit in a list of an editor; its parts are as they were written."""

    place: int
    parts: bytes
    text: bytes


class Editor:
    """An editor: what it has of each file is what the replies say."""

    def __init__(self) -> None:
        self.lists: list[list[Hit]] = []

    def edited(self, command: bytes) -> None:
        """An edit was accepted."""
        word, *given = command.partition(b"\n")[0].split(b" ")
        if word in (b"file", b"missing"):
            self.lists.append([])
        elif word == b"close":
            del self.lists[int(given[0])]

    def changed(self, rows: list[bytes]) -> None:
        """What changed was reported by these lines."""
        left = iter(rows)
        for head in left:
            file, front, removed, added, count = numbers_of(head)
            old = self.lists[file]
            new = [hit_of(row) for row in islice(left, count)]
            tail = [hit for hit in old if hit.place >= front + removed]
            moved = [hit._replace(place=hit.place + added - removed) for hit in tail]
            self.lists[file] = [hit for hit in old if hit.place < front] + new + moved

    def page(self, first: int, count: int) -> list[bytes]:
        """The lines of a page."""
        rows = [b"p %d %d %b %b" % (file, *hit) for file, hits in enumerate(self.lists) for hit in hits]
        return [b"hits %d" % len(rows), *rows[first:first + count]]


def numbers_of(head: bytes) -> list[int]:
    """The five numbers of an `h` line."""
    word, *numbers = head.split(b" ")
    if word != b"h" or len(numbers) != 5:
        raise ValueError(f"no line of changes: {head!r}")
    return [int(number) for number in numbers]


def hit_of(row: bytes) -> Hit:
    """The hit of an `r` line."""
    word, place, parts, text = row.split(b" ", 3)
    if word != b"r":
        raise ValueError(f"no hit: {row!r}")
    return Hit(int(place), parts, text)


# What a session shows of lists


def name_before(session: Session, file: File, mark: bytes) -> bytes:
    """The name before a line of output, where there is one."""
    return file.name + mark if len(session.files) > 1 else b""


def head_of(session: Session, file: File, place: int, mark: bytes) -> bytes:
    """What is before a line in the output: the file's name and the line's number."""
    number = b"%d%b" % (place + 1, mark) if "n" in session.flags else b""
    return name_before(session, file, mark) + number


def part_rows(session: Session, file: File, hits: list[Hit]) -> Iterator[bytes]:
    """The parts of hits, as the output has them."""
    for place, parts, text in hits:
        for part in [] if parts == b"-" else parts.split(b","):
            start, end = map(int, part.split(b"-"))
            yield head_of(session, file, place, b":") + text[start:end]


def line_rows(session: Session, file: File, hits: list[Hit]) -> Iterator[bytes]:
    """The lines of hits and those around them, as the output has them, each group after a `--`."""
    texts = {hit.place: hit.text for hit in hits}
    before, after = session.context or (0, 0)
    around = {place for hit in hits for place in range(hit.place - before, hit.place + after + 1)}
    shown = sorted(around & set(range(len(file.lines or ()))))
    for last, place in zip([None, *shown], shown):
        if session.context is not None and last != place - 1:
            yield b"--"
        mark = b":" if place in texts else b"-"
        yield head_of(session, file, place, mark) + texts.get(place, file.lines[place])


def output(session: Session, lists: list[list[Hit]]) -> list[bytes]:
    """The lines of output of a session that has these hits."""
    listed = list(zip(session.files, lists, strict=True))
    if "q" in session.flags:
        return []
    if "l" in session.flags:
        return [file.name for file, hits in listed if hits]
    if "c" in session.flags:
        opened = [(file, hits) for file, hits in listed if file.lines is not None]
        return [name_before(session, file, b":") + b"%d" % len(hits) for file, hits in opened]
    if "o" in session.flags:
        return [row for file, hits in listed for row in part_rows(session, file, hits)]
    rows = [row for file, hits in listed for row in line_rows(session, file, hits)]
    return rows if session.context is None else rows[1:]


# Edits


class Typing(Edits):
    """Random edits, most of them splices at any place of a file."""

    def __init__(self, dice: random.Random, session: Session, longest: int) -> None:
        super().__init__(dice, session)
        self.longest = longest

    def some(self, most: int) -> int:
        """A small number, and now and then one up to this."""
        return self.dice.randrange(4 if self.dice.random() < 0.9 else most + 1)

    def splice(self) -> Edit:
        files = self.session.files
        at = self.dice.randrange(len(files) + 1)
        there = len(files[at].lines or ()) if at < len(files) else 0
        start, removed = self.dice.randrange(there + 2), self.some(there)
        lines = [self.line() for _ in range(self.some(self.longest // 2))]

        def put() -> None:
            files[at].lines[start:start + removed] = lines

        return Edit(counted(f"splice {at} {start} {removed}", lines), put)

    def no_command(self) -> Edit:
        return Edit(self.dice.choice(NO_COMMANDS), lambda: None)

    def kinds(self) -> Kinds:
        return super().kinds() | {self.splice: 40, self.no_command: 1}


def heads_after(edit: bytes, files: int) -> list[bytes] | None:
    """The `h` lines after this edit alone, without their counts; `None` where it may touch all
    lines. That many files there are now."""
    word, *given = edit.partition(b"\n")[0].split(b" ")
    if word in (b"patterns", b"drop", b"pattern", b"syntax") or (word == b"flag" and given[0] in b"iovx"):
        return None
    if word == b"file" and given[1] != b"0":
        return [b"h %d 0 0 %b" % (files - 1, given[1])]
    if word == b"splice" and given[2:] != [b"0", b"0"]:
        return [b"h %b %b %b %b" % tuple(given)]
    return []


# Comparisons


class Watched:
    """A session that an editor watches, and what differs between it and the editor's lists."""

    def __init__(self, running: Coprocess, dice: random.Random, longest: int) -> None:
        self.dice = dice
        self.session, self.editor = Session(), Editor()
        self.choice, self.running = Typing(dice, self.session, longest), running
        self.since: list[bytes] = []
        self.faults: list[str] = []

    def expect(self, what: str, given: object, wanted: object) -> None:
        """These have to be equal."""
        if given != wanted:
            self.faults.append(f"{what}\n  occur  {given!r:.2000}\n  wanted {wanted!r:.2000}")

    def edit(self) -> None:
        """Makes an edit, and keeps it where it is accepted."""
        edit = self.choice.next()
        reply = self.running.ask(edit.text)
        if reply == [b"ok"]:
            edit.done()
            self.editor.edited(edit.text)
            self.since.append(edit.text)
        elif len(reply) != 1 or not reply[0].startswith(b"refused "):
            self.faults.append(f"{edit.text!r} is answered by {reply}")

    def place(self) -> tuple[int, int]:
        """The first number of a page, and how many hits it has at most."""
        near = sum(map(len, self.editor.lists)) + 3
        first, count = self.dice.randrange(near), self.dice.randrange(near)
        return self.dice.choice((first, first, 0, ALL)), self.dice.choice((count, count, 0, ALL))

    def ask_page(self, first: int, count: int) -> list[bytes]:
        return self.running.ask(b"page %d %d\n" % (first, count))

    def ask_changes(self) -> bytes:
        """Asks what changed, and answers the last line. What is there to be reported is bounded by
        the edits since the last time."""
        *rows, status = self.running.ask(b"changes\n")
        wanted = heads_after(self.since[0], len(self.editor.lists)) if self.since else []
        if len(self.since) < 2 and wanted is not None:
            heads = [row.rpartition(b" ")[0] for row in rows if row.startswith(b"h ")]
            self.expect(f"what is reported after {self.since}", heads, wanted)
        self.editor.changed(rows)
        self.since.clear()
        return status

    def compare(self) -> None:
        """Asks for the changes, and compares the lists with all that the session says then."""
        early = self.place()
        page = self.ask_page(*early) if self.dice.random() < 0.5 else None
        status = self.ask_changes()
        if page is not None:
            self.expect(f"page {early}, before", page, [*self.editor.page(*early), status])
        self.expect("all hits", self.ask_page(0, ALL), [*self.editor.page(0, ALL), status])
        late = self.place()
        self.expect(f"page {late}", self.ask_page(*late), [*self.editor.page(*late), status])
        self.expect("a second `changes`", self.running.ask(b"changes\n"), [status])
        *shown, last = [row for row in self.running.ask(b"show\n") if not row.startswith(b"e ")]
        self.expect("what is shown", shown, [b"o " + row for row in output(self.session, self.editor.lists)])
        self.expect("the status of what is shown", last, status)


def play(running: Coprocess, dice: random.Random, edits: int, longest: int) -> tuple[int, list[str]]:
    """Edits a session, and compares now and then what its editor lists. Answers how many
    comparisons were made, and what differs."""
    watched, made, differing = Watched(running, dice, longest), 0, []
    often = 0.25 if longest == SHORT else 0.06
    for number in range(edits):
        watched.edit()
        if dice.random() < often or number + 1 == edits:
            made += 1
            try:
                watched.compare()
            except (IndexError, ValueError) as fault:
                watched.faults.append(f"a reply that the editor can't read: {fault!r}")
        if watched.faults:
            faults = [f"differs after edit {number}:", *watched.faults, f"  {watched.session!r:.2000}"]
            differing.append("\n".join(faults))
            watched.faults.clear()
    running.close()
    return made, differing


# Programs that are wrong on purpose

Spoil = Callable[[bytes, list[bytes]], list[bytes]]
"""Makes a wrong reply of a command and its right one."""


class Wrong(Coprocess):
    """A program whose replies are spoiled."""

    def __init__(self, occur: Path, spoil: Spoil) -> None:
        super().__init__(occur)
        self.spoil = spoil

    def ask(self, command: bytes) -> list[bytes]:
        return self.spoil(command, super().ask(command))


def with_number(place: int, change: Callable[[int], int]) -> Spoil:
    """One of the numbers of each `h` line is another one."""

    def spoiled(row: bytes) -> bytes:
        words = row.split(b" ")
        words[place] = b"%d" % change(int(words[place]))
        return b" ".join(words)

    return lambda command, reply: [spoiled(row) if row.startswith(b"h ") else row for row in reply]


def lacks_parts(command: bytes, reply: list[bytes]) -> list[bytes]:
    """What changed has no parts."""
    rows = [row.split(b" ", 3) if row.startswith(b"r ") else [row] for row in reply]
    return [b" ".join([*row[:2], b"-", row[3]]) if len(row) == 4 else row[0] for row in rows]


def lacks_a_row(command: bytes, reply: list[bytes]) -> list[bytes]:
    """A page lacks its first hit."""
    return reply[:1] + reply[2:] if command.startswith(b"page ") and len(reply) > 2 else reply


def says_nothing(command: bytes, reply: list[bytes]) -> list[bytes]:
    """Nothing changes."""
    return reply[-1:] if command == b"changes\n" else reply


def repeating() -> Spoil:
    """What changed is said again where nothing changed since."""
    last: list[bytes] = []

    def spoil(command: bytes, reply: list[bytes]) -> list[bytes]:
        nonlocal last
        if command != b"changes\n":
            return reply
        last = reply if len(reply) > 1 else last[:-1] + reply
        return last

    return spoil


def with_pages_reported() -> Spoil:
    """What was on a page counts as reported."""
    was_page = False

    def spoil(command: bytes, reply: list[bytes]) -> list[bytes]:
        nonlocal was_page
        paged, was_page = was_page, command.startswith(b"page ")
        return reply[-1:] if paged and command == b"changes\n" else reply

    return spoil


def mutants() -> list[Spoil]:
    """All of them."""
    numbers = [with_number(2, lambda front: front + 1), with_number(3, lambda removed: 0),
               with_number(4, lambda added: added + 1)]
    return [*numbers, lacks_parts, lacks_a_row, says_nothing, repeating(), with_pages_reported()]


def compare(description: str, play: Callable[[Any, random.Random, int, int], tuple[int, list[str]]],
            start: Callable[[Path], Any], wrong: Callable[[Path, Spoil], Any], spoils: list[Spoil]) -> int:
    """Plays with the program of the words, and with wrong ones. Each of these has to differ, in as many edits as
    show it. Answers the exit status."""
    words = argparse.ArgumentParser(description=description)
    words.add_argument("occur", type=Path)
    words.add_argument("--edits", type=int, default=100_000)
    words.add_argument("--seed", type=int, default=1)
    given = words.parse_args()
    occur = given.occur.resolve()

    def is_found(spoil: Spoil) -> bool:
        dice = random.Random(0)
        return any(play(wrong(occur, spoil), dice, 500, SHORT)[1] for _ in range(10))

    missed = sum(not is_found(spoil) for spoil in spoils)
    dice, left, turn, made, differing = random.Random(given.seed), given.edits, 0, 0, 0
    while left > 0:
        some, turn = min(left, 2_000), turn + 1
        more, faults = play(start(occur), dice, some, LONG if turn % 20 == 2 else SHORT)
        left, made, differing = left - some, made + more, differing + len(faults)
        print(*faults, sep="\n", end="\n" if faults else "")
    print(f"{len(spoils) - missed} of {len(spoils)} programs that are wrong on purpose differ")
    print(f"{given.edits} edits, {made} comparisons, {differing} differ")
    return 1 if differing or missed else 0


def main() -> int:
    return compare("compare the lists of an editor with what occur shows", play, Coprocess, Wrong, mutants())


if __name__ == "__main__":
    sys.exit(main())
