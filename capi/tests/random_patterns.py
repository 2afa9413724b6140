#!/usr/bin/env python3
"""Compares the library with the built grep on random patterns and lines:

    random_patterns.py GREP [--patterns N] [--seed S]

Each list of patterns, in a random syntax and mostly of one pattern, is asked about a few lines. Which lines are matched
and what their parts are must be what grep writes by `-n` and `-n -o`; a list that grep refuses must be refused for the
same fault at the same place. Some of the patterns are made to be refused. A difference is printed. The last line is
`N patterns, L lines, R refused, M differ`.
"""

from __future__ import annotations

import argparse
import multiprocessing
import os
import random
import sys
import tempfile
from pathlib import Path
from typing import NamedTuple

HERE = Path(__file__).resolve().parent
sys.path.insert(0, str(HERE.parent.parent / "build/python"))

import gaxtrel  # noqa: E402
from gaxtrel import Syntax  # noqa: E402

BATCH = 500
"""How many lists one job tries."""

BYTES = b"abcabcabAB01 .*[]^$\\-(){}|+?,:\x00\x80\xff\xc3"
"""The bytes of lines and of patterns that are made without a rule; the first ones are frequent."""

ITEMS = [b"a", b"b", b"c", b"A", b"0", b".", b"[ab]", b"[^a]", b"[[:alpha:]]", b"[a-c1]", b"[[:upper:]x]", b"ab", b"bc",
         b"cab", b"^", b"$", b"\\.", b"\\*", b"\x80", b"[^[:digit:]]", b"abc", b"x", b" ", b"[]a]", b"[[.a.]-c]"]


class Asked(NamedTuple):
    """What is asked: patterns, how they are read, and a text."""

    patterns: list[bytes]
    syntax: Syntax
    fold: bool
    whole: bool
    lines: list[bytes]


def repeat(dice: random.Random, basic: bool) -> bytes:
    least = dice.randrange(4)
    bounds = dice.choice([b"%d", b"%d,", b"%d,%d"])
    numbers = (least, least + dice.randrange(3))[:bounds.count(b"%d")]
    sign = dice.choice([b"*", b"*", b"+", b"?", b"{" + bounds % numbers + b"}"])
    return sign.replace(b"{", b"\\{").replace(b"}", b"\\}") if basic and sign[:1] == b"{" else \
        b"\\" + sign if basic and sign in (b"+", b"?") else sign


def expression(dice: random.Random, basic: bool, depth: int = 0) -> bytes:
    """A pattern, which is mostly one that is read."""
    branches = []
    for _ in range(dice.choice([1, 1, 1, 2, 3])):
        branch = b""
        for _ in range(dice.choice([1, 1, 2, 2, 3, 4])):
            if depth < 3 and dice.random() < 0.3:
                inner = expression(dice, basic, depth + 1)
                item = b"\\(" + inner + b"\\)" if basic else b"(" + inner + b")"
            else:
                item = dice.choice(ITEMS)
            branch += item
            if dice.random() < 0.35 and item not in (b"^", b"$"):
                branch += repeat(dice, basic)
        branches.append(branch)
    return (b"\\|" if basic else b"|").join(branches)


def soup(dice: random.Random, most: int) -> bytes:
    return bytes(dice.choice(BYTES) for _ in range(dice.randrange(most)))


def pattern(dice: random.Random, syntax: Syntax) -> bytes:
    if syntax == Syntax.FIXED:
        return bytes(dice.choice(BYTES[:14]) for _ in range(dice.choice([0, 1, 1, 2, 2, 3, 4])))
    if dice.random() < 0.15:
        return soup(dice, 8)
    made = expression(dice, syntax == Syntax.BASIC)
    if dice.random() < 0.05:
        place = dice.randrange(len(made) + 1)
        made = made[:place] + soup(dice, 3) + made[place:]
    return made


def line(dice: random.Random) -> bytes:
    some = BYTES[:dice.choice([2, 3, 8, 12, len(BYTES)])]
    return bytes(dice.choice(some) for _ in range(dice.choice([0, 1, 2, 3, 5, 8, 13, 40, 120])))


def asked(dice: random.Random) -> Asked:
    syntax = dice.choice([Syntax.EXTENDED, Syntax.EXTENDED, Syntax.BASIC, Syntax.FIXED])
    number = dice.choice([1, 1, 1, 1, 2, 3, 12])
    patterns = [pattern(dice, syntax) for _ in range(number)]
    return Asked(patterns, syntax, dice.random() < 0.3, dice.random() < 0.15,
                 [line(dice) for _ in range(dice.choice([1, 3, 6, 9]))])


def found(it: Asked) -> list[tuple[int, list[bytes]]] | str:
    """What the library finds: the numbers of the matched lines with their parts, or the fault. Its calls for one line
    and for a text, and for one pattern and for several, have to agree."""
    words = {"syntax": it.syntax, "fold": it.fold, "whole": it.whole}
    texts = b"".join(text + b"\n" for text in it.patterns)
    try:
        made = gaxtrel.compile_lines(texts, **words)
    except gaxtrel.Error as error:
        return f"grep: {error}\n"
    rows = []
    for number, text in enumerate(it.lines, 1):
        parts, first = list(made.finditer(text)), made.search(text)
        assert (first and first.span()) == (parts[0].span() if parts else None)
        if len(parts) > 1:
            second = made.search(text, parts[0].end())
            assert second and second.span() == parts[1].span()
        if made.is_match(text):
            rows.append((number, [part.group() for part in parts]))
        else:
            assert not parts
    text = b"\n".join(it.lines) + b"\n"
    assert made.count_lines(text) == len(rows)
    assert [place.group() for place in made.lines(text)] == [it.lines[number - 1] for number, _ in rows]
    apart = gaxtrel.compile_lines(texts, apart=True, **words)
    alone = [gaxtrel.compile(one, **words) for one in it.patterns]
    for text in it.lines:
        assert apart.which(text) == [number for number, one in enumerate(alone) if one.is_match(text)]
        assert bool(apart.which(text)) == made.is_match(text)
        for one in [apart, *alone[:len(alone) == 1]]:
            assert [part.span() for part in one.finditer(text)] == [part.span() for part in made.finditer(text)]
    return rows


def rows_of(out: bytes) -> list[tuple[int, bytes]]:
    """Rows with their numbers."""
    parted = (text.partition(b":") for text in out.split(b"\n")[:-1])
    return [(int(number), text) for number, _, text in parted]


def written(grep: str, words: list[str], folder: str) -> tuple[bytes, bytes, int]:
    """What grep writes, to both streams, and its status. A process for each of many runs has to be cheap."""
    new = os.O_WRONLY | os.O_CREAT | os.O_TRUNC
    streams = [(os.POSIX_SPAWN_OPEN, 0, os.devnull, os.O_RDONLY, 0),
               *((os.POSIX_SPAWN_OPEN, at, f"{folder}/{at}", new, 0o600) for at in (1, 2))]
    _, status = os.waitpid(os.posix_spawn(grep, ["grep", *words], {}, file_actions=streams), 0)
    out, err = (Path(folder, str(at)).read_bytes() for at in (1, 2))
    return out, err, os.waitstatus_to_exitcode(status)


def wanted(grep: str, folder: str, it: Asked) -> list[tuple[int, list[bytes]]] | str:
    """The same by grep."""
    Path(folder, "p").write_bytes(b"".join(text + b"\n" for text in it.patterns))
    Path(folder, "t").write_bytes(b"\n".join(it.lines) + b"\n")
    words = [[], ["-E"], ["-F"]][it.syntax] + ["-i"] * it.fold + ["-x"] * it.whole
    words += ["-f", f"{folder}/p", f"{folder}/t"]
    lines, err, status = written(grep, ["-n", *words], folder)
    if status > 1:
        return err.decode()
    parts = rows_of(written(grep, ["-no", *words], folder)[0]) if lines else []
    return [(number, [part for at, part in parts if at == number]) for number, _ in rows_of(lines)]


def try_batch(job: tuple[str, int, int]) -> tuple[int, int, list[str]]:
    """Lines, refused lists, and differences of one job."""
    grep, seed, number = job
    dice, lines, refused, faults = random.Random(f"{seed} {number}"), 0, 0, []
    with tempfile.TemporaryDirectory() as folder:
        for _ in range(BATCH):
            it = asked(dice)
            lines += len(it.lines)
            right = wanted(grep, folder, it)
            refused += isinstance(right, str)
            try:
                given = found(it)
            except AssertionError:
                given = "two calls of the library differ"
            if given != right:
                faults.append(f"{it}\n  grep    {right}\n  library {given}")
    return lines, refused, faults


def main() -> int:
    parser = argparse.ArgumentParser(description="Compares the library with the built grep on random patterns.")
    parser.add_argument("grep", help="the built grep")
    parser.add_argument("--patterns", type=int, default=100_000, help="how many lists, in hundreds of five")
    parser.add_argument("--seed", type=int, default=1)
    words = parser.parse_args()
    jobs = [(os.path.abspath(words.grep), words.seed, number) for number in range(-(-words.patterns // BATCH))]
    lines = refused = differ = 0
    with multiprocessing.Pool() as pool:
        for more, none, faults in pool.imap_unordered(try_batch, jobs):
            lines, refused, differ = lines + more, refused + none, differ + len(faults)
            for fault in faults:
                print(fault, flush=True)
    print(f"{len(jobs) * BATCH} patterns, {lines} lines, {refused} refused, {differ} differ")
    return 1 if differ else 0


if __name__ == "__main__":
    sys.exit(main())
