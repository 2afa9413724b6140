#!/usr/bin/env python3
"""Looks for patterns and lines on which a search takes time that grows faster than the line.

    tests/random_growth.py GREP OCCUR [--cases N] [--seed S]

First the cases that have a name, then N random ones (200), each of a few patterns, options and a family of lines, for
`grep`, or for a session of `occur` with flag `o`. A case is run on a line of 60,000 bytes and on one of 240,000. It
fails if the longer one takes more than 7 times as long, and more than a quarter of a second of processor time, in each
of three tries. The last line is `N passed, M failed`, and the exit status is 0 only if none failed.
"""

from __future__ import annotations

import argparse
import random
import resource
import subprocess
import sys
import tempfile
from collections.abc import Callable
from dataclasses import dataclass
from pathlib import Path

SHORT, LONG = 60_000, 240_000
"""The bytes of the two lines of a case."""

MOST_TIMES = 7
"""The longer line may take this number of times as long as the shorter one."""

FEW_SECONDS = 0.25
"""Less than this is measured too badly to compare."""

TRIES = 3
LIMIT = 60
"""A run that takes more seconds has failed."""

ATOMS = ("a", "b", "z", "q", ".", "[ab]", "[a-z]", "[^a]", "[^z]", "zebra", "ab", "ba", "aa", "abc", "qu")
STRINGS = ("a", "b", "z", "zebra", "ab", "aa", "q", "aaaab")
REPEATS = ("*", "*", "+", "?", "{2}", "{1,5}", "{3,}")
OPTIONS = (["-o"], ["-o"], ["-o"], ["-on"], ["-oi"], ["-c"], ["-vc"], ["-x"], ["-ox"], ["-n"], ["-oC1"], ["-q"])
UNITS = ("a", "a", "ab", "aab", "ba", "abz", "az", "b", "zebr", "aaaaaaaaaaaaaaaaz", "qa")


@dataclass(frozen=True)
class Case:
    """A search: its name, the syntax and options of grep, the patterns, and the lines of about this many bytes."""

    name: str
    syntax: str
    options: list[str]
    patterns: list[str]
    lines: Callable[[int], bytes]
    in_session: bool = False


def repeated(unit: str, tail: str = "") -> Callable[[int], bytes]:
    """One line: the unit again and again, and then the tail."""
    return lambda size: ((unit * (size // len(unit) + 1))[:size] + tail + "\n").encode()


JSON = '{"id": 123456, "name": "some words", "tags": ["a", "b", "c"], "at": 1.5}, '
"""A record of a file that is one line."""

LONG_TEXT = "a" * 50_000

NAMED = [
    Case("a string that is rare, and one of each byte", "-G", ["-o"], ["a", "zebra"], repeated("a", "zebra")),
    Case("an expression that needs a rare byte", "-E", ["-o"], ["a", "z[a-z]*q"], repeated("a", "zxq")),
    Case("an expression that begins with a rare byte", "-E", ["-o"], ["a", "[zk]b*"], repeated("a", "zebra")),
    Case("fixed strings, one of them rare", "-F", ["-o"], ["a", "zebra"], repeated("a", "zebra")),
    Case("one line of JSON", "-G", ["-o"], [",", "zzz"], repeated(JSON)),
    Case("one line of JSON, nine patterns", "-E", ["-o"], [",", "zzz", "y{3}", "[0-9]+q", "k", "w", "v", "X", "Z"], repeated(JSON)),
    Case("a long string of which each part has the front", "-F", ["-o"],
         ["a", LONG_TEXT + "b", "q1", "q2", "q3", "q4", "q5", "q6", "q7"], repeated("a")),
    Case("a long string that overlaps itself", "-F", ["-o"], [LONG_TEXT, "zzz"], repeated("a")),
    Case("a long string, and an expression that reads on", "-E", ["-o"], ["a" * 400, "a|a*[bc]"], repeated("a")),
    Case("an expression that reads on", "-E", ["-o"], ["a|a*[bc]"], repeated("a")),
    Case("a session, a rare string", "-G", ["-o"], ["a", "zebra"], repeated("a", "zebra"), True),
    Case("a session, an expression that reads on", "-E", ["-o"], ["a|a*[bc]", "zz"], repeated("a"), True),
]
"""Searches that took time in the square of the line once, or are like these."""


def expression(chance: random.Random, depth: int) -> str:
    kind = chance.random()
    if depth == 0 or kind < 0.35:
        return chance.choice(ATOMS)
    if kind < 0.55:
        return expression(chance, depth - 1) + expression(chance, depth - 1)
    if kind < 0.68:
        return f"({expression(chance, depth - 1)}|{expression(chance, depth - 1)})"
    if kind < 0.9:
        return f"({expression(chance, depth - 1)}){chance.choice(REPEATS)}"
    return "^" + expression(chance, depth - 1) if chance.random() < 0.5 else expression(chance, depth - 1) + "$"


def random_lines(chance: random.Random) -> Callable[[int], bytes]:
    """Lines of one family: one, or several that share their letters."""
    count = chance.choice((1, 1, 1, 1, 20, 1000))
    head = chance.choice(("", "", "", "z", "b", "zebra"))
    tail = chance.choice(("", "", "zebra", "z", "q", "c", "zxq", "b", "aaab"))
    letters = chance.choice(("ab", "abz", "aaaab", "abcdefghijklmnopqrstuvwxyz", "aaaaaaaaaaaaaaaz"))
    unit = chance.choice(UNITS) if chance.random() < 0.8 else "".join(chance.choice(letters) for _ in range(5000))
    return lambda size: ((head + (unit * (size // count // len(unit) + 1))[: size // count] + tail + "\n") * count).encode()


def random_case(seed: int, number: int) -> Case:
    chance = random.Random(seed * 1_000_003 + number)
    syntax = chance.choice(("-E", "-E", "-E", "-F"))
    count = chance.choice((1, 1, 2, 2, 3, 5, 9))
    patterns = [chance.choice(STRINGS) if syntax == "-F" else expression(chance, 3) for _ in range(count)]
    options = list(chance.choice(OPTIONS))
    return Case(f"random {seed} {number}", syntax, options, patterns, random_lines(chance), chance.random() < 0.4)


def script_of(case: Case, lines: bytes) -> bytes:
    """The script of a session that asks for the parts of these lines."""
    syntax = {"-G": b"basic", "-E": b"extended", "-F": b"fixed"}[case.syntax]
    patterns = "".join(pattern + "\n" for pattern in case.patterns).encode()
    return (b"syntax %s\nfile f %d\n%sflag o on\n" % (syntax, lines.count(b"\n"), lines)
            + b"patterns %d\n%schanges\n" % (len(case.patterns), patterns))


def seconds_of(words: list[str], text: Path) -> float | None:
    """The processor time of a run that reads the text, or None if it takes too long."""
    before = resource.getrusage(resource.RUSAGE_CHILDREN)
    try:
        with text.open("rb") as stream:
            subprocess.run(words, stdin=stream, stdout=subprocess.DEVNULL, stderr=subprocess.DEVNULL, timeout=LIMIT,
                           env={"LC_ALL": "C"}, check=False)
    except subprocess.TimeoutExpired:
        return None
    after = resource.getrusage(resource.RUSAGE_CHILDREN)
    return after.ru_utime - before.ru_utime + after.ru_stime - before.ru_stime


def grows_like_the_line(case: Case, grep: str, occur: str, folder: Path) -> tuple[bool, float, float | None]:
    """Whether the case passed, and the seconds of the last try."""
    words = [grep, case.syntax, *case.options, *(word for pattern in case.patterns for word in ("-e", pattern))]
    if "-G" in words:
        words.remove("-G")  # basic expressions are what grep reads without a word
    if case.in_session:
        words = [occur]
    texts = []
    for size in (SHORT, LONG):
        lines = case.lines(size)
        texts.append(folder / str(size))
        texts[-1].write_bytes(script_of(case, lines) if case.in_session else lines)
    for _ in range(TRIES):
        short, long = seconds_of(words, texts[0]), seconds_of(words, texts[1])
        if short is not None and long is not None and (long < FEW_SECONDS or long <= MOST_TIMES * short):
            return True, short, long
    return False, short or LIMIT, long


def main() -> int:
    asked = argparse.ArgumentParser()
    asked.add_argument("grep")
    asked.add_argument("occur")
    asked.add_argument("--cases", type=int, default=200)
    asked.add_argument("--seed", type=int, default=1)
    options = asked.parse_args()
    failed = 0
    cases = NAMED + [random_case(options.seed, number) for number in range(options.cases)]
    with tempfile.TemporaryDirectory() as folder:
        for case in cases:
            passed, short, long = grows_like_the_line(case, options.grep, options.occur, Path(folder))
            if not passed:
                failed += 1
                shown = [pattern if len(pattern) < 40 else f"{pattern[:8]}.. ({len(pattern)} bytes)" for pattern in case.patterns]
                print(f"{case.name}: {case.syntax} {case.options} {shown}: {short:.3f} s, then {long}", flush=True)
    print(f"{len(cases) - failed} passed, {failed} failed")
    return int(failed > 0)


if __name__ == "__main__":
    sys.exit(main())
