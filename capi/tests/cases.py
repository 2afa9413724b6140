#!/usr/bin/env python3
"""Asks the library what AT&T's cases (att/*.dat) and the rows and scripts of the repository (tests/rows/*.toml,
tests/scripts/*.toml) ask:

    cases.py [--only TEXT]

An AT&T case gives a pattern, a line, and the places of the match or a fault. A row gives a command line of grep and its
answer: its words, as far as they say what is matched, are read here, and what the library finds is written as grep
would write it. Each step of a script is a call of its own. Rows on anything else (lines around, files that aren't there, words that are wrong) are left out, and
counted.
Each case that fails is printed. The last line is `N passed, M failed`.
"""

from __future__ import annotations

import argparse
import re
import sys
from collections.abc import Callable, Iterator
from dataclasses import dataclass, field
from pathlib import Path

HERE = Path(__file__).resolve().parent
REPOSITORY = HERE.parent.parent
sys.path[:0] = [str(REPOSITORY / "build/python"), str(REPOSITORY / "tests")]

import gaxtrel  # noqa: E402
import row  # noqa: E402
import script  # noqa: E402
from gaxtrel import Kind, Syntax  # noqa: E402
from program import Answer  # noqa: E402

Case = tuple[str, Callable[[], str | None]]
"""A title, and what says what is wrong."""

# AT&T's cases

SYNTAXES = {"B": Syntax.BASIC, "E": Syntax.EXTENDED, "L": Syntax.FIXED}
KINDS = {"EBRACK": Kind.UnclosedBracket, "ECTYPE": Kind.BadClass, "ERANGE": Kind.BadRange, "EPAREN": Kind.UnclosedGroup,
         "EBRACE": Kind.BadInterval, "BADBR": Kind.IntervalTooLarge, "BADRPT": Kind.NothingToRepeat}
ESCAPES = {b"n": b"\n", b"t": b"\t", b"\\": b"\\"}


def unescaped(text: bytes) -> bytes:
    """A text whose flags have `$`: with the escapes of C."""
    return re.sub(rb"\\(x[0-9a-f]{2}|.)", lambda found: bytes([int(found[1][1:], 16)]) if len(found[1]) > 1 else
                  ESCAPES[found[1]], text)


def wrong_match(syntax: Syntax, pattern: bytes, fold: bool, line: bytes, wanted: str) -> str | None:
    """What is wrong with the library's answer."""
    try:
        made = [gaxtrel.compile(pattern, syntax, fold=fold, whole=whole) for whole in (False, True)]
    except gaxtrel.Error as error:
        if re.search(rb"\\[1-9]", pattern) and syntax == Syntax.BASIC:
            return None if error.kind == Kind.BackReference else f"{error}"
        return None if KINDS.get(wanted) == error.kind else f"{error}"
    matched, whole = (pattern.is_match(line) for pattern in made)
    if wanted == "NOMATCH":
        return None if not matched and not whole else "matched"
    if not (places := re.match(r"\((\d+),(\d+)\)", wanted)):
        return "not refused"
    span, found = tuple(map(int, places.groups())), made[0].search(line)
    if not matched or whole != (span == (0, len(line))):
        return f"matched: {matched}, and the whole line: {whole}"
    if span[0] == span[1]:
        return "a part begins there" if found and found.start() <= span[0] else None
    return None if found and found.span() == span else f"{found}"


def att_cases() -> Iterator[Case]:
    """Those that speak of one line in a syntax that there is."""
    for file in sorted((HERE / "att").glob("*.dat")):
        pattern = b""
        for number, text in enumerate(file.read_bytes().splitlines(), 1):
            words = re.split(rb"\t+", text)
            if text.startswith((b"#", b"NOTE", b"}")) or len(words) < 4:
                continue
            flags = words[0].decode().split(":")[-1].lstrip("{")
            pattern = pattern if words[1] == b"SAME" else words[1]
            line = b"" if words[2] == b"NULL" else words[2]
            asked = unescaped(pattern) if "$" in flags else pattern
            asked = b"" if asked == b"NULL" else asked
            line = unescaped(line) if "$" in flags else line
            for letter in flags:
                if letter in SYNTAXES and b"\n" not in line:
                    arguments = SYNTAXES[letter], asked, "i" in flags, line, words[3].decode()
                    yield f"att/{file.name}:{number} {letter} {text!r}", lambda them=arguments: wrong_match(*them)


# Rows


class OutOfScope(Exception):
    """A row that asks for more than the library gives."""


@dataclass
class Words:
    """The words of a command line."""

    flags: set[str] = field(default_factory=set)
    lists: list[bytes] = field(default_factory=list)
    operands: list[bytes] = field(default_factory=list)


def content_of(name: bytes, row: row.Row, used: list[bytes]) -> bytes:
    """What a file has; standard input is empty from its second use on."""
    if name == b"-":
        used.append(name)
        return row.stdin if len(used) == 1 else b""
    content = row.files.get(name.decode())
    if content is None:
        raise OutOfScope
    return content


def read_words(row: row.Row, used: list[bytes]) -> Words:
    """The words that grep would read. Each list of patterns ends with a newline, but for that without one."""
    words, left, ended = Words(), list(row.words), False
    while left:
        word = left.pop(0)
        if ended or word == b"-" or not word.startswith(b"-"):
            words.operands.append(word)
        elif word == b"--":
            ended = True
        else:
            letters = word[1:].decode()
            while letters:
                letter, letters = letters[0], letters[1:]
                if letter in "EFcilnoqsvx":
                    words.flags.add(letter)
                elif letter not in "ef" or not (letters or left):
                    raise OutOfScope
                else:
                    argument = letters.encode() if letters else left.pop(0)
                    text = argument if letter == "e" else content_of(argument, row, used)
                    words.lists.append(text + b"\n" if letter == "e" or text[-1:] not in (b"", b"\n") else text)
                    letters = ""
    if not words.lists:
        if not words.operands:
            raise OutOfScope
        words.lists.append(words.operands.pop(0) + b"\n")
    if {"E", "F"} <= words.flags:
        raise OutOfScope
    return words


def written(flags: set[str], pattern: gaxtrel.Pattern, name: bytes, text: bytes) -> tuple[bytes, int]:
    """What grep writes of a file, and how many lines it selects. The library also goes over the text itself, and has to
    find the same lines."""
    lines = text.removesuffix(b"\n").split(b"\n") if text else []
    matched = [pattern.is_match(line) for line in lines]
    assert pattern.count_lines(text) == sum(matched)
    assert [match.group() for match in pattern.lines(text)] == [line for line, is_in in zip(lines, matched) if is_in]
    out, selected = b"", 0
    for number, (line, is_in) in enumerate(zip(lines, matched), 1):
        if is_in == ("v" in flags):
            continue
        selected += 1
        front = name + (b"%d:" % number if "n" in flags else b"")
        parts = [line]
        if "o" in flags:
            parts = [] if "v" in flags else [match.group() for match in pattern.finditer(line)]
            first = pattern.search(line)
            assert (first and first.group()) == (parts[0] if parts else None) or "v" in flags
        out += b"".join(front + part + b"\n" for part in parts)
    if "q" in flags:
        out = b""
    elif "l" in flags:
        out = (name[:-1] + b"\n") if selected else b""
    elif "c" in flags:
        out = name + b"%d\n" % selected
    return out, selected


def wrong_row(row: row.Row) -> str | None:
    """What is wrong with the library's answer."""
    used: list[bytes] = []
    words = read_words(row, used)
    flags, texts = words.flags, b"".join(words.lists)
    syntax = Syntax.EXTENDED if "E" in flags else Syntax.FIXED if "F" in flags else Syntax.BASIC
    files = words.operands or [b"-"]
    names = [(b"(standard input):" if file == b"-" else file + b":") if len(files) > 1 or "l" in flags else b""
             for file in files]
    try:
        pattern = gaxtrel.compile_lines(texts, syntax, fold="i" in flags, whole="x" in flags)
    except gaxtrel.Error as error:
        given = Answer(b"", f"grep: {error}\n".encode(), 2)
    else:
        out, selected = b"", 0
        for file, name in zip(files, names):
            more, lines = written(flags, pattern, name, content_of(file, row, used))
            out, selected = out + more, selected + lines
            if selected and "q" in flags:
                break
        given = Answer(out, b"", 0 if selected else 1)
    return None if given == row.wanted else f"wanted {row.wanted}\n  given  {given}"


def row_cases() -> Iterator[Case]:
    """Those of grep."""
    for it in row.read_rows():
        if it.program == "grep" and not it.left_open and re.fullmatch(rb"(grep: pattern .*\n)?", it.wanted.err):
            yield f"{it.source}: {it.name}", lambda it=it: wrong_row(it)


# Scripts


def wrong_script(it: script.Script) -> str | None:
    """What is wrong with the replies to a script whose steps are answered one by one."""
    with gaxtrel.Session() as session:
        for step in it.steps:
            if (reply := session.answer(step.sent)) != step.reply:
                return f"{step.sent!r}: wanted {step.reply!r}\n  given  {reply!r}"
    return None


def script_cases() -> Iterator[Case]:
    """All of occur."""
    for it in script.read_scripts():
        yield f"{it.source}: {it.name}", lambda it=it: wrong_script(it)


def main() -> int:
    parser = argparse.ArgumentParser(description="Asks the library what AT&T's cases, rows and scripts ask.")
    parser.add_argument("--only", default="", help="only cases with this text in their title")
    only = parser.parse_args().only
    ends = {"passed": 0, "failed": 0, "left out": 0}
    for title, judge in [*att_cases(), *row_cases(), *script_cases()]:
        if only not in title:
            continue
        try:
            wrong = judge()
        except OutOfScope:
            ends["left out"] += 1
            continue
        except AssertionError:
            wrong = "two calls differ"
        ends["failed" if wrong else "passed"] += 1
        if wrong:
            print(f"FAILED {title}\n  {wrong}")
    print(f"{ends['left out']} rows are about more than matching")
    print(f"{ends['passed']} passed, {ends['failed']} failed")
    return 1 if ends["failed"] else 0


if __name__ == "__main__":
    sys.exit(main())
