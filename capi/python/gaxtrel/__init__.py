"""POSIX regular expressions over lines of bytes, and live sessions of them, by the proved library
libgaxtrel.

    pattern = gaxtrel.compile(b"ab|abcd|bc")
    pattern.is_match(b"xabcde")                          # True
    pattern.search(b"xabcde").span()                     # (1, 5): leftmost, and there longest
    [m.group() for m in pattern.finditer(b"xabcdebc")]   # [b"abcd", b"bc"]
    gaxtrel.compile(b"a(b", fold=True)                   # Error: pattern 1: UnclosedGroup at 1
    session = gaxtrel.Session()
    session.answer(b"file f 1\\nab\\npatterns 1\\na\\nshow\\n")  # b"ok\\nok\\no ab\\nstatus 0\\n"
"""

from __future__ import annotations

import enum
import mmap
from collections.abc import Iterator
from typing import Any, NamedTuple

from gaxtrel import _core
from gaxtrel._core import Stopped
from gaxtrel._core import __version__ as __version__

__all__ = ["Error", "Kind", "Match", "Pattern", "Session", "Stopped", "Syntax", "Text", "Work",
           "compile", "compile_lines"]

Text = bytes | bytearray | memoryview | mmap.mmap
"""A line or a text: anything that has bytes in one stretch of memory. No process may change it during a call."""


class Syntax(enum.IntEnum):
    """How a pattern is written."""

    BASIC = 0
    EXTENDED = 1
    FIXED = 2


class Kind(enum.Enum):
    """Why a pattern is refused, by the names that grep writes."""

    UnclosedBracket = 1
    BadClass = 2
    BadCollatingSymbol = 3
    BadRange = 4
    UnclosedGroup = 5
    UnopenedGroup = 6
    BadInterval = 7
    IntervalTooLarge = 8
    NothingToRepeat = 9
    TrailingBackslash = 10
    UndefinedEscape = 11
    BackReference = 12
    TooDeep = 13
    TooLarge = 14
    TooManyPatterns = 15


class Error(ValueError):
    """A pattern that is refused: why, at which of its bytes, and which of several it is, counted
    from 0."""

    def __init__(self, kind: Kind, at: int, pattern: int = 0) -> None:
        super().__init__(kind, at, pattern)
        self.kind, self.at, self.pattern = kind, at, pattern

    def __str__(self) -> str:
        return f"pattern {self.pattern + 1}: {self.kind.name} at {self.at}"


class Work(NamedTuple):
    """What a call took: steps that were computed, steps that a cache knew, bytes that were passed."""

    built: int
    reused: int
    passed: int


class Match(NamedTuple):
    """A part of a line that is matched, or a line of a text."""

    string: Text
    first: int
    after: int

    def start(self) -> int:
        """The place of its first byte."""
        return self.first

    def end(self) -> int:
        """The place after its last byte."""
        return self.after

    def span(self) -> tuple[int, int]:
        """Both places."""
        return self.first, self.after

    def group(self) -> bytes:
        """Its bytes."""
        if isinstance(self.string, bytes):
            return self.string[self.first:self.after]
        return bytes(memoryview(self.string).cast("B")[self.first:self.after])

    def __repr__(self) -> str:
        return f"<gaxtrel.Match span={self.span()} match={self.group()!r}>"


class Pattern(_core.Matcher):
    """What `compile` and `compile_lines` make. Threads that share one take turns."""

    def __init__(self, pattern: bytes, syntax: Syntax = Syntax.EXTENDED, fold: bool = False,
                 whole: bool = False, several: bool = False, apart: bool = False) -> None:
        self.pattern, self.syntax, self.fold, self.whole = pattern, Syntax(syntax), fold, whole
        self.several, self.apart = several, apart
        if fault := self._compile(pattern, self.syntax, fold, whole, several, apart):
            raise Error(Kind[fault[0]], *fault[1:])

    def lines(self, text: Text, start: int = 0) -> Iterator[Match]:
        """The matched lines of what is left of a text from a place on, without their newlines."""
        while line := self._next_line(text, start):
            yield line
            start = line.after + 1

    @property
    def work(self) -> Work:
        """What the last call took."""
        return Work(*self._work())

    def __reduce__(self) -> tuple[Any, ...]:
        return Pattern, (self.pattern, self.syntax, self.fold, self.whole, self.several, self.apart)

    def __repr__(self) -> str:
        return f"<gaxtrel.Pattern {self.pattern!r} {self.syntax.name}>"


class Session(_core.Session):
    """What `occur` keeps: files, patterns and options, and what was found in each line. Each pattern
    may keep so many states, from 1 to 65,536. Threads that share one take turns."""

    def __init__(self, states: int = 256) -> None:
        self._open(states)
        self.work = Work(0, 0, 0)
        """What the last commands took."""

    def answer(self, commands: Text) -> bytes:
        """The replies to commands, by the language of occur(1), with the lines that they count.
        After a `MemoryError` the first of them may have been answered."""
        return self._noted(self._answer(commands))

    def edit(self, command: Text, lines: Text = b"") -> bytes:
        """The reply to one command with the lines that it counts: no line is taken for a command. A
        `ValueError` says that it has a newline, or counts other lines: then nothing is done."""
        return self._noted(self._edit(command, lines))

    def _noted(self, answered: tuple[bytes, tuple[int, int, int]]) -> bytes:
        self.work = Work(*answered[1])
        return answered[0]

    def __reduce__(self) -> tuple[Any, ...]:
        raise TypeError("a session has no copy")


def compile(pattern: bytes, syntax: Syntax = Syntax.EXTENDED, *, fold: bool = False,  # noqa: A001
            whole: bool = False) -> Pattern:
    """A pattern, or an `Error`. With `fold` both cases of a letter are alike; with `whole` the
    whole line has to be matched."""
    return Pattern(pattern, syntax, fold, whole)


def compile_lines(patterns: bytes, syntax: Syntax = Syntax.EXTENDED, *, fold: bool = False,
                  whole: bool = False, apart: bool = False) -> Pattern:
    """Several patterns, which are the lines of `patterns`: a line is matched where one of them
    matches it. No bytes are no pattern, which matches nothing. With `apart` its `which` says which
    ones match a line; where there are many, other searches take longer then."""
    return Pattern(patterns, syntax, fold, whole, True, apart)
