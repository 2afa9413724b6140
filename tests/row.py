"""Rows: command lines with their wanted answers, as data in the files of tests/rows.

A file of rows is on grep, or on the program that it names at its top.

A text in a row is one of these:

- a string, which stands for its UTF-8 bytes; {usage} and {flags} in it are USAGE and FLAGS of
  program.py;
- a number from 0 to 255, which stands for that byte;
- a table { text = TEXT, times = N }, the text this number of times;
- a table { bytes = [...] }, each byte of the list; a member is a byte, as a number or a string of
  one character, or a list of the first and the last byte of a range;
- a table { lines = [...] }, each byte of such a list on a line of its own;
- a list of texts, which follow one another.
"""

from __future__ import annotations

import tomllib
from collections.abc import Iterator
from dataclasses import dataclass, replace
from pathlib import Path
from typing import Any

from program import FLAGS, USAGE, Answer, Bench, Case, Verdict

FOLDER = Path(__file__).parent / "rows"
NEEDED = {"name", "words", "status"}
KEYS = NEEDED | {"stdin", "files", "out", "err", "open"}

SOME_TEXT = b"some text"
"""What stands for any text but the empty one where an answer leaves it open."""


class BadRow(Exception):
    """A row that does not have the form that it must have."""


@dataclass(frozen=True)
class Row:
    """One command line: what the program is given, and what it has to answer. Streams that are left
    open have some text."""

    program: str
    source: str
    name: str
    words: tuple[bytes, ...]
    stdin: bytes
    files: dict[str, bytes]
    wanted: Answer
    left_open: tuple[str, ...]

    def judge(self, bench: Bench) -> Verdict:
        """Runs the program on the row."""
        for name, content in self.files.items():
            bench.write(name, content)
        given = bench.ask(*self.words, stdin=self.stdin)
        some = {stream: SOME_TEXT for stream in self.left_open if getattr(given, stream)}
        return Verdict(self.wanted, replace(given, **some))


def byte_of(value: Any) -> int:
    """The byte that a number, or a string of one character, stands for."""
    match value:
        case int():
            return value
        case str() if len(value) == 1 and value.isascii():
            return ord(value)
    raise BadRow(f"{value!r} is no byte")


def bytes_of(members: list[Any]) -> bytes:
    """The bytes that a list of bytes and of ranges of bytes stands for."""
    content = bytearray()
    for member in members:
        match member:
            case [first, last]:
                content.extend(range(byte_of(first), byte_of(last) + 1))
            case _:
                content.append(byte_of(member))
    return bytes(content)


def text_of(value: Any) -> bytes:
    """The bytes that a text stands for."""
    match value:
        case str():
            return value.replace("{usage}", USAGE).replace("{flags}", FLAGS).encode()
        case int():
            return bytes((value,))
        case list():
            return b"".join(text_of(part) for part in value)
        case {"text": text, "times": int(times)}:
            return text_of(text) * times
        case {"bytes": list(members)}:
            return bytes_of(members)
        case {"lines": list(members)}:
            return b"".join(bytes((byte, 10)) for byte in bytes_of(members))
    raise BadRow(f"{value!r} is no text")


def wanted_of(entry: dict[str, Any]) -> Answer:
    """The answer that an entry of a file wants."""
    some = {stream: SOME_TEXT for stream in entry.get("open", [])}
    out, err = (some.get(stream) or text_of(entry.get(stream, "")) for stream in ("out", "err"))
    return Answer(out, err, entry["status"])


def row_of(program: str, source: str, entry: dict[str, Any]) -> Row:
    """The row that an entry of a file stands for."""
    if unknown := entry.keys() - KEYS:
        raise BadRow(f"{source}: unknown keys {sorted(unknown)} in {entry}")
    if missing := NEEDED - entry.keys():
        raise BadRow(f"{source}: no {sorted(missing)} in {entry}")
    return Row(
        program=program,
        source=source,
        name=entry["name"],
        words=tuple(text_of(word) for word in entry["words"]),
        stdin=text_of(entry.get("stdin", "")),
        files={name: text_of(content) for name, content in entry.get("files", {}).items()},
        wanted=wanted_of(entry),
        left_open=tuple(entry.get("open", [])),
    )


def read_rows(folder: Path = FOLDER) -> Iterator[Row]:
    """All rows, by the names of their files and in their order there."""
    for path in sorted(folder.glob("*.toml")):
        content = tomllib.loads(path.read_text(encoding="utf-8"))
        for entry in content["row"]:
            yield row_of(content.get("program", "grep"), f"rows/{path.name}", entry)


def cases() -> Iterator[Case]:
    """A case for each row."""
    for row in read_rows():
        yield Case(row.program, row.source, row.name, row.judge)
