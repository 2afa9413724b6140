"""Cases of grep on live and on long inputs: when rows and messages go out, that they go out whole,
and that no line is lost or counted twice where many are passed at once.
"""

from __future__ import annotations

import os
import pty
import tty

from program import Answer, Bench, Cases, Verdict, all_of, finish
from streams import opened, seen_within

BLOCK = 65_536
"""How many bytes the program reads and writes at a time."""

case = Cases("grep", "live.py")
cases = all_of(case)
"""All cases of this file."""


# When rows go out


@case("Through pipes a row is seen while the input pauses, and after it the next one.")
def pipe_that_pauses(bench: Bench) -> Verdict:
    process = bench.start("-n", "b")
    seen = []
    for text, row in ((b"a\nab\n", b"2:ab\n"), (b"b\nc\n", b"3:b\n"), (b"cb", b"")):
        os.write(process.stdin.fileno(), text)
        seen.append(seen_within(process.stdout.fileno(), len(row)) if row else b"")
    rest = finish(process, b"")
    wanted = Answer(b"2:ab\n then 3:b\n then  then 5:cb\n")
    return Verdict(wanted, Answer(b" then ".join([*seen, rest.out]), rest.err, rest.status))


@case("Where output and messages go to one place they stand in the order of the files.")
def one_place(bench: Bench) -> Verdict:
    bench.write("f", b"a\n")
    with opened(bench.folder / "out", os.O_CREAT | os.O_WRONLY | os.O_APPEND) as place:
        given = bench.ask("a", "f", "nofile", "f", stdout=place, stderr=place)
    written = (bench.folder / "out").read_bytes()
    wanted = b"f:a\ngrep: nofile: cannot open\nf:a\n"
    return Verdict(Answer(wanted, b"", 2), Answer(written, b"", given.status))


# Rows and messages go out whole


def long_file(lines: int) -> bytes:
    """Lines that all have an `x`, of 1 to 90 bytes."""
    return b"".join(b"x" * (number % 90 + 1) + b"\n" for number in range(lines))


def rows_of_four(bench: Bench, places: list[int]) -> list[bytes]:
    """The rows of four greps that run at once."""
    running = [bench.start("-n", "x", "f", stdout=place) for place in places]
    for process in running:
        finish(process)
    return [b"%d:%s" % (at + 1, row) for at, row in enumerate(long_file(20_000).split(b"\n")[:-1])]


@case("Rows of four greps that append to one file aren't mixed.")
def four_to_one_file(bench: Bench) -> Verdict:
    bench.write("f", long_file(20_000))
    with opened(bench.folder / "out", os.O_CREAT | os.O_WRONLY | os.O_APPEND) as place:
        rows = rows_of_four(bench, [place] * 4)
    written = (bench.folder / "out").read_bytes().split(b"\n")[:-1]
    return Verdict(Answer(b"\n".join(sorted(rows * 4))), Answer(b"\n".join(sorted(written))))


@case("A message is one write: those of four greps on one file aren't mixed.")
def four_messages(bench: Bench) -> Verdict:
    name = "nofile" * 20
    with opened(bench.folder / "out", os.O_CREAT | os.O_WRONLY | os.O_APPEND) as place:
        running = [bench.start("x", *[name] * 200, stderr=place) for _ in range(4)]
        for process in running:
            finish(process)
    written = (bench.folder / "out").read_bytes()
    return Verdict(Answer(f"grep: {name}: cannot open\n".encode() * 800), Answer(written))


@case("A row that is longer than the buffer goes out whole too.")
def row_beyond_buffer(bench: Bench) -> Verdict:
    text = b"x" * (3 * BLOCK) + b"\n" + b"y\nx\n"
    bench.write("f", text)
    return Verdict(Answer(b"1:" + b"x" * (3 * BLOCK) + b"\n3:x\n"), bench.ask("-n", "x", "f"))


@case("To a terminal a long file goes out in rows that are whole.")
def long_file_to_terminal(bench: Bench) -> Verdict:
    bench.write("f", long_file(3_000))
    rows = b"".join(b"%d:%s\n" % (at + 1, row) for at, row in enumerate(long_file(3_000).split(b"\n")[:-1]))
    ours, theirs = pty.openpty()
    tty.setraw(theirs)
    try:
        process = bench.start("-n", "x", "f", stdout=theirs)
        seen = seen_within(ours, len(rows))
        rest = finish(process)
    finally:
        os.close(theirs)
        os.close(ours)
    return Verdict(Answer(rows), Answer(seen, rest.err, rest.status))


# Lines that are passed


def rare_rows(text: bytes, needle: bytes, inverted: bool) -> bytes:
    """The rows of `-n` for lines that have the needle, or that have it not."""
    lines = text.split(b"\n")
    lines = lines if lines[-1] else lines[:-1]
    numbered = enumerate(lines, start=1)
    return b"".join(b"%d:%s\n" % row for row in numbered if (needle in row[1]) != inverted)


def around_blocks(shift: int) -> bytes:
    """Lines with and without `needle`, of which one has it across the end of a block or near it."""
    front = b"abc\n" * ((BLOCK - 40) // 4) + b"needle\n" + b"need\nle\n"
    filling = b"f" * (BLOCK - len(front) - shift)
    return front + filling + b"needle" + b"\n" * 5 + b"neeedle\n" * 20_000 + b"a needle at the end"


for shift in (*range(9), 64, 4_000):
    for words, inverted in ((["-n", "needle"], False), (["-n", "-F", "needle"], False), (["-n", "-v", "needle"], True)):

        @case(f"{' '.join(words)}: the string is {shift} bytes before the end of a block.")
        def rare(
            bench: Bench, words: list[str] = words, inverted: bool = inverted, shift: int = shift
        ) -> Verdict:
            text = around_blocks(shift)
            bench.write("f", text)
            return Verdict(Answer(rare_rows(text, b"needle", inverted)), bench.ask(*words, "f"))


@case("Lines that are passed are counted, and those after them have their numbers.")
def passed_lines_counted(bench: Bench) -> Verdict:
    text = b"".join(b"line %d\n" % number for number in range(200_000))
    bench.write("f", text)
    wanted = b"".join(b"%d:line %d\n" % (n + 1, n) for n in range(200_000) if b"99999" in b"%d" % n)
    return Verdict(Answer(wanted), bench.ask("-n", "99999", "f"))


@case("A pattern that needs a string on whole lines under `-x` passes no line that is it.")
def passed_under_x(bench: Bench) -> Verdict:
    text = (b"needles\n" * 50 + b"needle\n") * 400
    bench.write("f", text)
    wanted = b"".join(b"%d:needle\n" % (51 * (n + 1)) for n in range(400))
    return Verdict(Answer(wanted), bench.ask("-n", "-x", "needle", "f"))
