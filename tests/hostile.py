"""Cases on hostile texts: long patterns, many patterns, long words and names, each of the bytes as
a pattern, a line and an option, many lines and long ones.
"""

from __future__ import annotations

import os
from pathlib import Path

from program import FLAGS, USAGE, Answer, Bench, Cases, Skipped, Verdict, all_of

MEBIBYTE = 1 << 20
GIBIBYTE = 1 << 30

LONGEST_WORD = 131_071
"""The most bytes that Linux lets a word of a command have."""

case = Cases("grep", "hostile.py")
occur_case = Cases("occur", "hostile.py")
cases = all_of(case, occur_case)
"""All cases of this file."""


def refused(syntax: str, byte: bytes, count: int, fault: str) -> None:
    """A case of a pattern file that has a byte a number of times, and of how it is refused."""

    read_as = "extended" if syntax else "basic"

    @case(f"{count:,} bytes of {byte.decode()} in a pattern file, {read_as}: {fault}.")
    def judge(bench: Bench) -> Verdict:
        want_memory(4 * count)
        bench.write("p", byte * count + b"\n")
        wanted = Answer(b"", f"grep: pattern 1: {fault}\n".encode(), 2)
        return Verdict(wanted, bench.ask(*([syntax] if syntax else []), "-f", "p", stdin=b"a\n"))


for one_byte, basic, extended in (
    (b"(", "TooLarge at 0", "TooDeep at 256"),
    (b"[", "UnclosedBracket at 0", "UnclosedBracket at 0"),
    (b"{", "TooLarge at 0", "TooLarge at 0"),
    (b"\\", "TooLarge at 0", "TooLarge at 0"),
    (b"*", "TooDeep at 257", "NothingToRepeat at 0"),
    (b"a", "TooLarge at 0", "TooLarge at 0"),
):
    refused("", one_byte, MEBIBYTE, basic)
    refused("-E", one_byte, MEBIBYTE, extended)

for longest_syntax, repeated, fault in (
    ("-E", b"(", "TooDeep at 256"),
    ("", b"*", "TooDeep at 257"),
    ("-E", b"*", "NothingToRepeat at 0"),
    ("", b"[", "UnclosedBracket at 0"),
    ("", b"a", "TooLarge at 0"),
):
    refused(longest_syntax, repeated, 100_000_000, fault)


@case("A fixed string of a mebibyte is found in a line that has it, and only there.")
def long_string(bench: Bench) -> Verdict:
    text = b"ab" * (MEBIBYTE // 2)
    bench.write("p", text + b"\n")
    bench.write("f", text[1:] + b"\n" + b"x" + text + b"y\n" + text[:-1] + b"\n")
    return Verdict(Answer(b"2:x" + text + b"y\n"), bench.ask("-n", "-F", "-f", "p", "f"))


@case("65,535 strings that all fail at their last byte.")
def strings_that_fail_late(bench: Bench) -> Verdict:
    texts = (b"a" * (number % 60 + 1) + b"%d" % number for number in range(65_535))
    bench.write("p", b"\n".join(text + b"b" for text in texts) + b"\n")
    bench.write("f", (b"a" * 200 + b"1234567890\n") * 500)
    return Verdict(Answer(b"", b"", 1), bench.ask("-F", "-f", "p", "f"))


@case("All parts of a line of a mebibyte, each of whose searches goes to the line's end.")
def parts_of_a_long_line(bench: Bench) -> Verdict:
    bench.write("f", b"a" * MEBIBYTE + b"\n")
    return Verdict(Answer(b"a\n" * MEBIBYTE), bench.ask("-o", "-E", "a|a*[bc]", "f"))


@case("A longer part ends at the end of a line of a mebibyte, of others that were likely.")
def last_part_of_a_long_line(bench: Bench) -> Verdict:
    bench.write("f", b"xa" * (MEBIBYTE // 2) + b"b\n")
    wanted = b"x\n" * (MEBIBYTE // 2 - 1) + b"xab\n"
    return Verdict(Answer(wanted), bench.ask("-o", "-E", "-e", "x|xa*b", "-e", "x[ax]*c", "f"))


@case("Each byte but the newline as a fixed string selects the lines that have it.")
def each_byte(bench: Bench) -> Verdict:
    lines = [b"x" + bytes((byte,)) + b"y" for byte in range(256) if byte != 10]
    bench.write("f", b"".join(line + b"\n" for line in lines))
    wanted, given = b"", b""
    for byte in range(256):
        if byte == 10:
            continue
        bench.write("p", bytes((byte, 10)))
        wanted += b"".join(line + b"\n" for line in lines if byte in line)
        given += bench.ask("-F", "-f", "p", "f").out
    return Verdict(Answer(wanted), Answer(given))


@case("Each byte but the newline within brackets is matched by a list that has it.")
def each_byte_in_brackets(bench: Bench) -> Verdict:
    lines = [b"x" + bytes((byte,)) for byte in range(256) if byte != 10]
    bench.write("f", b"".join(line + b"\n" for line in lines))
    wanted, given = b"", b""
    for byte in range(256):
        if byte in b"\n]^-x":
            continue
        bench.write("p", b"x[" + bytes((byte,)) + b"]\n")
        wanted += b"x" + bytes((byte,)) + b"\n"
        given += bench.ask("-f", "p", "f").out
    return Verdict(Answer(wanted), Answer(given))


EACH_BYTE = [bytes((byte,)) for byte in range(256) if byte != 10]
"""Each byte but the newline."""

IN_EACH_LINE = {b"x", b"y", b".", b"^", b"$"}
"""Bytes that as an expression are matched by each line of which a byte is between x and y."""

NO_BASIC = {b"[": "UnclosedBracket", b"\\": "TrailingBackslash"}
"""Bytes that are no basic expression, and why."""

NO_EXTENDED = {
    **NO_BASIC,
    b"(": "UnclosedGroup",
    **dict.fromkeys((b"*", b"+", b"?"), "NothingToRepeat"),
}
"""Bytes that are no extended expression, and why."""


def joined(answers: list[Answer]) -> Answer:
    """Many answers as one, with their statuses among the output."""
    out = b"".join(b"%s(%d)" % (answer.out, answer.status) for answer in answers)
    return Answer(out, b"".join(answer.err for answer in answers))


def answer_alone(byte: bytes, in_each_line: set[bytes], refused_for: dict[bytes, str]) -> Answer:
    """The count that a byte as an expression gives on these lines, or how it is refused."""
    if byte in refused_for:
        return Answer(b"", f"grep: pattern 1: {refused_for[byte]} at 0\n".encode(), 2)
    return Answer(b"255\n" if byte in in_each_line else b"1\n")


def each_byte_alone(
    read_as: str, words: list[str], in_each_line: set[bytes], refused_for: dict[bytes, str]
) -> None:
    """A case of each byte as an expression that is read in this way."""

    @case(f"Each byte but the newline as {read_as} expression is read, or is refused by its name.")
    def judge(bench: Bench) -> Verdict:
        bench.write("f", b"".join(b"x" + byte + b"y\n" for byte in EACH_BYTE))
        given = []
        for byte in EACH_BYTE:
            bench.write("p", byte + b"\n")
            given.append(bench.ask(*words, "-c", "-f", "p", "f"))
        wanted = [answer_alone(byte, in_each_line, refused_for) for byte in EACH_BYTE]
        return Verdict(joined(wanted), joined(given))


each_byte_alone("a basic", [], IN_EACH_LINE, NO_BASIC)
each_byte_alone("an extended", ["-E"], IN_EACH_LINE | {b"|"}, NO_EXTENDED)


def fault_after(byte: bytes, special: dict[bytes, str]) -> str | None:
    """How a backslash with this byte after it is refused, none where it stands for the byte."""
    if byte in special:
        return special[byte]
    if byte in b"123456789":
        return "BackReference"
    return "UndefinedEscape" if byte.isalnum() or byte in b"<>`'" else None


def each_byte_escaped(
    read_as: str, words: list[str], special: dict[bytes, str], in_each_line: set[bytes]
) -> None:
    """A case of a backslash before each byte, as an expression that is read in this way."""

    @case(f"A backslash before each byte but the newline, as {read_as} expression.")
    def judge(bench: Bench) -> Verdict:
        bench.write("f", b"".join(b"x" + byte + b"y\n" for byte in EACH_BYTE))
        wanted, given = [], []
        for byte in EACH_BYTE:
            bench.write("p", b"\\" + byte + b"\n")
            given.append(bench.ask(*words, "-c", "-f", "p", "f"))
            fault = fault_after(byte, special)
            if fault is not None:
                told = f"grep: pattern 1: {fault} at 0\n".encode()
                wanted.append(Answer(b"", told, 2))
            else:
                many = byte in in_each_line
                wanted.append(Answer(b"255\n" if many else b"1\n"))
        return Verdict(joined(wanted), joined(given))


each_byte_escaped(
    "a basic", [],
    {b"(": "UnclosedGroup", b")": "UnopenedGroup", **dict.fromkeys((b"{", b"+", b"?"), "NothingToRepeat")},
    {b"|"})
each_byte_escaped("an extended", ["-E"], {}, set())


@case("Each byte but the newline is one of many strings, and then all of them in order are another.")
def each_byte_among_many(bench: Bench) -> Verdict:
    line = b"".join(EACH_BYTE)
    bench.write("f", line + b"\n" + line[::-1] + b"\n")
    bench.write("p", b"".join(byte + b"\n" for byte in EACH_BYTE))
    single = bench.ask("-F", "-n", "-o", "-f", "p", "f")
    whole = bench.ask("-F", "-n", "-o", "-f", "p", "-f", "f", "f")
    parts = [b"".join(b"%d:%c\n" % (number, byte) for byte in text)
             for number, text in ((1, line), (2, line[::-1]))]
    rows = b"1:" + line + b"\n2:" + line[::-1] + b"\n"
    return Verdict(joined([Answer(b"".join(parts)), Answer(rows)]), joined([single, whole]))


@case("65,535 numbers as strings: their parts, and whole lines that are one.")
def many_numbers(bench: Bench) -> Verdict:
    bench.write("p", b"".join(b"%d\n" % number for number in range(65_535)))
    bench.write("f", b"x65534\n65535\n007\nnone\n65534\n")
    parts = bench.ask("-F", "-n", "-o", "-f", "p", "f")
    whole = bench.ask("-F", "-n", "-x", "-f", "p", "f")
    rows = b"1:65534\n2:6553\n2:5\n3:0\n3:0\n3:7\n5:65534\n"
    return Verdict(joined([Answer(rows), Answer(b"5:65534\n")]), joined([parts, whole]))


@case("Each byte but the newline is a line, which a period matches but for the byte 0.")
def each_byte_as_line(bench: Bench) -> Verdict:
    bench.write("f", b"".join(byte + b"\n" for byte in EACH_BYTE))
    rows = [b"%d:%s\n" % (number, byte) for number, byte in enumerate(EACH_BYTE, start=1)]
    all_rows = bench.ask("-n", "", "f")
    matched = bench.ask("-n", "-x", ".", "f")
    wanted = [Answer(b"".join(rows)), Answer(b"".join(rows[1:]))]
    return Verdict(joined(wanted), joined([all_rows, matched]))


def answer_to_option(byte: bytes) -> Answer:
    """What a command of one word gives, a hyphen with this byte after it."""
    if byte in f"{FLAGS}EF-".encode():
        message = b"grep: no pattern\n"
    elif byte in b"efABC":
        message = b"grep: option -%s needs an argument\n" % byte
    elif byte.isascii():
        message = b"grep: unknown option -%s\n" % byte
    else:
        message = b"grep: words must be UTF-8\n"
    return Answer(b"", message + f"{USAGE}\n".encode(), 2)


@case("Each byte but 0 after a hyphen is an option, or is refused by its name.")
def each_byte_as_option(bench: Bench) -> Verdict:
    letters = [bytes((byte,)) for byte in range(1, 256)]
    given = [bench.ask(b"-" + letter) for letter in letters]
    return Verdict(joined([answer_to_option(letter) for letter in letters]), joined(given))


# Long words and names


@case("A word as long as Linux takes is a pattern, and is found where it is.")
def longest_pattern(bench: Bench) -> Verdict:
    word = b"ab" * (LONGEST_WORD // 2) + b"c"
    given = bench.ask("-n", "-F", word, stdin=word[1:] + b"\nx" + word + b"\n")
    return Verdict(Answer(b"2:x" + word + b"\n"), given)


@case("A word as long as Linux takes is a basic expression of too many positions.")
def longest_expression(bench: Bench) -> Verdict:
    message = b"grep: pattern 1: TooLarge at 0\n"
    return Verdict(Answer(b"", message, 2), bench.ask(b"a" * LONGEST_WORD))


@case("A name as long as Linux takes of a word can't be opened, and is reported whole.")
def longest_name(bench: Bench) -> Verdict:
    name = b"n" * LONGEST_WORD
    wanted = Answer(b"", b"grep: " + name + b": cannot open\n", 2)
    return Verdict(wanted, bench.ask("a", name))


@case("A pattern file of a name as long as Linux takes of a word can't be opened.")
def longest_name_of_patterns(bench: Bench) -> Verdict:
    name = b"n" * (LONGEST_WORD - 2)
    wanted = Answer(b"", b"grep: " + name + b": cannot open\n", 2)
    return Verdict(wanted, bench.ask(b"-f" + name, "f"))


@case("A word of as many options as Linux takes is as one of them.")
def longest_options(bench: Bench) -> Verdict:
    given = bench.ask(b"-" + b"nv" * ((LONGEST_WORD - 1) // 2), "a", stdin=b"a\nb\n")
    return Verdict(Answer(b"2:b\n"), given)


@occur_case("A name of 1 MiB is before each row where there are two files.")
def long_name_in_script(bench: Bench) -> Verdict:
    name = b"n" * MEBIBYTE
    script = b"file %s 2\nab\nb\nfile g 1\na\npatterns 1\na\nmissing %s\nshow\n" % (name, name)
    shown = b"o %s:ab\no g:a\ne grep: %s: cannot open\nstatus 2\n" % (name, name)
    return Verdict(Answer(b"ok\n" * 4 + shown), bench.ask(stdin=script))


@occur_case("A command whose word has 1 MiB is none.")
def long_word_in_script(bench: Bench) -> Verdict:
    script = b"s" * MEBIBYTE + b"\nflag " + b"n" * MEBIBYTE + b" on\nshow\n"
    wanted = Answer(b"refused BadCommand\n" * 2 + b"status 1\n", b"", 1)
    return Verdict(wanted, bench.ask(stdin=script))


@occur_case("A count of 1 MiB of digits is none, and one with this number of zeros before it is.")
def long_count_in_script(bench: Bench) -> Verdict:
    zeros = b"0" * MEBIBYTE
    script = b"file f 1%s\nfile f %s1\nab\npatterns 1\na\nshow\n" % (zeros, zeros)
    wanted = Answer(b"refused BadCommand\n" + b"ok\n" * 2 + b"o ab\nstatus 0\n", b"", 1)
    return Verdict(wanted, bench.ask(stdin=script))


@occur_case("All parts of a line of a mebibyte in a session, each of whose searches goes to its end.")
def parts_of_a_long_line_in_script(bench: Bench) -> Verdict:
    script = b"syntax extended\nflag o on\nfile f 1\n%s\npatterns 1\na|a*[bc]\nshow\n" % (b"a" * MEBIBYTE)
    return Verdict(Answer(b"ok\n" * 4 + b"o a\n" * MEBIBYTE + b"status 0\n"), bench.ask(stdin=script))


@case("A million empty lines are counted, and numbered.")
def empty_lines(bench: Bench) -> Verdict:
    bench.write("f", b"\n" * 1_000_000)
    counts = [bench.ask("-c", pattern, "f").out for pattern in ("^$", "", "a")]
    last = bench.ask("-n", "^$", "f").out[-9:]
    return Verdict(Answer(b"1000000\n1000000\n0\n1000000:\n"), Answer(b"".join(counts) + last))


@case("Lines of each length up to 300 bytes, many times: each is numbered, and so are the empty ones.")
def lines_of_each_length(bench: Bench) -> Verdict:
    lines = [b"x" * length for length in range(301)] * 30
    bench.write("f", b"\n".join(lines) + b"\n")
    rows = [b"%d:%s\n" % (number, line) for number, line in enumerate(lines, 1)]
    wanted = b"".join(rows) + b"".join(rows[::301]) + b"%d\n" % (30 * 300)
    asked = ("-n", ""), ("-n", "^$"), ("-c", "x")
    return Verdict(Answer(wanted), Answer(b"".join(bench.ask(*words, "f").out for words in asked)))


@case("A line of 64 mebibytes is searched, and written whole.")
def long_line(bench: Bench) -> Verdict:
    line = b"ab" * (32 * MEBIBYTE)
    bench.write("f", line + b"c\nc\n" + line)
    given = bench.ask("-n", "abc", "f")
    parts = bench.ask("-o", "b*c", "f")
    wanted = b"1:" + line + b"c\n" + b"bc\nc\n"
    return Verdict(Answer(wanted), Answer(given.out + parts.out, given.err, given.status))


def want_memory(size: int) -> None:
    """Gives a case up where this much memory is not there."""
    text = Path("/proc/meminfo").read_text(encoding="ascii")
    free = next(line for line in text.splitlines() if line.startswith("MemAvailable:"))
    if int(free.split()[1]) * 1024 < size:
        raise Skipped(f"less than {size >> 20} MiB of memory are there")


@case("A line of 1 GiB without a newline is counted, and is found under `-q`.")
def longest_line(bench: Bench) -> Verdict:
    want_memory(6 * GIBIBYTE)
    bench.write("f", b"ab\n")
    os.truncate(bench.folder / "f", GIBIBYTE)
    with (bench.folder / "f").open("ab") as file:
        file.write(b"b")
    given = [bench.ask("-c", "b", "f"), bench.ask("-q", "-v", "a", "f")]
    return Verdict(joined([Answer(b"2\n"), Answer()]), joined(given))


@case("Stars around stars on a long line take no time.")
def nested_stars(bench: Bench) -> Verdict:
    bench.write("f", b"a" * 100_000 + b"\n")
    pattern = "(" * 20 + "a*" + ")*" * 20 + "[bc]"
    return Verdict(Answer(b"", b"", 1), bench.ask("-E", pattern, "f"))
