"""Cases of grep on real devices, which no row of plain data can set up: folders, full and failing
devices, pipes, terminals, streams that stay open, and the surroundings of a process. They need Linux.
"""

from __future__ import annotations

import os
import pty
import resource
import tty
from functools import partial

from program import Answer, Bench, Cases, Skipped, Verdict, all_of, finish
from samples import (
    CANNOT_OPEN,
    DEEP,
    DEEP_ENDS,
    DEEP_HEADS,
    DEEP_REPEATS,
    INPUT_READ_ERROR,
    TWO_LINES,
    WRITE_ERROR,
)
from streams import (
    failing_input,
    feed_named_pipe,
    feed_slowly,
    full_device,
    opened,
    pipe_without_reader,
    seen_within,
    with_little_stack,
    with_room,
)

case = Cases("grep", "devices.py")
cases = all_of(case)
"""All cases of this file."""


# Folders and files that can't be read


@case("A folder as a file is a read error, counts no line, and the search goes on after it.")
def folder_between_files(bench: Bench) -> Verdict:
    bench.write("f", TWO_LINES)
    (bench.folder / "d").mkdir()
    wanted = Answer(b"f:2\nd:0\nf:2\n", b"grep: d: read error\n", 2)
    return Verdict(wanted, bench.ask("-c", "a", "f", "d", "f"))


@case("A folder that can't be read is between two groups of lines around, and adds nothing.")
def folder_between_groups(bench: Bench) -> Verdict:
    bench.write("f", b"a\nb\nc\n")
    (bench.folder / "d").mkdir()
    wanted = Answer(b"f:a\nf-b\n--\nf:a\nf-b\n", b"grep: d: read error\n", 2)
    return Verdict(wanted, bench.ask("-A", "1", "a", "f", "d", "f"))


@case("A folder has no selected line under `-v` either.")
def folder_has_no_line(bench: Bench) -> Verdict:
    (bench.folder / "d").mkdir()
    return Verdict(Answer(b"", b"grep: d: read error\n", 2), bench.ask("-v", "a", "d"))


@case("`-s` silences the read error of a folder, and the exit status stays 2.")
def folder_silenced(bench: Bench) -> Verdict:
    bench.write("f", TWO_LINES)
    (bench.folder / "d").mkdir()
    return Verdict(Answer(b"f:a\nf:ba\n", b"", 2), bench.ask("-s", "a", "d", "f"))


@case("Under `-q` a folder before a selected line is reported, and the exit status is 0.")
def folder_before_selected_line(bench: Bench) -> Verdict:
    bench.write("f", TWO_LINES)
    (bench.folder / "d").mkdir()
    return Verdict(Answer(b"", b"grep: d: read error\n", 0), bench.ask("-q", "a", "d", "f"))


@case("Under `-q` a folder after a selected line is not read.")
def folder_after_selected_line(bench: Bench) -> Verdict:
    bench.write("f", TWO_LINES)
    (bench.folder / "d").mkdir()
    return Verdict(Answer(), bench.ask("-q", "a", "f", "d"))


@case("A folder as a pattern file is a read error that `-s` does not silence, and ends the run.")
def folder_as_pattern_file(bench: Bench) -> Verdict:
    bench.write("f", TWO_LINES)
    (bench.folder / "d").mkdir()
    wanted = Answer(b"", b"grep: d: read error\n", 2)
    return Verdict(wanted, bench.ask("-s", "-e", "a", "-f", "d", "f"))


@case("A folder as standard input is a read error of standard input.")
def folder_as_input(bench: Bench) -> Verdict:
    with opened(bench.folder) as folder:
        return Verdict(Answer(b"", INPUT_READ_ERROR, 2), bench.ask("a", stdin=folder))


@case("A file that is named with a slash at the end can't be opened.")
def file_named_as_folder(bench: Bench) -> Verdict:
    bench.write("f", TWO_LINES)
    return Verdict(Answer(b"", b"grep: f/: cannot open\n", 2), bench.ask("a", "f/"))


@case("A file that may not be read can't be opened.")
def unreadable_file(bench: Bench) -> Verdict:
    if os.geteuid() == 0:
        raise Skipped("root may read every file, in any mode")
    bench.write("u", TWO_LINES)
    (bench.folder / "u").chmod(0)
    return Verdict(Answer(b"", b"grep: u: cannot open\n", 2), bench.ask("a", "u"))


@case("A symbolic link is the file to which it leads, by its own name.")
def symbolic_link(bench: Bench) -> Verdict:
    bench.write("f", TWO_LINES)
    (bench.folder / "link").symlink_to("f")
    return Verdict(Answer(b"link:2\nf:2\n"), bench.ask("-c", "a", "link", "f"))


@case("A symbolic link that leads nowhere can't be opened.")
def dangling_link(bench: Bench) -> Verdict:
    (bench.folder / "link").symlink_to("nofile")
    return Verdict(Answer(b"", b"grep: link: cannot open\n", 2), bench.ask("a", "link"))


one_file_open = partial(resource.setrlimit, resource.RLIMIT_NOFILE, (4, 4))
"""Leaves a process room for one open file beside its three streams."""


@case("2,000 files are counted, listed, and searched for lines, while one may be open at once.")
def files_in_turn(bench: Bench) -> Verdict:
    names = [f"f{number}" for number in range(2000)]
    for name in names:
        bench.write(name, f"{name}\na\n".encode())
    for option, row in ("-c", "{0}:1\n"), ("-l", "{0}\n"), ("-n", "{0}:1:{0}\n"):
        wanted = Answer("".join(row.format(name) for name in names).encode())
        given = bench.ask(option, "f", *names, preexec_fn=one_file_open)
        if given != wanted:
            break
    return Verdict(wanted, given)


@case("2,000 pattern files are read while one may be open at once.")
def pattern_files_in_turn(bench: Bench) -> Verdict:
    for number in range(2000):
        bench.write(f"p{number}", b"a%d\n" % number)
    bench.write("f", b"b0\na1999\nx\n")
    named = [word for number in range(2000) for word in ("-f", f"p{number}")]
    return Verdict(Answer(b"2:a1999\n"), bench.ask("-n", "-x", *named, "f", preexec_fn=one_file_open))


# Reads that fail, come late or come in pieces


def broken_input(name: str, words: list[str], content: bytes, wanted: Answer) -> None:
    """A case of standard input that fails after this content."""

    def judge(bench: Bench) -> Verdict:
        bench.write("f", TWO_LINES)
        with failing_input(content) as handle:
            return Verdict(wanted, bench.ask(*words, stdin=handle))

    case(name)(judge)


for read, lines in enumerate((0, 0, 0, 1, 1, 1)):
    broken_input(
        f"Standard input fails after {read} of its bytes: whole lines searched before are {lines}.",
        ["-c", "."], b"ab\ncd"[:read], Answer(b"%d\n" % lines, INPUT_READ_ERROR, 2))
broken_input(
    "A line that is unfinished when a read fails is not searched.",
    ["-n", ""], b"ab\na", Answer(b"1:ab\n", INPUT_READ_ERROR, 2))
broken_input(
    "Behind an input whose read fails the next file is searched.",
    ["-c", "a", "-", "f"], b"ab\na", Answer(b"(standard input):1\nf:2\n", INPUT_READ_ERROR, 2))
broken_input(
    "`-s` silences a failed read of standard input.",
    ["-s", "a"], b"ab\na", Answer(b"ab\n", b"", 2))
broken_input(
    "Under `-q` a selected line before the failed read gives 0, and nothing is reported.",
    ["-q", "a"], b"ab\na", Answer())
broken_input(
    "Under `-q` a failed read without a selected line gives 2.",
    ["-q", "-v", "a"], b"ab\na", Answer(b"", INPUT_READ_ERROR, 2))
broken_input(
    "Under `-l` a file is left at its selected line, before the read that would fail.",
    ["-l", "a"], b"ab\na", Answer(b"(standard input)\n"))
broken_input(
    "Under `-l` a file whose read fails before a selected line has no name written.",
    ["-l", "-v", "a"], b"ab\na", Answer(b"", INPUT_READ_ERROR, 2))
broken_input(
    "Patterns from standard input that fails are not used.",
    ["-s", "-f", "-", "f"], b"a\nb", Answer(b"", INPUT_READ_ERROR, 2))


@case("Lines are the same where each read gives one byte.")
def slow_input(bench: Bench) -> Verdict:
    process = bench.start("-n", "b")
    feed_slowly(process.stdin.fileno(), b"b\nab\nB\n")
    return Verdict(Answer(b"1:b\n2:ab\n"), finish(process))


def open_input(name: str, words: list[str], content: bytes, wanted: Answer) -> None:
    """A case of standard input that stays open after this content: a program that reads on would
    wait for ever."""

    def judge(bench: Bench) -> Verdict:
        reader, writer = os.pipe()
        try:
            os.write(writer, content)
            return Verdict(wanted, bench.ask(*words, stdin=reader))
        finally:
            os.close(reader)
            os.close(writer)

    case(name)(judge)


open_input("Under `-q` nothing is read after the first selected line.", ["-q", "a"], b"a\n", Answer())
open_input(
    "Under `-q` with `-v` nothing is read after the first line that is not matched.",
    ["-q", "-v", "a"], b"a\na\nb\nc", Answer())
open_input(
    "Under `-l` nothing is read after the first selected line.",
    ["-l", "a"], b"b\na\n", Answer(b"(standard input)\n"))
open_input(
    "A pattern that is refused is reported without a read of standard input.",
    ["["], b"", Answer(b"", b"grep: pattern 1: UnclosedBracket at 0\n", 2))
open_input(
    "Standard input is not read where a file is named.",
    ["-c", "", "/dev/null"], b"a\n", Answer(b"0\n", b"", 1))


@case("Standard input is read from where it is.")
def input_at_a_place(bench: Bench) -> Verdict:
    bench.write("f", b"a\nb\nc\n")
    with opened(bench.folder / "f") as handle:
        os.lseek(handle, 2, os.SEEK_SET)
        return Verdict(Answer(b"1:b\n2:c\n"), bench.ask("-n", "", stdin=handle))


@case("Standard input that is a file is empty from its second use on, too.")
def file_as_input_twice(bench: Bench) -> Verdict:
    bench.write("f", TWO_LINES)
    with opened(bench.folder / "f") as handle:
        given = bench.ask("-c", "a", "-", "f", "-", stdin=handle)
    return Verdict(Answer(b"(standard input):2\nf:2\n(standard input):0\n"), given)


@case("A named pipe is read as a file is.")
def named_pipe(bench: Bench) -> Verdict:
    feed_named_pipe(bench.folder / "p", b"b\na\n")
    return Verdict(Answer(b"2:a\n"), bench.ask("-n", "a", "p"))


@case("A pattern file may be a named pipe.")
def named_pipe_of_patterns(bench: Bench) -> Verdict:
    feed_named_pipe(bench.folder / "p", b"b\na\n")
    return Verdict(Answer(b"a\nb\n"), bench.ask("-x", "-f", "p", stdin=b"a\nab\nb\n"))


# Writes that fail


def full_output(name: str, words: list[str], content: bytes, wanted: Answer) -> None:
    """A case of standard output each write to which fails."""

    def judge(bench: Bench) -> Verdict:
        with full_device() as full:
            return Verdict(wanted, bench.ask(*words, stdin=content, stdout=full))

    case(name)(judge)


full_output(
    "Standard output that can't be written is reported with status 2.",
    ["b"], b"b\n", Answer(b"", WRITE_ERROR, 2))
full_output(
    "A count that can't be written is a write error, though no line is selected.",
    ["-c", "b"], b"a\n", Answer(b"", WRITE_ERROR, 2))
full_output(
    "A file's name that can't be written is a write error.",
    ["-l", "b"], b"b\n", Answer(b"", WRITE_ERROR, 2))
full_output(
    "A write fails in the midst of much output.",
    ["b"], b"a long line with b\n" * 50_000, Answer(b"", WRITE_ERROR, 2))
full_output(
    "Under `-q` nothing is written, so that no write fails.",
    ["-q", "b"], b"b\n", Answer())
full_output(
    "Where no line is selected nothing is written, and no write fails.",
    ["b"], b"a\n", Answer(b"", b"", 1))
full_output(
    "A missing file is reported before the write error.",
    ["b", "nofile", "-"], b"b\n", Answer(b"", CANNOT_OPEN + WRITE_ERROR, 2))


def small_output(room: int) -> None:
    """A case of standard output that takes a number of bytes."""
    rows = b"b\nab\n"
    wanted = Answer(rows) if room == len(rows) else Answer(rows[:room], WRITE_ERROR, 2)

    @case(f"Standard output takes {room} bytes: a beginning of the output is there.")
    def judge(bench: Bench) -> Verdict:
        with (bench.folder / "out").open("wb") as out:
            given = bench.ask("b", stdin=b"b\nab\nB\n", stdout=out, preexec_fn=with_room(room))
        written = (bench.folder / "out").read_bytes()
        return Verdict(wanted, Answer(written, given.err, given.status))


for room_of_output in (0, 1, 3, 4, 5):
    small_output(room_of_output)


@case("A pipe whose reader is gone is a write error with status 2, and no signal ends the program.")
def reader_gone(bench: Bench) -> Verdict:
    with pipe_without_reader() as pipe:
        given = bench.ask("b", stdin=b"b\n", stdout=pipe)
    return Verdict(Answer(b"", WRITE_ERROR, 2), given)


@case("A reader that leaves after the first line is a write error.")
def reader_leaves(bench: Bench) -> Verdict:
    bench.write("f", b"a line of sixteen\n" * 100_000)
    process = bench.start("a", "f")
    first = os.read(process.stdout.fileno(), 18)
    process.stdout.close()
    rest = finish(process)
    given = Answer(first, rest.err, rest.status)
    return Verdict(Answer(b"a line of sixteen\n", WRITE_ERROR, 2), given)


@case("A reader that is gone ends grep at the next selected line, though the input stays open.")
def reader_gone_before_more_input(bench: Bench) -> Verdict:
    process = bench.start("b")
    process.stdout.close()
    os.write(process.stdin.fileno(), b"b\n")
    messages = seen_within(process.stderr.fileno(), len(WRITE_ERROR))
    return Verdict(Answer(b"", WRITE_ERROR, 2), Answer(b"", messages, finish(process).status))


@case("Under `-q` a reader that is gone is not noticed.")
def reader_gone_under_quiet(bench: Bench) -> Verdict:
    with pipe_without_reader() as pipe:
        return Verdict(Answer(), bench.ask("-q", "b", stdin=b"b\n", stdout=pipe))


# Messages that can't be written


def full_messages(name: str, words: list[str | bytes], wanted: Answer) -> None:
    """A case of standard error each write to which fails."""

    def judge(bench: Bench) -> Verdict:
        bench.write("f", TWO_LINES)
        with full_device() as full:
            return Verdict(wanted, bench.ask(*words, stderr=full))

    case(name)(judge)


full_messages(
    "A message that can't be written gives status 2, and the output before it is sent.",
    ["-c", "a", "f", "nofile"], Answer(b"f:2\n", b"", 2))
full_messages(
    "A message that can't be written ends the run.",
    ["-c", "a", "nofile", "f"], Answer(b"", b"", 2))
full_messages(
    "Under `-s` there is no message, so that a full standard error is not noticed.",
    ["-s", "-c", "a", "nofile", "f"], Answer(b"f:2\n", b"", 2))
full_messages(
    "Without a message a full standard error changes nothing.", ["-c", "a", "f"], Answer(b"2\n"))
full_messages("A fault of words that can't be reported gives status 2.", ["-z"], Answer(b"", b"", 2))
full_messages(
    "A pattern's fault that can't be reported gives status 2.", ["[", "f"], Answer(b"", b"", 2))
full_messages(
    "A missing pattern file that can't be reported gives status 2.",
    ["-f", "nofile", "f"], Answer(b"", b"", 2))
full_messages(
    "Words that are not UTF-8 and can't be reported give status 2.", [b"\xff"], Answer(b"", b"", 2))


@case("Output and messages that can't be written give status 2.")
def all_full(bench: Bench) -> Verdict:
    with full_device() as full:
        given = bench.ask("a", "-", "nofile", stdin=b"a\n", stdout=full, stderr=full)
    return Verdict(Answer(b"", b"", 2), given)


def small_messages(room: int) -> None:
    """A case of standard error that takes a number of bytes."""

    @case(f"Standard error takes {room} bytes: a beginning of the message is there.")
    def judge(bench: Bench) -> Verdict:
        bench.write("f", TWO_LINES)
        with (bench.folder / "err").open("wb") as err:
            words = ["-c", "a", "f", "nofile"]
            given = bench.ask(*words, stderr=err, preexec_fn=with_room(room))
        written = (bench.folder / "err").read_bytes()
        wanted = Answer(b"f:2\n", CANNOT_OPEN[:room], 2)
        return Verdict(wanted, Answer(given.out, written, given.status))


for room_of_messages in (1, 25, 26):
    small_messages(room_of_messages)


# Memory


@case("A line that does not fit into memory is reported, and the lines before it are written.")
def line_too_long_for_memory(bench: Bench) -> Verdict:
    bench.write("f", b"b\na\n")
    os.truncate(bench.folder / "f", 1 << 29)
    little_memory = partial(resource.setrlimit, resource.RLIMIT_AS, (1 << 27, 1 << 27))
    given = bench.ask("-n", "a", "f", preexec_fn=little_memory)
    return Verdict(Answer(b"2:a\n", b"grep: out of memory\n", 2), given)


# A little stack


def ask_deep(bench: Bench, *words: str, stdin: bytes) -> Answer:
    """What grep answers with a stack of 128 KB, on which nothing of the surroundings is."""
    return bench.ask(*words, stdin=stdin, env={}, preexec_fn=with_little_stack)


def deep(name: str, words: list[str], *lines: tuple[bool, str]) -> None:
    """A case of patterns of 256 levels, and of lines, each with whether it is matched as a whole."""

    @case(f"A stack of 128 KB is enough for {name}.")
    def judge(bench: Bench) -> Verdict:
        text = "".join(f"{line}\n" for _, line in lines)
        wanted = [f"{number}:{line}\n" for number, (matched, line) in enumerate(lines, 1) if matched]
        given = ask_deep(bench, "-n", "-x", *words, stdin=text.encode())
        return Verdict(Answer("".join(wanted).encode()), given)


def basic(pattern: str) -> str:
    """The basic pattern that is an extended one's."""
    return "".join("\\" * (byte in "()|+?{}") + byte for byte in pattern)


LETTERS = ((True, "a"), (False, ""), (False, "b"), (False, "aa"))
ENDS = ((True, "c" + "b" * 255), (False, "c" + "b" * 256), (True, "a" + "b" * 256), (False, "a" + "b" * 255))
HEADS = tuple((matched, line[::-1]) for matched, line in ENDS)
REPEATS = ((True, ""), (True, "bcb"), (True, "a" + "b" * 128), (False, "a" + "b" * 127))

for syntax, option, written in (("extended", ["-E"], str), ("basic", [], basic)):
    deep(f"groups of one item, {syntax}", [*option, written(DEEP)], *LETTERS)
    deep(f"choices that go on after a group, {syntax}", [*option, written(DEEP_ENDS)], *ENDS)
    deep(f"choices that go on before a group, {syntax}", [*option, written(DEEP_HEADS)], *HEADS)
    deep(f"repeated choices, {syntax}", [*option, written(DEEP_REPEATS)], *REPEATS)
    deep(f"letters of either case, {syntax}", [*option, "-i", written(DEEP_ENDS)],
         *((matched, line.upper()) for matched, line in ENDS))
    deep(f"several patterns, {syntax}",
         [*option, *(word for one in (DEEP, DEEP_ENDS, DEEP_HEADS) for word in ("-e", written(one)))],
         (True, "a"), *ENDS, *HEADS, (False, "aa"))
    for times, none, many in (
        ("*", True, True), ("+", False, True), ("?", True, False), ("{1}", False, False),
        ("{1,}", False, True), ("{0,1}", True, False),
    ):
        deep(f"256 duplications {times}, {syntax}", [*option, written("a" + times * 256)],
             (none, ""), (True, "a"), (many, "aaa"), (False, "b"))
deep("a fixed string, with letters of either case", ["-F", "-i", DEEP_ENDS],
     (True, DEEP_ENDS.upper()), (False, "c"))


@case("A stack of 128 KB is enough for the parts of a pattern of 256 levels.")
def deep_parts(bench: Bench) -> Verdict:
    given = ask_deep(bench, "-o", "-E", DEEP_ENDS, stdin=b"abbcbbxc\nab\n")
    return Verdict(Answer(b"cbb\nc\n"), given)


@case("A stack of 128 KB is enough to refuse a pattern of 257 levels.")
def too_deep(bench: Bench) -> Verdict:
    given = ask_deep(bench, "-E", f"({DEEP})", stdin=b"a\n")
    return Verdict(Answer(b"", b"grep: pattern 1: TooDeep at 256\n", 2), given)


# Terminals


@case("On a terminal a selected line is seen before the input ends.")
def terminal_as_output(bench: Bench) -> Verdict:
    ours, theirs = pty.openpty()
    tty.setraw(theirs)
    try:
        process = bench.start("b", stdout=theirs)
        os.write(process.stdin.fileno(), b"a\nab\n")
        first = seen_within(ours, 3)
        rest = finish(process, b"c\nb\n")
        second = seen_within(ours, 2)
    finally:
        os.close(theirs)
        os.close(ours)
    seen = [b"ab\n", b"b\n"]
    wanted = Answer(b" then ".join(seen), b"", 0)
    return Verdict(wanted, Answer(b" then ".join((first, second)), rest.err, rest.status))


@case("A terminal as standard input is read up to its end of file.")
def terminal_as_input(bench: Bench) -> Verdict:
    ours, theirs = pty.openpty()
    try:
        os.write(ours, b"a\nba\nb\n\x04")
        given = bench.ask("-n", "a", stdin=theirs)
    finally:
        os.close(theirs)
        os.close(ours)
    return Verdict(Answer(b"1:a\n2:ba\n"), given)


# The surroundings of the process


@case("The locale of the surroundings changes nothing: a letter of two bytes is two characters.")
def other_locale(bench: Bench) -> Verdict:
    surroundings = {**os.environ, "LC_ALL": "C.UTF-8", "LANG": "C.UTF-8"}
    given = bench.ask("-o", ".", stdin="é\n".encode(), env=surroundings)
    return Verdict(Answer(b"\xc3\n\xa9\n"), given)


@case("Variables that other greps know change nothing.")
def other_variables(bench: Bench) -> Verdict:
    bench.write("f", TWO_LINES)
    surroundings = {**os.environ, "GREP_OPTIONS": "-v", "GREP_COLOR": "1", "POSIXLY_CORRECT": "1"}
    return Verdict(Answer(b"1:a\n2:ba\n"), bench.ask("a", "f", "-n", env=surroundings))


@case("No variable is needed.")
def no_variables(bench: Bench) -> Verdict:
    return Verdict(Answer(b"a\n"), bench.ask("a", stdin=b"a\nb\n", env={}))


@case("Messages begin with `grep:` by any name of the program.")
def other_name(bench: Bench) -> Verdict:
    return Verdict(Answer(b"", CANNOT_OPEN, 2), bench.ask("a", "nofile", called="search"))


@case("Ten thousand words give five thousand patterns.")
def many_words(bench: Bench) -> Verdict:
    words = [word for number in range(5_000) for word in ("-e", f"word{number}x")]
    given = bench.ask("-n", *words, stdin=b"word5000x\nword4999x\nword49\nword0x\n")
    return Verdict(Answer(b"2:word4999x\n4:word0x\n"), given)
