"""Cases of both programs whose input is the file to which they write. They need Linux."""

from __future__ import annotations

import os

from program import Answer, Bench, Cases, Verdict, all_of
from samples import SCRIPT, SCRIPT_READ_ERROR, TWO_LINES
from streams import opened

grep_case = Cases("grep", "same_file.py")
occur_case = Cases("occur", "same_file.py")
cases = all_of(grep_case, occur_case)
"""All cases of this file."""


def appended(bench: Bench, words: list[str], content: bytes, as_input: bool = False) -> Answer:
    """Runs the program on a file `both` of this content, to whose end standard output goes and which
    may be standard input too. What it wrote is what then is after the content."""
    bench.write("both", content)
    with (
        opened(bench.folder / "both", os.O_WRONLY | os.O_APPEND) as output,
        opened(bench.folder / "both" if as_input else os.devnull) as standard_input,
    ):
        given = bench.ask(*words, stdin=standard_input, stdout=output)
    written = (bench.folder / "both").read_bytes()
    added = written[len(content) :] if written.startswith(content) else b"overwritten: " + written
    return Answer(added, given.err, given.status)


def read_error(name: str) -> bytes:
    """The message on an input that is not read."""
    return b"grep: %s: read error\n" % name.encode()


def grep_of_both(
    name: str, words: list[str], wanted: Answer, *, as_input: bool = False
) -> None:
    """A case of grep, in a folder with a file `f` of one line `a` and another name of `both`."""

    def judge(bench: Bench) -> Verdict:
        bench.write("f", b"a\n")
        (bench.folder / "link").symlink_to("both")
        return Verdict(wanted, appended(bench, words, TWO_LINES, as_input))

    grep_case(name)(judge)


grep_of_both(
    "A file that is standard output too is a read error, and none of it is read.",
    ["a", "both"], Answer(b"", read_error("both"), 2))
grep_of_both(
    "Files before and after the one that is standard output are searched.",
    ["a", "f", "both", "f"], Answer(b"f:a\nf:a\n", read_error("both"), 2))
grep_of_both(
    "The file that is standard output is known by another name.",
    ["-n", "a", "./link"], Answer(b"", read_error("./link"), 2))
grep_of_both(
    "Standard input that is standard output too is a read error.",
    ["a"], Answer(b"", read_error("(standard input)"), 2), as_input=True)
grep_of_both(
    "`-v`, `-o` and `-x` read the file that is standard output no more than others.",
    ["-vxo", "a", "both"], Answer(b"", read_error("both"), 2))
grep_of_both(
    "`-s` silences the read error of the file that is standard output.",
    ["-s", "a", "both"], Answer(b"", b"", 2))
grep_of_both(
    "Under `-c` the file that is standard output is read: its count goes out after that.",
    ["-c", "a", "both"], Answer(b"2\n"))
grep_of_both(
    "Under `-l` the file that is standard output is read up to its first selected line.",
    ["-l", "a", "both"], Answer(b"both\n"))
grep_of_both(
    "Under `-q` the file that is standard output is read: nothing is written.",
    ["-q", "a", "both"], Answer())
grep_of_both(
    "A pattern file may be standard output: it is read before a row is written.",
    ["-f", "both", "f"], Answer(b"a\n"))
grep_of_both(
    "Standard input as a pattern file may be standard output.",
    ["-f", "-", "f"], Answer(b"a\n"), as_input=True)
grep_of_both(
    "A file that is a pattern file and standard output is not searched.",
    ["-f", "both", "f", "both"], Answer(b"f:a\n", read_error("both"), 2))


grep_of_both(
    "Standard input that is two pattern files is two, and a file after them is not searched.",
    ["-f", "-", "-f", "-", "both"], Answer(b"", read_error("both"), 2))


@grep_case("A device may be input and output at once.")
def device_is_both(bench: Bench) -> Verdict:
    with opened(os.devnull, os.O_RDWR) as device:
        given = bench.ask("a", "-", os.devnull, stdin=device, stdout=device)
    return Verdict(Answer(b"", b"", 1), given)


@grep_case("Of two files with the same content the one that is not standard output is searched.")
def equal_content(bench: Bench) -> Verdict:
    bench.write("f", TWO_LINES)
    return Verdict(Answer(b"a\nba\n"), appended(bench, ["a", "f"], TWO_LINES))


# Scripts of occur: the replies, read as commands, would be refused for ever


@occur_case("A script that is standard output too is a read error, and none of it is read.")
def script_is_output(bench: Bench) -> Verdict:
    return Verdict(Answer(b"", SCRIPT_READ_ERROR, 2), appended(bench, ["both"], SCRIPT))


@occur_case("A script on standard input that is standard output too is a read error.")
def input_is_output(bench: Bench) -> Verdict:
    wanted = Answer(b"", SCRIPT_READ_ERROR, 2)
    return Verdict(wanted, appended(bench, [], SCRIPT, as_input=True))
