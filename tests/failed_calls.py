"""Cases of both programs of whose calls of the system one fails: each read, write and open in turn,
with several errors. What failed is reported, and is not tried again. They need Linux and a C compiler.

An opening that a signal broke off is made again by std, before the program hears of it.
"""

from __future__ import annotations

import errno
import os
import shutil
from dataclasses import dataclass
from pathlib import Path

from preload import build_library, compiler
from program import Answer, Bench, Cases, Skipped, Verdict, all_of
from samples import (
    CANNOT_OPEN,
    REPLIES,
    REPLY_WRITE_ERROR,
    SCRIPT,
    SCRIPT_READ_ERROR,
    TWO_LINES,
    WRITE_ERROR,
)

ERRORS = {
    "read": (errno.EINTR, errno.EAGAIN, errno.EIO),
    "write": (errno.EINTR, errno.EAGAIN, errno.EIO, errno.ENOSPC),
    "open": (errno.EMFILE, errno.EIO, errno.ENOMEM),
}
"""The errors of each kind of call: a signal came, nothing can be moved now, the device failed, it
is full, too many files are open, out of memory."""

grep_case = Cases("grep", "failed_calls.py")
occur_case = Cases("occur", "failed_calls.py")
cases = all_of(grep_case, occur_case)
"""All cases of this file."""


@dataclass(frozen=True)
class Run:
    """A kind of call, which is read, write or open, and the run in which such calls fail."""

    call: str
    words: list[str]
    stdin: bytes = b""


@dataclass(frozen=True)
class Call:
    """A call as the log has it: its name, whether it failed, and its handle or the file's name."""

    name: str
    failed: bool
    subject: str


def calls_of(log: Path) -> list[Call]:
    """The calls that a run made."""
    if not log.exists():
        return []
    lines = (line.split(" ", 2) for line in log.read_text(encoding="latin-1").splitlines())
    return [Call(name, end == "failed", subject) for name, end, subject in lines]


def made_again(calls: list[Call]) -> list[Call]:
    """The calls that were made once more on what they had failed on. A handle is another file's
    once a file is opened."""
    failed: set[tuple[str, str]] = set()
    again = []
    for call in calls:
        if (call.name, call.subject) in failed:
            again.append(call)
        if call.name == "open":
            failed = {(name, subject) for name, subject in failed if name != "read"}
        if call.failed:
            failed.add((call.name, call.subject))
    return again


def with_failed_call(bench: Bench, run: Run, at: int, error: int) -> tuple[Answer, bool]:
    """Runs the program while its call of this number fails; whether one did. Calls that were made
    again are added to the messages."""
    log = bench.folder / "log"
    log.unlink(missing_ok=True)
    failure = {"FAIL_CALL": run.call, "FAIL_AT": str(at), "FAIL_WITH": str(error)}
    library = {"FAIL_LOG": str(log), "LD_PRELOAD": str(bench.folder / "refuse.so")}
    given = bench.ask(*run.words, stdin=run.stdin, env={**os.environ, **failure, **library})
    calls = calls_of(log)
    again = b"".join(f"made again: {call}".encode() for call in made_again(calls))
    answer = Answer(given.out, given.err + again, given.status)
    return answer, any(call.failed for call in calls)


def failing(case: Cases, name: str, run: Run, wanted: list[Answer]) -> None:
    """A case of a run whose first call of its kind fails, then its second, and so on; what is
    wanted of each. There are no more such calls."""

    @case(name)
    def judge(bench: Bench) -> Verdict:
        if shutil.which(compiler()) is None:
            raise Skipped("there is no C compiler")
        build_library("fail_call.c", bench.folder)
        bench.write("f", TWO_LINES)
        bench.write("g", b"ab\nca\nb\n")
        bench.write("script", SCRIPT)
        for error in ERRORS[run.call]:
            for at, answer in enumerate(wanted, start=1):
                given, failed = with_failed_call(bench, run, at, error)
                if given != answer or not failed:
                    return Verdict(answer, given)
        given, failed = with_failed_call(bench, run, len(wanted) + 1, errno.EIO)
        return Verdict(Answer(), Answer(b"more calls" if failed else b""))


def read_error(name: str) -> bytes:
    """The message on an input of which a read failed."""
    return b"grep: %s: read error\n" % name.encode()


failing(
    grep_case, "A read that fails, first or at the end of a file, is reported and not tried again.",
    Run("read", ["-c", "a", "f", "-", "g"], b"a\nb\n"),
    [
        Answer(b"f:0\n(standard input):1\ng:2\n", read_error("f"), 2),
        Answer(b"f:2\n(standard input):1\ng:2\n", read_error("f"), 2),
        Answer(b"f:2\n(standard input):0\ng:2\n", read_error("(standard input)"), 2),
        Answer(b"f:2\n(standard input):1\ng:2\n", read_error("(standard input)"), 2),
        Answer(b"f:2\n(standard input):1\ng:0\n", read_error("g"), 2),
        Answer(b"f:2\n(standard input):1\ng:2\n", read_error("g"), 2),
    ])
failing(
    grep_case, "A read of a pattern file that fails ends the run, and is not tried again.",
    Run("read", ["-f", "g", "f"]),
    [
        Answer(b"", read_error("g"), 2),
        Answer(b"", read_error("g"), 2),
        Answer(b"", read_error("f"), 2),
        Answer(b"ba\n", read_error("f"), 2),
    ])
failing(
    grep_case, "A write that fails ends the run, and is not tried again.",
    Run("write", ["-c", "a", "f", "nofile", "g"]),
    [
        Answer(b"", WRITE_ERROR, 2),
        Answer(b"f:2\n", b"", 2),
        Answer(b"f:2\n", CANNOT_OPEN + WRITE_ERROR, 2),
    ])
failing(
    grep_case, "A file whose opening fails can't be opened, and is not opened again.",
    Run("open", ["-c", "a", "f", "g"]),
    [
        Answer(b"g:2\n", b"grep: f: cannot open\n", 2),
        Answer(b"f:2\n", b"grep: g: cannot open\n", 2),
    ])
failing(
    grep_case, "A pattern file whose opening fails ends the run, and is not opened again.",
    Run("open", ["-f", "g", "f"]),
    [
        Answer(b"", b"grep: g: cannot open\n", 2),
        Answer(b"", b"grep: f: cannot open\n", 2),
    ])
failing(
    occur_case, "A read of a script that fails is reported, and is not tried again.",
    Run("read", [], SCRIPT),
    [Answer(b"", SCRIPT_READ_ERROR, 2), Answer(REPLIES, SCRIPT_READ_ERROR, 2)])
failing(
    occur_case, "A read of a script that is named and fails is reported, and is not tried again.",
    Run("read", ["script"]),
    [Answer(b"", SCRIPT_READ_ERROR, 2), Answer(REPLIES, SCRIPT_READ_ERROR, 2)])
failing(
    occur_case, "A write of replies that fails ends the run, and is not tried again.",
    Run("write", [], SCRIPT), [Answer(b"", REPLY_WRITE_ERROR, 2)])
failing(
    occur_case, "A message of occur of which a write fails is not written again.",
    Run("write", ["nofile"]),
    [
        Answer(b"", said, 2)
        for said in (b"", b"occur: ", b"occur: nofile", b"occur: nofile:",
                     b"occur: nofile: cannot open")
    ])
failing(
    occur_case, "A script whose opening fails can't be opened, and is not opened again.",
    Run("open", ["script"]), [Answer(b"", b"occur: script: cannot open\n", 2)])
