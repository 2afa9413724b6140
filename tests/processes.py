"""Cases of both programs as processes: streams that are closed, signals, and terminals that go away
while they run. They need Linux.
"""

from __future__ import annotations

import os
import pty
import signal
import time
import tty

from program import Answer, Bench, Cases, Verdict, all_of, finish
from samples import (
    INPUT_READ_ERROR,
    REPLIES,
    REPLY_WRITE_ERROR,
    SCRIPT,
    SCRIPT_READ_ERROR,
    TWO_LINES,
    WRITE_ERROR,
)
from streams import seen_within

grep_case = Cases("grep", "processes.py")
occur_case = Cases("occur", "processes.py")
cases = all_of(grep_case, occur_case)
"""All cases of this file."""


# Streams that are closed


def closed_streams(
    case: Cases, name: str, closed: tuple[int, ...], words: list[str], wanted: Answer
) -> None:
    """A case of streams that are closed, by their numbers, when the program begins; of standard input
    that is not there is a line `a`, or the script."""

    def close_all() -> None:
        for number in closed:
            os.close(number)

    def judge(bench: Bench) -> Verdict:
        bench.write("f", TWO_LINES)
        bench.write("script", SCRIPT)
        stdin = b"a\n" if case.program == "grep" else SCRIPT
        return Verdict(wanted, bench.ask(*words, stdin=stdin, preexec_fn=close_all))

    case(name)(judge)


closed_streams(
    grep_case, "Standard output that is closed is a write error.",
    (1,), ["a"], Answer(b"", WRITE_ERROR, 2))
closed_streams(
    grep_case, "A file is not taken for standard output that is closed.",
    (1,), ["a", "f"], Answer(b"", WRITE_ERROR, 2))
closed_streams(
    grep_case, "Under `-q` closed standard output is not noticed.", (1,), ["-q", "a", "f"], Answer())
closed_streams(
    grep_case, "Where no line is selected closed standard output is not noticed.",
    (1,), ["x", "f"], Answer(b"", b"", 1))
closed_streams(
    grep_case, "Closed standard error is not noticed where there is no message.",
    (2,), ["a", "f"], Answer(TWO_LINES))
closed_streams(
    grep_case, "A message to closed standard error gives status 2.",
    (2,), ["a", "f", "nofile"], Answer(b"f:a\nf:ba\n", b"", 2))
closed_streams(
    grep_case, "Closed standard input is a read error.",
    (0,), ["a"], Answer(b"", INPUT_READ_ERROR, 2))
closed_streams(
    grep_case, "Closed standard input is not noticed where a file is named.",
    (0,), ["a", "f"], Answer(TWO_LINES))
closed_streams(
    grep_case, "With all streams closed the status is 2.", (0, 1, 2), ["a"], Answer(b"", b"", 2))
closed_streams(
    occur_case, "Replies to closed standard output are a write error.",
    (1,), [], Answer(b"", REPLY_WRITE_ERROR, 2))
closed_streams(
    occur_case, "A script is not taken for standard output that is closed.",
    (1,), ["script"], Answer(b"", REPLY_WRITE_ERROR, 2))
closed_streams(
    occur_case, "A script on closed standard input is a read error.",
    (0,), [], Answer(b"", SCRIPT_READ_ERROR, 2))
closed_streams(
    occur_case, "Closed standard input is not noticed where a script is named.",
    (0,), ["script"], Answer(REPLIES))
closed_streams(
    occur_case, "Closed standard error is not noticed by occur where there is no message.",
    (2,), [], Answer(REPLIES))


# Signals that stop a process in the midst of a read, and let it go on


def stopped_between(bench: Bench, words: list[str], pieces: list[bytes]) -> Answer:
    """Gives the input in pieces; after each the process is stopped while it waits for the next one,
    and goes on; a signal that it ignores comes, too."""
    process = bench.start(*words)
    for piece in pieces:
        os.write(process.stdin.fileno(), piece)
        time.sleep(0.02)
        for number in (signal.SIGSTOP, signal.SIGCONT, signal.SIGWINCH, signal.SIGURG):
            process.send_signal(number)
        time.sleep(0.02)
    return finish(process)


@grep_case("A process that is stopped while it reads, and goes on, loses no byte.")
def stopped_reading(bench: Bench) -> Verdict:
    given = stopped_between(bench, ["-n", "b"], [b"a", b"b\nx", b"\nb", b"b", b"\n"])
    return Verdict(Answer(b"1:ab\n3:bb\n"), given)


@occur_case("A script whose reading is stopped, and goes on, has the same replies.")
def stopped_script(bench: Bench) -> Verdict:
    pieces = [SCRIPT[place : place + 3] for place in range(0, len(SCRIPT), 3)]
    return Verdict(Answer(REPLIES), stopped_between(bench, [], pieces))


@grep_case("A process that is stopped while it writes into a full pipe writes all.")
def stopped_writing(bench: Bench) -> Verdict:
    text = b"a line of sixteen\n" * 50_000
    bench.write("f", text)
    process = bench.start("a", "f")
    first = seen_within(process.stdout.fileno(), 1)
    for number in (signal.SIGSTOP, signal.SIGCONT, signal.SIGWINCH):
        process.send_signal(number)
        time.sleep(0.02)
    rest = finish(process)
    return Verdict(Answer(text), Answer(first + rest.out, rest.err, rest.status))


# Terminals that go away


def gone_terminal(bench: Bench, first: bytes, rest: bytes, seen: int) -> Answer:
    """Runs on a terminal that goes away once a number of bytes was seen there; then it gets the rest."""
    ours, theirs = pty.openpty()
    tty.setraw(theirs)
    process = bench.start(*(["b"] if bench.name == "grep" else []), stdout=theirs)
    os.close(theirs)
    os.write(process.stdin.fileno(), first)
    out = seen_within(ours, seen)
    os.close(ours)
    given = finish(process, rest)
    return Answer(out, given.err, given.status)


grep_case("A terminal that goes away is a write error.")(
    lambda bench: Verdict(
        Answer(b"ab\n", WRITE_ERROR, 2), gone_terminal(bench, b"ab\n", b"b\n", len(b"ab\n"))))
occur_case("A terminal that goes away is a write error of occur.")(
    lambda bench: Verdict(
        Answer(b"status 1\n", REPLY_WRITE_ERROR, 2),
        gone_terminal(bench, b"show\n", b"show\n", len(b"status 1\n"))))
