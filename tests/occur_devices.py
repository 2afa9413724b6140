"""Cases of occur on real devices: dialogues over pipes, folders, full and failing devices, terminals,
and the surroundings of a process. They need Linux.
"""

from __future__ import annotations

import os
import pty
import re
import resource
import tty
from functools import partial
from itertools import product
from pathlib import Path

from dialogue import Step, exchange, hold
from program import Answer, Bench, Cases, Verdict, Word, all_of, finish
from samples import (
    DEEP,
    DEEP_ENDS,
    DEEP_HEADS,
    REPLIES,
    REPLY_WRITE_ERROR,
    SCRIPT,
    SCRIPT_CANNOT_OPEN,
    SCRIPT_READ_ERROR,
)
from streams import (
    failing_input,
    feed_named_pipe,
    feed_slowly,
    full_device,
    opened,
    pipe_without_reader,
    seen_within,
    with_little_stack,
    with_room,
)

OUT_OF_MEMORY = b"occur: out of memory\n"
VERSION = (Path(__file__).resolve().parent.parent / "VERSION").read_bytes().strip()
VERSION_LINE = b"occur " + VERSION + b" script 2\n"

case = Cases("occur", "occur_devices.py")
cases = all_of(case)
"""All cases of this file."""


# Help and the version


READER = Path(__file__).resolve().parent.parent / "crates/script_commands/src/command.rt"
"""What reads commands."""


def formed(command: str) -> list[str]:
    """The commands of a form of the help, as `flag LETTER on|off`: a name or number is 1, a letter c."""
    choices = [word.split("|") if word.islower() else ["c" if word == "LETTER" else "1"] for word in command.split()]
    return [" ".join(words) for words in product(*choices)]


@case("Help is written to standard output, names the words and all commands, and gives 0.")
def help_wanted(bench: Bench) -> Verdict:
    given = bench.ask("--help", stdin=b"show\n")
    named = [word for word in (b"--states", b"SCRIPT") if word in given.out]
    forms = re.findall(r"(?m)^  ([a-z]+(?: \S+)*)  ", given.out.decode())
    # A line follows each, for those that count one.
    unread = [command for form in forms for command in formed(form)
              if bench.ask(stdin=f"{command}\nx\n".encode()).out.startswith(b"refused BadCommand")]
    words = sorted({form.split()[0] for form in forms})
    wanted = sorted(re.findall(r'word == b"(\w+)".as_slice\(\) {\n +return read_', READER.read_text()))
    return Verdict(Answer(f"--states SCRIPT {wanted} []".encode()),
                   Answer(b" ".join(named) + f" {words} {unread}".encode(), given.err, given.status))


@case("The option `--version` writes the version that the file VERSION has, and gives 0.")
def version_wanted(bench: Bench) -> Verdict:
    return Verdict(Answer(VERSION_LINE), bench.ask("--version", stdin=b"show\n"))


# Dialogues. That each reply of a script comes before the next command is sent is tried with each of
# the scripts of tests/scripts, too.


def dialogue(name: str, steps: list[tuple[bytes, bytes]], last: bytes, wanted: Answer) -> None:
    """A case of a dialogue over standard input: what is sent and which reply is due then, the last
    bytes before the end of the input, and what is wanted in all."""

    @case(name)
    def judge(bench: Bench) -> Verdict:
        return Verdict(wanted, hold(bench.start(), [Step(*step) for step in steps], last))


dialogue(
    "Before anything is sent nothing is written.",
    [(b"", b""), (b"show\n", b"status 1\n")], b"", Answer(b"status 1\n"))
dialogue(
    "The version is told in any session, and changes nothing.",
    [(b"version\n", VERSION_LINE), (b"file f 2\na\nb\n", b"ok\n"), (b"patterns 1\nb\n", b"ok\n"),
     (b"version\n", VERSION_LINE), (b"changes\n", b"h 0 0 0 2 1\nr 1 - b\nstatus 0\n"),
     (b"version\n", VERSION_LINE), (b"changes\n", b"status 0\n")],
    b"version", Answer(VERSION_LINE + b"ok\nok\n" + VERSION_LINE + b"h 0 0 0 2 1\nr 1 - b\nstatus 0\n"
                       + VERSION_LINE + b"status 0\n" + VERSION_LINE))
dialogue(
    "Half a word of a command has no reply.",
    [(b"sh", b""), (b"ow", b""), (b"\n", b"status 1\n")], b"", Answer(b"status 1\n"))
dialogue(
    "A command has no reply before the newline that ends its line.",
    [(b"flag n on", b""), (b"\n", b"ok\n")], b"", Answer(b"ok\n"))
dialogue(
    "A line that is no command has no reply before its newline.",
    [(b"no command", b""), (b" at all", b""), (b"\n", b"refused BadCommand\n")],
    b"", Answer(b"refused BadCommand\n", b"", 1))
dialogue(
    "A command has no reply before all of its counted lines are there.",
    [(b"file f 3\n", b""), (b"a\n", b""), (b"b\n", b""), (b"c", b""), (b"\n", b"ok\n")],
    b"", Answer(b"ok\n"))
dialogue(
    "A command that will be refused has no reply before all of its counted lines are there.",
    [(b"splice 9 0 0 2\na\n", b""), (b"b\n", b"refused NoSuchFile\n")],
    b"", Answer(b"refused NoSuchFile\n", b"", 1))
dialogue(
    "A list of patterns has no reply before its last line is there.",
    [(b"patterns 2\n[\n", b""), (b"a\n", b"refused Pattern 0 UnclosedBracket 0\n")],
    b"", Answer(b"refused Pattern 0 UnclosedBracket 0\n", b"", 1))
dialogue(
    "A command with no line to come has its reply at once.",
    [(b"file f 0\n", b"ok\n"), (b"splice 0 0 0 0\n", b"ok\n")], b"", Answer(b"ok\nok\n"))
dialogue(
    "Of two commands that are sent at once both replies come without another question.",
    [(b"file f 1\na\nflag n on\n", b"ok\nok\n"), (b"show\n", b"status 1\n")],
    b"", Answer(b"ok\nok\nstatus 1\n"))
dialogue(
    "Of one command and a half the first reply comes, and the second where its command is whole.",
    [(b"flag n on\nsho", b"ok\n"), (b"", b""), (b"w\n", b"status 1\n")],
    b"", Answer(b"ok\nstatus 1\n"))
dialogue(
    "Of a command and half of the next one's lines the first reply comes.",
    [(b"show\npatterns 2\na\n", b"status 1\n"), (b"", b""), (b"b\nshow\n", b"ok\nstatus 1\n")],
    b"", Answer(b"status 1\nok\nstatus 1\n"))
dialogue(
    "What is shown comes whole, up to its status.",
    [(b"file f 2\na\nb\n", b"ok\n"), (b"missing g\n", b"ok\n"), (b"patterns 1\n\n", b"ok\n"),
     (b"show\n", b"o f:a\no f:b\ne grep: g: cannot open\nstatus 2\n")],
    b"", Answer(b"ok\nok\nok\no f:a\no f:b\ne grep: g: cannot open\nstatus 2\n"))
dialogue(
    "A reply that is larger than a pipe holds comes whole.",
    [(b"file f 1\n" + b"a" * (1 << 20) + b"\n", b"ok\n"), (b"patterns 1\na\n", b"ok\n"),
     (b"show\n", b"o " + b"a" * (1 << 20) + b"\nstatus 0\n")],
    b"", Answer(b"ok\nok\no " + b"a" * (1 << 20) + b"\nstatus 0\n"))
dialogue(
    "A command that fills one read to its last byte is answered before the next read.",
    [(b"file f 1\n" + b"a" * ((1 << 16) - 10) + b"\n", b"ok\n"), (b"show\n", b"status 1\n")],
    b"", Answer(b"ok\nstatus 1\n"))
dialogue(
    "A command that takes several reads is answered, though half of another one follows.",
    [(b"file f 1\n" + b"a" * 100_000 + b"\nsho", b"ok\n"), (b"", b""), (b"w\n", b"status 1\n")],
    b"", Answer(b"ok\nstatus 1\n"))
dialogue(
    "Many small replies come one by one.",
    [(b"flag n on\n", b"ok\n"), (b"flag n off\n", b"ok\n")] * 500, b"", Answer(b"ok\n" * 1000))
dialogue(
    "An input that ends in the midst of a command ends its line.",
    [(b"sho", b"")], b"w", Answer(b"status 1\n"))
dialogue(
    "An input that ends in the midst of counted lines is cut off.",
    [(b"file f 3\na\n", b"")], b"b", Answer(b"refused Truncated\n", b"", 1))
dialogue(
    "An input that ends after a whole reply has no other.",
    [(b"show\n", b"status 1\n")], b"", Answer(b"status 1\n"))


@case("A script that is a named pipe is answered command by command.")
def dialogue_over_named_pipe(bench: Bench) -> Verdict:
    os.mkfifo(bench.folder / "p")
    process = bench.start("p")
    with opened(bench.folder / "p", os.O_RDWR) as pipe:
        steps = [Step(b"flag n on\n", b"ok\n"), Step(b"sho", b""), Step(b"w\n", b"status 1\n")]
        heard = exchange(process, steps, pipe)
    rest = finish(process)
    return Verdict(Answer(b"ok\nstatus 1\n"), Answer(heard + rest.out, rest.err, rest.status))


@case("Replies over a terminal come command by command.")
def dialogue_over_terminal(bench: Bench) -> Verdict:
    ours, theirs = pty.openpty()
    tty.setraw(theirs)
    try:
        process = bench.start(stdout=theirs)
        os.write(process.stdin.fileno(), b"flag n on\n")
        first = seen_within(ours, 3)
        rest = finish(process, b"show\n")
        second = seen_within(ours, 9)
    finally:
        os.close(theirs)
        os.close(ours)
    wanted = Answer(b"ok\n then status 1\n")
    return Verdict(wanted, Answer(first + b" then " + second, rest.err, rest.status))


# The script


@case("Replies are the same where each read gives one byte.")
def slow_script(bench: Bench) -> Verdict:
    process = bench.start()
    feed_slowly(process.stdin.fileno(), SCRIPT)
    return Verdict(Answer(REPLIES), finish(process))


@case("A file has at most 64 changes: before another comes, the two that are nearest become one.")
def changes_without_room(bench: Bench) -> Verdict:
    places = [*range(0, 640, 10), 635, 700]
    splices = "".join(f"splice 0 {place} 1 1\ny\n" for place in places)
    script = "file f 1000\n" + "x\n" * 1000 + "changes\n" + splices + "changes\n"
    ones = "".join(f"h 0 {place} 1 1 0\n" for place in range(20, 630, 10))
    changes = "h 0 0 11 11 0\n" + ones + "h 0 630 6 6 0\nh 0 700 1 1 0\nstatus 1\n"
    wanted = "ok\nh 0 0 0 1000 0\nstatus 1\n" + "ok\n" * len(places) + changes
    return Verdict(Answer(wanted.encode()), bench.ask(stdin=script.encode()))


@case("A script may be a named pipe that is written at once.")
def named_pipe(bench: Bench) -> Verdict:
    feed_named_pipe(bench.folder / "p", SCRIPT)
    return Verdict(Answer(REPLIES), bench.ask("p"))


@case("A script on standard input is read from where it is.")
def script_at_a_place(bench: Bench) -> Verdict:
    bench.write("s", b"flag n on\nshow\n")
    with opened(bench.folder / "s") as handle:
        os.lseek(handle, len(b"flag n on\n"), os.SEEK_SET)
        return Verdict(Answer(b"status 1\n"), bench.ask(stdin=handle))


@case("A script that is typed at a terminal is read up to its end of file.")
def terminal_as_script(bench: Bench) -> Verdict:
    ours, theirs = pty.openpty()
    try:
        os.write(ours, b"file f 1\na\nshow\n\x04")
        given = bench.ask(stdin=theirs)
    finally:
        os.close(theirs)
        os.close(ours)
    return Verdict(Answer(b"ok\nstatus 1\n"), given)


@case("A device that has ended before the first byte is an empty script.")
def empty_device(bench: Bench) -> Verdict:
    with opened("/dev/null") as handle:
        return Verdict(Answer(), bench.ask(stdin=handle))


@case("Standard input is not read where a script is named.")
def input_not_read(bench: Bench) -> Verdict:
    bench.write("s", SCRIPT)
    reader, writer = os.pipe()
    try:
        return Verdict(Answer(REPLIES), bench.ask("s", stdin=reader))
    finally:
        os.close(reader)
        os.close(writer)


@case("A folder as a script is a read error.")
def folder_as_script(bench: Bench) -> Verdict:
    (bench.folder / "d").mkdir()
    return Verdict(Answer(b"", SCRIPT_READ_ERROR, 2), bench.ask("d"))


@case("A folder as standard input of a script is a read error.")
def folder_as_input(bench: Bench) -> Verdict:
    with opened(bench.folder) as folder:
        return Verdict(Answer(b"", SCRIPT_READ_ERROR, 2), bench.ask(stdin=folder))


def broken_script(name: str, content: bytes, out: bytes) -> None:
    """A case of a script whose read fails after this content: what was whole has its replies."""

    @case(name)
    def judge(bench: Bench) -> Verdict:
        with failing_input(content) as handle:
            return Verdict(Answer(out, SCRIPT_READ_ERROR, 2), bench.ask(stdin=handle))


def replies_after(read: int) -> bytes:
    """The replies to the commands that are whole in this number of bytes of the script."""
    whole = [replies for end, replies in ((12, 3), (25, 6), (30, 20)) if end <= read]
    return REPLIES[:max(whole, default=0)]


for bytes_read in range(len(SCRIPT) + 1):
    broken_script(
        f"The read of a script fails after {bytes_read} bytes: replies stand to the whole commands.",
        SCRIPT[:bytes_read], replies_after(bytes_read))
broken_script(
    "A command whose line is not ended when a read fails is not answered.",
    b"show\nshow", b"status 1\n")
broken_script(
    "Counted lines that a failed read cuts off are not too few: there is no reply.",
    b"show\nfile f 3\na\nb\n", b"status 1\n")
broken_script(
    "A refused command before a failed read does not change the exit status.",
    b"close 0\n", b"refused NoSuchFile\n")


# Writes that fail


def full_output(name: str, words: list[Word], content: bytes, wanted: Answer) -> None:
    """A case of standard output each write to which fails."""

    @case(name)
    def judge(bench: Bench) -> Verdict:
        bench.write("s", SCRIPT)
        with full_device() as full:
            return Verdict(wanted, bench.ask(*words, stdin=content, stdout=full))


full_output(
    "Replies that can't be written are reported with status 2.",
    [], SCRIPT, Answer(b"", REPLY_WRITE_ERROR, 2))
full_output(
    "Replies to a script that is named and can't be written are reported with status 2.",
    ["s"], b"", Answer(b"", REPLY_WRITE_ERROR, 2))
full_output(
    "A refusal that can't be written is reported with status 2.",
    [], b"close 0\n", Answer(b"", REPLY_WRITE_ERROR, 2))
full_output(
    "Where a script has no reply nothing is written, and no write fails.",
    [], b"", Answer())
full_output(
    "A write fails in the midst of many replies.",
    [], b"flag n on\nflag n off\n" * 50_000, Answer(b"", REPLY_WRITE_ERROR, 2))
full_output(
    "A script that can't be opened is reported, whether replies can be written or not.",
    ["nofile"], b"", Answer(b"", SCRIPT_CANNOT_OPEN, 2))
full_output(
    "Help that can't be written gives 2.", ["--help"], b"", Answer(b"", REPLY_WRITE_ERROR, 2))
full_output(
    "A version that can't be written gives 2.", ["--version"], b"", Answer(b"", REPLY_WRITE_ERROR, 2))


def small_output(room: int) -> None:
    """A case of standard output that takes a number of bytes."""
    cut_off = Answer(REPLIES[:room], REPLY_WRITE_ERROR, 2)
    wanted = Answer(REPLIES) if room == len(REPLIES) else cut_off

    @case(f"Standard output takes {room} bytes of the replies: a beginning of them is there.")
    def judge(bench: Bench) -> Verdict:
        with (bench.folder / "out").open("wb") as out:
            given = bench.ask(stdin=SCRIPT, stdout=out, preexec_fn=with_room(room))
        written = (bench.folder / "out").read_bytes()
        return Verdict(wanted, Answer(written, given.err, given.status))


for room_of_output in range(len(REPLIES) + 1):
    small_output(room_of_output)


@case("Replies into a pipe whose reader is gone are a write error, and no signal ends occur.")
def reader_gone(bench: Bench) -> Verdict:
    with pipe_without_reader() as pipe:
        given = bench.ask(stdin=SCRIPT, stdout=pipe)
    return Verdict(Answer(b"", REPLY_WRITE_ERROR, 2), given)


@case("An editor that goes away ends occur at the next reply, though the input stays open.")
def editor_gone(bench: Bench) -> Verdict:
    process = bench.start()
    heard = exchange(process, [Step(b"show\n", b"status 1\n")], process.stdin.fileno())
    process.stdout.close()
    os.write(process.stdin.fileno(), b"show\n")
    messages = seen_within(process.stderr.fileno(), len(REPLY_WRITE_ERROR))
    given = Answer(heard, messages, finish(process).status)
    return Verdict(Answer(b"status 1\n", REPLY_WRITE_ERROR, 2), given)


# Messages that can't be written


def full_messages(name: str, words: list[Word], wanted: Answer) -> None:
    """A case of standard error each write to which fails."""

    @case(name)
    def judge(bench: Bench) -> Verdict:
        with full_device() as full:
            return Verdict(wanted, bench.ask(*words, stdin=SCRIPT, stderr=full))


full_messages(
    "Without a message of occur a full standard error is not noticed.", [], Answer(REPLIES))
full_messages(
    "A missing script that can't be reported gives 2.", ["nofile"], Answer(b"", b"", 2))
full_messages(
    "Words of occur that are not UTF-8 and can't be reported give 2.", [b"\xff"], Answer(b"", b"", 2))
full_messages(
    "Wrong words of occur that can't be reported give 2.", ["--states", "0"], Answer(b"", b"", 2))


@case("Replies and messages that can't be written give 2.")
def all_full(bench: Bench) -> Verdict:
    with full_device() as full:
        given = bench.ask(stdin=SCRIPT, stdout=full, stderr=full)
    return Verdict(Answer(b"", b"", 2), given)


# Memory


little_memory = partial(resource.setrlimit, resource.RLIMIT_AS, (1 << 27, 1 << 27))


def too_long(name: str, script: bytes, out: bytes) -> None:
    """A case of a script after which a line of half a GiB follows, which does not fit into memory."""

    @case(name)
    def judge(bench: Bench) -> Verdict:
        bench.write("s", script)
        os.truncate(bench.folder / "s", 1 << 29)
        given = bench.ask("s", preexec_fn=little_memory)
        return Verdict(Answer(out, OUT_OF_MEMORY, 2), given)


too_long(
    "A command that does not fit into memory is reported, and the replies before it are kept.",
    b"show\n", b"status 1\n")
too_long(
    "A counted line that does not fit into memory is reported, and the replies before it are kept.",
    b"show\nfile f 1\n", b"status 1\n")


def counted_in_little_memory(name: str, command: str) -> None:
    """A case of a command that counts far more lines than fit into memory, of which one is there."""

    @case(name)
    def judge(bench: Bench) -> Verdict:
        wanted = Answer(b"ok\nrefused Truncated\n", b"", 1)
        for digits in range(8, 21):
            script = f"file f 0\n{command} 1{'0' * (digits - 1)}\na\n".encode()
            given = bench.ask(stdin=script, preexec_fn=little_memory)
            if given != wanted:
                break
        return Verdict(wanted, given)


counted_in_little_memory(
    "A file's count of 8 to 20 digits takes no room for lines that are not there.", "file g")
counted_in_little_memory(
    "A splice's count of 8 to 20 digits takes no room for lines that are not there.", "splice 0 0 0")
counted_in_little_memory(
    "A count of patterns of 8 to 20 digits takes no room for those that are not there.", "patterns")


@case("Patterns of 256 levels are read, changed and dropped on a stack of 128 KB.")
def deep_patterns(bench: Bench) -> Verdict:
    steps = (
        ("file f 4\na\nCB\nBC\nb", "ok"),
        ("flag x on", "ok"),
        ("syntax extended", "ok"),
        (f"patterns 3\n{DEEP}\n{DEEP_ENDS}\n{DEEP_HEADS}", "ok"),
        ("show", "o a\nstatus 0"),
        ("flag i on", "ok"),
        ("show", "o a\no CB\no BC\nstatus 0"),
        (f"pattern 0\n{DEEP_HEADS}", "ok"),
        ("show", "o CB\no BC\nstatus 0"),
        ("drop 1", "ok"),
        ("show", "o BC\nstatus 0"),
        (f"patterns 1\n({DEEP})", "refused Pattern 0 TooDeep 256"),
    )
    script, replies = ("".join(f"{line}\n" for line in lines).encode() for lines in zip(*steps))
    given = bench.ask(stdin=script, env={}, preexec_fn=with_little_stack)
    return Verdict(Answer(replies, b"", 1), given)


# What is kept of each pattern


def timed(bench: Bench, states: str, script: bytes) -> tuple[Answer, float]:
    """The replies to a script, and how long the processor worked for them, in seconds."""
    before = resource.getrusage(resource.RUSAGE_CHILDREN).ru_utime
    given = bench.ask("--states", states, stdin=script)
    return given, resource.getrusage(resource.RUSAGE_CHILDREN).ru_utime - before


@case("--states is heeded: what comes back is found where 256 are kept, five times faster than with one.")
def states_kept(bench: Bench) -> Verdict:
    patterns = [b"[a-z]{250}[%d%d]" % (place % 10, (7 * place + 3) % 10) for place in range(20)]
    line = b"0123456789 " + (b"a" * 249 + b" ") * 200
    script = b"syntax extended\nfile f 1\n%s\npatterns %d\n%s\nshow\n" % (
        line, len(patterns), b"\n".join(patterns))
    given_few, long = timed(bench, "1", script)
    given_many, short = timed(bench, "256", script)
    wanted = Answer(b"ok\nok\nok\nstatus 1\n", b"faster with 256")
    found = b"faster with 256" if long > 5 * short else b"%.2f s and %.2f s" % (long, short)
    if given_few != given_many:
        return Verdict(given_few, given_many)
    return Verdict(wanted, Answer(given_many.out, given_many.err + found, given_many.status))


# The surroundings of the process


@case("The locale of the surroundings changes no reply: a letter of two bytes is two characters.")
def other_locale(bench: Bench) -> Verdict:
    surroundings = {**os.environ, "LC_ALL": "C.UTF-8", "LANG": "C.UTF-8"}
    script = "flag o on\npatterns 1\n.\nfile f 1\né\nshow\n".encode()
    given = bench.ask(stdin=script, env=surroundings)
    return Verdict(Answer(b"ok\nok\nok\no \xc3\no \xa9\nstatus 0\n"), given)


@case("No variable is needed by occur.")
def no_variables(bench: Bench) -> Verdict:
    return Verdict(Answer(REPLIES), bench.ask(stdin=SCRIPT, env={}))


@case("Messages begin with `occur:` by any name of the program.")
def other_name(bench: Bench) -> Verdict:
    return Verdict(Answer(b"", SCRIPT_CANNOT_OPEN, 2), bench.ask("nofile", called="editor"))
