"""Cases of the memory of a session. One that stays as large as it is needs no more after any number of edits than after
some; and `--states` says how much the caches may take. They need Linux.
"""

from __future__ import annotations

import random
import threading
from collections.abc import Callable, Iterator
from contextlib import contextmanager
from itertools import count
from pathlib import Path

from dialogue import Coprocess
from program import FLAGS, Answer, Bench, Cases, Skipped, Verdict, all_of
from random_edits import counted

LINES = 1000
"""How many lines each of the two files has."""

MOST = 1.2
"""How many times as much memory may be needed at the end as after the first edits."""

TURN = 50
"""After so many edits of each kind another flag is set or taken back."""

SETTINGS = (b"flag o on\n", b"flag v on\n", b"flag o off\n", b"flag v off\n")
"""The flags in which edits are made, beside none."""

PATTERNS = [b"00[1-3]", b"9 a[a-d]*e"]

MANY_STATES = (rb"a[ab]\{14\}$", bytes(random.Random(1).choices(b"ab", k=100_000)) + b"b" * 20)
"""A pattern that has 2^14 states, and a line on which most of them are met."""

SECONDS_OF_SOAK = 60
"""A session whose edits take longer has failed."""

case = Cases("occur", "soak.py")
cases = all_of(case)
"""All cases of this file."""

Edits = Callable[[int], list[bytes]]
"""The edits of a kind and of a number. After them the session has as many files, lines and patterns as before."""


def line(number: int) -> bytes:
    """A line of 60 bytes."""
    return (b"%03d " % (number % LINES) + b"abcdefghijklmnopqrst " * 3)[:60]


FILES = [counted("file f", [line(number * step) for number in range(LINES)]) for step in (1, 3)]
"""The commands that put a file, each with other lines."""


def place_of(number: int) -> str:
    """The file and the place of an edit."""
    return f"{number % 2} {number * 7919 % LINES}"


# The kinds of edits


def replaced(number: int) -> list[bytes]:
    return [counted(f"splice {place_of(number)} 1", [line(number)])]


def added_and_removed(number: int) -> list[bytes]:
    added = counted(f"splice {place_of(number)} 0", [line(number), line(number + 1)])
    return [added, f"splice {number % 2} {number * 7 % LINES} 2 0\n".encode()]


def dropped_and_added(number: int) -> list[bytes]:
    return [b"drop 0\n", counted("patterns", [PATTERNS[number % 2]])]


def added_and_dropped(number: int) -> list[bytes]:
    return [counted("patterns", [b"%d[a-c]*[xyz]" % (number % 100)]), b"drop 2\n"]


def flagged(number: int) -> list[bytes]:
    letter = FLAGS[number % len(FLAGS)]
    return [f"flag {letter} on\n".encode(), f"flag {letter} off\n".encode()]


def read_otherwise(number: int) -> list[bytes]:
    return [b"syntax extended\n", b"syntax fixed\n", b"syntax basic\n"]


def in_context(number: int) -> list[bytes]:
    return [f"context {number % 5} {number % 3}\n".encode(), b"context off\n"]


def closed_and_opened(number: int) -> list[bytes]:
    return [b"close 0\n", FILES[number % 2]]


def missed(number: int) -> list[bytes]:
    return [b"missing m\n", b"close 2\n"]


def paged(number: int) -> list[bytes]:
    return [f"page {number % 20} 5\n".encode()]


def changed(number: int) -> list[bytes]:
    return [*replaced(number), b"changes\n"]


def shown(number: int) -> list[bytes]:
    """A report of counts or, under flag `q`, of the status alone."""
    letter = "cq"[number % 2]
    return [f"flag {letter} on\n".encode(), b"show\n", f"flag {letter} off\n".encode()]


def refused(number: int) -> list[bytes]:
    """Edits that are refused, each for another cause."""
    far = counted(f"splice {number % 2} {LINES} 1", [line(number)])
    return [far, counted("splice 2 0 0", [line(number)]), counted("patterns", [b"%d[" % number]), b"drop 2\n",
            b"close 2\n", b"flag n of\n"]


KINDS: dict[str, Edits] = {
    "splices that replace a line": replaced,
    "splices of which one adds lines and the next removes as many": added_and_removed,
    "patterns that are dropped and added again": dropped_and_added,
    "patterns that are added and dropped again": added_and_dropped,
    "flags that are set and taken back": flagged,
    "changes of syntax": read_otherwise,
    "changes of context": in_context,
    "files that are closed and opened again": closed_and_opened,
    "missing files that come and go": missed,
    "pages": paged,
    "splices with changes": changed,
    "reports": shown,
    "refused edits": refused,
}
"""The kinds of edits, and of questions, by what they are called."""


# Memory


def field(pid: int, file: str, name: str) -> int:
    """A number of KiB that the system says of a process."""
    path = Path(f"/proc/{pid}/{file}")
    if not path.exists():
        raise Skipped(f"there is no {path.name} of a process")
    return next(int(said.split()[1]) for said in path.read_text(encoding="ascii").splitlines()
                if said.startswith(f"{name}:"))


def memory(running: Coprocess) -> tuple[int, int]:
    """How much memory a program holds, without what it shares with its file; and the most that it has had at once."""
    return field(running.process.pid, "smaps_rollup", "Anonymous"), field(running.process.pid, "status", "VmHWM")


@contextmanager
def session(occur: Path, *words: str) -> Iterator[Coprocess]:
    """A session of two files and two patterns, of a program with these words."""
    running = Coprocess(occur, *words)
    watch = threading.Timer(SECONDS_OF_SOAK, running.process.kill)
    watch.start()
    try:
        ask_all(running, [*FILES, counted("patterns", PATTERNS)], False)
        yield running
    finally:
        watch.cancel()
        running.process.kill()
        running.close()


def ask_all(running: Coprocess, commands: list[bytes], is_refused: bool) -> int:
    """Sends commands, all of which have to be refused, or none; how many there are."""
    for command in commands:
        reply = running.ask(command)
        if reply[-1].startswith(b"refused") != is_refused:
            raise SystemExit(f"{command!r} was answered by {reply[-1]!r}")
    return len(commands)


def soak(running: Coprocess, kinds: list[Edits], most: int, made: Iterator[int]) -> None:
    """Makes edits of these kinds in turn, until there are so many; some under each setting."""
    for number in made:
        if number % TURN == TURN - 1:
            ask_all(running, [SETTINGS[number // TURN % len(SETTINGS)]], False)
        most -= sum(ask_all(running, kind(number), kind is refused) for kind in kinds)
        if most <= 0:
            break


def soaked(name: str, kinds: list[Edits], first: int, most: int) -> None:
    """A case of edits of these kinds: so many, after which memory is looked at first, and then the others."""

    @case(name)
    def judge(bench: Bench) -> Verdict:
        wanted, numbers = Answer(b"no more memory"), count()
        try:
            with session(bench.program) as running:
                soak(running, kinds, first, numbers)
                before = memory(running)
                soak(running, kinds, most - first, numbers)
                after = memory(running)
        except SystemExit as fault:
            return Verdict(wanted, Answer(str(fault).encode()))
        is_more = any(late > MOST * early for early, late in zip(before, after))
        return Verdict(wanted, Answer(f"{before} KiB, and then {after}".encode()) if is_more else wanted)


for kind_name, kind_edits in KINDS.items():
    soaked(f"A session needs no more memory after 20,000 edits than after 2,000: {kind_name}.",
           [kind_edits], 2_000, 20_000)
soaked("A session needs no more memory after 100,000 edits of all kinds in turn than after 10,000.",
       list(KINDS.values()), 10_000, 100_000)


def needed_with(occur: Path, states: int) -> int:
    """How many KiB a session takes at most whose patterns may keep so many states each, and one meets many."""
    pattern, text = MANY_STATES
    with session(occur, "--states", str(states)) as running:
        ask_all(running, [counted("patterns", [pattern]), counted("file f", [text])], False)
        return memory(running)[1]


@case("A pattern keeps the states that `--states` allows, and no more: the memory of a session shows it.")
def states_kept(bench: Bench) -> Verdict:
    one, few, many = (needed_with(bench.program, states) for states in (1, 64, 65_536))
    fits = few - one <= 512 and many - one >= 4096
    return Verdict(Answer(), Answer(b"" if fits else f"1, 64 and 65,536 states take {one}, {few}, {many} KiB".encode()))
