#!/usr/bin/env python3
"""Runs occur on the scripts of tests/scripts with each of its requests for memory refused in turn.

    tests/refused_growths.py OCCUR

A run in which one request was refused has to go on as if nothing had happened; or to answer one
edit that may need memory with `refused Memory`, and all else as the script without that edit is
answered; or to end with `occur: out of memory` and status 2, after the replies to all commands before
the one that made the request, and no other. Each kind of edit that may need memory has to be refused
for it in some run. At the end programs that are wrong
on purpose are judged in the same way: each has to fail. It needs a C compiler.
"""

from __future__ import annotations

import argparse
import os
import subprocess
import sys
import tempfile
from bisect import bisect_left
from collections import Counter
from collections.abc import Callable, Iterable, Sequence
from concurrent.futures import ThreadPoolExecutor
from dataclasses import dataclass
from functools import cache
from pathlib import Path

import script
from dialogue import Step
from preload import build_library
from program import SECONDS, Answer

ENDED = b"occur: out of memory\n"
NOT_MADE = b"refused Memory\n"
LONGEST = 2000
"""Longer scripts are not run: they make the same requests, and each run of them takes long."""

STATES = ("1", "4096")
"""How many states the patterns' matchers may have."""

ASKING = frozenset(("file", "missing", "splice", "patterns", "pattern", "flag", "syntax"))
"""The kinds of edit of which some have to be refused as out of memory. `drop` may be too, where
parts are kept."""

SEARCHED_FLAGS = frozenset((b"i", b"o", b"x"))
"""The options whose edits may need memory."""

Steps = tuple[Step, ...]
Ask = Callable[[Steps, int], tuple[Answer, bool]]
"""Runs a script with this request refused, none where it is 0. It answers too whether one was."""


class Wrong(Exception):
    """What a run did that it may not do."""


@dataclass(frozen=True)
class Refuser:
    """The program, the library that refuses a request, and the number of states."""

    program: Path
    library: Path
    states: str

    def ask(self, steps: Steps, number: int) -> tuple[Answer, bool]:
        """Runs the script with this request refused."""
        with tempfile.TemporaryDirectory() as folder:
            mark = Path(folder) / "mark"
            refusal = {"LD_PRELOAD": self.library, "REFUSE_AT": str(number), "REFUSE_MARK": mark}
            given = subprocess.run(
                [self.program, "--states", self.states],
                input=content_of(steps),
                capture_output=True,
                env=refusal,
                timeout=SECONDS,
            )
            refused = mark.exists()
        return Answer(given.stdout, given.stderr, given.returncode), refused


def content_of(steps: Iterable[Step]) -> bytes:
    return b"".join(step.sent for step in steps)


def replies_of(steps: Iterable[Step]) -> bytes:
    return b"".join(step.reply for step in steps)


def kind_of(step: Step) -> str:
    """The first word of a command."""
    return step.sent.split(b"\n")[0].split(b" ")[0].decode("latin-1")


def may_need_memory(step: Step) -> bool:
    """Whether a command is an edit that may be refused as out of memory."""
    words = step.sent.split(b"\n")[0].split(b" ")
    if words[0] == b"flag":
        return len(words) == 3 and words[1] in SEARCHED_FLAGS
    return words[0] == b"drop" or words[0].decode("latin-1") in ASKING


def whole_fronts(steps: Sequence[Step]) -> set[bytes]:
    """What has gone out after each whole reply, and before the first."""
    return {replies_of(steps[:count]) for count in range(len(steps) + 1)}


def requests_of(steps: Steps, ask: Ask) -> int:
    """How many requests a run of the script makes."""
    made, more = 0, 1
    while ask(steps, more)[1]:
        made, more = more, 2 * more
    while more - made > 1:
        middle = (made + more) // 2
        made, more = (middle, more) if ask(steps, middle)[1] else (made, middle)
    return made


def edit_not_made(steps: Steps, given: Answer, without: Callable[[int], Answer]) -> str | None:
    """The kind of the edit that was refused for memory, where the answer is that of the script
    without it but for this reply; `None` where it is no such answer."""
    for place, step in enumerate(steps):
        before = replies_of(steps[:place])
        if not may_need_memory(step) or not given.out.startswith(before + NOT_MADE):
            continue
        wanted = before + given.out[len(before) + len(NOT_MADE) :]
        if without(place).out == wanted:
            return kind_of(step)
    return None


def judge(steps: Steps, given: Answer, without: Callable[[int], Answer]) -> str:
    """What a run with a request refused came to. A run that did what it may not is `Wrong`."""
    if given.status == 2 and given.err == ENDED and given.out in whole_fronts(steps):
        return "ended"
    if given.err:
        raise Wrong(f"{given} is no end after a whole reply")
    if given.out == replies_of(steps):
        return "went on"
    kind = edit_not_made(steps, given, without)
    if kind is None or given.status != 1:
        raise Wrong(f"{given} has other replies")
    return kind


def try_script(steps: Steps, ask: Ask) -> Counter[str]:
    """Refuses each request of a script in turn, and counts what the runs came to."""
    wanted, _ = ask(steps, 0)
    if wanted.err or wanted.out != replies_of(steps):
        raise Wrong(f"without a refusal {wanted} is given")

    @cache
    def without(place: int) -> Answer:
        return ask(steps[:place] + steps[place + 1 :], 0)[0]

    made = [requests_of(steps[:count], ask) for count in range(len(steps) + 1)]
    ends: Counter[str] = Counter()
    number = 1
    while True:
        given, refused = ask(steps, number)
        if not refused:
            return ends
        end = judge(steps, given, without)
        if end == "went on" and given.status != wanted.status:
            raise Wrong(f"request {number} refused: status {given.status}")
        if end == "ended" and given.out != replies_of(steps[: max(bisect_left(made, number) - 1, 0)]):
            raise Wrong(f"request {number} refused: {given} has not the replies before that command")
        ends[end] += 1
        number += 1


def scripts() -> list[script.Script]:
    """The scripts that are short, and that have a reply for each of their steps."""
    return [
        one
        for one in script.read_scripts()
        if one.spoken and one.ended and len(one.content) <= LONGEST
    ]


def try_all(program: Path, library: Path) -> Counter[str]:
    """Tries all scripts, with each number of states."""
    runs = [(one, states) for states in STATES for one in scripts()]

    def try_one(run: tuple[script.Script, str]) -> Counter[str]:
        one, states = run
        try:
            return try_script(one.steps, Refuser(program, library, states).ask)
        except Wrong as wrong:
            raise Wrong(f"{one.source}: {one.name} (--states {states}): {wrong}") from wrong

    with ThreadPoolExecutor(max_workers=os.cpu_count()) as workers:
        return sum(workers.map(try_one, runs), Counter())


# Programs that are wrong on purpose

TRIED: Steps = tuple(
    Step(sent, reply)
    for sent, reply in (
        (b"file f 1\nab\n", b"ok\n"),
        (b"patterns 1\na\n", b"ok\n"),
        (b"flag n on\n", b"ok\n"),
        (b"show\n", b"o 1:ab\nstatus 0\n"),
        (b"close 0\n", b"ok\n"),
    )
)
"""The script on which they are tried."""


def always_ends(given: Answer, refused: bool) -> Answer:
    """Memory never suffices."""
    return Answer(b"", ENDED, 2)


def takes_no_pattern(given: Answer, refused: bool) -> Answer:
    """One kind of edit is always refused for memory."""
    out = b"ok\nrefused Memory\nok\nstatus 1\nok\n"
    return Answer(out, b"", 1)


def makes_what_it_refused(given: Answer, refused: bool) -> Answer:
    """An edit that was refused for memory was made nevertheless."""
    return Answer(b"ok\nrefused Memory\n" + replies_of(TRIED[2:]), b"", 1) if refused else given


def refuses_to_close(given: Answer, refused: bool) -> Answer:
    """An edit that needs no memory is refused for it."""
    out = replies_of(TRIED[:-1]) + NOT_MADE
    return Answer(out, b"", 1) if refused else given


def loses_a_reply(given: Answer, refused: bool) -> Answer:
    """The command after the refused one has no reply."""
    return Answer(b"refused Memory\nok\nok\n", b"", 1) if refused else given


def breaks_a_reply(given: Answer, refused: bool) -> Answer:
    """The end comes in the middle of a reply."""
    return Answer(replies_of(TRIED)[:12], ENDED, 2) if refused else given


def drops_a_reply(given: Answer, refused: bool) -> Answer:
    """The last command before the end has no reply."""
    fronts = sorted(whole_fronts(TRIED), key=len)
    return Answer(fronts[max(fronts.index(given.out) - 1, 0)], ENDED, 2) if given.err == ENDED else given


def ends_as_success(given: Answer, refused: bool) -> Answer:
    """The exit status does not show the refusal."""
    return Answer(given.out, given.err, 0)


def crashes(given: Answer, refused: bool) -> Answer:
    """A signal ends the program."""
    return Answer(b"", b"", -11) if refused else given


MUTANTS = (always_ends, takes_no_pattern, makes_what_it_refused, refuses_to_close, loses_a_reply,
           breaks_a_reply, drops_a_reply, ends_as_success, crashes)


def passed_mutants(program: Path, library: Path) -> list[str]:
    """The programs that are wrong on purpose and did not fail."""
    right = Refuser(program, library, STATES[0]).ask
    passed = []
    for mutant in MUTANTS:

        def ask(steps: Steps, number: int, mutant: Callable[..., Answer] = mutant) -> tuple[Answer, bool]:
            given, refused = right(steps, number)
            return mutant(given, refused) if steps == TRIED else given, refused

        try:
            try_script(TRIED, ask)
            passed.append(mutant.__name__)
        except Wrong:
            pass
    return passed


def main() -> int:
    parser = argparse.ArgumentParser(description="Refuses each request for memory of occur in turn.")
    parser.add_argument("occur", metavar="OCCUR", type=Path, help="the built occur")
    program = parser.parse_args().occur.resolve()
    with tempfile.TemporaryDirectory() as folder:
        library = build_library("refuse_allocation.c", Path(folder))
        try:
            ends = try_all(program, library)
        except Wrong as wrong:
            print(wrong)
            return 1
        passed = passed_mutants(program, library)
    edits = {kind: count for kind, count in sorted(ends.items()) if kind not in ("ended", "went on")}
    refused = ", ".join(f"{count} of {kind}" for kind, count in edits.items())
    print(f"{len(scripts())} scripts, with {' and with '.join(STATES)} states")
    print(f"went on {ends['went on']}, ended {ends['ended']}, edits refused: {refused}")
    if missing := ASKING - edits.keys():
        print(f"never refused for memory: {sorted(missing)}")
    if passed:
        print(f"wrong on purpose, and not found: {passed}")
    else:
        print(f"{len(MUTANTS)} programs that are wrong on purpose failed, as they have to")
    print(f"{sum(ends.values())} runs with a request for memory refused")
    return 1 if missing or passed else 0


if __name__ == "__main__":
    sys.exit(main())
