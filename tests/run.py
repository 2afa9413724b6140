#!/usr/bin/env python3
"""Runs built programs on the rows of tests/rows, the scripts of tests/scripts, the devices of
tests/devices.py and tests/occur_devices.py, the inputs that are the output of tests/same_file.py,
the processes of tests/processes.py, the live and long inputs of tests/live.py, the hostile texts of
tests/hostile.py, the failing calls of tests/failed_calls.py, `make install` in tests/install.py, what
it completes in tests/completions.py, `make dist` and `make deb` in tests/packages.py, the pages of the
repository in tests/pages.py, the walks of a page in tests/walks.py, the crates in tests/meters.py, what
they ask of the system in tests/system_calls.py, where they answer that memory is out in
tests/out_of_memory.py, and the memory of many edits in tests/soak.py.

    tests/run.py GREP [OCCUR] [--only TEXT]

The cases of occur are left out where that program is not given. Where there is a TEXT only those
cases are run whose title contains it: the program, a comma, the file, a colon and the name. Each
case that fails is printed with the wanted and the given answer, each one that can't be tried here
with the reason. The last line is `N passed, M failed`, and the exit status is 0 only where none
failed.
"""

from __future__ import annotations

import argparse
import subprocess
import sys
import tempfile
from collections import Counter
from collections.abc import Iterable
from pathlib import Path

import completions
import devices
import failed_calls
import hostile
import install
import live
import meters
import occur_devices
import out_of_memory
import packages
import pages
import processes
import row
import same_file
import script
import soak
import system_calls
import walks
from program import Answer, Bench, Case, Skipped, Verdict

SHOWN = 400
"""How much of a text is printed at most."""

Programs = dict[str, Path]
"""The programs that are given, by their names."""


def brief(text: bytes) -> str:
    """A text as it is printed."""
    shown = repr(text)
    return shown if len(shown) <= SHOWN else f"{shown[:SHOWN]}... ({len(text)} bytes)"


def shown_answer(answer: Answer) -> str:
    return f"out {brief(answer.out)} err {brief(answer.err)} status {answer.status}"


def title_of(case: Case) -> str:
    return f"{case.program}, {case.source}: {case.name}"


def judge(programs: Programs, case: Case) -> Verdict:
    """Runs a case in a folder of its own."""
    with tempfile.TemporaryDirectory(prefix="grep-tests-") as folder:
        return case.judge(Bench(case.program, programs[case.program], Path(folder)))


def try_case(programs: Programs, case: Case) -> str:
    """Runs a case, prints it where it didn't pass, and answers what came of it."""
    title = title_of(case)
    try:
        verdict = judge(programs, case)
    except Skipped as reason:
        print(f"skipped {title}\n  {reason}")
        return "skipped"
    except subprocess.TimeoutExpired as late:
        print(f"FAILED {title}\n  no end after {late.timeout} seconds")
        return "failed"
    except OSError as fault:
        print(f"FAILED {title}\n  {fault}")
        return "failed"
    if verdict.given == verdict.wanted:
        return "passed"
    print(f"FAILED {title}")
    print(f"  wanted {shown_answer(verdict.wanted)}")
    print(f"  given  {shown_answer(verdict.given)}")
    return "failed"


def all_cases() -> list[Case]:
    """The cases of all programs. No two have one name."""
    cases = [*row.cases(), *script.cases(), *devices.cases(), *live.cases(), *hostile.cases()]
    cases += [*same_file.cases(), *occur_devices.cases(), *processes.cases()]
    cases += [*failed_calls.cases(), *install.cases(), *completions.cases(), *packages.cases()]
    cases += [*pages.cases(), *walks.cases(), *meters.cases(), *system_calls.cases(), *out_of_memory.cases()]
    cases += soak.cases()
    names = Counter(case.name for case in cases)
    if twice := [name for name, count in names.items() if count > 1]:
        raise row.BadRow(f"names that stand twice: {twice}")
    return cases


def run_all(programs: Programs, cases: Iterable[Case]) -> bool:
    """Runs the cases, prints how many passed and failed, and answers whether none failed."""
    ends = Counter(try_case(programs, case) for case in cases)
    print(f"{ends['passed']} passed, {ends['failed']} failed")
    return ends["failed"] == 0


def program_at(word: str) -> Path:
    """The program that a word names."""
    path = Path(word).resolve()
    if not path.is_file():
        raise argparse.ArgumentTypeError(f"{word}: no such program")
    return path


def read_words() -> argparse.Namespace:
    parser = argparse.ArgumentParser(description="Runs built programs on the cases of tests/.")
    parser.add_argument("grep", metavar="GREP", type=program_at, help="the built grep")
    parser.add_argument("occur", metavar="OCCUR", type=program_at, nargs="?", help="the built occur")
    parser.add_argument("--only", metavar="TEXT", default="",
                        help="run only the cases with this text in their title")
    return parser.parse_args()


def main() -> int:
    words = read_words()
    given: Programs = {"grep": words.grep, "occur": words.occur}
    programs = {name: path for name, path in given.items() if path is not None}
    chosen = [case for case in all_cases() if words.only in title_of(case)]
    cases = [case for case in chosen if case.program in programs]
    if left_out := len(chosen) - len(cases):
        print(f"{left_out} cases of occur are left out, since no OCCUR is given")
    if not cases:
        print(f"no case to run has {words.only!r} in its title", file=sys.stderr)
        return 2
    return 0 if run_all(programs, cases) else 1


if __name__ == "__main__":
    sys.exit(main())
