"""Cases of which crates can make a meter, and where bytes are looked at: `grep_core`, `grep_session`, `grep_live` and
`grep_utility` count all their work on the meter that they are lent, since they can name nothing that makes another;
what goes over bytes quickly is named in few places, each of which counts, and listed by their crates alone. They run no
program.
"""

from __future__ import annotations

import re
from pathlib import Path

from program import Answer, Bench, Cases, Verdict, all_of

REPOSITORY = Path(__file__).resolve().parent.parent
CRATES = REPOSITORY / "crates"

MAKES_METERS = {"re_meter", "re_auto"}
"""The crate whose function `fresh_meter` makes meters, and the one that passes it on."""

MATCHING = {"re_runs", "re_needle", "re_strings", "re_steps", "re_match"}
"""The crates below `re_search` whose functions search bytes."""

SEARCH = {*MATCHING, "re_ends", "re_search"}
"""The crates that search, and count the work of their callers."""

DEFINITIONS = {("grep_io", "re_runs"), ("line_chunks", "re_runs"), ("grep_session", "re_runs"),
               ("grep_core", "re_meter"), ("grep_session", "re_meter"), ("grep_cmd", "re_meter"),
               ("gaxtrel", "re_meter")}
"""Crates that list one of these for its definitions, and name none of its functions in code."""

FROM_TOOLCHAIN = {
    "memchr": {"re_trees", "re_auto", "re_runs", "re_needle", "re_strings", "re_match", "re_search", "grep_io",
               "grep_session"},
    "arrayvec": {"line_marks", "re_syntax"},
    "lru": {"re_steps"},
    "indexmap": {"re_steps"},
    "itoa": {"grep_core"},
    "clap": {"occur"},
    "thiserror": {"occur"},
    "core": {"gaxtrel"},
    "std_alloc": {"gaxtrel"},
}
"""The crates of the toolchain, and those that may list each. `memchr` goes over bytes: that is for the crates that
count what it looks at, for `re_trees` and `grep_io`, which split lines, and for `grep_session`, which looks for one
pattern's text in another. The crates above ask these for searches: of what they looked at in lines themselves no meter
would know. No crate may list another one of the toolchain: `bstr` and `regex` search, too. The proofs of `gaxtrel` on
raw pointers cite two.
"""

NEWLINE = "first_newline"
"""A function of these that finds where a line ends, whatever is searched for."""


def may_list(name: str) -> set[str]:
    """The crates that may list this one, beside the crates of tests."""
    users = SEARCH | {user for user, used in DEFINITIONS if used == name}
    if name == "re_auto":
        return users | {"grep", "occur", "examples", "gaxtrel"}
    if name in ("re_runs", "re_match"):
        return users | {"gaxtrel"}  # where the whole lines of a text end; that matchers may go to another thread
    return users | MAKES_METERS if name == "re_meter" else users


MATCHERS = {"Cached", "LineMatch", "Matcher", "Strings"}
"""What `re_search` may pass on of the crates below it: each of their public searches takes a meter."""

QUICK = re.compile(r"\bmem(?:r?chr[23]?|mem)\b|\bstd::simd\b|\bFinder\b")
"""What goes over bytes quickly: a search of the toolchain's `memchr`, or a vector."""

SPLITS = "splits lines"

MAY_BE_QUICK = {
    "counted for each look": {"re_runs/text_finder.rt", "re_runs/run_finder.rt"},
    "looks ask these, and what sets are made of": {"re_runs/alike.rt", "re_runs/lanes.rt", "re_runs/nibbles.rt",
                                                   "re_runs/probes.rt"},
    "makes what looks for a needle": {"re_needle/needle.rt", "re_runs/survey.rt", "re_match/strings.rt"},
    "the children of a node, each byte a step or passed": {"re_strings/trie.rt"},
    SPLITS: {"re_trees/split.rt", "re_runs/newline.rt", "re_runs/block.rt", "grep_io/input/newlines.rt",
             "grep_io/input/window.rt", "grep_io/devices/byte_buffer.rt"},
    "looks at patterns, not at lines": {"re_strings/step_rows.rt", "re_search/strings.rt", "grep_session/patterns.rt"},
}
"""The files that may name it, by the reason."""

case = Cases("grep", "meters.py")
cases = all_of(case)
"""All cases of this file."""


def judged(faults: list[str]) -> Verdict:
    """There has to be no fault."""
    return Verdict(Answer(), Answer("\n".join(faults).encode()))


def listed(text: str) -> dict[str, list[str]]:
    """The crates of a crates.txt, each with those that it lists."""
    lines = (line.partition("#")[0] for line in text.splitlines())
    parted = [line.partition(":") for line in lines if ":" in line]
    return {head.split()[0]: names.split() for head, _, names in parted}


def misplaced(text: str) -> list[str]:
    """What crates of a crates.txt list and may not."""
    guarded = MATCHING | MAKES_METERS
    return [f"{name} lists {below}" for name, names in listed(text).items() if not name.endswith("_tests")
            for below in names if below in guarded and name not in may_list(below)]


def foreign(text: str) -> list[str]:
    """What crates of a crates.txt list of the toolchain and may not."""
    crates = listed(text)
    return [f"{name} lists {below}" for name, names in crates.items() if not name.endswith("_tests")
            for below in names if below not in crates and name not in FROM_TOOLCHAIN.get(below, set())]


def passed_on(text: str) -> list[str]:
    """What the head of a crate shows of that which makes a meter, or searches below it."""
    shown = re.findall(r"^\s*pub (?:use|mod|fn|type|const|struct) [^;{]*(?:\{[^}]*\})?", text, re.MULTILINE)
    names = {name for item in shown for name in re.findall(r"\w+|\*", item)} & {"fresh_meter", "meter", "*"}
    for crate in sorted(MATCHING | MAKES_METERS):
        for item in shown:
            found = re.search(rf"\b{crate}(?: as \w+)?\s*$|\b{crate}::(.*)", item, re.DOTALL)
            if found and crate in MATCHING:
                names |= set(re.findall(r"\w+|\*", found[1] or crate)) - MATCHERS
            elif found and not found[1]:
                names.add(crate)
    return sorted(names)


@case("No crate above re_search lists one that makes meters, or the matchers below it.")
def crates_without_them(bench: Bench) -> Verdict:
    text = (REPOSITORY / "crates.txt").read_text(encoding="utf-8")
    unlisted = [f"crates.txt has no {name}" for name in sorted(SEARCH - set(listed(text)))]
    return judged(unlisted + misplaced(text))


@case("Each crate lists of the toolchain what it may: `memchr` those that count looks, split lines or compare patterns.")
def crates_of_toolchain(bench: Bench) -> Verdict:
    return judged(foreign((REPOSITORY / "crates.txt").read_text(encoding="utf-8")))


@case("re_search passes on nothing that makes a meter, and of the searches below it the matchers alone.")
def head_of_search(bench: Bench) -> Verdict:
    shown = passed_on((CRATES / "re_search" / "src" / "lib.rt").read_text(encoding="utf-8"))
    return judged([f"lib.rt passes on {name}" for name in shown])


@case("A crate that lists one of these for its definitions names none of its functions but that for newlines.")
def code_of_readers(bench: Bench) -> Verdict:
    faults = []
    for crate, below in sorted(DEFINITIONS):
        for file in sorted((CRATES / crate / "src").glob("**/*.rt")):
            code = re.sub(rf"(?m)^\s*ghost use [^;]*;|\b{below}::{NEWLINE};", "", file.read_text(encoding="utf-8"))
            faults += [f"{crate}/{file.name} names {below}"] if re.search(rf"\b{below}\b", code) else []
    return judged(faults)


MAKES_ONE = {"re_match/strings.rt"}
"""The file of searches that makes a meter: what a look for strings passed goes from it to the lent one, as passed bytes or
as steps."""


@case("The crates that search make no meter, but in one file.")
def sources_of_search(bench: Bench) -> Verdict:
    faults = []
    for crate in sorted(SEARCH):
        files = sorted((CRATES / crate / "src").glob("**/*.rt"))
        named = [file for file in files if "fresh_meter" in file.read_text(encoding="utf-8")
                 and f"{crate}/{file.name}" not in MAKES_ONE]
        faults += [f"{crate}/{file.name} names fresh_meter" for file in named] if files else [f"{crate} has no source"]
    return judged(faults)


@case("What goes over bytes quickly is named where it is counted, where lines are split, and nowhere else.")
def quick_places(bench: Bench) -> Verdict:
    found = {f"{file.relative_to(CRATES).parts[0]}/{file.relative_to(CRATES / file.relative_to(CRATES).parts[0] / 'src')}"
             for file in sorted(CRATES.glob("*/src/**/*.rt")) if QUICK.search(code_of(file))}
    wanted = set().union(*MAY_BE_QUICK.values())
    return judged([f"{name} names a quick search" for name in sorted(found - wanted)]
                  + [f"{name} names none" for name in sorted(wanted - found)])


@case("What splits lines calls a search forwards and one back in each file at most, for a newline: no look passes bytes "
      "uncounted.")
def newlines_alone(bench: Bench) -> Verdict:
    faults = []
    for name in sorted(MAY_BE_QUICK[SPLITS]):
        crate, _, path = name.partition("/")
        code = code_of(CRATES / crate / "src" / path)
        calls = re.findall(r"\b(memr?chr[23]?)\(([^,]*),", code)
        bytes_of = {byte for _, byte in calls}
        if "byte" in bytes_of:  # private functions of the file hand it on, and have it from nobody else
            for function in re.findall(r"(?m)^fn (\w+)\(byte: u8,", code):
                bytes_of |= set(re.findall(rf"(?<!fn )\b{function}\(([^,]*),", code))
            bytes_of.discard("byte")
        faults += [f"{name} looks for {' and for '.join(sorted(bytes_of))}"] if bytes_of - {r"b'\n'"} else []
        faults += [f"{name} searches twice"] if len({search for search, _ in calls}) < len(calls) else []
    return judged(faults)


def code_of(file: Path) -> str:
    """The text of a file without its comments and its imports of definitions."""
    return re.sub(r"(?m)//.*$|^\s*ghost use [^;]*;", "", file.read_text(encoding="utf-8"))
