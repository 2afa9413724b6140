#!/usr/bin/env python3
"""Times grep beside GNU grep and ripgrep, and writes two tables of docs/PERFORMANCE.md: of random commands, and of all
parts of longer and longer lines.

    tools/measure.py [--grep FILE] [--cases N] [--seed S] [--size MB] [--rounds R]

Nobody can tune for these commands: each is drawn from the words and lines of the text that it searches. A time is the
least processor time of the rounds, with output to a file. Where grep and GNU grep write different bytes, it says so.
On the path `grep` has to be GNU grep, and `rg` ripgrep.
"""

from __future__ import annotations

import argparse
import os
import random
import re
import resource
import subprocess
import sys
import tempfile
from pathlib import Path
from statistics import geometric_mean

from tables import Table, write_table

REPOSITORY = Path(__file__).resolve().parent.parent
PAGE = REPOSITORY / "docs/PERFORMANCE.md"
MOST_TIMES = (0.05, 0.1, 0.2, 0.3, 0.5, 0.7, 1, 1.5, 2)
"""The columns of random commands: at most these times that of GNU grep."""

LENGTHS = (1_000, 10_000, 30_000, 100_000, 1_000_000, 10_000_000)
PARTS = "a*[bc]|a"
"""The lines `a` and more `a`, and an expression that looks for more than it finds there."""

SECONDS = 10
"""A run that takes more is given up."""

RIPGREP = ["rg", "--no-config", "-a", "--no-unicode", "-j1", "--color=never", "--no-heading"]
OPTIONS = ([], [], [], ["-c"], ["-c"], ["-n"], ["-n"], ["-o"], ["-v"], ["-x"], ["-l"], ["-A", "1"])

Command = tuple[list[str], list[str]]
"""The options of a command, and its patterns."""


class Text:
    """A file to be searched, with a sample of its lines and their words."""

    def __init__(self, file: Path, lines: list[str], chance: random.Random) -> None:
        self.file = file
        self.lines = [line for line in chance.sample(lines, min(len(lines), 4_000)) if len(line.strip()) > 2]
        self.words = [word for line in self.lines for word in re.findall(r"[A-Za-z]\w{2,}|\d{3,}", line)]


def log_line(chance: random.Random) -> str:
    number = chance.randrange
    said = chance.choice(("Accepted publickey", "Failed password", "Connection closed", "session opened"))
    return (f"{chance.choice(('Jan', 'Feb', 'Mar'))} {number(1, 29)} {number(24):02}:{number(60):02}:{number(60):02} "
            f"host{number(40)} sshd[{number(40_000)}]: {said} for {chance.choice(('ann', 'bob', 'carla', 'eve'))} "
            f"from {number(256)}.{number(256)}.{number(256)}.{number(256)} port {number(1024, 65_536)}")


def record(chance: random.Random) -> str:
    name, sku = "".join(chance.choices("abcdefghijklmnop", k=chance.randint(4, 12))), chance.choices("ABCDEF", k=3)
    tags = ", ".join(f'"{tag}"' for tag in chance.choices(("red", "green", "blue", "rare"), k=chance.randrange(5)))
    return (f'{{"id": {chance.randrange(10**7)}, "name": "{name}", "tags": [{tags}], '
            f'"price": {chance.randrange(10**5) / 100}, "sku": "{"".join(sku)}-{chance.randrange(10**4)}"}}')


def lines_of(*patterns: str) -> list[str]:
    files = sorted(file for pattern in patterns for file in REPOSITORY.glob(pattern) if "/out/" not in str(file))
    return [line for file in files for line in file.read_text("ascii", "replace").replace("\ufffd", "?").splitlines()]


def texts(folder: Path, size: int, chance: random.Random) -> list[Text]:
    """Log lines, records, sources, pages and words, each of this many bytes."""
    count, pages = size // 90, lines_of("*.md", "docs/*.md", "crates/*/README.md", "editors/*/README.md", "man/*")
    kinds = {"log": [log_line(chance) for _ in range(count)], "records": [record(chance) for _ in range(count)],
             "sources": lines_of("crates/*/src/**/*.rt", "crates/*/specs/**/*.antt", "crates/*/proofs/**/*.antt"),
             "pages": pages, "words": sorted(" ".join(pages).split(), key=lambda _: chance.random())}
    for name, lines in kinds.items():
        data = "".join(line + "\n" for line in lines).encode()
        (folder / name).write_bytes((data * (size // len(data) + 1))[:size])
    return [Text(folder / name, lines, chance) for name, lines in kinds.items()]


def literal(word: str) -> str:
    return re.sub(r"([][\\.*^$+?(){}|])", r"\\\1", word)


def rare(chance: random.Random, text: Text) -> str:
    """A word that the text hardly has."""
    word = chance.choice(text.words)
    return word[:2] + chance.choice("qxzj") + word[2:]


def piece(chance: random.Random, text: Text) -> str:
    """A piece of a line."""
    line = chance.choice(text.lines).strip()
    start = chance.randrange(max(len(line) - 5, 1))
    return line[start : start + chance.randint(4, 20)]


def loose(chance: random.Random, text: Text) -> str:
    """A piece of a line as an expression, some of whose words and numbers are any."""
    anything = {"0": ("[0-9]+", "[0-9]*", "[[:digit:]]+"), "a": ("[a-z]+", "[a-z]*", ".*", "[^ ]*"),
                "A": ("[A-Z]+", "[[:upper:]]+", "."), " ": (" +", ".*", ".")}
    parts = []
    for part in re.findall(r"[0-9]+|[a-z]+|[A-Z]+| +|[^0-9a-zA-Z ]+", piece(chance, text)):
        kind = "0" if part[0].isdigit() else "a" if part[0].islower() else "A" if part[0].isupper() else part[0]
        is_any = kind in anything and chance.random() < (0.6 if kind == "0" else 0.3)
        parts.append(chance.choice(anything[kind]) if is_any else literal(part))
    return "".join(parts)


def command(chance: random.Random, text: Text) -> Command:
    """A random command over a text."""
    def word() -> str:
        return chance.choice(text.words)

    kind = chance.choice(("string", "string", "rare", "loose", "loose", "loose", "choice", "choice", "several", "begin",
                          "end", "gap", "sets", "words", "list"))
    some = [chance.choice((literal(word()), loose(chance, text), rare(chance, text)))
            for _ in range(chance.randint(2, 5))]
    sets = ("[a-f]", "[0-9]", "[^a-z ]", "[[:upper:]]", ".", "[0-9]?", "[aeiou]+", literal(word()))
    patterns = {
        "string": [chance.choice((word(), piece(chance, text)))], "rare": [rare(chance, text)],
        "loose": [loose(chance, text)], "choice": ["|".join(some)], "several": some,
        "begin": ["^" + loose(chance, text)], "end": [loose(chance, text) + "$"],
        "sets": ["".join(chance.choices(sets, k=chance.randint(2, 6)))],
        "gap": [literal(word()) + chance.choice((".*", "[^ ]*", ".{1,20}", " ?")) + literal(word())],
        "words": [chance.choice((word(), rare(chance, text))) for _ in range(chance.choice((10, 30, 100, 1000)))],
        "list": [literal(word()) + chance.choice(("", "[0-9]", ".*" + literal(word())))
                 for _ in range(chance.choice((8, 20, 50)))],
    }[kind]
    options = ["-F"] if kind in ("string", "rare", "words") else ["-E"]
    return options + ["-i"] * (chance.random() < 0.2) + chance.choice(OPTIONS), [it for it in patterns if it] or ["the"]


def seconds_of(words: list[str], output: Path) -> float | None:
    """The processor time of a run, or None if it fails or takes too long."""
    with output.open("wb") as written:
        ran = subprocess.Popen(words, stdin=subprocess.DEVNULL, stdout=written, stderr=subprocess.DEVNULL,
                               env={"LC_ALL": "C", "PATH": os.environ["PATH"]})
        resource.prlimit(ran.pid, resource.RLIMIT_CPU, (SECONDS, SECONDS))
        _, status, used = os.wait4(ran.pid, 0)
    ran.returncode = os.waitstatus_to_exitcode(status)
    return used.ru_utime + used.ru_stime if ran.returncode in (0, 1) else None


def times(grep: str, options: list[str], patterns: Path, text: Path, rounds: int) -> list[float | None]:
    """The times of the three programs, in turn."""
    others = [option for option in options if option != "-E"] + ["-N"] * ("-n" not in options)
    programs = [[grep, *options], ["grep", *options], [*RIPGREP, *others]]
    outputs = [text.parent / f"output{place}" for place in range(3)]
    best: list[float | None] = [None] * 3
    for turn in range(rounds):
        for place, words in enumerate(programs):
            if not turn or best[place] is not None and best[place] < 2:
                took = seconds_of([*words, "-f", str(patterns), str(text)], outputs[place])
                best[place] = took if not turn or took is None else min(best[place], took)
    if best[1] is not None and (best[0] is None or outputs[0].read_bytes() != outputs[1].read_bytes()):
        print(f"different: {options} {patterns.read_text()!r} {text.name}")
    return best


def random_commands(words: argparse.Namespace, folder: Path) -> Table:
    """The table of random commands."""
    chance = random.Random(words.seed)
    searched, patterns = texts(folder, words.size * 1_000_000, chance), folder / "patterns"
    ratios: list[list[float]] = [[], []]
    for number in range(words.cases):
        text = searched[number % len(searched)]
        options, drawn = command(chance, text)
        patterns.write_text("".join(it + "\n" for it in drawn))
        own, gnu, other = times(words.grep, options, patterns, text.file, words.rounds)
        if None not in (own, gnu, other):
            for found, took in zip(ratios, (own, other), strict=True):
                found.append(max(took, 0.001) / max(gnu, 0.001))
    count = len(ratios[0])
    head = f"{count} commands on {words.size} MB, seed {words.seed}"
    rows = [[head, *(f"{most:g}" for most in MOST_TIMES), "mean", "greatest"]]
    for name, found in zip(("Gaxtrel", "ripgrep"), ratios, strict=True):
        shares = [f"{100 * sum(ratio <= most for ratio in found) / count:.0f}" for most in MOST_TIMES]
        rows.append([name, *shares, f"{geometric_mean(found):.2f}", f"{max(found):.1f}"])
    return rows


def growth(words: argparse.Namespace, folder: Path) -> Table:
    """The table of parts of longer and longer lines."""
    rows = [["bytes of the line", *(f"{length:,}" for length in LENGTHS)], ["Gaxtrel"], ["GNU grep"], ["ripgrep"]]
    text, patterns = folder / "line", folder / "patterns"
    patterns.write_text(PARTS + "\n")
    for length in LENGTHS:
        text.write_bytes(b"a" * length + b"\n")
        for row, took in zip(rows[1:], times(words.grep, ["-E", "-o"], patterns, text, words.rounds), strict=True):
            row.append("none" if took is None else f"{took:.3f}")
    return rows


def main() -> int:
    parser = argparse.ArgumentParser(description=__doc__, formatter_class=argparse.RawDescriptionHelpFormatter)
    parser.add_argument("--grep", default=str(REPOSITORY / "build/grep"))
    for name, number in (("cases", 300), ("seed", 1), ("size", 50), ("rounds", 3)):
        parser.add_argument(f"--{name}", type=int, default=number)
    words = parser.parse_args()
    with tempfile.TemporaryDirectory(dir="/dev/shm") as folder:
        write_table(PAGE, "random commands", random_commands(words, Path(folder)))
        write_table(PAGE, "growth", growth(words, Path(folder)))
    return 0


if __name__ == "__main__":
    sys.exit(main())
