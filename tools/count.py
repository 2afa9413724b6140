#!/usr/bin/env python3
"""Counts what changes often: the definitions that a sceptic has to read, functions, wrong bodies, cases.

    tools/count.py            prints the numbers
    tools/count.py --write    also writes the table of definitions into docs/SPECIFICATION.md
    tools/count.py --size     prints the size of the house alone: bytes and functions, by crate

Lines are counted by whole files, with comments and blank lines.
"""

from __future__ import annotations

import re
import sys
from pathlib import Path

import tables

REPOSITORY = Path(__file__).resolve().parent.parent
CRATES = REPOSITORY / "crates"
PAGE = REPOSITORY / "docs/SPECIFICATION.md"
TABLE = "tools/count.py"
"""The name of the page's table."""

NO_DEFINITIONS = {"Laws", "Lib", "Working"}
"""Files at the top of `specs` on which no theorem rests."""


def lines_of(files: list[Path]) -> int:
    return sum(len(file.read_text(encoding="utf-8").splitlines()) for file in files)


def tops_of(crate: str) -> list[Path]:
    """The files of a crate that a sceptic has to read, in order of their names."""
    return sorted(file for file in CRATES.glob(f"{crate}/specs/*.antt") if file.stem not in NO_DEFINITIONS)


def specs_of(crate: str) -> list[Path]:
    """All files of specs of a crate, but those that the toolchain makes."""
    return [file for file in CRATES.glob(f"{crate}/specs/**/*.antt") if "declared" not in file.parts]


def crates() -> list[str]:
    """The crates that have definitions, in the order of crates.txt."""
    lines = (REPOSITORY / "crates.txt").read_text(encoding="utf-8").splitlines()
    names = (line.partition(":")[0].partition(" ")[0] for line in lines if line[:1] != "#")
    return [name for name in names if tops_of(name)]


def table() -> tables.Table:
    """The table of the definitions that a sceptic has to read."""
    rows = [["crate", "files at the top of `specs`", "files", "lines", "of all lines of its `specs`"]]
    files, read = 0, 0
    for crate in crates():
        tops, lines = tops_of(crate), lines_of(specs_of(crate))
        names = ", ".join(file.stem for file in tops)
        rows.append([f"`{crate}`", names, f"{len(tops)}", f"{lines_of(tops):,}", f"{lines:,}"])
        files, read = files + len(tops), read + lines_of(tops)
    return [*rows, ["all", "", f"{files}", f"{read:,}", f"{lines_of(specs_of('*')):,}"]]


def functions(crate: str = "*") -> int:
    """How many functions a crate has, or all crates, those of tests among them."""
    function = re.compile(r"^ *(?:pub(?:\([a-z]+\))? )?fn ", re.MULTILINE)
    return sum(len(function.findall(file.read_text(encoding="utf-8"))) for file in CRATES.glob(f"{crate}/src/**/*.rt"))


def size() -> tables.Table:
    """The bytes and functions of each crate, and of all."""
    kinds, rows = ("src/**/*.rt", "specs/**/*.antt", "proofs/**/*.antt"), [["crate", "code", "specs", "proofs", "functions"]]
    for crate in [*sorted(folder.name for folder in CRATES.iterdir()), "*"]:
        sums = [sum(file.stat().st_size for file in CRATES.glob(f"{crate}/{files}")) for files in kinds]
        rows.append([f"`{crate}`" if crate != "*" else "all", *(f"{number:,}" for number in [*sums, functions(crate)])])
    return rows


def cases() -> int:
    """How many cases the tests of the built programs have."""
    sys.path.insert(0, str(REPOSITORY / "tests"))
    import run
    return len(run.all_cases())


def main() -> int:
    if sys.argv[1:] not in ([], ["--write"], ["--size"]):
        print(__doc__, file=sys.stderr)
        return 2
    if sys.argv[1:] == ["--size"]:
        print(tables.written(size()), end="")
        return 0
    print(tables.written(table()))
    print(f"{functions():,} functions")
    for folder in ("must-fail", "audit"):
        print(f"{len(list(CRATES.glob(f'*/{folder}/*.edit')))} wrong bodies in {folder}")
    print(f"{cases():,} cases of the built programs")
    if sys.argv[1:]:
        tables.write_table(PAGE, TABLE, table())
    return 0


if __name__ == "__main__":
    sys.exit(main())
