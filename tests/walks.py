"""Cases of the walks in docs/ARCHITECTURE.md, which are tables of the functions of which each calls the next: each is
there, calls the next, and a walk has at most 13. They run no program.
"""

from __future__ import annotations

import re
from collections.abc import Iterator
from pathlib import Path

from program import Answer, Bench, Cases, Verdict, all_of

REPOSITORY = Path(__file__).resolve().parent.parent
PAGE = REPOSITORY / "docs/ARCHITECTURE.md"

HEADER = "each of which calls the next:"
"""How the line before a table of walks ends. Its first column has crates, each other column a walk."""

MOST_CALLS = 13
"""How many functions a walk has at most."""

HEAD = re.compile(r"^( *)(?:pub(?:\(\w+\))? )?fn (\w+)", re.MULTILINE)
"""The head of a function."""

OWNER = re.compile(r"^(?:pub )?(?:trait (\w+)|impl\b[^{]*?(\w+)(?:<[^{]*>)?\s*\{)", re.MULTILINE)
"""The head of a trait or of an `impl`, with the name of the trait or of the type."""

case = Cases("grep", "walks.py")
cases = all_of(case)
"""All cases of this file."""

Function = tuple[str, str]
"""The name of a crate, and that of a function, perhaps after its type's."""


def tables() -> Iterator[list[list[str]]]:
    """The tables of walks, as the cells of their rows without the headings."""
    for text in PAGE.read_text(encoding="utf-8").split(HEADER + "\n\n")[1:]:
        rows = text.partition("\n\n")[0].splitlines()[2:]
        yield [[cell.strip() for cell in row.strip("|").split("|")] for row in rows]


def walks() -> Iterator[list[Function]]:
    """The walks, in order."""
    for table in tables():
        for column in range(1, len(table[0])):
            yield [(re.findall(r"`(\w+)`", row[0])[0], name) for row in table
                   for name in re.findall(r"`([\w:]+)`", row[column])]


def bodies(crate: str, name: str) -> list[str]:
    """The bodies of a crate's functions of this name, in an `impl` or a trait of its type if it names one."""
    of, _, function = name.rpartition("::")
    found = []
    for file in sorted((REPOSITORY / "crates" / crate / "src").rglob("*.rt")):
        text = re.sub(r"//.*", "", file.read_text(encoding="utf-8"))
        owners = [(head.start(), head[1] or head[2]) for head in OWNER.finditer(text)]
        for head in HEAD.finditer(text):
            inside = [owner for start, owner in owners if start < head.start()] if head[1] else []
            if head[2] == function and of == (inside[-1] if inside and of else of and ""):
                end = re.compile(rf"^{head[1]}\}}", re.MULTILINE).search(text, head.end())
                found.append(text[head.end():end.start() if end else None])
    return found


def faults_of(walk: list[Function]) -> Iterator[str]:
    """What is wrong with a walk."""
    if len(walk) > MOST_CALLS:
        yield f"{walk[0][1]} .. {walk[-1][1]}: {len(walk)} functions"
    for place, (crate, name) in enumerate(walk):
        found = bodies(crate, name)
        if not found:
            yield f"{crate}: there is no {name}"
        elif place + 1 < len(walk):
            callee = walk[place + 1][1].rpartition("::")[2]
            if not any(re.search(rf"\b{callee}\(", body) for body in found):
                yield f"{crate}: {name} doesn't call {callee}"


@case("Each function of the walks in ARCHITECTURE is there, and calls the next; a walk has at most 13.")
def published_walks(bench: Bench) -> Verdict:
    found = list(walks())
    faults = [fault for walk in found for fault in faults_of(walk)] if found else ["there is no walk"]
    return Verdict(Answer(), Answer("\n".join(faults).encode()))
