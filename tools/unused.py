#!/usr/bin/env python3
"""Lists what crates define and nothing uses: definitions of specs, lemmas and functions, and words that a crate's
proofs/Prelude.antt passes on.

    tools/unused.py [CHECKOUT]

A line names the file, the line and the name. Something is used where its name stands outside of comments, imports and
its own text, in a file that can mean it; a use in what is unused is none. What stands for itself is left out: laws,
worked examples, tests, `main`, methods that a trait asks for, and the constructors and fields of data. The exit status
is 1 where something is listed.
"""

from __future__ import annotations

import re
import sys
from collections import Counter, defaultdict
from dataclasses import dataclass
from pathlib import Path

LEMMA = re.compile(r" *(?:(?:abbrev|unfoldable|pub|record|data|ruleset) )*([^\s(){}=,;◌]*[^\W\d][^\s(){}=,;◌]*) ")
"""How a lemma, a definition, a record or data begins, with its name."""

FUNCTION = re.compile(r"( *)(?:pub(?:\(\w+\))? )?(?:const )?fn (\w+)")
"""How a function begins."""

NOTHING = {"use", "mod", "where", "with", "unfolding"}
"""Words that begin a line and name nothing."""

IMPORT = re.compile(r" *(?:unfoldable )?(?:pub )?(?:ghost )?use ")
"""How an import begins. It goes on for as long as braces are open."""

STANDS_ALONE = re.compile(r"/specs/Laws\.antt$|/src/laws\.rt$|/src/main\.rt$|/declared/|/proofs/examples/|_tests/|/examples/")
"""Files whose contents nothing has to use."""


@dataclass(frozen=True)
class Item:
    """What is defined: its name, and its lines, from `first` up to `end`, of a file."""

    name: str
    file: Path
    first: int
    end: int


def code_of(file: Path) -> list[str]:
    """The lines of a file without comments and imports."""
    text = file.read_text(encoding="utf-8")
    comment = r"//.*" if file.suffix == ".rt" else r"(?:^|(?<=\s))--(?:\s.*)?$"
    lines, braces = re.sub(comment, "", text, flags=re.MULTILINE).splitlines(), 0
    for number, line in enumerate(lines):
        if braces or IMPORT.match(line):
            braces += line.count("{") - line.count("}")
            lines[number] = ""
    return lines


def lemma_heads(lines: list[str]) -> list[tuple[int, str]]:
    """The lines with which lemmas and definitions begin, and their names. What is in a module is deeper by two."""
    heads: list[tuple[int, str]] = []
    modules: list[int] = []
    for number, line in enumerate(lines):
        deep = len(line) - len(line.lstrip())
        if not line.strip():
            continue
        while modules and modules[-1] >= deep:
            modules.pop()
        if deep != 2 * len(modules):
            continue
        found = LEMMA.match(line + " ")
        if re.match(r" *(module|mutual)\b", line):
            modules.append(deep)
        elif found and found[1] not in NOTHING:
            heads.append((number, found[1]))
    return heads


def items_of(file: Path, lines: list[str]) -> list[Item]:
    """What a file defines. The lines of a definition by cases, each with its name, are one item."""
    if file.suffix == ".rt":
        found = [(number, FUNCTION.match(line)) for number, line in enumerate(lines)]
        heads = [(number, head[2]) for number, head in found if head]
    else:
        all_heads = lemma_heads(lines)
        heads = [head for head, before in zip(all_heads, [(0, ""), *all_heads]) if head[1] != before[1]]
    ends = [number for number, _ in heads[1:]] + [len(lines)]
    return [Item(name, file, first, end) for (first, name), end in zip(heads, ends)]


def words_of(lines: list[str]) -> dict[str, set[int]]:
    """The lines in which each word stands."""
    found = defaultdict(set)
    for number, line in enumerate(lines):
        for word in re.split(r"[\s(){}\[\],;.:@&*<>!?\"]+", line):
            found[word].add(number)
    return found


def may_be_unused(item: Item) -> bool:
    """Whether something has to use it."""
    name = str(item.file)
    return not STANDS_ALONE.search(name) and bool(re.search(r"/lemmas/|/specs/|\.rt$", name))


WORDS = re.compile(r"^use [^\n]*\bproofs\.\{?Prelude\.(?:\{([^}]*)\}|([^\s,}]+))", re.MULTILINE)
"""An import of words that the crate's proofs/Prelude.antt passes on."""


def words_from_prelude(file: Path) -> set[str]:
    """The words that a file of proofs imports from its crate's Prelude.antt."""
    found = WORDS.findall(file.read_text(encoding="utf-8"))
    return {name for several, one in found for name in (several or one).split(", ")}


def homes_of_words(file: Path) -> set[str]:
    """The files of specs in which the words are that a file of proofs imports from its crate's Prelude.antt."""
    imported = words_from_prelude(file)
    if not imported:
        return set()
    words = file.parents[len(file.parts) - file.parts.index("proofs") - 2] / "Prelude.antt"
    passed_on = re.findall(r"([\w.+-]+)\.\{([^{}]*)\}", words.read_text(encoding="utf-8"))
    return {module.rpartition(".")[2] for module, names in passed_on if imported & set(names.split(", "))}


def unused(crates: Path) -> list[Item]:
    """What nothing uses, by files."""
    files = sorted(file for kind in ("src/**/*.rt", "specs/**/*.antt", "proofs/**/*.antt") for file in crates.glob(f"*/{kind}"))
    named = {file: set(re.findall(r"\w+", file.read_text(encoding="utf-8"))) | homes_of_words(file) for file in files}
    at: dict[tuple[Path, int], Item] = {}
    standing: dict[str, list[tuple[Path, int]]] = defaultdict(list)
    items: list[Item] = []
    for file in files:
        lines = code_of(file)
        for item in items_of(file, lines):
            items.append(item)
            at |= {(file, number): item for number in range(item.first, item.end)}
        for word, numbers in words_of(lines).items():
            standing[word] += [(file, number) for number in numbers]
    homes = Counter(item.name for item in items if item.file.suffix != ".rt")

    def users(item: Item) -> set[Item | None]:
        """What uses it; None stands for what is no item."""
        known = {file for file, _ in standing[item.name] if homes[item.name] < 2 or item.file.suffix == ".rt"
                 or file == item.file or item.file.stem in named[file]}
        return {at.get(place) for place in standing[item.name] if place[0] in known} - {item}

    users_of = {item: users(item) for item in items if may_be_unused(item)}
    gone: set[Item] = set()
    while new := {item for item, by in users_of.items() if item not in gone and by <= gone}:
        gone |= new
    return sorted(gone, key=lambda item: (str(item.file), item.first))


def unused_words(crates: Path) -> list[Item]:
    """The words that a crate passes on to its proofs, and none of them imports."""
    found = []
    for file in sorted(crates.glob("*/proofs/Prelude.antt")):
        imported = {name for other in file.parent.rglob("*.antt") for name in words_from_prelude(other)}
        for number, line in enumerate(file.read_text(encoding="utf-8").splitlines()):
            passed_on = [name for names in re.findall(r"\{([^{}]*)\}", line) for name in names.split(", ")]
            found += [Item(name, file, number, number + 1) for name in passed_on if name not in imported]
    return found


def main() -> int:
    checkout = Path(sys.argv[1]) if len(sys.argv) > 1 else Path(__file__).resolve().parent.parent
    found = [*unused(checkout / "crates"), *unused_words(checkout / "crates")]
    for item in found:
        print(f"{item.file.relative_to(checkout)}:{item.first + 1}: {item.name}")
    return 1 if found else 0


if __name__ == "__main__":
    sys.exit(main())
