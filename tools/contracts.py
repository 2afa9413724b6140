#!/usr/bin/env python3
"""Lists the public functions of all libraries with their contracts, a paragraph each:

    tools/contracts.py [CHECKOUT] > before

Two such lists, of two checkouts, differ where a public contract does. A function is public if the `lib.rt` of its crate
passes on its name, or that of its type or trait. A crate that passes on what another has lists it too.
"""

from __future__ import annotations

import re
import sys
from collections.abc import Iterator
from pathlib import Path

NESTED = r"<(?:[^<>]|<[^<>]*>)*>"
"""Parameters of a type, which may have parameters themselves."""

OWNER = re.compile(rf"(?:pub )?trait (\w+)|impl\s*(?:{NESTED})?\s*(?:([\w:]+)(?:{NESTED})?\s+for\s+)?&?([\w:]+)")
"""What the head of a trait or of an `impl` names: the trait, or perhaps a trait, and a type."""


def passed_on(crate: Path) -> dict[str, str]:
    """The names that a crate passes on, each with the module or crate that it is in."""
    names = {}
    text = (crate / "src/lib.rt").read_text(encoding="utf-8")
    for path, several in re.findall(r"pub use ([\w:]+?)(?:::\{([^}]*)\})?;", text):
        parts = path.split("::")
        listed = [name.strip() for name in several.split(",") if name.strip()] if several else parts[-1:]
        names |= {name: parts[0] for name in listed}
    return names


def is_whole(text: str) -> bool:
    """Whether a head of a function is there up to its body, with all its clauses."""
    head = re.sub(r"\s*(\{\}|\{|;)$", "", text)
    return head != text and head.count("{") == head.count("}") and not re.search(r"(requires|ensures)( \w+)?$", head)


def functions(file: Path) -> Iterator[tuple[str, str, str]]:
    """The type or trait, if there is one, the name and the contract of the public functions of a file."""
    owner, all_public = "", False
    lines = iter(file.read_text(encoding="utf-8").splitlines())
    for line in lines:
        if re.match(r"(pub )?trait \w|impl\b", line):
            while not line.endswith("{"):
                line += " " + next(lines).strip()
            trait, of_trait, of_type = OWNER.match(line).groups()
            owner, all_public = trait or of_type.split("::")[-1], bool(trait or of_trait)
        elif line.startswith("}"):
            owner, all_public = "", False
        found = re.match(r" *(pub )?(?:const )?fn (\w+)", line)
        if found and (found[1] or all_public):
            text = line.strip()
            while not is_whole(text):
                text += " " + next(lines).strip()
            yield owner, found[2], re.sub(r"\s*(\{\}|\{|;)$", "", re.sub(r"\s+", " ", text))


def contracts(crates: Path, name: str) -> set[str]:
    """The paragraphs of a crate."""
    found, todo = set(), [(name, item, source) for item, source in passed_on(crates / name).items()]
    while todo:
        crate, item, source = todo.pop()
        if source != crate and (crates / source / "src/lib.rt").exists():
            todo.append((source, item, passed_on(crates / source).get(item, "")))
            continue
        for file in sorted((crates / crate / "src").rglob("*.rt")):
            for owner, function, text in functions(file):
                if item == (owner or function):
                    found.add(f"{name} {owner}{'::' if owner else ''}{function}\n    {text}\n")
    return found


def main() -> None:
    checkout = Path(sys.argv[1]) if len(sys.argv) > 1 else Path(__file__).resolve().parent.parent
    for lib in sorted((checkout / "crates").glob("*/src/lib.rt")):
        for paragraph in sorted(contracts(checkout / "crates", lib.parent.parent.name)):
            print(paragraph)


if __name__ == "__main__":
    main()
