#!/usr/bin/env python3
"""Gives each link of the pages to a name of the code, or of a definition, the line that defines the name.

    tools/links.py
"""

from __future__ import annotations

import re
from pathlib import Path

REPOSITORY = Path(__file__).resolve().parent.parent

LINKED_NAME = r"\[`([^`]+)`\]\(\.\./(crates/[^)#]+)((?:#L\d+)?)\)"
"""A link to the code or the definition of a name."""

FORMS_OF_NAMES = {
    ".rt": r"\b(?:fn|struct|enum|trait) {}\b",
    ".antt": r"^ *(?:(?:abbrev|unfoldable) )*(?:pub )?(?:data |record )?{}(?: |:|$)",
}
"""What defines a name, by the kind of the file."""


def anchor_of(target: str, name: str) -> str | None:
    """The anchor of the line that defines a name: empty where the whole file does, None where nothing does."""
    file, last = REPOSITORY / target, name.split("::")[-1]
    if not file.is_file() or file.suffix not in FORMS_OF_NAMES:
        return None
    lines = file.read_text(encoding="utf-8").splitlines()
    form = FORMS_OF_NAMES[file.suffix].format(re.escape(last))
    found = next((number for number, line in enumerate(lines, 1) if re.search(form, line)), 0)
    return f"#L{found}" if found else "" if file.suffix == ".antt" and file.stem == last else None


def linked(page: str) -> str:
    """A page with the right lines in its links."""
    return re.sub(LINKED_NAME, lambda it: f"[`{it[1]}`](../{it[2]}{anchor_of(it[2], it[1]) or ''})", page)


if __name__ == "__main__":
    for page in REPOSITORY.glob("docs/*.md"):
        page.write_text(linked(page.read_text(encoding="utf-8")), encoding="utf-8")
