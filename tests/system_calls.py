"""Cases of what the programs ask of the system: of std's files, streams and surroundings their sources name what is
listed here, where it is listed, and as often. They run no program.
"""

from __future__ import annotations

import re
from collections import Counter
from pathlib import Path

from meters import CRATES, REPOSITORY, code_of, judged, listed
from program import Bench, Cases, Verdict, all_of

OUTSIDE = "env|ffi|fs|io|net|os|process|random|rt|thread|time"
"""The modules of std that have what is outside of a program."""

IMPORTS = {
    "grep/disk.rt": {"fs", "fs::File", "io", "io::ErrorKind", "io::Read", "io::Stdin"},
    "grep/guard.rt": {"fs", "fs::File", "fs::Metadata", "io", "os::unix::fs::MetadataExt"},
    "grep/main.rt": {"process::ExitCode"},
    "grep_io/devices/device.rt": {"io::Read", "io::Write"},
    "grep_io/devices/limited.rt": {"io::Error", "io::ErrorKind", "io::Read", "io::Result", "io::Write"},
    "grep_utility/program.rt": {"env", "io", "io::ErrorKind"},
    "occur/main.rt": {"fs", "fs::File", "fs::Metadata", "io", "os::unix::fs::MetadataExt", "process::ExitCode"},
}
"""What the files of the programs' crates import of these modules. All others import nothing of them."""

CALLS = {
    "grep/disk.rt": {"fs::open": 1, "rt.stdin": 1, ".read": 2},
    "grep/guard.rt": {"fs::metadata": 2, ".metadata": 1},
    "grep/main.rt": {"rt.stdout": 1, "rt.stderr": 2},
    "grep_cmd/script.rt": {".flush": 1},
    "grep_core/search/file.rt": {".flush": 1},
    "grep_core/search/next_line.rt": {".flush": 1},
    "grep_io/devices/buffered.rt": {".flush": 1},
    "grep_io/devices/counted.rt": {".flush_once": 1, ".read_once": 1, ".write_once": 1},
    "grep_io/devices/device.rt": {".flush": 1, ".read": 1, ".write": 1},
    "grep_io/devices/limited.rt": {".flush": 1, ".read": 1, ".write": 1},
    "grep_io/devices/whole_lines.rt": {".flush": 1},
    "grep_utility/message_texts.rt": {".flush": 1},
    "grep_utility/program.rt": {"env::args": 1, "rt.stderr": 2},
    "occur/main.rt": {"fs::metadata": 2, "fs::open": 1, ".metadata": 1, ".print": 1,
                      "rt.stdin": 1, "rt.stdout": 1, "rt.stderr": 5},
}
"""What they call, and how often: a file is opened in one place of each program, for reading, and a device is asked for
one read or one write at a time. A call is known by its module; by the handle `rt`, which has the streams; or, on any
value, by the name of a method that a file, a stream or the handle has.
"""

METHODS = (r"bind_unix|canonicalize|copy|create\w*|e?print|flush(?:_once)?|hard_link|l?chown|lock\w*"
           r"|(?:symlink_)?metadata|open_\w+|pipe|read(?:_(?:dir|exact|link|once|to|vectored)\w*)?"
           r"|remove_(?:dir|file)\w*|rename|rewind|seek\w*|set_(?:len|modified|permissions|times)|symlink"
           r"|sync_\w+|try_clone|try_lock\w*|unlock"
           r"|write(?:_(?:all|fmt|once|vectored))?")
"""The methods of files, of streams and of the handle by which they read, write and change what is outside."""

CALL = re.compile(rf"\b(?:{OUTSIDE})::(?!Error\b|Result\b)\w+|\bFile::\w+|\brt\.(?!alloc\b)\w+(?=\()"
                  rf"|(?<!\brt)\.(?:{METHODS})(?=\()|\b(?:e?print(?:ln)?|dbg)!")
"""A call of what is outside."""

IMPORT = re.compile(r"(?m)^\s*(?:pub(?:\([^)]*\))? )?use ([^;]*);")
"""The import of definitions that code runs."""

HANDLE = re.compile(r"(\w+)\W+(?:'?\w+ )?(?:Host|Libc)Runtime\b")
"""What a handle of the system is called, or the word before where it has no name."""

case = Cases("grep", "system_calls.py")
cases = all_of(case)
"""All cases of this file."""


def crates_of(*programs: str) -> set[str]:
    """The crates of which programs are made, themselves among them."""
    below = listed((REPOSITORY / "crates.txt").read_text(encoding="utf-8"))
    found, left = set(), list(programs)
    while left:
        crate = left.pop()
        if crate in below and crate not in found:
            found.add(crate)
            left += below[crate]
    return found


def sources() -> dict[str, str]:
    """The code of the programs' crates, without their tests, by crate and file."""
    folders = [(crate, CRATES / crate / "src") for crate in sorted(crates_of("grep", "occur"))]
    return {f"{crate}/{file.relative_to(folder)}": code_of(file)
            for crate, folder in folders for file in sorted(folder.glob("**/*.rt")) if file.name != "tests.rt"}


def paths(text: str) -> list[str]:
    """The paths of an import, each written out: those of `std::{fs, io}` are `std::fs` and `std::io`."""
    text = " ".join(text.split())
    group = re.fullmatch(r"([^{]*)\{(.*)\}", text)
    if group is None:
        return [text]
    parts, depth = [""], 0
    for byte in group[2]:
        depth += {"{": 1, "}": -1}.get(byte, 0)
        parts = [*parts, ""] if byte == "," and depth == 0 else [*parts[:-1], parts[-1] + byte]
    return [path for part in parts if part.strip() for path in paths(group[1] + part.strip())]


def imports(code: str) -> set[str]:
    """What code imports of the modules that have what is outside, or of std as a whole."""
    named = (path for text in IMPORT.findall(code) for path in paths(text))
    found = (re.fullmatch(rf"(?:std|core)(?:$| as .*|::((?:{OUTSIDE}|prelude|self)\b.*|\*))", path) for path in named)
    return {path[1] or path[0] for path in found if path}


def calls(code: str) -> dict[str, int]:
    """What code calls of what is outside, and how often."""
    return dict(Counter(CALL.findall(IMPORT.sub("", code))))


def differences(file: str, kind: str, wanted: dict[str, int], found: dict[str, int]) -> list[str]:
    """What a file names more or less often than it may."""
    return [f"{file} {kind} {name} {found.get(name, 0)} times, not {wanted.get(name, 0)}"
            for name in sorted({*wanted, *found}) if wanted.get(name, 0) != found.get(name, 0)]


@case("The sources import of std's files, streams and surroundings what is listed, where it is listed.")
def imported(bench: Bench) -> Verdict:
    found = {file: imports(code) for file, code in sources().items()}
    return judged([fault for file in sorted({*found, *IMPORTS})
                   for fault in differences(file, "imports", dict.fromkeys(IMPORTS.get(file, ()), 1),
                                            dict.fromkeys(found.get(file, ()), 1))])


@case("The sources call of the system what is listed, where it is listed, and as often: a file is opened in one place.")
def called(bench: Bench) -> Verdict:
    found = {file: calls(code) for file, code in sources().items()}
    return judged([fault for file in sorted({*found, *CALLS})
                   for fault in differences(file, "calls", CALLS.get(file, {}), found.get(file, {}))])


@case("The handle of the system is `rt` wherever it has a name, in the files that may call it.")
def handles(bench: Bench) -> Verdict:
    found = {file: set(HANDLE.findall(code)) for file, code in sources().items()}
    return judged([f"{file} has a handle by the name {name}" for file, names in found.items() for name in sorted(names)
                   if name != "rt" or file not in CALLS])
