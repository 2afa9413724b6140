"""Cases of the pages of the repository: links and anchors, the number of words, numbers that a script
counts, figures, names of contracts, examples, manual pages. They need git, and run the programs for the examples
in README alone.
"""

from __future__ import annotations

import re
import shutil
import subprocess
import sys
from fnmatch import fnmatch
from functools import cache
from pathlib import Path

from program import SECONDS, Answer, Bench, Cases, Skipped, Verdict, all_of

REPOSITORY = Path(__file__).resolve().parent.parent
sys.path.insert(0, str(REPOSITORY / "tools"))

import count  # noqa: E402
import figures  # noqa: E402
import links  # noqa: E402
import tables  # noqa: E402

MOST_WORDS = {
    "README.md": 1_300,
    "CONTRIBUTING.md": 500,
    "SECURITY.md": 690,
    "docs/GUARANTEES.md": 2_240,
    "docs/SPECIFICATION.md": 4_400,
    "docs/ARCHITECTURE.md": 2_970,
    "docs/PROVING.md": 4_110,
    "docs/DECISIONS.md": 4_470,
    "docs/PERFORMANCE.md": 1_520,
    "docs/CHANGING.md": 1_620,
    "docs/ROADMAP.md": 570,
    "docs/GLOSSARY.md": 750,
    "docs/LIBRARY.md": 880,
    "crates/*/README.md": 3_130,
    "tests/README.md": 1_050,
    "capi/python/README.md": 500,
    "editors/emacs/README.md": 1_590,
    "editors/nvim/*.md": 1_020,
    "*": 33_250,
}
"""How many words pages have at most, by the pattern of their names."""

NOT_YET: set[str] = set()
"""The patterns whose pages are still too long. A page that gets there loses its place here."""

READ_THROUGH = ["README.md", "CONTRIBUTING.md", "SECURITY.md", "CHANGELOG.md", "docs/*.md", "crates/*/README.md"]
"""The patterns of the pages that someone may read through, but for EVIDENCE, which a script writes."""

MOST_PROSE = 25_000
"""How many words of prose these have at most, all together."""

COUNTS = {"docs/EVIDENCE.md", "docs/PERFORMANCE.md", "docs/PROVING.md"}
"""The pages that may name counts of functions, edits, cases and runs."""

case = Cases("grep", "pages.py")
occur_case = Cases("occur", "pages.py")
cases = all_of(case, occur_case)
"""All cases of this file."""


def judged(faults: list[str]) -> Verdict:
    """There has to be no fault."""
    return Verdict(Answer(), Answer("\n".join(faults).encode()))


@cache
def pages() -> dict[str, str]:
    """The texts of all pages that git knows, by their names."""
    if shutil.which("git") is None:
        raise Skipped("there is no git")
    listed = subprocess.run(["git", "ls-files", "-z", "*.md"], cwd=REPOSITORY, timeout=SECONDS,
                            capture_output=True, check=False)
    if listed.returncode:
        raise Skipped("the pages are in no repository of git")
    names = [name for name in listed.stdout.decode().split("\0") if (REPOSITORY / name).is_file()]
    return {name: (REPOSITORY / name).read_text(encoding="utf-8") for name in names}


# Links


def without_blocks(text: str) -> str:
    """A page without its blocks of code."""
    return re.sub(r"^```.*?^```", "", text, flags=re.MULTILINE | re.DOTALL)


def without_code(text: str) -> str:
    """A page without what is shown as it is."""
    return re.sub(r"(`+)[^\n]*?\1", "", without_blocks(text))


def anchors_of(text: str) -> set[str]:
    """The anchors of a page's headings, as GitHub makes them."""
    found: list[str] = []
    for heading in re.findall(r"^#{1,6} +(.+?) *$", without_blocks(text), re.MULTILINE):
        shown = re.sub(r"\[([^\]]*)\]\([^)]*\)", r"\1", heading).lower()
        anchor = re.sub(r"[^\w\- ]", "", shown).replace(" ", "-")
        twice = found.count(anchor)
        found.append(anchor)
        if twice:
            found.append(f"{anchor}-{twice}")
    return set(found)


def fault_of_link(page: str, link: str) -> str | None:
    """What is wrong with a link of a page."""
    name, _, anchor = link.partition("#")
    target = (REPOSITORY / page).parent / name if name else REPOSITORY / page
    if not target.exists():
        return f"{page}: there is no {link}"
    is_page = target.suffix not in links.FORMS_OF_NAMES
    if anchor and is_page and anchor not in anchors_of(target.read_text(encoding="utf-8")):
        return f"{page}: there is no heading for {link}"
    return None


@case("Each link of a page leads to a file and a heading that are there.")
def linked_files(bench: Bench) -> Verdict:
    faults = []
    for page, text in pages().items():
        for link in re.findall(r"\]\(([^)\s]+)\)", without_code(text)):
            if not re.match(r"[a-z]+:", link):
                faults.append(fault_of_link(page, link))
    return judged([fault for fault in faults if fault])


# Words and numbers


def words_of(pattern: str) -> int:
    """How many words the pages of a pattern have, without what tests keep beside them and what a script writes."""
    counted = (text for page, text in pages().items()
               if fnmatch(page, pattern) and "/test/" not in page and page != "docs/EVIDENCE.md")
    return sum(len(text.split()) for text in counted)


for pattern, most in MOST_WORDS.items():
    if pattern not in NOT_YET:

        @case(f"{pattern} has at most {most:,} words.")
        def words(bench: Bench, pattern: str = pattern, most: int = most) -> Verdict:
            number = words_of(pattern)
            return judged([f"{pattern} has {number:,} words"] if number > most else [])


def prose_of(text: str) -> int:
    """How many words of a page are prose: no block of code is, no mark of a table, and code within a line is one word."""
    lines = [line for line in without_blocks(text).splitlines() if not line.startswith("    ")]
    return sum(bool(re.search(r"\w", word)) for word in re.sub(r"(`+)[^\n]*?\1", "x", "\n".join(lines)).split())


@case(f"The pages that are read through have at most {MOST_PROSE:,} words of prose.")
def prose(bench: Bench) -> Verdict:
    number = sum(prose_of(text) for page, text in pages().items() if page != "docs/EVIDENCE.md"
                 and any(fnmatch(page, pattern) for pattern in READ_THROUGH))
    return judged([f"they have {number:,}"] if number > MOST_PROSE else [])


@case("No page names a number of functions, edits, cases or runs: they are in EVIDENCE, or tools/count.py says them.")
def counts_in_pages(bench: Bench) -> Verdict:
    faults = []
    for page, text in pages().items():
        if page not in COUNTS and not any(fnmatch(page, pattern) for pattern in NOT_YET - {"*"}):
            faults += [f"{page}: {named}" for named in
                       re.findall(r"\b\d[\d,]+\d (?:functions|edits|cases|runs)\b", without_code(text))]
    return judged(faults)


# Figures


@case("The figures are those that tools/figures.py makes of crates.txt and the pages.")
def drawn(bench: Bench) -> Verdict:
    made = figures.figures()
    there = {file.name: file.read_text(encoding="utf-8") for file in figures.FIGURES.iterdir()}
    return judged([f"{name}: `make figures` makes another" for name in sorted({*made, *there})
                   if made.get(name) != there.get(name)])


# The version

NAMES_OF_VERSION = {
    "CHANGELOG.md": r"^(?:What |## \[)(\d[^],\s]*)",
    "capi/gaxtrel.h": r'^#define GAXTREL_VERSION "(\S+)"$',
    "crates/grep_cmd/audit/version_of_other_scripts.edit": r'VERSION: &str = "(\S+) script',
    "crates/grep_cmd/specs/Replies.antt": r'"occur (\S+) script',
    "crates/grep_cmd/src/script.rt": r'VERSION: &str = "(\S+) script',
    "editors/emacs/live-occur.el": r"^;; Version: (\S+)$",
    "man/occur.1": r"^\.It Li occur Ar version .*\nThe version of the program, as\n\.Li (\S+) ,$",
}
"""How each file that names the version does so; the first name in it counts."""

NUMBERS_OF_VERSION = {
    "capi/gaxtrel.h": r"^#define GAXTREL_VERSION_NUMBER (\d+)$",
    "crates/gaxtrel/specs/Calls.antt": r"^version = (\d+)$",
    "crates/gaxtrel/src/version.rt": r"^const VERSION: u32 = ([\d_]+);$",
}
"""The same of the version as one number, with three digits for each part."""


@case("All files that name the version name that of the file VERSION.")
def versions(bench: Bench) -> Verdict:
    pages()  # skipped where git is not there
    version = (REPOSITORY / "VERSION").read_text(encoding="ascii").strip()
    named = {name: re.findall(form, (REPOSITORY / name).read_text(encoding="utf-8"), re.MULTILINE)
             for name, form in NAMES_OF_VERSION.items()}
    faults = [f"{name}: {found[:1]}" for name, found in named.items() if found[:1] != [version]]
    number = "".join(f"{int(part):03}" for part in version.split(".")).lstrip("0")
    numbers = {name: re.findall(form, (REPOSITORY / name).read_text(encoding="utf-8"), re.MULTILINE)
               for name, form in NUMBERS_OF_VERSION.items()}
    faults += [f"{name}: {found}" for name, found in numbers.items()
               if [each.replace("_", "") for each in found] != [number]]
    listed = subprocess.run(["git", "grep", "-lwF", "-e", version], cwd=REPOSITORY, timeout=SECONDS,
                            capture_output=True, check=False).stdout.decode().split()
    return judged(faults + [f"{name}: it isn't in the test's table"
                            for name in listed if name not in {"VERSION", *named}])


# Definitions and contracts


@case("The table of definitions in SPECIFICATION is the one that tools/count.py makes.")
def definitions(bench: Bench) -> Verdict:
    return Verdict(Answer(tables.written(count.table()).encode()),
                   Answer(tables.table_of(count.PAGE, count.TABLE).encode()))


def promises() -> list[list[str]]:
    """The rows of GUARANTEES: what is promised, by which contract and which law, and what defines it."""
    promised = pages().get("docs/GUARANTEES.md", "").partition("## Premises")[0]
    rows = [[cell.strip() for cell in line[2:-1].split("|")]
            for line in promised.splitlines() if line.startswith("| ")]
    return [row for row in rows if row[0] != "promise"]


@case("Each row of GUARANTEES links to a contract or a law, and to all that it names.")
def linked_promises(bench: Bench) -> Verdict:
    rows = promises()
    faults = [f"not four cells: {row[0]}" for row in rows if len(row) != 4]
    faults += [f"no contract and no law: {row[0]}" for row in rows if not re.search(links.LINKED_NAME, "".join(row[1:3]))]
    faults += [f"no link: {row[0]}" for row in rows if "`" in re.sub(links.LINKED_NAME, "", "".join(row[1:]))]
    return judged(faults if rows else ["there is no row"])


@case("Each link to a name of code or of a definition leads to its line; tools/links.py writes them.")
def linked_names(bench: Bench) -> Verdict:
    found = [(page, *link) for page, text in pages().items() for link in re.findall(links.LINKED_NAME, text)]
    return judged([f"{page}: {name} isn't defined at {target}{anchor}" for page, name, target, anchor in found
                   if Path(target).suffix in links.FORMS_OF_NAMES and links.anchor_of(target, name) != anchor])


NO_NAMES = {"NAMEPartialEq", "NAME_tests", "basic_", "bool_byte", "put_payload", "offset_bounds"}
"""What pages write where a name is meant, and what they name of the toolchain."""

NAMING = ["README.md", "CONTRIBUTING.md", "docs/*.md", "crates/*/README.md"]
"""The pages whose names of code are looked up."""


def words_of_sources() -> set[str]:
    """All words of the files that git knows, but pages, and their names."""
    listed = subprocess.run(["git", "ls-files", "-z"], cwd=REPOSITORY, timeout=SECONDS, capture_output=True, check=True)
    names = [Path(name) for name in listed.stdout.decode().split("\0") if name and not name.endswith((".md", ".svg"))]
    texts = [(REPOSITORY / name).read_bytes().decode(errors="replace") for name in names if (REPOSITORY / name).is_file()]
    return {word for text in [*texts, *map(str, names)] for word in re.findall(r"\w+", text)}


@case("Each name that a page writes as code, with an underscore or several capitals, is in the sources.")
def cited_names(bench: Bench) -> Verdict:
    known = words_of_sources() | NO_NAMES
    shown = {page: without_blocks(text) for page, text in pages().items()
             if any(fnmatch(page, pattern) for pattern in NAMING)}
    names = {(page, name) for page, text in shown.items() for code in re.findall(r"`([^`\n]+)`", text)
             for name in re.findall(r"(?<![-\w])[A-Za-z]\w*\b", code) if re.search(r"_|[a-z][A-Z]", name)}
    return judged(sorted(f"{page}: {name}" for page, name in names if name not in known))


@case("The line that the refusal in CONTRIBUTING names is that of the function which the page checks.")
def refused_line(bench: Bench) -> Verdict:
    page = pages().get("CONTRIBUTING.md", "")
    crate, function = re.search(r"gaxtrel/(crates/\S+)\n +rt check --only (\w+)", page).groups()
    file, number = re.search(r"note: (\S+):(\d+):1: it is not proved", page).groups()
    line = (REPOSITORY / crate / file).read_text(encoding="utf-8").splitlines()[int(number) - 1]
    return judged([] if f"fn {function}(" in line else [f"line {number} of {file} is {line}"])


# Examples

EXAMPLES = REPOSITORY / "crates" / "examples" / "src"
"""The crate that compiles and runs the code of the pages."""

Example = tuple[str, str]
"""The name of a page, and code that it shows."""


def shown_examples() -> set[Example]:
    """The code of the pages: what they show as `rust`."""
    return {(page, code) for page, text in pages().items()
            for code in re.findall(r"^```rust\n(.*?)^```$", text, re.MULTILINE | re.DOTALL)}


def tested_examples() -> set[Example]:
    """The code of the crate `examples` that stands between the name of a page and `// end`."""
    return {example for file in EXAMPLES.glob("**/*.rt")
            for example in re.findall(r"^// (\S+\.md)\n(.*?)^// end$", file.read_text(encoding="utf-8"),
                                      re.MULTILINE | re.DOTALL)}


@case("The code that the pages show is that of the crate `examples`.")
def examples(bench: Bench) -> Verdict:
    shown, tested = shown_examples(), tested_examples()
    if not tested:
        return judged(["the crate has no example"])
    untested = [f"{page}: no test has the code {code}" for page, code in sorted(shown - tested)]
    unseen = [f"{page}: the page doesn't show the code {code}" for page, code in sorted(tested - shown)]
    return judged(untested + unseen)


@case("Each page with a heading `Example` shows code.")
def headed_examples(bench: Bench) -> Verdict:
    shown = {page for page, _ in shown_examples()}
    return judged([page for page, text in pages().items() if "\n## Example\n" in text and page not in shown])


def shell_examples(program: str) -> list[tuple[str, bytes]]:
    """The commands of README that run a program, each with what it shows."""
    text = (REPOSITORY / "README.md").read_text(encoding="utf-8")
    found = re.findall(r"^    \$ (.*)\n((?:    (?!\$ ).*\n)*)", text, re.MULTILINE)
    return [(command, re.sub("^    ", "", shown, flags=re.MULTILINE).encode())
            for command, shown in found if f"build/{program}" in command]


def shell_verdict(bench: Bench) -> Verdict:
    """Each command of README that runs the program has to show what the page says."""
    build = bench.folder / "build"
    build.mkdir()
    (build / bench.name).symlink_to(bench.program)
    wanted = shell_examples(bench.name)
    if not wanted:
        return judged(["there is no command"])
    given = [subprocess.run(["sh", "-c", command], cwd=bench.folder, stdin=subprocess.DEVNULL,
                            stdout=subprocess.PIPE, stderr=subprocess.STDOUT, timeout=SECONDS, check=False).stdout
             for command, _ in wanted]
    return Verdict(Answer(b"".join(shown for _, shown in wanted)), Answer(b"".join(given)))


@case("The commands in README that run grep show what the page says.")
def grep_commands(bench: Bench) -> Verdict:
    return shell_verdict(bench)


@occur_case("The commands in README that run occur show what the page says.")
def occur_commands(bench: Bench) -> Verdict:
    return shell_verdict(bench)


# Manual pages

NO_FAULTS = r"operating system explicitly specified|referenced manual not found|outdated mandoc.db"
"""What mandoc says of the name Gaxtrel, and of manual pages that this machine has not."""


def said_of_manual_pages(*command: str) -> Verdict:
    """What a program says of the manual pages has to be nothing."""
    if shutil.which(command[0]) is None:
        raise Skipped(f"there is no {command[0]}")
    said = []
    for page in ("grep.1", "occur.1", "gaxtrel.3"):
        ran = subprocess.run([*command, str(REPOSITORY / "man" / page)], stdin=subprocess.DEVNULL,
                             capture_output=True, timeout=SECONDS, check=False)
        text = ran.stderr if command[0] == "groff" else ran.stdout + ran.stderr
        said += [line for line in text.decode().splitlines() if not re.search(NO_FAULTS, line)]
    return judged(said)


@case("mandoc finds no fault in the manual pages.")
def mandoc(bench: Bench) -> Verdict:
    return said_of_manual_pages("mandoc", "-T", "lint")


@case("The manual page of the library has each call of its header.")
def calls_of_library(bench: Bench) -> Verdict:
    header, page = ((REPOSITORY / name).read_text(encoding="utf-8") for name in ("capi/gaxtrel.h", "man/gaxtrel.3"))
    called = set(re.findall(r"^(?:static inline )?(?:const )?\w+ \*?(gaxtrel_\w+)\(", header, re.MULTILINE))
    return judged(sorted(called.symmetric_difference(re.findall(r"^\.F[no] (gaxtrel_\w+)", page, re.MULTILINE))))


@case("groff finds no fault in the manual pages.")
def groff(bench: Bench) -> Verdict:
    return said_of_manual_pages("groff", "-ww", "-man", "-Tutf8")
