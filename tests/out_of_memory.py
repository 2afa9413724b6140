"""Cases of who answers that memory is out: each such answer is made where a call reported an error, or in one of the
places that are listed here. They run no program.
"""

from __future__ import annotations

import re

from meters import judged
from program import Bench, Cases, Verdict, all_of
from system_calls import differences, sources

ANSWER = re.compile(r"\bErr\(AllocError\)(?! =>)|(?<!== )\b(?:\w+Fault|FaultKind)::Memory\b(?!\)* =>| \{ \.\. \}\) =>)"
                    r"|(?<!fn )\bout_of_memory\(\)")
"""Out of memory as a value, std's or our own."""

BEGINS = re.compile(r"=>|\blet [^;]*?\belse \{|\b(?:if|match|while|for) [^;{]*\{|\bfn (?:from\([^;{]*\{)?")
"""What decides whether the code after it runs."""

ERRS = re.compile(r"\bErr\([\w:]+(?:\([\w:]*\))?\) =>$|\b(?:OutOf)?Memory =>$|\blet Ok\([^;]*\belse \{$|\.is_err\(\) \{$"
                  r"|\bkind == FaultKind::Memory \{$|\bfn from\(\w+: (?:AllocError|ClapError)\)[^;]*\{$")
"""The same where a call reported an error, or an answer of another kind that memory is out."""

UNFIT = re.compile(r"\btry_from\b")
"""A call that reports another error: a number does not fit."""

OTHERS = {
    "line_chunks/chunks.rt": 1, "line_chunks/kept.rt": 1, "line_finds/found.rt": 1, "line_finds/matches.rt": 2,
    "line_finds/pieces.rt": 2, "re_ends/groups.rt": 1, "re_ends/kept.rt": 2, "re_strings/growth.rt": 1,
    "re_strings/links.rt": 1, "re_steps/table.rt": 1, "re_syntax/building.rt": 1, "grep_utility/pattern_list.rt": 1,
}
"""How often these files answer so where none did. A number does not fit: of 2^32 bytes or lines in one chunk, of 2^64
lines, of 2^32 nodes of a table of strings. `re_steps` has no room for one more set, `re_ends` for one more row or list,
which no caller sees; nor has an automaton more than 4,096 positions, for which `re_ends` asks. `re_syntax` has a function
that makes the answer, whose callers are judged.
"""

case = Cases("grep", "out_of_memory.py")
cases = all_of(case)
"""All cases of this file."""


def is_open(text: str) -> bool:
    """Whether no brace of the text closes what began before it."""
    depth = 0
    for byte in text:
        depth += {"{": 1, "}": -1}.get(byte, 0)
        if depth < 0:
            return False
    return True


def is_founded(code: str, at: int) -> bool:
    """Whether the code at this place runs only where a call reported an error."""
    *_, last = (found for found in BEGINS.finditer(code, 0, at) if is_open(code[found.end():at]))
    subject = code[code.rfind("match ", 0, at):last.start()] if last[0] == "=>" else last[0]
    return bool(ERRS.search(code[:last.end()])) and not UNFIT.search(subject)


@case("Out of memory is answered where a call reported an error, and in the places that are listed, as often.")
def answers(bench: Bench) -> Verdict:
    unfounded = {file: {"unasked": sum(not is_founded(code, found.start()) for found in ANSWER.finditer(code))}
                 for file, code in sources().items()}
    return judged([fault for file in sorted({*unfounded, *OTHERS})
                   for fault in differences(file, "answers", {"unasked": OTHERS.get(file, 0)}, unfounded.get(file, {}))])
