"""Scripts of occur: commands, each with the reply to it, as data in the files of tests/scripts.

A step is a pair of texts (row.py says what a text may be): a command with its counted lines, and the
reply. Both stand without their last newline. Each script is run three times: from standard input in
one piece; from a file, with one state for each pattern; and as a dialogue, in which each command is
sent when the whole reply to the one before has come.
"""

from __future__ import annotations

import tomllib
from collections.abc import Iterator
from dataclasses import dataclass
from pathlib import Path
from typing import Any

from dialogue import Step, hold
from program import Answer, Bench, Case, Verdict
from row import BadRow, text_of

FOLDER = Path(__file__).parent / "scripts"
NEEDED = {"name", "steps", "status"}
KEYS = NEEDED | {"ended", "spoken"}


@dataclass(frozen=True)
class Script:
    """A script with the replies to its commands, and the exit status.

    Where it is not `ended` its last line has no newline. Where it is not `spoken` it is no dialogue,
    since its commands are too much work for a reply in time."""

    source: str
    name: str
    steps: tuple[Step, ...]
    status: int
    ended: bool
    spoken: bool

    @property
    def content(self) -> bytes:
        """The script as it is sent."""
        return b"".join(step.sent for step in self.steps)

    @property
    def wanted(self) -> Answer:
        return Answer(b"".join(step.reply for step in self.steps), b"", self.status)

    def judge_piece(self, bench: Bench) -> Verdict:
        """The script is standard input, and all there at once."""
        return Verdict(self.wanted, bench.ask(stdin=self.content))

    def judge_file(self, bench: Bench) -> Verdict:
        """The script is a file, and each pattern may keep one state."""
        bench.write("script", self.content)
        return Verdict(self.wanted, bench.ask("--states", "1", "script"))

    def judge_dialogue(self, bench: Bench) -> Verdict:
        """Each command is sent when the reply to the one before has come. The last one is not due
        before the end of the input where it waits for more lines, or for its newline."""
        *before, last = self.steps
        if self.ended and not last.reply.startswith(b"refused Truncated"):
            return Verdict(self.wanted, hold(bench.start(), self.steps))
        unanswered = Step(last.sent, b"")
        return Verdict(self.wanted, hold(bench.start(), [*before, unanswered]))

    def cases(self) -> Iterator[Case]:
        """A case for each way in which the script is run."""
        yield Case("occur", self.source, f"{self.name} (In one piece.)", self.judge_piece)
        yield Case("occur", self.source, f"{self.name} (From a file.)", self.judge_file)
        if self.spoken:
            yield Case("occur", self.source, f"{self.name} (As a dialogue.)", self.judge_dialogue)


def step_of(value: Any) -> Step:
    """The step that a pair of texts stands for."""
    match value:
        case [sent, reply]:
            return Step(text_of(sent) + b"\n", text_of(reply) + b"\n")
    raise BadRow(f"{value!r} is no step")


def steps_of(values: list[Any], ended: bool) -> tuple[Step, ...]:
    """The steps of a script. Where it is not ended the last newline is left out."""
    *before, last = map(step_of, values)
    return (*before, last if ended else Step(last.sent[:-1], last.reply))


def script_of(source: str, entry: dict[str, Any]) -> Script:
    """The script that an entry of a file stands for."""
    if unknown := entry.keys() - KEYS:
        raise BadRow(f"{source}: unknown keys {sorted(unknown)} in {entry}")
    if missing := NEEDED - entry.keys():
        raise BadRow(f"{source}: no {sorted(missing)} in {entry}")
    ended = entry.get("ended", True)
    return Script(
        source=source,
        name=entry["name"],
        steps=steps_of(entry["steps"], ended),
        status=entry["status"],
        ended=ended,
        spoken=entry.get("spoken", True),
    )


def read_scripts(folder: Path = FOLDER) -> Iterator[Script]:
    """All scripts, by the names of their files and in their order there."""
    for path in sorted(folder.glob("*.toml")):
        for entry in tomllib.loads(path.read_text(encoding="utf-8"))["script"]:
            yield script_of(f"scripts/{path.name}", entry)


def cases() -> Iterator[Case]:
    """The cases of all scripts."""
    for script in read_scripts():
        yield from script.cases()
