"""Cases of the completions that `make install` installs: what each shell offers. They need GNU make,
and are skipped where a shell is not there.

A shell looks for completions in the folder that is installed, and starts in one with the file `pattern`.
"""

from __future__ import annotations

import fcntl
import os
import pty
import re
import select
import shlex
import shutil
import struct
import subprocess
import termios
import time
from collections.abc import Callable
from pathlib import Path

from install import install, make
from program import SECONDS, Answer, Bench, Cases, Skipped, Verdict, all_of

grep_case = Cases("grep", "completions.py")
occur_case = Cases("occur", "completions.py")
cases = all_of(grep_case, occur_case)
"""All cases of this file."""

Offers = Callable[[Path, str], set[str]]
"""What a shell offers for the last word of a line, in a folder with `there`, where all is installed."""

BASH_COMPLETION = Path("/usr/share/bash-completion/bash_completion")
"""What makes bash look for completions of a command."""


def environment_in(folder: Path) -> dict[str, str]:
    """What a shell finds in a folder with `there`: fish completes no command that is not on the path."""
    path = f"{folder / 'there/bin'}:{os.environ['PATH']}"
    return {"PATH": path, "HOME": str(folder), "XDG_DATA_DIRS": str(folder / "there/share"), "TERM": "xterm"}


def said_by(folder: Path, *words: str) -> str:
    """What a shell writes to standard output."""
    if not shutil.which(words[0]):
        raise Skipped(f"no {words[0]}")
    ran = subprocess.run(words, cwd=folder, env=environment_in(folder), timeout=SECONDS, stdin=subprocess.DEVNULL,
                         capture_output=True, check=False)
    return ran.stdout.decode()


def bash_offers(folder: Path, line: str) -> set[str]:
    """Asks the function that bash-completion finds for the command."""
    if not BASH_COMPLETION.exists():
        raise Skipped("no bash-completion")
    words = line.split(" ")
    script = f"""
        . {BASH_COMPLETION}
        __load_completion {words[0]}
        [[ $(complete -p {words[0]}) =~ -F\\ ([^ ]+) ]]
        COMP_WORDS=({shlex.join(words)}) COMP_CWORD={len(words) - 1}
        ${{BASH_REMATCH[1]}} {words[0]}
        printf '%s\\n' "${{COMPREPLY[@]}}" """
    return set(said_by(folder, "bash", "--norc", "-c", script).split())


def fish_offers(folder: Path, line: str) -> set[str]:
    said = said_by(folder, "fish", "-c", f"complete -C '{line}'")
    return {offer.partition("\t")[0] for offer in said.splitlines()}


ZSH_SETTINGS = """\
fpath=("$PWD/there/share/zsh/site-functions" $fpath)
autoload -Uz compinit && compinit -u -D
unsetopt auto_menu menu_complete; setopt auto_list no_list_ambiguous; LISTMAX=0
PS1="ready" PS1="$PS1:"
"""
"""What a zsh is told at first: then its prompt is `ready:`."""


def seen_until(handle: int, wanted: str | None) -> str:
    """What comes from a terminal until it has this text, or else until nothing comes for a second."""
    seen = ""
    end = time.monotonic() + SECONDS
    while time.monotonic() < end and not (wanted and wanted in seen):
        if select.select([handle], [], [], SECONDS if wanted else 1)[0]:
            seen += os.read(handle, 65_536).decode()
        elif not wanted:
            break
    return seen


def zsh_offers(folder: Path, line: str) -> set[str]:
    """Types a tab in a terminal of 100 rows, in which all offers are listed, or the only one is put in."""
    if not shutil.which("zsh"):
        raise Skipped("no zsh")
    ours, theirs = pty.openpty()
    fcntl.ioctl(theirs, termios.TIOCSWINSZ, struct.pack("HHHH", 100, 120, 0, 0))
    with subprocess.Popen(["zsh", "-f", "-i"], cwd=folder, env=environment_in(folder), stdin=theirs,
                          stdout=theirs, stderr=theirs, start_new_session=True) as zsh:
        os.close(theirs)
        os.write(ours, ZSH_SETTINGS.encode())
        seen_until(ours, "ready:")
        os.write(ours, f"{line}\t".encode())
        seen = re.sub(r"\x1b\[[?\d;]*[A-Za-z]|\r", "", seen_until(ours, None))
        zsh.kill()
    os.close(ours)
    listed = set(re.findall(r"^(-\S+) +-- ", seen, re.MULTILINE))
    return listed or {seen.split()[-1]}


SHELLS: dict[str, Offers] = {"bash": bash_offers, "fish": fish_offers, "zsh": zsh_offers}


def options_of(bench: Bench) -> set[str]:
    """The options that a grep names in its usage line."""
    usage = bench.ask("-Y").err.decode().splitlines()[-1]
    return {f"-{letter}" for group in re.findall(r"(?<=[|\[])-(\w+)", usage) for letter in group}


def shown(*offers: set[str]) -> Answer:
    return Answer("; ".join(" ".join(sorted(each)) for each in offers).encode())


for shell, offers in SHELLS.items():

    @grep_case(f"Where grep is installed as gaxgrep, {shell} completes its options, and files of patterns.")
    def grep_offers(bench: Bench, offers: Offers = offers) -> Verdict:
        install(bench, "GREP_NAME=gaxgrep")
        bench.write("pattern", b"")
        given = [offers(bench.folder, line) for line in ("gaxgrep -", "gaxgrep -n -f pat")]
        return Verdict(shown(options_of(bench), {"pattern"}), shown(*given))

    @occur_case(f"Where occur is installed, {shell} completes its options, and scripts.")
    def occur_offers(bench: Bench, offers: Offers = offers) -> Verdict:
        make(bench, "install-occur", f"PREFIX={bench.folder / 'there'}")
        bench.write("pattern", b"")
        given = [offers(bench.folder, line) for line in ("occur --", "occur pat")]
        return Verdict(shown({"--help", "--states", "--version"}, {"pattern"}), shown(*given))
