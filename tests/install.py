"""Cases of `make install`, `make install-occur`, `make install-lib` and `make uninstall`: where they write, what they
call grep, and what becomes of a grep that is there. They need GNU make.

They run in a checkout that has the given program in build/, so that nothing is built or proved. All is
in the folder of the case.
"""

from __future__ import annotations

import os
import re
import shutil
import subprocess
from pathlib import Path

from program import SECONDS, Answer, Bench, Cases, Skipped, Verdict, all_of, finish
from samples import REPLIES, SCRIPT, TWO_LINES

REPOSITORY = Path(__file__).resolve().parent.parent
OTHER_GREP = b"#!/bin/sh\necho 'usage: grep [-abc] pattern [file ...]' >&2\nexit 2\n"
TEXTS = [f"share/doc/gaxtrel/{name}" for name in ("CHANGELOG.md", "LICENSE-APACHE", "LICENSE-MIT", "README.md")]


def installed_of(name: str) -> list[str]:
    """What is installed with a program of this name."""
    return [f"bin/{name}", f"share/man/man1/{name}.1", f"share/bash-completion/completions/{name}",
            f"share/fish/vendor_completions.d/{name}.fish", f"share/zsh/site-functions/_gaxtrel_{name}"]


INSTALLED = sorted([*installed_of("grep"), *installed_of("occur"), *TEXTS])
LUA = REPOSITORY / "editors/nvim/lua/live_occur"
EMACS_CLIENT = ["live-occur-track.el", "live-occur.el"]
NVIM_CLIENT = ["doc/live-occur.txt", *sorted(f"lua/live_occur/{file.name}" for file in LUA.iterdir()),
               "plugin/live_occur.lua"]
CHECKED_OUT = ["CHANGELOG.md", "LICENSE-APACHE", "LICENSE-MIT", "Makefile", "README.md", "VERSION", "capi", "completions",
               "dist", "editors", "man", "tools"]
FAILED = 2
"""The exit status of make where a command failed."""

PATIENCE = 10 * SECONDS
"""What makes packages, or looks at one, and takes longer has failed."""

grep_case = Cases("grep", "install.py")
occur_case = Cases("occur", "install.py")
cases = all_of(grep_case, occur_case)
"""All cases of this file."""


def checkout(bench: Bench) -> Path:
    """A checkout in which the given program is built; where that is grep another program stands for occur."""
    folder = bench.folder / "checkout"
    if folder.exists():
        return folder
    (folder / "build").mkdir(parents=True)
    shutil.copy(bench.program, folder / "build" / bench.name)
    if bench.name == "grep":
        shutil.copy(bench.program, folder / "build/occur")
    for name in CHECKED_OUT:
        copy = shutil.copytree if (REPOSITORY / name).is_dir() else shutil.copy2
        copy(REPOSITORY / name, folder / name)
    return folder


def make(bench: Bench, *words: str, **variables: str) -> int:
    """Runs make in a checkout, and answers its exit status. Of the environment it has the path and
    these variables alone, and so no setting of a make above."""
    return make_in(checkout(bench), *words, **variables)


def make_in(folder: Path, *words: str, **variables: str) -> int:
    """Runs make in a folder, as above."""
    return ran_in(folder, *words, **variables).returncode


def ran_in(folder: Path, *words: str, **variables: str) -> subprocess.CompletedProcess[bytes]:
    """Runs make in a folder, and answers what it wrote, too."""
    if not shutil.which("make"):
        raise Skipped("no make")
    environment = {"PATH": os.environ["PATH"], **variables}
    return subprocess.run(["make", "-s", *words], cwd=folder, env=environment, timeout=PATIENCE,
                          stdin=subprocess.DEVNULL, capture_output=True, check=False)


def install(bench: Bench, *words: str, **variables: str) -> int:
    """Runs `make install` to the folder `there`, and answers its exit status."""
    return make(bench, "install", f"PREFIX={bench.folder / 'there'}", *words, **variables)


def put_grep(bench: Bench, content: bytes, mode: int = 0o755) -> None:
    """Puts a grep where one is to be installed."""
    bench.write("there/bin/grep", content)
    (bench.folder / "there/bin/grep").chmod(mode)


def files_in(folder: Path) -> bytes:
    """The names of all files in a folder, in order."""
    found = sorted(str(file.relative_to(folder)) for file in folder.rglob("*") if file.is_file())
    return "\n".join(found).encode()


def listed(names: list[str]) -> bytes:
    """Names as `files_in` gives them."""
    return "\n".join(sorted(names)).encode()


def found_by(program: Path) -> bytes:
    """What a grep or an occur that is there finds in a text of two lines."""
    words, stdin = ([], SCRIPT) if program.name == "occur" else (["a"], TWO_LINES)
    process = subprocess.Popen([program, *words], stdin=subprocess.PIPE, stdout=subprocess.PIPE)
    return finish(process, stdin).out


def installed_over(bench: Bench, wanted: Answer, *words: str, **variables: str) -> Verdict:
    """Installs over the grep that is there. An answer is that grep's content then, the names of all
    files that are there, and the exit status."""
    status = install(bench, *words, **variables)
    there = bench.folder / "there"
    return Verdict(wanted, Answer((there / "bin/grep").read_bytes(), files_in(there), status))


def replaced(bench: Bench, *words: str) -> Verdict:
    """Installs over the grep that is there, which then is this one."""
    status = install(bench, *words)
    there = bench.folder / "there"
    return Verdict(Answer(TWO_LINES, listed(INSTALLED)), Answer(found_by(there / "bin/grep"), files_in(there), status))


def kept(content: bytes) -> Answer:
    """Nothing is installed beside a grep that stays."""
    return Answer(content, b"bin/grep", FAILED)


@grep_case("`make install` writes below DESTDIR alone, where the environment sets it.")
def below_a_variable(bench: Bench) -> Verdict:
    status = install(bench, DESTDIR=str(bench.folder / "stage"))
    stage = bench.folder / "stage" / (bench.folder / "there").relative_to("/")
    outside = files_in(bench.folder / "there")
    return Verdict(Answer(listed(INSTALLED)), Answer(files_in(stage), outside, status))


@grep_case("`make install` writes below DESTDIR alone, where its words set it.")
def below_a_word(bench: Bench) -> Verdict:
    status = install(bench, f"DESTDIR={bench.folder / 'stage'}")
    stage = bench.folder / "stage" / (bench.folder / "there").relative_to("/")
    outside = files_in(bench.folder / "there")
    return Verdict(Answer(listed(INSTALLED)), Answer(files_in(stage), outside, status))


@grep_case("`make install` leaves another grep that is there as it is, and installs nothing.")
def other_grep(bench: Bench) -> Verdict:
    put_grep(bench, OTHER_GREP)
    return installed_over(bench, kept(OTHER_GREP))


@grep_case("`make install` leaves a grep that can't be run as it is.")
def no_program(bench: Bench) -> Verdict:
    content = bench.program.read_bytes()
    put_grep(bench, content, mode=0o644)
    return installed_over(bench, kept(content))


@grep_case("`make install FORCE=1` replaces another grep.")
def forced(bench: Bench) -> Verdict:
    put_grep(bench, OTHER_GREP)
    return replaced(bench, "FORCE=1")


@grep_case("FORCE in the environment doesn't make `make install` replace another grep.")
def forced_by_a_variable(bench: Bench) -> Verdict:
    put_grep(bench, OTHER_GREP)
    return installed_over(bench, kept(OTHER_GREP), FORCE="1")


@grep_case("`make install` replaces this grep, in another build too.")
def same_grep(bench: Bench) -> Verdict:
    put_grep(bench, bench.program.read_bytes() + b"\n")
    return replaced(bench)


@grep_case("`make install` copies the clients of editors below DESTDIR, to the folders that are named.")
def clients(bench: Bench) -> Verdict:
    folders = {"SITE_LISP": bench.folder / "lisp", "NVIM_SITE": bench.folder / "nvim"}
    status = install(bench, f"DESTDIR={bench.folder / 'stage'}", "EMACS=no-such-emacs",
                     *(f"{name}={folder}" for name, folder in folders.items()))
    lisp, nvim = (files_in(bench.folder / "stage" / folder.relative_to("/")) for folder in folders.values())
    wanted = Answer("\n".join([*EMACS_CLIENT, *NVIM_CLIENT]).encode())
    return Verdict(wanted, Answer(lisp + b"\n" + nvim, b"", status))


STARTED = """(progn (load "live-occur-autoloads") (princ (symbol-function 'live-occur-isearch))
                      (require 'live-occur) (princ (byte-code-function-p (symbol-function 'live-occur))))"""
"""What an Emacs does with an installed client: it writes what the client is before and after it is loaded."""


@grep_case("`make install` compiles the Emacs client, and writes what loads it when it is used.")
def compiled(bench: Bench) -> Verdict:
    emacs = shutil.which("emacs")
    if not emacs:
        raise Skipped("no emacs")
    lisp = bench.folder / "lisp"
    status = install(bench, f"SITE_LISP={lisp}")
    ran = subprocess.run([emacs, "-Q", "--batch", "-L", lisp, "--eval", STARTED], timeout=SECONDS,
                         stdin=subprocess.DEVNULL, capture_output=True, check=False)
    names = files_in(lisp)
    wanted = listed(["live-occur-autoloads.el", *EMACS_CLIENT, *(f"{name}c" for name in EMACS_CLIENT)])
    loads = ran.stdout.startswith(b"(autoload live-occur ") and ran.stdout.endswith(b"t")
    return Verdict(Answer(wanted + b"\nTrue"), Answer(names + f"\n{loads}".encode(), b"", status))


@grep_case("`make install` without an Emacs leaves no Emacs client that another one compiled.")
def not_compiled(bench: Bench) -> Verdict:
    for name in (*(f"{name}c" for name in EMACS_CLIENT), "live-occur-autoloads.el"):
        bench.write(f"lisp/{name}", b"old")
    status = install(bench, f"SITE_LISP={bench.folder / 'lisp'}", "EMACS=no-such-emacs")
    return Verdict(Answer(listed(EMACS_CLIENT)), Answer(files_in(bench.folder / "lisp"), b"", status))


NAMED = listed([*installed_of("gaxgrep"), *installed_of("occur"), *TEXTS])
"""What is installed where grep is called gaxgrep."""


@grep_case("`make install GREP_NAME=gaxgrep` installs grep beside another one, which stays as it is.")
def named(bench: Bench) -> Verdict:
    put_grep(bench, OTHER_GREP)
    status = install(bench, "GREP_NAME=gaxgrep")
    there = bench.folder / "there"
    (there / "bin/grep").unlink()
    return Verdict(Answer(TWO_LINES, NAMED), Answer(found_by(there / "bin/gaxgrep"), files_in(there), status))


OTHER_NAMES = {"completions/gaxgrep": [b"complete -o filenames -F _gaxtrel_grep gaxgrep"],
               "site-functions/_gaxtrel_gaxgrep": [b"#compdef gaxgrep"],
               "vendor_completions.d/gaxgrep.fish": [b"complete -c gaxgrep -s v "],
               "man1/gaxgrep.1": [b".Dt GAXGREP 1", b".Nm gaxgrep\n.Nd ", b"| gaxgrep -n ", b"GNU\n.Nm grep\n",
                                  b".It Li grep: no pattern"],
               "man1/occur.1": [b".Dt OCCUR 1", b".Xr gaxgrep 1 "]}
"""Of texts that are installed with gaxgrep, what they have of its name, and of grep's."""


@grep_case("The texts that are installed with `GREP_NAME=gaxgrep` call grep so, but not GNU grep.")
def renamed(bench: Bench) -> Verdict:
    status = install(bench, "GREP_NAME=gaxgrep")
    share = bench.folder / "there/share"
    texts = {name: next(share.rglob(name)).read_bytes() for name in OTHER_NAMES}
    faults = [f"{name}: {part.decode()}" for name, parts in OTHER_NAMES.items()
              for part in parts if part not in texts[name]]
    faults += [name for name, text in texts.items() if b".Xr grep" in text or b"$ grep" in text]
    return Verdict(Answer(), Answer("\n".join(faults).encode(), b"", status))


ODD_NAMES = ["", "a/b", "a&b", "a b", "-a", ".", "occur"]
"""What grep can't be called."""


@grep_case("`make install` refuses an odd GREP_NAME, and installs nothing.")
def odd_names(bench: Bench) -> Verdict:
    said = []
    for target in ("install", "install-occur", "uninstall", "uninstall-occur"):
        for name in ODD_NAMES:
            ran = ran_in(checkout(bench), target, f"PREFIX={bench.folder / 'there'}", f"GREP_NAME={name}", "FORCE=1")
            said.append(f"{ran.returncode} {ran.stderr.startswith(b'GREP_NAME ')}")
    wanted = "\n".join([f"{FAILED} True"] * len(said))
    return Verdict(Answer(wanted.encode()), Answer("\n".join(said).encode() + files_in(bench.folder / "there")))


@grep_case("The links of the installed README and changelog are absolute, and name files of the repository.")
def absolute_links(bench: Bench) -> Verdict:
    status = install(bench)
    texts = [(bench.folder / "there/share/doc/gaxtrel" / name).read_text(encoding="utf-8")
             for name in ("README.md", "CHANGELOG.md")]
    links = [link for text in texts for link in re.findall(r"\]\(([^)\s]+)\)", text) if not link.startswith("#")]
    control = (REPOSITORY / "dist/debian/control").read_text(encoding="utf-8")
    home = re.search(r"^Homepage: (.*)$", control, re.MULTILINE)[1] + "/"
    faults = [link for link in links if not link.startswith(("https://", "http://")) or
              link.startswith(home) and not (REPOSITORY / link.removeprefix(home).partition("#")[0]).exists()]
    if not any(link.startswith(home) for link in links):
        faults.append("there is no link")
    return Verdict(Answer(), Answer("\n".join(faults).encode(), b"", status))


OWN_FOLDERS = ["share/doc/gaxtrel", "nvim/plugin", "nvim/doc", "nvim/lua"]
"""The folders that are made for what is installed here, and stay if another file is in them."""


def left_folders(there: Path) -> list[str]:
    return [name for name in OWN_FOLDERS if (there / name).exists()]


@grep_case("`make uninstall` leaves a folder in which another file is.")
def shared_folder(bench: Bench) -> Verdict:
    there = bench.folder / "there"
    words = [f"PREFIX={there}", f"NVIM_SITE={there / 'nvim'}"]
    statuses = [make(bench, "install", *words)]
    bench.write("there/nvim/plugin/another.lua", b"")
    statuses.append(make(bench, "uninstall", *words))
    return Verdict(Answer(b"nvim/plugin/another.lua ['nvim/plugin'] [0, 0]"),
                   Answer(files_in(there) + f" {left_folders(there)} {statuses}".encode()))


@grep_case("`make uninstall` removes all that `make install` has installed, and nothing else.")
def uninstalled(bench: Bench) -> Verdict:
    words = ["GREP_NAME=gaxgrep", f"PREFIX={bench.folder / 'there'}", f"SITE_LISP={bench.folder / 'there/lisp'}",
             f"NVIM_SITE={bench.folder / 'there/nvim'}"]
    put_grep(bench, OTHER_GREP)
    statuses = make(bench, "install", *words), make(bench, "uninstall", *words)
    left = f" {statuses} {left_folders(bench.folder / 'there')}"
    return Verdict(Answer(b"bin/grep (0, 0) []"), Answer(files_in(bench.folder / "there") + left.encode()))


@grep_case("`make uninstall` leaves another grep that is there as it is, removes nothing, and names what does.")
def not_uninstalled(bench: Bench) -> Verdict:
    put_grep(bench, OTHER_GREP)
    bench.write("there/bin/occur", b"")
    ran = ran_in(checkout(bench), "uninstall", f"PREFIX={bench.folder / 'there'}")
    named = b"uninstall-occur" if b"make uninstall-occur" in ran.stderr else ran.stderr
    return Verdict(Answer(b"bin/grep\nbin/occur", b"uninstall-occur", FAILED),
                   Answer(files_in(bench.folder / "there"), named, ran.returncode))


@grep_case("Another grep stays as it is, whatever is uninstalled, and by whatever words; occur goes.")
def survives(bench: Bench) -> Verdict:
    there, answers = bench.folder / "there", []
    for target in ("uninstall", "uninstall-occur", "uninstall-lib"):
        for words in ([], ["FORCE=1"], ["FORCE=1", "GREP_NAME=grep"], [f"DESTDIR={bench.folder}", "PREFIX=/there"]):
            put_grep(bench, OTHER_GREP)
            make(bench, "install-occur", f"PREFIX={there}")
            make(bench, target, f"PREFIX={there}", *words, FORCE="1")
            answers.append(f"{target} {(there / 'bin/grep').read_bytes() == OTHER_GREP} {(there / 'bin/occur').exists()}")
    wanted = [f"{target} True {target != 'uninstall-occur'}"
              for target in ("uninstall", "uninstall-occur", "uninstall-lib") for _ in range(4)]
    return Verdict(Answer("\n".join(wanted).encode()), Answer("\n".join(answers).encode()))


@grep_case("`make uninstall` knows this grep where none is built.")
def uninstalled_without_a_build(bench: Bench) -> Verdict:
    there = bench.folder / "there"
    statuses = [install(bench), make(bench, "clean"), make(bench, "uninstall", f"PREFIX={there}")]
    return Verdict(Answer(b"[0, 0, 0]"), Answer(f"{statuses}".encode() + files_in(there)))


@grep_case("`make` without `rt` says that it is not on the path, and where README says more.")
def without_rt(bench: Bench) -> Verdict:
    folder = checkout(bench)
    shutil.rmtree(folder / "build")
    paths = [path for path in os.environ["PATH"].split(":") if not (Path(path) / "rt").exists()]
    ran = ran_in(folder, PATH=":".join(paths))
    said = [text for text in (b"`rt` is not on the path", b"README") if text in ran.stderr]
    return Verdict(Answer(b"`rt` is not on the path README", b"", FAILED), Answer(b" ".join(said), b"", ran.returncode))


@occur_case("`make uninstall-occur` removes all that `make install-occur` has installed, and nothing else.")
def occur_uninstalled(bench: Bench) -> Verdict:
    there = bench.folder / "there"
    words = [f"PREFIX={there}", f"SITE_LISP={there / 'lisp'}", f"NVIM_SITE={there / 'nvim'}"]
    put_grep(bench, OTHER_GREP)
    statuses = make(bench, "install-occur", *words), make(bench, "uninstall-occur", *words)
    left = f" {statuses} {left_folders(there)}"
    return Verdict(Answer(b"bin/grep (0, 0) []"), Answer(files_in(there) + left.encode()))


@occur_case("`make install-occur` installs occur alone, which needs no grep.")
def occur_alone(bench: Bench) -> Verdict:
    there = bench.folder / "there"
    put_grep(bench, OTHER_GREP)
    status = make(bench, "install-occur", f"PREFIX={there}")
    wanted = listed(["bin/grep", *installed_of("occur"), *TEXTS])
    return Verdict(Answer(REPLIES, wanted), Answer(found_by(there / "bin/occur"), files_in(there), status))


# The library for C

LIBRARIES = ["libgaxtrel.a", "libgaxtrel.so", "libgaxtrel.so.0", "pkgconfig/gaxtrel.pc"]
PAGES = ["include/gaxtrel.h", "share/man/man3/gaxtrel.3"]


@grep_case("`make install-lib` proves nothing: without a library it says what builds one.")
def no_library(bench: Bench) -> Verdict:
    ran = ran_in(checkout(bench), "install-lib", f"PREFIX={bench.folder / 'there'}")
    said = b"make lib" if b"run `make lib` first" in ran.stderr else ran.stderr
    return Verdict(Answer(b"", b"make lib", FAILED), Answer(files_in(bench.folder / "there"), said, ran.returncode))


@grep_case("`make install-lib` copies the library to LIBDIR, `make uninstall-lib` removes it.")
def library_folder(bench: Bench) -> Verdict:
    folder, stage = checkout(bench), bench.folder / "stage"
    for name in ("libgaxtrel.a", "libgaxtrel.so.0"):
        bench.write(f"checkout/build/lib/{name}", b"")
    words = [f"DESTDIR={stage}", "PREFIX=/usr", "LIBDIR=/usr/lib/x86_64-linux-gnu"]
    statuses = [make_in(folder, "install-lib", *words)]
    there = files_in(stage / "usr")
    described = (stage / "usr/lib/x86_64-linux-gnu/pkgconfig/gaxtrel.pc").read_text(encoding="ascii")
    statuses.append(make_in(folder, "uninstall-lib", *words))
    wanted = listed([*PAGES, *(f"lib/x86_64-linux-gnu/{name}" for name in LIBRARIES)])
    named = "prefix=/usr\n" in described and "libdir=${prefix}/lib/x86_64-linux-gnu\n" in described
    return Verdict(Answer(wanted + b" True [0, 0]"), Answer(there + f" {named} {statuses}".encode() + files_in(stage)))


# Symbols


def sections_of(program: Path) -> set[str]:
    """The names of a program's sections that tell of symbols."""
    if not shutil.which("readelf"):
        raise Skipped("no readelf")
    ran = subprocess.run(["readelf", "-W", "-S", program], timeout=SECONDS, capture_output=True, check=True)
    return {name for name in (".symtab", ".gnu_debuglink") if f" {name} ".encode() in ran.stdout}


@grep_case("`make install` strips a program, and keeps its symbols in build/debug.")
def stripped(bench: Bench) -> Verdict:
    if not shutil.which("objcopy"):
        raise Skipped("no objcopy")
    status = install(bench)
    names = [sorted(sections_of(bench.folder / file))
             for file in ("checkout/build/debug/grep.debug", "there/bin/grep")]
    wanted = [sorted(sections_of(bench.program)), [".gnu_debuglink"]]
    return Verdict(Answer(str(wanted).encode()), Answer(str(names).encode(), b"", status))


@grep_case("`make install` without objcopy installs programs as they are.")
def not_stripped(bench: Bench) -> Verdict:
    status = install(bench, OBJCOPY="no-such-objcopy")
    same = (bench.folder / "there/bin/grep").read_bytes() == bench.program.read_bytes()
    debug = files_in(bench.folder / "checkout/build/debug")
    return Verdict(Answer(b"True"), Answer(f"{same}".encode() + debug, b"", status))
