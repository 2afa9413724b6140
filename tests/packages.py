"""Cases of `make dist` and `make deb`: what they pack, and that it can be installed, run and removed.
They need GNU make; some need git, dpkg and lintian of Debian, and the library that `make lib` builds.

They run in a checkout as those of tests/install.py.
"""

from __future__ import annotations

import hashlib
import io
import os
import shutil
import subprocess
import sys
import tarfile
from pathlib import Path

from install import (
    EMACS_CLIENT,
    FAILED,
    INSTALLED,
    LIBRARIES,
    NVIM_CLIENT,
    OTHER_GREP,
    PAGES,
    PATIENCE,
    REPOSITORY,
    checkout,
    files_in,
    found_by,
    listed,
    make,
    make_in,
    ran_in,
)
from program import SECONDS, Answer, Bench, Cases, Skipped, Verdict, all_of
from samples import TWO_LINES

VERSION = (REPOSITORY / "VERSION").read_text(encoding="ascii").strip()
PROGRAMS = f"gaxtrel-{VERSION}-x86_64-linux"
"""The folder in the archive of the programs, and in that of their symbols."""

SOURCES = f"gaxtrel-{VERSION}"
PACK = "share/nvim/site/pack/dist/start/live-occur"
"""The folder of the Neovim client, from which Neovim loads it by itself."""

CLIENTS = [*(f"share/emacs/site-lisp/{name}" for name in EMACS_CLIENT),
           *(f"{PACK}/{name}" for name in ("doc/tags", *NVIM_CLIENT))]
DATE = "1700000000"
"""A time for the files in packages."""

MADE = ["build/log/gate", "crates/re_syntax/out/rlib", "tests/__pycache__/run.pyc", "editors/nvim/doc/tags"]
"""Files that no archive of the sources has."""

grep_case = Cases("grep", "packages.py")
occur_case = Cases("occur", "packages.py")
cases = all_of(grep_case, occur_case)
"""All cases of this file."""


def needs(*names: str) -> None:
    """Skips the case where one of these programs is not there."""
    for name in names:
        if not shutil.which(name):
            raise Skipped(f"no {name}")


def put_library(bench: Bench) -> None:
    """Puts the library into the checkout, if it is built."""
    built = REPOSITORY / "build/lib"
    for name in LIBRARIES[::2]:
        if (built / name).exists():
            bench.write(f"checkout/build/lib/{name}", (built / name).read_bytes())


def library_in(bench: Bench, target: str) -> None:
    """Makes the target in a checkout that has the library."""
    checkout(bench)
    put_library(bench)
    if not (bench.folder / "checkout/build/lib").exists():
        raise Skipped("the library is not built")
    if make(bench, target, SOURCE_DATE_EPOCH=DATE):
        raise OSError(f"`make {target}` has failed")


def unpacked(bench: Bench, name: str) -> Path:
    """The folder to which an archive is unpacked."""
    folder = bench.folder / "unpacked"
    with tarfile.open(bench.folder / f"checkout/build/{name}.tar.gz") as archive:
        archive.extractall(folder)
    return folder


@grep_case("`make dist` packs both programs, what is installed with them, the clients of editors and a README.")
def packed(bench: Bench) -> Verdict:
    status = make(bench, "dist")
    folder = unpacked(bench, PROGRAMS) / PROGRAMS
    wanted = listed([*INSTALLED, *CLIENTS, "README"])
    return Verdict(Answer(TWO_LINES, wanted), Answer(found_by(folder / "bin/grep"), files_in(folder), status))


@grep_case("`make dist` packs the symbols of both programs, where a debugger looks for them beside the programs.")
def symbols(bench: Bench) -> Verdict:
    needs("objcopy")
    status = make(bench, "dist")
    there = files_in(unpacked(bench, f"{PROGRAMS}-debug") / PROGRAMS)
    return Verdict(Answer(b"bin/.debug/grep.debug\nbin/.debug/occur.debug"), Answer(there, b"", status))


USER = b"""#include <gaxtrel.h>
int main(void) {
    gaxtrel_matcher m = GAXTREL_NONE;
    gaxtrel_fault fault;
    return gaxtrel_compile(&m, (const uint8_t *)"a(", 2, GAXTREL_EXTENDED, false, false, &fault) != GAXTREL_REFUSED;
}
"""


def used_library(bench: Bench, library: Path, *words: str) -> int:
    """Compiles a program with these words and the library in a folder, and answers what it answers."""
    needs("cc")
    bench.write("user.c", USER)
    subprocess.run(["cc", bench.folder / "user.c", "-o", bench.folder / "user", *words], timeout=SECONDS, check=True)
    return subprocess.run([bench.folder / "user"], env={"LD_LIBRARY_PATH": str(library)}, timeout=SECONDS,
                          check=False).returncode


@grep_case("`make dist` packs the library that is built, which pkg-config finds in any folder.")
def packed_library(bench: Bench) -> Verdict:
    needs("pkg-config")
    library_in(bench, "dist")
    folder = unpacked(bench, f"lib{PROGRAMS}") / f"lib{PROGRAMS}"
    said = subprocess.run(["pkg-config", "--cflags", "--libs", "gaxtrel"], check=True, capture_output=True,
                          env={"PATH": os.environ["PATH"], "PKG_CONFIG_PATH": str(folder / "lib/pkgconfig")})
    status = used_library(bench, folder / "lib", *said.stdout.decode().split())
    wanted = listed(["LICENSE-APACHE", "LICENSE-MIT", *PAGES, *(f"lib/{name}" for name in LIBRARIES)])
    return Verdict(Answer(wanted), Answer(files_in(folder), b"", status))


def sources_of(bench: Bench) -> list[str]:
    """The names of all files in the archive of the sources."""
    folder = unpacked(bench, SOURCES) / SOURCES
    return [str(file.relative_to(folder)) for file in folder.rglob("*") if file.is_file()]


@grep_case("`make dist` without git packs all sources, and nothing that was made of them.")
def sources(bench: Bench) -> Verdict:
    folder = checkout(bench)
    wanted = [name for name in files_in(folder).decode().split("\n")
              if not name.startswith("build/") and "__pycache__" not in name]
    for name in MADE:
        bench.write(f"checkout/{name}", b"")
    status = make(bench, "dist")
    return Verdict(Answer(listed(wanted)), Answer(listed(sources_of(bench)), b"", status))


@grep_case("`make dist` packs the sources that git knows.")
def known_sources(bench: Bench) -> Verdict:
    needs("git")
    known = ["Makefile", "VERSION", "tools/dist.sh"]
    for words in (["init", "-q"], ["add", *known]):
        subprocess.run(["git", *words], cwd=checkout(bench), timeout=SECONDS, check=True)
    status = make(bench, "dist", f"SOURCE_DATE_EPOCH={DATE}")
    return Verdict(Answer(listed(known)), Answer(listed(sources_of(bench)), b"", status))


@grep_case("The packed sources install the programs, which run and are removed, and pack the same archives.")
def installed_sources(bench: Bench) -> Verdict:
    statuses = [make(bench, "dist")]
    folder, there = unpacked(bench, SOURCES) / SOURCES, bench.folder / "there"
    build, sums = folder / "build", (bench.folder / "checkout/build/SHA256SUMS").read_bytes()
    build.mkdir()
    for name in ("grep", "occur"):
        shutil.copy(bench.folder / "checkout/build" / name, build)
    statuses += [make_in(folder, "dist"), make_in(folder, "install", f"PREFIX={there}")]
    found = found_by(there / "bin/grep")
    statuses.append(make_in(folder, "uninstall", f"PREFIX={there}"))
    given = f"{(build / 'SHA256SUMS').read_bytes() == sums} {statuses}"
    return Verdict(Answer(TWO_LINES + b"True [0, 0, 0, 0]"), Answer(found + given.encode(), files_in(there)))


@grep_case("`make dist` writes the checksums of what it packs.")
def checksums(bench: Bench) -> Verdict:
    status = make(bench, "dist")
    build = bench.folder / "checkout/build"
    archives = sorted(build.glob("*.tar.gz"))
    wanted = [f"{hashlib.sha256(archive.read_bytes()).hexdigest()}  {archive.name}" for archive in archives]
    given = (build / "SHA256SUMS").read_text(encoding="ascii").splitlines()
    return Verdict(Answer(listed([*wanted, "3"])), Answer(listed([*given, f"{len(archives)}"]), b"", status))


@grep_case("With one SOURCE_DATE_EPOCH `make dist` and `make deb` pack the same bytes, whatever the umask.")
def same_bytes(bench: Bench) -> Verdict:
    needs("dpkg-shlibdeps")
    checkout(bench)
    put_library(bench)
    sums, statuses = [], []
    for umask in (0o022, 0o077):
        before = os.umask(umask)
        try:
            statuses.append(make(bench, "dist", "deb", SOURCE_DATE_EPOCH=DATE))
        finally:
            os.umask(before)
        sums.append((bench.folder / "checkout/build/SHA256SUMS").read_bytes())
    times = {member.mtime for member in tarfile.open(bench.folder / f"checkout/build/{SOURCES}.tar.gz")}
    return Verdict(Answer(sums[0], DATE.encode() + b" [0, 0]"),
                   Answer(sums[1], " ".join(map(str, [*times, statuses])).encode()))


HELPED = "call writefile([expand('%:t'), exists(':LiveOccur')], $SAID)"
"""What Neovim writes of the help that it shows, and of a command of the client."""


@grep_case("Neovim finds the packed client and its help, by the tags that it would make itself.")
def nvim_help(bench: Bench) -> Verdict:
    needs("nvim")
    status = make(bench, "dist")
    folder = unpacked(bench, PROGRAMS) / PROGRAMS
    tags = folder / PACK / "doc/tags"
    packed = tags.read_bytes()
    environment = {"PATH": os.environ["PATH"], "HOME": str(bench.folder), "XDG_DATA_DIRS": f"{folder / 'share'}",
                   "SAID": str(bench.folder / "said")}
    for commands in (["-c", "help live-occur", "-c", HELPED], ["-c", f"helptags {tags.parent}"]):
        subprocess.run(["nvim", "--headless", "-u", "NORC", "-i", "NONE", "-n", *commands, "-c", "quitall!"],
                       env=environment, timeout=SECONDS, stdin=subprocess.DEVNULL, capture_output=True, check=False)
    said = (bench.folder / "said").read_bytes()
    return Verdict(Answer(b"live-occur.txt\n2\nTrue"),
                   Answer(said + f"{tags.read_bytes() == packed}".encode(), b"", status))


@occur_case("`make dist` and `make deb` pack nothing where the built occur is of another version.")
def other_version(bench: Bench) -> Verdict:
    folder = checkout(bench)
    shutil.copy(bench.program, folder / "build/grep")
    (folder / "VERSION").write_text("99.0.0\n", encoding="ascii")
    ran = [ran_in(folder, target) for target in ("dist", "deb")]
    named = [b"VERSION is 99.0.0" in each.stderr for each in ran]
    made = [file.name for file in (folder / "build").glob("gaxtrel*")]
    return Verdict(Answer(f"{[FAILED] * 2} {[True] * 2} []".encode()),
                   Answer(f"{[each.returncode for each in ran]} {named} {made}".encode()))


# For Debian


def packed_deb(bench: Bench) -> Path:
    """The package for Debian, beside which are those of the library, if it is built."""
    needs("dpkg-shlibdeps")
    checkout(bench)
    put_library(bench)
    if make(bench, "deb", SOURCE_DATE_EPOCH=DATE):
        raise OSError("`make deb` has failed")
    return bench.folder / f"checkout/build/gaxtrel_{VERSION}_amd64.deb"


def dpkg(root: Path, *words: str | Path) -> None:
    """Runs dpkg on a system of its own in a folder, in which the C library is missing."""
    subprocess.run(["dpkg", f"--root={root}", "--force-depends", *words], timeout=PATIENCE, capture_output=True,
                   env={"PATH": os.environ["PATH"] + ":/usr/sbin:/sbin"}, check=True)


def programs_in(root: Path) -> list[str]:
    return sorted(file.name for file in root.glob("usr/bin/*"))


@grep_case("The package for Debian is installed beside another grep, runs, and is removed.")
def installed_deb(bench: Bench) -> Verdict:
    package, root = packed_deb(bench), bench.folder / "root"
    if os.geteuid():
        raise Skipped("only root can install a package")
    bench.write("root/usr/bin/grep", OTHER_GREP)
    bench.write("root/var/lib/dpkg/status", b"")
    for name in ("info", "updates"):
        (root / "var/lib/dpkg" / name).mkdir()
    dpkg(root, "--install", package)
    with_it, found = programs_in(root), found_by(root / "usr/bin/gaxgrep")
    dpkg(root, "--purge", "gaxtrel")
    left = [str(file.relative_to(root)) for file in root.glob("usr/**/*") if file.is_file()]
    wanted = [["gaxgrep", "grep", "occur"], ["usr/bin/grep"]]
    return Verdict(Answer(TWO_LINES, str(wanted).encode()), Answer(found, str([with_it, left]).encode()))


IN_PLACES_OF_DEBIAN = [*(f"./usr/share/zsh/vendor-completions/_gaxtrel_{name}" for name in ("gaxgrep", "occur")),
                       f"./usr/{PACK}/doc/tags"]


@grep_case("The package for Debian has completions where its zsh looks, and the tags of the help.")
def places_of_debian(bench: Bench) -> Verdict:
    package = packed_deb(bench)
    ran = subprocess.run(["dpkg-deb", "--fsys-tarfile", package], timeout=PATIENCE, capture_output=True, check=True)
    with tarfile.open(fileobj=io.BytesIO(ran.stdout)) as archive:
        names = archive.getnames()
    found = [name for name in names if "/zsh/" in name and "_gaxtrel_" in name or name.endswith("/tags")]
    return Verdict(Answer(listed(IN_PLACES_OF_DEBIAN)), Answer(listed(found)))


def root_of(bench: Bench, *names: str) -> Path:
    """The folder to which packages of the library are unpacked."""
    needs("dpkg-shlibdeps")
    library_in(bench, "deb")
    root = bench.folder / "root"
    for name in names:
        package = bench.folder / f"checkout/build/{name}_{VERSION}_amd64.deb"
        subprocess.run(["dpkg-deb", "--extract", package, root], timeout=PATIENCE, check=True)
    shutil.rmtree(root / "usr/share/doc")
    return root


@grep_case("The packages libgaxtrel0 and libgaxtrel-dev have the library, and what a program in C needs of it.")
def library_for_debian(bench: Bench) -> Verdict:
    root = root_of(bench, "libgaxtrel0", "libgaxtrel-dev")
    library = root / "usr/lib/x86_64-linux-gnu"
    status = used_library(bench, library, f"-I{root}/usr/include", f"-L{library}", "-lgaxtrel")
    wanted = listed([*PAGES[:1], f"{PAGES[1]}.gz", *(f"lib/x86_64-linux-gnu/{name}" for name in LIBRARIES)])
    return Verdict(Answer(wanted), Answer(files_in(root / "usr"), b"", status))


@grep_case("The package python3-gaxtrel has the package for Python.")
def python_for_debian(bench: Bench) -> Verdict:
    packages = root_of(bench, "python3-gaxtrel") / "usr/lib/python3/dist-packages"
    said = "import gaxtrel; print(gaxtrel.__version__, gaxtrel.compile(b'ab|b').search(b'xab').span())"
    ran = subprocess.run([sys.executable, "-c", said], env={"PYTHONPATH": str(packages)}, timeout=SECONDS,
                         capture_output=True, check=False)
    return Verdict(Answer(f"{VERSION} (1, 3)\n".encode()), Answer(ran.stdout, ran.stderr, ran.returncode))


@grep_case("lintian finds no fault in the packages for Debian.")
def lintian(bench: Bench) -> Verdict:
    needs("lintian")
    package = packed_deb(bench)
    words = ["lintian", "--allow-root", "--fail-on=error,warning,info,pedantic", "-I", "--pedantic",
             # it reads words in machine code
             "--suppress-tags=spelling-error-in-binary", *sorted(package.parent.glob("*.deb"))]
    ran = subprocess.run(words, timeout=PATIENCE, stdout=subprocess.PIPE, stderr=subprocess.DEVNULL,
                         env={"PATH": os.environ["PATH"], "LC_ALL": "C.UTF-8"}, check=False)
    return Verdict(Answer(), Answer(ran.stdout, b"", ran.returncode))
