"""Builds the wheel of the package: the modules, and the extension, of core.c and of the archive
libgaxtrel.a. That is the one that `make lib` has made, or the one that GAXTREL_ARCHIVE names. It is a
build backend (PEP 517) of its own, since setuptools makes no wheel without another package in its older
versions, and a machine without a network has only what is there.
"""

from __future__ import annotations

import base64
import hashlib
import os
import shlex
import subprocess
import sysconfig
import tempfile
import tomllib
import zipfile
from pathlib import Path
from typing import Any

HERE = Path(__file__).resolve().parent
REPOSITORY = HERE.parent.parent
PACKAGE = "gaxtrel"
CORE = "_core.abi3.so"
LICENSES = ("LICENSE-APACHE", "LICENSE-MIT")


def version() -> str:
    return (REPOSITORY / "VERSION").read_text(encoding="ascii").strip()


def tag() -> str:
    """Python 3.11 and later on this platform, by the stable ABI."""
    return f"cp311-abi3-{sysconfig.get_platform().replace('-', '_').replace('.', '_')}"


def linked() -> bytes:
    """The extension."""
    archive = Path(os.environ.get("GAXTREL_ARCHIVE", REPOSITORY / "build/lib/libgaxtrel.a"))
    if not archive.is_file():
        raise SystemExit(f"{archive} is not there: `make lib` makes it")
    with tempfile.TemporaryDirectory() as folder:
        library = Path(folder) / CORE
        subprocess.run([*shlex.split(os.environ.get("CC", "cc")), "-O2", "-fPIC", "-shared", "-fvisibility=hidden",
                        f"-I{HERE.parent}", f"-I{sysconfig.get_path('include')}", HERE / "core.c", archive,
                        "-Wl,--exclude-libs,ALL,-z,text,-z,relro,-z,now", "-s", "-o", library], check=True)
        return library.read_bytes()


def metadata() -> str:
    """What the project says of itself."""
    project = tomllib.loads((HERE / "pyproject.toml").read_text(encoding="utf-8"))["project"]
    lines = ["Metadata-Version: 2.1", f"Name: {project['name']}", f"Version: {version()}",
             f"Summary: {project['description']}", f"License: {project['license']}",
             f"Requires-Python: {project['requires-python']}", *(f"License-File: {name}" for name in LICENSES),
             "Description-Content-Type: text/markdown", "", (HERE / "README.md").read_text(encoding="utf-8")]
    return "\n".join(lines)


def row(name: str, content: bytes) -> str:
    """A line of the list of files."""
    digest = base64.urlsafe_b64encode(hashlib.sha256(content).digest()).rstrip(b"=").decode()
    return f"{name},sha256={digest},{len(content)}\n"


def build_wheel(wheel_directory: str, config_settings: Any = None, metadata_directory: Any = None) -> str:
    """Writes the wheel, and answers its name."""
    about = f"{PACKAGE}-{version()}.dist-info"
    files = {f"{PACKAGE}/{file.name}": file.read_bytes() for file in sorted((HERE / PACKAGE).glob("*"))
             if file.is_file()}
    files[f"{PACKAGE}/{CORE}"] = linked()
    files[f"{about}/METADATA"] = metadata().encode()
    files[f"{about}/WHEEL"] = (f"Wheel-Version: 1.0\nGenerator: {Path(__file__).stem}\nRoot-Is-Purelib: false\n"
                               f"Tag: {tag()}\n").encode()
    files |= {f"{about}/{name}": (REPOSITORY / name).read_bytes() for name in LICENSES}
    rows = "".join(row(*file) for file in files.items())
    files[f"{about}/RECORD"] = f"{rows}{about}/RECORD,,\n".encode()
    wheel = f"{PACKAGE}-{version()}-{tag()}.whl"
    with zipfile.ZipFile(Path(wheel_directory) / wheel, "w", zipfile.ZIP_DEFLATED) as archive:
        for name, content in files.items():
            entry = zipfile.ZipInfo(name)
            entry.external_attr = 0o100644 << 16
            archive.writestr(entry, content, zipfile.ZIP_DEFLATED)
    return wheel


def build_sdist(sdist_directory: str, config_settings: Any = None) -> str:
    raise SystemExit("the sources of the package are those of the repository")
