"""Libraries that are loaded before the C library, and that refuse a program some of its calls. They
want a C compiler."""

from __future__ import annotations

import os
import subprocess
from pathlib import Path

TOOLS = Path(__file__).parent.parent / "tools"


def compiler() -> str:
    """The C compiler."""
    return os.environ.get("CC", "cc")


def build_library(source: str, folder: Path) -> Path:
    """Compiles a library of tools/ into a folder."""
    library = folder / "refuse.so"
    subprocess.run(
        [compiler(), "-shared", "-fPIC", "-O1", "-o", library, TOOLS / source, "-ldl"], check=True)
    return library
