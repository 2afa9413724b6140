"""Compares gaxtrel_dask with the built grep: test.py GREP. The last line is `N passed, M failed`."""

import random
import subprocess
import sys
import tempfile
from pathlib import Path

CASES = [("error|b+c\n^$\n[0-9]{3}x*$", 0), ("", 2), ("none of this", 2), ("a\n", 200), ("a(b\nx", 0)]
"""Lists of patterns, and how many of the last files are left out."""



def files(folder: Path) -> list[str]:
    """Names of files, and of some that can't be read."""
    random.seed(7)
    texts = [b"", b"\n", b"a\0bc\nerror", b"x\xff bbc\n\n123x\n" * 20_000]
    lines = ["", "error", "abbc", "123", "x 456", "é"]
    texts += ["\n".join(random.choices(lines, k=random.randrange(50))).encode() for _ in range(200)]
    for number, text in enumerate(texts):
        (folder / f"{number} é").write_bytes(text)
    return [str(folder / f"{number} é") for number in range(len(texts))] + [str(folder), str(folder / "missing")]


def answer(*words: str) -> tuple[int, bytes, bytes]:
    """The status, the output and the messages of a program."""
    ran = subprocess.run(words, stdin=subprocess.DEVNULL, capture_output=True, timeout=120, check=False)
    return ran.returncode, ran.stdout, ran.stderr


failed = 0
with tempfile.TemporaryDirectory() as folder:
    names = files(Path(folder))
    for patterns, fewer in CASES:
        some = names[:len(names) - fewer]
        given = answer(sys.executable, "-m", "gaxtrel_dask", patterns, *some)
        wanted = answer(sys.argv[1], "-En", patterns, *some)
        if given != wanted:
            failed += 1
            print(f"{patterns!r}: status {given[0]}, {given[2].decode()}, and grep {wanted[0]}, {wanted[2].decode()}")
print(f"{len(CASES) - failed} passed, {failed} failed")
sys.exit(failed > 0)
