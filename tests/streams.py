"""Streams and limits that cases hand to a program: folders, full and failing devices, pipes without
a reader, and inputs that come late. They need Linux.
"""

from __future__ import annotations

import os
import pty
import resource
import select
import signal
import threading
import time
import tty
from collections.abc import Callable, Iterator
from contextlib import contextmanager
from pathlib import Path

from program import SECONDS, Skipped


@contextmanager
def opened(path: str | Path, flags: int = os.O_RDONLY) -> Iterator[int]:
    """A handle of a file, or of a folder."""
    handle = os.open(path, flags)
    try:
        yield handle
    finally:
        os.close(handle)


@contextmanager
def full_device() -> Iterator[int]:
    """A device each write to which fails."""
    if not os.path.exists("/dev/full"):
        raise Skipped("there is no /dev/full")
    with opened("/dev/full", os.O_WRONLY) as handle:
        yield handle


@contextmanager
def pipe_without_reader() -> Iterator[int]:
    """The end for writing of a pipe whose reader is gone."""
    reader, writer = os.pipe()
    os.close(reader)
    try:
        yield writer
    finally:
        os.close(writer)


@contextmanager
def failing_input(content: bytes) -> Iterator[int]:
    """A handle that gives these bytes, and whose next read then fails: the controlling side of a
    terminal that the other side has left."""
    ours, theirs = pty.openpty()
    tty.setraw(theirs)
    if content:
        os.write(theirs, content)
    os.close(theirs)
    try:
        yield ours
    finally:
        os.close(ours)


def with_room(size: int) -> Callable[[], None]:
    """Makes that no file can grow past this size: a write that would, takes a part or fails."""

    def limit() -> None:
        signal.signal(signal.SIGXFSZ, signal.SIG_IGN)
        resource.setrlimit(resource.RLIMIT_FSIZE, (size, size))

    return limit


def with_little_stack() -> None:
    """Gives the program a stack of 128 KB, which is what musl gives a thread."""
    resource.setrlimit(resource.RLIMIT_STACK, (1 << 17, 1 << 17))


def feed_slowly(handle: int, content: bytes) -> None:
    """Writes one byte after the other, with pauses, so that each is read by itself."""
    for byte in content:
        os.write(handle, bytes((byte,)))
        time.sleep(0.002)


def feed_named_pipe(path: Path, content: bytes) -> None:
    """Makes a named pipe, and gives it this content once it is opened."""
    os.mkfifo(path)
    threading.Thread(target=path.write_bytes, args=(content,), daemon=True).start()


def seen_within(handle: int, size: int) -> bytes:
    """What comes from a handle, up to a size, as long as it does not keep us waiting."""
    seen = b""
    while len(seen) < size and select.select([handle], [], [], SECONDS / 4)[0]:
        piece = os.read(handle, size - len(seen))
        if not piece:
            break
        seen += piece
    return seen
