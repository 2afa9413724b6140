"""Texts that the cases of several files share."""

from __future__ import annotations

TWO_LINES = b"a\nba\n"
"""An input of grep, often the file `f`: pattern `a` selects both lines."""

CANNOT_OPEN = b"grep: nofile: cannot open\n"
WRITE_ERROR = b"grep: write error\n"
INPUT_READ_ERROR = b"grep: (standard input): read error\n"

SCRIPT = b"file f 1\nab\npatterns 1\na\nshow\n"
"""A script of occur. Its commands end after 12, 25 and 30 bytes."""

REPLIES = b"ok\nok\no ab\nstatus 0\n"
"""The replies to it, 20 bytes."""

SCRIPT_CANNOT_OPEN = b"occur: nofile: cannot open\n"
SCRIPT_READ_ERROR = b"occur: read error\n"
REPLY_WRITE_ERROR = b"occur: write error\n"

DEEP = "(" * 256 + "a" + ")" * 256
"""An extended pattern of 256 levels, the most there may be: groups of one item."""

DEEP_ENDS = "(" * 256 + "a" + "b|c)" * 256
"""Another, with a choice at each level: `a` and 256 times `b`, or `c` and `b` at most 255 times."""

DEEP_HEADS = "(b" * 256 + "a" + "|c)" * 256
"""The same from the other end: 256 times `b` and `a`, or `b` at most 255 times and `c`."""

DEEP_REPEATS = "(" * 128 + "a" + "b|c)*" * 128
"""Another, of 128 groups, each repeated: an `a` has `b` 128 times after it."""
