"""Prints the rows of Python for the table of bench.cc: thousands of calls per second of processor time on lines of 100
bytes, of the package and of `re`."""

import random
import re
import time
from collections.abc import Callable

import gaxtrel


def rate(call: Callable[[bytes], object], lines: list[bytes]) -> str:
    start, done = time.process_time(), 0
    while (spent := time.process_time() - start) < 0.3:
        for line in lines:
            call(line)
        done += len(lines)
    number = done / spent / 1000
    return f"{float(f'{number:.3g}'):,.0f}" if number > 99 else f"{number:.2g}"


random.seed(7)
log = [bytes(random.choices(b"abcdefghij klmnop: qrstuvwxyz 0123456789", k=100)) for _ in range(200)]
log[::10] = [line[:60] + b"error: disk 507" + line[75:] for line in log[::10]]
for pattern, lines in ((b"error: [a-z]+ [0-9]{3}", log), (b"[0-9]{3} ?[a-f]+[x-z]", log), (b"(a*)*[bc]", [b"a" * 20])):
    own, other = (rate(it, lines) for it in (gaxtrel.compile(pattern).is_match, re.compile(pattern).search))
    print(f"| Python: `{pattern.decode()}` on {len(lines[0])} bytes | {own} | `re`: {other} | | |", flush=True)
