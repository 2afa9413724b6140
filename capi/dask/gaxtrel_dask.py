"""`grep -EHn` of files on a cluster of Dask: each file is a task of a worker, and rows come in the order of files.

    with distributed.Client(address) as client:
        status = gaxtrel_dask.grep(client, gaxtrel.compile_lines(b"error|fatal"), names)

    python3 -m gaxtrel_dask LIST FILE..          # on processes of this machine
"""

from __future__ import annotations

import os
import sys

import distributed
import gaxtrel


def search(pattern: gaxtrel.Pattern, name: str) -> tuple[bytes, str]:
    """The rows of a file, or why there are none."""
    try:
        with open(name, "rb") as file:
            text = file.read()
    except OSError as error:  # which names the file if it came before the first read
        opened = error.filename is None or isinstance(error, IsADirectoryError)
        return b"", f"grep: {name}: {'read error' if opened else 'cannot open'}\n"
    rows, number, at = [], 1, 0
    for line in pattern.lines(text):
        number += text.count(b"\n", at, line.start())
        at = line.start()
        rows.append(b"%s:%d:%s\n" % (os.fsencode(name), number, line.group()))
    return b"".join(rows), ""


def grep(client: distributed.Client, pattern: gaxtrel.Pattern, names: list[str]) -> int:
    """Writes what grep writes, and gives its status: 0 if there is a row, 1 if not, 2 after a message."""
    shared = client.scatter(pattern, broadcast=True, hash=False)  # each worker compiles it once
    found = failed = False
    for task in client.map(search, [shared] * len(names), names, pure=False):
        rows, message = task.result()
        task.release()
        sys.stdout.buffer.write(rows)
        sys.stderr.write(message)
        found, failed = found or bool(rows), failed or bool(message)
    sys.stdout.flush()
    return 2 if failed else 0 if found else 1


def main() -> int:
    if len(sys.argv) < 3:
        print("usage: gaxtrel_dask LIST FILE..", file=sys.stderr)
        return 2
    try:
        pattern = gaxtrel.compile_lines(os.fsencode(sys.argv[1]) + b"\n")
    except gaxtrel.Error as error:
        print(f"grep: {error}", file=sys.stderr)
        return 2
    with (distributed.LocalCluster(threads_per_worker=1, dashboard_address=None, host="127.0.0.1") as cluster,
          distributed.Client(cluster) as client):
        return grep(client, pattern, sys.argv[2:])


if __name__ == "__main__":
    sys.exit(main())
