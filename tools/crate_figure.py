"""The figure of the crates: each above those that it stands on.

Crates that are reached by others are not joined by lines of their own. Where a line passes a row of
crates, it has a place there as a crate has.
"""

from __future__ import annotations

from svg import SIZE, Point, curve, drawing, rectangle, text, width_of

Node = str | tuple[str, str, int]
"""A crate, or where the line from one to another passes a row."""

Rows = list[list[Node]]
"""Nodes by rows from below, each from left to right."""

PROGRAMS = ["grep", "occur"]
GAP, HIGH, BETWEEN = 22, 26, 34
"""What is between two crates of a row, how high a crate is, and what is between two rows."""


def crates_of(text_of_crates: str) -> dict[str, set[str]]:
    """The crates that a program needs, each with those of them that it names; from crates.txt."""
    named = {}
    for row in text_of_crates.splitlines():
        name, colon, below = row.partition(":")
        if colon and not row.startswith("#"):
            named[name] = below.split()
    needed, wanted = {}, [*PROGRAMS]
    while wanted:
        name = wanted.pop()
        if name in named and name not in needed:
            needed[name] = {crate for crate in named[name] if crate in named}
            wanted += needed[name]
    return needed


def all_below(crates: dict[str, set[str]], name: str) -> set[str]:
    return crates[name].union(*(all_below(crates, crate) for crate in crates[name]))


def direct(crates: dict[str, set[str]]) -> dict[str, set[str]]:
    """Of each crate those that it doesn't reach by another one."""
    return {name: below - set().union(*(all_below(crates, crate) for crate in below))
            for name, below in crates.items()}


def height_of(crates: dict[str, set[str]], name: str) -> int:
    return 1 + max((height_of(crates, crate) for crate in crates[name]), default=-1)


def chains_of(crates: dict[str, set[str]]) -> list[list[Node]]:
    """The lines, each as the nodes that it joins from above."""
    chains: list[list[Node]] = []
    for name in sorted(crates):
        for crate in sorted(crates[name]):
            passed = range(height_of(crates, name) - 1, height_of(crates, crate), -1)
            chains.append([name, *((name, crate, row) for row in passed), crate])
    return chains


def rows_of(crates: dict[str, set[str]], chains: list[list[Node]]) -> Rows:
    """The nodes by rows, in the order of their names."""
    rows: Rows = [[] for _ in range(1 + max(height_of(crates, name) for name in crates))]
    for name in sorted(crates):
        rows[height_of(crates, name)].append(name)
    for chain in chains:
        for node in chain[1:-1]:
            rows[node[2]].append(node)
    return rows


def neighbours(chains: list[list[Node]]) -> dict[Node, list[Node]]:
    found: dict[Node, list[Node]] = {}
    for chain in chains:
        for upper, lower in zip(chain, chain[1:]):
            found.setdefault(upper, []).append(lower)
            found.setdefault(lower, []).append(upper)
    return found


def crossings(rows: Rows, chains: list[list[Node]]) -> int:
    """How many pairs of lines cross."""
    at = {node: (row, place) for row, nodes in enumerate(rows) for place, node in enumerate(nodes)}
    steps = [(at[upper], at[lower]) for chain in chains for upper, lower in zip(chain, chain[1:])]
    return sum(a[0] == b[0] and (a[1] - b[1]) * (c[1] - d[1]) < 0
               for place, (a, c) in enumerate(steps) for b, d in steps[:place])


def ordered(rows: Rows, chains: list[list[Node]]) -> Rows:
    """The rows in an order with few crossings: nodes go to the middle of their neighbours, up and down."""
    beside, best = neighbours(chains), [*rows]
    for turn in range(40):
        for row in (range(len(rows)) if turn % 2 else reversed(range(len(rows)))):
            other = row - 1 if turn % 2 else row + 1
            if 0 <= other < len(rows):
                place = {node: at for at, node in enumerate(rows[other])}
                middles = {node: [place[it] for it in beside.get(node, []) if it in place] for node in rows[row]}
                kept = {node: at for at, node in enumerate(rows[row])}
                rows[row] = sorted(rows[row], key=lambda node: (
                    sum(middles[node]) / len(middles[node]) if middles[node] else kept[node], str(node)))
        if crossings(rows, chains) < crossings(best, chains):
            best = [*rows]
    return swapped(best, chains)


def swapped(rows: Rows, chains: list[list[Node]]) -> Rows:
    """The rows after swaps of nodes side by side, as long as one saves crossings."""
    for nodes in rows:
        for place in range(len(nodes) - 1):
            before = crossings(rows, chains)
            nodes[place : place + 2] = reversed(nodes[place : place + 2])
            if crossings(rows, chains) < before:
                return swapped(rows, chains)
            nodes[place : place + 2] = reversed(nodes[place : place + 2])
    return rows


def wide(node: Node) -> float:
    return width_of(node) + 18 if isinstance(node, str) else 4


def spread(nodes: list[Node], wanted: dict[Node, float]) -> dict[Node, float]:
    """The middles of a row's nodes: where they are wanted, moved so that none overlap."""
    at = dict(wanted)
    for _ in range(200):
        for left, right in zip(nodes, nodes[1:]):
            short = (wide(left) + wide(right)) / 2 + GAP - (at[right] - at[left])
            if short > 0.1:
                at[left] -= short / 2
                at[right] += short / 2
    return at


def middles_of(rows: Rows, chains: list[list[Node]]) -> dict[Node, float]:
    """The middle of each node, near those of its neighbours."""
    beside = neighbours(chains)
    at = {node: 120.0 * place for nodes in rows for place, node in enumerate(nodes)}
    for turn in range(60):
        for nodes in (rows if turn % 2 else reversed(rows)):
            wanted = {node: sum(at[it] for it in beside[node]) / len(beside[node]) for node in nodes}
            at.update(spread(nodes, wanted))
    left = min(at[node] - wide(node) / 2 for node in at)
    return {node: middle - left + 16 for node, middle in at.items()}


def figure(text_of_crates: str) -> str:
    """The figure of these crates."""
    crates = direct(crates_of(text_of_crates))
    chains = chains_of(crates)
    rows = ordered(rows_of(crates, chains), chains)
    middle = middles_of(rows, chains)
    top = {node: 16 + (len(rows) - 1 - row) * (HIGH + BETWEEN) for row, nodes in enumerate(rows) for node in nodes}
    parts = []
    for chain in chains:
        points: list[Point] = [(middle[chain[0]], top[chain[0]] + HIGH)]
        for node in chain[1:-1]:
            points += [(middle[node], top[node]), (middle[node], top[node] + HIGH)]
        parts.append(curve([*points, (middle[chain[-1]], top[chain[-1]])]))
    for name in sorted(crates):
        parts.append(rectangle((middle[name] - wide(name) / 2, top[name]), wide(name), HIGH, "box"))
        kind = "bold" if name in PROGRAMS else ""
        parts.append(text((middle[name], top[name] + HIGH / 2 + SIZE / 3), name, kind, "middle"))
    width = max(middle[node] + wide(node) / 2 for node in middle) + 16
    return drawing(width, 16 + len(rows) * (HIGH + BETWEEN) - BETWEEN + 16, "The crates", parts)
