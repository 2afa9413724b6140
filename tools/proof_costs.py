#!/usr/bin/env python3
"""Where a crate's proof spends its time: tools/proof_costs.py CRATE [COUNT]

Run it after a first check of the crate (`rt check --jobs 1` in a folder whose `out/` is empty). It prints the dearest
functions by seconds, taken from the times of the files in out/incremental, with the parts that cost most (`Key` is
what ran before the first file of a function, `Lts` what the code becomes, `Proof` the goals that the prover searches
for, `Answers` the written ones); then the dearest goals by the prover's steps, which don't depend on what else runs.
A million steps take about 0.8 seconds.
"""
import re
import sys
from collections import defaultdict
from pathlib import Path

PARTS = "Key Lts Proof Tie Answers Invariants Statement Code Met Goals Given Kinds Layout Reads Named TheLink Borrow"
PART = re.compile(rf"(.*?)\.({'|'.join(PARTS.split())})([-.].*)?$")
GOAL = re.compile(r'"calls":\[.*?\],"goals".{0,400}?"largest":\[(\d+),\d+\].{0,200}?"name":"([^"]+)"')


def subject(path):
    """The function or lemma file that a kept file belongs to, and the part of its proof."""
    name = path.name.removesuffix(".oantt").removesuffix(".decls")
    name = re.sub(r"^Rattle-\w+?-(proofs|specs)\.(contracts\.)?", "", name)
    found = PART.match(name)
    return found.group(1, 2) if found else (name, "other")


def main():
    crate, count = sys.argv[1], int(sys.argv[2]) if len(sys.argv) > 2 else 20
    folder = Path(__file__).parent.parent / "crates" / crate / "out" / "incremental"
    files = sorted((path.stat().st_mtime, path) for path in folder.rglob("*") if path.is_file())
    seconds = defaultdict(lambda: defaultdict(float))
    for (before, _), (after, path) in zip(files, files[1:]):
        name, part = subject(path)
        seconds[name][part] += after - before
    print(f"{crate}: {sum(sum(parts.values()) for parts in seconds.values()):.0f} s")
    for name, parts in sorted(seconds.items(), key=lambda it: -sum(it[1].values()))[:count]:
        dear = ", ".join(f"{part} {spent:.1f}" for part, spent in sorted(parts.items(), key=lambda it: -it[1])[:3])
        print(f"{sum(parts.values()):8.1f} s  {name}  ({dear})")
    goals = []
    for _, path in files:
        if path.name.endswith(".decls.oantt"):
            text = path.read_bytes().decode("latin1")
            goals += [(int(steps), subject(path)[0], goal) for steps, goal in GOAL.findall(text)]
    for steps, name, goal in sorted(goals, reverse=True)[:count]:
        print(f"{steps / 1e6:8.2f} M steps  {name}: {goal}")


main()
