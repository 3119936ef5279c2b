"""Tells what the prover's modules of a crate took in its last `rt check --jobs 1` from nothing: the largest, and all of a kind together.

A check leaves a file for each module in out/incremental, in the order in which it ended with them, so the time between two files is what the
later one took. With more than one job, or where other checks ran beside it, that is not so; the size of a module is told beside it, since a
function's `Lts`, its steps with what is alive at each, is most of what it takes, and grows with every value that is dropped in place.
usage: modules.py CRATE [COUNT]
"""
import os
import re
import sys
from collections import defaultdict
from pathlib import Path


def modules(crate):
    """The module files, as seconds, bytes and name."""
    found = []
    for folder, _, names in os.walk(Path(__file__).resolve().parents[1] / "crates" / crate / "out/incremental"):
        for name in names:
            told = os.stat(f"{folder}/{name}")
            found.append((told.st_mtime_ns, told.st_size, name))
    found.sort()
    return [((then - before) / 1e9, size, name) for (before, _, _), (then, size, name) in zip(found, found[1:])]


def kind_of(name):
    """The word that says what a module is of a function: Lts, Proof, Tie and others."""
    found = re.search(r"\.([A-Z][A-Za-z]*)(?=[.\-])", name.removeprefix("Rattle-"))
    return found.group(1) if found else "other"


def main(crate, count="30"):
    every = modules(crate)
    if not every:
        sys.exit(f"modules: nothing is kept of {crate}; run: cd crates/{crate} && rt check --jobs 1")
    kinds = defaultdict(lambda: [0.0, 0, 0])
    for seconds, size, name in every:
        kind = kinds[kind_of(name)]
        kind[0], kind[1], kind[2] = kind[0] + seconds, kind[1] + size, kind[2] + 1
    print(f"{len(every)} modules, {sum(it[0] for it in every):.0f} s, {sum(it[1] for it in every) / 1e6:.0f} MB")
    for kind, (seconds, size, number) in sorted(kinds.items(), key=lambda it: -it[1][0])[:8]:
        print(f"{seconds:8.1f} s {size / 1e6:7.1f} MB {number:5} of {kind}")
    for seconds, size, name in sorted(every, reverse=True)[: int(count)]:
        print(f"{seconds:8.2f} s {size / 1e6:7.2f} MB {name.removesuffix('.oantt')}")


main(*sys.argv[1:])
