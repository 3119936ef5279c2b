"""Estimates what part of the gate some commits take: of each crate's selftests, as a table of price.py tells them, the share of its lines that come from
these commits; of its edits, the share of their files.
usage: share.py TABLE COMMITS [COMMITS ..]   (TABLE holds what price.py printed; COMMITS are as git's rev-list takes them, as A..B)
"""
import re
import subprocess
import sys
from pathlib import Path

ROW = re.compile(r"\| `(\w+)` \| ([0-9.]+) \| ([0-9.]+) \| ([0-9.]+) \|")
ORIGIN = re.compile(r"^\^?([0-9a-f]{40}) ")


def git(*words):
    return subprocess.run(["git", *words], capture_output=True, check=True).stdout.decode(errors="replace")


def origins(path):
    """The commit that each line of a file comes from, but for moves."""
    return [ORIGIN.match(line)[1] for line in git("blame", "-l", "-s", "-w", "-M", "--root", "--", path).splitlines()]


def shares(crate, commits):
    """What share of a crate's lines comes from these commits, and of its edits."""
    lines, edits = [], []
    for path in git("ls-files", f"crates/{crate}").splitlines():
        found = [origin in commits for origin in origins(path)]
        if Path(path).suffix == ".edit":
            edits.append(any(found))
        elif Path(path).suffix in (".rt", ".antt"):
            lines += found
    return [sum(them) / max(len(them), 1) for them in (lines, edits)]


def main(table, *ranges):
    commits = set(git("rev-list", *ranges).split())
    total = 0.0
    for crate, proof, tests, edits in ROW.findall(Path(table).read_text(encoding="utf-8")):
        of_lines, of_edits = shares(crate, commits)
        part = of_lines * (float(proof) + float(tests)) + of_edits * float(edits)
        total += part
        if part >= 0.05:
            print(f"{crate}: {part:.1f}, {of_lines:.0%} of its lines")
    print(f"all: {total:.1f} selftests, by lines")


if len(sys.argv) < 3:
    sys.exit(__doc__)
main(*sys.argv[1:])
