"""Runs the rows of a hall many times, and refuses memory once, each growth in turn: without that of a full journal, or with `full` it too,
which takes half an hour.

The program itself looks at each world that came back: its outboxes must be fronts of the private server's answers, the last one that
memory is out at most. It ends with status 4 then, and says nothing on standard output before its rows are done.
usage: refused_halls.py PROGRAM [full]
"""
import os
import subprocess
import sys
import tempfile
from concurrent.futures import ThreadPoolExecutor
from pathlib import Path

from calls import counted, library, surroundings

ROWS = Path(__file__).resolve().parents[1] / "crates/aud_session_tests/data/halls/rows.txt"
LONG = "a full journal"

REFUSED = (4, b"aud_session_tests: out of memory\n", b"")


def run(built, words, number):
    around = surroundings(built, FAILS_GROWTH=number)
    done = subprocess.run(words, stdin=subprocess.DEVNULL, capture_output=True, env=around, timeout=60, check=False)
    return done.returncode, done.stderr, done.stdout


def rows(is_full):
    """The lists of calls, each with its name."""
    first, *lists = ROWS.read_text(encoding="latin-1").split("\n= ")
    return [first, *(it for it in lists if is_full or not it.startswith(LONG + "\n"))]


def main(program, *words):
    others, unneeded, chosen = 0, 0, rows(words == ("full",))
    with tempfile.TemporaryDirectory() as folder, ThreadPoolExecutor(os.cpu_count()) as runs:
        built, file = library(folder), Path(folder) / "rows.txt"
        file.write_text("\n= ".join(chosen), encoding="latin-1")
        words = [program, "--halls", str(file)]
        (count, *_), written = counted(built, words, b"")
        numbers = range(1, count + 1)
        for number, found in zip(numbers, runs.map(lambda number: run(built, words, number), numbers)):
            unneeded += found == (0, b"", written)
            if found not in (REFUSED, (0, b"", written)):
                others += 1
                print(f"refused: growth {number} fails: status {found[0]}, {found[1]!r}, {found[2]!r}")
    print(f"refused: {len(chosen) - 1} rows of halls, {count} growths, {unneeded} of which are not needed, {others} end otherwise")
    return 1 if others else 0


if __name__ == "__main__":
    sys.exit(main(*sys.argv[1:]))
