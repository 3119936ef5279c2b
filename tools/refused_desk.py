"""Runs a test of a desk many times, and refuses memory once, each growth in turn.

The test itself looks at what is refused at a seat whose bench has closed for want of memory, and that the other seat is told all; it says
so then. Where memory is refused elsewhere it may end for that reason.
usage: refused_desk.py TESTS
"""
import os
import subprocess
import sys
import tempfile
from concurrent.futures import ThreadPoolExecutor

from calls import counted, library, surroundings

TEST = "tests::desks::a_bench_closes"
CLOSED = b"a bench has closed\n"
MEMORY = b"Error: Memory\n"


def run(built, words, number):
    around = surroundings(built, FAILS_GROWTH=number)
    done = subprocess.run(words, stdin=subprocess.DEVNULL, stdout=subprocess.DEVNULL, stderr=subprocess.PIPE, env=around, timeout=60, check=False)
    return done.returncode, done.stderr


def main(program):
    words, others, closed, ended = [program, TEST], 0, 0, 0
    with tempfile.TemporaryDirectory() as folder, ThreadPoolExecutor(os.cpu_count()) as runs:
        built = library(folder)
        count = counted(built, words, b"")[0][0]
        numbers = range(1, count + 1)
        for number, (status, said) in zip(numbers, runs.map(lambda it: run(built, words, it), numbers)):
            if (status, said) == (0, CLOSED):
                closed += 1
            elif status == 101 and said.startswith(MEMORY):
                ended += 1
            elif (status, said) != (0, b""):
                others += 1
                print(f"refused: growth {number} fails: status {status}, {said!r}")
    print(f"refused: a desk, {count} growths: {closed} close a bench, {ended} end the test; {others} end otherwise")
    return 1 if others or not closed else 0


if __name__ == "__main__":
    sys.exit(main(*sys.argv[1:]))
