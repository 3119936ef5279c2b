"""Counts the machine instructions of a step of each loop of benchmark.py, and of its programs with tasks, in their order and by choices, by
callgrind: what a session with RUNs takes, without what it takes up to the first one, and by choices up to the 3,000th step, since tasks start until
then. The count is the same whatever else the machine does.
usage: instructions.py PROGRAM [WORD ..], of those whose names have one of the words
"""
import re
import subprocess
import sys

from benchmark import CHOOSES, LOOPS, TASKS, load_of

COUNT = re.compile(rb"refs:\s*([0-9,]+)")


def instructions(program, session):
    """How many a whole session takes, and its answers."""
    command = ["valgrind", "--tool=callgrind", "--callgrind-out-file=/dev/null", program, "--solo"]
    ran = subprocess.run(command, input=session, capture_output=True, check=True)
    return int(COUNT.search(ran.stderr)[1].replace(b",", b"")), ran.stdout.decode()


def begun():
    """Of each loop, and of each program with tasks, its name, what a session with it begins with, the RUNs that count, and their steps if known."""
    for loop in LOOPS:
        yield loop.name, load_of(loop.ada), "RUN 100000\n" * 10, loop.steps
    for name, source in TASKS:
        yield name, load_of(source), "RUN 100000\n" * 10, None
        yield f"{name}, by choices", f"{load_of(source)}{CHOOSES}RUN 3000\n", "RUN 6000\n", 6_000


def steps_of(told):
    return sum(int(taken) for taken in re.findall(r"^ran (\d+)", told, re.MULTILINE))


def main(program, *words):
    for name, first, runs, known in begun():
        if words and not any(word in name for word in words):
            continue
        alone, begins = instructions(program, f"{first}QUIT\n".encode())
        whole, told = instructions(program, f"{first}{runs}QUIT\n".encode())
        steps = steps_of(told) - steps_of(begins)
        if not steps or known not in (None, steps):
            sys.exit(f"instructions: {name}: {told}")
        print(f"{name}: {(whole - alone) / 1e6:.1f} million, {(whole - alone) / steps:.0f} a step", flush=True)


main(*sys.argv[1:])
