"""Runs sessions of `aud --solo` many times, and lets a growth, a read or a write fail, each in turn: one session, and those of SESSIONS.

Where memory is refused, a front of the answers and then that memory is out have to be written, and the status is 4. A growth that comes later
leaves no shorter front, and each front but all of them is met. Only the first growths, by which the words of the command line are read, leave
nothing written. Where a read fails, the answers to all requests that had come, and where a write fails, those before it;
the status is 1. Reads give a byte each.
usage: refused.py PROGRAM REQUESTS ANSWERS
"""
import os
import subprocess
import sys
import tempfile
from concurrent.futures import ThreadPoolExecutor
from pathlib import Path

from calls import counted, library, surroundings
from typed import answers_of, requests_of

sys.path.append(str(Path(__file__).resolve().parent / "model"))
import compare

OUT = b"- E90 out of memory\n"

# Files of crates/aud_session_tests/data, and the names of sessions there.
SESSIONS = (
    ("tasks.txt", "an activation that fails raises Tasking_Error once in the activator, and the other task goes on"),
    ("protected_entries.txt", "three tasks wait for each other at a barrier over their number"),
    ("rows.txt", "two accepts with a call each, picked by a choice and by default"),
    ("abort.txt", "a protected action goes on to its end, and calls that are queued are refused"),
)


def fronts(parts):
    """Nothing, the first part, the first two, .."""
    front = b""
    yield front
    for part in parts:
        front += part
        yield front


def run(built, program, given, **numbers):
    done = subprocess.run([program, "--solo"], input=given, capture_output=True, env=surroundings(built, **numbers), timeout=60, check=False)
    return done.returncode, done.stderr, done.stdout


def told(name, number, found):
    print(f"refused: {name} {number} fails: status {found[0]}, {found[1]!r}, {found[2]!r}")
    return 1


def growths(built, program, given, answers, count, runs):
    """How many runs end otherwise where memory is refused, and how many growths are not needed."""
    whole = (0, b"", b"".join(answers))
    # nothing, and behind it the fronts, from the shortest on
    cut = [b""] + [front + OUT for front in fronts(answers)]
    others, unneeded, last, met = 0, 0, 0, set()
    numbers = range(1, count + 1)
    for number, found in zip(numbers, runs.map(lambda it: run(built, program, given, FAILS_GROWTH=it), numbers)):
        if found == whole:
            unneeded += 1
        elif found[:2] == (4, b"aud: out of memory\n") and found[2] in cut[last:]:
            last = cut.index(found[2], last)
            met.add(last)
        else:
            others += told("growth", number, found)
    for behind in range(len(answers)):
        if behind + 1 not in met:
            print(f"refused: no growth is refused behind {behind} answers")
            others += 1
    return others, unneeded


def reads(built, program, requests, answers, runs):
    """The same where a read fails. Behind the last byte of a QUIT there is none."""
    given, others, answered = b"".join(requests), 0, 0
    ends = [len(front) for front in fronts(requests)]
    numbers = range(1, len(given) + 1)
    for number, found in zip(numbers, runs.map(lambda it: run(built, program, given, FAILS_READ=it, MOST_READ=1), numbers)):
        while answered < len(answers) and ends[answered + 1] <= number - 1:
            answered += 1
        wanted = (1, b"aud: read failed\n", b"".join(answers[:answered]))
        if found != wanted:
            others += told("read", number, found)
    return others


def writes(built, program, given, answers, runs):
    """The same where a write fails."""
    others = 0
    numbers = range(1, len(answers) + 1)
    for number, wanted, found in zip(numbers, fronts(answers), runs.map(lambda it: run(built, program, given, FAILS_WRITE=it), numbers)):
        if found != (1, b"aud: write failed\n", wanted):
            others += told("write", number, found)
    return others


def refused(built, program, requests, answers, runs):
    """How many growths, reads and writes a session has, how many growths are not needed, and how many runs end otherwise."""
    given = b"".join(requests)
    (_, read, wrote, *_), found = counted(built, [program, "--solo"], given, MOST_READ=1)
    if found != b"".join(answers) or read != len(given) or wrote != len(answers):
        print(f"refused: {read} reads of {len(given)} bytes and {wrote} writes of {len(answers)} answers, which are {found!r}")
        return 0, read, wrote, 0, 1
    count = counted(built, [program, "--solo"], given)[0][0]
    others, unneeded = growths(built, program, given, answers, count, runs)
    others += reads(built, program, requests, answers, runs) + writes(built, program, given, answers, runs)
    return count, read, wrote, unneeded, others


def of_data(name, session):
    """What a session of the tests sends and what is answered, and a QUIT behind it."""
    found = [(sent, told) for other, sent, told in compare.sessions((compare.SESSIONS / name).read_text(encoding="latin-1")) if other == session]
    if len(found) != 1:
        raise SystemExit(f"refused: {len(found)} sessions of {name} are named {session!r}")
    [(sent, told)] = found
    return sent.encode("latin-1") + b"QUIT\n", told.encode("latin-1") + b"+ 0\n"


def main():
    program, sent, written = sys.argv[1:]
    sessions = [(Path(sent).read_bytes(), Path(written).read_bytes()), *(of_data(*it) for it in SESSIONS)]
    total = [0] * 5
    with tempfile.TemporaryDirectory() as folder, ThreadPoolExecutor(os.cpu_count()) as runs:
        built = library(folder)
        for sent, written in sessions:
            requests = [b"".join(lines) for lines in requests_of(sent.splitlines(True))]
            total = map(sum, zip(total, refused(built, program, requests, list(answers_of(written.splitlines(True))), runs)))
    count, read, wrote, unneeded, others = total
    print(f"refused: {len(sessions)} sessions, {count} growths, {unneeded} of which are not needed, {read} reads and {wrote} writes: {others} end otherwise")
    return 1 if others else 0


if __name__ == "__main__":
    sys.exit(main())
