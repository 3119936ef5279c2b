"""Runs the listening program where a thread cannot be started, or a connection not be accepted, each in turn; for one connection; and
without a word.

Where a worker cannot be started the program ends with status 4, and nobody is answered. A connection whose thread cannot be started is
served all the same. Where a connection cannot be accepted, those before it are served, and the status is 3. Without a word it asks for
port 7070 and has 8 seats and 4 workers, and no connection is its last one.
usage: refused_threads.py PROGRAM
"""
import os
import socket
import subprocess
import sys
import tempfile
import time
from concurrent.futures import ThreadPoolExecutor
from pathlib import Path

from calls import library, surroundings
from greeting import greeting_in, limits_of
from listening import PATIENCE, at_free_port, connected

SEATS, WORKERS, CLIENTS = 4, 2, 4
ASKED = b"SEAT %d\nLOAD 1\nprocedure M is begin null; end M;\nRUN 10\n"
TOLD = b"+ 0\n+ 1\nloaded M\n+ 1\nran 3 ended\n"
ENDS = (4, b"aud: out of memory\n"), (3, b"aud: cannot listen\n"), (0, b"")


def got(process, port, seat):
    """What a client is told for its session, which ends where it sends no more: the seats and the answers; None where it is told nothing."""
    found = b""
    try:
        client = connected(process, port)
        if not client:
            return None
        with client:
            client.sendall(ASKED % seat)
            client.shutdown(socket.SHUT_WR)
            while more := client.recv(65536):
                found += more
    except OSError:
        # (the program has ended, or is late: then too little has come)
        pass
    return greeting_in(found) if found else None


def run(built, program, words, clients, **numbers):
    """The status of the program, what it says, and what each client is told."""
    return at_free_port(lambda port: run_at(built, [program, *words, "--port", str(port)], port, clients, **numbers))


def run_at(built, words, port, clients, **numbers):
    process = subprocess.Popen(words, stdin=subprocess.DEVNULL, stdout=subprocess.DEVNULL, stderr=subprocess.PIPE, env=surroundings(built, **numbers))
    try:
        with ThreadPoolExecutor(clients) as asking:
            found = list(asking.map(lambda seat: got(process, port, seat), range(1, clients + 1)))
        _, said = process.communicate(timeout=PATIENCE)
    finally:
        process.kill()
        process.wait()
    return process.returncode, said, found


def wrong(name, ran, wanted):
    """1 where a run ended otherwise, or so many clients were not told all and the others nothing."""
    status, said, found = ran
    (ends, served), all_told = wanted, (limits_of(SEATS, 0), TOLD)
    if (status, said) == ends and sorted(map(repr, found)) == sorted(map(repr, [all_told] * served + [None] * (len(found) - served))):
        return 0
    print(f"refused: {name}: status {status}, {said!r}, {found!r}")
    return 1


def in_turn(built, program):
    words = ["--seats", str(SEATS), "--workers", str(WORKERS), "--connections", str(CLIENTS)]
    memory, listen, good = ENDS
    for number in range(1, WORKERS + CLIENTS + 1):
        wanted = (memory, 0) if number <= WORKERS else (good, CLIENTS)
        yield wrong(f"thread {number} is refused", run(built, program, words, CLIENTS, FAILS_THREAD=number), wanted)
    for number in range(1, CLIENTS + 1):
        yield wrong(f"accept {number} is refused", run(built, program, words, CLIENTS, FAILS_ACCEPT=number), (listen, number - 1))
    words = ["--seats", str(SEATS), "--connections", "1"]
    yield wrong("one connection", run(built, program, words, 2), (good, 1))


def without_words(built, program):
    return at_free_port(lambda port: without_words_at(built, program, port))[1]


def without_words_at(built, program, port):
    """The status, where the program ends, and 1 where something is wrong."""
    with tempfile.TemporaryFile() as told:
        around = surroundings(built, LISTENS_AT=port, TELLS=told.fileno())
        process = subprocess.Popen([program], stdin=subprocess.DEVNULL, stdout=subprocess.DEVNULL, stderr=subprocess.DEVNULL, env=around, pass_fds=[told.fileno()])
        try:
            found = [got(process, port, seat) for seat in (1, 8, 1)]
            until = time.monotonic() + PATIENCE
            while (threads := threads_of(process)) != 5 and time.monotonic() < until:
                time.sleep(0.01)
            told.seek(0)
            at, status = told.read(), process.poll()
        finally:
            process.kill()
            process.wait()
    if (status, at, threads) == (None, b"127.0.0.1 7070\n", 5) and found == [(limits_of(8, 0), TOLD)] * 3:
        return status, 0
    print(f"refused: without words: status {status}, it listens at {at!r}, {threads} threads, {found!r}")
    return status, 1


def threads_of(process):
    tasks = Path(f"/proc/{process.pid}/task")
    return len(os.listdir(tasks)) if tasks.is_dir() else 0


def main(program):
    with tempfile.TemporaryDirectory() as folder:
        built = library(folder)
        results = [*in_turn(built, program), without_words(built, program)]
    print(f"refused: {len(results)} runs with a thread or an accept refused, for one connection, or without words: {sum(results)} end otherwise")
    return 1 if sum(results) else 0


if __name__ == "__main__":
    sys.exit(main(*sys.argv[1:]))
