"""Runs the listening program many times, with clients in some rounds, and refuses memory once, each growth in turn.

In the runs of CASES there are two clients at two seats at once, twice, one of the seats being large; or one worker and one client, and
behind it a second one at the same seat. What a client gets has to be the greeting and the answers to its session, or a front of these
texts and that memory is out, or nothing where its connection cannot be served at all. All clients but one have to get all: who is beside
it, and who comes to the same seat later. Only where memory is refused before the first connection the program ends, with status 4.
usage: refused_connection.py PROGRAM
"""
import os
import subprocess
import sys
import tempfile
from concurrent.futures import ThreadPoolExecutor
from dataclasses import dataclass

from calls import library, surroundings
from greeting import Wrong, greeting_in, limits_of
from listening import PATIENCE, at_free_port, connected
from typed import answers_of

SEATS = 8
ROUNDS = 2

PROGRAM = b"""procedure M is
   protected Box is entry Get (N : out Integer); procedure Put (N : Integer); private Full : Boolean := False; Kept : Integer := 0; end Box;
   protected body Box is
      entry Get (N : out Integer) when Full is begin N := Kept; Full := False; end Get;
      procedure Put (N : Integer) is begin Kept := N; Full := True; end Put;
   end Box;
   task Maker; task body Maker is begin for I in 1 .. 3 loop delay 0.5; Box.Put (I); end loop; end Maker;
   X : Integer := 0;
begin
   Box.Get (X); Put_Line ("got" & X'Image);
end M;
"""

LOAD = b"LOAD %d\n" % PROGRAM.count(b"\n") + PROGRAM
BEFORE, FIRST = b"SEAT 9\nRUN 1\n", b"- E92 no such seat\n- E93 seat not claimed\n+ 0\n"
BEHIND = LOAD + b"CHOOSE 1 0 1\nRUN 30\nTASKS\nQUEUES\nVARIABLES\nADVANCE 500\nSTEP 0\nRUN 100\nOUTPUT\nSEAT 1\nRESET\nQUIT\n"
OUT = b"- E90 out of memory\n"

SMALL = b"LOAD 1\nprocedure M is begin null; end M;\nRUN 10\nSEAT 1\nQUIT\n"
TOLD = FIRST + b"+ 1\nloaded M\n+ 1\nran 3 ended\n- E10 unknown command\n+ 0\n"

KINDS = "before a connection", "before a greeting", "a connection is cut", "not needed"


@dataclass
class Case:
    """The seats that clients take at once, how many seats are large and how many workers there are, what a client asks at its seat, and
    what is told for all that it asks, where that is known."""

    seats: tuple
    large: int
    workers: int
    asked: bytes
    told: bytes = None

    def clients(self):
        return ROUNDS * len(self.seats)


CASES = Case((1, 2), 1, 2, BEHIND), Case((1,), 0, 1, SMALL, TOLD)


def got(process, port, seat, asked):
    """What a client is answered who takes this seat; None where the program ended first."""
    client = connected(process, port)
    if not client:
        return None
    with client:
        found = b""
        try:
            client.sendall(BEFORE + b"SEAT %d\n" % seat + asked)
            while more := client.recv(65536):
                found += more
        except ConnectionError:
            # (it was closed before all was read)
            pass
        return found


def run(built, program, case, **numbers):
    """The status of the program, what it says, how many growths it made, and what each client got."""
    return at_free_port(lambda port: run_at(built, program, case, port, **numbers))


def run_at(built, program, case, port, **numbers):
    words = [program, "--seats", SEATS, "--large", case.large, "--workers", case.workers, "--port", port, "--connections", case.clients()]
    with tempfile.TemporaryFile() as told, ThreadPoolExecutor(len(case.seats)) as clients:
        around = surroundings(built, TELLS=told.fileno(), **numbers)
        process = subprocess.Popen(list(map(str, words)), stdin=subprocess.DEVNULL, stdout=subprocess.DEVNULL, stderr=subprocess.PIPE, env=around, pass_fds=[told.fileno()])
        try:
            found = []
            for _ in range(ROUNDS):
                found += clients.map(lambda seat: got(process, port, seat, case.asked), case.seats)
            _, said = process.communicate(timeout=PATIENCE)
        finally:
            process.kill()
            process.wait()
        told.seek(0)
        # (a program that was stopped tells nothing)
        return process.returncode, said, int((told.read().split() or [b"0"])[0]), found


def is_greeted(case, whole):
    """Whether a greeting that tells the seats' limits comes first, and then the answers."""
    try:
        limits, answers = greeting_in(whole) or ([], b"")
    except Wrong:
        return False
    return limits == limits_of(SEATS, case.large) and (answers == case.told if case.told else answers.startswith(FIRST))


def fronts(whole):
    """The greeting and the answers, cut behind any of them, each with that memory is out."""
    front = b""
    yield OUT
    for text in answers_of(whole.splitlines(True)):
        front += text
        yield front + OUT


def kind_of(case, whole, status, found):
    """What the growth was for that a run lacks."""
    if status:
        return KINDS[0]
    if found == [whole] * case.clients():
        return KINDS[3]
    return KINDS[1] if any(it in (b"", OUT) for it in found) else KINDS[2]


def is_right(whole, cuts, status, said, found):
    """Whether a run may end so where one growth is refused."""
    if (status, said) == (4, b"aud: out of memory\n"):
        # (a client may have been connected by then)
        return not any(found)
    cut = [it for it in found if it != whole]
    return (status, said) == (0, b"") and len(cut) <= 1 and all(it == b"" or it in cuts for it in cut)


def refused(built, program, case, runs):
    """How many growths there are, of which kinds they are, and how many runs end otherwise."""
    kinds, others = dict.fromkeys(KINDS, 0), 0
    status, said, count, found = run(built, program, case)
    whole = found[0]
    if (status, said) != (0, b"") or found != [whole] * case.clients() or not whole or not whole.endswith(b"+ 0\n"):
        print(f"refused: status {status}, {said!r}, {found!r}")
        return 0, kinds, 1
    if not is_greeted(case, whole):
        print(f"refused: the greeting or the answers are not those that are due: {whole!r}")
        return 0, kinds, 1
    cuts, numbers = set(fronts(whole)), range(1, count + 1)
    for number, (status, said, _, found) in zip(numbers, runs.map(lambda it: run(built, program, case, FAILS_GROWTH=it), numbers)):
        kinds[kind_of(case, whole, status, found)] += 1
        if not is_right(whole, cuts, status, said, found):
            others += 1
            print(f"refused: growth {number} fails: status {status}, {said!r}, {found!r}")
    for kind in KINDS[1:3]:
        if not kinds[kind]:
            others += 1
            print(f"refused: no growth was met of which is said: {kind}")
    return count, kinds, others


def main(program):
    growths, others, kinds = 0, 0, dict.fromkeys(KINDS, 0)
    with tempfile.TemporaryDirectory() as folder, ThreadPoolExecutor(os.cpu_count()) as runs:
        built = library(folder)
        for case in CASES:
            count, found, wrong = refused(built, program, case, runs)
            growths, others = growths + count, others + wrong
            kinds = {it: kinds[it] + found[it] for it in KINDS}
    told = ", ".join(f"{kinds[it]} {it}" for it in KINDS)
    print(f"refused: {len(CASES)} cases, {growths} growths: {told}; {others} end otherwise")
    return 1 if others else 0


if __name__ == "__main__":
    sys.exit(main(*sys.argv[1:]))
