"""Has 64 clients use the listening program at once for a while, half of them badly, and looks at what it answers.

An honest client takes a seat of its own, again and again, and sends a session that chance picks: one request after the other, or all
of it in pieces of any size. Every byte up to the end of the connection has to be what `aud --solo` answers to the same session, behind
the greeting. At large seats, which the first are, it has to be what tools/model answers with their limits; long runs, of few tasks and a
line of text, are answered as by `aud --solo` there too.
A hostile client does at the other seats what no user should; where it reads answers, these are looked at too. Each client has one
connection at most. Once all are gone, each seat has to be free, and where 64 are connected a further one waits until one of them ends.
It tells what it measured, and ends with status 0 where nothing was wrong.
usage: load.py PROGRAM SESSIONS SECONDS
"""
import itertools
import multiprocessing
import os
import select
import signal
import socket
import struct
import subprocess
import sys
import threading
import time
from collections import Counter
from concurrent.futures import ThreadPoolExecutor
from contextlib import closing
from dataclasses import dataclass, field
from pathlib import Path
from random import Random

from greeting import LARGE, Wrong, limits_of, read_greeting

sys.path.append(str(Path(__file__).resolve().parent / "model"))
import chance
from session import answers as told_by_model

HERE = "127.0.0.1"
SEATS = 64
LARGE_SEATS = 8  # the first ones, all of honest clients
HONEST = 32  # clients, each with a seat of its own; the others share the seats behind these
PROCESSES = 4  # half of them for honest clients
MOST_WORKERS = 16
SEED = 1
BY_CHANCE = 200  # sessions that tools/model/chance.py writes
PATIENCE = 60.0  # seconds that an answer may take
CLIENTS = 64  # connections that are served at once
WAITS = 1.0  # seconds without an answer to a further one
SETTLING = 30.0  # seconds until the seats of connections that are gone are free
GROWTH = 2  # so many times the memory that it has after a tenth of the time the server may have at the end,
WARM = 60.0  # where that tenth has so many seconds: before, its clients have not sent it all that it holds
PAUSE = 0.05  # most seconds between two sessions of a client
THOUGHT = 0.02  # most seconds before a request of an honest client that thinks
FEW = 50  # it thinks in sessions of no more requests
AGAIN = 0.01  # seconds before a seat in use is tried again
PIECES = 200  # about the most pieces of a session
MOST_TOLD = 10  # differences that a process tells

LINE = 1_024
LINES = 32_768
REQUESTS = 4_096

CLAIMED = b"+ 0\n"
IN_USE = b"- E91 seat in use\n"
NO_SEAT = b"- E92 no such seat\n"
NOT_CLAIMED = b"- E93 seat not claimed\n"
FULL = b"- E13 journal full\n"
TOO_LONG = b"- E12 line too long\n"
UNKNOWN = b"- E10 unknown command\n"

ENDLESS = b"LOAD 1\nprocedure M is begin loop null; end loop; end M;\n"
WORDY = b'LOAD 1\nprocedure M is begin loop Put_Line ("' + b"z" * 90 + b'"); end loop; end M;\n'
RACE = (
    b'LOAD 1\nprocedure M is task A; task B; task body A is begin loop Put ("a"); end loop; end A; '
    b'task body B is begin loop Put ("b"); end loop; end B; begin null; end M;\n'
)
MEGABYTE = b"x" * 1_000_000


# Sessions.


@dataclass
class Session:
    """Requests up to a QUIT, with the lines of each, and what a private server answers to each."""

    name: str
    requests: list
    answers: list = field(default_factory=list)


def words_of(line):
    """The words of a line, as it came; none where the line is too long or is not ASCII."""
    if len(line) > LINE or not line.isascii():
        return []
    return [word for word in line.removesuffix(b"\r").split(b" ") if word]


def lines_behind(words):
    """How many lines belong to a request with these words."""
    if len(words) != 2 or words[0] != b"LOAD" or not words[1].isdigit() or len(words[1]) > 10:
        return 0
    return int(words[1]) if int(words[1]) <= LINES else 0


def requests_of(sent):
    """The whole requests of some bytes up to the first QUIT, one of which is put behind them where there is none."""
    lines, found, at = sent.split(b"\n")[:-1], [], 0
    while at < len(lines):
        words = words_of(lines[at])
        end = at + 1 + lines_behind(words)
        if end > len(lines):
            break
        found.append(b"\n".join(lines[at:end]) + b"\n")
        if words == [b"QUIT"]:
            return found
        at = end
    return found + [b"QUIT\n"]


def answers_of(written):
    """The text of each answer."""
    lines, at = written.split(b"\n")[:-1], 0
    while at < len(lines):
        words = lines[at].split(b" ")
        end = at + 1 + (int(words[1]) if words[0] == b"+" else 0)
        yield b"\n".join(lines[at:end]) + b"\n"
        at = end


def repeated(text):
    """The bytes of a text, in which `{204 null;}` is `null;` 204 times and `{2 #9}` the byte 9 twice."""
    front, *parts = text.split(b"{")
    for part in parts:
        inside, behind = part.split(b"}", 1)
        count, what = inside.split(b" ", 1)
        front += (bytes([int(what[1:])]) if what.startswith(b"#") else what) * int(count) + behind
    return front


def sent_by(line):
    """The bytes that a line of a file sends, of which what stands behind `>` is given."""
    if line.startswith(b"* "):
        count, _, text = line[2:].partition(b" ")
        return (repeated(text) + b"\n") * int(count)
    if line.startswith(b"- "):
        return repeated(line[2:])
    return line[1:] + b"\n"


def of_file(file):
    """The sessions of a file: their names, and what they send."""
    found = []
    for line in file.read_bytes().split(b"\n"):
        if line.startswith(b"= "):
            found.append([f"{file.stem}: {line[2:].decode(errors='replace')}", b""])
        elif line.startswith(b">"):
            found[-1][1] += sent_by(line[1:])
    return found


def by_chance():
    """Programs that chance writes, half of them with tasks, in pieces of steps and by choices."""
    for seed in range(SEED, SEED + BY_CHANCE):
        lines = chance.session(seed, seed % 2 == 1)
        yield f"by chance: {seed}", "".join(line + "\n" for line in lines).encode()


def long_ones():
    """Long runs, long outputs, races and listings."""
    by = Random(f"long {SEED}")
    for count in range(1, 12):
        yield f"long: {count} times all steps", (ENDLESS + b"RUN 100000\n" * 11) * count
        yield f"long: {count} outputs", WORDY + b"RUN 500\n" + b"OUTPUT\n" * count + b"RUN 100000\n" + b"OUTPUT\n" * count
        parts = [b"CHOOSE " + b" ".join(b"%d" % by.randrange(10_000) for _ in range(150)) + b"\nRUN %d\n" % by.randrange(1, 400) for _ in range(count)]
        yield f"long: {count} choices", RACE + b"OUTPUT\n".join(parts) + b"OUTPUT\n"
        yield f"long: {20 * count} loads", (ENDLESS + b"RUN 7\n") * 20 * count
        yield f"long: {40 * count} looks", RACE + b"RUN 7\nSTEP 1\nMOVES\nTASKS\nVARS 2\nCLOCK\n" * 40 * count


def large_ones():
    """Sessions at and past the limits of tasks and of source texts, those of small seats and those of large ones."""
    by = Random(f"large {SEED}")
    for count in (63, 64, 100, 128, 200, 254, 255, 256):
        program = (
            b"procedure M is task type T; X : Integer := 0; task body T is Y : Integer; begin Y := X; X := Y + 1; end T; "
            b'begin declare A : array (1 .. %d) of T; begin Put ("in"); end; Put_Line (X\'Image); exception when Storage_Error => Put ("full"); end M;\n' % count
        )
        choices = b"CHOOSE " + b" ".join(b"%d" % by.randrange(10_000) for _ in range(150)) + b"\n"
        looks = b"MOVES\nTASKS\nVARS 1\nVARS %d\n" % (count + 1)
        yield f"large: {count} tasks", b"LOAD 1\n" + program + choices * 3 + b"RUN %d\n" % by.randrange(400) + looks + b"RUN 100000\nOUTPUT\nRESET\nRUN 7\nTASKS\n"
    for count in (5_456, 5_457, 5_458, by.randrange(5_459, 10_917), by.randrange(5_459, 10_917), 10_917, 10_918, 10_919):
        # (these have 21 bytes, 6 for each statement, and 7)
        lines = b"procedure M is begin\n" + b"null;\n" * count + b"end M;\n"
        yield f"large: {count} statements", b"LOAD %d\n" % (count + 2) + lines + b"RUN %d\nTASKS\nRUN 100000\n" % by.randrange(1, count)
    for line in (b"--", b"---"):
        # (65,536 bytes and one more)
        lines = b"procedure M is begin null; end M;\n" + b"--\n" * 16_366 + line + b"-\n" + b"\n" * 16_400
        yield f"large: {LINES} lines, one of {len(line) + 1} bytes", b"LOAD %d\n" % LINES + lines + b"RUN 2\n"


def full_ones():
    """Sessions with one request too many."""
    yield "full: CLOCK", b"CLOCK\n" * (REQUESTS + 1)
    yield "full: RUN", b"RUN 1\n" * (REQUESTS + 1)
    yield "full: a loaded program", ENDLESS + b"RUN 1\n" * REQUESTS


def answered(program, name, sent):
    """A session with the answers of `aud --solo`."""
    session = Session(name, requests_of(sent))
    done = subprocess.run([program, "--solo"], input=b"".join(session.requests), stdout=subprocess.PIPE, check=False)
    session.answers = list(answers_of(done.stdout))
    if done.returncode != 0 or len(session.answers) != len(session.requests):
        sys.exit(f"load: {program} --solo does not answer each request of '{name}'")
    return session


def sessions_of(program, folder):
    """Each group of sessions, by its name."""
    groups = {
        "files": [found for file in sorted(Path(folder).glob("*.txt")) for found in of_file(file)],
        "chance": list(by_chance()),
        "long": list(long_ones()),
        "large": list(large_ones()),
        "full": list(full_ones()),
    }
    with ThreadPoolExecutor(processors()) as asking:
        return {group: list(asking.map(lambda found: answered(program, *found), all_of)) for group, all_of in groups.items()}


def modelled(session):
    """A session with the answers of the model at a large seat."""
    sys.setrecursionlimit(100_000)
    told = told_by_model(b"".join(session.requests).decode("latin-1"), LARGE).encode("latin-1")
    return Session(session.name, session.requests, list(answers_of(told)))


def of_large(groups):
    """The sessions of honest clients at large seats."""
    with multiprocessing.get_context("fork").Pool(processors()) as asking:
        found = {group: groups[group] if group == "long" else asking.map(modelled, groups[group]) for group in OFTEN}
    for session in itertools.chain(*found.values()):
        if len(session.answers) != len(session.requests):
            sys.exit(f"load: the model does not answer each request of '{session.name}'")
    return found


# What must be answered, and what was.


class InUse(Exception):
    """The seat is in use."""


class Wanted:
    """The bytes that must come on a connection; what comes is compared piece by piece."""

    def __init__(self, answers):
        self.text, self.at = b"".join(answers), 0

    def take(self, piece):
        there = self.text[self.at : self.at + len(piece)]
        if piece != there:
            if self.at == 0 and piece.startswith(IN_USE):
                raise InUse
            same = next((at for at, (one, other) in enumerate(zip(piece, there)) if one != other), len(there))
            raise Wrong(f"at byte {self.at + same} of the answers comes {piece[same:][:60]!r}, and not {there[same:][:60]!r}")
        self.at += len(piece)

    def end(self):
        if self.at < len(self.text):
            raise Wrong(f"the connection ends at byte {self.at} of the answers, before {self.text[self.at:][:60]!r}")


@dataclass
class Tally:
    """What clients have seen, and at what one is."""

    at: str = ""
    lost: int = 0
    sessions: int = 0
    requests: int = 0
    wrong: int = 0
    misled: int = 0
    in_use: int = 0
    slowest: tuple = (0.0, "")
    slowest_seat: float = 0.0
    kinds: Counter = field(default_factory=Counter)
    used: float = 0.0

    def add(self, other):
        self.lost += other.lost
        self.sessions += other.sessions
        self.requests += other.requests
        self.wrong += other.wrong
        self.misled += other.misled
        self.in_use += other.in_use
        self.slowest = max(self.slowest, other.slowest)
        self.slowest_seat = max(self.slowest_seat, other.slowest_seat)
        self.kinds += other.kinds
        self.used += other.used


@dataclass
class Stage:
    """What the clients of a process share."""

    port: int
    until: float
    sessions: dict
    of_large: dict
    told: itertools.count = field(default_factory=itertools.count)
    large: threading.Lock = field(default_factory=threading.Lock)

    def is_on(self):
        return time.monotonic() < self.until

    def tell(self, name, fault):
        if next(self.told) < MOST_TOLD:
            sys.stdout.write(f"load: {name}: {str(fault) or type(fault).__name__}\n")
            sys.stdout.flush()


def connected(port, room=0):
    """A connection, which keeps no more than so many bytes that were not read, where a number is given."""
    link = socket.socket()
    try:
        if room:
            link.setsockopt(socket.SOL_SOCKET, socket.SO_RCVBUF, room)
        link.setsockopt(socket.IPPROTO_TCP, socket.TCP_NODELAY, 1)
        link.settimeout(PATIENCE)
        link.connect((HERE, port))
    except OSError:
        link.close()
        raise
    return link


def greeted(port, large=LARGE_SEATS, room=0):
    """A connection whose greeting was read, which tells that so many seats are large."""
    link = connected(port, room)
    try:
        limits, behind = read_greeting(link)
        if limits != limits_of(SEATS, large):
            raise Wrong(f"the greeting tells of {len(limits)} seats with other limits than these have")
        if behind:
            raise Wrong(f"behind the greeting comes {behind[:60]!r}, before anything was asked")
    except BaseException:
        link.close()
        raise
    return link


def read_to(link, wanted, end):
    """Reads up to a place of what must come, behind which nothing comes yet."""
    while wanted.at < end:
        piece = link.recv(1 << 16)
        if not piece:
            wanted.end()
        wanted.take(piece)
    if wanted.at > end:
        raise Wrong(f"at byte {end} of the answers comes one to what was not asked yet")


def read_out(link, wanted):
    """Reads to the end of the connection."""
    while piece := link.recv(1 << 16):
        wanted.take(piece)
    wanted.end()


def exchange(link, pieces, wanted, pause=0.0):
    """Sends the pieces, and reads to the end of the connection; neither waits for the other. There is a pause before each piece."""
    link.setblocking(False)
    poll = select.poll()
    poll.register(link, select.POLLIN | select.POLLOUT)
    rest = next(pieces, b"")
    while True:
        ready = poll.poll(PATIENCE * 1_000)
        if not ready:
            raise TimeoutError(f"nothing comes for {PATIENCE:.0f} seconds, at byte {wanted.at} of the answers")
        if ready[0][1] & ~select.POLLOUT:
            piece = link.recv(1 << 16)
            if not piece:
                return wanted.end()
            wanted.take(piece)
        elif rest:
            rest = rest[link.send(rest) :]
            if not rest:
                rest = next(pieces, b"")
                time.sleep(pause)
        if not rest:
            poll.modify(link, select.POLLIN)


# Honest clients.

OFTEN = {"files": 60, "chance": 20, "long": 10, "large": 10}  # how often they take sessions of these groups


def honest(stage, number, tally):
    """A client that asks and reads as a user does."""
    by = Random(f"honest {SEED} {number}")
    sessions = stage.of_large if number <= LARGE_SEATS else stage.sessions
    while stage.is_on():
        group = by.choices(list(OFTEN), list(OFTEN.values()))[0]
        session = by.choice(sessions[group])
        tally.at = session.name
        try:
            with closing(greeted(stage.port)) as link:
                visit(link, by, number, session, tally)
            tally.sessions += 1
            tally.requests += len(session.requests)
            time.sleep(by.random() * PAUSE)
        except InUse:
            tally.in_use += 1
            time.sleep(AGAIN)
        except (Wrong, OSError) as fault:
            tally.wrong += 1
            stage.tell(session.name, fault)
            if isinstance(fault, ConnectionRefusedError):
                return


def visit(link, by, seat, session, tally):
    """A session at a seat."""
    requests = [b"SEAT %d\n" % seat, *session.requests]
    answers = [CLAIMED, *session.answers]
    if by.random() < 0.5:
        thought = THOUGHT if by.random() < 0.5 and len(requests) <= FEW else 0.0
        one_by_one(link, by, requests, answers, thought, session.name, tally)
    else:
        sent = b"".join(requests)
        exchange(link, pieces_of(by, sent), Wanted(answers), by.choice([0.0, 0.0, 0.0, 0.001]))


def one_by_one(link, by, requests, answers, thought, name, tally):
    """Each request once the one before is answered, and some seconds of thought are over."""
    wanted, end = Wanted(answers), 0
    for at, (request, answer) in enumerate(zip(requests, answers)):
        time.sleep(thought * by.random())
        end += len(answer)
        begun = time.monotonic()
        link.sendall(request)
        read_to(link, wanted, end)
        taken = time.monotonic() - begun
        if at == 0:
            tally.slowest_seat = max(tally.slowest_seat, taken)
        elif taken > tally.slowest[0]:
            first = request.split(b"\n", 1)[0][:30].decode(errors="replace")
            tally.slowest = (taken, f"{first} of '{name}'")
    read_out(link, wanted)


def pieces_of(by, sent):
    """The bytes in pieces of any sizes."""
    most, at = max(by.choice([1, 2, 7, 60, 1_000, 4_097, 100_000]), len(sent) // PIECES), 0
    while at < len(sent):
        size = by.randint(1, most)
        yield sent[at : at + size]
        at += size


# Hostile clients.


@dataclass
class Guest:
    """A hostile client."""

    stage: Stage
    by: Random

    def greeted(self, room=0):
        return closing(greeted(self.stage.port, room=room))

    def connected(self):
        """The same, with a greeting that was not read."""
        return closing(connected(self.stage.port))

    def sit(self, link):
        """Takes a seat that is free."""
        until = time.monotonic() + PATIENCE
        while time.monotonic() < until:
            link.sendall(b"SEAT %d\n" % self.by.randint(HONEST + 1, SEATS))
            try:
                return read_to(link, Wanted([CLAIMED]), len(CLAIMED))
            except InUse:
                time.sleep(AGAIN)
        raise Wrong("no seat is free")

    def may_sit(self, link):
        """Takes a seat, or does not; whether it has one."""
        has_seat = self.by.random() < 0.5
        if has_seat:
            self.sit(link)
        return has_seat

    def stay(self, most):
        time.sleep(self.by.uniform(0.05, most))


def half_a_line(guest):
    with guest.greeted() as link:
        guest.may_sit(link)
        link.sendall(guest.by.choice([b"RUN 1", b"SEAT 4", b"LOAD", b"QUI", b"LOAD 2\nprocedure M is", b" ", b"\r"]))
        guest.stay(2)


def garbage(guest):
    with guest.greeted() as link:
        guest.may_sit(link)
        link.sendall(guest.by.randbytes(guest.by.randint(1, 40_000)))
        guest.stay(0.3)


def endless_line(guest):
    """One line of some MB, behind which a QUIT may come."""
    with guest.greeted() as link:
        has_seat = guest.may_sit(link)
        for _ in range(guest.by.randint(1, 4)):
            link.sendall(MEGABYTE)
        if guest.by.random() < 0.5:
            link.sendall(b"\nSEAT 0\nQUIT\n")
            wanted = Wanted([TOO_LONG, UNKNOWN, CLAIMED] if has_seat else [NOT_CLAIMED, NO_SEAT, NOT_CLAIMED])
            read_to(link, wanted, len(wanted.text))


def cut_load(guest):
    """A LOAD whose lines do not all come."""
    with guest.greeted() as link:
        guest.may_sit(link)
        link.sendall(b"LOAD 32768\n" + b"null;\n" * guest.by.randint(0, 2_000))
        guest.stay(1)


def whole_load(guest):
    """The most lines of a LOAD, all of them long. One client of a process at a time sends them."""
    if not guest.stage.large.acquire(blocking=False):
        return cut_load(guest)
    try:
        with guest.greeted() as link:
            has_seat = guest.may_sit(link)
            link.sendall(b"LOAD 32768\n")
            lines = (b"x" * guest.by.choice([LINE - 1, LINE, LINE, LINE + 1]) + b"\n") * 256
            for _ in range(LINES // 256):
                link.sendall(lines)
            link.sendall(b"QUIT\n")
            fault = FULL if len(lines) <= 256 * (LINE + 1) else TOO_LONG
            wanted = Wanted([fault, CLAIMED] if has_seat else [NOT_CLAIMED] * 2)
            read_to(link, wanted, len(wanted.text))
    finally:
        guest.stage.large.release()


def unread(guest):
    """Answers that are never read, of long outputs or of long runs."""
    with guest.greeted(room=4_096) as link:
        guest.sit(link)
        link.settimeout(1)
        try:
            link.sendall(guest.by.choice([WORDY + b"RUN 100000\n" + b"OUTPUT\n" * 2_000, (ENDLESS + b"RUN 100000\n" * 10) * 20]))
        except TimeoutError:
            pass
        guest.stay(3)


def gone(guest):
    """A session that ends at any byte, of which nothing was read."""
    cut(guest, False)


def reset(guest):
    """The same, and what was sent is taken back."""
    cut(guest, True)


def cut(guest, resets):
    session = guest.by.choice(guest.stage.sessions[guest.by.choice(["files", "chance", "long"])])
    sent = b"SEAT %d\n" % guest.by.randint(HONEST + 1, SEATS) + b"".join(session.requests)
    with guest.connected() as link:
        link.settimeout(1)
        if resets:
            link.setsockopt(socket.SOL_SOCKET, socket.SO_LINGER, struct.pack("ii", 1, 0))
        try:
            link.sendall(sent[: guest.by.randrange(len(sent))])
        except TimeoutError:
            pass
        if guest.by.random() < 0.5:
            guest.stay(0.2)


def too_many(guest):
    """A request more than a journal takes, and QUIT."""
    session = guest.by.choice(guest.stage.sessions["full"])
    with guest.greeted() as link:
        guest.sit(link)
        exchange(link, iter([b"".join(session.requests)]), Wanted(session.answers))


def seats(guest):
    """Seats that there are not, no seat, and a seat twice."""
    seat = b"SEAT %d\n" % guest.by.randint(HONEST + 1, SEATS)
    with guest.greeted() as link:
        if guest.by.random() < 0.2:
            return
        link.sendall(b"SEAT 0\nSEAT 9999\nSEAT 65\nSEAT 10000\nSEAT\nSEAT 33 34\n\nRUN 1\nQUIT\nLOAD 1\nQUIT\n")
        wanted = Wanted([NO_SEAT] * 3 + [NOT_CLAIMED] * 7)
        read_to(link, wanted, len(wanted.text))
        try:
            exchange(link, iter([seat + seat + b"SEAT 0\nQUIT\n"]), Wanted([CLAIMED, UNKNOWN, UNKNOWN, CLAIMED]))
        except InUse:
            pass


KINDS = {  # what hostile clients do, and how often
    "half a line": (half_a_line, 10),
    "garbage": (garbage, 10),
    "a line of some MB": (endless_line, 3),
    "a LOAD that is cut": (cut_load, 10),
    "a LOAD of 32 MB": (whole_load, 1),
    "answers not read": (unread, 6),
    "gone at any byte": (gone, 20),
    "reset at any byte": (reset, 20),
    "a request too many": (too_many, 6),
    "no seat, or two": (seats, 14),
}


def hostile(stage, number, tally):
    """A client that does what no user should."""
    by = Random(f"hostile {SEED} {number}")
    guest = Guest(stage, by)
    often = [weight for _, weight in KINDS.values()]
    while stage.is_on():
        kind = by.choices(list(KINDS), often)[0]
        tally.at = kind
        tally.kinds[kind] += 1
        try:
            KINDS[kind][0](guest)
        except (Wrong, OSError) as fault:
            tally.misled += 1
            stage.tell(kind, fault)
            if isinstance(fault, ConnectionRefusedError):
                return
        time.sleep(by.random() * PAUSE)


# The server, and the processes of clients.


def processors():
    return len(os.sched_getaffinity(0))


def listening(program, workers, large=LARGE_SEATS):
    """The program once it listens, with so many large seats, and its port. Whoever asks for it ends it, also where they are told to end."""
    signal.signal(signal.SIGTERM, lambda *_: sys.exit(1))
    with socket.socket() as free:
        free.bind((HERE, 0))
        port = free.getsockname()[1]
    words = [program, "--seats", str(SEATS), "--large", str(large), "--workers", str(workers), "--port", str(port)]
    server = subprocess.Popen(words, stdin=subprocess.DEVNULL, stdout=subprocess.DEVNULL)
    for _ in range(100):
        try:
            connected(port).close()
            return server, port
        except OSError:
            time.sleep(0.1)
        if server.poll() is not None:
            break
    server.kill()
    sys.exit(f"{program} does not listen on port {port}")


@dataclass
class Held:
    """What the server has: memory now, at most, and as addresses, in MB; threads, and open files."""

    now: float
    most: float
    addresses: float
    threads: int
    files: int

    def is_more_than(self, before):
        """Whether there are threads or files that were not there before."""
        return self.threads > before.threads or self.files > before.files


def held(server):
    """What the server has; nothing where it has ended."""
    try:
        with open(f"/proc/{server.pid}/status", encoding="ascii") as file:
            told = dict(line.split(":", 1) for line in file)
        now, most, addresses = (int(told[name].split()[0]) / 1_024 for name in ("VmRSS", "VmHWM", "VmSize"))
        return Held(now, most, addresses, int(told["Threads"]), len(os.listdir(f"/proc/{server.pid}/fd")))
    except (OSError, KeyError):
        return None


def processor_seconds(server):
    """The seconds of processors that the server has taken."""
    try:
        with open(f"/proc/{server.pid}/stat", encoding="ascii") as file:
            numbers = file.read().rsplit(")", 1)[1].split()
        return (int(numbers[11]) + int(numbers[12])) / os.sysconf("SC_CLK_TCK")
    except OSError:
        return 0.0


def clients(stage, act, numbers, back):
    """The clients of a process, each on a thread, and what they have seen once all have ended, or have been waited for."""
    tallies = [Tally() for _ in numbers]
    threads = [threading.Thread(target=act, args=(stage, number, tally), daemon=True) for number, tally in zip(numbers, tallies)]
    for thread in threads:
        thread.start()
    whole = Tally()
    for thread, number, tally in zip(threads, numbers, tallies):
        thread.join(max(0.0, stage.until + 2 * PATIENCE - time.monotonic()))
        if thread.is_alive():
            whole.lost += 1
            stage.tell(tally.at, f"client {number} has not ended {2 * PATIENCE:.0f} seconds after the time")
        whole.add(tally)
    whole.used = time.process_time()
    back.send(whole)
    back.close()


def begin(stage):
    """The processes of clients, and the ends at which they tell what they have seen."""
    fork = multiprocessing.get_context("fork")
    share = SEATS // PROCESSES
    begun = []
    for first in range(1, SEATS + 1, share):
        told, back = fork.Pipe(duplex=False)
        act = honest if first <= HONEST else hostile
        process = fork.Process(target=clients, args=(stage, act, range(first, first + share), back), daemon=True)
        process.start()
        back.close()
        begun.append((process, told))
    return begun


def watch(server, stage, seconds):
    """What the server has after a tenth of the time and at its end. It is looked at each second."""
    tenth = last = None
    while stage.is_on() and server.poll() is None:
        last = held(server) or last
        if tenth is None and time.monotonic() >= stage.until - 0.9 * seconds:
            tenth = last
        time.sleep(min(1.0, max(0.0, stage.until - time.monotonic())))
    return tenth or last, last


def gather(begun):
    """What all clients have seen."""
    whole = Tally()
    for process, told in begun:
        try:
            whole.add(told.recv())
        except EOFError:
            whole.lost += SEATS // PROCESSES
        process.kill()
        process.join()
    return whole


def settled(server, before):
    """What the server has once the threads of connections that are gone have ended, or have been waited for."""
    until = time.monotonic() + SETTLING
    while (found := held(server)) and found.is_more_than(before) and time.monotonic() < until:
        time.sleep(0.1)
    return found


def seats_in_use(port):
    """The seats that cannot be claimed, though nobody is there."""
    until, kept = time.monotonic() + SETTLING, []
    for seat in range(1, SEATS + 1):
        while True:
            try:
                with closing(greeted(port)) as link:
                    link.settimeout(SETTLING)
                    exchange(link, iter([b"SEAT %d\n" % seat, b"QUIT\n"]), Wanted([CLAIMED, CLAIMED]))
                break
            except (InUse, Wrong, OSError) as fault:
                if not isinstance(fault, InUse) or time.monotonic() > until:
                    kept.append(seat)
                    break
                time.sleep(0.1)
    return kept


def further_one(port):
    """What is wrong with a client's connection while as many are served as may be: it is greeted before one of them ends, or not
    answered behind that."""
    served = []
    try:
        for _ in range(CLIENTS):
            served.append(greeted(port))
        further = connected(port)
        served.append(further)
        further.sendall(b"SEAT 1\nQUIT\n")
        if select.select([further], [], [], WAITS)[0]:
            return f"a client is greeted beside {CLIENTS} others"
        served.pop(0).close()
        _, behind = read_greeting(further)
        wanted = Wanted([CLAIMED, CLAIMED])
        wanted.take(behind)
        read_out(further, wanted)
        return None
    except (Wrong, OSError) as fault:
        return f"a client behind {CLIENTS} others: {fault}"
    finally:
        for link in served:
            link.close()


def look_at_greeting(program, port):
    """Ends where the program does not greet as it must."""
    try:
        greeted(port).close()
    except (Wrong, OSError) as fault:
        sys.exit(f"load: {program} on port {port}: {fault}")


def load(program, folder, seconds):
    """The number of things that were wrong."""
    groups = sessions_of(program, folder)
    for session in groups["full"]:
        if session.answers[-2:] != [FULL, CLAIMED]:
            sys.exit(f"load: {program} --solo does not answer the end of '{session.name}' by a full journal")
    at_large = of_large(groups)
    others = sum(one.answers != other.answers for group in at_large for one, other in zip(groups[group], at_large[group]))
    workers = min(MOST_WORKERS, processors())
    count = sum(len(group) for group in groups.values())
    print(f"load: {SEATS} clients for {seconds:g} seconds, {workers} workers, {count} sessions, {others} of which are answered otherwise at {LARGE_SEATS} large seats", flush=True)
    server, port = listening(program, workers)
    begun = []
    try:
        look_at_greeting(program, port)
        if seats_in_use(port):
            sys.exit(f"load: {program} has seats in use at first")
        time.sleep(0.5)
        before, start = held(server), time.monotonic()
        stage = Stage(port, start + seconds, groups, at_large)
        begun = begin(stage)
        tenth, last = watch(server, stage, seconds)
        whole = gather(begun)
        taken, busy = time.monotonic() - start, processor_seconds(server)
        tell(whole, taken, busy)
        wrong = whole.wrong + whole.misled + whole.lost + (whole.sessions == 0)
        if whole.lost:
            print(f"wrong: {whole.lost} clients did not end")
        if server.poll() is not None:
            print(f"wrong: the server ended with status {server.returncode}")
            return wrong + 1
        fault = further_one(port)
        print(f"wrong: {fault}" if fault else f"a client beside {CLIENTS} others waits until one of them ends")
        wrong += fault is not None
        kept = seats_in_use(port)
        return wrong + len(kept) + tell_left(kept, before, tenth, last, settled(server, before), seconds)
    finally:
        for process, _ in begun:
            process.kill()
        server.kill()
        server.wait()


def tell(whole, taken, busy):
    """Tells what the clients have seen."""
    slowest, request = whole.slowest
    kinds = ", ".join(f"{kind} {whole.kinds[kind]:,}" for kind in KINDS)
    print(f"honest: {whole.sessions:,} sessions, {whole.wrong:,} wrong; seat in use {whole.in_use:,} times")
    print(f"requests: {whole.requests:,}, {whole.requests / taken:,.0f} a second")
    print(f"slowest answer of requests one at a time: {slowest * 1e3:.1f} ms ({request}); of SEAT {whole.slowest_seat * 1e3:.1f} ms")
    print(f"hostile: {whole.kinds.total():,} connections, {whole.misled:,} answered wrong: {kinds}")
    print(f"processors: {busy / taken:.2f} for the server, {whole.used / taken:.2f} for the clients")


def tell_left(kept, before, tenth, last, after, seconds):
    """Tells what the server had and has; 1 where threads or files are left, or where its memory grows in so many seconds, and else 0."""
    print(
        f"memory of the server in MB: {tenth.now:.1f} after a tenth of the time, {last.now:.1f} at the end, {after.most:.1f} at most, {after.now:.1f} without clients;"
        f" of addresses {tenth.addresses:,.0f}, {last.addresses:,.0f}, and {after.addresses:,.0f} without clients"
    )
    print(f"threads and files without clients: {before.threads} and {before.files} before, {after.threads} and {after.files} now")
    print(f"wrong: seats in use with nobody there: {kept}" if kept else f"seats: each of the {SEATS} is free")
    grows = last.now > GROWTH * tenth.now
    if seconds < 10 * WARM:
        print(f"not judged: whether the server's memory grows; that takes {10 * WARM:.0f} seconds")
        grows = False
    if grows:
        print("wrong: the server's memory grows")
    return int(after.is_more_than(before) or grows)


def main():
    program, folder, seconds = sys.argv[1:]
    wrong = load(program, folder, float(seconds))
    print(f"load: {wrong} things were wrong" if wrong else "load: nothing was wrong")
    return 1 if wrong else 0


if __name__ == "__main__":
    sys.exit(main())
