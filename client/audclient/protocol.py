"""Requests and answers, over a program of one's own (`aud --solo`) or a server's connection (docs/PROTOCOL.md)."""
import contextlib
import re
import socket
import subprocess

VERSION = "aud 2"
LINE = 1024  # bytes of a line
LINES = 32768  # lines of a source text
SOURCE = 32768  # bytes of a source text at a small seat
RUN = 100_000  # steps of one RUN
CHOICE = 9999  # the largest choice
MOVE = 9999  # the largest number of a move
WAIT = 1_000_000_000  # milliseconds of one ADVANCE
STEPS = 1_000_000  # steps of a LOAD or RESET
CHOICES = 10_000  # choices that wait
REQUESTS = 4096  # requests of a session
REQUEST_BYTES = 1_048_576  # and their bytes
BATCH = 16_384  # bytes of requests that are sent before their answers are read: less than any pipe holds

GREETING_SECONDS = 10
ANSWER_SECONDS = 120


class Refused(Exception):
    """A request that was refused: `- E30 1:22 name not declared`."""

    def __init__(self, answer):
        super().__init__(answer)
        code, rest = answer[2:].split(" ", 1)
        placed = re.fullmatch(r"(\d+):(\d+) (.*)", rest)
        self.code = code
        self.place = (int(placed[1]), int(placed[2])) if placed else None
        self.words = placed[3] if placed else rest


class Lost(Exception):
    """The session has ended early: its connection broke, its program ended, or its memory was refused."""


class Unreachable(Exception):
    """No session can be begun, and why."""


class Link:
    """One session: what is asked over two streams of bytes, and how much of the journal that takes."""

    def __init__(self, reader, writer, close):
        self._reader, self._writer, self._close = reader, writer, close
        self.requests, self.bytes = 0, 0
        self.is_open = True

    def fits(self, requests):
        """Whether the journal still holds these."""
        size = sum(len(it) + 1 for it in requests)
        return self.requests + len(requests) <= REQUESTS and self.bytes + size <= REQUEST_BYTES

    def ask_all(self, requests):
        """Asks one after the other, and returns their answers: the lines of each, or how it is refused."""
        if not self.is_open:
            raise Lost("the session is over")
        answers = []
        try:
            for batch in _batches(requests):
                self._writer.write("".join(it + "\n" for it in batch).encode("ascii"))
                self._writer.flush()
                answers += [self._answer() for _ in batch]
        except (OSError, ValueError) as error:
            self.close()
            raise Lost(_reason(error)) from None
        except BaseException:
            # An answer is only half read (Ctrl-C, or the end): nothing that comes behind it can be told apart.
            self.close()
            raise
        self.requests += len(requests)
        self.bytes += sum(len(it) + 1 for it in requests)
        return answers

    def ask(self, request):
        (answer,) = self.ask_all([request])
        if isinstance(answer, Refused):
            raise answer
        return answer

    def _answer(self):
        first = self._line()
        if first.startswith("+ "):
            return [self._line() for _ in range(int(first[2:]))]
        refused = Refused(first) if re.match(r"- E\d\d ", first) else None
        if refused is None:
            raise Lost(f"it answers what no aud does: {first[:60]}")
        if refused.code in ("E90", "E95"):
            raise Lost(refused.words)
        return refused

    def _line(self):
        line = self._reader.readline()
        if not line.endswith(b"\n"):
            raise Lost("its answers end early")
        return line[:-1].decode("ascii", "replace")

    def greeting(self):
        return self._answer()

    def close(self):
        if self.is_open:
            self.is_open = False
            self._close()


def _batches(requests):
    batch, size = [], 0
    for request in requests:
        if batch and size + len(request) >= BATCH:
            yield batch
            batch, size = [], 0
        batch.append(request)
        size += len(request) + 1
    if batch:
        yield batch


def _reason(error):
    if isinstance(error, socket.timeout):
        return f"no answer for {ANSWER_SECONDS} seconds"
    return error.strerror or str(error) if isinstance(error, OSError) else str(error)


class Solo:
    """A program of one's own, started anew for each session."""

    def __init__(self, program):
        self.program = program
        self.source_limit = SOURCE

    def connect(self):
        try:
            # In a session of its own, Ctrl-C at the terminal does not reach it.
            child = subprocess.Popen(
                [self.program, "--solo"],
                stdin=subprocess.PIPE,
                stdout=subprocess.PIPE,
                stderr=subprocess.DEVNULL,
                start_new_session=True,
            )
        except OSError as error:
            raise Unreachable(f"{self.program} does not start: {error.strerror}") from None

        def close():
            with contextlib.suppress(OSError):
                child.stdin.close()
            child.stdout.close()
            child.wait()

        return Link(child.stdout, child.stdin, close)

    def __str__(self):
        return f"{self.program} --solo"


class Served:
    """A seat of a server: the one that is asked for, or the first that is free."""

    def __init__(self, host, port, seat=None):
        self.host, self.port, self.seat = host, port, seat
        self.is_chosen = seat is not None
        self.source_limit = SOURCE

    def connect(self):
        place = f"{self.host}:{self.port}"
        try:
            stream = socket.create_connection((self.host, self.port), GREETING_SECONDS)
        except socket.timeout:
            raise Unreachable(f"{place} does not answer") from None
        except OSError as error:
            raise Unreachable(
                f"nothing listens at {place} ({_reason(error)}): is the server started, and the port forwarded?"
            ) from None
        stream.setsockopt(socket.IPPROTO_TCP, socket.TCP_NODELAY, 1)
        reader, writer = stream.makefile("rb"), stream.makefile("wb")

        def close():
            for it in (writer, reader, stream):
                with contextlib.suppress(OSError):
                    it.close()

        link = Link(reader, writer, close)
        try:
            self._sit(link, place)
        except BaseException:
            link.close()
            raise
        stream.settimeout(ANSWER_SECONDS)
        return link

    def _sit(self, link, place):
        try:
            first, *seats = link.greeting()
        except (Lost, OSError, ValueError) as error:
            if isinstance(error, socket.timeout):
                raise Unreachable(
                    f"{place} does not greet: the server is full (it serves 64 connections at once), or is no aud; try later"
                ) from None
            raise Unreachable(f"{place} ends the connection: {error}") from None
        if first != VERSION:
            raise Unreachable(f"{place} speaks `{first}`, this client `{VERSION}`")
        sources = {int(it.split()[1]): int(it.split()[5]) for it in seats}
        # Where a seat was taken before, a new session tries that one first: it may not yet be free.
        wanted = [self.seat] if self.is_chosen else sorted(sources, key=lambda it: (it != self.seat, it))
        for seat in wanted:
            try:
                link.ask(f"SEAT {seat}")
            except Refused as refused:
                if refused.code == "E92":
                    raise Unreachable(f"{place} has no seat {seat}: its seats are 1 to {len(sources)}") from None
                continue
            except Lost as lost:
                raise Unreachable(f"{place} ends the connection: {lost}") from None
            self.seat = seat
            self.source_limit = sources[seat]
            return
        if self.is_chosen:
            raise Unreachable(
                f"seat {self.seat} of {place} is in use: take another, or none (the first free one); "
                "if it was yours, it is free soon after its session ends"
            )
        raise Unreachable(f"all {len(sources)} seats of {place} are in use: try later, or ask for a server with more (--seats)")

    def __str__(self):
        return f"{self.host}:{self.port}, seat {self.seat}"
