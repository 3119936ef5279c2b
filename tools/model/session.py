"""Answers a session: what its lines ask, what the journal keeps of them, and what they cost."""
import re
from dataclasses import dataclass
from itertools import islice

import checking
import listings
from meaning import Machine
from reading import Reader
from state import STANDARD
from tokens import Fault

STEPS, CHOICES, LINE, REQUESTS, REQUEST_BYTES = 1_000_000, 10_000, 1_024, 4_096, 1_048_576
NUMBER = re.compile("[0-9]{1,10}")
RANGES = {"LOAD": (0, 32_768), "RUN": (1, 100_000), "STEP": (0, 9_999), "CHOOSE": (0, 9_999), "ADVANCE": (0, 10**9), "VARS": (0, 9_999), "SEAT": (0, 9_999)}
ALONE = ("RESET", "CLOCK", "MOVES", "TASKS", "QUEUES", "OBJECTS", "WAITS", "OUTPUT", "QUIT")
REFUSALS = {
    10: "unknown command", 11: "bad argument", 12: "line too long", 13: "journal full", 14: "no program", 15: "no such task",
    16: "no such move", 17: "step budget", 18: "choice list full", 19: "not ASCII", 22: "source too long",
    20: "lexical", 21: "syntax", 23: "too deep", 30: "name not declared", 31: "declared twice", 32: "wrong kind of name", 33: "wrong type",
    34: "wrong number of arguments", 35: "not a variable", 36: "wrong name at end", 37: "no matching body",
    38: "accept or Count out of place", 39: "formals do not conform", 40: "exit without loop", 41: "return out of place",
    42: "raise without handler", 43: "bad handler choice", 44: "function call out of place", 45: "number too large",
    46: "too many decimals", 47: "change within a function", 48: "parameter in barrier", 49: "not an entry", 50: "requeue out of place",
    51: "external requeue in a protected body", 52: "target declared inside",
}


class Refused(Exception):
    """By the refusal of this number, at a place of a source text."""

    def __init__(self, number, place=None):
        self.number, self.place = number, place

    def line(self):
        place = "{}:{} ".format(*self.place) if self.place else ""
        return f"- E{self.number} {place}{REFUSALS[self.number]}"


def look_at(line):
    """Refuses a line by how it came."""
    if len(line) > LINE:
        raise Refused(12)
    if any(ord(byte) > 127 for byte in line):
        raise Refused(19)


def trimmed(line):
    return line.removesuffix("\r").rstrip(" ")


def numbers(words, low, high):
    for word in words:
        if not NUMBER.fullmatch(word) or not low <= int(word) <= high:
            raise Refused(11)
    return [int(word) for word in words]


def command(line):
    """The word of a request and its numbers."""
    look_at(line)
    words = [word for word in trimmed(line).split(" ") if word] or [""]
    word, arguments = words[0], words[1:]
    if word in ALONE:
        if arguments:
            raise Refused(11)
        return word, []
    if word not in RANGES:
        raise Refused(10)
    if not arguments or len(arguments) > 1 and word != "CHOOSE":
        raise Refused(11)
    return word, numbers(arguments, *RANGES[word])


def gathered(lines):
    """The source text of a LOAD; the first bad line refuses it."""
    for line in lines:
        look_at(line)
    return "".join(trimmed(line) + "\n" for line in lines)


@dataclass
class Request:
    """A word, its numbers and its source text; a malformed one has no word, and the number of its refusal."""

    word: str
    numbers: list
    source: str = ""

    def size(self):
        return len(" ".join([self.word, *map(str, self.numbers)])) + 1 + len(self.source) if self.word else 1


def requests(sent):
    """Those of whole lines. A LOAD whose lines do not all come is none."""
    lines = iter(sent.split("\n")[:-1])
    for line in lines:
        try:
            word, given = command(line)
            count = given[0] if word == "LOAD" else 0
            texts = list(islice(lines, count))
            if len(texts) < count:
                return
            request = Request(word, given, gathered(texts))
        except Refused as refused:
            request = Request("", [refused.number])
        yield request


def checked(source):
    """The program, unless it has a fault: the first in the text is told."""
    try:
        reader = Reader(source)
        program = reader.program()
    except Fault as fault:
        raise Refused(fault.code, fault.place)
    faults = checking.faults(program, reader.tokens)
    if faults:
        place, code = min(faults)
        raise Refused(code, place)
    return program


class Session:
    """The limits of its seat, what is loaded, the requests of the journal and their bytes, and the units that they have cost."""

    def __init__(self, limits=STANDARD):
        self.limits, self.machine = limits, None
        self.kept, self.bytes, self.units = 0, 0, 0

    def has_room(self, request):
        """Whether the journal takes it."""
        return request.word == "QUIT" or self.kept < REQUESTS and self.bytes + request.size() <= REQUEST_BYTES

    def answer(self, request):
        """Its lines."""
        if not self.has_room(request):
            raise Refused(13)
        self.kept, self.bytes = self.kept + 1, self.bytes + request.size()
        before = self.machine.steps if self.machine and request.word in ("RUN", "STEP") else None
        try:
            return self.reply(request)
        finally:
            self.units += 1 if before is None else max(1, self.machine.steps - before)

    def reply(self, request):
        if not request.word:
            raise Refused(request.numbers[0])
        if request.word == "SEAT":
            raise Refused(10)
        if request.word == "QUIT":
            return []
        if request.word == "LOAD":
            return self.load(request.source)
        if self.machine is None:
            raise Refused(14)
        return getattr(self, request.word.lower())(*([request.numbers] if request.word == "CHOOSE" else request.numbers))

    def load(self, source):
        if len(source) > self.limits.source:
            raise Refused(22)
        self.machine = Machine(checked(source), self.limits)
        return [f"loaded {self.machine.program.name}"]

    def reset(self):
        self.machine = Machine(self.machine.program, self.limits)
        return []

    def run(self, count):
        self.look_at_steps()
        return self.ran(self.machine.run(min(count, STEPS - self.machine.steps)))

    def step(self, move):
        self.look_at_steps()
        moves = self.machine.moves()
        if move >= len(moves):
            raise Refused(16)
        self.machine.take(moves[move])
        return self.ran(1)

    def look_at_steps(self):
        if self.machine.steps == STEPS:
            raise Refused(17)

    def ran(self, steps):
        state, raised = self.machine.state(), self.machine.tasks[0].raised
        return [f"ran {steps} {state}"] + ([f"main raised {listings.exception_name(raised)}"] if raised and state == "ended" else [])

    def choose(self, choices):
        if len(self.machine.choices) + len(choices) > CHOICES:
            raise Refused(18)
        self.machine.choices += choices
        return [f"choices {len(self.machine.choices)}"]

    def advance(self, milliseconds):
        self.machine.clock += milliseconds
        return self.clock()

    def clock(self):
        return [f"clock {self.machine.clock}"]

    def moves(self):
        return listings.moves(self.machine)

    def tasks(self):
        return listings.tasks(self.machine)

    def queues(self):
        return listings.queues(self.machine)

    def objects(self):
        return listings.objects(self.machine)

    def waits(self):
        return listings.waits(self.machine)

    def vars(self, number):
        lines = listings.variables(self.machine, number)
        if lines is None:
            raise Refused(15)
        return lines

    def output(self):
        lines = self.machine.output.decode("latin-1").split("\n")
        return [f"bytes {len(self.machine.output)}"] + (lines if lines[-1] else lines[:-1])


def answers(sent, limits=STANDARD):
    """The text of all answers to the text that is sent, at a seat with these limits."""
    session, told = Session(limits), []
    for request in requests(sent):
        try:
            lines = session.answer(request)
            told += [f"+ {len(lines)}", *lines]
        except Refused as refused:
            told.append(refused.line())
        if request.word == "QUIT":
            break
    return "".join(line + "\n" for line in told)
