"""Lists of random calls of a hall, with the replies that must come: a hall that shares nothing with the crates, around the servers of session.py.

tools/check calls it with the program, the first seed and how many to take; with `write`, a first seed and a number it writes such lists as
crates/aud_session_tests/data/halls has them. The lists there that are worked out by hand must have the model's replies too."""
import random
import subprocess
import sys
import tempfile
from pathlib import Path

import compare
import session
from state import LARGE, STANDARD

FOLDER = Path(__file__).resolve().parents[2] / "crates/aud_session_tests/data/halls"
STORED, BY_HAND = FOLDER / "random.txt", (FOLDER / "rows.txt", FOLDER / "limits.txt")
WORDS = {"standard": STANDARD, "large": LARGE}
SEATS, CALLS, MOST = 4, 100, 2**64 - 1
LIMITS = ["standard", "standard", "standard", "large"]
ENDS = "LOAD 1|procedure M is begin null; end M;"
LOOPS = "LOAD 1|procedure M is begin loop null; end loop; end M;"
TASKS = (
    'LOAD 1|procedure M is task A; task B; task body A is begin loop Put ("a"); end loop; end A; '
    'task body B is begin loop Put ("b"); end loop; end B; begin null; end M;'
)
WRONG = "LOAD 1|procedure M is begin X := 1; end M;"


class Server:
    """What a private server answers, and what each request costs."""

    def __init__(self, limits):
        self.session, self.served = session.Session(limits), []

    def ask(self, request):
        """Whether its journal has room for the request."""
        units = self.session.units
        [asked] = session.requests(request.replace("|", "\n") + "\n")
        if not self.session.has_room(asked):
            return False
        try:
            lines = self.session.answer(asked)
            answer = "".join(line + "\n" for line in [f"+ {len(lines)}", *lines])
        except session.Refused as refused:
            answer = refused.line() + "\n"
        self.served.append((answer, max(1, self.session.units - units)))
        return True


class Bench:
    """The requests that it was given, what each costs, the units of work done on them, and how many answers were taken out."""

    def __init__(self, limits):
        self.limits, self.journal, self.costs, self.units, self.taken = limits, [], [], 0, 0

    def answered(self):
        paid = 0
        for count, cost in enumerate(self.costs):
            paid += cost
            if self.units < paid:
                return count
        return len(self.costs)


class Seat:
    def __init__(self, limits):
        self.requests, self.server, self.outbox, self.home = [], Server(limits), 0, Bench(limits)


class Hall:
    """A seat is None while nobody has claimed it, and a parcel once it was taken in."""

    def __init__(self, words):
        self.limits, self.seats, self.out = [WORDS[word] for word in words], [None] * len(words), []

    def seat(self, number):
        """The seat, or why there is none."""
        if not 1 <= number <= len(self.seats):
            return None, "E92 no such seat"
        return self.seats[number - 1], "E93 seat not claimed"

    def claim(self, number):
        there, why = self.seat(number)
        if there or "E92" in why:
            return "E91 seat in use" if there else why
        self.seats[number - 1] = Seat(self.limits[number - 1])
        return "accepted"

    def submit(self, number, request):
        there, why = self.seat(number)
        if not there or there.requests[-1:] == ["QUIT"]:
            return why
        if not there.server.ask(request):
            return "E13 journal full"
        there.requests.append(request)
        return "accepted"

    def send(self, number):
        there, _ = self.seat(number)
        if not there or not there.home or len(there.requests) <= there.outbox:
            return "stays"
        bench, there.home = there.home, None
        bench.journal += there.requests[len(bench.journal) :]
        bench.costs += [cost for _, cost in there.server.served[len(bench.costs) :]]
        self.out.append((number, bench))
        return "sent"

    def parcel(self, number):
        return self.out[number] if number < len(self.out) else None

    def slice(self, number, units):
        if not self.parcel(number):
            return "nothing"
        _, bench = self.out[number]
        done = min(units, sum(bench.costs) - bench.units)
        bench.units += done
        return f"did {done}, left {len(bench.journal) - bench.answered()}"

    def stranger(self, bench, number):
        """Why the bench is not taken in at a seat, if it is not."""
        if not 1 <= number <= len(self.seats):
            return "no such seat"
        if bench.limits != self.limits[number - 1]:
            return "other limits"
        there, _ = self.seat(number)
        requests = there.requests if there else []
        for place, request in enumerate(bench.journal):
            if requests[place : place + 1] != [request]:
                return f"request {place} differs"
        if not there or there.home:
            return "no parcel is out"
        if not bench.taken <= there.outbox <= bench.answered():
            return f"behind {there.outbox} answers"
        return None

    def check(self, number, seat):
        if not self.parcel(number):
            return "nothing"
        _, bench = self.out[number]
        why = self.stranger(bench, seat)
        if why:
            return f"stranger: {why}"
        self.out[number] = None
        there, _ = self.seat(seat)
        there.outbox = bench.taken = bench.answered()
        there.home = bench
        return "taken in, idle" if len(there.requests) <= there.outbox else "taken in, more"

    def collect(self, number, first):
        there, why = self.seat(number)
        if not there:
            return why
        return "".join(answer for answer, _ in there.server.served[first : there.outbox]).removesuffix("\n") or "no answer"

    def free(self, number):
        there, why = self.seat(number)
        if not there:
            return why
        self.seats[number - 1] = None
        return "accepted"


def request(rng):
    plain = {ENDS: 2, LOOPS: 6, TASKS: 6, WRONG: 2, "STEP 0": 3, "STEP 1": 1, "CLOCK": 2, "RESET": 1, "OUTPUT": 9, "BAD": 3, "QUIT": 1, "MOVES": 1, "TASKS": 2}
    drawn = {f"RUN {rng.randint(1, 20)}": 20, f"CHOOSE {rng.randrange(4)}": 4, f"VARS {rng.randrange(4)}": 1, f"ADVANCE {rng.randrange(200)}": 2}
    words = {**plain, **drawn}
    return rng.choices(list(words), list(words.values()))[0]


class Drawn:
    """A random list: the calls and their replies, of a hall in which seats mostly ask the same at first, so that parcels fit at other seats."""

    def __init__(self, seed):
        self.rng, self.hall, self.lines = random.Random(seed), Hall(LIMITS), [("hall " + " ".join(LIMITS), None)]
        self.common = [request(self.rng) for _ in range(12)]
        for _ in range(CALLS):
            self.call()
        for number, there in enumerate(self.hall.out):
            if there:
                self.make("check", number, there[0])
        for seat in range(1, SEATS + 1):
            number = len(self.hall.out)
            self.make("send", seat)
            self.make("slice", number, MOST)
            self.make("check", number, seat)
            self.make("collect", seat, 0)

    def make(self, word, *numbers):
        reply = getattr(self.hall, word)(*numbers)
        self.lines.append((" ".join([word, *map(str, numbers)]), reply))

    def call(self):
        rng = self.rng
        # Seldom at a seat that the hall does not have.
        seat = rng.choices([0, SEATS + 1, rng.randint(1, SEATS)], [1, 1, 58])[0]
        word = rng.choices(["claim", "submit", "send", "slice", "check", "collect", "free"], [6, 31, 16, 17, 18, 6, 4])[0]
        # Mostly a call that comes to something.
        if rng.randrange(8):
            word = self.likely(word, seat)
        if word == "submit":
            self.make(word, seat, self.asked(seat))
        elif word == "slice":
            self.make(word, self.parcel(), rng.choices([0, MOST, 1, rng.randrange(2, 20)], [1, 1, 4, 4])[0])
        elif word == "check":
            number = self.parcel()
            there = self.hall.parcel(number)
            self.make(word, number, there[0] if there and rng.randrange(4) else seat)
        elif word == "collect":
            self.make(word, seat, rng.randrange(6))
        else:
            self.make(word, seat)

    def likely(self, word, seat):
        if word in ("slice", "check"):
            return word if any(self.hall.out) else "send"
        return word if self.hall.seat(seat)[0] else "claim"

    def asked(self, seat):
        there, _ = self.hall.seat(seat)
        place = len(there.requests) if there else 0
        if self.rng.randrange(12) and place < len(self.common):
            return self.common[place]
        return request(self.rng)

    def parcel(self):
        """One of those that are out, or else one that is not there yet."""
        out = [number for number, there in enumerate(self.hall.out) if there]
        return self.rng.choice(out) if out else len(self.hall.out)

    def text(self, name):
        told = [f"= {name}"]
        for call, reply in self.lines:
            told.append(f"> {call}")
            if reply is not None:
                told += [f"< {line}" for line in reply.split("\n")]
        return "\n".join(told) + "\n"


def replies(sent):
    """The replies to the calls of a text, the first line of which is the hall."""
    first, *calls = sent.split("\n")[:-1]
    hall, told = Hall(first.split(" ")[1:]), ""
    for call in calls:
        word, place, *rest = call.split(" ", 2)
        told += getattr(hall, word)(int(place), *(rest if word == "submit" else map(int, rest))) + "\n"
    return told


def other_by_hand():
    """The lists worked out by hand whose replies are not the model's."""
    for file in BY_HAND:
        for name, sent, told in compare.sessions(file.read_text(encoding="latin-1")):
            if replies(sent) != told:
                yield f"{file.name}: {name}"


def lists(first, count):
    """The text of so many lists."""
    return "\n".join(Drawn(seed).text(f"list {seed}") for seed in range(first, first + count))


def compared(program, first, count):
    with tempfile.TemporaryDirectory() as folder:
        file = Path(folder) / "lists.txt"
        file.write_text(lists(first, count), encoding="latin-1")
        return subprocess.run([program, "--halls", str(file)], timeout=300, check=False).returncode


def main(program, first, count):
    first, count = int(first), int(count)
    if program == "write":
        print(lists(first, count), end="")
        return 0
    names = STORED.read_text(encoding="latin-1").count("\n= ") + 1
    if STORED.read_text(encoding="latin-1") != lists(1, names):
        print("halls: the stored lists are not the model's")
        return 1
    others = list(other_by_hand())
    for name in others:
        print(f"halls: the replies are not the model's: {name}")
    status = compared(program, first, count)
    print(f"halls: {count} lists by chance, {'answered as by the model' if status == 0 else 'not all alike'}; {len(others)} by hand are not the model's")
    return status or int(others != [])


if __name__ == "__main__":
    sys.setrecursionlimit(100_000)
    sys.exit(main(*sys.argv[1:]))
