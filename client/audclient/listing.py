"""What the listings of the protocol tell, line by line (docs/PROTOCOL.md, Listings)."""
import functools
from typing import NamedTuple, Optional, Tuple


class Move(NamedTuple):
    number: int
    task: int
    name: str
    line: int
    word: str


class Task(NamedTuple):
    number: int
    name: str
    status: str
    line: int

    @property
    def is_over(self):
        return self.status.startswith(("terminated", "completed"))


class Variable(NamedTuple):
    depth: int
    name: str
    value: str


class Queue(NamedTuple):
    """An entry with queued calls. The owner is `task 2` or `object 1`, the entry `FORKS(0).TAKE`."""

    owner: str
    entry: str
    callers: Tuple[int, ...]


class Wait(NamedTuple):
    """Why a task waits: `call` and `3 FORKS(1).TAKE`, `accept` and `PUT_DOWN`, `delay` and `1500`, `master` and `3 4` .."""

    task: int
    name: str
    kind: str
    rest: str

    @property
    def due(self):
        """When its time is over, where it waits for one."""
        words = self.rest.split()
        if self.kind == "delay":
            return int(words[0])
        if self.kind == "accept" and len(words) > 1 and words[-2] == "delay":
            return int(words[-1])
        return None


class Part(NamedTuple):
    """A line of OBJECTS: an object and its actions, a component and its value, or an entry and its barrier."""

    number: int
    name: str
    value: str
    kind: str  # "object", "component" or "entry"


class Ran(NamedTuple):
    """The answer to RUN and STEP."""

    count: int
    state: str  # "ended", "output full", "more", "waiting" or "stuck"
    due: Optional[int]
    raised: Optional[str]


def moves(lines):
    return [_move(it) for it in lines]


def tasks(lines):
    return [_task(it) for it in lines]


def variables(lines):
    return [_variable(it) for it in lines]


def queues(lines):
    return [_queue(it) for it in lines]


def waits(lines):
    return [_wait(it) for it in lines]


def objects(lines):
    return [_part(it) for it in lines]


# The same lines come again and again where all states of a program are looked at.
remembered = functools.lru_cache(maxsize=100_000)


@remembered
def _move(line):
    number, task, name, place, word = line.split(" ", 4)
    return Move(int(number), int(task), name, int(place), word)


@remembered
def _task(line):
    number, name, rest = line.split(" ", 2)
    status, place = rest.rsplit(" ", 1)
    return Task(int(number), name, status, int(place))


@remembered
def _variable(line):
    depth, name, rest = line.split(" ", 2)
    return Variable(int(depth), name, rest[1:].strip())


@remembered
def _queue(line):
    head, callers = line.split(":", 1)
    kind, number, entry = head.split(" ", 2)
    return Queue(f"{kind} {number}", entry, tuple(int(t) for t in callers.split()))


@remembered
def _wait(line):
    number, name, kind, *rest = line.split(" ", 3)
    return Wait(int(number), name, kind, rest[0] if rest else "")


@remembered
def _part(line):
    number, name, rest = line.split(" ", 2)
    if "." not in name:
        return Part(int(number), name, rest, "object")
    if rest.startswith("="):
        return Part(int(number), name, rest[2:], "component")
    return Part(int(number), name, rest, "entry")


def ran(lines):
    _, count, state = lines[0].split(" ", 2)
    due = None
    if state.startswith("waiting "):
        state, due = "waiting", int(state.split()[1])
    raised = lines[1].rsplit(" ", 1)[1] if len(lines) > 1 else None
    return Ran(int(count), state, due, raised)


def output(lines):
    """The output as it was put out: its lines, the last one empty where it ends with a line feed."""
    size, shown = int(lines[0].split()[1]), lines[1:]
    if not shown:
        return [""]
    is_ended = size == sum(len(it) + 1 for it in shown)
    return shown + [""] if is_ended else shown
