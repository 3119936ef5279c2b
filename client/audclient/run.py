"""A run that can be repeated: the steps since a program was loaded, each with the move that was picked, and the clock."""
from typing import NamedTuple, Optional

from .protocol import CHOICES, RUN, WAIT

CHOOSE_BYTES = 1000  # of one CHOOSE


class Step(NamedTuple):
    """One step: move `pick` of `of`, and what it was."""

    pick: int
    of: int
    task: int
    name: str
    line: int
    word: str
    put: str = ""  # what it put out
    partner: Optional[int] = None  # whose call it accepts, or who accepts its call


class Plain(NamedTuple):
    """Steps in the order of tasks: each makes the first move. Nobody has looked at them."""

    steps: int


class Advance(NamedTuple):
    """The clock goes on by so many milliseconds."""

    ms: int


class Raw(NamedTuple):
    """A request as it was sent."""

    request: str

    @property
    def steps(self):
        """The steps that it asks for. Those of two RUNs are those of one."""
        return int(self.request[4:]) if self.request.startswith("RUN ") else 0


def size(event):
    """How many steps or turns of the clock an event is."""
    return event.steps if isinstance(event, (Plain, Raw)) else 1


class Run:
    def __init__(self, events=()):
        self.events = []
        for it in events:
            self.add(it)

    def add(self, event):
        last = self.events[-1] if self.events else None
        if isinstance(event, Plain) and isinstance(last, Plain):
            self.events[-1] = Plain(last.steps + event.steps)
        elif isinstance(event, Raw) and isinstance(last, Raw) and event.steps and last.steps:
            self.events[-1:] = [Raw(it) for it in _runs(last.steps + event.steps)]
        elif event != Plain(0):
            self.events.append(event)

    @property
    def length(self):
        """How many steps and turns of the clock."""
        return sum(map(size, self.events))

    @property
    def steps(self):
        return sum(size(it) for it in self.events if not isinstance(it, Advance))

    @property
    def clock(self):
        return sum(it.ms for it in self.events if isinstance(it, Advance))

    @property
    def choices(self):
        """The picks where there were several moves, as CHOOSE takes them."""
        return [it.pick for it in self.events if isinstance(it, Step) and it.of > 1]

    def cut(self, count):
        """Takes the last steps and turns of the clock away, and returns them."""
        taken = []
        while count > 0 and self.events:
            last = self.events.pop()
            if size(last) > count:
                self.events.append(Plain(last.steps - count))
                last = Plain(count)
            count -= size(last)
            taken.append(last)
        return taken[::-1]

    def requests(self):
        """What leads here from a LOAD or RESET."""
        asked, choices, count, is_plain = [], [], 0, False

        def flush():
            nonlocal choices, count, is_plain
            asked.extend(_chosen(choices))
            asked.extend(_runs(count))
            choices, count, is_plain = [], 0, False

        for event in self.events:
            if isinstance(event, Plain):
                # The choices before are used up by then, and without any the first move is made.
                count, is_plain = count + event.steps, True
            elif isinstance(event, Step):
                if event.of > 1:
                    if is_plain or len(choices) == CHOICES:
                        flush()
                    choices.append(event.pick)
                count += 1
            else:
                flush()
                asked += advance(event.ms) if isinstance(event, Advance) else [event.request]
        flush()
        return asked


def _runs(count):
    whole, rest = divmod(count, RUN)
    return [f"RUN {RUN}"] * whole + [f"RUN {rest}"] * (rest > 0)


def advance(ms):
    """The requests by which the clock goes on so far."""
    whole, rest = divmod(ms, WAIT)
    return [f"ADVANCE {WAIT}"] * whole + [f"ADVANCE {rest}"] * (rest > 0)


def _chosen(choices):
    """CHOOSE for these. Zeros at the end go without saying."""
    last = max((at for at, it in enumerate(choices, 1) if it), default=0)
    return choose(choices[:last])


def choose(choices):
    """The requests that store these choices, each of them short enough."""
    asked, words, size = [], [], 0
    for it in map(str, choices):
        if size + len(it) >= CHOOSE_BYTES:
            asked.append("CHOOSE " + " ".join(words))
            words, size = [], 0
        words.append(it)
        size += len(it) + 1
    if words:
        asked.append("CHOOSE " + " ".join(words))
    return asked
