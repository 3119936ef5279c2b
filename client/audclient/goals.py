"""What a search looks for: that a program is stuck, a line of output, a variable's value, an exception."""
import re
from typing import NamedTuple

from . import listing
from .waiting import Graph

STATES = {  # what may be seen where a run ends, and the state that RUN tells then
    "stuck": "stuck",  # no task can go on
    "circle": None,  # some tasks wait for each other, and nobody can free them
    "ended": "ended",
    "endless": "more",  # it still runs
    "more": "more",
    "waiting": "waiting",
}
KINDS = "stuck, circle, ended, endless, output TEXT, vars NAME VALUE, raised NAME"


class BadGoal(Exception):
    """Words that tell no goal."""


class Goal(NamedTuple):
    kind: str  # "state", "output", "vars" or "raised"
    name: str
    value: str = ""

    def __str__(self):
        return self.name if self.kind == "state" else " ".join(filter(None, [self.kind, self.name, self.value]))

    @property
    def watched(self):
        """The listings that are looked at after each step; none where the end of a run tells."""
        if self.kind == "vars":
            return "OBJECTS" if "." in self.name else "VARS"
        return "WAITS" if self.kind == "raised" else None

    @property
    def is_circle(self):
        return self == Goal("state", "circle")

    @property
    def at_the_end(self):
        """The listings that are looked at where a run ends."""
        return ["TASKS", "WAITS", "OBJECTS"] if self.is_circle else ["OUTPUT"] if self.kind == "output" else []

    def is_at_the_end(self, source, ran, listings):
        """Whether it is seen where a run has ended so."""
        if self.is_circle:
            graph = Graph(source, *(tell(it) for tell, it in zip((listing.tasks, listing.waits, listing.objects), listings)))
            return graph.is_deadlock
        if self.kind == "output":
            return self.is_in_output(listing.output(listings[0]))
        if self.kind == "raised":
            return ran.raised == self.name.upper()
        return self.kind == "state" and STATES[self.name] == ran.state

    def is_in_output(self, output):
        """Whether a line of the output is the wanted one; a star in it stands for anything."""
        wanted = ".*".join(map(re.escape, self.name.split("*")))
        return self.kind == "output" and any(re.fullmatch(wanted, it.strip()) for it in output)

    def is_in_listing(self, lines):
        """Whether the watched listing shows it."""
        if self.kind == "raised":
            return any(it.kind == "raised" and it.rest == self.name.upper() for it in listing.waits(lines))
        if "." in self.name:
            variables = [it for it in listing.objects(lines) if it.kind == "component"]
        else:
            variables = listing.variables(lines)
        return any(it.name == self.name.upper() and it.value == self.value.upper() for it in variables)


def parse(words):
    """The goal that words tell."""
    kind, _, rest = words.strip().partition(" ")
    rest = rest.strip()
    if kind in STATES and not rest:
        return Goal("state", kind)
    if kind == "output" and rest:
        return Goal(kind, rest)
    if kind == "vars" and len(rest.split()) > 1:
        name, value = rest.split(None, 1)
        return Goal(kind, name, " ".join(value.lstrip("=").split()))
    if kind == "raised" and len(rest.split()) == 1:
        return Goal(kind, rest)
    raise BadGoal(f"a goal is one of: {KINDS}")
