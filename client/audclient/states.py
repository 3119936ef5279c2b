"""All schedules of a small program: its states, each looked at once, the nearest first.

A state is what the listings show, times counted from the clock on, and what hidden.py keeps besides. The output is no part of
it, but for a line that is not ended. From a state lead its moves, and where a time is due later, the clock goes on to the next.
"""
import time
from typing import List, NamedTuple, Optional

from . import listing
from .goals import Goal
from .hidden import Hidden
from .protocol import Refused
from .run import Advance, Run, Step, advance
from .waiting import Graph

STATES = 20_000  # that are looked at
SECONDS = 60
AT_ONCE = 40  # ways that are tried by one batch of requests


class Shown(NamedTuple):
    """What the listings show of a state."""

    shown: tuple  # their lines, times counted from the clock on
    moves: list
    statuses: dict  # of each task
    lines_of: dict
    raised: dict  # the pending exceptions
    acting: frozenset  # the tasks that have actions on objects under way
    variables: dict  # of each task
    all_variables: tuple  # and of the objects
    due: Optional[int]  # milliseconds to the next time that is due

    @property
    def is_ended(self):
        return self.statuses[1].startswith("terminated")

    @property
    def is_stuck(self):
        return not self.moves and self.due is None and not self.is_ended


class Node(NamedTuple):
    back: Optional[int]  # the state before
    event: object  # what led from there
    clock: int
    lines: int  # of its output
    shown: Shown
    kept: dict


class Explored(NamedTuple):
    states: int
    ways: int
    is_whole: bool  # none is left that was not looked at
    ends: int
    stuck: int
    doomed: int  # states that no way leads from to an end, nor to where the program is stuck
    path: Optional[List]  # how to come to the nearest state of those that were looked for
    lines: List  # that are put out in one schedule or another


class Explorer:
    """Goes through the states of the loaded program, which has each token on a line of its own."""

    def __init__(self, session, goal=None):
        self.session, self.goal = session, goal or Goal("state", "stuck")
        tokens = session.source.tokens
        words = {it.low for it in tokens}
        self._hidden = Hidden(tokens)
        self._listings = ["MOVES", "TASKS", "WAITS"]
        self._listings += ["QUEUES"] * ("entry" in words) + ["OBJECTS"] * ("protected" in words)
        self.nodes, self._numbers, self._ways = [], {}, []
        self._lines = set()

    def explore(self, say=lambda states: None, most=STATES, seconds=SECONDS):
        until = time.monotonic() + seconds
        path = None
        at = -1
        while at < len(self.nodes) and len(self.nodes) < most and time.monotonic() < until:
            ways = [(None, None)] if at < 0 else []
            at = max(at, 0)
            while at < len(self.nodes) and len(ways) < AT_ONCE:
                ways += [(at, it) for it in self._events(self.nodes[at])]
                at += 1
            for (back, event), answers in zip(ways, self._ask(ways)):
                number, is_wanted = self._add(back, event, answers)
                if is_wanted and path is None:
                    path = self._path(back) + ([event] if event else [])
            say(len(self.nodes))
        is_whole = at >= len(self.nodes)
        doomed = self._doomed() if is_whole else []
        if self.goal in (Goal("state", "endless"), Goal("state", "more")) and doomed:
            path = self._path(doomed[0])
        return Explored(
            len(self.nodes), len(self._ways), is_whole,
            sum(it.shown.is_ended for it in self.nodes),
            sum(it.shown.is_stuck for it in self.nodes),
            len(doomed), path, sorted(self._lines),
        )

    # -- ways --

    def _events(self, node):
        """What may happen in a state."""
        if node.shown.is_ended:
            return []
        moves = node.shown.moves
        events = [Step(it.number, len(moves), it.task, it.name, it.line, it.word) for it in moves]
        return events + ([Advance(node.shown.due)] if node.shown.due else [])

    def _path(self, number):
        """The events that lead to a state."""
        events = []
        while number is not None and self.nodes[number].event is not None:
            events.append(self.nodes[number].event)
            number = self.nodes[number].back
        return events[::-1]

    def _ask(self, ways):
        """The answers to each way: to its step, the listings, the variables of tasks, and the output where it changes."""
        asked, counts, led_to = [], [], {}
        for back, event in ways:
            if back not in led_to:
                led_to[back] = ["RESET", *Run(self._path(back)).requests()]
            led = led_to[back]
            step = [] if event is None else ["RUN 1"] if isinstance(event, Step) and event.of == 1 else (
                [f"STEP {event.pick}"] if isinstance(event, Step) else advance(event.ms))
            tasks = [1] if back is None else [t for t, it in self.nodes[back].shown.statuses.items() if it != "terminated"]
            look = [*self._listings, *(f"VARS {it}" for it in tasks)]
            look += ["OUTPUT"] * (isinstance(event, Step) and event.word == "put")
            asked += led + step + look
            counts.append((len(led), len(step), tasks, len(look)))
        answers, at, found = self.session.ask_all(asked), 0, []
        for led, step, tasks, look in counts:
            own = answers[at:at + led + step + look]
            at += len(own)
            refused = next((it for it in own if isinstance(it, Refused)), None)
            if refused:
                raise refused
            found.append((own[led:led + step], own[led + step:], tasks))
        return found

    # -- states --

    def _add(self, back, event, answers):
        """Notes what a way leads to: the state's number, and whether it is looked for."""
        step, look, tasks = answers
        before = self.nodes[back] if back is not None else None
        clock = (before.clock if before else 0) + (event.ms if isinstance(event, Advance) else 0)
        shown = self._shown(look, tasks, clock)
        kept, lines, added, rest = {}, 0, [], ""
        if before:
            kept, lines, rest = before.kept, before.lines, before.shown.shown[0]
            if isinstance(event, Step):
                kept = self._hidden.after(kept, event, before.shown, shown)
                if event.word == "put":
                    output = listing.output(look[-1])
                    added, lines, rest = output[lines:], len(output) - 1, output[-1]
                    self._lines.update(added[:-1])
        shown = shown._replace(shown=(rest, *shown.shown))
        key = (shown.shown, tuple(sorted(kept.items())))
        number = self._numbers.setdefault(key, len(self.nodes))
        if number == len(self.nodes):
            self.nodes.append(Node(back, event, clock, lines, shown, kept))
        if back is not None:
            self._ways.append((back, number))
        ran = listing.ran(step[0]) if isinstance(event, Step) else None
        return number, self._is_wanted(shown, look, tasks, added, ran)

    def _shown(self, look, tasks, clock):
        moves, standing, waits, *others = look[:len(self._listings)]
        variables = look[len(self._listings):len(self._listings) + len(tasks)]
        waiting, due = [], []
        for line, it in zip(waits, listing.waits(waits)):
            if it.due is not None:
                left = it.due - clock
                due += [left] if left > 0 else []
                # A time that is over is over, however long.
                line = f"{line.rsplit(' ', 1)[0]} {left if left > 0 or self._hidden.has_times else 0}"
            waiting.append(line)
        found = listing.tasks(standing)
        parts = listing.objects(others[-1]) if "OBJECTS" in self._listings else []
        own = {t: listing.variables(it) for t, it in zip(tasks, variables)}
        every = [it for t in own for it in own[t]]
        every += [listing.Variable(0, it.name, it.value) for it in parts if it.kind == "component"]
        return Shown(
            tuple(map(tuple, [moves, standing, waiting, *others, *variables])),
            listing.moves(moves),
            {it.number: it.status for it in found},
            {it.number: it.line for it in found},
            {it.task: it.rest for it in listing.waits(waits) if it.kind == "raised"},
            frozenset(int(t) for it in parts if it.kind == "object" and it.value != "idle" for t in it.value.split()),
            own,
            tuple(every),
            min(due, default=None),
        )

    def _is_wanted(self, shown, look, tasks, added, ran):
        goal = self.goal
        if goal.kind == "output":
            return goal.is_in_output(added)
        if goal.is_circle:
            graph = Graph(self.session.source, listing.tasks(look[1]), listing.waits(look[2]),
                          listing.objects(look[self._listings.index("OBJECTS")]) if "OBJECTS" in self._listings else [])
            return graph.is_deadlock
        if goal.kind == "state":
            return goal.name == "stuck" and shown.is_stuck or goal.name == "ended" and shown.is_ended
        if goal.kind == "raised" and ran and ran.raised == goal.name.upper():
            return True
        if goal.watched == "VARS":
            return any(map(goal.is_in_listing, look[len(self._listings):len(self._listings) + len(tasks)]))
        at = self._listings.index(goal.watched) if goal.watched in self._listings else None
        return at is not None and goal.is_in_listing(look[at])

    def _doomed(self):
        """The states from which no way leads to an end, nor to where the program is stuck."""
        backs = {}
        for back, number in self._ways:
            backs.setdefault(number, []).append(back)
        found = {at for at, it in enumerate(self.nodes) if it.shown.is_ended or it.shown.is_stuck}
        left = list(found)
        while left:
            for it in backs.get(left.pop(), []):
                if it not in found:
                    found.add(it)
                    left.append(it)
        return [at for at in range(len(self.nodes)) if at not in found]
