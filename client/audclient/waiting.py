"""Who waits for whom: each task's reasons, circles of them, and which tasks nobody can free any more."""
from collections import deque
from typing import List, NamedTuple

from .mentions import base
from .run import Step


class Reason(NamedTuple):
    """Why a task waits: in words, who may end it, and whom of these it is shown to wait for."""

    words: str
    able: List[int]
    shown: List[int]
    is_all: bool = False  # it waits for each of them; else any of them may end it
    is_guessed: bool = False  # the text says who may end it, and not aud


class Graph:
    """Of the tasks of a state, by what TASKS, WAITS and OBJECTS tell, and by the steps before it."""

    def __init__(self, source, tasks, waits, objects, events=()):
        self.tasks = {it.number: it for it in tasks}
        self.reasons = {}  # of each task that waits
        self.due = {}  # when a task goes on by itself
        self.passive = set()  # waits at an open `terminate`
        self.aborters = []  # those that can go on, and may abort others
        self._spelled = source.spelled
        self._mentions = source.mentions
        self._served = last_served(events)
        self._actors = {it.number: [int(t) for t in it.value.split()] for it in objects
                        if it.kind == "object" and it.value != "idle"}
        for it in waits:
            if it.due is not None:
                self.due[it.task] = it.due
            reason = self._reason(it)
            if reason:
                self.reasons.setdefault(it.task, []).append(reason)
        self.stuck = self._stuck()
        self.circle = self._circle()

    def name(self, number):
        return f"t{number} {self._spelled(self.tasks[number].name)}"

    def names(self, numbers, last="and"):
        names = [self.name(it) for it in numbers]
        return f" {last} ".join(filter(None, [", ".join(names[:-1]), names[-1]])) if names else "nobody"

    @property
    def is_deadlock(self):
        """Whether tasks wait for each other, and nobody can free them."""
        return bool(self.circle) and self.stuck >= set(self.circle)

    def told(self):
        """The circle, and the tasks that nobody can free, in lines."""
        lines = []
        if self.circle:
            lines.append("a circle of tasks that wait for each other:")
            lines += [f"  {self.name(t)} {self._words(t, then)}" for t, then in zip(self.circle, self.circle[1:] + self.circle[:1])]
            lines += [f"  but {self.name(it)} goes on when the clock is {self.due[it]}" for it in self.circle if it in self.due]
            lines += [f"  but {self.name(it)} may abort tasks" for it in self.aborters]
        others = sorted(self.stuck - set(self.circle))
        if others:
            lines.append(f"nobody can free {self.names(others)}{' either' * bool(self.circle)}")
        return lines

    def _words(self, task, then):
        """Why a task waits for another one."""
        return next(it.words for it in self.reasons[task] if then in it.shown)

    # -- reasons --

    def _reason(self, wait):
        words = wait.rest.split()
        if wait.kind in ("call", "selected"):
            return self._of_call(wait, words)
        if wait.kind == "accept":
            return self._of_accept(wait, words)
        if wait.kind == "object":
            actors = self._actors.get(int(words[0]), [])
            return Reason(f"waits until {self.names(actors)} leaves {self._spelled(words[1])}", actors, actors)
        if wait.kind in ("master", "activation"):
            numbers = [int(it) for it in words]
            what = "to end" if wait.kind == "master" else "to be activated"
            return Reason(f"waits for {self.names(numbers)} {what}", numbers, numbers, True)
        if wait.kind == "raised":
            # It does not wait: this is what it does next.
            return None
        return Reason(f"waits until the clock is {wait.due}", [], [])

    def _of_call(self, wait, words):
        entry = self._spelled(words[-1])
        if words[0] != "object":
            owner = [int(words[0])]
            what = f"to accept {entry}" if wait.kind == "call" else f"to end the rendezvous of {entry}"
            return Reason(f"waits for {self.name(owner[0])} {what}", owner, owner)
        actors = self._actors.get(int(words[1]), [])
        if wait.kind == "selected" and actors:
            return Reason(f"waits for {self.names(actors)} to end {entry}", actors, actors)
        if wait.kind == "selected":
            # Whoever accepted it has sent it on, and does it next.
            others = self._who(wait.task, lambda name: True)
            return Reason(f"waits for the start of {entry}", others, [])
        owner = entry.split(".")[0]
        able = self._who(wait.task, lambda name: self._mentions.may_change(name, owner.lower()))
        return Reason(f"waits for the barrier of {entry}" + self._by(able, f"may change {owner}"), able, able, is_guessed=True)

    def _of_accept(self, wait, words):
        if words[-1:] == ["terminate"]:
            self.passive.add(wait.task)
            words = words[:-1]
        elif words[-2:-1] == ["delay"]:
            words = words[:-2]
        entries = " or ".join(map(self._spelled, words))
        lower = [it.lower() for it in words]
        able = self._who(wait.task, lambda name: self._mentions.may_call(name, base(wait.name), lower))
        served = self._served.get(wait.task)
        if served in able:
            return Reason(f"waits for a call of {entries}; it served {self.name(served)} last", able, [served], is_guessed=True)
        return Reason(f"waits for a call of {entries or 'nothing'}" + self._by(able, "may make it"), able, able, is_guessed=True)

    def _who(self, task, may):
        """The tasks but this one that are not over and of which that holds."""
        return [it.number for it in self.tasks.values() if it.number != task and not it.is_over and may(it.name)]

    def _by(self, able, does):
        return f"; only {self.names(able, 'or')} {does}" if able else f"; nobody is left who {does}"

    # -- tasks that nobody frees, and circles --

    def _stuck(self):
        """The largest set of tasks of which each waits, without a time, for others of the set alone."""
        held = set(self.reasons) - set(self.due)
        while True:
            free = {t for t in held if any(self._may_end(it, held) for it in self.reasons[t])}
            if not free:
                break
            held = held - free
        self.aborters = [it.number for it in self.tasks.values()
                         if it.number not in held and not it.is_over and self._mentions.may_abort(it.name)]
        return set() if self.aborters else held - self.passive

    def _may_end(self, reason, held):
        if reason.is_all:
            return all(it not in held or it in self.passive for it in reason.able)
        return any(it not in held for it in reason.able)

    def _circle(self):
        """A shortest circle of tasks that wait for each other: of such that nobody frees, if there is one."""
        edges = {t: [k for it in self.reasons[t] for k in it.shown if k in self.stuck] for t in self.stuck}
        told = {t: [k for it in its if not it.is_guessed for k in it.shown if k in self.reasons]
                for t, its in self.reasons.items()}
        circle = _shortest(edges) or _shortest(told)
        # It begins with a task that has called, which is easier to follow.
        first = next((at for at, t in enumerate(circle) if not any(it.is_guessed for it in self.reasons[t])), 0)
        return circle[first:] + circle[:first]


def _shortest(edges):
    """The nodes of a shortest circle, or nothing."""
    best = []
    for start in sorted(edges):
        back, queue = {start: None}, deque([start])
        while queue and not (best and start in best):
            node = queue.popleft()
            if start in edges[node]:
                found = []
                while node is not None:
                    found.append(node)
                    node = back[node]
                if not best or len(found) < len(best):
                    best = found[::-1]
                break
            for it in edges[node]:
                if it not in back:
                    back[it] = node
                    queue.append(it)
    return best


def last_served(events):
    """Of each task whose call it accepted last."""
    served = {}
    for it in events:
        if isinstance(it, Step) and it.partner is not None:
            acceptor, caller = (it.partner, it.task) if it.word.startswith("call") else (it.task, it.partner)
            served[acceptor] = caller
    return served
