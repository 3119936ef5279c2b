"""Which tasks may call what: the words that stand in the statements of each, and of the procedures that it may call."""
import re

from .structure import constructs


def base(name):
    """A task's name without its index, in small letters: `FORKS(0)` is `forks`."""
    return re.sub(r"\(.*", "", name).lower()


class Mentions:
    """What the tasks of a source text mention. It is never too little: a task that can make a call mentions its names."""

    def __init__(self, tokens):
        found = constructs(tokens)
        self._bodies, self._procedures, self._types, self._changers = {}, {}, {}, {}
        for it in found:
            words = _words(tokens[it.first:it.last or len(tokens)])
            if it.kind == "task body":
                self._bodies.setdefault(it.name.lower(), set()).update(words)
            elif it.kind == "protected":
                inside = tokens[it.first:it.last]
                self._changers.setdefault(it.name.lower(), set()).update(
                    name.low for head, name in zip(inside, inside[1:]) if head.low in ("entry", "procedure"))
            elif it.kind == "procedure" and it is not found[0]:
                self._procedures.setdefault(it.name.lower(), set()).update(words)
        # The main procedure's declarations are those of others; its own are its statements.
        main = found[0] if found else None
        self._bodies[main.name.lower() if main else ""] = _words(tokens[main.begin or 0 if main else 0:])
        for at, it in enumerate(tokens[:-1]):
            if it.kind == "word" and tokens[at + 1].low in (":", ","):
                self._declare(tokens, at)
        self._closed = {}

    def _declare(self, tokens, at):
        """Notes the type of `A, B : T;` and of `A : array (1 .. 2) of T;`."""
        end = at
        while end < len(tokens) and tokens[end].low != ":":
            end += 1
        kind = tokens[end + 1:end + 2]
        if kind and kind[0].low == "array":
            of = next((k for k in range(end, min(end + 12, len(tokens))) if tokens[k].low == "of"), None)
            kind = tokens[of + 1:of + 2] if of else []
        if kind:
            self._types.setdefault(tokens[at].low, set()).add(kind[0].low)

    def of(self, name):
        """The words that a task may come to, by its name as TASKS tells it."""
        name = base(name)
        if name not in self._closed:
            words = set()
            for it in {name} | self._types.get(name, set()):
                words |= self._bodies.get(it, set())
            while True:
                more = set().union(words, *(self._procedures[it] for it in words if it in self._procedures))
                if more == words:
                    break
                words = more
            self._closed[name] = words
        return self._closed[name]

    def may_call(self, name, owner, entries):
        """Whether a task may call one of these entries of a task."""
        words = self.of(name)
        return owner in words and any(it in words for it in entries)

    def may_abort(self, name):
        """Whether a task may abort others."""
        return "abort" in self.of(name)

    def may_change(self, name, owner):
        """Whether a task may call an entry or procedure of a protected object: functions change nothing."""
        return self.may_call(name, owner, self._changers.get(owner, ()))


def _words(tokens):
    """The words of some tokens, but for the `abort` of a `requeue .. with abort`, which aborts nothing."""
    words, before = set(), ""
    for it in tokens:
        if it.kind == "word" and (before, it.low) != ("with", "abort"):
            words.add(it.low)
        before = it.low
    return words
