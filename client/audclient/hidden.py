"""What a program's next steps depend on and no listing tells, followed step by step.

Two states that the listings show alike may differ still: by where a procedure was called from, by values that a call, a loop or
a select took and keeps, by the exception that a handler handles. All of that comes from steps that were made, so it is kept
here for each task as what the statement of such a step named, with the values of then. Of what has no meaning any more
nothing is kept: else states that go on alike would count as different.

The program has each token on a line of its own, so that a line tells the place of a step.
"""
from typing import NamedTuple, Tuple


class Kept(NamedTuple):
    """Of one task."""

    frames: Tuple = ()  # of each block and procedure under way
    loops: Tuple = ()  # of each `for` loop under way: how many frames, where, what its bounds named
    call: Tuple = ()  # of the call that is not over
    guards: Tuple = ()  # of the select at which it waits
    result: Tuple = ()  # of the `return` or `requeue` whose call is not over
    handled: Tuple = ()  # which exception each handler handles
    is_activated: bool = False
    has_failed: bool = False  # it was completed before it was activated


NOTHING = Kept()


class Hidden:
    def __init__(self, tokens):
        self._tokens = tokens
        self._headers = {}
        self._reraises = any(it.low == "raise" and tokens[at + 1].low == ";" for at, it in enumerate(tokens[:-1]))
        # Of several times of one select the listings tell the next alone.
        self.has_times = any(
            it.low == "select" and sum(t.low == "delay" for t in _guards(tokens, at)) > 1 for at, it in enumerate(tokens))

    def after(self, kept, move, before, then):
        """What is kept behind a step; `kept` is what was before it, `before` and `then` what was shown."""
        kept = dict(kept)
        kind = move.word.split()[0]
        own = self._own(kept.get(move.task, NOTHING), kind, move, before, then)
        kept[move.task] = own
        if kind == "requeue":
            # Its call, as others that are accepted, is made again with what the formals are now.
            values = tuple(before.variables.get(move.task, ()))
            for t, status in before.statuses.items():
                if status.startswith("rendezvous"):
                    it = kept.get(t, NOTHING)
                    kept[t] = it._replace(call=it.call + (values,))
        kept = {t: self._current(t, it, then) for t, it in kept.items()}
        return {t: it for t, it in kept.items() if it != NOTHING}

    def _own(self, own, kind, move, before, then):
        """What the step itself changes."""
        named = self._named(move.line, kind, before)
        if kind in ("proc", "block"):
            is_entered = move.task not in then.raised or move.task in before.raised
            return own._replace(frames=own.frames + (named,)) if is_entered else own
        if kind == "leave":
            return own._replace(frames=own.frames[:-1], result=())
        if kind in ("finish", "endaccept"):
            return own._replace(result=())
        if kind == "for":
            return own._replace(loops=own.loops + ((len(own.frames), *named),))
        if kind in ("call", "start"):
            return own._replace(call=(named,))
        if kind == "select":
            return own._replace(guards=(named,))
        if kind in ("return", "requeue"):
            return own._replace(result=(named,))
        if kind == "handler" and self._reraises:
            handled = {**dict(own.handled), (len(own.frames), move.line): before.raised.get(move.task)}
            return own._replace(handled=tuple(sorted(handled.items())))
        if kind == "activated":
            return own._replace(is_activated=True)
        if kind == "complete":
            return Kept(has_failed=not own.is_activated)
        return own

    def _current(self, task, kept, then):
        """Without what has no meaning any more."""
        status = then.statuses.get(task, "terminated")
        is_activating = any(it.startswith("activation") for it in then.statuses.values())
        if status.startswith(("completed", "terminated")):
            return Kept(has_failed=kept.has_failed and is_activating)
        is_calling = status.startswith(("queued", "rendezvous", "object")) or task in then.acting
        loops = kept.loops
        if not is_calling:
            loops = tuple(it for it in loops if self._is_within(it, len(kept.frames), then.lines_of[task]))
        return kept._replace(
            loops=loops,
            call=kept.call if is_calling else (),
            guards=kept.guards if status.startswith("accept") else (),
            handled=tuple(it for it in kept.handled if it[0][0] <= len(kept.frames)),
        )

    def _is_within(self, loop, frames, line):
        """Whether a loop is under way: a procedure called in it is, or the task stands in its text."""
        depth, begun, *_ = loop
        return depth < frames or depth == frames and begun <= line <= self._end_of_loop(begun)

    def _end_of_loop(self, begun):
        if ("end", begun) not in self._headers:
            depth = 0
            at = next(k for k in range(begun - 1, len(self._tokens)) if self._tokens[k].low == "loop")
            while at < len(self._tokens):
                if self._tokens[at].low == "loop":
                    depth += -1 if self._tokens[at - 1].low == "end" else 1
                    if depth == 0:
                        break
                at += 1
            self._headers["end", begun] = at + 1
        return self._headers["end", begun]

    def _named(self, line, kind, before):
        """Where a step stands, and the values of what its statement names."""
        words = self._header(line, kind)
        if not words:
            return (line, ())
        values = tuple((it.name, it.value) for it in before.all_variables if it.name.split(".")[-1] in words)
        # Count, Callable and Terminated look at more than variables.
        return (line, values, before.shown if "'" in words else ())

    def _header(self, line, kind):
        """The words, in capitals, of the part of a statement that is evaluated at its step."""
        if (line, kind) not in self._headers:
            found = _guards(self._tokens, line - 1) if kind == "select" else _until(self._tokens, line - 1, kind)
            words = {it.text.upper() for it in found if it.kind == "word"}
            if words & {"COUNT", "CALLABLE", "TERMINATED"} and any(it.text == "'" for it in found):
                words.add("'")
            self._headers[line, kind] = words
        return self._headers[line, kind]


def _until(tokens, at, kind):
    """A statement up to its semicolon, a `for` up to its `loop`, nothing of a block."""
    found = []
    for it in tokens[at:] if kind != "block" else []:
        if it.low == ";" or kind == "for" and it.low == "loop":
            break
        found.append(it)
    return found


def _guards(tokens, at):
    """The guards and delays of a select statement."""
    found, depth, is_inside = [], 0, False
    for k in range(at, len(tokens)):
        it = tokens[k]
        if it.low == "select":
            depth += -1 if tokens[k - 1].low == "end" else 1
            if depth == 0:
                break
        is_inside = it.low in ("when", "delay") or is_inside and it.low not in ("=>", ";")
        if is_inside:
            found.append(it)
    return found
