"""Session files: a program, the requests that lead somewhere in it, and listings of that, as `aud --solo` takes them."""
import re

from .protocol import CHOICE, CHOICES, MOVE, RUN, WAIT, Refused
from .run import Run
from .source import Source

LISTED = ["TASKS", "QUEUES", "OBJECTS", "WAITS", "OUTPUT", "QUIT"]
LOOKS = {"CLOCK", "MOVES", "TASKS", "QUEUES", "OBJECTS", "WAITS", "VARS", "OUTPUT"}
AT_ONCE = 200  # steps that are followed at once while choices wait


class BadFile(Exception):
    """A file that is no session."""


def text_of(source, run):
    """The session that leads where a run stands, and tells what is to be seen there."""
    return "".join(it + "\n" for it in [source.request, *run.requests(), *LISTED])


def read(path):
    """The program of a session file, and the requests behind its last LOAD."""
    with open(path, "rb") as file:
        rows = file.read().split(b"\n")
    source, requests, at = None, [], 0
    while at < len(rows):
        words = rows[at].decode("latin-1").split()
        at += 1
        if words[:1] == ["LOAD"] and len(words) == 2 and words[1].isdigit():
            count = int(words[1])
            source, requests = Source(b"\n".join(rows[at:at + count]) + b"\n", path), []
            if len(rows) <= at + count:
                raise BadFile(f"{path} ends before the {count} lines of its LOAD")
            at += count
        elif words[:1] == ["QUIT"]:
            break
        elif words:
            requests.append(" ".join(words))
    if source is None:
        raise BadFile(f"{path} is no session: no LOAD stands in it")
    return source, requests


def retrace(session, requests, most=None):
    """Does again what requests do, so that it is known what each step was: at most so many steps.

    Returns the first request that is refused, or None.
    """
    left, refused = [], None
    for request in requests:
        word, *numbers = request.split()
        try:
            if word == "RESET":
                session.rewind(Run())
                left = []
            elif word == "CHOOSE":
                left = _within(left + [_number(it, 0, CHOICE) for it in numbers])
            elif word == "ADVANCE":
                session.advance(_number(*numbers, 0, WAIT))
            elif word == "STEP":
                _step(session, _number(*numbers, 0, MOVE))
            elif word == "RUN":
                count = _number(*numbers, 1, RUN)
                left = _run(session, left, count if most is None else min(count, most - session.run.steps))
            elif word not in LOOKS:
                refused = refused or request
        except (Refused, ValueError, TypeError):
            refused = refused or request
    return refused


def _number(word, least, most):
    """A number of a request: what is none, or out of its range, is not sent."""
    if not re.fullmatch("[0-9]{1,10}", word) or not least <= int(word) <= most:
        raise ValueError(word)
    return int(word)


def _within(choices):
    """Choices that may wait."""
    if len(choices) > CHOICES:
        raise ValueError("too many choices")
    return choices


def _step(session, number):
    moves, tasks = session.look()
    if number >= len(moves):
        raise ValueError("no such move")
    session.step(number, moves, tasks, session.output())


def _run(session, left, count):
    while left and count > 0:
        before = session.run.steps
        left, ran = session.follow(left, min(count, AT_ONCE))
        count -= session.run.steps - before
        if ran is None or ran.state != "more":
            return left
    if count > 0:
        session.plain(count)
    return left
