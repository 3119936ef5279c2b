"""Grading: what a session or a program that was handed in shows, against what was asked.

What was asked stands in a file, one demand a line, # before remarks:

    program philosophers.adb    the session's program is this one, whatever its layout; beside the file
    reach GOAL                  the run comes to it: a goal of a search, or the state at its end, more or waiting
    never GOAL                  no random schedule of the program shows it
    always GOAL                 each random schedule ends with it
    steps N                     the run has at most so many steps
    schedules N                 so many random schedules are tried (300)
"""
import os
import random
from typing import NamedTuple

from . import goals, listing
from .files import BadFile, read, retrace
from .hints import told
from .protocol import Refused
from .run import Run
from .session import TooLong
from .search import Player, Schedule, random_schedule
from .source import Fault, Source
from .stepping import Stepper

SCHEDULES = 300
PROGRAM_STEPS = 20_000  # of a program that is handed in without a session
NAMES = ("asked", ".asked")  # how a file of demands ends
KINDS = "reach, never, always, program, steps or schedules"


class Demand(NamedTuple):
    kind: str
    words: str
    goal: object = None

    def __str__(self):
        return f"{self.kind} {self.words}"


class Row(NamedTuple):
    """What is told of one file."""

    file: str
    program: str
    steps: str
    state: str
    failed: list  # what was asked and is not so
    is_good: bool


def is_asked(path):
    return os.path.basename(path).endswith(NAMES)


def demands_of(path):
    """What a file asks."""
    found = []
    with open(path, encoding="utf-8") as file:
        for number, line in enumerate(file, 1):
            kind, _, words = line.partition("#")[0].strip().partition(" ")
            words = words.strip()
            try:
                if kind in ("reach", "never", "always"):
                    found.append(Demand(kind, words, goals.parse(words)))
                elif kind in ("steps", "schedules") and words.isdigit() or kind == "program" and words:
                    found.append(Demand(kind, words))
                elif kind:
                    raise BadFile(f"{path}, line {number}: {KINDS}, and not `{kind}`")
            except goals.BadGoal as bad:
                raise BadFile(f"{path}, line {number}: {bad}") from None
    return found


def graded(session, path, asked=None):
    """What is told of a file: by the demands of the file `asked`, or of one of that name beside it."""
    beside = os.path.join(os.path.dirname(path), "asked")
    asked = asked or (beside if os.path.isfile(beside) else None)
    demands = demands_of(asked) if asked else []
    source = None
    try:
        source, requests = (Source.read(path), None) if path.endswith(".adb") else read(path)
        if source.fault:
            raise BadFile(told(source, source.fault)[0])
        session.load(source)
        refused = _run(session, requests)
    except (BadFile, OSError) as bad:
        return Row(path, "", "", "", [getattr(bad, "strerror", None) or str(bad)], False)
    except TooLong:
        return Row(path, source.program, "", "", ["too many turns of the clock"], False)
    except Refused as refused:
        fault = Fault(refused.code, *(refused.place or (None, None)), refused.words)
        return Row(path, "", "", "", [told(source, fault)[0]], False)
    run, ran = session.run, session.state() if not session.look()[0] else None
    failed = [f"`{refused}` is refused"] if refused else []
    failed += [str(it) for it in demands if not _is_met(session, it, run, ran, asked, demands)]
    return Row(path, source.program, str(run.steps), ran.state if ran else "more", failed, not failed)


def _run(session, requests):
    """Does what a session does, or runs a program in the order of tasks: the first request that is refused."""
    if requests is not None:
        return retrace(session, requests)
    Stepper(session).run(PROGRAM_STEPS)
    return None


def _is_met(session, demand, run, ran, asked, demands):
    if demand.kind == "program":
        wanted = Source.read(os.path.join(os.path.dirname(asked), demand.words))
        return session.source.is_same(wanted)
    if demand.kind == "steps":
        return run.steps <= int(demand.words)
    if demand.kind == "reach":
        return _reaches(session, demand.goal, run, ran)
    if demand.kind in ("never", "always"):
        count = next((int(it.words) for it in demands if it.kind == "schedules"), SCHEDULES)
        return _holds(session, demand, count)
    return True


def _reaches(session, goal, run, ran):
    """Whether a run comes to a goal: at its end, or on the way."""
    session.rewind(run)
    ran = ran or listing.Ran(0, "more", None, None)
    listings = [session.ask(it) for it in goal.at_the_end]
    if goal.is_at_the_end(session.source, ran, listings) or goal.watched is None:
        return goal.is_at_the_end(session.source, ran, listings)
    session.expand(run.length)
    events = session.run.events
    for at in range(len(events) + 1):
        session.rewind(Run(events[:at]))
        if goal.watched == "VARS":
            shown = session.ask_all([f"VARS {it.number}" for it in listing.tasks(session.ask("TASKS"))])
        else:
            shown = [session.ask(goal.watched)]
        if any(map(goal.is_in_listing, shown)):
            return True
    return False


def _holds(session, demand, count):
    """Whether no schedule of some random ones shows a goal, or each does."""
    player, rng = Player(session, demand.goal), random.Random(1)
    for number in range(count):
        schedule = random_schedule(rng, player.is_timed) if number else Schedule([])
        if player.plays(schedule) != (demand.kind == "always"):
            return False
    return True


def grade(session, paths, screen):
    """Grades files, and shows a table: whether each is good."""
    asked = None
    if paths and is_asked(paths[0]):
        asked, *paths = paths
    rows = [graded(session, it, asked) for it in paths]
    shown = [[*it[:4], "good" if it.is_good else "FAILED: " + "; ".join(it.failed)] for it in rows]
    screen.table(shown, ("file", "program", "steps", "state", ""))
    good = sum(it.is_good for it in rows)
    screen.say(f"{good} of {len(rows)} good")
    return bool(rows) and good == len(rows)
