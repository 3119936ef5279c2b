"""Random schedules until one shows what is wanted, and that one made short."""
import itertools
import random
import time
from typing import List, NamedTuple, Tuple

from . import listing
from .files import retrace
from .protocol import Refused
from .run import Advance, Run, Step, advance, choose

SCHEDULES = 2000  # that are tried
STEPS = 5000  # of one schedule
CHOICES = 300  # of one schedule; behind them comes the order of tasks
CHOICE = 60  # choices are below it: it divides by 2, 3, 4, 5 and 6
TURNS = 60  # of the clock, in one schedule
BATCH = 20  # steps that are looked at, or schedules that are played, by one batch of requests
SHORTER = 1000  # schedules that are tried to make one shorter
SHORTER_SECONDS = 10


class Schedule(NamedTuple):
    choices: List[int]
    early: Tuple[int, ...] = ()  # after so many steps the clock goes on although a task could

    @property
    def size(self):
        return len(self.early), len(self.choices), sum(it > 0 for it in self.choices), sum(self.choices)


class Player:
    """Plays schedules of the loaded program from its beginning, and looks for a goal."""

    def __init__(self, session, goal, steps=STEPS):
        self.session, self.goal, self.steps = session, goal, steps
        self.is_timed = any(it.low == "delay" for it in session.source.tokens)
        self.state, self.made = "", 0  # where the last schedule led, and its steps
        self._tasks = 1

    def plays(self, schedule):
        """Whether a schedule shows what is wanted."""
        asked = ["RESET", *choose(schedule.choices)]
        early, clock, turns, self.made = list(schedule.early), 0, 0, 0
        while True:
            until = min([self.steps, *early[:1]])
            ran, is_seen = self._go(asked, until - self.made)
            if is_seen:
                return True
            asked, due = [], ran.due
            if early and self.made >= early[0] and due is None:
                early.pop(0)
                due = self._soonest(clock)
                if due is None and self.made < self.steps:
                    continue
            if due is None or self.made >= self.steps or turns >= TURNS:
                return self._is_seen(ran, self._answers(*self.goal.at_the_end) if self.goal.at_the_end else [])
            asked = advance(due - clock)
            clock, turns = due, turns + 1
            early = [it for it in early if it > self.made]

    def first(self, schedules):
        """The first of some schedules that shows what is wanted, if one does."""
        if self.goal.watched or self.is_timed:
            return next((it for it in schedules if self.plays(it)), None)
        # Nothing is asked on the way, so they are all sent at once.
        asked, ends = [], []
        for it in schedules:
            asked += ["RESET", *choose(it.choices), f"RUN {self.steps}", *self.goal.at_the_end]
            ends.append(len(asked) - len(self.goal.at_the_end))
        answers = self._answers(*asked)
        for it, at in zip(schedules, ends):
            if self._is_seen(listing.ran(answers[at - 1]), answers[at:]):
                return it
        return None

    def _go(self, asked, count):
        """Asks, and makes so many steps: the last answer, and whether what is wanted was seen on the way."""
        look, batch = self._looks(), min(BATCH, count)
        if not look:
            ran = listing.ran(self._answers(*asked, f"RUN {count}")[-1])
            self.made += ran.count
            return ran, False
        while True:
            answers = self._answers(*asked, *["RUN 1", *look] * min(batch, count))[len(asked):]
            asked = []
            for at in range(0, len(answers), 1 + len(look)):
                ran = listing.ran(answers[at])
                self.made += ran.count
                count -= 1
                if ran.count == 0:
                    return ran, False
                shown = answers[at + 1:at + 1 + len(look)]
                if self.goal.watched == "VARS":
                    self._tasks = max(self._tasks, len(shown.pop(0)))
                if any(map(self.goal.is_in_listing, shown)):
                    return ran, True
            if count <= 0:
                return ran, False

    def _looks(self):
        if self.goal.watched == "VARS":
            return ["TASKS", *(f"VARS {it}" for it in range(1, self._tasks + 1))]
        return [self.goal.watched] if self.goal.watched else []

    def _answers(self, *requests):
        """The answers; a task that is not there yet has no variables."""
        answers = self.session.play(*requests)
        for it in answers:
            if isinstance(it, Refused) and it.code != "E15":
                raise it
        return [[] if isinstance(it, Refused) else it for it in answers]

    def _soonest(self, clock):
        """The next time that is due, if any is."""
        waits = listing.waits(self._answers("WAITS")[0])
        return min((it.due for it in waits if it.due is not None and it.due > clock), default=None)

    def _is_seen(self, ran, listings):
        """Whether what is wanted is seen where a schedule has ended."""
        self.state = ran.state
        return self.goal.is_at_the_end(self.session.source, ran, listings)

    def events(self):
        """What the schedule that was played last came to, up to where the goal is first seen."""
        raw, made = self.session.run.events, self.made
        self.session.rewind(Run())
        retrace(self.session, [it.request for it in raw], made)
        self.session.expand(self.session.run.length)
        return self._until_circle() if self.goal.is_circle else self._until_output()

    def _until_output(self):
        text, events = "", self.session.run.events
        for at, it in enumerate(events):
            text += it.put if isinstance(it, Step) else ""
            if text and self.goal.is_in_output(text.split("\n")):
                return events[:at + 1]
        return events

    def _until_circle(self):
        """Once tasks wait for each other for ever, they do so ever after: that halves the steps again and again."""
        events, low, high = self.session.run.events, 0, len(self.session.run.events)
        while low < high:
            half = (low + high) // 2
            self.session.rewind(Run(events[:half]))
            if self.goal.is_at_the_end(self.session.source, None, self._answers(*self.goal.at_the_end)):
                high = half
            else:
                low = half + 1
        return events[:high]


def schedule_of(events):
    """The choices of a run, and where its clock went on early."""
    choices = [it.pick for it in events if isinstance(it, Step) and it.of > 1]
    early, steps = [], 0
    for at, it in enumerate(events):
        steps += isinstance(it, Step)
        if isinstance(it, Advance) and steps and steps not in early:
            early.append(steps)
    return Schedule(_stripped(choices), tuple(early))


def _stripped(choices):
    """Without the zeros at the end: they go without saying."""
    last = max((at for at, it in enumerate(choices, 1) if it), default=0)
    return list(choices[:last])


def random_schedule(rng, is_timed):
    choices = [rng.randrange(CHOICE) for _ in range(CHOICES)]
    early = sorted(rng.sample(range(1, 200), rng.randrange(4))) if is_timed else []
    return Schedule(choices, tuple(early))


class Found(NamedTuple):
    number: int  # of the schedule
    events: list


def find(player, seed, schedules=SCHEDULES, say=lambda number: None):
    """The first random schedule of this seed that shows what is wanted, made short; None where none does."""
    rng = random.Random(seed)
    for number in range(0, schedules, BATCH):
        # The very first is the order of tasks: what it shows needs no search.
        some = [random_schedule(rng, player.is_timed) if number or at else Schedule([]) for at in range(BATCH)]
        found = player.first(some)
        if found is not None:
            return Found(number + some.index(found) + 1, shortened(player, found))
        say(number + BATCH)
    return None


def shortened(player, schedule):
    """The events of a schedule that shows what is wanted, made shorter."""
    player.plays(schedule)
    best = schedule_of(player.events())
    until, left = time.monotonic() + SHORTER_SECONDS, SHORTER
    found = best
    while found is not None:
        best, found = found, None
        candidates = (it for it in _shorter(best) if it.size < best.size)
        while found is None and left > 0 and time.monotonic() < until:
            some = list(itertools.islice(candidates, BATCH))
            if not some:
                break
            found, left = player.first(some), left - len(some)
    player.plays(best)
    return player.events()


def _shorter(schedule):
    """Schedules that are shorter by something: by early turns of the clock, by many choices, by few, by the size of one."""
    choices, early = schedule
    for at in range(len(early)):
        yield Schedule(choices, early[:at] + early[at + 1:])
    for size in (64, 16, 4, 2, 1):
        for at in range(0, len(choices), size):
            yield Schedule(_stripped(choices[:at] + choices[at + size:]), early)
            yield Schedule(_stripped(choices[:at] + [0] * len(choices[at:at + size]) + choices[at + size:]), early)
    for at, it in enumerate(choices):
        for lower in range(it):
            yield Schedule(_stripped(choices[:at] + [lower] + choices[at + 1:]), early)
