"""Going on and back: what picks the moves, where a run is held, what was undone."""
import random

from .protocol import RUN
from .run import Run, size

CHOICE = 60  # random choices are below it: it divides by 2, 3, 4, 5 and 6
HELD_STEPS = 10_000  # that `until` makes at most


class Stepper:
    """Steps of a session. Moves are picked by the choices that wait, then by a seed, else in the order of tasks."""

    def __init__(self, session):
        self.session = session
        self.seed = None
        self.choices = []  # that wait
        self.undone = []  # events that `back` took away, to be done again by `forward`
        self._random, self._drawn = None, []

    def begin(self, seed=None):
        """Forgets what belongs to the run before, and picks by a seed from now on, if there is one."""
        self.seed, self.choices, self.undone = seed, [], []
        self._random, self._drawn = random.Random(seed) if seed is not None else None, []

    def _draw(self, count):
        """So many random choices, which are there until they are used."""
        if self._random:
            self._drawn += [self._random.randrange(CHOICE) for _ in range(count - len(self._drawn))]
        return self._drawn

    def _pick(self, count):
        waiting = self.choices or self._draw(1) if count > 1 else []
        return waiting.pop(0) % count if waiting else 0

    # -- on --

    def look(self):
        """The moves, the tasks and the output."""
        return (*self.session.look(), self.session.output())

    def step(self, look, pick=None, among=None):
        """Makes one move: that of a number, or one that is picked among these. Returns it, and what is seen behind it."""
        moves = look[0]
        if pick is None:
            among = moves if among is None else among
            pick = among[self._pick(len(among))].number
        self.undone = []
        made, *then = self.session.step(pick, *look)
        return made, then

    def run(self, count):
        """Goes on for so many steps: how many were made, and the last answer.

        Where nothing else is left, the clock goes on to the next time that is due.
        """
        self.undone = []
        begun = self.session.run.steps
        while True:
            left = count - (self.session.run.steps - begun)
            ran = self._run(min(left, RUN))
            made = self.session.run.steps - begun
            if made >= count or ran.due is None and ran.state != "more":
                return made, ran
            if ran.due is not None:
                self.session.advance(ran.due - self.session.run.clock)

    def _run(self, count):
        if not self.choices and not self._random:
            return self.session.plain(count)
        drawn = self._draw(count)
        left, ran = self.session.follow(self.choices + drawn, count)
        kept = max(0, len(left) - len(drawn))
        self.choices, self._drawn = left[:kept], left[kept:] if self._random else []
        return ran or self.session.state()

    def until(self, line, is_wanted=lambda move: True, is_one=False):
        """Goes on, but holds each wanted task at a line: the moves that are held, and the last look.

        It ends where no other task can go on, or where `is_one` with the first one held.
        """
        look = self.look()
        for _ in range(HELD_STEPS):
            moves = look[0]
            held = [it for it in moves if it.line == line and is_wanted(it)]
            free = [it for it in moves if it not in held]
            if held and (is_one or not free):
                return held, look
            if free:
                _, look = self.step(look, among=free)
                continue
            ran = self.session.state()
            if ran.due is None:
                return [], look
            self.session.advance(ran.due - self.session.run.clock)
            look = self.look()
        return [], look

    # -- back --

    def back(self, count):
        """Undoes so many steps and turns of the clock."""
        run = Run(self.session.run.events)
        undone = run.cut(count)
        self.session.rewind(run)
        self.undone = undone + self.undone
        return sum(map(size, undone))

    def forward(self, count):
        """Does again what was undone: so many of these."""
        again = Run(self.undone)
        rest = again.cut(max(0, again.length - count))
        run = Run(self.session.run.events + again.events)
        self.session.rewind(run)
        self.undone = rest
        return again.length

    def reset(self):
        """Goes back to the beginning; the seed begins anew too."""
        undone = self.session.run.events + self.undone
        self.session.rewind(Run())
        self.begin(self.seed)
        self.undone = undone
