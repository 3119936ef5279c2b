"""A session that goes on: where its journal is full or its connection breaks, it is begun anew and led to where it was."""
import itertools
import time

from . import listing
from .protocol import WAIT, Lost, Refused, Unreachable
from .run import Advance, Plain, Raw, Run, Step, advance, choose

PATIENCE = 15  # seconds for which a lost session is tried anew
RETRIES = 3  # how often one batch is sent
TURNS = 1000  # ADVANCEs of one run: with what stands between them they are to leave room in a new session's journal
BATCH = 50  # steps that are looked at by one batch of requests


class TooLong(Exception):
    """The clock was turned so often, or so far, that no new session could go on behind the run."""


class Stopped(Exception):
    """The program takes no steps any more."""

    def __init__(self, ran):
        super().__init__(ran.state)
        self.ran = ran


class Session:
    """A place where programs are run, the program that is loaded there, and its run so far."""

    def __init__(self, place, say=lambda words: None):
        self.place, self.say = place, say
        self.link, self.source, self.run = None, None, Run()

    # -- asking --

    def start(self):
        self.link = self.place.connect()

    def ask_all(self, requests):
        """The answers to these. What changes the program is to be added to the run by the caller, once it is answered."""
        for _ in range(RETRIES):
            if not (self.link and self.link.is_open and self.link.fits(requests)):
                self._renew()
            try:
                return self.link.ask_all(requests)
            except Lost as lost:
                reason = str(lost)
                self.say(f"the session has ended early ({reason}): a new one goes on from here")
        raise Unreachable(f"the session ends early again and again ({reason})")

    def ask(self, *requests):
        """The answers to these, of which none is refused; of one request its answer alone."""
        answers = self.ask_all(requests)
        for it in answers:
            if isinstance(it, Refused):
                raise it
        return answers[0] if len(answers) == 1 else answers

    def _renew(self):
        """Begins a new session, and leads it to where this one was."""
        self.close()
        until = time.monotonic() + PATIENCE
        pause = 0.02
        while True:
            try:
                self.link = self.place.connect()
                self._restore()
                return
            except (Unreachable, Lost) as error:
                self.close()
                if time.monotonic() + pause > until:
                    raise Unreachable(str(error)) from None
            time.sleep(pause)
            pause = min(2 * pause, 1)

    def _restore(self):
        if self.source is None:
            return
        for it in self.link.ask_all([self.source.request, *self.run.requests()]):
            if isinstance(it, Refused):
                raise Unreachable(f"the new session refuses what the old one took ({it.words})")

    def close(self):
        if self.link and self.link.is_open:
            try:
                self.link.ask("QUIT")
            except (Lost, Refused):
                pass
            self.link.close()
        self.link = None

    # -- a program and its run --

    def load(self, source):
        self.ask(source.request)
        self.source, self.run = source, Run()

    def rewind(self, run=None):
        """Leads from the beginning to where the run ends: this one, if it is given."""
        self.run = self.run if run is None else run
        self.ask_all(["RESET", *self.run.requests()])

    def play(self, *requests):
        """Asks what may change the program, and adds it to the run as it was sent: the answers."""
        answers = self.ask_all(requests)
        for request, it in zip(requests, answers):
            if request == "RESET":
                self.run = Run()
            elif request.startswith(("RUN", "STEP", "CHOOSE", "ADVANCE")) and not isinstance(it, Refused):
                self.run.add(Raw(request))
        return answers

    def state(self):
        """What RUN tells where no move is enabled."""
        return listing.ran(self.ask("RUN 1"))

    def look(self):
        """The moves that are enabled, and where each task stands."""
        moves, tasks = self.ask("MOVES", "TASKS")
        return listing.moves(moves), listing.tasks(tasks)

    def output(self):
        return listing.output(self.ask("OUTPUT"))

    # -- going on --

    def plain(self, count):
        """Makes so many steps in the order of tasks, or fewer where the program stops before."""
        ran = listing.ran(self.ask(f"RUN {count}"))
        self.run.add(Plain(ran.count))
        return ran

    def advance(self, ms):
        turned = sum(it.ms // WAIT + 1 for it in self.run.events if isinstance(it, Advance))
        if turned + ms // WAIT + 1 > TURNS:
            raise TooLong
        self.ask_all(advance(ms))
        self.run.add(Advance(ms))

    def step(self, pick, moves, tasks, before):
        """Makes a move of those that are listed.

        `before` is the output before. Returns the step, and the moves, the tasks and the output behind it.
        """
        asked = [f"STEP {pick}", "MOVES", "TASKS"] + ["OUTPUT"] * (moves[pick].word == "put")
        answers = self.ask(*asked)
        ran = listing.ran(answers[0])
        if ran.count == 0:
            raise Stopped(ran)
        then, output = listing.tasks(answers[2]), listing.output(answers[3]) if len(asked) > 3 else before
        made = step_of(pick, moves, tasks, then, added(before, output))
        self.run.add(made)
        return made, listing.moves(answers[1]), then, output

    def follow(self, choices, count):
        """Makes so many steps, or fewer where the program stops before, and looks at each.

        They pick by these choices, then in the order of tasks. Returns the choices that are left, and the last answer,
        which is None where no move was enabled.
        """
        begun, left, stored, made, ran = self.run, list(choices), 0, [], None
        self.run = Run(begun.events)  # as it is sent, until it is known what was picked
        try:
            (moves, tasks), output = self.look(), self.output()
            while moves and len(made) < count:
                batch = min(count - len(made), BATCH)
                # So many choices wait that none of these steps lacks one.
                asked = choose(left[stored:batch])
                stored = max(stored, len(left[:batch]))
                answers = self.play(*asked, *["RUN 1", "MOVES", "TASKS", "OUTPUT"] * batch)[len(asked):]
                for at in range(0, len(answers), 4):
                    if isinstance(answers[at], Refused):
                        raise answers[at]
                    ran = listing.ran(answers[at])
                    if ran.count == 0:
                        moves = []
                        break
                    pick = 0
                    if len(moves) > 1 and left:
                        pick = left.pop(0) % len(moves)
                        stored -= 1
                    then, put = listing.tasks(answers[at + 2]), listing.output(answers[at + 3])
                    made.append(step_of(pick, moves, tasks, then, added(output, put)))
                    moves, tasks, output = listing.moves(answers[at + 1]), then, put
        except BaseException:
            # What was made stands; the rest of what was sent is forgotten with the link.
            self.run = Run(begun.events + made)
            self.close()
            raise
        self.run = Run(begun.events + made)
        if stored:
            self.rewind()
        return left, ran

    def expand(self, count):
        """Looks at the last so many steps of the run, if nobody has."""
        run = Run(self.run.events)
        tail = run.cut(count)
        if not any(isinstance(it, Plain) for it in tail):
            return
        self.rewind(run)
        for is_plain, events in itertools.groupby(tail, lambda it: isinstance(it, Plain)):
            if is_plain:
                for it in events:
                    self.follow([], it.steps)
            else:
                known = list(events)
                self.ask_all(Run(known).requests())
                self.run = Run(self.run.events + known)


def step_of(pick, moves, tasks, then, put):
    move = moves[pick]
    return Step(pick, len(moves), move.task, move.name, move.line, move.word, put, _partner(move, tasks, then))


def _partner(move, tasks, then):
    """Who accepts the call that this step makes, or whose call it accepts."""
    kind = move.word.split()[0]
    status = {"call": "accept", "accept": "queued", "select": "queued"}.get(kind)
    if status is None:
        return None
    after = {it.number: it.status for it in then}
    for it in tasks:
        if it.number != move.task and it.status.startswith(status) and not after[it.number].startswith(status):
            return it.number
    return None


def added(before, output):
    """What was put out between these two."""
    return "\n".join(output)[len("\n".join(before)):]
