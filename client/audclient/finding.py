"""Commands that search, keep and grade runs."""
import shlex
import time

from . import files, goals, search, states
from .grading import grade
from .protocol import Refused
from .run import Run, Step
from .words import Wrong

SEED = 1  # of searches, where `random` tells none
LINES = 20  # of output that are told of all schedules


class Finding:
    """It has a `session`, a `screen`, a `stepper`, and what Looking and Going have."""

    def do_search(self, words):
        """search GOAL | search all [GOAL]  find a schedule that shows GOAL: at random, or among all

        GOAL is one of
          stuck             no task can go on
          circle            some tasks wait for each other, and nobody can free them, though others may go on
          ended, endless    the program ends; it never does (it still runs after many steps)
          output TEXT       a line that is put out; * stands for anything
          vars NAME VALUE   a variable, or a component of an object, as Buffer.Count
          raised NAME       an exception
        What is found at random is made shorter; `random SEED` gives the seed. `search all` goes through all states of a small
        program, and so may tell that there is no such schedule. Ctrl-C stops.
        """
        self.need_program()
        kind, _, rest = words.strip().partition(" ")
        goal = goals.parse((rest or "stuck") if kind == "all" else words)
        kept, begun = self.session.run, time.monotonic()
        found = None
        try:
            found = self._among_all(goal) if kind == "all" else self._at_random(goal)
        finally:
            self.tell_progress("")
            if found is None:
                self.session.rewind(kept)
        seconds = time.monotonic() - begun
        if found is not None:
            self.stepper.undone = []
            self.session.rewind(Run(found))
            self.output = [""]
            self.screen.say(f"{seconds:.1f} s; you stand where it is seen: `trace` shows the way, `reset` and `forward` go it again")
            self.tell_output()
            self.tell_next(self.stepper.look())
        else:
            self.screen.say(f"{seconds:.1f} s; you stand where you stood")

    def _at_random(self, goal):
        seed = SEED if self.stepper.seed is None else self.stepper.seed
        player = search.Player(self.session, goal)
        found = search.find(player, seed, say=lambda number: self.tell_progress(f"{number} schedules"))
        self.tell_progress("")
        if found is None:
            self.screen.say(f"`{goal}` is not seen in {search.SCHEDULES} random schedules of seed {seed}, which proves nothing: "
                            "`search all` goes through all of a small program")
            return None
        steps = sum(isinstance(it, Step) for it in found.events)
        picks = sum(it.pick > 0 for it in found.events if isinstance(it, Step) and it.of > 1)
        self.screen.say(f"`{goal}` is seen in random schedule {found.number} of seed {seed}; made shorter: "
                        f"{steps} steps, {picks} of which make another move than the first")
        return found.events

    def _among_all(self, goal):
        source, spread = self.session.source, self.session.source.spread()
        if spread.fault:
            raise Wrong("the program is too large for `search all`")
        try:
            self.session.load(spread)
            found = states.Explorer(self.session, goal).explore(say=lambda count: self.tell_progress(f"{count} states"))
        except Refused as refused:
            if refused.code == "E22":
                raise Wrong("the program is too large for `search all`") from None
            raise
        finally:
            self.session.load(source)
        self.tell_progress("")
        self._tell_explored(goal, found)
        if found.path is None:
            return None
        files.retrace(self.session, Run(found.path).requests())
        self.session.expand(self.session.run.length)
        return self.session.run.events

    def _tell_explored(self, goal, found):
        much = "all were seen" if found.is_whole else "more were not seen: the program has too many"
        self.screen.say(f"{found.states} states, {found.ways} ways between them; {much}")
        self.screen.say(f"the program ends in {_count(found.ends)} and is stuck in {_count(found.stuck)}")
        if 0 < len(found.lines) <= LINES:
            self.screen.say("it may put out: " + ", ".join(f"`{it.strip()}`" for it in found.lines))
        if found.doomed:
            self.screen.say(f"from {_count(found.doomed)} it can never come to an end: `search all endless` leads to one")
        if goal.name != "stuck":
            self.screen.say(f"`{goal}` is seen" if found.path is not None else
                            f"`{goal}` is seen in no schedule" if found.is_whole else f"`{goal}` was not seen")

    def do_save(self, words):
        """save FILE  write the session that leads here, for `replay`, `check` and `aud --solo`"""
        self.need_program()
        path = self.one_file(words)
        with open(path, "w", encoding="ascii") as file:
            file.write(files.text_of(self.session.source, self.session.run))
        self.screen.say(f"{path}: {self.session.run.length} steps and turns of the clock")

    def do_replay(self, words):
        """replay FILE  load the program of a session file, and do again what it does"""
        path = self.one_file(words)
        source, requests = files.read(path)
        if not self.load(source):
            return
        refused = files.retrace(self.session, requests)
        if refused:
            self.screen.say(f"refused: {refused}")
        self.screen.say(f"step {self.session.run.length}")
        self.tell_output()
        self.tell_next(self.stepper.look())

    def do_check(self, words):
        """check [ASKED] FILE ..  grade sessions or programs that were handed in

        What is asked stands in the file ASKED, whose name ends with `asked`, or in the file `asked` beside each. Demands are lines:
        program FILE, reach GOAL, never GOAL, always GOAL, steps N, schedules N. The program that was loaded is loaded again.
        """
        paths = shlex.split(words)
        if not paths:
            raise Wrong("check [ASKED] FILE ..")
        source, run = self.session.source, self.session.run
        try:
            grade(self.session, paths, self.screen)
        finally:
            if source is not None:
                self.session.load(source)
                self.session.rewind(run)

    def one_file(self, words):
        paths = shlex.split(words)
        if len(paths) != 1:
            raise Wrong("one file is to be named")
        return paths[0]


def _count(number):
    return "none of them" if number == 0 else "one of them" if number == 1 else f"{number} of them"


