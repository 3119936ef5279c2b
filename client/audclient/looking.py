"""Commands that look at the program, and change nothing."""
from . import listing
from .protocol import STEPS
from .run import Advance, Run
from .waiting import Graph
from .words import Wrong, number, optional_number, task_of

SHOWN = 40  # lines of a `trace` without a number
LOOKED_AT = 1000  # steps that are looked at to tell who was served last


class Looking:
    """It has a `session`, a `screen` and a `stepper`."""

    def need_program(self):
        if self.session.source is None:
            raise Wrong("no program is loaded: load FILE")

    def listed(self, name):
        """A listing, as tuples."""
        self.need_program()
        return getattr(listing, name.lower())(self.session.ask(name))

    def graph(self):
        """Who waits for whom now."""
        self.session.expand(min(LOOKED_AT, self.session.run.length))
        tasks, waits, objects = self.session.ask("TASKS", "WAITS", "OBJECTS")
        return Graph(self.session.source, listing.tasks(tasks), listing.waits(waits), listing.objects(objects),
                     self.session.run.events)

    def do_list(self, words):
        """list [LINE [LINE]]  the program, and which tasks stand at its lines

        Numbers at the left are tasks. With one number the lines around it are shown, with two those from one to the other.
        """
        tasks = self.listed("TASKS")
        lines = [number(it, "LINE", 1, max(1, len(self.session.source.lines))) for it in words.split()[:2]]
        first, last = (1, None) if not lines else (lines[0] - 5, lines[0] + 5) if len(lines) == 1 else lines
        self.screen.listing(tasks, first, last)

    def do_moves(self, _):
        """moves  what can happen next

        Each line is a move: `step K` makes it. A task may have several: then it is chosen which call is accepted.
        """
        self.need_program()
        self.tell_next(self.stepper.look())

    def do_tasks(self, _):
        """tasks  where each task stands or waits"""
        self.screen.tasks(self.listed("TASKS"), self.listed("QUEUES"), self.listed("WAITS"))

    def do_queues(self, _):
        """queues  the entries with queued calls"""
        self.screen.queues(self.listed("QUEUES"), self._names())

    def do_vars(self, words):
        """vars [TASK]  the variables of all tasks, or of one

        TASK is its number, as t2, or its name. Deeper frames (of procedures, blocks, loops) stand further right.
        """
        tasks = self.listed("TASKS")
        wanted = [task_of(words, tasks)] if words.strip() else [it for it in tasks if it.status != "terminated"]
        self.screen.variables([(it, listing.variables(self.session.ask(f"VARS {it.number}"))) for it in wanted])

    def do_objects(self, _):
        """objects  protected objects: who uses them, their components, barriers and queues"""
        self.screen.objects(self.listed("OBJECTS"), self.listed("QUEUES"), self._names())

    def do_waits(self, _):
        """waits  why each task waits, circles among them, and whom nobody can free

        A circle of tasks that wait for each other is a deadlock, also while other tasks go on. Who may make a call is told from
        the text: the tasks that name it.
        """
        self.need_program()
        self.screen.waits(self.graph())

    def do_output(self, _):
        """output  what the program has put out"""
        self.need_program()
        output = self.session.output()
        self.screen.say(*(output[:-1] if output[-1] == "" else output))

    def do_clock(self, _):
        """clock  the time, in milliseconds"""
        self.need_program()
        self.screen.say(f"the clock is {self.session.run.clock}")

    def do_trace(self, words):
        """trace [N]  the last N steps (40), or all: trace all

        A line has its number, which move it was of how many (0 of 2), the task, what it did, and its source.
        """
        self.need_program()
        length = self.session.run.length
        count = length if words.strip() == "all" else optional_number(words, SHOWN, "N", 1, STEPS)
        count = min(count, length)
        self.session.expand(count)
        events = self.session.run.events
        before = Run(events)
        tail = before.cut(count)
        if before.length:
            self.screen.say(f"   ..  {before.length} before: trace all")
        if not tail:
            self.screen.say("no step was made yet")
        self.screen.trace(tail, before.length, sum(it.ms for it in before.events if isinstance(it, Advance)))

    def _names(self):
        return {it.number: it.name for it in self.listed("TASKS")}

    def tell_next(self, look):
        """The moves, or why there are none."""
        if look[0]:
            self.screen.moves(look[0])
        else:
            self.tell_state(self.session.state())

    def tell_state(self, ran, made=None):
        self.screen.state(ran, made)
        if ran.state == "stuck":
            for it in self.graph().told():
                self.screen.say("  " + self.screen.paint(it, 31))
            self.screen.say("`waits` tells why, `trace` how it came, `back` goes back")
