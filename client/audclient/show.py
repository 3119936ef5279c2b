"""What is shown: tables in columns, the source with the tasks at its lines, colours by task."""
import os
import sys

from .run import Advance, Plain, Step

COLOURS = (36, 33, 32, 35, 34, 91, 96, 93, 92, 95, 94)  # of tasks, one after the other
WIDTH = 72  # characters of a source line beside a table

STATES = {
    "ended": "the program has ended",
    "output full": "the output is full (65,536 bytes), and the program takes no more steps",
    "more": "it can go on",
    "waiting": "no task can go on before the clock is {due}: `advance`",
    "stuck": "stuck: no task can go on any more",
}


def has_colours(stream):
    """Whether a stream is a terminal that wants them."""
    return stream.isatty() and "NO_COLOR" not in os.environ and os.environ.get("TERM") != "dumb"


class Screen:
    def __init__(self, stream=None, is_coloured=None):
        self.stream = stream or sys.stdout
        self.is_coloured = has_colours(self.stream) if is_coloured is None else is_coloured
        self.source = None

    # -- pieces --

    def say(self, *lines):
        for it in lines:
            print(it, file=self.stream)

    def paint(self, text, code):
        return f"\033[{code}m{text}\033[0m" if self.is_coloured and text else text

    def of_task(self, text, task):
        return self.paint(text, COLOURS[(task - 1) % len(COLOURS)])

    def spelled(self, name):
        return self.source.spelled(name) if self.source else name

    def line(self, number):
        """A line of the source, as a table ends with it."""
        text = self.source.line(number) if self.source else ""
        return f"{number:4} | " + (text[:WIDTH] + ".." if len(text) > WIDTH + 2 else text)

    def table(self, rows, head=None, tasks=None):
        """Rows in columns, each as wide as it must be; `tasks` tells whose colour a row has in its first two."""
        if not rows:
            return
        rows = [[str(it) for it in row] for row in rows]
        every = rows + ([list(head)] if head else [])
        widths = [max(len(row[at]) if at < len(row) else 0 for row in every) for at in range(max(map(len, every)))]
        if head:
            self.say(self.paint(_padded(head, widths), 2))
        for at, row in enumerate(rows):
            cells = [it.rjust(width) if it.isdigit() else it.ljust(width) for it, width in zip(row, widths)]
            if tasks and tasks[at]:
                cells[:2] = [self.of_task(it, tasks[at]) for it in cells[:2]]
            self.say("  " + "  ".join(cells).rstrip())

    # -- the program --

    def listing(self, tasks, first=1, last=None, entered=0):
        """The source, with the numbers of the tasks that stand at each line."""
        at = {}
        for it in tasks:
            if not it.is_over:
                at.setdefault(it.line, []).append(it.number)
        for number, text in enumerate(self.source.lines, 1):
            if first <= number <= (last or number):
                marks = " ".join(map(str, at.get(number, [])))
                shown = " ".join(self.of_task(str(it), it) for it in at.get(number, []))
                mark = " " * max(0, 8 - len(marks)) + shown + (">" if marks else " ")
                self.say(f"{mark}{number:4} | {text}".rstrip())

    def moves(self, moves):
        rows = [[f"t{it.task}", self.spelled(it.name), f"step {it.number}", it.word, self.line(it.line)] for it in moves]
        self.table(rows, ("task", "", "by", "what", "line"), [it.task for it in moves])

    def tasks(self, tasks, queues, waits):
        queued = {t: it.entry for it in queues for t in it.callers}
        raised = {it.task: it.rest for it in waits if it.kind == "raised"}
        rows = []
        for it in tasks:
            status = it.status
            if it.number in queued and status.startswith("queued"):
                status = status.replace("queued", "queued at " + self.spelled(queued[it.number]), 1)
            if it.number in raised:
                status += f", {self.spelled(raised[it.number]).title()} raised"
            rows.append([f"t{it.number}", self.spelled(it.name), status, self.line(it.line)])
        self.table(rows, ("task", "", "is", "line"), [it.number for it in tasks])

    def queues(self, queues, names):
        if not queues:
            self.say("no call is queued")
        rows = [[self.spelled(it.entry), ", ".join(f"t{t} {self.spelled(names[t])}" for t in it.callers)] for it in queues]
        self.table(rows, ("entry", "calls, the oldest first"))

    def variables(self, found):
        """Variables of tasks: pairs of a task and its variables."""
        rows, owners = [], []
        for task, variables in found:
            for it in variables:
                name = "  " * (it.depth - 1) + self.spelled(it.name)
                rows.append([f"t{task.number}", self.spelled(task.name), name, it.value])
                owners.append(task.number)
        if not rows:
            self.say("no variables")
        self.table(rows, ("task", "", "variable", "value"), owners)

    def objects(self, parts, queues, names):
        if not parts:
            self.say("no protected objects")
        callers = {it.entry: ", ".join(f"t{t}" for t in it.callers) for it in queues if it.owner.startswith("object")}
        rows = []
        for it in parts:
            name = self.spelled(it.name.rpartition(".")[2])
            if it.kind == "object":
                acting = [int(t) for t in it.value.split()] if it.value != "idle" else []
                who = ", ".join(f"t{t} {self.spelled(names[t])}" for t in acting)
                rows.append([name, f"in use by {who}" if who else "idle"])
            elif it.kind == "component":
                rows.append([f"  {name}", f"= {it.value}"])
            else:
                queue = f", queued: {callers[it.name]}" if it.name in callers else ""
                rows.append([f"  {name}", f"barrier {it.value.capitalize()}{queue}"])
        self.table(rows)

    def waits(self, graph):
        reasons = [(t, it.words) for t, its in sorted(graph.reasons.items()) for it in its]
        if not reasons:
            self.say("no task waits")
        rows = [[f"t{t}", self.spelled(graph.tasks[t].name), words] for t, words in reasons]
        self.table(rows, ("task", "", "why"), [t for t, _ in reasons])
        for it in graph.told():
            self.say(self.paint(it, 31))

    # -- a run --

    def step(self, number, step):
        pick = f"{step.pick} of {step.of}" if step.of > 1 else ""
        who = self.of_task(f"{'t' + str(step.task):>3} {self.spelled(step.name):<12}", step.task)
        self.say(f"{number:5}  {pick:7}  {who}  {step.word:<11} {self.line(step.line)}")
        self.put(step.put)

    def put(self, text):
        """What a step has put out."""
        if text:
            for it in text[:-1].split("\n") if text.endswith("\n") else text.split("\n"):
                self.say("       " + self.paint(f"output: {it}", 32))

    def trace(self, events, before, clock):
        """Events that are looked at; so many steps and turns, and the clock, before them."""
        for it in events:
            if isinstance(it, Step):
                before += 1
                self.step(before, it)
            elif isinstance(it, Advance):
                before, clock = before + 1, clock + it.ms
                self.say(f"{before:5}           " + self.paint(f"the clock goes on to {clock}", 33))
            elif isinstance(it, Plain):
                before += it.steps
                self.say(f"{'..':>5}           {it.steps} steps in the order of tasks")

    def state(self, ran, made=None):
        """What a run came to."""
        words = STATES[ran.state].format(due=ran.due)
        steps = "" if made is None else f"{made} step{'' if made == 1 else 's'}: "
        self.say(self.paint(steps + words, {"stuck": 31, "waiting": 33, "ended": 32}.get(ran.state, 0)))
        if ran.raised:
            self.say(self.paint(f"{self.spelled(ran.raised)} has left the main procedure", 31))


def _padded(cells, widths):
    return ("  " + "  ".join(it.ljust(width) for it, width in zip(cells, widths))).rstrip()
