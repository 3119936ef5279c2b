"""Commands that go on and back."""
from .protocol import CHOICE, STEPS, WAIT
from .run import Advance, size
from .words import Wrong, names_task, number, optional_number, task_of

RUN_STEPS = 1000  # of a `run` without a number


class Going:
    """It has a `session`, a `screen`, a `stepper`, and what Looking has."""

    def do_step(self, words):
        """step [K | TASK]  make one step: move K, or the move of a task, as t2 or its name

        Without a word the move is picked: by the choices that wait, by `random`, else it is the first.
        """
        self.need_program()
        look = self.stepper.look()
        moves, tasks, _ = look
        if not moves:
            self.tell_state(self.session.state())
            return
        pick = None
        if words.strip().isdigit():
            pick = number(words.strip(), "K", 0, len(moves) - 1)
        elif words.strip():
            task = task_of(words.strip(), tasks)
            own = [it for it in moves if it.task == task.number]
            if len(own) != 1:
                which = " or ".join(f"step {it.number}" for it in own)
                has = f"has {len(own)} moves: {which}" if own else f"cannot go on now: {task.status}"
                raise Wrong(f"t{task.number} {has}")
            pick = own[0].number
        made, look = self.stepper.step(look, pick)
        self.screen.step(self.session.run.length, made)
        self.output = look[2]
        self.tell_next(look)

    def do_run(self, words):
        """run [N]  go on for N steps (1000), or until nothing can go on

        The moves are picked as by `step`. Where only the clock can go on, it does.
        """
        self.need_program()
        count = optional_number(words, RUN_STEPS, "N", 1, STEPS)
        begun = self.session.run.length
        made, ran = self.stepper.run(count)
        self.tell_turns(begun)
        self.tell_output()
        self.tell_state(ran, made)
        if ran.state == "more":
            self.screen.moves(self.stepper.look()[0])

    def do_until(self, words):
        """until LINE [TASK]  go on, but hold each task that comes to LINE (or that task alone)

        It ends when only held tasks can go on, with TASK when that one is there.
        """
        self.need_program()
        line, *task = words.split() or [""]
        line, task = number(line, "LINE", 1, max(1, len(self.session.source.lines))), "".join(task)
        begun, steps = self.session.run.length, self.session.run.steps
        held, look = self.stepper.until(line, lambda it: not task or names_task(task, it.task, it.name), bool(task))
        self.tell_turns(begun)
        self.tell_output()
        made = self.session.run.steps - steps
        names = ", ".join(f"t{it.task} {self.screen.spelled(it.name)}" for it in held)
        self.screen.say(f"{made} steps: at line {line} {'stands' if len(held) == 1 else 'stand'} {names}" if held
                        else f"{made} steps: no task {'that can go on ' if look[0] else ''}stands at line {line}")
        self.tell_next(look)

    def do_back(self, words):
        """back [N]  undo N steps, or turns of the clock (1)"""
        self.need_program()
        count = optional_number(words, 1, "N", 1, STEPS)
        undone = self.stepper.back(count)
        self._tell_place(f"{undone} undone" if undone else "nothing is left to be undone")

    def do_forward(self, words):
        """forward [N]  do again what was undone, N steps of it (1)"""
        self.need_program()
        count = optional_number(words, 1, "N", 1, STEPS)
        again = self.stepper.forward(count)
        self._tell_place(f"{again} done again" if again else "nothing was undone")

    def do_reset(self, _):
        """reset  begin anew; `forward` does again what was done"""
        self.need_program()
        self.stepper.reset()
        self._tell_place("at the beginning")

    def _tell_place(self, words):
        length = self.session.run.length
        left = sum(map(size, self.stepper.undone))
        self.screen.say(f"{words}: step {length}" + (f" of {length + left}" if left else ""))
        self.output = self.session.output()
        self.tell_next(self.stepper.look())

    def do_advance(self, words):
        """advance [MS]  the clock goes on to the next time that is due, or to MS"""
        self.need_program()
        now = self.session.run.clock
        if words.strip():
            to = number(words.strip(), "MS", now, now + WAIT)
        else:
            due = [it.due for it in self.listed("WAITS") if it.due is not None and it.due > now]
            if not due:
                raise Wrong("nothing waits for a later time: advance MS")
            to = min(due)
        if to > now:
            self.stepper.undone = []
            self.session.advance(to - now)
        self.screen.say(f"the clock is {to}")
        self.tell_next(self.stepper.look())

    def do_random(self, words):
        """random [SEED | off]  pick moves at random from now on, the same for the same number"""
        word = words.strip()
        if word == "off":
            self.stepper.begin()
        elif word:
            self.stepper.begin(number(word, "SEED", 0, 10**12 - 1))
        seed = self.stepper.seed
        how = "in the order of tasks" if seed is None else f"at random, from seed {seed}"
        self.screen.say(f"moves are picked {how}")

    def do_choices(self, words):
        """choices [C ..]  the choices that led here; with numbers, the next ones

        Where several moves can be made, a choice C picks move C (modulo their number). These are what CHOOSE takes, see
        docs/PROTOCOL.md. `choices none` forgets those that wait.
        """
        self.need_program()
        if words.strip() == "none":
            self.stepper.choices = []
        elif words.strip():
            self.stepper.choices += [number(it, "C", 0, CHOICE) for it in words.split()]
        else:
            self.session.expand(self.session.run.length)
            self.screen.say("made: " + (" ".join(map(str, self.session.run.choices)) or "none"))
        if self.stepper.choices or words.strip():
            self.screen.say("waiting: " + (" ".join(map(str, self.stepper.choices)) or "none"))

    # -- what a command has led to --

    def tell_output(self):
        """What was put out since it was shown last."""
        before, self.output = self.output, self.session.output()
        self.screen.put("\n".join(self.output)[len("\n".join(before)):])

    def tell_turns(self, begun):
        """The times to which the clock went on."""
        turns, clock, at = [], 0, 0
        for it in self.session.run.events:
            at += size(it)
            if isinstance(it, Advance):
                clock += it.ms
                turns += [clock] if at > begun else []
        if turns:
            self.screen.say(self.screen.paint(f"the clock went on to {', '.join(map(str, turns))}", 33))
