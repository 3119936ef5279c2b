"""Each command, at a program of one's own and at a server."""
import os
import tempfile
import unittest

from audclient.shell import COMMANDS, SHORT

from .support import Case, ServedCase, client, program


class Commands:
    def test_load(self):
        typed = self.typed()
        self.assertIn("loaded Philosophers: philosophers.adb, 40 lines", typed.type(f"load {program('philosophers')}"))
        self.assertIn("no such file", typed.type("load nothing.adb").lower())
        self.assertIn("one file is to be named", typed.type("load"))

    def test_nothing_is_loaded(self):
        typed = self.typed()
        for it in "list step run until back moves tasks vars trace search save choices advance waits output".split():
            self.assertIn("no program is loaded: load FILE", typed.type(it + (" stuck" if it == "search" else "")), it)

    def test_list(self):
        typed = self.typed("philosophers")
        typed.type("until 31")
        shown = typed.type("list").split("\n")
        self.assertEqual(len(shown), 41)
        self.assertEqual(shown[30], "   5 6 7>  31 |       Forks (Right).Take;")
        self.assertEqual(len(typed.type("list 31").split("\n")), 12)
        self.assertEqual(len(typed.type("list 1 3").split("\n")), 4)

    def test_step_by_move_and_by_task(self):
        typed = self.typed("division")
        self.assertIn("1            t1 Division      decl           2 | X : Integer := 1;", typed.type("step"))
        typed.type("step", "step", "step")
        self.assertIn("t3 Divider", typed.type("step t3").split("\n")[0])
        self.assertIn("t3 Divider", typed.type("step divider").split("\n")[0])
        self.assertIn("0 of 2    t2 Setter", typed.type("step 0").split("\n")[0])
        self.assertIn("K is a number from 0 to", typed.type("step 9"))
        self.assertIn("no task `t9`", typed.type("step t9"))
        self.assertIn("t1 cannot go on now: activation", self.after("division", "run 4").type("step t1"))

    def after(self, name, *lines):
        typed = self.typed(name)
        typed.type(*lines)
        return typed

    def test_run(self):
        typed = self.typed("philosophers")
        self.assertIn("3 steps: it can go on", typed.type("run 3"))
        shown = typed.type("run")
        self.assertIn("output: eats 0", shown)
        self.assertIn("the program has ended", shown)
        self.assertIn("0 steps: the program has ended", typed.type("run"))
        self.assertIn("the program has ended", typed.type("step"))

    def test_run_turns_the_clock(self):
        shown = self.typed("alarm").type("run")
        self.assertIn("the clock went on to 1000, 2000, 3000, 4000, 5000", shown)
        self.assertIn("output: early at 2\n       output: late at 3", shown)

    def test_until(self):
        typed = self.typed("philosophers")
        self.assertIn("44 steps: at line 31 stand t5 People(0), t6 People(1), t7 People(2)", typed.type("until 31"))
        self.assertIn("stuck: no task can go on any more", typed.type("run"))
        typed.type("reset")
        self.assertIn("at line 31 stands t6 People(1)", typed.type("until 31 People(1)"))
        self.assertIn("no task stands at line 1", self.typed("division").type("until 1"))

    def test_back_and_forward(self):
        typed = self.typed("philosophers")
        typed.type("until 31")
        before = typed.type("tasks", "vars", "queues")
        typed.type("run")
        self.assertIn("3 undone: step 44 of 47", typed.type("back 3"))
        self.assertEqual(typed.type("tasks", "vars", "queues"), before)
        self.assertIn("2 done again: step 46 of 47", typed.type("forward 2"))
        self.assertIn("stuck", typed.type("forward 5"))
        self.assertIn("nothing was undone", typed.type("forward"))
        self.assertIn("at the beginning: step 0 of 47", typed.type("reset"))
        self.assertIn("nothing is left to be undone", typed.type("back"))

    def test_trace(self):
        typed = self.typed("division")
        typed.type("run 4", "step t2")
        shown = typed.type("trace").split("\n")
        self.assertEqual(shown[0], "    1            t1 Division      decl           2 | X : Integer := 1;")
        self.assertEqual(shown[4], "    5  0 of 2    t2 Setter        activated      6 | begin")
        typed.type("run")
        shown = typed.type("trace all")
        self.assertIn("the clock goes on to 1000", shown)
        self.assertIn("Put_Line (\"quotient\" & Y'Image);\n       output: quotient 5", shown)
        self.assertEqual(len(typed.type("trace 3").split("\n")), 5)

    def test_listings(self):
        typed = self.after("buffer", "random 3", "run 40")
        self.assertEqual(typed.type("objects").split("\n")[:5], [
            "  Buffer      in use by t4 Consumer", "    First     = 1", "    Second    = 4", "    Count     = 2",
            "    Put_In    barrier False"])
        self.assertEqual(typed.type("vars consumer").split("\n")[1:], [
            "  t4    Consumer  Item          2", "  t4    Consumer    I           2", "  t4    Consumer      Item      1", ""])
        self.assertIn("t2    Odd               waits until t4 Consumer leaves Buffer", typed.type("waits"))
        typed = self.after("philosophers", "until 31", "run")
        self.assertIn("Forks(0).Take  t7 People(2)", typed.type("queues"))
        self.assertIn("t5    People(0)     queued at Forks(1).Take    31 | Forks (Right).Take;", typed.type("tasks"))
        self.assertEqual(self.after("division", "run").type("output"), "quotient 5\n")
        self.assertEqual(self.typed("division").type("clock"), "the clock is 0\n")
        self.assertIn("no call is queued", typed.type("reset", "queues"))
        self.assertIn("no protected objects", typed.type("objects"))

    def test_moves(self):
        typed = self.after("division", "run 4")
        self.assertIn("t2    Setter   step 0  activated     6 | begin", typed.type("moves"))
        self.assertIn("t3    Divider  step 1", typed.type("moves"))

    def test_waits(self):
        typed = self.after("philosophers", "until 31", "run")
        shown = typed.type("waits")
        self.assertIn("waits for t3 Forks(1) to accept Forks(1).Take", shown)
        self.assertIn("t3 Forks(1) waits for a call of Put_Down; it served t6 People(1) last", shown)
        self.assertIn("a circle of tasks that wait for each other:", shown)

    def test_advance(self):
        typed = self.after("alarm", "run 12")
        self.assertIn("the clock is 500\n", typed.type("advance 500"))
        self.assertIn("the clock is 1000\n", typed.type("advance"))
        self.assertIn("MS is a number from 1000", typed.type("advance 10"))
        self.assertIn("1 undone: step 13 of 14", typed.type("back"))
        self.assertEqual(typed.type("clock"), "the clock is 500\n")
        self.assertIn("nothing waits for a later time", self.typed("philosophers").type("advance"))

    def test_random_is_repeated(self):
        typed = self.typed("lost")
        self.assertIn("moves are picked at random, from seed 5", typed.type("random 5"))
        shown = typed.type("run"), typed.type("trace all")
        typed.type("reset")
        self.assertEqual((typed.type("run"), typed.type("trace all")), shown)
        # In pieces, and step by step, it is the same.
        typed.type("reset", "run 10", *["step"] * 10, "run")
        self.assertEqual(typed.type("trace all"), shown[1])
        typed.type("random off", "reset", "run")
        self.assertNotEqual(typed.type("trace all"), shown[1])

    def test_choices(self):
        typed = self.typed("lost")
        self.assertIn("waiting: 0 1 1 1", typed.type("choices 0 1 1 1"))
        typed.type("run")
        self.assertIn("made: 0 1 1 1 0", typed.type("choices"))
        self.assertIn("C is a number", typed.type("choices x"))
        self.assertIn("waiting: none", typed.type("choices 5", "choices none"))

    def test_save_and_replay(self):
        typed = self.after("alarm", "random 2", "run 30", "advance", "run 5")
        with tempfile.TemporaryDirectory() as folder:
            path = os.path.join(folder, "a session")
            before = typed.type("tasks", "vars", "objects", "clock", "trace all", "output")
            typed.type(f"save '{path}'")
            typed.type("reset", f"load {program('lost')}")
            typed.type(f"replay '{path}'")
            self.assertEqual(typed.type("tasks", "vars", "objects", "clock", "trace all", "output"), before)
        self.assertIn("No such file", typed.type("replay nothing"))
        self.assertIn("is no session", typed.type(f"replay {program('lost')}"))

    def test_search(self):
        typed = self.typed("semaphores")
        self.assertIn("`stuck` is seen", typed.type("search stuck"))
        self.assertIn("stuck", typed.type("moves"))
        self.assertIn("`output got*` is seen", typed.type("search output got*"))
        before = typed.type("tasks")
        self.assertIn("is not seen in 2000 random schedules", typed.type("search output nothing"))
        self.assertEqual(typed.type("tasks"), before)
        self.assertIn("a goal is one of", typed.type("search what"))

    def test_check(self):
        typed = self.after("philosophers", "until 31", "run")
        with tempfile.TemporaryDirectory() as folder:
            path = os.path.join(folder, "one")
            typed.type(f"save {path}")
            before = typed.type("tasks")
            self.assertIn("1 of 1 good", typed.type(f"check {path}"))
            self.assertEqual(typed.type("tasks"), before)
        self.assertIn("0 of 1 good", typed.type("check nothing"))

    def test_help(self):
        typed = self.typed()
        shown = typed.type("help").split("\n")
        for it in COMMANDS:
            self.assertEqual(sum(line.strip().startswith(it) for line in shown), 1, it)
            self.assertIn(it, typed.type(f"help {it}"))
        self.assertIn("no command `nothing`", typed.type("help nothing"))

    def test_words_cut_short(self):
        typed = self.typed("division")
        for short, word in SHORT.items():
            if word not in ("quit", "load", "until"):
                load = f"load {program('division')}"
                self.assertEqual(typed.type(load, short), typed.type(load, word))
        self.assertIn("no command `nothing`", typed.type("nothing"))
        self.assertIn("`re` may be replay, reset", typed.type("re"))

    def test_completion(self):
        shell = self.typed("division").shell
        self.assertEqual(shell.completenames("un"), ["until "])
        self.assertEqual(shell.completedefault("st", "search st", 7, 9), ["stuck "])
        start = program("phil")[:-4]
        self.assertEqual(shell.completedefault(start, f"load {start}", 5, 5 + len(start)), [program("philosophers")])


class Solo(Commands, Case):
    pass


class Served(Commands, ServedCase):
    pass


class Program(unittest.TestCase):
    """The client as it is started."""

    def test_a_session_from_a_file(self):
        status, said = client(program("philosophers"), lines=["until 31", "run", "quit"])
        self.assertEqual(status, 0)
        self.assertIn("aud> until 31\n44 steps: at line 31", said)
        self.assertIn("stuck", said)

    def test_a_fault(self):
        with tempfile.NamedTemporaryFile("w", suffix=".adb") as file:
            file.write("procedure M is\nbegin\n   null\nend M;\n")
            file.flush()
            status, said = client(file.name)
        self.assertEqual(status, 1)
        self.assertIn("line 4, column 1: syntax (E21)\n    4 | end M;\n      | ^\nhint: a semicolon is missing at the end of line 3", said)

    def test_no_program(self):
        status, said = client(AUD="/nothing")
        self.assertEqual(status, 1)
        self.assertIn("AUD names /nothing", said)

    def test_nobody_listens(self):
        status, said = client("--at", "127.0.0.1:1")
        self.assertEqual(status, 2)
        self.assertIn("nothing listens at 127.0.0.1:1", said)


if __name__ == "__main__":
    unittest.main()
