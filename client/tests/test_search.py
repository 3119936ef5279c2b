"""Searches: at random, and among all schedules."""
import os
import unittest

from audclient import goals
from audclient.run import Advance, Run, Step
from audclient.search import Player, Schedule, find, schedule_of
from audclient.session import Session
from audclient.source import Source
from audclient.states import Explorer

from .support import Case, ServedCase

# Of an idle machine; slower ones may take as many times as long as AUD_SLOWER says.
SLOWER = float(os.environ.get("AUD_SLOWER", "1"))
FOUND_SECONDS = 2 * SLOWER
ALL_SECONDS = 10 * SLOWER


class Clock:
    """The seconds of processor that this program and those that it ended have taken."""

    def __init__(self):
        self.begun = self.now()

    def now(self):
        return sum(os.times()[:4])

    @property
    def seconds(self):
        return self.now() - self.begun


def explored(session, words="stuck"):
    source = session.source
    session.load(source.spread())
    found = Explorer(session, goals.parse(words)).explore()
    session.load(source)
    return found


class AtRandom:
    def test_the_deadlock_of_the_philosophers(self):
        clock = Clock()
        session = self.session("philosophers")
        found = find(Player(session, goals.parse("stuck")), 1)
        session.close()
        self.assertLess(clock.seconds, FOUND_SECONDS)
        self.assertEqual(len(found.events), 47)
        self.assertEqual(session.run.events, found.events)
        self.assertLessEqual(sum(it > 0 for it in Run(found.events).choices), 12)
        again = self.session("philosophers")
        again.rewind(Run(found.events))
        self.assertEqual(again.state().state, "stuck")

    def test_output(self):
        session = self.session("lost")
        found = find(Player(session, goals.parse("output counted 2")), 1)
        self.assertEqual(found.events[-1].put, "counted 2\n")
        self.assertIsNone(find(Player(session, goals.parse("output counted 1")), 1, 200))

    def test_variables(self):
        session = self.session("lost")
        found = find(Player(session, goals.parse("vars count 6")), 1)
        session.rewind(Run(found.events))
        self.assertIn("1 COUNT = 6", session.ask("VARS 1"))
        session.rewind(Run(found.events[:-1]))
        self.assertNotIn("1 COUNT = 6", session.ask("VARS 1"))

    def test_components(self):
        session = self.session("buffer")
        find(Player(session, goals.parse("vars buffer.count 2")), 1)
        self.assertIn("1 BUFFER.COUNT = 2", session.ask("OBJECTS"))

    def test_exceptions(self):
        session = self.session("division")
        found = find(Player(session, goals.parse("raised Constraint_Error")), 1)
        self.assertEqual(found.events[-1].line, 13)
        session.rewind(Run(found.events))
        self.assertIn("3 DIVIDER raised CONSTRAINT_ERROR", session.ask("WAITS"))

    def test_turns_of_the_clock_are_among_them(self):
        # Early waits for ever only where the clock goes on while a task could.
        session = self.session("alarm")
        found = find(Player(session, goals.parse("stuck")), 1)
        self.assertTrue(any(isinstance(it, Advance) for it in found.events))
        session.rewind(Run(found.events))
        self.assertEqual(session.state().state, "stuck")

    def test_a_circle_where_others_go_on(self):
        # Before the minute is over, main still waits for its time.
        session = self.session("bank")
        found = find(Player(session, goals.parse("circle")), 1)
        session.rewind(Run(found.events))
        self.assertEqual(session.run.clock, 0)
        self.assertTrue(any("call 2 ACCOUNTS(1).RECEIVE" in it for it in session.ask("WAITS")))
        session.rewind(Run(found.events[:-1]))
        self.assertFalse(sum("RECEIVE" in it and "call" in it for it in session.ask("WAITS")) == 2)

    def test_a_seed_gives_the_same(self):
        session = self.session("philosophers")
        goal = goals.parse("stuck")
        first, second, other = [find(Player(session, goal), it).events for it in (7, 7, 8)]
        self.assertEqual(first, second)
        self.assertNotEqual([it.pick for it in first], [it.pick for it in other])


class AtRandomSolo(AtRandom, Case):
    pass


class AtRandomServed(AtRandom, ServedCase):
    pass


class AllSchedules(Case):
    def test_peterson(self):
        clock = Clock()
        session = self.session("peterson")
        found = explored(session)
        session.close()
        self.assertLess(clock.seconds, ALL_SECONDS)
        self.assertEqual(found[:6], (4372, 10765, True, 1, 0, 0))

    def test_nobody_else_is_inside(self):
        session = self.session("peterson")
        self.assertIsNone(explored(session, "output both inside").path)

    def test_a_livelock(self):
        session = self.session("dekker")
        found = explored(session, "endless")
        self.assertEqual((found.is_whole, found.stuck, found.doomed), (True, 0, 12))
        session.rewind(Run(found.path))
        self.assertLessEqual({"P1", "P2"}, {it.name for it in session.look()[0]})

    def test_the_nearest_is_found(self):
        session = self.session("semaphores")
        found = explored(session)
        self.assertEqual((found.is_whole, found.stuck, len(found.path)), (True, 1, 16))
        session.rewind(Run(found.path))
        self.assertEqual(session.state().state, "stuck")

    def test_too_many(self):
        session = self.session("philosophers")
        source = session.source
        session.load(source.spread())
        found = Explorer(session).explore(most=200)
        self.assertFalse(found.is_whole)
        self.assertGreaterEqual(found.states, 200)


def text_of(declarations, statements="null;"):
    return f"procedure M is\n{declarations}\nbegin\n{statements}\nend M;\n"


# Programs of which different states look alike in the listings, and the lines that they may put out.
ALIKE = {
    "a procedure called from two places": (["after"], text_of("""
        X : Integer := 0;
        procedure P is begin null; end P;
        task A;
        task body A is begin P; P; P; X := 1; Put_Line ("after"); end A;""")),
    "recursion": (["after"], text_of("""
        Left : Natural := 2;
        procedure P is begin if Left > 0 then Left := Left - 1; P; end if; null; end P;
        task A;
        task body A is begin P; Put_Line ("after"); end A;""")),
    "bounds of a loop": (["1", "2"], text_of("""
        N, K : Integer := 1;
        task A is entry Go; end A;
        task B;
        task body A is begin
           K := 0;
           for I in 1 .. N loop if K = 0 then accept Go; end if; K := K + 1; end loop;
           Put_Line (K'Image);
        end A;
        task body B is begin N := 2; N := 1; A.Go; end B;""")),
    "an argument of a queued call": (["1", "2", "3"], text_of("""
        N : Integer := 1;
        task T is entry Go; entry E (X : Integer); end T;
        task A;
        task B;
        task body T is begin accept Go; accept E (X : Integer) do Put_Line (X'Image); end E; end T;
        task body A is begin T.E (N); end A;
        task body B is begin N := 2; N := 3; N := 1; T.Go; end B;""")),
    "the element that a call changes": (["0 7", "7 0"], text_of("""
        I : Integer := 1;
        A : array (1 .. 2) of Integer;
        task T is entry Go; entry E (X : out Integer); end T;
        task C;
        task B;
        task body T is begin accept Go; accept E (X : out Integer) do X := 7; end E; end T;
        task body C is begin T.E (A (I)); Put_Line (A (1)'Image & A (2)'Image); end C;
        task body B is begin I := 2; I := 1; T.Go; end B;""")),
    "an exception that is raised again": (["one", "two"], text_of("""
        One, Two : exception;
        X : Integer := 0;
        task A;
        task B;
        task body A is
           procedure P is
           begin
              if X = 1 then raise One; end if;
              raise Two;
           exception
              when others => X := 0; null; raise;
           end P;
        begin P; exception when One => Put_Line ("one"); when Two => Put_Line ("two"); end A;
        task body B is begin X := 1; X := 0; end B;""")),
    "guards that were True": (["first", "second"], text_of("""
        G : Boolean := False;
        task T is entry E; entry F; end T;
        task B;
        task C is entry Go; end C;
        task body T is begin
           select when G => accept E; Put_Line ("first"); or when not G => accept E; Put_Line ("second"); end select;
        end T;
        task body B is begin G := True; G := False; C.Go; end B;
        task body C is begin accept Go; T.E; end C;""")),
    "what a function returns": (["1", "2"], text_of("""
        N : Integer := 1;
        protected P is function F return Integer; end P;
        protected body P is function F return Integer is begin return N; end F; end P;
        task A;
        task B;
        task body A is X : Integer; begin X := P.F; Put_Line (X'Image); end A;
        task body B is begin N := 2; N := 1; end B;""")),
    "an activation that failed": (["after", "failed"], text_of("""
        X : Integer := 1;
        task B;
        task body B is begin X := 0; X := 1; end B;""", """
        declare
           task A;
           task C;
           task body A is Y : Positive := X; begin null; end A;
           task body C is Z : Integer := 0; begin null; end C;
        begin null;
        exception when Tasking_Error => Put_Line ("failed");
        end;
        Put_Line ("after");""")),
    "a call that is made again": (["1", "2"], text_of("""
        N : Integer := 1;
        task T is entry E (X : in out Integer); entry F (X : in out Integer); entry Go; end T;
        task A;
        task B;
        task body T is begin
           accept E (X : in out Integer) do X := N; requeue F; end E;
           accept Go;
           accept F (X : in out Integer) do Put_Line (X'Image); end F;
        end T;
        task body A is X : Integer; begin T.E (X); end A;
        task body B is begin N := 2; N := 1; T.Go; end B;""")),
    "a call within an action": (["1", "2"], text_of("""
        N : Integer := 1;
        protected P is procedure Q; private X : Integer; end P;
        protected body P is procedure Q is begin null; end Q; end P;
        task A;
        task body A is begin P.Q; N := 2; P.Q; Put_Line (N'Image); end A;
        task B;
        task body B is begin P.Q; N := 1; end B;""")),
}


class Alike(Case):
    def test_all(self):
        for name, (lines, text) in ALIKE.items():
            with self.subTest(name):
                found = explored(self.session_of(text))
                self.assertTrue(found.is_whole)
                self.assertEqual([it.strip() for it in found.lines], sorted(lines))

    def session_of(self, text):
        session = Session(self.place())
        self.addCleanup(session.close)
        session.start()
        session.load(Source.of_text(text))
        return session


class Words(unittest.TestCase):
    def test_goals(self):
        for words in ("stuck", "circle", "ended", "endless", "output a  b", "vars X 1", "raised E"):
            goals.parse(words)
        for words in ("", "output", "vars X", "raised", "raised a b", "stuck 1", "no"):
            with self.assertRaises(goals.BadGoal):
                goals.parse(words)
        goal = goals.parse("output read * of 3")
        self.assertTrue(goal.is_in_output(["", "read 2 of 3"]))
        self.assertFalse(goal.is_in_output(["read 2 of 30", "output"]))
        self.assertEqual(str(goals.parse("vars  X = 1")), "vars X 1")

    def test_schedules(self):
        step = Step(1, 2, 1, "M", 1, "null")
        self.assertEqual(schedule_of([step, Advance(5), step._replace(pick=0)]), Schedule([1], (1,)))


if __name__ == "__main__":
    unittest.main()
