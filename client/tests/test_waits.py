"""Who waits for whom."""
import unittest

from audclient import listing
from audclient.session import Session
from audclient.source import Source
from audclient.waiting import Graph, last_served

from .support import Case


def text_of(declarations, statements="null;"):
    return f"procedure M is\n{declarations}\nbegin\n{statements}\nend M;\n"


TWO = """
    task A is entry E; end A;
    task B is entry E; end B;
    task body A is begin {0} B.E; accept E; end A;
    task body B is begin {0} A.E; accept E; end B;"""

CASES = {
    # what it is: the text, whether a circle is told, and the tasks that nobody can free
    "two tasks call each other while main waits": (text_of(TWO.format("null;"), "delay 9.0;"), [2, 3], {2, 3}),
    "and main may abort one": (text_of(TWO.format("null;"), "delay 9.0; abort A;"), [2, 3], set()),
    "an aborting requeue aborts nothing": (
        text_of(TWO.format("null;") + """
            task C is entry F; entry G; end C;
            task body C is begin delay 9.0; accept F do requeue G with abort; end F; end C;"""), [2, 3], {1, 2, 3}),
    "one of them gives up in time": (
        text_of("""
            task A is entry E; end A;
            task B is entry E; end B;
            task body A is begin select B.E; or delay 5.0; end select; accept E; end A;
            task body B is begin A.E; accept E; end B;""", "delay 9.0;"), [2, 3], set()),
    "main may still make the call": (
        text_of("""
            task A is entry E; entry F; end A;
            task B;
            task body A is begin accept E; accept F; end A;
            task body B is begin A.F; end B;""", "delay 9.0; A.E;"), [], set()),
    "nobody makes the call": (
        text_of("""
            task A is entry E; entry F; end A;
            task B;
            task body A is begin accept E; accept F; end A;
            task body B is begin A.F; end B;""", "delay 9.0;"), [], {2, 3}),
    "a procedure may make it": (
        text_of("""
            task A is entry E; end A;
            procedure P is begin A.E; end P;
            task body A is begin accept E; end A;""", "delay 9.0; P;"), [], set()),
    "a task that is created later may": (
        text_of("""
            task A is entry E; end A;
            task body A is begin accept E; end A;""", """
            delay 9.0;
            declare
               task B;
               task body B is begin A.E; end B;
            begin null; end;"""), [], set()),
    "a server waits to end": (
        text_of("""
            task A is entry E; end A;
            task body A is begin select accept E; or terminate; end select; end A;""", "delay 9.0;"), [], set()),
    "semaphores in the wrong order": (
        text_of("""
            protected One is entry Get; procedure Put; private Free : Boolean := True; end One;
            protected body One is
               entry Get when Free is begin Free := False; end Get;
               procedure Put is begin Free := True; end Put;
            end One;
            protected Two is entry Get; procedure Put; private Free : Boolean := True; end Two;
            protected body Two is
               entry Get when Free is begin Free := False; end Get;
               procedure Put is begin Free := True; end Put;
            end Two;
            task A;
            task B;
            task body A is begin One.Get; delay 1.0; Two.Get; Two.Put; One.Put; end A;
            task body B is begin Two.Get; delay 1.0; One.Get; One.Put; Two.Put; end B;""", "delay 9.0;"), [2, 3], {2, 3}),
    "a task only looks at the object": (
        text_of("""
            protected P is entry Get; function Left return Integer; private Free : Integer := 0; end P;
            protected body P is
               entry Get when Free > 0 is begin Free := Free - 1; end Get;
               function Left return Integer is begin return Free; end Left;
            end P;
            task A;
            task body A is begin P.Get; end A;
            X : Integer;""", "delay 9.0; X := P.Left;"), [], {2}),
    "within a rendezvous": (
        text_of("""
            task A is entry E; end A;
            task B is entry E; end B;
            task body A is begin accept E do B.E; end E; end A;
            task body B is begin A.E; accept E; end B;""", "delay 9.0;"), [2, 3], {2, 3}),
}


class Waits(Case):
    def graph(self, text, clock=2000):
        session = Session(self.place())
        self.addCleanup(session.close)
        session.start()
        session.load(Source.of_text(text))
        for _ in range(9):
            ran = session.plain(1000)
            if ran.due is None or ran.due > clock:
                break
            session.advance(ran.due - session.run.clock)
        session.expand(session.run.length)
        tasks, waits, objects = session.ask("TASKS", "WAITS", "OBJECTS")
        return Graph(session.source, listing.tasks(tasks), listing.waits(waits), listing.objects(objects), session.run.events)

    def test_cases(self):
        for name, (text, circle, stuck) in CASES.items():
            with self.subTest(name):
                graph = self.graph(text)
                self.assertEqual(sorted(graph.circle), circle)
                self.assertEqual(graph.stuck, stuck)

    def test_words(self):
        graph = self.graph(CASES["one of them gives up in time"][0])
        self.assertEqual(graph.told(), [
            "a circle of tasks that wait for each other:",
            "  t2 A waits for t3 B to accept B.E",
            "  t3 B waits for t2 A to accept A.E",
            "  but t2 A goes on when the clock is 5000"])
        graph = self.graph(CASES["nobody makes the call"][0])
        self.assertIn("waits for a call of E; nobody is left who may make it", [it.words for it in graph.reasons[2]])

    def test_who_was_served(self):
        session = self.session("philosophers")
        session.follow([], 44)
        self.assertEqual(last_served(session.run.events)[2], 5)


if __name__ == "__main__":
    unittest.main()
