"""Sessions that go on: past a full journal, a lost connection, a server that is started again; and how none can be begun."""
import socket
import threading
import unittest
from unittest import mock

from audclient.protocol import REQUESTS, Lost, Refused, Served, Unreachable
from audclient.run import Advance, Plain, Raw, Run, Step, choose
from audclient.session import Session
from audclient.source import Source

from .support import Case, Server, ServedCase, Typed, program


class Counted:
    """A place that counts its sessions, and checks that none is asked more than its journal holds."""

    def __init__(self, place):
        self.place, self.sessions, self.asked = place, 0, 0
        self.links = []

    def connect(self):
        self.sessions += 1
        link = self.place.connect()
        self.links.append(link)
        ask_all = link.ask_all

        def counted(requests):
            self.asked += len(requests)
            answers = ask_all(requests)
            # (QUIT always fits.)
            assert link.requests <= REQUESTS or requests == ["QUIT"]
            assert not any(isinstance(it, Refused) and it.code == "E13" for it in answers)
            return answers

        link.ask_all = counted
        return link


class Sessions:
    def test_ten_thousand_requests(self):
        place = Counted(self.place())
        typed = Typed(place, "runaway")
        self.addCleanup(typed.close)
        while place.asked < 10_000:
            typed.type("until 8 t1", "step t2", "tasks", "vars")
        self.assertGreater(place.sessions, 2)
        steps = typed.session.run.length
        shown = typed.type("vars")
        self.assertRegex(shown, r"Steps +\d+")
        typed.type("step t2", "step t2", "back 2")
        self.assertEqual(typed.session.run.length, steps)
        self.assertEqual(typed.type("vars"), shown)

    def test_a_lost_connection(self):
        typed = self.typed("philosophers")
        typed.type("until 31")
        before = typed.type("tasks", "vars", "queues")
        self.cut(typed.session)
        after = typed.type("tasks", "vars", "queues")
        self.assertIn("(the session has ended early", after)
        self.assertIn(before, after)
        self.cut(typed.session)
        self.assertIn("stuck", typed.type("run"))
        self.assertEqual(typed.session.run.steps, 47)

    def test_lost_while_it_searches(self):
        typed = self.typed("semaphores")
        calls = []
        play = typed.session.play

        def broken(*requests):
            calls.append(requests)
            if len(calls) == 3:
                self.cut(typed.session)
            return play(*requests)

        typed.session.play = broken
        self.assertIn("`stuck` is seen", typed.type("search stuck"))

    def test_stopped_by_hand(self):
        typed = self.typed("lost")
        typed.type("run 10")
        before = typed.type("tasks", "vars")
        link = typed.session.link
        reader = link._reader

        class Stopping:
            def readline(self):
                raise KeyboardInterrupt

        link._reader = Stopping()
        self.assertEqual(typed.type("step"), "\nstopped\n")
        link._reader = reader
        self.assertEqual(typed.type("tasks", "vars"), before)

    def test_a_long_delay(self):
        typed = self.typed()
        typed.shell.load(Source.of_text("procedure M is begin delay Duration (5000000); Put_Line (\"late\"); end M;"))
        shown = typed.type("run")
        self.assertIn("the clock went on to 5000000000\n       output: late", shown)
        self.cut(typed.session)
        self.assertIn("the clock is 5000000000\n", typed.type("clock"))
        self.assertIn("`output late` is seen", typed.type("reset", "search output late"))
        self.assertIn("`output late` is seen", typed.type("reset", "search all output late"))

    def test_a_run_of_many_steps(self):
        typed = self.typed("runaway")
        self.assertIn("250000 steps: it can go on", typed.type("run 250000"))
        self.assertIn("1000 undone: step 249000 of 250000", typed.type("back 1000"))
        self.assertEqual(len(typed.type("trace 5").split("\n")), 7)
        self.assertIn("the most of a run", typed.type("run 1000000", "step"))
        self.assertIn("1 undone", typed.type("back"))


class Solo(Sessions, Case):
    def cut(self, session):
        session.link._reader.close()


class AtAServer(Sessions, ServedCase):
    def cut(self, session):
        session.link._writer.raw._sock.shutdown(socket.SHUT_RDWR)


class Restarted(Case):
    def setUp(self):
        self.server = Server(seats=2)
        self.addCleanup(lambda: self.server.stop())

    def test_a_server_started_again(self):
        typed = Typed(self.server.place(), "philosophers")
        self.addCleanup(typed.close)
        typed.type("until 31")
        before = typed.type("tasks", "vars", "queues", "trace")
        self.server.stop()
        self.server.start()
        after = typed.type("tasks", "vars", "queues", "trace")
        self.assertIn("a new one goes on from here", after)
        self.assertIn(before, after)

    def test_a_server_that_stays_away(self):
        session = Session(self.server.place())
        session.start()
        session.load(Source.read(program("lost")))
        self.server.stop()
        self.addCleanup(session.close)
        with mock.patch("audclient.session.PATIENCE", 0.2), self.assertRaisesRegex(Unreachable, "nothing listens at"):
            session.ask("TASKS")
        self.server.start()
        self.assertTrue(session.ask("TASKS"))

    def test_the_seat(self):
        first, second = Session(self.server.place()), Session(self.server.place())
        first.start()
        second.start()
        self.addCleanup(first.close)
        self.addCleanup(second.close)
        self.assertEqual((first.place.seat, second.place.seat), (1, 2))
        with self.assertRaisesRegex(Unreachable, "all 2 seats of .* are in use"):
            self.server.place().connect()
        with self.assertRaisesRegex(Unreachable, "seat 2 of .* is in use: take another"):
            self.server.place(2).connect()
        with self.assertRaisesRegex(Unreachable, "has no seat 7: its seats are 1 to 2"):
            self.server.place(7).connect()

    def test_a_full_server(self):
        held = [socket.create_connection(("127.0.0.1", self.server.port)) for _ in range(64)]
        try:
            for it in held:
                it.settimeout(10)
                it.recv(1)
            with mock.patch("audclient.protocol.GREETING_SECONDS", 0.5):
                with self.assertRaisesRegex(Unreachable, "the server is full"):
                    self.server.place().connect()
        finally:
            for it in held:
                it.close()


class Answering(unittest.TestCase):
    """What no aud does."""

    def answered(self, text):
        with socket.socket() as listening:
            listening.bind(("127.0.0.1", 0))
            listening.listen()

            def answer():
                stream, _ = listening.accept()
                stream.sendall(text)
                stream.shutdown(socket.SHUT_WR)
                stream.recv(100)
                stream.close()

            thread = threading.Thread(target=answer)
            thread.start()
            try:
                return Served("127.0.0.1", listening.getsockname()[1]).connect()
            finally:
                thread.join()

    def test_what_is_no_server(self):
        for text, words in (
            (b"", "its answers end early"),
            (b"HTTP/1.1 400 Bad Request\r\n", "answers what no aud does"),
            (b"+ 2\naud 3\nseat 1 tasks 64 source 32768\n", "speaks `aud 3`, this client `aud 2`"),
            (b"- E90 out of memory\n", "out of memory"),
            (b"+ 2\naud 2\nseat 1 tasks 64 source 32768\n", "its answers end early"),
        ):
            with self.assertRaisesRegex(Unreachable, words):
                self.answered(text)

    def test_a_link_that_ended(self):
        link = self.answered(b"+ 2\naud 2\nseat 1 tasks 64 source 32768\n+ 0\n+ 1\n")
        with self.assertRaises(Lost):
            link.ask("TASKS")
        with self.assertRaises(Lost):
            link.ask("TASKS")


class Runs(unittest.TestCase):
    def step(self, pick, of):
        return Step(pick, of, 1, "M", 1, "null")

    def test_requests(self):
        run = Run([self.step(0, 1), self.step(1, 2), self.step(0, 3), Plain(4), Plain(3), self.step(2, 3), Advance(500), self.step(0, 2)])
        self.assertEqual(run.requests(), ["CHOOSE 1", "RUN 10", "CHOOSE 2", "RUN 1", "ADVANCE 500", "RUN 1"])
        self.assertEqual((run.length, run.steps, run.clock, run.choices), (13, 12, 500, [1, 0, 2, 0]))

    def test_cut(self):
        run = Run([self.step(1, 2), Plain(5), Advance(1)])
        self.assertEqual(run.cut(3), [Plain(2), Advance(1)])
        self.assertEqual(run.events, [self.step(1, 2), Plain(3)])
        self.assertEqual(run.cut(9), [self.step(1, 2), Plain(3)])
        self.assertEqual(run.cut(1), [])

    def test_limits(self):
        self.assertEqual(Run([Plain(250_000)]).requests(), ["RUN 100000", "RUN 100000", "RUN 50000"])
        many = choose([9999] * 1000)
        self.assertTrue(all(len(it) <= 1024 for it in many))
        self.assertEqual(sum(len(it.split()) - 1 for it in many), 1000)
        run = Run([self.step(1, 2)] * 10_001)
        waiting = 0
        for it in run.requests():
            word, *numbers = it.split()
            waiting += len(numbers) if word == "CHOOSE" else -int(numbers[0])
            self.assertLessEqual(waiting, 10_000)

    def test_a_long_time(self):
        run = Run([Advance(2_500_000_000)])
        self.assertEqual(run.requests(), ["ADVANCE 1000000000", "ADVANCE 1000000000", "ADVANCE 500000000"])
        self.assertEqual((run.length, run.clock), (1, 2_500_000_000))

    def test_runs_as_they_were_sent(self):
        self.assertEqual(Run([Raw("RUN 1")] * 70_000 + [Raw("RUN 50000")]).requests(), ["RUN 100000", "RUN 20000"])


class Sources(unittest.TestCase):
    def test_marks_and_line_ends(self):
        source = Source(b"\xef\xbb\xbfprocedure M is  \r\n\tbegin null;\nend M;")
        self.assertEqual(source.lines, ["procedure M is", "\tbegin null;", "end M;"])
        self.assertEqual(source.request, "LOAD 3\nprocedure M is\n\tbegin null;\nend M;")
        self.assertEqual(Source(b"").request, "LOAD 0")

    def test_faults_that_are_found_here(self):
        source = Source("procedure M is\n   -- zählt\nbegin null; end M;".encode())
        self.assertEqual(source.fault[:3], ("E19", 2, 8))
        self.assertEqual(Source(b"a\n-- \xe4\n").fault[:3], ("E19", 2, 4))
        self.assertEqual(Source(b"x" * 1025).fault[:3], ("E12", 1, 1025))
        self.assertIsNone(Source(b"x" * 1024 + b"   \r\n").fault)
        self.assertEqual(Source(b"\n" * 32769).fault[0], "E22")
        self.assertEqual(Source((b"x" * 1000 + b"\n") * 1100).fault[0], "E22")

    def test_tokens(self):
        source = Source.of_text('procedure M is -- no "token"\n X : Integer := 1_0; begin Put ("a ""b"" -- c" & X\'Image); end M;')
        self.assertEqual(
            [it.text for it in source.tokens],
            ["procedure", "M", "is", "X", ":", "Integer", ":=", "1_0", ";", "begin", "Put", "(", '"a ""b"" -- c"', "&", "X", "'",
             "Image", ")", ";", "end", "M", ";"])
        self.assertEqual((source.tokens[3].line, source.tokens[3].column), (2, 2))
        self.assertEqual(source.spread().lines[:4], ["procedure", "M", "is", "X"])
        self.assertTrue(source.is_same(source.spread()))
        self.assertFalse(source.is_same(Source.of_text(source.text.replace("-- c", "-- C"))))
        self.assertEqual((source.program, source.spelled("INTEGER"), source.spelled("X(1).Y")), ("M", "Integer", "X(1).Y"))


if __name__ == "__main__":
    unittest.main()
