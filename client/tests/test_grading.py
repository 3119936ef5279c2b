"""Grading of what was handed in."""
import os
import tempfile
import unittest

from audclient import grading
from audclient.files import BadFile, read

from .support import Case, ServedCase, client, program


class Grading:
    def setUp(self):
        folder = tempfile.TemporaryDirectory()
        self.addCleanup(folder.cleanup)
        self.folder = folder.name
        with open(program("philosophers"), encoding="utf-8") as file:
            self.write("philosophers.adb", file.read())
        self.typed_ = self.typed("philosophers")
        self.typed_.type("until 31", "run", f"save {self.path('stuck')}", "reset", "run", f"save {self.path('ended')}")

    def path(self, name):
        return os.path.join(self.folder, name)

    def write(self, name, text):
        with open(self.path(name), "w", encoding="utf-8") as file:
            file.write(text)
        return self.path(name)

    def graded(self, name, asked=None):
        if asked is not None:
            asked = self.write("the.asked", asked)
        return grading.graded(self.typed_.session, self.path(name), asked)

    def test_a_state(self):
        row = self.graded("stuck", "program philosophers.adb\nreach stuck   # a remark\n")
        self.assertEqual(row[1:], ("Philosophers", "47", "stuck", [], True))
        row = self.graded("ended", "reach stuck\n")
        self.assertEqual((row.state, row.failed, row.is_good), ("ended", ["reach stuck"], False))

    def test_output_and_steps(self):
        self.assertTrue(self.graded("ended", "reach output eats 1\nreach ended\n").is_good)
        self.assertEqual(self.graded("ended", "reach output eats 7\nsteps 10\n").failed, ["reach output eats 7", "steps 10"])
        self.assertTrue(self.graded("stuck", "steps 47").is_good)

    def test_on_the_way(self):
        self.assertTrue(self.graded("ended", "reach vars Right 2").is_good)
        self.assertEqual(self.graded("ended", "reach vars Right 5").failed, ["reach vars Right 5"])
        self.assertEqual(self.graded("ended", "reach raised Program_Error").failed, ["reach raised Program_Error"])

    def test_another_program(self):
        with open(self.path("stuck"), encoding="utf-8") as file:
            text = file.read()
        self.write("laid out", text.replace("   Right := (Left + 1) mod 3;", "RIGHT := (Left+1) mod 3;  -- next"))
        self.assertTrue(self.graded("laid out", "program philosophers.adb").is_good)
        self.write("other", text.replace("mod 3", "mod 2"))
        self.assertEqual(self.graded("other", "program philosophers.adb").failed, ["program philosophers.adb"])

    def test_programs(self):
        self.assertEqual(self.graded("philosophers.adb", "never stuck\nschedules 100").failed, ["never stuck"])
        with open(self.path("philosophers.adb"), encoding="utf-8") as file:
            text = file.read()
        mended = text.replace("      Forks (Left).Take;\n      Forks (Right).Take;", """
            if Left < Right then
               Forks (Left).Take; Forks (Right).Take;
            else
               Forks (Right).Take; Forks (Left).Take;
            end if;""")
        self.assertNotEqual(text, mended)
        self.write("mended.adb", mended)
        self.assertTrue(self.graded("mended.adb", "never stuck\nalways ended\nalways output eats 2\nschedules 100").is_good)
        self.assertEqual(self.graded("mended.adb", "always output eats 5\nschedules 3").failed, ["always output eats 5"])

    def test_what_is_no_hand_in(self):
        self.write("empty", "")
        self.write("cut", "LOAD 40\nprocedure M is\n")
        self.write("wrong.adb", "procedure M is\nbegin\n   X := 1;\nend M;\n")
        begun = "LOAD 1\nprocedure M is begin delay 1.0; end M;\n"
        self.write("refused", begun + "STEP 7\nRUN 5\nFOO\n")
        for number, it in enumerate(("RUN 100001", "RUN 0", "RUN 1 2", "RUN x", "CHOOSE 10000", "ADVANCE 1000000001", "STEP 10000", "FOO")):
            self.write(f"refused {number}", f"{begun}{it}\n")
            self.assertEqual(self.graded(f"refused {number}").failed, [f"`{it}` is refused"])
        self.write("turned", begun + "ADVANCE 1\nRUN 1\n" * 1100)
        self.assertEqual(self.graded("turned").failed, ["too many turns of the clock"])
        self.assertIn("is no session", self.graded("empty").failed[0])
        self.assertIn("ends before the 40 lines", self.graded("cut").failed[0])
        self.assertEqual(self.graded("wrong.adb").failed, ["line 3, column 4: name not declared (E30)"])
        self.assertEqual(self.graded("refused").failed, ["`STEP 7` is refused"])
        self.assertIn("No such file", self.graded("nothing").failed[0])

    def test_what_is_asked_wrongly(self):
        for text, words in (("reach nothing", "line 1: a goal is one of"), ("\nfoo 1", "line 2: reach, never, always"), ("steps x", "line 1")):
            with self.assertRaisesRegex(BadFile, words):
                self.graded("stuck", text)

    def test_a_file_beside(self):
        self.write("asked", "reach stuck")
        self.assertTrue(self.graded("stuck").is_good)
        self.assertFalse(self.graded("ended").is_good)

    def test_a_session_of_several_loads(self):
        self.write("two", "LOAD 1\nprocedure A is begin null; end A;\nRUN 9\nLOAD 1\nprocedure B is begin null; end B;\nCHOOSE 1 2\nRUN 1\nRESET\nRUN 2\n"
                          "QUIT\nLOAD 1\n")
        source, requests = read(self.path("two"))
        self.assertEqual((source.program, requests), ("B", ["CHOOSE 1 2", "RUN 1", "RESET", "RUN 2"]))
        self.assertEqual(self.graded("two")[1:4], ("B", "2", "more"))


class Solo(Grading, Case):
    def test_a_table(self):
        self.write("asked", "reach stuck")
        status, said = client("check", self.path("stuck"), self.path("ended"))
        self.assertEqual(status, 1)
        self.assertRegex(said, r"stuck +Philosophers +47 +stuck +good\n.*ended +Philosophers +\d+ +ended +FAILED: reach stuck\n1 of 2 good\n")
        status, said = client("check", self.write("wrong.asked", "reach"), self.path("ended"))
        self.assertEqual((status, said.count("\n")), (2, 1))
        status, said = client("check", self.path("no.asked"), self.path("ended"))
        self.assertIn("No such file", said)
        status, said = client("check", self.write("my.asked", "reach ended"), self.path("ended"))
        self.assertEqual((status, said.split("\n")[-2]), (0, "1 of 1 good"))


class Served(Grading, ServedCase):
    pass


if __name__ == "__main__":
    unittest.main()
