"""Hints: a table of mistakes, Ada that is left out, and how a fault is shown."""
import glob
import os
import unittest

from audclient import hints
from audclient.protocol import Refused
from audclient.source import Fault, Source

from .support import HERE, Case

MISTAKES = os.path.join(HERE, "mistakes")

LEFT_OUT = {  # what stands between `procedure M is` and `end M;`, and the words that tell that it is left out
    "type T is (A, B); begin null;": "types but task types",
    "subtype T is Integer range 1 .. 2; begin null;": "subtypes",
    "X : Integer range 1 .. 2; begin null;": "ranges",
    "N : constant := 5; begin null;": "named numbers",
    "N : constant Integer := 5; A : array (1 .. N) of Integer; begin null;": "names in the bounds",
    "A : array (1 .. 2) of Integer := (1, 2); begin null;": "initial values of arrays",
    "A : array (1 .. 2, 1 .. 2) of Integer; begin null;": "arrays of two dimensions",
    "A : array (1 .. 2) of array (1 .. 2) of Integer; begin null;": "arrays of arrays",
    "function F return Integer is begin return 1; end F; begin null;": "functions but those of protected objects",
    "package P is end P; begin null;": "packages",
    "pragma Inline; begin null;": "pragmas",
    "procedure P; procedure P is begin null; end P; begin null;": "a procedure declared apart",
    "procedure P (X : Integer := 1) is begin null; end P; begin null;": "default values",
    "task type T (N : Integer); task body T is begin null; end T; begin null;": "discriminants",
    "task T is entry E (1 .. 2); end T; begin null;": "families of entries",
    "protected type P is procedure Q; end P; begin null;": "types of protected objects",
    "X : access Integer; begin null;": "access types",
    "X : String (1 .. 2); begin null;": None,
    "X : Float; begin null;": "the type Float",
    "X : Integer := 1; begin case X is when others => null; end case;": "`case`",
    "A : array (1 .. 2) of Integer; begin for X of A loop null; end loop;": "`for .. of`",
    "A : array (1 .. 2) of Integer; begin for I in A'Range loop null; end loop;": "A'Range",
    "begin for I in Boolean loop null; end loop;": "ranges by a name",
    "X : Integer := 2; begin X := X ** 2;": "powers",
    "X : Integer := 2; begin if X in 1 .. 3 then null; end if;": "membership tests",
    "X : Integer := 2; begin X := (if X > 1 then 2 else 3);": "conditional expressions",
    "X : Integer := 2; begin X := Integer'(3);": "qualified expressions",
    "X : Integer := 2; begin X := Integer (X);": "conversions",
    "X : Integer := 16#FF#; begin null;": "numbers with a base",
    "X : Integer := 1E3; begin null;": "numbers with an exponent",
    "A : array (1 .. 4) of Integer; begin A (1 .. 2) := A (3 .. 4);": "slices",
    "procedure P (X : Integer) is begin null; end P; begin P (X => 1);": "arguments by name",
    "begin delay until Clock;": "`delay until`",
    "begin select delay 1.0; then abort null; end select;": None,
    "begin goto L; <<L>> null;": "labels and goto",
    "begin raise Program_Error with \"why\";": "messages with raise",
    "begin null; exception when E : others => null;": "names for occurrences",
    "protected P is function F return Integer; end P; "
    "protected body P is function F return Integer is begin return 1; end F; end P; begin if P.F = 1 then null; end if;":
        "functions within expressions",
}


class Hints(Case):
    def fault_of(self, source):
        if source.fault:
            return source.fault
        try:
            self.link.ask(source.request)
        except Refused as refused:
            return Fault(refused.code, *(refused.place or (None, None)), refused.words)
        return None

    def setUp(self):
        self.link = self.place().connect()
        self.addCleanup(self.link.close)

    def test_mistakes(self):
        told = []
        for path in sorted(glob.glob(os.path.join(MISTAKES, "*.adb"))):
            source = Source.read(path)
            fault = self.fault_of(source)
            hint = hints.find(source, fault) or "none"
            told.append(f"{os.path.basename(path)[:-4]}\n    {fault.code} {fault.line}:{fault.column}\n    {hint}\n")
        self.assertEqual(len(told), 29)
        with open(os.path.join(MISTAKES, "hints.txt"), encoding="utf-8") as file:
            self.assertEqual("".join(told), file.read())

    def test_left_out(self):
        for text, words in LEFT_OUT.items():
            with self.subTest(text):
                source = Source.of_text(f"procedure M is {text} end M;\n")
                hint = hints.find(source, self.fault_of(source)) or ""
                self.assertTrue(words is None or hint.startswith("not in this subset of Ada (docs/LANGUAGE.md, section ") and words in hint, hint)

    def test_sections(self):
        """The sections that hints name are those of the document."""
        path = os.path.join(HERE, "..", "..", "docs", "LANGUAGE.md")
        with open(path, encoding="utf-8") as file:
            text = file.read()
        for it in hints.table()["hints"]:
            if "left_out" in it:
                self.assertIn(f"\n## {it['left_out']}. ", text)

    def test_a_right_program_with_a_word_left_out(self):
        """Wherever a token is left out, there is a hint, and no rule of the table breaks."""
        path = os.path.join(HERE, "programs", "buffer.adb")
        source = Source.read(path)
        for it in source.tokens:
            lines = list(source.lines)
            row = lines[it.line - 1]
            lines[it.line - 1] = row[:it.column - 1] + row[it.column - 1 + len(it.text):]
            broken = Source.of_text("\n".join(lines))
            if not self.link.fits([broken.request]):
                self.link.close()
                self.setUp()
            fault = self.fault_of(broken)
            if fault:
                self.assertTrue(hints.find(broken, fault), (it, fault))


class Shown(unittest.TestCase):
    def test_a_caret(self):
        self.assertEqual(hints.pointed("   X = 2;", 4, 6), ["    4 |    X = 2;", "      |      ^"])
        self.assertEqual(hints.pointed("\tX = 2;", 4, 4), ["    4 | \tX = 2;", "      | \t  ^"])

    def test_a_long_line(self):
        text, caret = hints.pointed("a" * 500 + "!" + "b" * 500, 1, 501)
        self.assertEqual(text[caret.index("^")], "!")
        self.assertLess(len(text), 130)

    def test_places(self):
        source = Source.of_text("procedure M is\nbegin\n   null;\n")
        self.assertEqual(hints.told(source, Fault("E21", 4, 1, "syntax")), [
            "line 4, column 1: syntax (E21)", "hint: the text ends too early: the `procedure` of line 1 is not ended"])
        self.assertEqual(hints.told(source, Fault("E22", None, None, "source too long"))[0], "source too long (E22)")

    def test_names(self):
        for one, other, count in (("count", "count", 0), ("cuont", "count", 1), ("coun", "count", 1), ("x", "y", 1), ("", "abc", 3)):
            self.assertEqual(hints.distance(one, other), count)


if __name__ == "__main__":
    unittest.main()
