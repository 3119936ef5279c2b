"""Compares `aud --solo` with GNAT on programs made by chance.

Whole programs are compiled and run by both: the same text must be put out, and both or neither end by
an exception, of the same name. Programs with a change made by chance are only checked: both or neither
must refuse them. tools/check calls it with the program, the first seed and how many seeds to take.

GNAT 12 drops a `for` loop, and the exception with it, whose statements begin with an unconditional `raise`
of Constraint_Error, Program_Error or Storage_Error; so here each begins with a line of output.
"""
import random
import re
import subprocess
import sys
import tempfile
from dataclasses import dataclass

LINE = 1_000  # bytes that a line of a changed program may have; aud takes 1,024
SOURCE = 32_768  # bytes of the largest source text
CHANGES = 4  # changed programs for each program
COUNTERS = 8  # variables that count loops, and so the most loops of a program that are no `for` loops
FRESH = 24  # the most blocks and `for` loops of a program

WORDS = set(
    "abs and array begin constant declare else elsif end exception exit for if in is loop mod not null of or others out"
    " procedure raise rem return reverse then use when while with xor".split()
)
TOKEN = re.compile(r'"(?:[^"]|"")*"|:=|/=|<=|>=|=>|\.\.|[A-Za-z]\w*|\d+|[^\s\w]|\n')
PREDEFINED = ["Constraint_Error", "Program_Error", "Storage_Error", "Tasking_Error"]

# What GNAT takes and docs/LANGUAGE.md leaves out, and variables of which GNAT wants that they are not two arguments of a call, in a
# text with a space between tokens. Arrays are called A.., exceptions E.., labels L.., the main procedure M.., others Q..
DEPARTURES = re.compile(
    r"\bwhen \w+ :(?! =)"  # the name of an occurrence
    r"|\bwhen (?:\w+ \| )*(\w+) (?:\| \w+ )*\| \1 "  # a choice twice in one handler
    r"|\b(?:[AELM]\d+|Ada|Text_IO|\w+_Error) ' Image"  # Image of what is no scalar object
    r"|\barray \( (?!-? ?\d+ \.\. -? ?\d+ \))"  # bounds that are no numbers
    r"|\bL\d+ (?:,|in|: (?!loop|while|for|declare|begin))"  # a label's name declared beside it
    r"|\bprocedure (\w+) [^;]*?: (?:in |out )*\2\b"  # a procedure's name in its formals means what is further out
    r"|(?s:\bprocedure (\w+)\b.*\bprocedure \3\b)"  # procedures of one name stand beside each other
    r"|\bprocedure (?:Put|Put_Line|New_Line|True|False)\b"
    r"|\bQ\d+ \((?:[^;]*,)? (\w+) (?:\([^;]*\) )?,(?:[^;]*,)? \4 [,()]"  # a variable as two arguments
)


@dataclass
class Array:
    """What is known of an array: the subtype of its elements and its bounds."""

    of: str
    low: int
    high: int


class Writer:
    """Writes a program that both know how to compile: no expression of literals alone, and every loop ends."""

    def __init__(self, seed):
        self.by = random.Random(seed)
        self.counters = [f"K{number}" for number in range(COUNTERS)]
        self.loops = 0
        self.fresh = 0
        self.labels = []
        self.handling = False
        self.formals = {}  # those of each procedure above, behind that of its depth: names, modes and subtypes
        self.within = False  # whether this is a procedure within the main one
        self.seen = {}  # what each visible name is: a subtype, "number", "truth", "exception" or an Array

    def pick(self, *choices):
        return self.by.choice(choices)

    def named(self, *kinds):
        return [name for name, kind in self.seen.items() if kind in kinds]

    @property
    def numbers(self):
        return self.named("Integer", "Natural", "Positive")

    def arrays(self, *subtypes):
        """Arrays of some subtypes, seldom empty ones."""
        empty = self.by.random() < 0.05
        arrays = [(name, it) for name, it in self.seen.items() if isinstance(it, Array)]
        return [name for name, it in arrays if it.of in subtypes and (empty or it.low <= it.high)]

    def element(self, name):
        it = self.seen[name]
        if it.low <= it.high and self.by.random() < 0.9:
            return f"{name} ({self.plain()} mod {name}'Length + {name}'First)"
        return f"{name} ({self.pick(self.plain() + ' mod 5', self.plain(), str(self.by.randrange(9)))})"

    def plain(self):
        return self.by.choice(self.numbers + self.counters + self.named("number"))

    def number(self):
        arrays = self.arrays("Integer", "Natural", "Positive")
        if arrays and self.by.random() < 0.15:
            return self.element(self.by.choice(arrays))
        return self.plain()

    def known_truth(self):
        arrays = self.arrays("Boolean")
        if arrays and self.by.random() < 0.15:
            return self.element(self.by.choice(arrays))
        return self.by.choice(self.named("Boolean", "truth") or ["True"])

    def literal(self):
        return str(self.pick(0, 1, 2, 3, 7, 10, 46_341, 65_536, 2_147_483_647, self.by.randrange(2_147_483_647)))

    def primary(self, depth):
        return self.number() if depth <= 0 or self.by.random() < 0.6 else f"({self.simple(depth - 1)})"

    def factor(self, depth):
        return self.pick(*[""] * 9, "abs ") + self.primary(depth)

    def term(self, depth):
        text = self.factor(depth)
        while self.by.random() < 0.3:
            operator = self.pick("*", "/", "mod", "rem")
            right = self.pick("2", "3", "7", "10") if self.by.random() < 0.6 else self.factor(depth)
            text += f" {operator} {right}"
        return text

    def simple(self, depth):
        """Any simple expression; its value may be out of range."""
        text = self.pick("", "", "", "-", "+") + self.term(depth)
        while self.by.random() < 0.4:
            text += f" {self.pick('+', '-')} {self.pick(self.literal(), self.term(depth))}"
        return text

    def small(self):
        """An expression with a small value, so that programs do not all end at once."""
        return self.pick(
            f"{self.number()} mod {self.pick(2, 3, 7, 10, 100)}",
            f"{self.number()} rem {self.pick(2, 3, 7, 10, 100)}",
            f"{self.number()} / {self.pick(2, 3, 1_000)}",
            f"({self.number()} mod 100) {self.pick('+', '-', '*')} ({self.number()} mod 100)",
            f"-{self.number()} mod {self.pick(5, 9)}",
            f"abs ({self.number()} rem 50) - {self.by.randrange(60)}",
        )

    def relation(self, depth):
        operator = self.pick("=", "/=", "<", "<=", ">", ">=")
        if self.by.random() < 0.2:
            return f"({self.boolean(depth - 1)}) {operator} ({self.boolean(depth - 1)})"
        if self.by.random() < 0.8:
            return f"{self.small()} {operator} {self.small()}"
        return f"{self.simple(depth - 1)} {operator} {self.simple(depth - 1)}"

    def truth(self, depth):
        if depth <= 0 or self.by.random() < 0.35:
            return self.known_truth()
        return self.pick(
            f"not {self.known_truth()}",
            f"not ({self.boolean(depth - 1)})",
            self.pick("True", "False"),
            self.relation(depth),
            self.relation(depth),
            f"({self.boolean(depth - 1)})",
        )

    def boolean(self, depth):
        if depth <= 0 or self.by.random() < 0.4:
            return self.truth(depth)
        operator = self.pick("and", "or", "xor", "and then", "or else")
        return f" {operator} ".join(self.truth(depth - 1) for _ in range(self.pick(2, 2, 3)))

    def text(self):
        pieces = (
            lambda: f'"{self.pick("a", "b c", chr(34) * 2, "=")}"',
            lambda: f"{self.number()}'Image",
            lambda: f"Integer'Image ({self.small()})",
            lambda: f"{self.known_truth()}'Image",
            lambda: f"Boolean'Image ({self.boolean(2)})",
            lambda: f"Integer'Image ({self.attribute()})",
        )
        return " & ".join(self.pick(*pieces)() for _ in range(self.pick(1, 2, 3)))

    def attribute(self):
        prefix = self.by.choice([name for name, it in self.seen.items() if isinstance(it, Array)] + ["Natural", "Positive"])
        return f"{prefix}'{self.pick('First', 'Last', 'Length' if self.seen.get(prefix) else 'First')}"

    def statements(self, depth, count):
        return "\n".join(self.statement(depth) for _ in range(count))

    def statement(self, depth):
        simple = [self.assignment] * 6 + [self.decision] * 2 + [self.output] * 4 + [self.leaving] * 2 + [self.raising, lambda: "null;"]
        simple += [self.returning] if self.within else [self.call] * 2
        deep = [self.choice_of, self.loop, self.counted, self.block] * 2
        if depth > 0 and self.by.random() < 0.4:
            return self.pick(*deep)(depth)
        return self.pick(*simple)()

    def value_of(self, subtype):
        """A value for a variable of a subtype, mostly within it."""
        if subtype == "Boolean":
            return self.boolean(2)
        value = self.small() if self.by.random() < 0.85 else self.simple(2)
        return f"abs ({value}) + 1" if subtype != "Integer" and self.by.random() < 0.85 else value

    def assignment(self):
        arrays = self.arrays("Integer", "Natural", "Positive")
        if arrays and self.by.random() < 0.3:
            name = self.by.choice(arrays)
            return f"{self.element(name)} := {self.value_of(self.seen[name].of)};"
        if not self.numbers:
            return "null;"
        target = self.by.choice(self.numbers)
        return f"{target} := {self.value_of(self.seen[target])};"

    def decision(self):
        targets = self.named("Boolean") + self.arrays("Boolean")
        if not targets:
            return "null;"
        target = self.by.choice(targets)
        place = self.element(target) if isinstance(self.seen[target], Array) else target
        return f"{place} := {self.boolean(3)};"

    def raising(self):
        """A `raise`, mostly of what may not happen."""
        again = self.handling and self.by.random() < 0.4
        statement = "raise;" if again else f"raise {self.by.choice(self.named('exception') * 2 + PREDEFINED)};"
        return statement if self.by.random() < 0.2 else f"if {self.boolean(2)} then\n{statement}\nend if;"

    def output(self):
        before = self.pick("", "", "", "Ada.Text_IO.")
        return before + self.pick(f"Put_Line ({self.text()});", f"Put ({self.text()});", "New_Line;")

    def leaving(self):
        if not self.labels:
            return "null;"
        label = self.by.choice(self.labels + [""])
        when = f" when {self.boolean(2)}" if self.by.random() < 0.85 else ""
        return f"exit{label}{when};"

    def returning(self):
        return f"if {self.boolean(2)} then\nreturn;\nend if;"

    def call(self, depth=None):
        """A call of a visible procedure, in which no variable is given twice to be changed."""
        if not self.formals:
            return "null;"
        name, taken = self.by.choice(list(self.formals)), []
        arguments = [depth or str(self.pick(0, 1, 2))]
        for _, mode, subtype in self.formals[name]:
            if mode in ("", "in "):
                arguments.append(self.value_of(subtype))
                continue
            subtypes = ["Boolean"] if subtype == "Boolean" else ["Integer", "Natural", "Positive"]
            targets = [it for it in self.named(*subtypes) + self.arrays(*subtypes) if it not in taken]
            if not targets:
                return "null;"
            taken.append(self.by.choice(targets))
            arguments.append(self.element(taken[-1]) if isinstance(self.seen[taken[-1]], Array) else taken[-1])
        return f"{name} ({', '.join(arguments)});"

    def calling_itself(self, name, formals, depth):
        """A call in the procedure of this name, of itself, as long as its depth is not 0."""
        above, self.formals = self.formals, {name: formals}
        call = self.call(f"{depth} - 1")
        self.formals = above
        return f"if {depth} > 0 then\n{call}\nend if;\n"

    def procedure(self, number, level=0):
        """A procedure, whose formals that are given back have a value before anything can fail."""
        name, depth = f"Q{number}{level}", f"H{number}{level}"
        kinds = ("Integer", "Integer", "Natural", "Positive", "Boolean")
        modes = ("", "in ", "out ", "in out ", "in out ")
        formals = [(f"G{number}{level}{at}", self.pick(*modes), self.pick(*kinds)) for at in range(self.pick(0, 1, 2, 3))]
        kept = dict(self.seen), dict(self.formals), self.labels, self.within
        self.labels, self.within = [], True
        self.seen[depth] = "number"
        for formal, mode, subtype in formals:
            constant = "truth" if subtype == "Boolean" else "number"
            self.seen[formal] = constant if mode in ("", "in ") else subtype
        head = "; ".join([f"{depth} : Integer"] + [f"{formal} : {mode}{subtype}" for formal, mode, subtype in formals])
        first = "".join(f"{it[0]} := {'True' if it[2] == 'Boolean' else '1'};\n" for it in formals if it[1] == "out ")
        declared, fills = self.declarations() if self.by.random() < 0.5 else ("", "")
        inner = self.procedure(number, level + 1) if level < 2 and self.by.random() < 0.3 else ""
        calls = self.calling_itself(name, formals, depth) + (self.call() + "\n" if self.by.random() < 0.5 else "")
        body = first + fills + self.statements(2, self.pick(1, 2, 3)) + "\n" + calls + self.statements(1, self.pick(1, 2))
        handlers = self.handlers(1) if self.by.random() < 0.5 else ""
        self.seen, self.formals, self.labels, self.within = kept
        self.formals[name] = formals
        return f"procedure {name} ({head}) is\n{declared}\n{inner}begin\n{body}\n{handlers}end {name};\n"

    def choice_of(self, depth):
        def part():
            return self.statements(depth - 1, self.pick(1, 2))

        text = f"if {self.boolean(3)} then\n{part()}\n"
        for _ in range(self.pick(0, 0, 1, 2)):
            text += f"elsif {self.boolean(3)} then\n{part()}\n"
        if self.by.random() < 0.5:
            text += f"else\n{part()}\n"
        return text + "end if;"

    def loop(self, depth):
        if self.loops == COUNTERS:
            return "null;"
        counter, name = self.counters[self.loops], self.pick("", f" L{self.loops}")
        self.loops += 1
        self.labels.append(name)
        body = self.statements(depth - 1, self.pick(2, 3, 4))
        self.labels.pop()
        times = self.pick(1, 2, 3, 4)
        label = f"{name[1:]} : " if name else ""
        if self.by.random() < 0.6:
            head = f"while {counter} < {times} and then (({self.boolean(1)}) or else {counter} < {times}) loop"
            first = f"{counter} := {counter} + 1;"
        else:
            head = "loop"
            first = f"{counter} := {counter} + 1;\nexit when {counter} > {times};"
        return f"{counter} := 0;\n{label}{head}\n{first}\n{body}\nend loop{name};"

    def name(self, letter, taken=()):
        """A new name, or that of what is visible and then hidden."""
        hidden = [it for it in self.seen if it[0] == letter or (letter in "IBF" and it[0] in "IJNPBCDF")]
        hidden = [it for it in hidden if it not in taken]
        if hidden and self.by.random() < 0.3:
            return self.by.choice(hidden)
        self.fresh += 1
        return f"{letter}{20 + self.fresh}"

    def declaration(self, taken):
        """A declaration, of what is not yet in the region; the name is hidden within it."""
        letter = self.pick("I", "B", "A", "E")
        name = self.name(letter, taken)
        taken.append(name)
        self.seen.pop(name, None)
        if letter == "A":
            return name, self.array()
        if letter == "E":
            return name, ("exception", "exception")
        kind = "Boolean" if letter == "B" else self.pick("Integer", "Natural", "Positive")
        if self.by.random() < 0.3:
            text = f"constant {kind} := {self.value_of(kind)}"
            return name, ("truth" if letter == "B" else "number", text)
        return name, (kind, f"{kind} := {self.value_of(kind)}")

    def array(self):
        low, high = self.pick((1, 3), (0, 5), (-2, 2), (1, 0), (7, 7), (2_147_483_645, 2_147_483_647))
        kind = Array(self.pick("Integer", "Natural", "Positive", "Boolean"), low, high)
        return kind, f"array ({kind.low} .. {kind.high}) of {kind.of}"

    def filled(self, name, kind):
        """A loop that gives each element of an array its first value."""
        value = {"Boolean": "Z mod 2 = 0", "Integer": "Z mod 7 - 3"}.get(kind.of, "Z mod 5 + 1")
        return f"for Z in {name}'First .. {name}'Last loop\n{name} (Z) := {value};\nend loop;\n"

    def declarations(self):
        """Declarations, and the statements that fill their arrays; arrays have no values before these."""
        lines, fills, arrays, taken = [], "", {}, []
        for _ in range(self.pick(1, 2, 3)):
            name, (kind, text) = self.declaration(taken)
            lines.append(f"{name} : {text};")
            if isinstance(kind, Array):
                arrays[name] = kind
                fills += self.filled(name, kind)
            else:
                self.seen[name] = kind
        self.seen.update(arrays)
        return "\n".join(lines), fills

    def handlers(self, depth):
        """Handlers of a body, each of which tells that it was there."""
        names = self.named("exception") + PREDEFINED
        self.by.shuffle(names)
        text, before, self.handling = "exception\n", self.handling, True
        for number in range(self.pick(0, 1, 1, 2)):
            chosen, names = names[: self.pick(1, 1, 2)], names[2:]
            if chosen:
                text += f"when {' | '.join(chosen)} =>\n{self.handled(depth, number)}\n"
        if text == "exception\n" or self.by.random() < 0.6:
            text += f"when others =>\n{self.handled(depth, 'others')}\n"
        self.handling = before
        return text

    def handled(self, depth, number):
        told = f'Put_Line ("handler {number}" & {self.plain()}\'Image);\n'
        return told + self.statements(depth - 1, self.pick(0, 1, 2))

    def block(self, depth):
        if self.fresh >= FRESH:
            return "null;"
        self.fresh += 1
        name, outer = self.pick("", f" L{20 + self.fresh}"), dict(self.seen)
        declared, fills = self.declarations() if self.by.random() < 0.6 else ("", "")
        body = fills + self.statements(depth - 1, self.pick(1, 2, 3))
        handlers = self.handlers(depth) if self.by.random() < 0.7 else ""
        self.seen = outer
        label = f"{name[1:]} : " if name else ""
        head = f"declare\n{declared}\nbegin" if declared else self.pick("begin", "declare begin")
        return f"{label}{head}\n{body}\n{handlers}end{name};"

    def bounds(self):
        """Bounds with few values between them, or none, which may raise an exception."""
        arrays = [name for name, it in self.seen.items() if isinstance(it, Array)]
        first = f"{self.by.choice(arrays)}'First" if arrays else "1"
        return self.pick(
            f"{self.by.randrange(4)} .. {self.by.randrange(5)}",
            f"{first} .. {first[:-5]}Last" if arrays else "1 .. 2",
            f"{self.number()} mod 3 .. {self.number()} mod 5",
            f"{self.plain()} rem 3 - 2 .. {self.plain()} mod 3",
            f"abs ({self.plain()} mod 3) / ({self.plain()} mod 4) .. 3",
            "Integer'Last - 1 .. Integer'Last",
        )

    def counted(self, depth):
        if self.fresh >= FRESH:
            return "null;"
        parameter, outer = self.name("F"), dict(self.seen)
        self.fresh += 1
        name = self.pick("", f" L{20 + self.fresh}")
        self.seen.pop(parameter, None)
        head = f"for {parameter} in {self.pick('', '', 'reverse ')}{self.bounds()} loop"
        self.seen[parameter] = "number"
        self.labels.append(name)
        body = self.statements(depth - 1, self.pick(1, 2, 3))
        self.labels.pop()
        self.seen = outer
        label = f"{name[1:]} : " if name else ""
        return f"{label}{head}\nPut ({parameter}'Image);\n{body}\nend loop{name};"

    def main_declarations(self):
        lines = [f"I0 : Integer := {self.by.randrange(1_000)};", f"B0 : Boolean := {self.pick('True', 'False')};"]
        self.seen = {"I0": "Integer", "B0": "Boolean"}
        lines += [f"{counter} : Integer := 0;" for counter in self.counters]
        for number in range(1, self.pick(2, 3, 4)):
            value = self.small() if self.by.random() < 0.9 else self.simple(2)
            lines.append(f"I{number}, J{number} : Integer := {value};")
            self.seen |= {f"I{number}": "Integer", f"J{number}": "Integer"}
        lines.append(f"N0 : Natural := abs ({self.small()});")
        lines.append(f"P0 : Positive := abs ({self.small()}) + 1;")
        lines.append(f"C0 : constant Integer := {self.small()};")
        lines.append(f"D0 : constant Boolean := {self.boolean(2)};")
        lines.append(f"B1 : Boolean := {self.boolean(2)};")
        lines.append("E0, E1 : exception;")
        self.seen |= {"N0": "Natural", "P0": "Positive", "C0": "number", "D0": "truth", "B1": "Boolean"}
        self.seen |= {"E0": "exception", "E1": "exception"}
        kind, text = self.array()
        lines.append(f"A0 : {text};")
        self.seen["A0"] = kind
        return "\n".join(lines), self.filled("A0", kind)

    def told(self):
        """Lines that tell all variables; the elements of A0 in a loop of their own."""
        told = "".join(f"Put_Line (\"{it}\" & {it}'Image);\n" for it in self.numbers + self.named("Boolean", "truth"))
        return told + "for Z in A0'First .. A0'Last loop\nPut_Line (A0 (Z)'Image);\nend loop;\n"

    def program(self, name):
        declared, fills = self.main_declarations()
        declared += "\n" + "".join(self.procedure(number) for number in range(self.pick(0, 1, 2, 3)))
        body = self.statements(3, self.pick(6, 9, 12))
        handlers = self.handlers(2) if self.by.random() < 0.5 else ""
        return (
            "with Ada.Text_IO; use Ada.Text_IO;\n"
            f"procedure {name} is\n{declared}begin\n{fills}{body}\n{self.told()}{handlers}end {name};\n"
        )


def changed(text, by):
    """The program with a token gone, doubled, exchanged, or another one in its place."""
    tokens = TOKEN.findall(text)
    inside = [at for at in range(tokens.index("is") + 1, len(tokens)) if tokens[at] != "\n"]
    named = [at for at in inside if tokens[at][0].isalpha() and tokens[at].lower() not in WORDS]
    at, how = by.choice(inside), by.random()
    if how < 0.45:
        others = sorted({tokens[it] for it in named}) + ["Zz", "Boolean", "Positive", "Put", "True"]
        tokens[by.choice(named)] = by.choice(others)
    elif how < 0.6:
        del tokens[at]
    elif how < 0.7:
        tokens.insert(at, tokens[at])
    elif how < 0.85:
        tokens[at] = by.choice(';()+=\'.,:1') if by.random() < 0.8 else by.choice(["and", "not", '"s"', "mod", "then"])
    else:
        other = by.choice(inside)
        tokens[at], tokens[other] = tokens[other], tokens[at]
    return "".join(token if token == "\n" else f" {token}" for token in tokens)


def answers(program, text, requests):
    session = f"LOAD {text.count(chr(10))}\n{text}{requests}"
    return subprocess.run([program, "--solo"], input=session.encode(), capture_output=True, check=True).stdout


def exception_in(told, pattern):
    """The name of the exception that ended a program, or nothing."""
    found = re.search(pattern, told)
    return found.group(1).split(b".")[-1].upper() if found else b""


def by_aud(program, text):
    """What the program puts out, and the exception that ended it; None where it did not end."""
    told = answers(program, text, "RUN 100000\nRUN 100000\nOUTPUT\n")
    before, found, rest = told.partition(b"\nbytes ")
    if not found or b"ended" not in before:
        return told, None
    count, _, output = rest.partition(b"\n")
    return output[: int(count)], exception_in(before, rb"main raised (\w+)")


def by_gnat(folder, name, text):
    with open(f"{folder}/{name.lower()}.adb", "w") as file:
        file.write(text)
    build = ["gnatmake", "-q", "-gnat2022", "-gnato11", "-gnatws", f"{name.lower()}.adb"]
    made = subprocess.run(build, cwd=folder, capture_output=True)
    if made.returncode != 0:
        return made.stderr, None
    done = subprocess.run([f"{folder}/{name.lower()}"], capture_output=True, timeout=60)
    return done.stdout, exception_in(done.stderr, rb"raised ([\w.]+)")


def is_refused_by_gnat(folder, name, text):
    with open(f"{folder}/{name.lower()}.adb", "w") as file:
        file.write(text)
    check = ["gcc", "-c", "-gnatc", "-gnat2022", "-gnatws", f"{name.lower()}.adb"]
    return subprocess.run(check, cwd=folder, capture_output=True).returncode != 0


def main(program, first, count):
    ran = raised = checked = refused = differ = 0
    with tempfile.TemporaryDirectory() as folder:
        for seed in range(first, first + count):
            name = f"M{seed}"
            text = Writer(seed).program(name)
            (mine, failed), (other, also) = by_aud(program, text), by_gnat(folder, name, text)
            ran += 1
            raised += bool(failed)
            # GNAT ends the last line where the program did not
            if failed is None or failed != also or other not in (mine, mine + b"\n"):
                differ += 1
                print(f"seed {seed}: aud {mine[-60:]!r} {failed}, GNAT {other[-60:]!r} {also}")
            by = random.Random(-seed)
            for number in range(CHANGES):
                other = changed(text, by)
                if len(other) > SOURCE or max(map(len, other.split("\n"))) > LINE:
                    continue
                if DEPARTURES.search(other):
                    continue
                mine = answers(program, other, "").startswith(b"- ")
                checked += 1
                refused += mine
                if mine != is_refused_by_gnat(folder, name, other):
                    differ += 1
                    print(f"seed {seed}, change {number}: {'refused' if mine else 'loaded'} by aud alone")
    print(f"{ran} programs run, {raised} of them ended by an exception; {checked} changed programs, {refused} of them refused; {differ} differ")
    return 1 if differ else 0


if __name__ == "__main__":
    sys.exit(main(sys.argv[1], int(sys.argv[2]), int(sys.argv[3])))
