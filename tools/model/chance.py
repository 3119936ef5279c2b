"""Writes sessions by chance: a program that the checker takes, and requests that run it in pieces and look at it between them, with
choices and a clock that goes on where it has tasks; then programs that differ from it by a word, most of which it refuses."""
import random
import re

from requeues import Requeues

EXCEPTIONS = ["Constraint_Error", "Program_Error", "Storage_Error", "Tasking_Error"]
LONG = 60  # lists of statements behind which those that follow have one statement
LINES = 400
BROKEN = 5  # programs of a session that differ by a word


INDEXES = ("1", "1", "2", "0")


class Writer:
    """What is visible is a list of kinds and names: variable, constant, array, exception, procedure, function, task, tasks, label; entry
    and entries, with the names of the task or protected object, or the array of tasks, and the modes of their formals; accept, an entry
    of the task itself with its formals, where it may be accepted; count, where its Count may stand, and own in a protected body; again, an
    entry on which a call may be made again."""

    def __init__(self, seed, with_tasks, with_objects=False, with_aborts=False, with_requeues=False):
        self.by = random.Random(seed)
        self.with_tasks = with_tasks
        self.with_objects = with_objects
        self.with_aborts = with_aborts
        self.with_requeues = with_requeues
        self.count = 0
        self.size = 0

    def fresh(self, letter):
        self.count += 1
        return f"{letter}{self.count}"

    def pick(self, *choices):
        return self.by.choice(choices)

    def often(self, share):
        return self.by.random() < share

    def named(self, seen, *kinds):
        return [name for kind, name in seen if kind in kinds]

    def without(self, seen, *kinds):
        return [it for it in seen if it[0] not in kinds]

    # Expressions.

    def number(self, seen, depth=2):
        scalars = self.named(seen, "variable", "constant")
        arrays = self.named(seen, "array")
        if depth > 0 and self.often(0.6):
            operator = self.pick("+", "-", "*", "/", "mod", "rem", "+", "-")
            return f"({self.number(seen, depth - 1)} {operator} {self.number(seen, depth - 1)})"
        if arrays and self.often(0.15):
            return f"{self.pick(*arrays)} ({self.pick('0', '1', '2', '3', '4')})"
        return self.pick(*scalars) if scalars and self.often(0.7) else str(self.pick(0, 1, 2, 3, 5, 2_147_483_647))

    def index(self, seen):
        return f" ({self.pick(*INDEXES) if self.often(0.8) else self.number(seen, 1)})"

    def truth(self, seen, depth=1):
        tasks = [(kind, name) for kind, name in seen if kind in ("task", "tasks")]
        kind = self.by.random()
        if tasks and kind < 0.3:
            kind, name = self.pick(*tasks)
            return f"{name}{self.index(seen) if kind == 'tasks' else ''}'{self.pick('Callable', 'Terminated')}"
        counts = self.named(seen, "count", "own")
        if counts and kind < 0.45:
            return f"{self.pick(*counts)}'Count {self.pick('=', '>', '<')} {self.pick(0, 1, 2)}"
        if kind < 0.5 and depth > 0:
            operator = self.pick("and", "or", "xor", "and then", "or else")
            return f"({self.truth(seen, depth - 1)} {operator} {self.truth(seen, depth - 1)})"
        if kind < 0.6:
            return f"not ({self.truth(seen, depth)})"
        return f"({self.number(seen, 1)} {self.pick('=', '/=', '<', '<=', '>', '>=')} {self.number(seen, 1)})"

    # Declarations.

    def part(self, seen, depth):
        lines = []
        for _ in range(self.by.randrange(1, 4)):
            lines += self.declaration(seen, depth)
        return lines

    def declaration(self, seen, depth):
        kind = self.by.random()
        if kind < 0.35:
            return self.variables(seen)
        if kind < 0.4:
            name = self.fresh("A")
            seen.append(("array", name))
            return [f"{name} : array ({self.pick('1 .. 3', '1 .. 2', '0 .. 4', '-1 .. 3', '2 .. 1')}) of {self.pick('Integer', 'Natural')};"]
        if kind < 0.46:
            name = self.fresh("E")
            seen.append(("exception", name))
            return [f"{name} : exception;"]
        if depth <= 0:
            return []
        if self.with_objects and self.often(0.3):
            return self.objects_together(seen)
        if kind < 0.55 or not self.with_tasks:
            return self.procedure(seen, depth)
        return self.single_tasks(seen, depth) if self.often(0.6) else self.task_type(seen, depth)

    def variables(self, seen):
        names = [self.fresh("V") for _ in range(self.pick(1, 1, 1, 2))]
        value = f" := {self.number(seen)}" if self.often(0.4) else f" := {self.pick(0, 1, 2, 3)}" if self.often(0.5) else ""
        seen += [("variable", name) for name in names]
        return [f"{', '.join(names)} : {self.pick('Integer', 'Integer', 'Natural', 'Positive')}{value};"]

    def procedure(self, seen, depth):
        name, inner = self.fresh("P"), self.without(seen, "label", "accept", "count", "again")
        formals, text = self.formals()
        inner += self.seen_within(formals)
        lines = [f"procedure {name}{text} is"] + self.part(inner, depth - 1) + self.body(inner, depth - 1, True, f" {name}")
        seen.append(("procedure", (name, self.modes(formals))))
        return lines

    def formals(self):
        """Names and modes, and their text."""
        formals = [(self.fresh("F"), self.pick("in", "out", "in out")) for _ in range(self.pick(0, 0, 1, 2))]
        subtypes = ("Integer",) if self.with_requeues and self.often(0.9) else ("Integer", "Natural")
        text = "; ".join(f"{formal} : {mode} {self.pick(*subtypes)}" for formal, mode in formals)
        return formals, f" ({text})" if text else ""

    def seen_within(self, formals):
        return [("constant" if mode == "in" else "variable", formal) for formal, mode in formals]

    def modes(self, formals):
        return tuple(mode for _, mode in formals)

    def single_tasks(self, seen, depth):
        """One, or two that see each other."""
        lines, bodies = [], []
        for _ in range(self.pick(1, 1, 2)):
            name, entries = self.fresh("T"), self.entries()
            lines += self.task_head("task", name, entries)
            seen += [("task", name)] + self.seen_outside("entry", name, entries)
            bodies.append((name, entries))
        for name, entries in bodies:
            lines += self.task_body(name, entries, seen, depth)
        return lines

    def entries(self):
        return [(self.fresh("N"), *self.formals()) for _ in range(self.pick(0, 1, 1, 2))]

    def task_head(self, word, name, entries):
        if not entries and self.often(0.7):
            return [f"{word} {name};"]
        return [f"{word} {name} is"] + [f"entry {entry}{text};" for entry, _, text in entries] + [f"end {name};"]

    def seen_outside(self, kind, name, entries):
        return [(kind, (name, entry, self.modes(formals))) for entry, formals, _ in entries]

    def task_type(self, seen, depth):
        name, entries = self.fresh("TT"), self.entries()
        lines = self.task_head("task type", name, entries)
        if self.often(0.3):
            return lines + self.objects(name, entries, seen) + self.task_body(name, entries, seen, depth)
        return lines + self.task_body(name, entries, seen, depth) + self.objects(name, entries, seen)

    def objects(self, task_type, entries, seen):
        lines = []
        for _ in range(self.pick(1, 1, 2)):
            name = self.fresh("O")
            if self.often(0.5):
                lines.append(f"{name} : {task_type};")
                seen += [("task", name)] + self.seen_outside("entry", name, entries)
            else:
                lines.append(f"{name} : array ({self.pick('1 .. 2', '1 .. 3', '1 .. 2', '0 .. 1', '1 .. 0')}) of {task_type};")
                seen += [("tasks", name)] + self.seen_outside("entries", name, entries)
        return lines

    def task_body(self, name, entries, seen, depth):
        inner = [it for it in self.without(seen, "label", "accept", "count", "again") if it != ("task", name)] + [("task", name)]
        for entry, formals, text in entries:
            inner += [("accept", (entry, formals, text)), ("count", entry)]
        part = self.part(inner, depth - 1) if self.often(0.6) else []
        if entries and self.often(0.5):
            return [f"task body {name} is"] + part + ["begin"] + self.server(inner, depth - 1) + [f"end {name};"]
        return [f"task body {name} is"] + part + self.body(inner, depth - 1, False, f" {name}")

    def server(self, seen, depth):
        """A loop of accepts that ends with the program, or before."""
        lines = ["loop"] + self.select(seen, depth, False, False, ["or", "terminate;"])
        return lines + ([f"exit when {self.truth(seen)};"] if self.often(0.3) else []) + ["end loop;"]

    def client(self, seen):
        """A task that calls and calls."""
        name, variable = self.fresh("T"), self.fresh("V")
        inner = seen + [("variable", variable)]
        lines = [f"task {name};", f"task body {name} is", f"{variable} : Integer;", "begin"]
        lines.append(f"for {self.fresh('I')} in 1 .. {self.pick(2, 3, 5)} loop")
        called = [self.entry_call(inner) or self.delay(inner)]
        for _ in range(self.pick(0, 1, 1, 2)):
            called += self.tasking(inner, 1, False, False)
        if self.with_objects:
            called = ["begin"] + called + self.operation_calls(inner, variable) + ["exception", "when others => null;", "end;"]
        if self.with_aborts and self.often(0.3):
            called.append(self.abort(inner))
        return lines + called + ["end loop;", f"end {name};"]

    def killer(self, seen):
        """A task that aborts others, sooner or later."""
        name, lines = self.fresh("T"), []
        for _ in range(self.pick(1, 1, 2, 3)):
            delay = self.delay(self.without(seen, "variable"))
            waits = self.pick([], [delay], [delay] + ["null;"] * self.pick(1, 2, 4), ["null;"] * self.pick(2, 5, 10, 20))
            lines += waits + [self.abort(seen + [("task", name)] * self.often(0.1))]
        return [f"task {name};", f"task body {name} is", "begin"] + lines + [f"end {name};"]

    def nest(self, seen):
        """A task in whose block others are declared; there, and behind it, it waits or accepts a call."""
        name, inner, entry = self.fresh("T"), self.without(seen, "label", "accept", "count", "again"), self.fresh("N")
        lines = [f"task {name} is", f"entry {entry};", f"end {name};", f"task body {name} is", "begin", "declare"]
        inner += [("task", name)]
        for _ in range(self.pick(1, 2)):
            lines += self.pick(self.client, self.killer)(inner) if self.often(0.6) else self.single_tasks(inner, 1)
        waits = [self.delay(inner)], [f"accept {entry};"], [f"accept {entry} do", self.delay(inner), f"end {entry};"], ["null;"]
        lines += ["begin"] + self.pick(*waits) + ["end;"] + self.pick(*waits) + [f"end {name};"]
        seen += [("task", name), ("entry", (name, entry, ()))]
        return lines

    def operation_calls(self, seen, variable):
        of_objects = [it for it in seen if it[0] != "procedure" or "." in it[1][0]]
        return [
            self.call(of_objects, [variable]) if self.often(0.7) else self.function_call(seen) or "null;" for _ in range(self.pick(1, 2, 3))
        ]

    # Protected objects.

    def objects_together(self, seen):
        """One, or two that see each other, and sometimes a procedure that calls them and that they may call."""
        lines, declared = [], []
        for _ in range(self.pick(1, 1, 2)):
            name, operations, components = self.fresh("G"), self.operations(), []
            lines += self.object_head(name, operations, components, seen)
            seen += self.operations_outside(name, operations)
            declared.append((name, operations, components))
        if self.often(0.4):
            lines += self.procedure(seen, 1)
        for name, operations, components in declared:
            lines += self.object_body(name, operations, components, seen)
        return lines

    def store(self, seen):
        """An object whose entries wait for what its procedures give, and tasks that call them."""
        name, held = self.fresh("G"), self.fresh("C")
        entries, procedures = [self.fresh("N") for _ in range(self.pick(1, 2, 2))], [self.fresh("Q") for _ in range(self.pick(1, 2))]
        lines = [f"protected {name} is"] + [f"entry {it} (F : out Integer);" for it in entries] + [f"procedure {it};" for it in procedures]
        lines += ["private", f"{held} : Natural;", f"end {name};", f"protected body {name} is"]
        for entry in entries:
            other = f"{self.pick(*entries)}'Count"
            usual = self.pick(f"{held} > 0", f"{held} > 1", f"{held} > 0 and {other} = 0", f"{other} > 1", f"{held} = 1 or {held} > 3")
            barrier = self.pick(f"{held} > 0", usual, usual, f"12 / (3 - {held}) > 4", self.shared(seen))
            lines += [f"entry {entry} (F : out Integer) when {barrier} is", "begin", f"F := {other};"]
            lines += self.pick([], [], [], [f"if {held} = 1 then", "raise Program_Error;", "end if;"])
            lines += [f"{held} := {held} - 1;", f"end {entry};"]
        for procedure in procedures:
            lines.append(f"procedure {procedure} is begin {held} := {held} + {self.pick(1, 1, 2, 3)}; end {procedure};")
        lines.append(f"end {name};")
        seen += [("entry", (name, it, ("out",))) for it in entries] + [("procedure", (f"{name}.{it}", ())) for it in procedures]
        for _ in range(self.pick(2, 3, 4)):
            lines += self.user(name, entries, procedures, seen)
        return lines

    def user(self, name, entries, procedures, seen):
        task, variable, calls = self.fresh("T"), self.fresh("V"), []
        for _ in range(self.pick(1, 2, 3)):
            entry = f"{name}.{self.pick(*entries)} ({variable});"
            waits = ["else"] if self.often(0.3) else ["or", self.delay(self.without(seen, "variable"))]
            offer = ["select", entry] + waits + ["null;", "end select;"]
            calls += self.pick([entry], [entry], offer, [f"{name}.{self.pick(*procedures)};"])
        changed = self.named(seen, "variable")
        calls += [f"{self.pick(*changed)} := {self.pick(0, 1)};"] if changed and self.often(0.3) else []
        lines = [f"task {task};", f"task body {task} is", f"{variable} : Integer;", "begin"]
        lines += [f"for {self.fresh('I')} in 1 .. {self.pick(1, 2, 3)} loop", "begin"] + calls
        return lines + ["exception", "when others => null;", "end;", "end loop;", f"end {task};"]

    def operations(self):
        """Kind, name, formals and their text, and whether others see it."""
        kinds = ["entry"] * self.pick(0, 1, 1, 2, 3) + ["procedure"] * self.pick(1, 1, 2) + ["function"] * self.pick(0, 0, 1, 1)
        self.by.shuffle(kinds)
        letters = {"entry": "N", "procedure": "Q", "function": "K"}
        return [(kind, self.fresh(letters[kind]), *self.formals(), self.often(0.85)) for kind in kinds]

    def heading(self, kind, name, text):
        return f"{kind} {name}{text}" + (" return Integer" if kind == "function" else "")

    def object_head(self, name, operations, components, seen):
        heads = [(is_seen, f"{self.heading(kind, operation, text)};") for kind, operation, _, text, is_seen in operations]
        hidden, inner = [head for is_seen, head in heads if not is_seen], list(seen)
        for _ in range(self.pick(1, 1, 1, 2) if any(kind == "entry" for kind, *_ in operations) else self.pick(0, 1)):
            component = self.fresh("C")
            value = "" if self.often(0.4) else f" := {self.pick(0, 1, 1, 2, self.number(inner, 1))}"
            hidden.append(f"{component} : {self.pick('Integer', 'Integer', 'Natural')}{value};")
            components.append(component)
            inner.append(("variable", component))
        shown = [head for is_seen, head in heads if is_seen]
        return [f"protected {name} is"] + shown + (["private"] + hidden if hidden else []) + [f"end {name};"]

    def operations_outside(self, name, operations):
        found = []
        for kind, operation, formals, _, is_seen in operations:
            if is_seen:
                modes = self.modes(formals)
                found.append(("entry", (name, operation, modes)) if kind == "entry" else (kind, (f"{name}.{operation}", modes)))
        return found

    def object_body(self, name, operations, components, seen):
        others = [it for it in self.without(seen, "label", "accept", "count", "again") if it not in self.operations_outside(name, operations)]
        if self.often(0.7):
            others = self.without(others, "entry", "entries")
        others += [("own", operation) for kind, operation, *_ in operations if kind == "entry"]
        lines = [f"protected body {name} is"]
        for kind, operation, formals, text, _ in self.by.sample(operations, len(operations)):
            is_function = kind == "function"
            inner = others + [("constant" if is_function else "variable", component) for component in components]
            before = operations if self.often(0.05) else operations[: [it[1] for it in operations].index(operation)]
            inner += self.operations_inside(name, before, is_function)
            barrier = f" when {self.barrier(others, components)}" if kind == "entry" else ""
            lines.append(f"{self.heading(kind, operation, text)}{barrier} is")
            inner += self.seen_within(formals)
            if kind == "entry":
                inner += self.targets([(it[1], self.modes(it[2])) for it in operations if it[0] == "entry"], formals)
            lines += self.operation_body(inner, components, kind, operation)
        return lines + [f"end {name};"]

    def operations_inside(self, name, operations, is_function):
        found = []
        for kind, operation, formals, *_ in operations:
            if kind == "entry" and not is_function and self.often(0.1):
                found.append(("entry", (name, operation, self.modes(formals))))
            elif kind == "function" or kind == "procedure" and not is_function:
                found.append((kind, (self.pick(operation, f"{name}.{operation}"), self.modes(formals))))
        return found

    def barrier(self, seen, components):
        counts, component = self.named(seen, "own"), self.pick(*components, "1") if components else "1"
        return self.pick(
            f"{component} > 0", f"{component} > 0", f"{component} > 0", f"{component} > 1", f"{component} mod 2 = 1", f"{component} = 0",
            f"{self.pick(*counts)}'Count {self.pick('>', '>=', '=')} {self.pick(1, 2)}", f"{self.pick(*counts)}'Count = 0", "False",
            f"1 / {component} > 1", f"1 / ({component} - 1) > 1", self.truth(seen), self.shared(seen),
        )

    def shared(self, seen):
        """A barrier over a variable that others change at any time."""
        variables = self.named(seen, "variable")
        return f"{self.pick(*variables)} mod 2 = {self.pick(0, 1)}" if variables else "True"

    def operation_body(self, seen, components, kind, name):
        lines = self.part(seen, 0) if self.often(0.2) else []
        if self.often(0.05):
            task = self.fresh("T")
            lines += [f"task {task};", f"task body {task} is begin null; end {task};"]
        lines.append("begin")
        if kind != "function" and components and self.often(0.8):
            component = self.pick(*components)
            changed = f"{component} - 1" if kind == "entry" else f"{component} + 1"
            lines.append(f"{component} := {changed if self.often(0.6) else self.pick('0', '0', '1', '2')};")
        returns = "value" if kind == "function" else True
        if self.often(0.6):
            lines += self.statements(seen, 1, returns, False)
        if kind == "function" and self.often(0.9):
            lines.append(f"return {self.number(seen, 1)};")
        elif lines[-1] == "begin":
            lines.append("null;")
        return lines + (self.handlers(seen, 1, returns) if self.often(0.2) else []) + [f"end {name};"]

    def function_call(self, seen):
        """None where there is none that can be called, or no variable for its value."""
        functions, variables, arrays = self.named(seen, "function"), self.named(seen, "variable"), self.named(seen, "array")
        if not functions or not variables:
            return None
        name, modes = self.pick(*functions)
        target = f"{self.pick(*arrays)} ({self.number(seen, 1)})" if arrays and self.often(0.2) else self.pick(*variables)
        return f"{target} := {name}{self.arguments(seen, modes, variables)};"

    # Statements.

    def body(self, seen, depth, returns, name="", handling=False):
        lines = ["begin"] + self.statements(seen, depth, returns, handling)
        if self.often(0.35):
            lines += self.handlers(seen, depth, returns)
        return lines + [f"end{name};"]

    def handlers(self, seen, depth, returns):
        left = EXCEPTIONS + self.named(seen, "exception")
        self.by.shuffle(left)
        handlers = [f"{left.pop()} | {left.pop()}" if self.often(0.3) else left.pop() for _ in range(self.pick(0, 1, 1, 2))]
        if not handlers or self.often(0.6):
            handlers.append("others")
        lines = ["exception"]
        for choices in handlers:
            lines += [f"when {choices} =>"] + self.statements(seen, depth, returns, True)
        return lines

    def statements(self, seen, depth, returns, handling):
        self.size += 1
        short = self.size > LONG
        lines = []
        for _ in range(1 if short else self.by.randrange(1, 4)):
            lines += self.statement(seen, 0 if short else depth, returns, handling)
        return lines

    def statement(self, seen, depth, returns, handling):
        kind = self.by.random()
        if self.with_objects and self.often(0.15) and (call := self.function_call(seen)):
            return [call]
        if self.with_aborts and self.often(0.05):
            return [self.delay(seen)] * self.often(0.7) + [self.abort(seen)]
        if self.with_requeues and self.often(0.2) and (targets := self.named(seen, "again")):
            return [f"requeue {self.pick(*targets)}{self.pick('', ' with abort')};"]
        if self.with_tasks and self.often(0.4 if self.named(seen, "entry", "entries") else 0.05):
            return self.tasking(seen, depth, returns, handling)
        if kind < 0.63 or depth <= 0:
            return [self.simple(seen, kind, returns, handling)]
        if kind < 0.73:
            return self.branch(seen, depth, returns, handling)
        if kind < 0.83:
            return self.loop(seen, depth, returns, handling)
        inner = list(seen)
        part = ["declare"] + self.part(inner, depth - 1) if self.often(0.75) else []
        return part + self.body(inner, depth - 1, returns, "", handling)

    def simple(self, seen, kind, returns, handling):
        variables, arrays = self.named(seen, "variable"), self.named(seen, "array")
        if kind < 0.2 and variables:
            return f"{self.pick(*variables)} := {self.number(seen)};"
        if kind < 0.24 and arrays:
            return f"{self.pick(*arrays)} ({self.number(seen, 1)}) := {self.number(seen, 1)};"
        if kind < 0.37:
            return f"Put ({self.text(seen)});"
        if kind < 0.47:
            return self.call(seen, variables)
        if kind < 0.51:
            return "raise;" if handling and self.often(0.4) else f"raise {self.pick('Program_Error', *self.named(seen, 'exception'))};"
        if kind < 0.55 and returns:
            return f"return {self.number(seen, 1)};" if returns == "value" else "return;"
        return "null;"

    def text(self, seen):
        if self.often(0.5):
            return f'"{self.pick(*"abcdefgh")}"'
        return f"Integer'Image ({self.number(seen, 1)})" if self.often(0.7) else f"Boolean'Image ({self.truth(seen)})"

    def call(self, seen, variables):
        procedures = self.named(seen, "procedure")
        if not procedures:
            return "null;"
        name, modes = self.pick(*procedures)
        arguments = self.arguments(seen, modes, variables)
        return "null;" if arguments is None else f"{name}{arguments};"

    def arguments(self, seen, modes, variables):
        """None where a variable is wanted and none is there."""
        if not variables and any(mode != "in" for mode in modes):
            return None
        arguments = [self.number(seen, 1) if mode == "in" else self.pick(*variables) for mode in modes]
        return f" ({', '.join(arguments)})" if arguments else ""

    # Calls of entries, accepts, delays, selects.

    def tasking(self, seen, depth, returns, handling):
        kind = self.by.random()
        accepts = self.named(seen, "accept")
        if accepts and kind < 0.25:
            return self.accept(seen, self.pick(*accepts), depth, handling)
        if accepts and kind < 0.5:
            return self.select(seen, depth, returns, handling, self.last(seen, depth, returns, handling))
        if self.often(0.15):
            return [self.delay(seen)]
        call = self.entry_call(seen)
        return self.offer(call, seen, depth, returns, handling) if call and self.often(0.6) else [call or "null;"]

    def delay(self, seen):
        if self.often(0.8):
            return f"delay {self.pick('0.0', '0.001', '0.250', '0.5', '1.0', '1.0', '2.75')};"
        return f"delay Duration ({self.number(seen, 1)});"

    def entry_call(self, seen):
        calls = [(kind, name) for kind, name in seen if kind in ("entry", "entries")]
        if not calls:
            return None
        kind, (task, entry, modes) = self.pick(*calls)
        arguments = self.arguments(seen, modes, self.named(seen, "variable"))
        return None if arguments is None else f"{task}{self.index(seen) if kind == 'entries' else ''}.{entry}{arguments};"

    def abort(self, seen):
        tasks = [(kind, name) for kind, name in seen if kind in ("task", "tasks")]
        if not tasks:
            return "null;"
        named = [self.pick(*tasks) for _ in range(self.pick(1, 1, 1, 1, 2, 3))]
        return f"abort {', '.join(name + (self.index(seen) if kind == 'tasks' else '') for kind, name in named)};"

    def accept(self, seen, accept, depth, handling):
        entry, formals, text = accept
        head = f"accept {entry}{text}"
        if self.often(0.2):
            return [f"{head};"]
        inner = [it for it in self.without(seen, "label", "again") if it != ("accept", accept)] + self.seen_within(formals)
        named = [(f"{task}{self.index(seen) if kind == 'entries' else ''}.{name}", modes) for kind, task, name, modes in self.entries_seen(seen)]
        own = [(name, self.modes(others)) for name, others, _ in self.named(seen, "accept")]
        inner += self.targets(named + own, formals) if self.with_requeues else []
        lines = [f"{head} do"] + self.statements(inner, depth - 1, True, handling)
        if self.often(0.15):
            lines += self.handlers(inner, depth - 1, True)
        return lines + [f"end {entry};"]

    def entries_seen(self, seen):
        return [(kind, *name) for kind, name in seen if kind in ("entry", "entries")] if self.with_requeues else []

    def targets(self, entries, formals):
        """Those on which a call with these formals may be made again."""
        return [("again", name) for name, modes in entries if modes in ((), self.modes(formals))]

    def select(self, seen, depth, returns, handling, last):
        lines = ["select"]
        for number in range(self.pick(1, 2, 2, 3)):
            lines += ["or"] * (number > 0) + self.guard(seen) + self.accept(seen, self.pick(*self.named(seen, "accept")), depth, handling)
            lines += self.behind(seen, depth, returns, handling)
        return lines + last + ["end select;"]

    def guard(self, seen):
        return [f"when {self.truth(seen)} =>"] if self.often(0.3) else []

    def behind(self, seen, depth, returns, handling):
        return self.statements(seen, depth - 1, returns, handling) if self.often(0.4) else []

    def last(self, seen, depth, returns, handling):
        """Beside the accepts of a select: nothing, an else part, delays, or terminate."""
        kind = self.by.random()
        if kind < 0.2:
            return ["else"] + self.statements(seen, depth - 1, returns, handling)
        if kind < 0.4:
            return ["or"] + self.guard(seen) + ["terminate;"]
        lines = []
        for _ in range(self.pick(1, 1, 2) if kind < 0.8 else 0):
            lines += ["or"] + self.guard(seen) + [self.delay(seen)] + self.behind(seen, depth, returns, handling)
        return lines

    def offer(self, call, seen, depth, returns, handling):
        """A timed or conditional call."""
        lines = ["select", call] + self.behind(seen, depth, returns, handling)
        if self.often(0.4):
            lines += ["else"] + self.statements(seen, depth - 1, returns, handling)
        else:
            lines += ["or", self.delay(seen)] + self.behind(seen, depth, returns, handling)
        return lines + ["end select;"]

    # Statements that hold others.

    def branch(self, seen, depth, returns, handling):
        lines = [f"if {self.truth(seen)} then"] + self.statements(seen, depth - 1, returns, handling)
        if self.often(0.3):
            lines += [f"elsif {self.truth(seen)} then"] + self.statements(seen, depth - 1, returns, handling)
        if self.often(0.5):
            lines += ["else"] + self.statements(seen, depth - 1, returns, handling)
        return lines + ["end if;"]

    def loop(self, seen, depth, returns, handling):
        parameter, label = self.fresh("I"), self.fresh("L") if self.often(0.3) else ""
        inner = seen + [("constant", parameter)] + ([("label", label)] if label else [])
        bounds = self.pick("1 .. 3", "1 .. 2", "0 .. 1", "2 .. 1")
        lines = [f"{label + ' : ' if label else ''}for {parameter} in {self.pick('', '', 'reverse ')}{bounds} loop"]
        lines += self.statements(inner, depth - 1, returns, handling)
        if self.often(0.3):
            name = f" {label}" if label and self.often(0.5) else ""
            lines.append(f"exit{name}{f' when {self.truth(inner)}' if self.often(0.7) else ''};")
        return lines + [f"end loop{' ' + label if label else ''};"]

    def program(self):
        """Its lines: no string has a space, so any space may be a line's end."""
        seen = []
        objects = self.variables(seen) + self.objects_together(seen) if self.with_objects else []
        objects += self.store(seen) if self.with_objects and self.often(0.6) else []
        tasks = self.single_tasks(seen, 3) + self.client(seen) + self.client(seen) if self.with_tasks and self.often(0.7) else []
        for _ in range(self.pick(0, 1, 2, 3) if self.with_objects else 0):
            tasks += self.client(seen)
        parts = self.nest(seen) if self.with_aborts and self.often(0.7) else self.part(seen, 3) + self.part(seen, 3)
        lines = ["procedure M is"] + objects + tasks + parts
        for _ in range(self.pick(1, 1, 2, 3) if self.with_aborts else 0):
            lines += self.killer(seen)
        lines += self.body(seen, 3, True, " M")
        return "".join("\n" if it == " " and self.often(0.03) else it for it in "\n".join(lines)).split("\n")


def deed(by, with_tasks):
    kind = by.random()
    if with_tasks and kind < 0.2:
        return "CHOOSE " + " ".join(str(by.choice([0, 1, 2, 3, 7, 9_999, by.randrange(10)])) for _ in range(by.randrange(1, 40)))
    if kind < 0.5:
        return f"RUN {by.choice([1, 2, 3, by.randrange(1, 30)])}"
    if kind < 0.95:
        return f"STEP {by.choice([0, 0, 0, 0, 0, 1, 1, 2, by.randrange(5), 9_999] if with_tasks else [0, 0, 0, 0, 0, 1])}"
    return by.choice(["RESET", f"ADVANCE {by.choice([0, 1, 250, 1_000_000_000])}"])


def waits(by):
    """Time goes on, so that delays end."""
    return [f"ADVANCE {by.choice([1, 250, 250, 500, 1_000, 2_750])}", "MOVES", f"RUN {by.randrange(1, 200)}"]


def look(by):
    if by.random() < 0.5:
        return f"VARS {by.choice([0, 1, 1, 1, 1, 2, 2, 3, by.randrange(1, 9), 65, 9_999])}"
    return by.choice(["MOVES", "MOVES", "TASKS", "TASKS", "QUEUES", "CLOCK", "OBJECTS", "OBJECTS", "WAITS", "WAITS"])


def interleaved(by):
    """Short runs by many choices, with time that goes on, and what is shown behind each."""
    lines = ["CHOOSE " + " ".join(str(by.randrange(12)) for _ in range(400)), f"RUN {by.randrange(1, 100)}"]
    for _ in range(by.choice([20, 40, 80])):
        lines += [f"ADVANCE {by.choice([1, 250, 1_000])}"] * (by.random() < 0.2)
        lines += [f"RUN {by.choice([1, 1, 2, 3, 5])}", by.choice(["TASKS", "TASKS", "TASKS", "MOVES", "MOVES", "QUEUES", "OBJECTS", "OBJECTS", "WAITS", "WAITS"])]
    return lines


def requests(by, with_tasks, with_aborts):
    """Steps and runs in pieces, choices, and what is shown between them; then the program to its end."""
    lines = interleaved(by) + ["RESET"] * by.randrange(2) if with_aborts else []
    for _ in range(by.randrange(30)):
        lines += waits(by) if with_tasks and by.random() < 0.15 else [deed(by, with_tasks)]
        lines += [look(by) for _ in range(by.randrange(4))]
    if with_tasks:
        lines += ["RUN 5000", "OBJECTS", "WAITS", *waits(by), "QUEUES", *waits(by), "QUEUES", "ADVANCE 1000000000"]
    return lines + ["RUN 20000", "MOVES", "TASKS", "OBJECTS", "WAITS", "VARS 1", "VARS 2", "OUTPUT", "CLOCK"] + (["CHOOSE 0"] if with_tasks else [])


def misplaced(program, by):
    """It with one of its statements once more behind another `begin`."""
    begins = [place for place, line in enumerate(program, 1) if line == "begin"]
    statements = [line for line in program if re.fullmatch(r"[A-Z]\w*(\.\w+)?( \(.*\))?( := .*)?;", line)]
    place = by.choice(begins)
    return program[:place] + [by.choice(statements or ["return;"])] + program[place:]


def broken(program, by):
    """It with a name exchanged for another one, or with any word or sign left out, doubled, or exchanged."""
    parts = re.findall(r"\s+|\w+|[^\w\s]", "\n".join(program))
    form = by.choice([r"[A-Z]\w*", r"[A-Z]\w*|\d+", r"\S+"])
    places = [place for place, part in enumerate(parts) if re.fullmatch(form, part)]
    place, other = by.choice(places), by.choice(places)
    changed = [parts[other]] if form != r"\S+" else ["", f"{parts[place]} {parts[place]}", parts[other], f"{parts[other]} {parts[place]}"]
    parts[place] = by.choice(changed)
    return "".join(parts).split("\n")


def load(program):
    return [f"LOAD {len(program)}"] + program


def session(seed, with_tasks, with_objects=False, with_aborts=False, with_requeues=False):
    """The lines that are sent."""
    if with_requeues and seed % 4:
        by = random.Random(seed)
        return load(Requeues(by).program()) + requests(by, with_tasks, with_aborts) + ["QUIT"]
    program = Writer(seed, with_tasks, with_objects, with_aborts, with_requeues).program()
    while len(program) > LINES or any(len(line) > 1_000 for line in program):
        seed += 1_000_003
        program = Writer(seed, with_tasks, with_objects, with_aborts, with_requeues).program()
    by = random.Random(seed)
    lines = load(program) + requests(by, with_tasks, with_aborts)
    for number in range(3 * BROKEN if with_objects else BROKEN):
        lines += load(broken(program, by) if number < BROKEN else misplaced(program, by)) + ["RUN 100", "TASKS"]
    return lines + ["QUIT"]
