"""Judges a program by the rules of names and types: all faults, each a place and a code."""
from dataclasses import dataclass, field, replace
from itertools import groupby

from trees import (
    Abort, Accept, Arrays, Assign, Attribute, Block, Call, Delay, Exceptions, Exit, If, Loop, Name, Number, Objects, Offer, Procedure,
    Protected, ProtectedBody, Raise, Requeue, Return, Select, String, Task, TaskBody, Unary,
)

TYPES = {"INTEGER": "number", "NATURAL": "number", "POSITIVE": "number", "BOOLEAN": "truth"}
EXCEPTIONS = ("CONSTRAINT_ERROR", "PROGRAM_ERROR", "STORAGE_ERROR", "TASKING_ERROR")
TEXTS = {"PUT": 1, "PUT_LINE": 1, "NEW_LINE": 0}
OPERANDS = {"and": "truth", "or": "truth", "xor": "truth", "and then": "truth", "or else": "truth", "&": "text"}
GREATEST, DECIMALS = 2**31 - 1, 3


@dataclass(eq=False)
class Known:
    """What a name is: type, variable, constant, array, task, tasks, task type, object, procedure, function, put, entry, exception, or
    barred, as formals are in their barrier. The type of its values, or of a function's result, if it has any; the formals of what is
    called; the declaration of the task or protected object, also that of an entry, an operation or a component; the region of an
    operation's formals, and within the body or the declaration of a unit that of its entries, operations and declarations; the word for
    a function's result."""

    kind: str
    type: str = None
    formals: list = field(default_factory=list)
    unit: object = None
    region: "Region" = None
    result: str = None


class Region:
    """Its names; None is what one stands for while it is being declared. Whether it is an accept's, and whether a task's body's."""

    def __init__(self, outer, of_accept=False, of_task=False):
        self.outer, self.names = outer, {}
        self.of_accept, self.of_task = of_accept, of_task

    def outwards(self):
        region = self
        while region:
            yield region
            region = region.outer

    def nearest(self, name):
        region = self
        while region and name not in region.names:
            region = region.outer
        return region

    def find(self, name):
        region = self.nearest(name)
        return region and region.names[name]


def wrong(known):
    """The code where a name of another kind is asked."""
    return 44 if known and known.kind == "function" else 32


def predefined():
    region = Region(None)
    region.names.update((name, Known("type", of)) for name, of in TYPES.items())
    region.names.update((name, Known("exception")) for name in EXCEPTIONS)
    region.names.update((name, Known("put")) for name in TEXTS)
    region.names.update((name, Known("constant", "truth")) for name in ("FALSE", "TRUE"))
    return region


@dataclass
class Within:
    """What is around a statement: its names; the task whose body this is, if no procedure is between, and the entries that are being
    accepted; the protected objects within whose bodies it is, and those within whose functions; the loops and blocks, innermost last,
    with their labels; whether it may return, and the function from which it returns; whether it is handled here; the formals of the
    accept or entry body whose call a requeue makes again, if it may, and the object of that body."""

    region: Region
    unit: Task = None
    accepting: tuple = ()
    bodies: tuple = ()
    functions: tuple = ()
    around: tuple = ()
    returns: bool = False
    function: Known = None
    handles: bool = False
    requeues: tuple = None

    def body(self, region, **others):
        """Of a procedure, an operation or a unit that is declared here."""
        return Within(region, bodies=self.bodies, functions=self.functions, **others)


def faults(program, tokens):
    check = Check()
    for token in tokens:
        if token.kind == "number":
            check.number(token)
    check.unless(program.name not in TYPES and program.name not in EXCEPTIONS, 31, program.name.place)
    check.procedure(program, Within(Region(predefined())))
    return check.found


class Check:
    def __init__(self):
        self.found = []
        self.regions = {}  # of the operations and components of each protected object

    def fault(self, code, place):
        self.found.append((place, code))

    def unless(self, right, code, place):
        if not right:
            self.fault(code, place)

    def number(self, token):
        whole, _, decimals = token.text.replace("_", "").partition(".")
        self.unless(int(whole) <= GREATEST, 45, token.place)
        self.unless(len(decimals) <= DECIMALS, 46, token.place)

    # Declarations.

    def begin(self, region, names):
        for name in names:
            self.unless(name not in region.names, 31, name.place)
            region.names[name] = None

    def part(self, declarations, within):
        tasks, objects = {}, {}
        for declaration in declarations:
            if isinstance(declaration, Task):
                self.await_body(tasks, declaration, self.task, within)
            elif isinstance(declaration, Protected):
                self.await_body(objects, declaration, self.protected, within)
            elif isinstance(declaration, TaskBody):
                self.task_body(declaration, self.declared(tasks, declaration.name, Task(declaration.name, False, [])), within)
            elif isinstance(declaration, ProtectedBody):
                self.protected_body(declaration, self.declared(objects, declaration.name, Protected(declaration.name, [])), within)
            else:
                self.declaration(declaration, within)
        for name in [*tasks, *objects]:
            self.fault(37, name.place)

    def await_body(self, units, declaration, declare, within):
        """Of two declarations of one name the second is illegal (RM 8.3(26)), so that a body completes the first (RM 3.11.1)."""
        is_first = declaration.name not in within.region.names
        known = declare(declaration, within)
        if is_first:
            units[declaration.name] = known

    def declared(self, units, name, nothing):
        """That of this name, which has its body now."""
        self.unless(name in units, 37, name.place)
        return units.pop(name, None) or Known("task", unit=nothing, region=Region(None))

    def declaration(self, declaration, within):
        if isinstance(declaration, Procedure):
            self.procedure(declaration, within)
            return
        region = within.region
        self.begin(region, declaration.names)
        if isinstance(declaration, Exceptions):
            region.names.update((name, Known("exception")) for name in declaration.names)
            return
        known = self.known_of(declaration, within)
        region.names.update((name, known) for name in declaration.names)

    def component(self, objects, protected, within):
        self.begin(within.region, objects.names)
        of = self.type_named(objects.subtype, within)
        if objects.value:
            self.has_type(objects.value, of, within)
        within.region.names.update((name, Known("variable", of, unit=protected)) for name in objects.names)

    def type_named(self, name, within):
        """None where it is none, which is a fault."""
        known = self.visible(name, within)
        self.unless(not known or known.kind == "type", wrong(known), name.place)
        return known.type if known and known.kind == "type" else None

    def known_of(self, declaration, within):
        is_array = isinstance(declaration, Arrays)
        of = self.visible(declaration.subtype, within)
        may_be_task = is_array or not declaration.is_constant and not declaration.value
        self.unless(not of or of.kind == "type" or of.kind == "task type" and may_be_task, wrong(of), declaration.subtype.place)
        if of and of.kind == "task type":
            return Known("tasks" if is_array else "task", unit=of.unit)
        of = of.type if of and of.kind == "type" else None
        if is_array:
            return Known("array", of)
        if declaration.value:
            self.has_type(declaration.value, of, within)
        return Known("constant" if declaration.is_constant else "variable", of)

    def formals(self, formals, region):
        """In a region of their own; those of one subtype are declared together."""
        for _, together in groupby(formals, lambda formal: formal.subtype.place):
            together = list(together)
            self.begin(region, [formal.name for formal in together])
            of = self.type_named(together[0].subtype, Within(region))
            kind = "constant" if together[0].mode == "in" else "variable"
            region.names.update((formal.name, Known(kind, of)) for formal in together)

    def procedure(self, procedure, within):
        region = Region(within.region)
        self.formals(procedure.formals, region)
        self.begin(within.region, [procedure.name])
        within.region.names[procedure.name] = Known("procedure", formals=procedure.formals)
        self.body(procedure.body, within.body(region, returns=True), procedure.name)

    def task(self, task, within):
        self.begin(within.region, [task.name])
        known = within.region.names[task.name] = Known("task type" if task.is_type else "task", unit=task)
        region = Region(within.region)
        for entry in task.entries:
            formals = Region(region)
            self.formals(entry.formals, formals)
            self.begin(region, [entry.name])
            region.names[entry.name] = Known("entry", formals=entry.formals, unit=task, region=formals)
        self.closes(task, task.name)
        known.region = region
        return known

    def task_body(self, task_body, known, within):
        outer = Region(within.region)
        region = Region(outer, of_task=True)
        region.names.update(known.region.names if known.region else {})
        outer.names[task_body.name] = Known("task", unit=known.unit, region=region)
        self.body(task_body.body, within.body(region, unit=known.unit), task_body.name)

    def protected(self, protected, within):
        self.begin(within.region, [protected.name])
        region = self.regions[protected] = Region(within.region)
        known = within.region.names[protected.name] = Known("object", unit=protected, region=region)
        inside = replace(within, region=region, unit=None)
        for item in protected.items:
            if isinstance(item, Objects):
                self.component(item, protected, inside)
            else:
                operation = self.operation(item, protected, region)
                self.begin(region, [item.name])
                region.names[item.name] = operation
        self.closes(protected, protected.name)
        within.region.names[protected.name] = Known("object", unit=protected)
        return known

    def operation(self, operation, protected, region):
        formals = Region(region)
        self.formals(operation.formals, formals)
        of = self.type_named(operation.result, Within(formals)) if operation.result else None
        return Known(operation.kind, of, operation.formals, protected, formals, operation.result)

    def protected_body(self, body, known, within):
        outer = Region(within.region)
        region = Region(outer)
        region.names.update(self.regions.setdefault(known.unit, Region(None)).names)
        outer.names[body.name] = Known("object", unit=known.unit, region=region)
        inside = replace(within, region=region, bodies=(*within.bodies, known.unit))
        bodiless = known.unit.operations()
        for operation in body.operations:
            declared = next((it for it in bodiless if (it.kind, it.name) == (operation.kind, operation.name)), None)
            self.unless(declared, 37, operation.name.place)
            self.operation_body(operation, declared and region.names[declared.name], known.unit, inside)
            bodiless = [it for it in bodiless if it is not declared]
        for operation in bodiless:
            self.fault(37, operation.name.place)
        self.closes(body, body.name)

    def operation_body(self, operation, declared, protected, within):
        known = self.operation(operation, protected, within.region)
        self.unless(not declared or self.conform(declared, known), 39, operation.name.place)
        region = Region(within.region)
        if operation.barrier:
            region.names.update((formal.name, Known("barred")) for formal in operation.formals)
            self.has_type(operation.barrier, "truth", within.body(region))
        region.names.update(known.region.names)
        is_function = operation.kind == "function"
        functions = within.functions + ((protected,) if is_function else ())
        requeues = (operation.formals, protected) if operation.kind == "entry" else None
        inside = replace(within.body(region, returns=True, function=known if is_function else None, requeues=requeues), functions=functions)
        self.body(operation.body, inside, operation.name)

    def closes(self, construct, name):
        self.unless(construct.closing in (None, name), 36, construct.closing and construct.closing.place)

    def closes_labelled(self, construct, label):
        if label != construct.closing:
            self.fault(36, construct.closing.place if construct.closing else construct.semicolon)

    def body(self, body, within, name=None):
        self.part(body.declarations, within)
        self.statements(body.statements, within)
        self.handlers(body.handlers, within)
        if name:
            self.closes(body, name)

    def handlers(self, handlers, within):
        chosen = set()
        for number, (choices, statements) in enumerate(handlers, 1):
            for choice in choices:
                if not choice:
                    self.unless(number == len(handlers), 43, choice.place)
                    continue
                known = self.visible(choice, within)
                self.unless(not known or known.kind == "exception", wrong(known), choice.place)
                self.unless(not known or known not in chosen, 43, choice.place)
                chosen.add(known)
            self.statements(statements, replace(within, handles=True))

    # Statements.

    def statements(self, statements, within):
        for statement in statements:
            self.statement(statement, within)

    def statement(self, statement, within):
        if isinstance(statement, Assign):
            of = self.variable(statement.target, within)
            self.has_type(statement.value, of, within, True)
        elif isinstance(statement, If):
            for condition, statements, _ in statement.arms:
                self.has_type(condition, "truth", within)
                self.statements(statements, within)
            self.statements(statement.otherwise, within)
        elif isinstance(statement, Loop):
            self.loop(statement, within)
        elif isinstance(statement, Block):
            self.closes_labelled(statement.body, statement.label)
            self.body(statement.body, replace(within, region=Region(within.region), around=within.around + (("block", statement.label),)))
        elif isinstance(statement, Exit):
            self.exit(statement, within)
        elif isinstance(statement, Return):
            self.unless(within.returns and bool(statement.value) == bool(within.function), 41, statement.place)
            if statement.value:
                self.has_type(statement.value, within.function and within.function.type, within)
        elif isinstance(statement, Raise):
            self.raises(statement, within)
        elif isinstance(statement, Call):
            self.call(statement.name, within)
        else:
            self.tasking(statement, within)

    def tasking(self, statement, within):
        if isinstance(statement, Delay):
            self.delay(statement, within)
        elif isinstance(statement, Abort):
            for name in statement.names:
                self.aborted(name, within)
        elif isinstance(statement, Requeue):
            self.requeue(statement, within)
        elif isinstance(statement, Accept):
            self.accept(statement, within)
        elif isinstance(statement, Select):
            for alternative in statement.alternatives:
                if alternative.guard:
                    self.has_type(alternative.guard, "truth", within)
                self.tasking(alternative.waits, within)
                self.statements(alternative.statements, within)
            self.statements(statement.otherwise or [], within)
        elif isinstance(statement, Offer):
            self.call(statement.name, within, True)
            self.statements(statement.statements, within)
            if statement.delay:
                self.delay(statement.delay, within)
            self.statements(statement.otherwise, within)

    def loop(self, loop, within):
        region = Region(within.region)
        if loop.condition:
            self.has_type(loop.condition, "truth", within)
        if loop.over:
            region.names[loop.over.parameter] = None
            for bound in (loop.over.low, loop.over.high):
                self.has_type(bound, "number", replace(within, region=region))
            region.names[loop.over.parameter] = Known("constant", "number")
        self.statements(loop.statements, replace(within, region=region, around=within.around + (("loop", loop.label),)))
        self.closes_labelled(loop, loop.label)

    def exit(self, statement, within):
        around = [kind for kind, label in within.around if (label == statement.label if statement.label else kind == "loop")]
        self.unless(around and around[-1] == "loop", 40, statement.place)
        if statement.condition:
            self.has_type(statement.condition, "truth", within)

    def raises(self, statement, within):
        if not statement.name:
            self.unless(within.handles, 42, statement.place)
            return
        known = self.visible(statement.name, within)
        self.unless(not known or known.kind == "exception", wrong(known), statement.name.place)

    def delay(self, delay, within):
        if delay.seconds:
            known = within.region.find(delay.duration)
            self.unless(not known, wrong(known), delay.duration.place)
            self.has_type(delay.seconds, "number", within)

    def aborted(self, name, within):
        known = self.resolved(name, within)
        if known and self.has_index(known, name, within):
            self.is_task(known, name)

    def accept(self, accept, within):
        known = self.visible(accept.name, within)
        region = Region(within.region, of_accept=True)
        self.formals(accept.formals, region)
        if known and known.kind == "entry":
            self.unless(known.unit is within.unit and accept.name not in within.accepting, 38, accept.name.place)
            self.unless(self.conform(known, Known("accept", formals=accept.formals, region=region)), 39, accept.name.place)
        elif known:
            self.fault(wrong(known), accept.name.place)
        if accept.body:
            accepting, requeues = (*within.accepting, accept.name), (accept.formals, None)
            inside = replace(within, region=region, accepting=accepting, around=(), returns=True, function=None, requeues=requeues)
            self.body(accept.body, inside, accept.name)

    def requeue(self, statement, within):
        name = statement.name
        self.unless(within.requeues, 50, statement.place)
        known = self.resolved(name, within)
        if not known or not self.has_index(known, name, within):
            return
        if known.kind in ("procedure", "function", "put"):
            self.fault(49, name.name.place)
        elif known.kind != "entry":
            self.fault(32, name.name.place)
        else:
            self.unless(not name.arguments, 34, name.name.place)
            if within.requeues:
                self.target(known, name, *within.requeues, within)

    def target(self, entry, name, formals, protected, within):
        """The entry has no formals or those of the accept or body, but for their names (RM 9.5.4(3)); it is of the body's own object; and
        what it belongs to is declared within no accept around, nor, where an accept makes its call again on an object, within a task."""
        place, given = name.name.place, [(formal.mode, formal.subtype) for formal in formals]
        self.unless(not entry.formals or [(formal.mode, formal.subtype) for formal in entry.formals] == given, 39, place)
        self.unless(not protected or entry.unit is protected, 51, place)
        around = list(within.region.nearest([*name.prefix, name][0].name).outwards())
        is_to_object = not protected and isinstance(entry.unit, Protected)
        is_inside = any(region.of_accept or is_to_object and region.of_task for region in around)
        self.unless(not is_inside, 52, place)

    def conform(self, known, other):
        """A formal or a result of a faulty subtype agrees with any."""

        def agree(one, two):
            is_known = known.region.names[one.name].type and other.region.names[two.name].type
            return (one.name, one.mode) == (two.name, two.mode) and (not is_known or one.subtype == two.subtype)

        is_result_same = known.result == other.result or not (known.type and other.type)
        return is_result_same and len(known.formals) == len(other.formals) and all(map(agree, known.formals, other.formals))

    def call(self, name, within, is_offer=False):
        known = self.resolved(name, within)
        if not known:
            return
        if not self.has_index(known, name, within):
            return
        if known.kind not in ("procedure", "put", "entry"):
            self.fault(wrong(known), name.name.place)
            return
        self.unless(known.kind == "entry" or not is_offer, 49, name.name.place)
        self.unless(not known.unit or known.unit not in within.functions, 47, name.name.place)
        self.arguments(known, name, within)

    def arguments(self, known, name, within):
        """Whether they are right."""
        if (TEXTS[name.name] if known.kind == "put" else len(known.formals)) != len(name.arguments):
            self.fault(34, name.name.place)
            return False
        if known.kind == "put":
            return all([self.has_type(text, "text", within) for text in name.arguments])
        return all([self.argument(formal, argument, within) for formal, argument in zip(known.formals, name.arguments)])

    def argument(self, formal, argument, within):
        """Whether it is right; where its type is not known, too."""
        before = len(self.found)
        of = TYPES.get(formal.subtype)
        if formal.mode == "in":
            self.has_type(argument, of, within)
        elif isinstance(argument, Name) and not argument.is_parenthesized:
            given = self.variable(argument, within)
            self.unless(not given or given == of, 33, argument.first)
        elif self.has_type(argument, of, within):
            self.fault(35, argument.first)
        return len(self.found) == before

    # Names.

    def visible(self, name, within):
        known = within.region.find(name)
        self.unless(known, 30, name.place)
        if known and known.kind == "barred":
            self.fault(48, name.place)
            return None
        return known

    def resolved(self, name, within):
        """What it names, without its arguments; nothing where that is a fault."""
        if not name.prefix:
            return self.visible(name.name, within)
        before = name.prefix[0]
        if before.name == "ADA" and not within.region.nearest("ADA"):
            return self.of_library(name)
        known = self.visible(before.name, within)
        if not known or not self.has_index(known, before, within):
            return None
        if known.kind == "object" and not before.arguments:
            return self.of_object(known, name, within)
        return self.of_task(known, name) if self.is_task(known, before) else None

    def is_task(self, known, name):
        is_right = known.kind == ("tasks" if name.arguments else "task")
        self.unless(is_right, wrong(known), name.name.place)
        return is_right

    def of_library(self, name):
        library, unit, *behind = [*name.prefix, name]
        if unit.name != "TEXT_IO" or library.arguments or unit.arguments or not behind:
            self.fault(30, library.name.place)
        elif behind[0].name not in TEXTS:
            self.fault(30, behind[0].name.place)
        elif behind[0] is not name:
            self.fault(32, behind[0].name.place)
        else:
            return Known("put")
        return None

    def of_task(self, task, name):
        """An entry, behind the first point."""
        behind = [*name.prefix[1:], name][0]
        entry = next((entry for entry in task.unit.entries if entry.name == behind.name), None)
        if entry and behind is name:
            return Known("entry", formals=entry.formals, unit=task.unit if task.region else None)
        is_own = task.region and task.region.names.get(behind.name)
        self.fault(32 if entry or is_own else 30, behind.name.place)
        return None

    def of_object(self, known, name, within):
        """An operation, behind the first point; from outside the object one that is not private."""
        behind = [*name.prefix[1:], name][0]
        seen = behind.name in [operation.name for operation in known.unit.items[: known.unit.visible]]
        named = self.regions[known.unit].names.get(behind.name) if known.region or seen else None
        if named and behind is name and named.kind in ("entry", "procedure", "function"):
            return named
        is_hidden = not named or named.kind == "variable" and known.unit not in within.bodies
        self.fault(30 if is_hidden else wrong(named), behind.name.place)
        return None

    def has_index(self, known, name, within):
        """Whether its index is right, where it is an element."""
        return known.kind not in ("array", "tasks") or not name.arguments or self.element(known, name, within)

    def element(self, known, name, within):
        """Whether its index is right."""
        if len(name.arguments) != 1:
            self.fault(34, name.name.place)
            return False
        return self.has_type(name.arguments[0], "number", within)

    def variable(self, name, within):
        """The type of a target."""
        known = self.resolved(name, within)
        if not known:
            return None
        if known.kind == "constant" and not name.arguments:
            self.fault(35, name.first)
        if known.kind == "variable" and known.unit and known.unit in within.functions:
            self.fault(47, name.name.place)
        return self.value(known, name, within)

    def value(self, known, name, within):
        """The type of a name's value."""
        if known.kind == "array" and name.arguments:
            return known.type if self.element(known, name, within) else None
        if known.kind in ("variable", "constant") and not name.arguments:
            return known.type
        self.fault(wrong(known), name.name.place)
        return None

    # Expressions.

    def has_type(self, expression, wanted, within, is_assigned=False):
        """Whether it has, where this is asked and no fault in it."""
        given = self.assigned(expression, within) if is_assigned else self.type(expression, within)
        self.unless(not given or not wanted or given == wanted, 33, expression.first)
        return given and (not wanted or given == wanted)

    def assigned(self, expression, within):
        """The type of the right side of an assignment, which may be the call of a function."""
        known = None
        if isinstance(expression, Name) and not expression.is_parenthesized:
            known = self.resolved(expression, within)
            if not known or known.kind != "function":
                return known and self.value(known, expression, within)
            return known.type if self.arguments(known, expression, within) else None
        return self.type(expression, within)

    def type(self, expression, within):
        """None where it has a fault."""
        if isinstance(expression, Number):
            return "number" if expression.value <= GREATEST else None
        if isinstance(expression, String):
            return "text"
        if isinstance(expression, Name):
            known = self.resolved(expression, within)
            return known and self.value(known, expression, within)
        if isinstance(expression, Attribute):
            return self.attribute(expression, within)
        if isinstance(expression, Unary):
            wanted = "truth" if expression.operator == "not" else "number"
            return wanted if self.has_type(expression.operand, wanted, within) else None
        return self.binary(expression, within)

    def binary(self, expression, within):
        operator = expression.operator
        if operator in ("=", "/=", "<", "<=", ">", ">="):
            left = self.type(expression.left, within)
            self.unless(left != "text", 33, expression.left.first)
            left = None if left == "text" else left
            return "truth" if self.has_type(expression.right, left, within) and left else None
        wanted = OPERANDS.get(operator, "number")
        left = self.has_type(expression.left, wanted, within)
        return wanted if self.has_type(expression.right, wanted, within) and left else None

    def attribute(self, attribute, within):
        name, word = attribute.name, attribute.word
        known = self.resolved(name, within)
        if not known:
            return None
        if known.kind == "function":
            self.fault(44, name.name.place)
            return None
        if word == "COUNT" and known.kind == "entry" and not name.arguments:
            self.unless(known.unit and (known.unit is within.unit or known.unit in within.bodies), 38, name.name.place)
            return self.without_argument(attribute, "number")
        if word == "IMAGE":
            return self.image(attribute, known, within)
        kind = self.kind_of(known, name, within)
        if word in ("FIRST", "LAST", "LENGTH", "CALLABLE", "TERMINATED", "COUNT"):
            if kind not in self.having(word):
                self.unless(not kind, 32, name.name.place)
                return None
            return self.without_argument(attribute, "truth" if kind == "task" else "number")
        self.fault(32, word.place)
        return None

    def having(self, word):
        return {"CALLABLE": ("task",), "TERMINATED": ("task",), "LENGTH": ("array",), "COUNT": ()}.get(word, ("array", "number"))

    def kind_of(self, known, name, within):
        """Of what stands before an attribute; nothing where it has a fault of its own."""
        if name.arguments:
            if known.kind in ("array", "tasks"):
                is_right = self.element(known, name, within)
                return ("task" if known.kind == "tasks" else "element") if is_right else None
            return "other"
        return {"array": "array", "tasks": "array", "task": "task", "type": known.type}.get(known.kind, "other")

    def without_argument(self, attribute, given):
        self.unless(not attribute.argument, 34, attribute.word.place)
        return None if attribute.argument else given

    def image(self, attribute, known, within):
        name, argument = attribute.name, attribute.argument
        if known.kind == "type" and not name.arguments:
            if not argument:
                self.fault(34, attribute.word.place)
            return "text" if argument and self.has_type(argument, known.type, within) else None
        if not self.value(known, name, within):
            return None
        return self.without_argument(attribute, "text")
