"""Reads a program of the language, or tells the place at which it is none."""
from tokens import Fault, Token, tokens, word
from trees import (
    Abort, Accept, Alternative, Arrays, Assign, Attribute, Binary, Block, Body, Call, Delay, Entry, Exceptions, Exit, Formal, If, Loop,
    Name, Null, Number, Objects, Offer, Operation, Procedure, Protected, ProtectedBody, Raise, Range, Requeue, Return, Select, String,
    Task, TaskBody, Terminate, Unary,
)

LEVELS = 200
STATEMENTS = "null if abort accept delay select while for loop declare begin exit return raise requeue".split()


class Reader:
    def __init__(self, source):
        self.tokens = list(tokens(source))
        self.at, self.level = 0, 0

    def next(self, ahead=0):
        return self.tokens[self.at + ahead]

    def stands(self, *marks, ahead=0):
        token = self.next(ahead)
        return token.kind == "mark" and token.text in marks

    def has(self, mark):
        if not self.stands(mark):
            return False
        self.at += 1
        return True

    def wrong(self):
        return Fault(21, self.next().place)

    def take(self, mark):
        if not self.has(mark):
            raise self.wrong()

    def line_of(self, mark):
        self.take(mark)
        return self.tokens[self.at - 1].place[0]

    def placed(self, read):
        place = self.next().place
        found = read()
        found.place = place
        return found

    def opened(self):
        """A level, by the next token."""
        if self.level == LEVELS:
            raise Fault(23, self.next().place)
        self.level += 1

    def open_parenthesis(self):
        if not self.stands("("):
            raise self.wrong()
        self.opened()
        self.at += 1

    def has_parenthesis(self):
        if not self.stands("("):
            return False
        self.open_parenthesis()
        return True

    def close_parenthesis(self):
        self.take(")")
        self.level -= 1

    def is_name(self, *words):
        return self.next().kind == "name" and (not words or self.next().text in words)

    def take_name(self, *words):
        if not self.is_name(*words):
            raise self.wrong()
        self.at += 1
        return word(self.tokens[self.at - 1])

    def ends(self, construct):
        """The name behind an `end`, and the semicolon."""
        construct.closing, construct.semicolon = self.name_if(), self.next().place
        self.take(";")
        return construct

    def name_if(self):
        return self.take_name() if self.is_name() else None

    def program(self):
        while self.has("with") or self.has("use"):
            self.take_name("ADA")
            self.take(".")
            self.take_name("TEXT_IO")
            self.take(";")
        self.take("procedure")
        program = Procedure(self.take_name(), [], self.behind_is())
        if self.next().kind != "end":
            raise self.wrong()
        return program

    def procedure(self):
        self.take("procedure")
        return Procedure(self.take_name(), self.formals_if(), self.behind_is())

    def behind_is(self):
        self.take("is")
        return self.part_and_body()

    def part_and_body(self):
        declarations = self.part()
        bodies = {it.name: it for it in declarations if isinstance(it, TaskBody)}
        for it in declarations:
            if isinstance(it, Task):
                it.body = bodies.get(it.name)
        return self.ends(self.body(declarations))

    def part(self):
        if not self.is_name() and not self.stands("procedure", "task", "protected"):
            return []
        self.opened()
        declarations = []
        while not self.stands("begin"):
            declarations.append(self.placed(self.declaration))
        self.level -= 1
        return declarations

    def body(self, declarations, word="begin"):
        begin = self.line_of(word)
        statements, handlers = self.statements(), self.handlers()
        return Body(declarations, statements, handlers, begin, self.line_of("end"))

    def handlers(self):
        handlers = []
        if self.has("exception"):
            handlers.append(self.handler())
            while self.stands("when"):
                handlers.append(self.handler())
        return handlers

    def handler(self):
        self.take("when")
        choices = [self.others() if self.stands("others") else self.take_name()]
        while choices[-1] and self.has("|"):
            choices.append(self.take_name())
        self.take("=>")
        return choices, self.statements()

    def others(self):
        place = self.next().place
        self.take("others")
        return word(Token("name", "", place))

    def names(self):
        names = [self.take_name()]
        while self.has(","):
            names.append(self.take_name())
        return names

    def formals_if(self):
        formals = []
        if not self.has_parenthesis():
            return formals
        while True:
            names = self.names()
            self.take(":")
            mode = " ".join(word for word in ("in", "out") if self.has(word)) or "in"
            subtype = self.take_name()
            formals += [Formal(name, mode, subtype) for name in names]
            if not self.has(";"):
                self.close_parenthesis()
                return formals

    def declaration(self):
        if self.stands("procedure"):
            return self.procedure()
        if self.has("task"):
            return self.task()
        if self.has("protected"):
            return self.protected()
        names = self.names()
        self.take(":")
        if self.has("exception"):
            self.take(";")
            return Exceptions(names)
        if self.has("array"):
            return self.arrays(names)
        return self.objects(names, self.has("constant"))

    def objects(self, names, is_constant):
        subtype, value = self.take_name(), None
        if is_constant or self.stands(":="):
            self.take(":=")
            value = self.expression()
        self.take(";")
        return Objects(names, subtype, value, is_constant)

    def task(self):
        if self.has("body"):
            name = self.take_name()
            return TaskBody(name, self.behind_is())
        is_type = self.has("type")
        task = Task(self.take_name(), is_type, [])
        if not self.has("is"):
            self.take(";")
            return task
        while self.has("entry"):
            task.entries.append(self.entry())
        self.take("end")
        return self.ends(task)

    def entry(self):
        entry = Entry(self.take_name(), self.formals_if())
        self.take(";")
        return entry

    def protected(self):
        if self.has("body"):
            return self.protected_body()
        protected = Protected(self.take_name(), [])
        self.take("is")
        protected.items += self.operations()
        protected.visible = len(protected.items)
        if self.has("private"):
            while self.is_name() or self.stands("entry", "procedure", "function"):
                protected.items += [self.placed(self.component)] if self.is_name() else self.operations()
        self.take("end")
        return self.ends(protected)

    def component(self):
        names = self.names()
        self.take(":")
        return self.objects(names, False)

    def operations(self):
        operations = []
        while self.stands("entry", "procedure", "function"):
            operations.append(self.operation())
            self.take(";")
        return operations

    def operation(self):
        operation = Operation(self.take_any(), self.take_name(), self.formals_if())
        if operation.kind == "function":
            self.take("return")
            operation.result = self.take_name()
        return operation

    def protected_body(self):
        protected_body = ProtectedBody(self.take_name(), [])
        self.take("is")
        while self.stands("entry", "procedure", "function"):
            operation = self.operation()
            if operation.kind == "entry":
                self.take("when")
                operation.barrier = self.expression()
            operation.body = self.behind_is()
            protected_body.operations.append(operation)
        self.take("end")
        return self.ends(protected_body)

    def arrays(self, names):
        self.open_parenthesis()
        low = self.bound()
        self.take("..")
        high = self.bound()
        self.close_parenthesis()
        self.take("of")
        subtype = self.take_name()
        self.take(";")
        return Arrays(names, low, high, subtype)

    def bound(self):
        sign = -1 if self.has("-") else 1
        return sign * self.number()

    def number(self):
        if self.next().kind != "number" or "." in self.next().text:
            raise self.wrong()
        self.at += 1
        return int(self.tokens[self.at - 1].text.replace("_", ""))

    def has_statement(self):
        return self.is_name() or self.stands(*STATEMENTS)

    def statements(self):
        if not self.has_statement():
            raise self.wrong()
        self.opened()
        statements = []
        while self.has_statement():
            statements.append(self.placed(self.statement))
        self.level -= 1
        return statements

    def statements_if(self):
        return self.statements() if self.has_statement() else []

    def statement(self):
        if self.stands("if"):
            return self.if_statement()
        if self.stands("select"):
            return self.select()
        if self.stands("accept"):
            return self.accept()
        label = None
        if self.is_name() and self.stands(":", ahead=1):
            label = self.take_name()
            self.take(":")
        if self.stands("while", "for", "loop"):
            return self.loop(label)
        if self.has("declare"):
            return Block(self.part_and_body(), label)
        if label or self.stands("begin"):
            return Block(self.ends(self.body([])), label)
        statement = self.simple_statement()
        self.take(";")
        return statement

    def simple_statement(self):
        if self.has("null"):
            return Null()
        if self.has("exit"):
            label = self.name_if()
            return Exit(label, self.expression() if self.has("when") else None)
        if self.has("return"):
            return Return(None if self.stands(";") else self.expression())
        if self.has("raise"):
            return Raise(self.name_if())
        if self.has("delay"):
            return self.duration()
        if self.has("abort"):
            return self.abort()
        if self.has("requeue"):
            return self.requeue()
        name = self.name()
        return Assign(name, self.expression()) if self.has(":=") else Call(name)

    def abort(self):
        names = [self.name()]
        while self.has(","):
            names.append(self.name())
        return Abort(names)

    def requeue(self):
        name, with_abort = self.name(), self.has("with")
        if with_abort:
            self.take("abort")
        return Requeue(name, with_abort)

    def accept(self):
        self.take("accept")
        accept = Accept(self.take_name(), self.formals_if(), None)
        if self.stands("do"):
            accept.body = self.ends(self.body([], "do"))
        else:
            self.take(";")
        return accept

    def delay(self):
        self.take("delay")
        delay = self.duration()
        self.take(";")
        return delay

    def duration(self):
        if self.next().kind == "number" and "." in self.next().text:
            self.at += 1
            whole, _, decimals = self.tokens[self.at - 1].text.replace("_", "").partition(".")
            return Delay(int(whole + decimals.ljust(3, "0")))
        return Delay(None, self.take_name("DURATION"), self.in_parentheses())

    def select(self):
        self.take("select")
        select = self.offer() if self.is_name() else self.selective_accept()
        self.take("end")
        self.take("select")
        self.take(";")
        return select

    def offer(self):
        name = self.name()
        self.take(";")
        statements = self.statements_if()
        if self.has("or"):
            delay = self.placed(self.delay)
            return Offer(name, statements, delay, self.statements_if())
        self.take("else")
        return Offer(name, statements, None, self.statements())

    def selective_accept(self):
        """Beside its accepts it has a Terminate, or Delays, or an else part, or nothing."""
        alternatives = [self.alternative(None)]
        while True:
            kinds = {type(it.waits) for it in alternatives}
            other = next(iter(kinds - {Accept}), None)
            if Accept in kinds and not self.stands("or"):
                return Select(alternatives, self.statements() if not other and self.has("else") else None)
            self.take("or")
            alternatives.append(self.alternative(other))

    def alternative(self, other):
        guard = None
        if self.has("when"):
            guard = self.expression()
            self.take("=>")
        if not other and self.has("terminate"):
            self.take(";")
            return Alternative(guard, Terminate(), [])
        waits = self.placed(self.delay if other is not Terminate and self.stands("delay") else self.accept)
        return Alternative(guard, waits, self.statements_if())

    def if_statement(self):
        arms = [self.arm("if")]
        while self.stands("elsif"):
            arms.append(self.arm("elsif"))
        otherwise = self.statements() if self.has("else") else []
        self.take("end")
        self.take("if")
        self.take(";")
        return If(arms, otherwise)

    def arm(self, mark):
        line = self.line_of(mark)
        condition = self.expression()
        self.take("then")
        return condition, self.statements(), line

    def loop(self, label):
        condition = self.expression() if self.has("while") else None
        over = self.range() if self.stands("for") else None
        self.take("loop")
        statements = self.statements()
        self.take("end")
        self.take("loop")
        return self.ends(Loop(label, condition, over, statements))

    def range(self):
        line = self.line_of("for")
        parameter = self.take_name()
        self.take("in")
        backward = self.has("reverse")
        low = self.simple()
        self.take("..")
        return Range(parameter, backward, low, self.simple(), line)

    def name(self):
        parts = [self.part_of_name()]
        while self.has("."):
            parts.append(self.part_of_name())
        name = parts.pop()
        name.prefix = parts
        if parts:
            name.first = parts[0].first
        return name

    def part_of_name(self):
        word, arguments = self.take_name(), []
        if self.has_parenthesis():
            arguments.append(self.expression())
            while self.has(","):
                arguments.append(self.expression())
            self.close_parenthesis()
        name = Name(word, arguments)
        name.first = word.place
        return name

    def from_left(self, operator, left, right):
        binary = Binary(operator, left, right)
        binary.first = left.first
        return binary

    def take_any(self):
        self.at += 1
        return self.tokens[self.at - 1].text

    def chain(self, marks, operand):
        left = operand()
        while self.stands(*marks):
            left = self.from_left(self.take_any(), left, operand())
        return left

    def expression(self):
        """All its connectives are the same."""
        left, first = self.relation(), None
        while self.stands(first.split()[0]) if first else self.stands("and", "or", "xor"):
            operator = self.take_any()
            second = {"and": "then", "or": "else"}.get(operator)
            if first and " " in first:
                self.take(second)
            elif not first and second and self.has(second):
                operator = f"{operator} {second}"
            first = first or operator
            left = self.from_left(first, left, self.relation())
        return left

    def relation(self):
        left = self.simple()
        if self.stands("=", "/=", "<", "<=", ">", ">="):
            return self.from_left(self.take_any(), left, self.simple())
        return left

    def simple(self):
        place, sign = self.next().place, None
        if self.stands("-", "+"):
            sign = self.take_any()
        left = self.term()
        if sign:
            left = Unary(sign, left)
            left.first = place
        while self.stands("+", "-", "&"):
            left = self.from_left(self.take_any(), left, self.term())
        return left

    def term(self):
        return self.chain(("*", "/", "mod", "rem"), self.factor)

    def factor(self):
        place = self.next().place
        if not self.stands("abs", "not"):
            return self.primary()
        unary = Unary(self.take_any(), self.primary())
        unary.first = place
        return unary

    def primary(self):
        place = self.next().place
        if self.next().kind == "number":
            found = Number(self.number())
        elif self.next().kind == "string":
            self.at += 1
            found = String(self.tokens[self.at - 1].text[1:-1].replace('""', '"'))
        elif self.stands("("):
            found = self.in_parentheses()
            found.is_parenthesized = True
        else:
            found = self.attribute_if(self.name())
        found.first = place
        return found

    def in_parentheses(self):
        self.open_parenthesis()
        expression = self.expression()
        self.close_parenthesis()
        return expression

    def attribute_if(self, name):
        if not self.has("'"):
            return name
        return Attribute(name, self.take_name(), self.in_parentheses() if self.stands("(") else None)
