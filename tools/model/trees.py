"""What a program is made of."""
from dataclasses import dataclass, field


class Placed:
    """A declaration or a statement, with the place of its first token."""

    place = None

    @property
    def line(self):
        return self.place[0]


class Expression:
    """With the place of its first token, and whether this is a parenthesis."""

    first, is_parenthesized = None, False


@dataclass
class Number(Expression):
    value: int


@dataclass
class String(Expression):
    value: str


@dataclass
class Name(Expression):
    """With its arguments or index, if it has any, and the names before its points: of a task or protected object, or `Ada.Text_IO`."""

    name: str
    arguments: list = field(default_factory=list)
    prefix: list = field(default_factory=list)

    @property
    def before(self):
        return self.prefix[0] if len(self.prefix) == 1 else None

    @property
    def predefined(self):
        return len(self.prefix) == 2


@dataclass
class Attribute(Expression):
    name: Name
    word: str
    argument: object = None


@dataclass
class Unary(Expression):
    operator: str
    operand: object


@dataclass
class Binary(Expression):
    operator: str
    left: object
    right: object


@dataclass
class Objects(Placed):
    names: list
    subtype: str
    value: object = None
    is_constant: bool = False


@dataclass
class Arrays(Placed):
    names: list
    low: int
    high: int
    subtype: str


@dataclass(eq=False)
class Exceptions(Placed):
    names: list


class End:
    """Of a construct: the name behind its `end`, if there is one, and the place of its semicolon."""

    closing, semicolon = None, None


@dataclass
class Formal:
    name: str
    mode: str
    subtype: str


@dataclass
class Body(End):
    """A declarative part, the statements behind it, and their handlers, each with its choices, of which `others` is empty; the lines of
    its `begin` and its `end`."""

    declarations: list
    statements: list
    handlers: list
    begin: int
    end: int


@dataclass
class Procedure(Placed):
    name: str
    formals: list
    body: Body


@dataclass
class Entry:
    name: str
    formals: list


@dataclass
class Task(Placed, End):
    """Its body comes later in the same declarative part."""

    name: str
    is_type: bool
    entries: list
    body: "TaskBody" = None


@dataclass
class TaskBody(Placed):
    name: str
    body: Body


@dataclass
class Operation:
    """Of a protected object: an entry, a procedure or a function, which has a result; with what it does, and an entry with its barrier,
    where this is its body."""

    kind: str
    name: str
    formals: list
    result: str = None
    barrier: object = None
    body: Body = None


@dataclass(eq=False)
class Protected(Placed, End):
    """Its operations and the declarations of its components in the order of the text; how many of them others see."""

    name: str
    items: list
    visible: int = 0

    def operations(self):
        return [item for item in self.items if isinstance(item, Operation)]


@dataclass
class ProtectedBody(Placed, End):
    name: str
    operations: list


@dataclass
class Null(Placed):
    pass


@dataclass
class Assign(Placed):
    target: Name
    value: object


@dataclass
class Call(Placed):
    name: Name


@dataclass
class Accept(Placed):
    """Without `do` it has no body."""

    name: str
    formals: list
    body: Body


@dataclass
class Abort(Placed):
    names: list


@dataclass
class Requeue(Placed):
    name: Name
    with_abort: bool


@dataclass
class Delay(Placed):
    """So many milliseconds, or behind the name Duration the seconds that an expression tells."""

    milliseconds: int
    duration: str = None
    seconds: object = None


@dataclass
class Terminate(Placed):
    pass


@dataclass
class Alternative:
    """An Accept, a Delay or a Terminate, its guard, and the statements behind it."""

    guard: object
    waits: object
    statements: list


@dataclass
class Select(Placed):
    """A selective accept; `otherwise` is None where it has no else part."""

    alternatives: list
    otherwise: list


@dataclass
class Offer(Placed):
    """A timed call, or a conditional one, which has no delay: what follows the call, and what is done instead."""

    name: Name
    statements: list
    delay: Delay
    otherwise: list


@dataclass
class If(Placed):
    """Its conditions, each with the statements behind it and the line of its `if` or `elsif`."""

    arms: list
    otherwise: list


@dataclass
class Loop(Placed, End):
    label: str
    condition: object
    over: object
    statements: list


@dataclass
class Range:
    """With the line of its `for`."""

    parameter: str
    backward: bool
    low: object
    high: object
    line: int


@dataclass
class Block(Placed):
    body: Body
    label: str


@dataclass
class Exit(Placed):
    label: str
    condition: object


@dataclass
class Return(Placed):
    value: object


@dataclass
class Raise(Placed):
    name: str
