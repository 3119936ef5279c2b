"""What a program under way is made of: values, frames, tasks, their calls and their steps."""
from dataclasses import dataclass, field

from trees import Entry, Operation, Procedure, TaskBody

LOWEST, HIGHEST = -(2**31), 2**31 - 1
FIRST = {"INTEGER": LOWEST, "NATURAL": 0, "POSITIVE": 1}
NEAREST_ZERO = {"INTEGER": 0, "NATURAL": 0, "POSITIVE": 1, "BOOLEAN": False}
OUTPUT, OBJECTS, FRAMES, ELEMENTS = 65_536, 64, 128, 1_024


@dataclass(frozen=True)
class Limits:
    """Those of a seat: tasks of a program, main counted, and bytes of a source text."""

    tasks: int
    source: int


STANDARD, LARGE = Limits(64, 32_768), Limits(256, 65_536)


class AdaException(Exception):
    """A predefined exception by its name, or a declared one by its declaration and its name; the line that is shown while it is
    pending, where that is another than of the step that raises it."""

    def __init__(self, identity):
        self.identity, self.line = identity, None


class Leaving(Exception):
    """Out of the loop with a label, or the innermost one."""

    def __init__(self, label):
        self.label = label


class Returning(Exception):
    """To the end of a procedure, or of a function with its value."""

    def __init__(self, value=None):
        self.value = value


class Requeueing(Returning):
    """To the end of an accept or an entry body, which makes its call again on an entry: of which task or object it is, the entry, whether
    the call may be cancelled there, and the line of the statement; the alternative of the task that then accepts it."""

    def __init__(self, unit, entry, with_abort, line):
        super().__init__(self)
        self.unit, self.entry, self.with_abort, self.line, self.alternative = unit, entry, with_abort, line, None

    def alternatives(self):
        return self.unit.open_for(self.entry.name) if isinstance(self.unit, Running) else []


def constraint_error():
    return AdaException("CONSTRAINT_ERROR")


def storage_error():
    return AdaException("STORAGE_ERROR")


def tasking_error():
    return AdaException("TASKING_ERROR")


def program_error():
    return AdaException("PROGRAM_ERROR")


def within(low, value, high):
    if not low <= value <= high:
        raise constraint_error()
    return value


def checked(subtype, value):
    return value if subtype == "BOOLEAN" else within(FIRST[subtype], value, HIGHEST)


def quotient(left, right):
    size = abs(left) // abs(right)
    return size if (left < 0) == (right < 0) else -size


def image(value):
    if isinstance(value, bool):
        return "TRUE" if value else "FALSE"
    return f" {value}" if value >= 0 else str(value)


@dataclass
class Variable:
    value: object
    subtype: str


@dataclass
class Array:
    low: int
    high: int
    values: list
    subtype: str = None

    def place(self, index):
        return within(self.low, index, self.high) - self.low


@dataclass
class Element:
    array: Array
    place: int

    @property
    def value(self):
        return self.array.values[self.place]

    @value.setter
    def value(self, value):
        self.array.values[self.place] = value

    @property
    def subtype(self):
        return self.array.subtype


def copy_back(copies):
    for formal, target in copies:
        target.value = checked(target.subtype, formal.value)


@dataclass
class TaskType:
    scope: "Scope"
    body: TaskBody
    entries: list = field(default_factory=list)


@dataclass
class Callee:
    """A procedure, or the body of an operation."""

    procedure: Procedure
    scope: "Scope"


@dataclass
class TaskEntry:
    """As the body of its own task sees it."""

    task: "Running"
    entry: Entry


@dataclass(eq=False)
class ProtectedObject:
    """Its operations by their names; what its bodies see; its components; the declarative part that created it; its bodies; the calls
    queued on its entries, oldest first; the tasks that have an action on it under way, and whether that is of a function."""

    name: str
    operations: dict
    scope: "Scope"
    components: dict
    part: "Frame"
    bodies: dict = field(default_factory=dict)
    queues: dict = field(default_factory=dict)
    actions: dict = field(default_factory=dict)

    def __post_init__(self):
        self.queues = {name: [] for name, operation in self.operations.items() if operation.kind == "entry"}


@dataclass
class Inside:
    """A protected object, as its own body names it."""

    object: ProtectedObject


@dataclass
class Own:
    """An operation, as the body of its object sees it."""

    object: ProtectedObject
    operation: Operation


@dataclass
class Declared:
    """An exception."""

    identity: tuple


class Scope:
    def __init__(self, outer, names=()):
        self.outer, self.names = outer, dict(names)

    def so_far(self):
        """What a body sees that stands here: none of the later declarations."""
        return Scope(self.outer, self.names)

    def find(self, name):
        scope = self
        while scope:
            if name in scope.names:
                return scope.names[name]
            scope = scope.outer
        return None


class Ahead(Scope):
    """What a body that stands further on will see: what is declared before it and not elaborated yet holds 0."""

    def __init__(self, outer, zeros):
        self.outer, self.zeros = outer, zeros

    @property
    def names(self):
        return {name: zero for name, zero in self.zeros.items() if name not in self.outer.names}


@dataclass(eq=False)
class Frame:
    """Of a body, block, procedure, loop, accept, operation or entry; its variables so far, each with its name; the call that an accept
    has taken."""

    kind: str
    variables: list = field(default_factory=list)
    call: "EntryCall" = None

    @property
    def is_master(self):
        return self.kind in ("body", "block", "procedure")

    @property
    def is_counted(self):
        return self.kind not in ("accept", "entry")


@dataclass
class Waits:
    """What a blocked task waits for: entries and times, each with the number of its alternative, if it is one; or its end. The object
    on whose entry it waits, if it does."""

    accepts: list = field(default_factory=list)
    delays: list = field(default_factory=list)
    terminates: bool = False
    object: ProtectedObject = None

    def times(self):
        """Those that may come."""
        return [] if self.object and self.object.actions else self.delays

    def is_open(self):
        return self.accepts or self.delays or self.terminates


@dataclass(eq=False)
class EntryCall:
    """Also of another operation. Its formals by their names, those that are copied back with the variables that get them, the queue of its
    entry, where a function's value goes, the protected object, if it is of one, the line of its statement, and the time at which it may
    be cancelled, if one is said; the task or object and the entry on which it is made now; whether it stays on its queue whatever happens
    to its caller. It is over, or cancelled, or neither; an exception may have ended it."""

    caller: "Running"
    formals: dict
    copies: list
    queue: list
    target: object = None
    object: ProtectedObject = None
    line: int = None
    time: int = None
    unit: object = None
    entry: str = None
    stays: bool = False
    is_over: bool = False
    is_cancelled: bool = False
    exception: AdaException = None

    def waits(self):
        """What its caller waits for besides, while it is queued."""
        return Waits(delays=[] if self.stays or self.time is None else [(None, self.time)], object=self.object)

    def is_lost(self):
        """Where it would be made again."""
        return not self.stays and self.caller.is_abnormal


@dataclass(eq=False)
class Running:
    """A task: its open frames, the masters that it depends on, the declarative part that created it, who waits for its activation and
    whether an activation that it waits for has failed; its steps and the next one; what it waits for where it is blocked; the calls
    queued on its entries, oldest first; its own call; how many bodies of entries it is serving; whether it is aborted, and its call of a
    protected entry that was cancelled by this, as long as it has not withdrawn it; whether it stands before the start of a call that its
    accept made again."""

    name: str
    status: str
    task_type: TaskType
    masters: list = field(default_factory=list)
    part: Frame = None
    frames: list = field(default_factory=list)
    activator: "Running" = None
    failed: bool = False
    raised: object = None
    steps: object = None
    next: object = None
    waits: Waits = None
    queues: dict = field(default_factory=dict)
    call: EntryCall = None
    serving: int = 0
    is_aborted: bool = False
    withdraws: EntryCall = None
    is_restarting: bool = False

    def __post_init__(self):
        self.queues = {entry.name: [] for entry in self.task_type.entries}

    def open_for(self, entry):
        """The numbers of the open alternatives that accept the entry."""
        return [alternative for alternative, name in self.waits.accepts if name == entry] if self.waits else []

    @property
    def is_terminated(self):
        return self.status == "terminated"

    @property
    def is_over(self):
        return self.status in ("completed", "terminated")

    @property
    def is_abnormal(self):
        return self.is_aborted and not self.is_over

    @property
    def is_callable(self):
        return not self.is_over and not self.is_aborted


@dataclass
class Step:
    """The master that it leaves, if it leaves one; what tells the alternatives among which it has a move for each; the object on which
    it starts an action, if it does, and whether that is of a function; the exception that is pending, by its identity."""

    kind: str
    line: int
    master: Frame = None
    alternatives: object = None
    object: ProtectedObject = None
    is_function: bool = False
    raised: object = None

    def waits_for_object(self, task):
        return self.object is not None and any(
            other is not task and not (self.is_function and is_function) for other, is_function in self.object.actions.items()
        )


@dataclass
class Move:
    task: Running
    kind: str
    alternative: int = None
