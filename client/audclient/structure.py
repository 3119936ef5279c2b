"""The constructs of a source text, found by their words alone, so also in a text that is refused."""

UNITS = {"procedure", "function", "task", "protected", "entry"}
BODIES = {"procedure", "function", "entry", "task body", "declare"}
STATEMENTS = {"if", "loop", "select", "accept", "begin"}
BEFORE_STATEMENT = {";", "begin", "then", "else", "loop", "do", "=>"}


class Construct:
    """What an `end` ends: from token `first` to token `last`, which is None where no `end` has come."""

    def __init__(self, kind, line, first, name=""):
        self.kind, self.line, self.first, self.name = kind, line, first, name
        self.last = None
        self.begin = None  # the token of its `begin`
        self.else_if = ""  # the line of an `else if` in it

    @property
    def is_in_statements(self):
        return self.begin is not None or self.kind in STATEMENTS

    @property
    def is_in_declarations(self):
        return self.begin is None and self.kind in BODIES


def constructs(tokens):
    """All constructs, in the order in which they begin."""
    found, stack, head, ending, previous = [], [], None, False, None

    def push(construct):
        found.append(construct)
        stack.append(construct)

    for at, it in enumerate(tokens):
        word = it.low if it.kind in ("word", "sign") else ""
        if word == "end":
            ending = True
        elif word == ";":
            if ending and stack:
                stack.pop().last = at
            ending, head = False, None
        elif ending:
            pass
        elif word in UNITS:
            head = _head(tokens, at)
        elif word == "is" and head:
            push(head)
            head = None
        elif word == "loop":
            push(Construct(word, _beginning(tokens, at).line, at))
        elif word in ("select", "declare"):
            push(Construct(word, it.line, at))
        elif word == "if":
            if previous == "else" and stack:
                stack[-1].else_if = it.line
            push(Construct(word, it.line, at))
        elif word == "do":
            push(Construct("accept", it.line, at))
        elif word == "begin":
            if not stack or stack[-1].is_in_statements:
                push(Construct(word, it.line, at))
            stack[-1].begin = at
        previous = word
    return found


def _head(tokens, at):
    """What `procedure P`, `task T`, `task body T` and the like may begin."""
    is_body = [it.low for it in tokens[at + 1:at + 2]] == ["body"]
    names = [it for it in tokens[at + 1:at + 3] if it.low not in ("body", "type")]
    kind = tokens[at].low + (" body" if is_body else "")
    return Construct(kind, tokens[at].line, at, names[0].text) if names else None


def _beginning(tokens, at):
    """The first token of the loop of this `loop`: its `for` or `while`, if it has one."""
    for it in reversed(tokens[:at]):
        if it.low in BEFORE_STATEMENT:
            break
        if it.low in ("for", "while"):
            return it
    return tokens[at]


def declared(tokens):
    """The names that a text declares, in small letters, each with the tokens where it does."""
    found = {}
    for at, it in enumerate(tokens[:-1]):
        if it.kind == "word" and _is_declaration(tokens, at):
            found.setdefault(it.low, []).append(it)
    return found


def _is_declaration(tokens, at):
    back = tokens[at - 1].low if at else ""
    if back in UNITS or back in ("type", "body"):
        return tokens[at].low not in ("type", "body") and back != "body"
    if back == "for":
        return tokens[at + 1].low == "in"
    end = at + 1
    while end + 1 < len(tokens) and tokens[end].low == "," and tokens[end + 1].kind == "word":
        end += 2
    return end < len(tokens) and tokens[end].low == ":" and back in (";", "is", "(", ",", "declare", "private")


def owner_of_entry(tokens, name):
    """The task or protected object that declares an entry of this name, or nothing."""
    owner = ""
    for at, it in enumerate(tokens[:-2]):
        if it.low in ("task", "protected") and tokens[at + 1].low != "body":
            owner = tokens[at + 2 if tokens[at + 1].low == "type" else at + 1].text
        if it.low == "entry" and tokens[at + 1].low == name and owner:
            return owner
    return ""
