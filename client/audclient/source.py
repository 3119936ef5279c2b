"""A source text: its lines, as they are shown and as they are sent, and its tokens."""
import re
from typing import NamedTuple, Optional

from .mentions import Mentions
from .protocol import LINE, LINES, REQUEST_BYTES

BYTE_ORDER_MARK = b"\xef\xbb\xbf"

TOKEN = re.compile(
    r"""(?P<space>[ \t\n]+|--[^\n]*)
      | (?P<word>[A-Za-z]\w*)
      | (?P<number>\d[\d_]*(\.\d[\d_]*)?)
      | (?P<string>"(?:[^"\n]|"")*")
      | (?P<sign>=>|\.\.|:=|/=|>=|<=|\*\*|<<|>>|<>|[&'()*+,\-./:;<=>|])
      | (?P<bad>.)""",
    re.VERBOSE,
)


class Token(NamedTuple):
    kind: str  # "word", "number", "string", "sign" or "bad"
    text: str
    line: int
    column: int

    @property
    def low(self):
        """What it means: capitals count in strings alone."""
        return self.text if self.kind == "string" else self.text.lower()


class Fault(NamedTuple):
    """What is wrong with a source text, and where: a column only where one is known."""

    code: str
    line: Optional[int]
    column: Optional[int]
    words: str


def tokens(text):
    """The tokens of a text, comments left out. What is none is `bad`."""
    found, line, begun = [], 1, 0
    for it in TOKEN.finditer(text):
        if it.lastgroup == "space":
            feeds = it[0].count("\n")
            if feeds:
                line += feeds
                begun = it.start() + it[0].rindex("\n") + 1
        else:
            kind = next(name for name in ("word", "number", "string", "sign", "bad") if it[name] is not None)
            found.append(Token(kind, it[0], line, it.start() - begun + 1))
    return found


class Source:
    """A source text. Its lines count from 1."""

    def __init__(self, data, name=""):
        self.name = name
        if data.startswith(BYTE_ORDER_MARK):
            data = data[len(BYTE_ORDER_MARK):]
        rows = data.split(b"\n")
        if rows[-1] == b"":
            rows.pop()
        # Spaces and a carriage return at a line's end mean nothing, and are not sent.
        rows = [(it[:-1] if it.endswith(b"\r") else it).rstrip(b" ") for it in rows]
        self.fault = _fault(rows)
        self.lines = [_decoded(it) for it in rows]
        self._tokens, self._mentions = None, None

    @classmethod
    def read(cls, path):
        with open(path, "rb") as file:
            return cls(file.read(), path)

    @classmethod
    def of_text(cls, text, name=""):
        return cls(text.encode(), name)

    @property
    def text(self):
        return "".join(it + "\n" for it in self.lines)

    @property
    def request(self):
        """The LOAD of this text."""
        return "\n".join([f"LOAD {len(self.lines)}", *self.lines])

    @property
    def tokens(self):
        if self._tokens is None:
            self._tokens = tokens(self.text)
        return self._tokens

    @property
    def program(self):
        """The name of the program, as it is written."""
        words = iter(self.tokens)
        return next((next(words, it).text for it in words if it.low == "procedure"), "")

    @property
    def mentions(self):
        """Which words each task may come to."""
        if self._mentions is None:
            self._mentions = Mentions(self.tokens)
        return self._mentions

    def line(self, number):
        """A line without the spaces around it; nothing where there is none."""
        return self.lines[number - 1].strip() if 0 < number <= len(self.lines) else ""

    def spelled(self, name):
        """A name as the text writes it first: aud tells names in capitals."""
        return re.sub(r"[A-Za-z]\w*", lambda it: self._spellings().get(it[0].lower(), it[0]), name)

    def _spellings(self):
        if not hasattr(self, "_spelled"):
            self._spelled = {}
            for it in self.tokens:
                if it.kind == "word":
                    self._spelled.setdefault(it.low, it.text)
        return self._spelled

    def is_same(self, other):
        """Whether both are the same program: the same tokens, whatever the layout and the comments."""
        return [it.low for it in self.tokens] == [it.low for it in other.tokens]

    def spread(self):
        """The same program with each token on a line of its own, so that a line tells the token."""
        return Source.of_text("".join(it.text + "\n" for it in self.tokens), self.name)


def _decoded(row):
    try:
        return row.decode("utf-8")
    except UnicodeDecodeError:
        return row.decode("latin-1")


def _fault(rows):
    """The first line that aud refuses unread, or a text that is too long to be sent."""
    for number, row in enumerate(rows, 1):
        if len(row) > LINE:
            return Fault("E12", number, LINE + 1, f"line too long: {len(row)} bytes, and {LINE:,} is the most")
        for column, byte in enumerate(row, 1):
            if byte > 127:
                # The column is that of a character, as an editor counts it.
                text = _decoded(row)
                at = next(k for k, it in enumerate(text, 1) if not it.isascii())
                return Fault("E19", number, at, f"not ASCII: {text[at - 1]!r}")
    if len(rows) > LINES:
        return Fault("E22", None, None, f"source too long: {len(rows)} lines, and {LINES} is the most that is sent")
    if sum(len(it) + 1 for it in rows) > REQUEST_BYTES - 100:
        return Fault("E22", None, None, "source too long")
    return None
