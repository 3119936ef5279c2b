"""Tokens of a source text, and the place at which it has none."""
import re
from dataclasses import dataclass

RESERVED = set(
    "abort abs abstract accept access aliased all and array at begin body case constant declare delay delta digits do else elsif end entry"
    " exception exit for function generic goto if in interface is limited loop mod new not null of or others out overriding package parallel"
    " pragma private procedure protected raise range record rem renames requeue return reverse select separate some subtype synchronized"
    " tagged task terminate then type until use when while with xor".split()
)
SEPARATOR = re.compile(r"(?:[ \t\n]|--[ -~\t]*)+")
TOKEN = re.compile(
    r'(?P<number>\d(?:_?\d)*(?:\.\d(?:_?\d)*)?)|(?P<word>[A-Za-z](?:_?[A-Za-z\d])*)|(?P<string>"(?:[ !#-~]|"")*")'
    r"|(?P<mark>=>|\.\.|:=|/=|>=|<=|\*\*|<<|>>|<>|[&'()*+,\-./:;<=>|])"
)


class Fault(Exception):
    """Of a source text, by its code and its place."""

    def __init__(self, code, place):
        self.code, self.place = code, place


@dataclass
class Token:
    """What it is (number, name, string, mark or end), its text, names in capitals, reserved words in small letters, and its place: its
    line and its column."""

    kind: str
    text: str
    place: tuple


class Word(str):
    """A name, with its place."""

    place = None


def word(token):
    found = Word(token.text)
    found.place = token.place
    return found


def tokens(source):
    source = source.replace("\r\n", "\n")
    at, line, begin = 0, 1, 0
    while True:
        separator = SEPARATOR.match(source, at)
        if separator:
            line += source.count("\n", at, separator.end())
            begin = source.rfind("\n", 0, separator.end()) + 1
        past = separator.end() if separator else at
        place = (line, past - begin + 1)
        if past == len(source):
            yield Token("end", "", place)
            return
        found = TOKEN.match(source, past)
        if not found or past == at > 0 and source[past].isalnum() and source[past - 1].isalnum():
            raise Fault(20, place)
        at, kind, text = found.end(), found.lastgroup, found[found.lastgroup]
        if kind == "word":
            yield Token("mark", text.lower(), place) if text.lower() in RESERVED else Token("name", text.upper(), place)
        else:
            yield Token(kind, text, place)
