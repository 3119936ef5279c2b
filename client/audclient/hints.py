"""Faults of a source text: the line, a caret, the words, and a hint from the table of hints.json.

The table is data, so that other readers of a source text may share it. Its head says what its fields mean.
"""
import functools
import json
import os
import re

from .structure import constructs, declared, owner_of_entry

TABLE = os.path.join(os.path.dirname(os.path.dirname(os.path.abspath(__file__))), "hints.json")
WIDTH = 100  # characters of a line that are shown with a caret
PREDEFINED = (
    "Integer Natural Positive Boolean True False Put Put_Line New_Line Duration "
    "Constraint_Error Program_Error Storage_Error Tasking_Error"
).split()


@functools.lru_cache(maxsize=None)
def table():
    with open(TABLE, encoding="utf-8") as file:
        return json.load(file)


def told(source, fault):
    """The lines that tell a fault: where it is, its words and code, and a hint where there is one."""
    place = f"line {fault.line}, column {fault.column}: " if fault.line else ""
    lines = [f"{place}{fault.words} ({fault.code})"]
    if fault.line and fault.line <= len(source.lines):
        lines += pointed(source.lines[fault.line - 1], fault.line, fault.column)
    hint = find(source, fault)
    return lines + [f"hint: {hint}"] if hint else lines


def pointed(text, line, column):
    """A line of source with a caret under a column, cut where it is long."""
    cut = max(0, column - 1 - WIDTH // 2) if column > WIDTH - 10 else 0
    shown = "..." * bool(cut) + text[cut:cut + WIDTH] + "..." * (len(text) > cut + WIDTH)
    at = column - 1 - cut + 3 * bool(cut)
    # A tab before the caret stays one, so that the caret stands below its column.
    space = "".join("\t" if it == "\t" else " " for it in shown[:at].ljust(at))
    return [f"{line:5} | {shown}", f"      | {space}^"]


def find(source, fault):
    """The first hint of the table that fits, or None."""
    facts = _facts(source, fault)
    return next((_filled(it, facts) for it in table()["hints"] if _fits(it, fault.code, facts)), None)


def _fits(hint, code, facts):
    return (
        code in hint["code"].split()
        and ("open" not in hint or facts["open"] in hint["open"].split("|"))
        and all(facts.get(it) for it in hint.get("has", "").split())
        and re.match(hint.get("at", ""), facts["at"]) is not None
        and re.search(f"(?:{hint.get('before', '')})$", facts["before"]) is not None
    )


def _filled(hint, facts):
    say = re.sub(r"\{(\w+)\}", lambda it: str(facts.get(it[1], "")), hint["say"])
    if "left_out" in hint:
        say = table()["left_out"].replace("{section}", str(hint["left_out"])) + say
    return say


def _facts(source, fault):
    """What a hint may ask about a fault, and name in its words."""
    here = (fault.line or 0, fault.column or 0)
    before = [it for it in source.tokens if (it.line, it.column) < here]
    at = [it for it in source.tokens if (it.line, it.column) >= here]
    facts = {
        "before": _plain(before),
        "at": _plain(at),
        "word": at[0].text if at else "",
        "last": before[-1].text if before else "",
        "line": before[-1].line if before else "",
        "is_first": bool(at and before) and before[-1].line < at[0].line,
    }
    facts.update(_opened(before))
    if at and at[0].kind == "word":
        facts.update(_named(source.tokens, at[0]))
    return facts


def _plain(tokens):
    """Tokens as the table's expressions see them."""
    return "".join(('""' if it.kind == "string" else it.low) + " " for it in tokens)


def _opened(before):
    """Facts of the innermost construct that is not ended."""
    within = [it for it in constructs(before) if it.last is None]
    if not within:
        return {"open": "none"}
    inner = within[-1]
    return {
        "open": "else if" if inner.kind == "if" and inner.else_if else inner.kind,
        "open_line": inner.line,
        "open_name": inner.name,
        "else_if_line": inner.else_if,
        "in_statements": inner.is_in_statements,
        "in_declarations": inner.is_in_declarations,
    }


def _named(tokens, name):
    """Facts of a name: where else it is declared, and which one may be meant."""
    names = declared(tokens)
    places = names.get(name.low, [])
    above = [it.line for it in places if (it.line, it.column) < (name.line, name.column)]
    below = [it.line for it in places if (it.line, it.column) > (name.line, name.column)]
    return {
        "earlier": above[0] if above else "",
        "later": below[0] if below and not above else "",
        "owner": owner_of_entry(tokens, name.low),
        "near": _nearest(name.text, [it[0].text for it in names.values()] + PREDEFINED),
    }


def _nearest(word, names):
    """The name that differs least from a word, if it is near enough to be meant."""
    most = 1 if len(word) < 5 else 2
    count, name = min((distance(word.lower(), it.lower()), it) for it in names)
    return name if 0 < count <= most and len(word) > 1 else ""


def distance(one, other):
    """How many letters are to be changed, left out, put in, or exchanged with a neighbour."""
    rows = [list(range(len(other) + 1))]
    for i, a in enumerate(one, 1):
        row = [i]
        for k, b in enumerate(other, 1):
            row.append(min(rows[-1][k] + 1, row[-1] + 1, rows[-1][k - 1] + (a != b)))
            if i > 1 and k > 1 and a == other[k - 2] and one[i - 2] == b:
                row[-1] = min(row[-1], rows[-2][k - 2] + 1)
        rows.append(row)
    return rows[-1][-1]
