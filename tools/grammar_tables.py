#!/usr/bin/env python3
"""Writes crates/aud_grammar/proofs/Tables.antt from crates/aud_grammar/specs/Grammar.antt.

For each phrase of the grammar: `rank`, how many rules may be entered before a token of it is
passed, and `follow`, the numbers of the kinds of tokens that may come behind it (999 is the end
of the tokens). The prover checks both tables; this script only finds them, and it stops where the
next token does not decide between two ways.
"""
import re
import sys
from pathlib import Path

CRATES = Path(__file__).resolve().parent.parent / "crates"
END = 999
# the phrases that may come last in a list of tokens
LAST = ["Unit", "Expression"]

SYMBOL = r"A \([^()]*\)|T kind\.\w+|P kind\.\w+|W [\w.]+|N \w+|L \w+|Down|Opt \w+|Rep \w+"


def read_codes():
    text = (CRATES / "aud_lex/specs/Kinds.antt").read_text()
    return {name: int(n) for name, n in re.findall(r"^kind_number kind\.(\w+) = (\d+)", text, re.M)}


def read_rules():
    text = (CRATES / "aud_grammar/specs/Grammar.antt").read_text()
    rules = {}
    for name, body in re.findall(r"^rule (\w+) = (.*) ∷ \[\]$", text, re.M):
        symbols = []
        for symbol in re.findall(SYMBOL, body):
            if symbol.startswith("A "):
                symbols.append(("A", re.findall(r"\w+", symbol[2:])))
            elif symbol == "Down":
                symbols.append(("Down", None))
            else:
                shape, name_of = symbol.split(" ", 1)
                symbols.append((shape, name_of.replace("kind.", "")))
        rules[name] = symbols
    return rules


def snake(phrase):
    return re.sub(r"(?<!^)(?=[A-Z])", "_", phrase).lower()


def close(table, step):
    """Repeats `step`, which may add to the sets of `table`, until nothing is added."""
    size = -1
    while size != sum(map(len, table.values())):
        size = sum(map(len, table.values()))
        step()


def main():
    codes, rules = read_codes(), read_rules()
    first = {phrase: set() for phrase in rules}
    follow = {phrase: ({END} if phrase in LAST else set()) for phrase in rules}

    def first_of(symbols, behind):
        for place, (shape, name) in enumerate(symbols):
            if shape in "TP":
                return {codes[name]}
            if shape == "W":
                return {codes["Identifier"]}
            if shape in ("N", "L"):
                return set(first[name])
            if shape == "A":
                return set().union(*(first[phrase] for phrase in name))
            if shape in ("Opt", "Rep"):
                return first[name] | first_of(symbols[place + 1 :], behind)
        return set(behind)

    def grow_first():
        for phrase, symbols in rules.items():
            first[phrase] |= first_of(symbols, set())

    def grow_follow():
        for phrase, symbols in rules.items():
            for place, (shape, name) in enumerate(symbols):
                behind = first_of(symbols[place + 1 :], follow[phrase])
                if shape in ("N", "L", "Opt"):
                    follow[name] |= behind
                elif shape == "Rep":
                    follow[name] |= behind | first[name]
                elif shape == "A":
                    for one in name:
                        follow[one] |= behind

    close(first, grow_first)
    close(follow, grow_follow)
    for phrase, symbols in rules.items():
        for place, (shape, name) in enumerate(symbols):
            behind = first_of(symbols[place + 1 :], follow[phrase])
            if shape in ("Opt", "Rep") and first[name] & behind:
                sys.exit(f"{phrase}: the next token does not decide whether {name} is there")
            if shape == "A" and len(set().union(*(first[p] for p in name))) != sum(len(first[p]) for p in name):
                sys.exit(f"{phrase}: the next token does not decide between {name}")

    ranks = {}

    def rank(phrase):
        if phrase not in ranks:
            most = 0
            for shape, name in rules[phrase]:
                if shape in "TPW":
                    break
                if shape == "Down":
                    continue
                parts = name if shape == "A" else [name]
                most = max([most] + [rank(p) + (shape != "N") for p in parts])
                if shape in ("N", "L", "A"):
                    break
            ranks[phrase] = most + 1
        return ranks[phrase]

    def written(kinds):
        return "".join(f"{n} ∷ " for n in sorted(kinds)) + "[]"

    # a name for each list of kinds, after the first phrase behind which they may come
    behind = {}
    for phrase in rules:
        behind.setdefault(written(follow[phrase]), "behind_" + snake(phrase))

    lines = [
        "-- What the laws need to know of each phrase. Written by tools/grammar_tables.py, and checked in Reading and Ends.",
        "use Rattle.std.specs.Prelude.{ℕ, List, [], ◌∷◌}",
        "use Rattle.aud_grammar.specs.Grammar.{Phrase, " + ", ".join(rules) + "}",
        "",
        "-- the kinds that may come behind some phrases, as numbers; 999 is the end of the tokens",
        *(f"abbrev {name} : List ℕ\n{name} = {kinds}\n" for kinds, name in behind.items()),
        "abbrev known : Phrase → ℕ × List ℕ",
        *(f"known {phrase} = ({rank(phrase)}, {behind[written(follow[phrase])]})" for phrase in rules),
        "",
        "-- how many rules may be entered before a token of the phrase is passed, its own among them",
        "abbrev pub rank : Phrase → ℕ",
        "rank p = (known p).0",
        "",
        "-- the kinds that may come behind the phrase",
        "abbrev pub follow : Phrase → List ℕ",
        "follow p = (known p).1",
    ]
    (CRATES / "aud_grammar/proofs/Tables.antt").write_text("\n".join(lines) + "\n")
    print(f"{len(rules)} parts, highest rank {max(ranks.values())}")


main()
