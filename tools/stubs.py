"""Checks functions of a crate against the contracts of the crates below it that are not proved yet, or not built here.

It runs `rattle check`. A crate below that has an rlib with a stamp in out/rlib is read from there, if all those below it are too; the rlib is taken as it
stands, so build it again if the crate has changed since. Of any other crate below it writes a stub: a copy in which each function's body is `loop {}` and
its proof a hole, so that its contracts and its files of specs and proofs are all that is read. A stub is made anew when the text of its crate has changed.

usage: stubs.py CRATE [--stubs FOLDER] WORD..
The words are those of `rattle check`, as `--only PATH`, `--start F` (which writes files of CRATE's proofs) and `--allow-holes`, without which the holes of
the stubs are errors. FOLDER holds the stubs, and what is kept of CRATE from one run to the next; by default it lies in the system's folder for temporary
files, and is named after the repository's path.

How to read what it prints:
- `fn CRATE::F: no holes`, or that F depends on holes in other crates alone (`Rattle.OTHER.proofs`): F is proved, given the contracts below.
- `not proved`, `no proof`, or that F depends on a hole in `Rattle.CRATE`: F is open. `not proved; it calls G` names what is to be mended first.
- a goal in a file under FOLDER (`has-holes` of a `_spec`, goal `?`) is the hole of a stub: pass over it. `holes=N` and the status count such holes too.

It has two limits. A file of lemmas that no named function cites is not checked. Stubs of some impls of traits print one error line each, which does no
harm where the checked functions do not call them.
"""
import hashlib
import re
import shutil
import subprocess
import sys
import tempfile
from pathlib import Path

TOP = Path(__file__).resolve().parents[1]
PARTS = ("src", "specs", "proofs")
BODY = "{\n    loop {}\n}"
PAIRS = {"{": "}", "(": ")", "[": "]"}
CLAUSES = ("ensures", "requires", "ghost", "decreases")
# The files of a proof, beside which others may stand in a function's folder.
PROOF = ("Invariants.antt", "Answers.antt", "Proof.antt")
TYPE = re.compile(r"^\s*(?:pub(?:\([^)]*\))? )?(?:struct|enum|union) (\w+)", re.MULTILINE)
TESTED = re.compile(r"#\[test|.*cfg\(test\)", re.DOTALL)
OF_PROOF = re.compile(r"#\[(cycle|tactic)\b")
TOKEN = re.compile(
    r"""
    (?P<blank> \s+ | //[^\n]* | /\*.*?\*/ )
    | b?r(?P<marks>\#*)".*?"(?P=marks)
    | "(?:\\.|[^"\\])*"
    | '(?:\\u\{[^}]*\}|\\x..|\\.|[^\\'\n])'
    | \w+
    | .
    """,
    re.VERBOSE | re.DOTALL,
)


def name_of(words):
    """The name of a type or trait: the last word outside its arguments."""
    name, depth = "", 0
    for word in words:
        if word == "where":
            break
        depth += (word == "<") - (word == ">")
        if depth == 0 and word.isidentifier() and word not in ("mut", "dyn"):
            name = word
    return name


class Source:
    """A file of Rattle: its tokens, the edits that make it a stub, and the paths of the functions that these empty."""

    def __init__(self, text, module, homes):
        tokens = [token for token in TOKEN.finditer(text) if token["blank"] is None]
        self.text, self.homes, self.edits, self.paths = text, homes, [], []
        self.words = [token.group() for token in tokens]
        self.spans = [token.span() for token in tokens]
        self.kinds = {"fn": self.function, "impl": self.implementation, "mod": self.nested, "trait": self.nested}
        self.kinds |= dict.fromkeys(("struct", "enum", "union", "macro_rules"), self.braced)
        self.kinds |= dict.fromkeys(("const", "static", "type", "use", "ghost"), self.ended)
        self.items(0, len(tokens), module)

    def stub(self):
        text = self.text
        for start, end, new in sorted(self.edits, reverse=True):
            text = text[:start] + new + text[end:]
        return text

    def closing(self, at):
        """Where the bracket is closed that stands there."""
        opens, depth = self.words[at], 0
        while True:
            depth += (self.words[at] == opens) - (self.words[at] == PAIRS[opens])
            if depth == 0:
                return at
            at += 1

    def first(self, at, *stops):
        """Where the first of these stands, from there on and outside brackets."""
        while self.words[at] not in stops:
            at = self.closing(at) + 1 if self.words[at] in PAIRS else at + 1
        return at

    def items(self, at, end, inside):
        """Takes the items from a place to another, which stand in a module or an impl."""
        attributes = []
        while at < end:
            word = self.words[at]
            if word == "#":
                last = self.closing(self.first(at, "["))
                attributes.append((self.spans[at][0], self.spans[last][1]))
                at = last + 1
            elif word in self.kinds and self.words[at : at + 2] != ["const", "fn"]:
                at = self.kinds[word](at, inside, attributes)
                attributes = []
            else:
                attributes = [] if word == ";" else attributes
                at = self.closing(at) + 1 if word in PAIRS else at + 1

    def is_tested(self, attributes):
        return any(TESTED.match(self.text[start:end]) for start, end in attributes)

    # Each of the following takes the item at a place, and answers the place behind it.

    def function(self, at, inside, attributes):
        path = inside + [self.words[at + 1]]
        opens = self.first(at, "{", ";", *CLAUSES)
        while self.words[opens] in CLAUSES:
            opens = self.first(self.closing(self.first(opens, "{")) + 1, "{", ";", *CLAUSES)
        if self.words[opens] == ";":
            return opens + 1
        last = self.closing(opens)
        if not self.is_tested(attributes):
            self.paths.append(path)
            self.edits.append((self.spans[opens][0], self.spans[last][1], BODY))
            self.edits += [(start, end, "") for start, end in attributes if OF_PROOF.match(self.text[start:end])]
        return last + 1

    def nested(self, at, inside, attributes):
        opens = self.first(at, "{", ";")
        if self.words[opens] == ";":
            return opens + 1
        last = self.closing(opens)
        if not self.is_tested(attributes):
            self.items(opens + 1, last, inside + [self.words[at + 1]])
        return last + 1

    def implementation(self, at, inside, attributes):
        head = self.behind_parameters(at + 1)
        opens = self.first(head, "{")
        last, words = self.closing(opens), self.words[head:opens]
        if "for" in words:
            split = words.index("for")
            home, name = inside, name_of(words[split + 1 :]) + name_of(words[:split])
        else:
            name = name_of(words)
            home = self.homes.get(name, inside)
        # (what is dropped or converted keeps its code and its proof)
        if not name.endswith(("Drop", "From")) and not self.is_tested(attributes):
            self.items(opens + 1, last, home + [name])
        return last + 1

    def behind_parameters(self, at):
        depth = 0
        while depth or self.words[at] == "<":
            depth += (self.words[at] == "<") - (self.words[at] == ">" and self.words[at - 1] != "-")
            at += 1
        return at

    def braced(self, at, _inside, _attributes):
        last = self.first(at, "{", ";")
        return last + 1 if self.words[last] == ";" else self.closing(last) + 1

    def ended(self, at, _inside, _attributes):
        return self.first(at, ";") + 1


def module_of(file, source):
    """The names of the modules down to that of a file."""
    names = list(file.relative_to(source).with_suffix("").parts)
    if names in (["lib"], ["main"]):
        return []
    return names[:-1] if names[-1] == "mod" else names


def leave_hole(crate, path, folder):
    """Makes a function's proof a hole."""
    folder.mkdir(parents=True, exist_ok=True)
    for name in PROOF:
        (folder / name).unlink(missing_ok=True)
    (folder / "Proof.antt").write_text(
        f"use Rattle.{crate}.proofs.{'.'.join(path)}.Statement.{{statement}}\n\n"
        f"pub {path[-1]}_spec : {{M : Type 1}} → statement M\n{path[-1]}_spec = ?\n",
        encoding="utf-8",
    )


def write_stub(crate, to):
    """Writes the stub of a crate into a folder."""
    shutil.rmtree(to, ignore_errors=True)
    for part in PARTS:
        if (TOP / "crates" / crate / part).is_dir():
            shutil.copytree(TOP / "crates" / crate / part, to / part)
    # (a cycle of functions has one proof, and each function of a stub its own)
    for name in PROOF:
        for file in (to / "proofs").rglob(f"+*/{name}"):
            file.unlink()
    source = to / "src"
    texts = {file: file.read_text(encoding="utf-8") for file in sorted(source.rglob("*.rt"))}
    homes = {name: module_of(file, source) for file, text in texts.items() for name in TYPE.findall(text)}
    for file, text in texts.items():
        read = Source(text, module_of(file, source), homes)
        file.write_text(read.stub(), encoding="utf-8")
        for path in read.paths:
            leave_hole(crate, path, to.joinpath("proofs", *path))


def sum_of(crate):
    """A sum of the text of a crate."""
    folder, found = TOP / "crates" / crate, hashlib.sha256()
    for file in sorted(file for part in PARTS for file in (folder / part).rglob("*") if file.is_file()):
        found.update(f"{file.relative_to(folder)} {file.stat().st_size}\n".encode())
        found.update(file.read_bytes())
    return found.hexdigest()


def stub_of(crate, folder):
    """The folder of a crate's stub, which is made anew where the crate's text has changed."""
    to, now = folder / "crates" / crate, sum_of(crate)
    kept = to / "sum"
    if not kept.exists() or kept.read_text(encoding="utf-8") != now:
        write_stub(crate, to)
        kept.write_text(now, encoding="utf-8")
    return to


def read_crates():
    """What each crate uses, by its name, as crates.txt says."""
    uses = {}
    for line in (TOP / "crates.txt").read_text(encoding="utf-8").splitlines():
        crate, colon, rest = line.partition("#")[0].partition(":")
        if colon:
            uses[crate.strip()] = rest.split()
    return uses


def below(crate, uses):
    """The crates of the repository that a crate reaches, each behind those that it uses."""
    found = {}
    for used in uses[crate]:
        if used in uses:
            found |= dict.fromkeys([*below(used, uses), used])
    return list(found)


def libraries(crate, uses, kit, folder):
    """The words that name what the crate uses: of the kit, and of the repository as rlibs and as stubs."""
    crates = below(crate, uses)
    of_kit = dict.fromkeys(used for each in [*crates, crate] for used in uses[each] if used not in uses)
    words = [f"--extern={name}={kit}/rlibs/{name}.rlib" for name in {"core": None, "std": None} | of_kit]
    words.append(f"-Ldependency={kit}/rlibs")
    stubbed = []
    for each in crates:
        rlib = TOP / "crates" / each / "out/rlib"
        if (rlib / "stamp").is_file() and not set(stubbed) & set(uses[each]):
            words += [f"--extern={each}={rlib}/{each}.rlib", f"-Ldependency={rlib}"]
        else:
            stubbed.append(each)
            names = ",".join(dict.fromkeys(["core", "std", *uses[each]]))
            words.append(f"--lib={each}:{names}={stub_of(each, folder)}/src/lib.rt")
    print("over stubs of:", " ".join(stubbed) or "none", flush=True)
    return words


def read_words():
    """The crate, the folder of stubs and the words for rattle."""
    words, folder = sys.argv[1:], Path(tempfile.gettempdir(), "stubs" + str(TOP).replace("/", "-"))
    if "--stubs" in words[:-1]:
        at = words.index("--stubs")
        folder = Path(words[at + 1])
        del words[at : at + 2]
    if not words or words[0].startswith("-"):
        sys.exit("usage: stubs.py CRATE [--stubs FOLDER] WORD.. (the words are those of `rattle check`)")
    return words[0], folder.resolve(), words[1:]


def main():
    crate, folder, words = read_words()
    uses, command = read_crates(), shutil.which("rt")
    if crate not in uses:
        sys.exit(f"stubs: crates.txt has no crate {crate}")
    if folder.is_relative_to(TOP):
        sys.exit("stubs: the folder of stubs is inside the repository")
    if command is None:
        sys.exit("stubs: no rt on the path")
    folder.mkdir(parents=True, exist_ok=True)
    kit, at = Path(command).resolve().parents[1], TOP / "crates" / crate
    root = "src/main.rt" if (at / "src/main.rt").exists() else "src/lib.rt"
    check = [f"{kit}/bin/rattle", "check", "--crate-name", crate, root, *libraries(crate, uses, kit, folder)]
    check += ["--antt-project", f"{kit}/rattle/logic/antt-project.json", "--logic-built", f"{kit}/logic_built"]
    check += ["--incremental", f"{folder}/incremental-{crate}", "--progress", "--links", f"{crate}="]
    if not any(word.startswith("--jobs") for word in words):
        check += ["--jobs", "1"]
    sys.exit(subprocess.run([*check, *words], cwd=at).returncode)


main()
