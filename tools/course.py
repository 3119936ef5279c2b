"""Replays the sessions of course/ and tells which files differ from what is answered.

    python3 tools/course.py PROGRAM [FOLDER ..]      asks PROGRAM --solo
    python3 tools/course.py --model [FOLDER ..]      asks the model in Python
    python3 tools/course.py --write [FOLDER ..]      asks the model, and writes the files

Beside NAME.session stand NAME.stdout, its answers byte by byte, and NAME.trace, the steps that are taken. Each program of a session is that
of the `.adb` file beside it, and each `.adb` file is loaded by a session. The file `asked` says what students hand in, as the client's
`check` reads it; one of the sessions does it.
"""
import subprocess
import sys
from pathlib import Path

import sessions

TOP = Path(__file__).resolve().parents[1]
MODEL = [sys.executable, str(TOP / "tools/model/solo.py")]
TEXTS = "README.md", "instructor.md", "asked"


def answered(command, sent):
    done = subprocess.run(command, input=sent.encode(), capture_output=True, timeout=300)
    return done.stdout.decode("latin-1")


def answers(told):
    """The lines of each answer; a refused request has the one that refuses it."""
    lines, found = told.splitlines(), []
    while lines:
        first = lines.pop(0)
        count = int(first[2:]) if first.startswith("+ ") else 0
        found.append(lines[:count] if first.startswith("+ ") else [first])
        del lines[:count]
    return found


def single_steps(asked, told):
    """The session with each step asked for by itself, between what can be done and what is put out."""
    for (line, texts), answer in zip(asked, told):
        word, *numbers = line.split()
        if word in ("RUN", "STEP") and answer[0].startswith("ran "):
            step = "RUN 1" if word == "RUN" else line
            yield from [("MOVES", []), (step, []), ("OUTPUT", [])] * int(answer[0].split()[1])
        elif word in ("LOAD", "RESET", "CHOOSE", "ADVANCE"):
            yield line, texts


class Trace:
    """Writes one line for each step, and one for all that is put out or happens to the clock."""

    def __init__(self):
        self.lines, self.source, self.choices, self.moves, self.number, self.output, self.state = [], [], [], [], 0, 0, None

    def begin(self, name=None):
        self.choices, self.number, self.output, self.state = [], 0, 0, None
        self.lines += [*([""] if self.lines else []), name or "begun anew", "step move  task"]

    def take(self, word, numbers):
        move = numbers[0] if word == "STEP" else 0
        if word == "RUN" and len(self.moves) > 1 and self.choices:
            move = self.choices.pop(0) % len(self.moves)
        _, task, name, line, does = self.moves[move].split(" ", 4)
        self.number += 1
        chosen = str(move) if len(self.moves) > 1 else ""
        self.lines.append(f"{self.number:4} {chosen:>4} {task:>3} {name:22} {does:12} {line:>3} | {self.source[int(line) - 1].strip()}")

    def put(self, answer):
        text = "\n".join(answer[1:])
        self.lines += [f"{'':10}> {line}" for line in text[self.output :].removeprefix("\n").split("\n") if len(text) > self.output]
        self.output = len(text)

    def look(self, request, answer):
        (line, texts), (word, *numbers) = request, request[0].split()
        numbers = [int(number) for number in numbers]
        if word == "LOAD":
            self.source = texts
            self.begin(sessions.program_name(line, texts))
        elif word == "RESET":
            self.begin()
        elif word == "CHOOSE":
            self.choices += numbers
        elif word == "MOVES":
            self.moves = answer
        elif word in ("RUN", "STEP"):
            self.take(word, numbers)
            self.state = answer[0].split(" ", 2)[2]
        elif word == "ADVANCE":
            self.lines.append(f"{'':10}{answer[0]}")
        elif word == "OUTPUT":
            self.put(answer)

    def text(self):
        return "".join(f"{line}\n" for line in [*self.lines, f"{'':10}{self.state}"])


def trace(command, sent, told):
    asked = list(single_steps(sessions.requests(sent), answers(told)))
    again = answers(answered(command, "".join("\n".join([line, *texts]) + "\n" for line, texts in asked)))
    if len(again) < len(asked):
        return "too few answers\n"
    written = Trace()
    for request, answer in zip(asked, again):
        written.look(request, answer)
    return written.text()


def look_at(path, command, is_writing):
    """Which of a session's files differ."""
    sent = sessions.completed(path)
    told = answered(command, sent)
    differ = []
    for suffix, text in (".session", sent), (".stdout", told), (".trace", trace(command, sent, told)):
        file = path.with_suffix(suffix)
        if file.exists() and file.read_text() == text:
            continue
        if is_writing:
            file.write_text(text)
        else:
            differ.append(file)
    return differ


def is_reached(goal, asked, told):
    """Whether answers show a goal: `stuck`, `more`, `output TEXT` or `vars NAME VALUE`."""
    kind, _, rest = goal.partition(" ")
    if kind == "output":
        return any(line == "OUTPUT" and rest in answer[1:] for (line, _), answer in zip(asked, told))
    if kind == "vars":
        shown = " " + rest.replace(" ", " = ", 1)
        looked = [answer for (line, _), answer in zip(asked, told) if line[:4] in ("VARS", "OBJE")]
        return any(line.endswith(shown) for answer in looked for line in answer)
    states = [answer[0].split(" ", 2)[2] for (line, _), answer in zip(asked, told) if line[:4] in ("RUN ", "STEP")]
    return states[-1:] == [kind]


def shows(path, name, goals):
    """Whether a session of a program, by its answers as they are written, comes to all goals."""
    asked = sessions.requests(path.read_text())
    told = path.with_suffix(".stdout")
    if not told.exists() or all(sessions.program_name(line, texts) != name for line, texts in asked if texts):
        return False
    return all(is_reached(goal, asked, answers(told.read_text())) for goal in goals)


def is_asked(folder, paths):
    """Whether a session does what the students are asked for."""
    demands = [line.partition(" ")[::2] for line in (folder / "asked").read_text().splitlines()]
    (name,) = [words for kind, words in demands if kind == "program"]
    return any(shows(path, name, [words for kind, words in demands if kind == "reach"]) for path in paths)


def missing(folder, paths):
    """What a folder should have."""
    found = [f"{(folder / text).relative_to(TOP)}: is missing" for text in TEXTS if not (folder / text).exists()]
    loaded = {sessions.program_name(line, texts) for path in paths for line, texts in sessions.requests(path.read_text()) if texts}
    found += [f"{path.relative_to(TOP)}: no session loads it" for path in sorted(folder.glob("*.adb")) if path.name not in loaded]
    if not found and not is_asked(folder, paths):
        found.append(f"{(folder / 'asked').relative_to(TOP)}: no session does it")
    return found


def main(words):
    is_writing = words[0] == "--write"
    command = MODEL if words[0] in ("--write", "--model") else [words[0], "--solo"]
    folders = [Path(word).resolve() for word in words[1:]] or sorted((TOP / "course").glob("[0-9]*/"))
    count, faults = 0, []
    for folder in folders:
        paths = sorted(folder.glob("*.session"))
        count += len(paths)
        for path in paths:
            faults += [f"{file.relative_to(TOP)}: differs" for file in look_at(path, command, is_writing)]
        faults += missing(folder, paths)
    print("\n".join([*faults, f"course: {count} sessions of {len(folders)} exercises, {len(faults)} faults"]))
    return len(faults) > 0


if __name__ == "__main__":
    if len(sys.argv) < 2:
        sys.exit(__doc__)
    sys.exit(main(sys.argv[1:]))
