"""Sessions, and the programs beside them.

A session is a file of all that is sent to `aud --solo`, texts of programs too. Each of these texts stands in its folder as an `.adb` file
as well, named as its procedure in small letters: that one is edited.

    python3 tools/sessions.py FILE ..           tells which sessions hold another text than the `.adb` file
    python3 tools/sessions.py --write FILE ..   puts the texts of the `.adb` files into the sessions; a new session begins with the
                                                line `LOAD name.adb`
"""
import re
import sys
from pathlib import Path

PROCEDURE = re.compile(r"procedure +(\w+) +is\b", re.IGNORECASE)


class Missing(Exception):
    """A program has no `.adb` file."""


def requests(sent):
    """Each request of a session: its line, and the lines of its program."""
    lines, found = sent.splitlines(), []
    while lines:
        line, count = lines.pop(0), 0
        if counted := re.fullmatch(r"LOAD (\d+)", line):
            count = int(counted[1])
        found.append((line, lines[:count]))
        del lines[:count]
    return found


def program_name(line, texts):
    """The file of the program that a LOAD loads; None where it is no whole program."""
    if named := re.fullmatch(r"LOAD (\w+\.adb)", line):
        return named[1]
    named = PROCEDURE.search("\n".join(texts))
    return named and named[1].lower() + ".adb"


def completed(path):
    """The session with the texts that its `.adb` files have now."""
    lines = []
    for line, texts in requests(path.read_text()):
        name = line.startswith("LOAD ") and program_name(line, texts)
        if name and not (path.parent / name).exists():
            raise Missing(f"{path}: {name} is not beside it")
        if name:
            texts = (path.parent / name).read_text().splitlines()
            line = f"LOAD {len(texts)}"
        lines += [line, *texts]
    return "".join(line + "\n" for line in lines)


def main(words):
    is_writing, differ = words[:1] == ["--write"], 0
    for path in map(Path, words[is_writing:]):
        now = completed(path)
        if now == path.read_text():
            continue
        if is_writing:
            path.write_text(now)
        else:
            differ += 1
            print(f"{path}: another program than the .adb file")
    return differ > 0


if __name__ == "__main__":
    try:
        sys.exit(main(sys.argv[1:]))
    except Missing as missing:
        sys.exit(str(missing))
