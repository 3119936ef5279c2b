"""Tries what the documents show of a shell and of the client, and tells where something else is shown.

    python3 tools/tutorial.py PROGRAM [FILE ..]           README.md and docs/TUTORIAL.md, where no file is named
    python3 tools/tutorial.py --write PROGRAM [FILE ..]   writes into them what is shown

It looks at blocks that begin with ```console. In these `$ ` stands before what is typed in a shell, `aud> ` before what is typed in the
client, which goes on in later blocks until a shell is typed in again. All is tried in a terminal without colours, with PROGRAM as the built
one, in a folder that holds what the repository does and is dropped at the end. Seconds that something takes may differ.
"""
import contextlib
import fcntl
import os
import pty
import re
import select
import signal
import struct
import sys
import tempfile
import termios
from pathlib import Path

TOP = Path(__file__).resolve().parents[1]
DOCUMENTS = "README.md", "docs/TUTORIAL.md"
FOLDERS = "client", "course", "docs", "examples"
BEGIN, END = "```console", "```"
SHELL, CLIENT = "$ ", "aud> "
SECONDS = 120  # for which an answer is waited for
SIZE = struct.pack("HHHH", 50, 1000, 0, 0)  # of the terminal: no line is wrapped


class Terminal:
    """A terminal in which one command runs after the other."""

    def __init__(self, program, home):
        self.home, self.fd, self.child = home, None, None
        self.words = {**os.environ, "TERM": "dumb", "AUD": program, "HOME": home, "LC_ALL": "C.UTF-8", "PYTHONDONTWRITEBYTECODE": "1"}

    def type(self, line):
        """What is shown after a line that is typed, up to where the next one may be."""
        if line.startswith(SHELL):
            self.close()
            self._begin(line[len(SHELL):])
            return self._shown()
        if self.fd is None:
            return ["no client runs"]
        os.write(self.fd, line[len(CLIENT):].encode() + b"\n")
        return self._shown()[1:]

    def _begin(self, command):
        self.child, self.fd = pty.fork()
        if self.child == 0:
            fcntl.ioctl(0, termios.TIOCSWINSZ, SIZE)
            os.chdir(self.home)
            os.execve("/bin/sh", ["sh", "-c", command], self.words)

    def _shown(self):
        shown = b""
        while not f"\n{shown.decode(errors='replace')}".endswith(f"\n{CLIENT}"):
            if not select.select([self.fd], [], [], SECONDS)[0]:
                self.close()
                shown += b"nothing more within %d seconds" % SECONDS
                break
            piece = b""
            with contextlib.suppress(OSError):
                piece = os.read(self.fd, 65536)
            if not piece:
                self.close()
                break
            shown += piece
        lines = shown.decode(errors="replace").replace("\r\n", "\n").removesuffix(CLIENT).split("\n")
        return [it.rstrip() for it in (lines[:-1] if lines[-1] == "" else lines)]

    def close(self):
        if self.fd is not None:
            os.close(self.fd)
            with contextlib.suppress(ProcessLookupError):
                os.kill(self.child, signal.SIGHUP)
            os.waitpid(self.child, 0)
            self.fd = None


def typed(lines):
    """Where something is typed in a document: the numbers of its line, and of the line behind what is shown for it."""
    found, is_within = [], False
    for at, line in enumerate([*lines, END]):
        if line == BEGIN:
            is_within = True
        elif is_within and (line == END or line.startswith((SHELL, CLIENT))):
            if found and found[-1][1] is None:
                found[-1][1] = at
            is_within = line != END
            if is_within:
                found.append([at, None])
    return found


def plain(line):
    return re.sub(r"\b\d+\.\d+ s\b", "N s", line)


def tried(path, terminal, is_writing):
    """What is typed in a document, as a number, and where something else is shown than stands there."""
    lines = path.read_text().splitlines()
    places, faults, late = typed(lines), [], 0
    if not places:
        faults.append(f"{path}: nothing is typed in it")
    for begin, end in places:
        begin, end = begin + late, end + late
        wanted, shown = lines[begin + 1:end], terminal.type(lines[begin])
        if list(map(plain, wanted)) == list(map(plain, shown)):
            continue
        same = next((at for at, (one, other) in enumerate(zip(wanted, shown)) if plain(one) != plain(other)), min(len(wanted), len(shown)))
        has, is_shown = (f"`{its[same]}`" if same < len(its) else "nothing more" for its in (wanted, shown))
        faults.append(f"{path}:{begin + same + 2 - late}: after `{lines[begin]}` stands {has}, shown is {is_shown}")
        if is_writing:
            lines[begin + 1:end] = shown
            late += len(shown) - len(wanted)
    terminal.close()
    if is_writing and faults:
        path.write_text("".join(f"{it}\n" for it in lines))
    return len(places), faults


def laid_out(folder, program):
    """A folder that looks like the repository with a built program."""
    for it in FOLDERS:
        if (TOP / it).exists():
            (folder / it).symlink_to(TOP / it)
    built = folder / "crates/aud/out/aud"
    built.parent.mkdir(parents=True)
    built.symlink_to(program)


def main(words):
    is_writing = words[:1] == ["--write"]
    program, *files = words[is_writing:]
    program = str(Path(program).resolve())
    count, faults = 0, []
    paths = [Path(it) for it in files] or [TOP / it for it in DOCUMENTS]
    for path in paths:
        with tempfile.TemporaryDirectory() as folder:
            laid_out(Path(folder), program)
            typed_here, faults_here = tried(path, Terminal(program, folder), is_writing)
        count, faults = count + typed_here, faults + faults_here
    print("\n".join([*faults, f"tutorial: {count} lines typed in {len(paths)} documents, {len(faults)} faults"]))
    return len(faults) > 0


if __name__ == "__main__":
    if len(sys.argv) < 2:
        sys.exit(__doc__)
    sys.exit(main(sys.argv[1:]))
