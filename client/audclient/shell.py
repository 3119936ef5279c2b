"""The shell: a command a line."""
import cmd
import contextlib
import glob
import os
import re
import readline
import time

from . import files, goals, hints
from .finding import Finding
from .going import Going
from .looking import Looking
from .protocol import Refused, Unreachable
from .session import Stopped, TooLong
from .source import Fault, Source
from .stepping import Stepper
from .words import Wrong

GROUPS = (
    ("the program", "load list replay save check"),
    ("on and back", "step run until back forward reset advance random choices"),
    ("what is", "moves tasks waits queues objects vars output clock trace"),
    ("find", "search"),
    ("", "help quit"),
)
COMMANDS = " ".join(it for _, it in GROUPS).split()
SHORT = {"s": "step", "r": "run", "b": "back", "f": "forward", "l": "list", "u": "until", "m": "moves", "t": "tasks", "q": "quit"}
AGAIN = ("step", "back", "forward", "run")  # what an empty line does again
GOALS = ("all", "stuck", "circle", "ended", "endless", "output", "vars", "raised")
OF_FILES = ("load", "replay", "save", "check")
HISTORY = os.path.join(os.path.expanduser("~"), ".aud_history")
LINES_KEPT = 1000  # of it

REFUSED = {
    "E10": "this aud does not know the request: it is older than the client",
    "E17": "the program has made 1,000,000 steps, the most of a run: `back` or `reset`",
    "E18": "more than 10,000 choices would wait",
}


class Shell(Looking, Going, Finding, cmd.Cmd):
    prompt = "aud> "

    def __init__(self, session, screen, is_typed=True, stdin=None):
        super().__init__(stdin=stdin, stdout=screen.stream)
        self.session, self.screen, self.is_typed = session, screen, is_typed
        self.stepper = Stepper(session)
        self.output = [""]  # what was shown of it
        self._progress = 0.0  # when it was told last
        session.say = lambda words: screen.say(screen.paint(f"({words})", 33))
        if not is_typed:
            # Commands come from a file: each is shown before what it does, so that the whole reads like a session.
            self.prompt, self.use_rawinput = "", False

    # -- around commands --

    def cmdloop(self, intro=None):
        if not self.is_typed:
            return super().cmdloop(intro)
        with contextlib.suppress(OSError):
            readline.read_history_file(HISTORY)
        while True:
            try:
                super().cmdloop(intro)
                break
            except KeyboardInterrupt:
                # At the prompt it drops what was typed.
                self.screen.say("")
                intro = ""
        with contextlib.suppress(OSError):
            readline.set_history_length(LINES_KEPT)
            readline.write_history_file(HISTORY)
        return None

    def onecmd(self, line):
        if not self.is_typed and line != "EOF":
            self.screen.say(f"aud> {line}")
        try:
            return super().onecmd(line)
        except (Wrong, goals.BadGoal, files.BadFile) as wrong:
            self.screen.say(str(wrong))
        except Refused as refused:
            self.screen.say(REFUSED.get(refused.code, f"refused: {refused}"))
        except Stopped as stopped:
            self.screen.state(stopped.ran)
        except TooLong:
            self.screen.say("the clock was turned too often or too far for this run to be repeated: `back` or `reset`")
        except Unreachable as unreachable:
            self.screen.say(f"no session: {unreachable}", "the next command tries again")
        except OSError as error:
            self.screen.say(f"{error.filename}: {error.strerror}" if error.filename else str(error))
        except UnicodeError as error:
            self.screen.say(f"not ASCII: {error}")
        except ValueError as error:
            self.screen.say(f"not understood: {error}")
        except KeyboardInterrupt:
            self.screen.say("", "stopped")
        return False

    def default(self, line):
        word, _, rest = line.strip().partition(" ")
        found = [SHORT[word]] if word in SHORT else [it for it in COMMANDS if it.startswith(word)]
        if len(found) != 1:
            known = f"`{word}` may be {', '.join(found)}" if found else f"no command `{word}`"
            raise Wrong(f"{known}: `help` tells the commands")
        return super().onecmd(f"{found[0]} {rest}")

    def emptyline(self):
        word = self.lastcmd.split(" ")[0]
        if self.is_typed and SHORT.get(word, word) in AGAIN:
            return self.onecmd(self.lastcmd)
        return False

    def tell_progress(self, words):
        """A line that the next one overwrites, where somebody looks."""
        now = time.monotonic()
        if self.screen.is_coloured and (not words or now > self._progress + 0.2):
            self._progress = now
            self.screen.stream.write(f"\r\033[K{words}")
            self.screen.stream.flush()

    # -- commands --

    def do_load(self, words):
        """load FILE  load an Ada program"""
        path = self.one_file(words)
        source = Source.read(path)
        if source.lines and re.fullmatch(r"LOAD \d+", source.lines[0]):
            raise Wrong(f"{path} is a session: `replay {path}` takes it")
        before = self.session.source
        if not self.load(source) and before:
            self.screen.say(f"{before.program} stays loaded")

    def load(self, source):
        """Loads a program, or tells its fault: whether it is loaded."""
        fault = source.fault
        if fault is None:
            try:
                self.session.load(source)
            except Refused as refused:
                fault = Fault(refused.code, *(refused.place or (None, None)), refused.words)
                if fault.code == "E22":
                    size, most = sum(len(it) + 1 for it in source.lines), self.session.place.source_limit
                    fault = fault._replace(words=f"source too long: {size} bytes, and {most} is the most")
        if fault is not None:
            for it in hints.told(source, fault):
                self.screen.say(it)
            return False
        self.screen.source = source
        self.stepper.begin(self.stepper.seed)
        self.output = [""]
        name = os.path.basename(source.name)
        self.screen.say(f"loaded {source.program}" + (f": {name}, {len(source.lines)} lines" if name else ""))
        return True

    def do_help(self, words):
        """help [COMMAND]  what the commands do, a line each"""
        if words.strip():
            name = SHORT.get(words.strip(), words.strip())
            if name not in COMMANDS:
                raise Wrong(f"no command `{name}`")
            first, *rest = getattr(self, "do_" + name).__doc__.strip().split("\n")
            self.screen.say(*_halves(first), *(it.strip() for it in rest))
            return
        for group, names in GROUPS:
            self.screen.say(self.screen.paint(group, 1))
            for it in names.split():
                head, does = _halves(getattr(self, "do_" + it).__doc__.strip().split("\n")[0])
                self.screen.say(f"  {head:<33}{does}")
        self.screen.say("", "`help COMMAND` says more. A command may be cut short (un 31), and so may: "
                        + ", ".join(f"{k} {v}" for k, v in SHORT.items()))

    def do_quit(self, _):
        """quit  end; so does Ctrl-D"""
        return True

    def do_EOF(self, _):
        if self.is_typed:
            self.screen.say("")
        return True

    # -- what is typed --

    def completenames(self, text, *_):
        return [it + " " for it in COMMANDS if it.startswith(text)]

    def completedefault(self, text, line, begin, end):
        word = line.split(" ")[0]
        if SHORT.get(word, word) in OF_FILES:
            start = line[:end].rpartition(" ")[2]
            cut = len(start) - len(text)
            return [it[cut:] + ("/" if os.path.isdir(it) else "") for it in sorted(glob.glob(glob.escape(start) + "*"))]
        if word == "search":
            return [it + " " for it in GOALS if it.startswith(text)]
        if word == "help":
            return [it for it in COMMANDS if it.startswith(text)]
        return []



def _halves(line):
    """The words of a command, and what it does: two spaces stand between."""
    head, _, does = line.partition("  ")
    return head, does
