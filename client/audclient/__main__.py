"""The command line."""
import argparse
import os
import shlex
import shutil
import sys

from .files import BadFile
from .grading import grade
from .protocol import Served, Solo, Unreachable
from .session import Session
from .shell import Shell
from .show import Screen

TOP = os.path.dirname(os.path.dirname(os.path.dirname(os.path.abspath(__file__))))
PORT = 7070


def main(words=None):
    options = _parser().parse_args(words)
    screen = Screen()
    session = Session(_place(options))
    is_typed = sys.stdin.isatty()
    try:
        session.start()
        if options.files[:1] == ["check"]:
            return 0 if grade(session, options.files[1:], screen) else 1
        shell = Shell(session, screen, is_typed, None if is_typed else sys.stdin)
        if options.files and not _opened(shell, options.files[0]) and not is_typed:
            return 1
        shell.cmdloop("`help` tells the commands." if is_typed else None)
    except BrokenPipeError:
        sys.stderr.close()  # Python's own complaint
        return 1
    except (Unreachable, BadFile, OSError) as error:
        print(f"aud: {error}", file=sys.stderr)
        return 2
    except KeyboardInterrupt:
        return 130
    finally:
        session.close()
    return 0


def _opened(shell, path):
    """Loads a program, or replays a session."""
    shell.onecmd(f"{'load' if path.endswith(('.adb', '.ada')) else 'replay'} {shlex.quote(path)}")
    return shell.session.source is not None


def _parser():
    parser = argparse.ArgumentParser(
        prog="aud", description="Loads an Ada tasking program, and steps, searches and shows it.",
        usage="aud [--at HOST:PORT [--seat K]] [PROGRAM.adb | SESSION]\n       aud check [ASKED] FILE ..",
        epilog="Without --at it starts `aud --solo` itself: the program that AUD or --program names, or that was built here.",
    )
    parser.add_argument("--at", metavar="HOST:PORT", help="a server, as 127.0.0.1:7070")
    parser.add_argument("--seat", metavar="K", type=int, help="its seat; without it the first that is free")
    parser.add_argument("--program", metavar="PROGRAM", help="the built aud")
    parser.add_argument("files", nargs="*", metavar="FILE", help=argparse.SUPPRESS)
    return parser


def _place(options):
    if options.at is None:
        return Solo(options.program or _program())
    host, _, port = options.at.rpartition(":")
    if not port.isdigit() or not host and ":" in options.at:
        host, port = options.at, PORT
    return Served(host or "127.0.0.1", int(port), options.seat)


def _program():
    """The built program."""
    named = os.environ.get("AUD")
    built = [os.path.join(TOP, "crates", it, "out", it) for it in ("aud", "aud_alone")]
    for it in [named] if named else built:
        if os.access(it, os.X_OK) and os.path.isfile(it):
            return it
    found = shutil.which("aud")
    if found and not named and not os.path.samefile(found, os.path.join(TOP, "client", "aud")):
        return found
    if named:
        raise SystemExit(f"aud: AUD names {named}, which is no program")
    raise SystemExit(
        "aud: no program was built here (README.md, Try it): name one by AUD or --program, or a server by --at HOST:PORT")


if __name__ == "__main__":
    sys.exit(main())
