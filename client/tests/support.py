"""What tests share: the programs, a server of one's own, a shell that is typed at."""
import io
import os
import socket
import subprocess
import sys
import time
import unittest

from audclient.protocol import Served, Solo
from audclient.session import Session
from audclient.shell import Shell
from audclient.show import Screen
from audclient.source import Source

HERE = os.path.dirname(os.path.abspath(__file__))
CLIENT = os.path.dirname(HERE)
AUD = os.environ.get("AUD") or os.path.join(CLIENT, "..", "crates", "aud", "out", "aud")
SERVER = os.environ.get("AUD_SERVER") or AUD
BEGUN = 10  # seconds in which a server is to listen


def program(name):
    return os.path.join(HERE, "programs", name + ".adb")


class Server:
    """A server at a free port, until it is stopped."""

    def __init__(self, seats=8):
        self.seats, self.process = seats, None
        with socket.socket() as found:
            found.bind(("127.0.0.1", 0))
            self.port = found.getsockname()[1]
        self.start()

    def start(self):
        until = time.monotonic() + BEGUN
        while True:
            words = [SERVER, "--port", str(self.port), "--seats", str(self.seats), "--workers", "2"]
            self.process = subprocess.Popen(words, stderr=subprocess.DEVNULL)
            while self.process.poll() is None:
                try:
                    socket.create_connection(("127.0.0.1", self.port), 1).close()
                    return
                except OSError:
                    time.sleep(0.01)
            if time.monotonic() > until:
                raise RuntimeError("the server does not listen")

    def stop(self):
        self.process.kill()
        self.process.wait()

    def place(self, seat=None):
        return Served("127.0.0.1", self.port, seat)


class Typed:
    """A shell, and what it says to what is typed."""

    def __init__(self, place, name=None):
        self.stream = io.StringIO()
        self.session = Session(place)
        self.session.start()
        self.shell = Shell(self.session, Screen(self.stream, False), stdin=io.StringIO())
        if name:
            self.type(f"load {program(name)}")

    def type(self, *lines):
        """What is shown for these lines."""
        begun = len(self.stream.getvalue())
        for it in lines:
            self.shell.onecmd(it)
        return self.stream.getvalue()[begun:]

    def close(self):
        self.session.close()


class Case(unittest.TestCase):
    """A test that asks a program of its own; what it types is shown where it fails."""

    maxDiff = None

    def place(self):
        return Solo(AUD)

    def typed(self, name=None):
        typed = Typed(self.place(), name)
        self.addCleanup(typed.close)
        return typed

    def session(self, name):
        session = Session(self.place())
        self.addCleanup(session.close)
        session.start()
        session.load(Source.read(program(name)))
        return session


class ServedCase(Case):
    """The same at a server."""

    @classmethod
    def setUpClass(cls):
        cls.server = Server()
        cls.addClassCleanup(cls.server.stop)

    def place(self):
        return self.server.place()


def client(*words, lines=(), **environment):
    """Runs the client as a program: its status, and what it says."""
    ran = subprocess.run(
        [sys.executable, os.path.join(CLIENT, "aud"), *words], input="".join(it + "\n" for it in lines), text=True,
        stdout=subprocess.PIPE, stderr=subprocess.STDOUT, env={**os.environ, "AUD": AUD, **environment}, timeout=60)
    return ran.returncode, ran.stdout
