"""Answers the session on standard input as `aud --solo` does, once all of it has come."""
import sys

import session

if __name__ == "__main__":
    sys.setrecursionlimit(100_000)
    sys.stdout.write(session.answers(sys.stdin.buffer.read().decode("latin-1")))
