"""What the listening program tells a connection before it is asked anything: that it speaks `aud 2`, and the limits of each seat."""
import re
import sys
from pathlib import Path

sys.path.append(str(Path(__file__).resolve().parent / "model"))
from state import LARGE, STANDARD, Limits

COUNT = re.compile(rb"\+ ([1-9][0-9]*)")
SEAT = re.compile(rb"seat ([1-9][0-9]*) tasks ([1-9][0-9]*) source ([1-9][0-9]*)")


class Wrong(Exception):
    """Something else is answered than there has to be."""


def limits_of(seats, large):
    """The limits of so many seats, the first of which are large."""
    return [LARGE] * large + [STANDARD] * (seats - large)


def greeting_in(told):
    """The limits of each seat by the greeting with which some bytes begin, and the bytes behind it; None where they end within it."""
    lines = told.split(b"\n")
    if len(lines) == 1:
        return None
    count = COUNT.fullmatch(lines[0])
    if not count:
        raise Wrong(f"the greeting begins with {lines[0][:60]!r}")
    end = int(count[1]) + 1
    if len(lines) <= end:
        return None
    if lines[1] != b"aud 2":
        raise Wrong(f"the greeting has {lines[1][:60]!r}, and not 'aud 2'")
    return [seat_of(number, line) for number, line in enumerate(lines[2:end], 1)], b"\n".join(lines[end:])


def seat_of(number, line):
    """The limits by the line of a seat."""
    seat = SEAT.fullmatch(line)
    if not seat or int(seat[1]) != number:
        raise Wrong(f"the greeting has {line[:60]!r} for seat {number}")
    return Limits(int(seat[2]), int(seat[3]))


def read_greeting(link):
    """Reads a connection's greeting: the limits of each seat, and the bytes that have come behind it."""
    told = b""
    while (found := greeting_in(told)) is None:
        piece = link.recv(1 << 16)
        if not piece:
            raise Wrong(f"the connection ends within the greeting, behind {told[-60:]!r}")
        told += piece
    return found
