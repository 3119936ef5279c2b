"""Sends a session to `aud --solo` a line at a time, with a pause behind each, and looks at what has come back by then.

Behind the last line of a request its answer has to be there, whole, before the next line is sent; behind any other line of it
nothing. Behind the answer to a QUIT the program has to end by itself, with its standard input still open.
usage: typed.py PROGRAM REQUESTS ANSWERS
"""
import os
import select
import subprocess
import sys

PAUSE = 0.2
PATIENCE = 10.0


def requests_of(lines):
    """The lines of each request."""
    at = 0
    while at < len(lines):
        words = lines[at].split()
        end = at + 1 + (int(words[1]) if words[:1] == [b"LOAD"] else 0)
        yield lines[at:end]
        at = end


def answers_of(lines):
    """The text of each answer."""
    at = 0
    while at < len(lines):
        words = lines[at].split()
        end = at + 1 + (int(words[1]) if words[0] == b"+" else 0)
        yield b"".join(lines[at:end])
        at = end


def read_for(output, seconds, most):
    """What comes within so many seconds, up to so many bytes."""
    found = b""
    while len(found) < most and select.select([output], [], [], seconds)[0]:
        piece = os.read(output.fileno(), most - len(found))
        if not piece:
            break
        found += piece
    return found


def wrong(request, found, wanted):
    print(f"typed: behind {request!r} came {found!r}, and not {wanted!r}")
    return 1


def answered(process, requests, answers):
    """1 where something else is answered than there has to be, and else 0."""
    for request, answer in zip(requests, answers):
        for line in request[:-1]:
            process.stdin.write(line)
            early = read_for(process.stdout, PAUSE, 1)
            if early:
                return wrong(line, early, b"")
        process.stdin.write(request[-1])
        found = read_for(process.stdout, PATIENCE, len(answer)) + read_for(process.stdout, PAUSE, 1)
        if found != answer:
            return wrong(request[-1], found, answer)
    return 0


def ended(process):
    """The status with which the program ends by itself."""
    try:
        status = process.wait(timeout=PATIENCE)
    except subprocess.TimeoutExpired:
        print(f"typed: {PATIENCE:.0f} seconds behind the last answer the program has not ended")
        return 1
    if status:
        print(f"typed: the program ended with status {status}")
    return status


def typed(program, requests, answers):
    process = subprocess.Popen([program, "--solo"], stdin=subprocess.PIPE, stdout=subprocess.PIPE, bufsize=0)
    try:
        return answered(process, requests, answers) or ended(process)
    finally:
        process.kill()
        process.wait()


def main():
    program, sent, written = sys.argv[1:]
    with open(sent, "rb") as lines:
        requests = list(requests_of(lines.readlines()))
    with open(written, "rb") as lines:
        answers = list(answers_of(lines.readlines()))
    if len(requests) != len(answers):
        print("typed: not an answer for each request")
        return 2
    status = typed(program, requests, answers)
    if status == 0:
        print(f"typed: {len(requests)} requests, each answered before the next line")
    return status


if __name__ == "__main__":
    sys.exit(main())
