"""The listening program, run at a port of 127.0.0.1 that the system gives, and connections to it."""
import socket
import time

HERE = "127.0.0.1"
PATIENCE = 60.0  # seconds that a run, or a call of a client, may take
TAKEN = 3  # the status where the port cannot be listened on
AGAIN = 5  # how often another port is tried


def free_port():
    with socket.socket() as found:
        found.bind((HERE, 0))
        return found.getsockname()[1]


def connected(process, port):
    """A connection, once the port is listened on; None where the program has ended."""
    until = time.monotonic() + PATIENCE
    while process.poll() is None:
        try:
            return socket.create_connection((HERE, port), PATIENCE)
        except (ConnectionRefusedError, ConnectionResetError):
            # (it does not listen yet, or has just ended)
            if until < time.monotonic():
                raise
            time.sleep(0.002)
    return None


def at_free_port(run):
    """What a run gives, the first part of which is the status: at another port where somebody else took the port meanwhile."""
    for _ in range(AGAIN):
        ran = run(free_port())
        if ran[0] != TAKEN:
            break
    return ran
