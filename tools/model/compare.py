"""Compares the answers of the model with those of sessions that are written down, and with those of `aud --solo` on programs made by
chance. tools/check calls it, with the program, the first seed and how many seeds to take, and `tasks` where the programs may have tasks,
`protected` where they have protected objects too, `abort` where they abort tasks besides, `requeue` where they make calls again besides,
`each` for so many of each of these kinds."""
import re
import subprocess
import sys
from pathlib import Path

import chance
import session

SESSIONS = Path(__file__).resolve().parents[2] / "crates/aud_session_tests/data"
KINDS = "", "tasks", "protected", "abort", "requeue"
REPEATED = re.compile(r"\{(\d+) (#?)([^}]*)\}")


def text(line):
    """What stands behind the sign of a line, as crates/aud_session_tests/src/session.rt reads it."""
    form = line[:2] if line.startswith(("* ", "- ")) else ""
    if not form:
        return line[1:] + "\n"
    count, _, plain = line[2:].partition(" ") if form == "* " else ("1", "", line[2:])
    plain = REPEATED.sub(lambda it: int(it[1]) * (chr(int(it[3])) if it[2] else it[3]), plain)
    return int(count) * (plain + "\n" if form == "* " else plain)


def sessions(file):
    """The name of each session, what is sent and what is answered."""
    found = []
    for line in file.split("\n"):
        if line.startswith("= "):
            found.append([line[2:], "", ""])
        elif line.startswith((">", "<")):
            found[-1][1 if line[0] == ">" else 2] += text(line[1:])
    return found


def compare_sessions():
    same = other = 0
    for file in sorted(SESSIONS.glob("*.txt")):
        for name, sent, told in sessions(file.read_text(encoding="latin-1")):
            if session.answers(sent) == told:
                same += 1
            else:
                other += 1
                print(f"{file.name}: {name}")
    print(f"sessions: {same} alike, {other} not")
    return other


def compare_programs(program, first, count, kind):
    other = refused = 0
    for seed in range(first, first + count):
        sent = chance.session(seed, kind != "", kind in ("protected", "abort", "requeue"), kind in ("abort", "requeue"), kind == "requeue")
        behind = int(sent[0].split()[1]) + 1
        sent[behind:behind] = [f"SEAT {seed * 4_999 % 20_000:05}"] * (seed % 3 == 0)
        sent = "".join(line + "\n" for line in sent)
        wanted = session.answers(sent)
        done = subprocess.run([program, "--solo"], input=sent, capture_output=True, text=True, encoding="latin-1", timeout=60)
        refused += done.stdout.startswith("-")
        if done.stdout != wanted:
            other += 1
            told = zip(done.stdout.split("\n"), wanted.split("\n"))
            print(f"seed {seed}: {next((pair for pair in told if pair[0] != pair[1]), 'one ends before the other')}")
    print(f"programs{kind and ' of ' + kind}: {count - other} alike, {other} not, {refused} refused")
    return other


if __name__ == "__main__":
    sys.setrecursionlimit(100_000)
    differ = compare_sessions()
    if len(sys.argv) > 1:
        kind = "".join(sys.argv[4:])
        if kind not in (*KINDS, "each"):
            sys.exit(f"model: no kind {kind}")
        kinds = KINDS if kind == "each" else [kind]
        for kind in kinds:
            differ += compare_programs(sys.argv[1], int(sys.argv[2]), int(sys.argv[3]), kind)
        print(f"model: {sys.argv[3]} programs of {len(kinds)} kinds and all sessions, {differ} not alike")
    sys.exit(differ > 0)
