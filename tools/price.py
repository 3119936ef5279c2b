"""Runs the gate, and tells the user time of its processes by crate and by what they did.

The unit is the user time of `rt selftest`, so that machines can be compared: the mean of those that run beside the gate, one every five minutes from its
beginning to its end, since a busy machine takes more user time for the same work. Three before it, alone, are told too. Processes are looked at ten times a
second, so what one does in its last tenth is not counted for its crate; the sum is exact.
Only those that this gate has started are counted, whatever else runs on the machine. tools/check calls it.
"""
import os
import subprocess
import sys
import threading
import time
from collections import defaultdict
from statistics import mean, median

TICK = os.sysconf("SC_CLK_TCK")
PARTS = ("proof", "tests", "edits", "other")
# How many selftests run alone, and the seconds from one beside the gate to the next.
ALONE, APART = 3, 300


def spent(command, name):
    """Runs it, its output in a file of that name, and answers its user time and its last line."""
    with open(name, "w", encoding="utf-8") as out:
        process = subprocess.Popen(command, stdout=out, stderr=subprocess.STDOUT)
        _, status, used = os.wait4(process.pid, 0)
        process.returncode = os.waitstatus_to_exitcode(status)
    with open(name, encoding="utf-8", errors="replace") as out:
        return used.ru_utime, out.read().rstrip("\n").split("\n")[-1]


def selftest(where):
    seconds, said = spent(["rt", "selftest"], "/tmp/price-selftest.log")
    print(f"{said}, {where}: {seconds:.1f} seconds", flush=True)
    return seconds


def selftests_beside(units, ended):
    """Notes the user times of selftests, the last of which may end after the gate."""
    while not ended.is_set():
        began = time.time()
        units.append(selftest("beside the gate"))
        ended.wait(began + APART - time.time())


def what_it_does(pid):
    """The crate and the part of the gate that a process of the prover works on."""
    with open(f"/proc/{pid}/cmdline", "rb") as it:
        words = it.read().decode(errors="replace").split("\0")
    if not words[0].endswith("rattle") or "--crate-name" not in words:
        return None
    crate = words[words.index("--crate-name") + 1]
    if not os.path.isdir(f"crates/{crate}"):
        # (a selftest's)
        return None
    if not os.path.realpath(f"/proc/{pid}/cwd").startswith(os.getcwd()):
        return crate, "edits"
    return crate, "tests" if "--test" in words else "proof"


def processes():
    """Of each process on the machine, by its id, the fields of its stat that stand behind its name."""
    found = {}
    for pid in filter(str.isdigit, os.listdir("/proc")):
        try:
            with open(f"/proc/{pid}/stat", encoding="utf-8", errors="replace") as it:
                found[pid] = it.read().rpartition(") ")[2].split()
        except OSError:
            continue
    return found


def started():
    """Those of them that this process has started, or that one of these has."""
    everything = processes()
    children = defaultdict(list)
    for pid, (_, parent, *_) in everything.items():
        children[parent].append(pid)
    found, ahead = {}, [str(os.getpid())]
    while ahead:
        for pid in children[ahead.pop()]:
            found[pid] = everything[pid]
            ahead.append(pid)
    return found


def watch(seen, ended):
    """Notes the user time of each process of the prover that this one has started, until the gate has ended."""
    while not ended.is_set():
        for pid, fields in started().items():
            try:
                what = what_it_does(pid)
            except OSError:
                continue
            if what:
                seen[pid, fields[19], what] = int(fields[11]) / TICK
        time.sleep(0.1)


def table(seen, total, unit):
    by = defaultdict(lambda: dict.fromkeys(PARTS, 0.0))
    for (_, _, (crate, part)), seconds in seen.items():
        by[crate][part] += seconds
    counted = sum(sum(parts.values()) for parts in by.values())
    by["else"]["other"] = total - counted
    print("| crate | proof | tests | edits |")
    print("|---|---|---|---|")
    for crate in sorted(by):
        if crate != "else":
            cells = " | ".join(f"{by[crate][part] / unit:.1f}" for part in PARTS[:3])
            print(f"| `{crate}` | {cells} |")
    for part in PARTS:
        print(f"{part}: {sum(parts[part] for parts in by.values()) / unit:.1f}")
    print(f"all: {total / unit:.1f} selftests of {unit:.1f} seconds")


def main():
    if sys.argv[1:] not in ([], ["--kept"]):
        sys.exit("usage: check price [--kept] (it runs the gate: all of it, or what no earlier run has kept)")
    # (a kit that keeps nothing from one run to the next has no such flag)
    keeps = "--anew" in subprocess.run(["rt", "help"], capture_output=True, text=True).stderr
    gate = ["rt", "ci", "--anew"] if keeps and not sys.argv[1:] else ["rt", "ci"]
    alone = median(selftest("alone") for _ in range(ALONE))
    seen, units, ended, began = {}, [], threading.Event(), time.time()
    beside = [threading.Thread(target=watch, args=(seen, ended)), threading.Thread(target=selftests_beside, args=(units, ended))]
    for it in beside:
        it.start()
    total, said = spent(gate, "/tmp/price-gate.log")
    minutes = (time.time() - began) / 60
    ended.set()
    for it in beside:
        it.join()
    print(f"{said}, in {minutes:.1f} minutes")
    table(seen, total, mean(units))
    print(f"by selftests alone: {total / alone:.1f} of {alone:.1f} seconds")


main()
