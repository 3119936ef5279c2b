"""Times `aud --solo` beside python3 and lua5.4, side by side in one run.

Loops: the same in each, the first once more with a handler around it that nothing needs; theirs within a function with local variables. A
producer and a consumer hand on numbers beside Python's queue between threads and Lua's coroutines. Of aud the processor time of
whole sessions is taken, of a LOAD alone and of a LOAD with RUNs up to the program's end; the difference is
the loop. The others time their loops themselves.
Tasks: steps a second of programs whose tasks loop or meet, in the order of the tasks and by choices.
Views: requests a second of a session that takes steps of a program with tasks and looks at it after them.
Memory: the most that a session has that takes all steps of a LOAD, where programs enter and leave frames with arrays; and python3, with
calls and lists.
LOADs: the largest source text of several shapes, how the time grows from a quarter of it, and the memory; one of the most lines that
there may be, of which each read gives a byte, and how the time grows from a quarter of them (where there is a C compiler).
Halls: steps a second of many seats that take turns beside those of one bench, and the memory of a seat at which nothing is to be done.
Desk: steps a second of the listening program with all seats busy, by several numbers of workers, beside those of one bench.
Each figure is the median of several processes, which take turns. tools/check calls it.
usage: benchmark.py PROGRAM WORLDS, or benchmark.py desk PROGRAM, likewise views and loops
"""
import os
import shutil
import subprocess
import sys
import tempfile
from collections.abc import Callable
from dataclasses import dataclass
from statistics import median
from time import perf_counter

from calls import library, surroundings
from load import CLAIMED, MOST_WORKERS, greeted, listening, processors

TIMES = 9  # processes for each figure
SOURCE = 32_768  # bytes of the largest source text
LINES = 32_768  # the most lines of a LOAD
LINE = 1_000  # bytes that are put on a line, which may have 1,024
LOADS = 20  # LOADs in a session that times them
LARGE_LOADS = 10  # LOADs of a text at a large seat: those of two lengths fit a session
# Of nine tasks each goes on, and 500 turns are nearly as many requests as a session may have.
VIEWS = b"CHOOSE " + b" ".join(b"%d" % (at % 9) for at in range(90)) + b"\nRUN 1000\nMOVES\nTASKS\nQUEUES\nVARS 1\nCLOCK\n"
TURNS = 500
SEATS = 64  # the most that a hall has
SEAT_STEPS = 500_000  # steps at each of them
PAIRS = 31  # measures of a hall, each between two of one bench
DESK_PAIRS = 7  # measures of a desk, each between two of one bench
SESSIONS_ALONE = 12  # sessions of one bench, one behind the other, that are measured together


class Work:
    """What each seat of a desk has to do: LOADs of a program of one line that loops for ever, each with all of its steps."""

    def __init__(self, name, rounds, ada):
        self.name = name
        self.steps = rounds * 1_000_000
        self.sent = (b"LOAD 1\n" + ada + b"RUN 100000\n" * 10) * rounds + b"QUIT\n"
        self.told = (b"+ 1\nloaded M\n" + b"+ 1\nran 100000 more\n" * 10) * rounds + b"+ 0\n"


WORKS = (
    Work("two assignments", 8, b"procedure M is X, Y : Integer := 0; begin loop X := X + 1; Y := X - Y; end loop; end M;\n"),
    Work("null statements", 20, b"procedure M is begin loop null; end loop; end M;\n"),
)


@dataclass
class Other:
    """Another interpreter: how it is called with a program, and the programs that time a loop and a load."""

    words: list
    loop: Callable
    load: str


@dataclass
class Loop:
    """The same loop in three languages, how often it goes around, and the steps that aud takes for it."""

    name: str
    count: int
    steps: int
    ada: str
    python: str
    lua: str


COUNTING_PYTHON = """
def loop():
    x, y = 0, 0
    while x < 300000:
        x = x + 1
        y = x - y
"""
COUNTING_LUA = """
local function loop()
  local x, y = 0, 0
  while x < 300000 do
    x = x + 1
    y = x - y
  end
end
"""


# One thread puts numbers into a queue that holds one, and another takes them; in Lua one coroutine hands them to another.
HANDING_ON_PYTHON = """
from queue import Queue
from threading import Thread
def loop():
    queue = Queue(1)
    def consume():
        for _ in range(20000):
            s = queue.get()
    consumer = Thread(target=consume)
    consumer.start()
    for i in range(20000):
        queue.put(i)
    consumer.join()
"""
HANDING_ON_LUA = """
local function loop()
  local s = 0
  local consumer = coroutine.wrap(function() while true do s = coroutine.yield() end end)
  consumer()
  for i = 1, 20000 do consumer(i) end
end
"""


def counting(name, steps, before, behind):
    """The loop that counts and makes two assignments, within other lines of a program."""
    lines = ["while X < 300000 loop", "X := X + 1;", "Y := X - Y;", "end loop;"]
    return Loop(name, 300_000, steps, "\n".join(["procedure B is", *before, *lines, *behind, "end B;", ""]), COUNTING_PYTHON, COUNTING_LUA)


X_AND_Y = "X, Y : Integer := 0;"
LOOPS = [
    counting("counting, two assignments", 900_005, [X_AND_Y, "begin"], []),
    counting("counting, in a task", 900_011, ["task T;", "task body T is", X_AND_Y, "begin"], ["end T;", "begin null;"]),
    counting("counting, in a procedure", 900_007, ["procedure P is", X_AND_Y, "begin"], ["end P;", "begin P;"]),
    counting("counting, in a block", 900_007, ["begin", "declare", X_AND_Y, "begin"], ["end;"]),
    Loop(
        "counting, with a handler around it",
        300_000,
        900_007,
        """procedure B is
X, Y : Integer := 0;
begin
begin
while X < 300000 loop
X := X + 1;
Y := X - Y;
end loop;
exception
when others => X := 0;
end;
end B;
""",
        """
def loop():
    x, y = 0, 0
    try:
        while x < 300000:
            x = x + 1
            y = x - y
    except ValueError:
        x = 0
""",
        """
local function loop()
  local x, y = 0, 0
  if not pcall(function()
    while x < 300000 do
      x = x + 1
      y = x - y
    end
  end) then
    x = 0
  end
end
""",
    ),
    Loop(
        "for, a sum",
        300_000,
        600_004,
        """procedure B is
S : Integer := 0;
begin
for I in 1 .. 300000 loop
S := I - S;
end loop;
end B;
""",
        """
def loop():
    s = 0
    for i in range(300000):
        s = i - s
""",
        """
local function loop()
  local s = 0
  for i = 1, 300000 do s = i - s end
end
""",
    ),
    Loop(
        "for, sum over an array",
        300_000,
        606_005,
        """procedure B is
A : array (0 .. 99) of Integer;
S : Integer := 0;
begin
for J in 1 .. 3000 loop
for I in A'First .. A'Last loop
S := S + A (I);
end loop;
end loop;
end B;
""",
        """
def loop():
    a, s = [0] * 100, 0
    for j in range(3000):
        for i in range(100):
            s = s + a[i]
""",
        """
local function loop()
  local a, s = {}, 0
  for i = 0, 99 do a[i] = 0 end
  for j = 1, 3000 do
    for i = 0, 99 do s = s + a[i] end
  end
end
""",
    ),
    Loop(
        "recursive calls, Fibonacci",
        21_891,
        131_349,
        """procedure B is
R : Integer;
procedure Fib (N : Integer; F : out Integer) is
X, Y : Integer;
begin
if N < 2 then
F := N;
else
Fib (N - 1, X);
Fib (N - 2, Y);
F := X + Y;
end if;
end Fib;
begin
Fib (20, R);
end B;
""",
        """
def fib(n):
    if n < 2:
        return n
    return fib(n - 1) + fib(n - 2)
def loop():
    r = fib(20)
""",
        """
local function fib(n)
  if n < 2 then return n end
  return fib(n - 1) + fib(n - 2)
end
local function loop()
  local r = fib(20)
end
""",
    ),
    Loop(
        "nested, mod and if",
        200_000,
        800_806,
        """procedure B is
I, J, S : Integer := 0;
begin
while I < 200 loop
I := I + 1;
J := 0;
while J < 1000 loop
J := J + 1;
if (I + J) mod 3 = 0 then
S := S + J mod 7;
else
S := S - 1;
end if;
end loop;
end loop;
end B;
""",
        """
def loop():
    i, j, s = 0, 0, 0
    while i < 200:
        i = i + 1
        j = 0
        while j < 1000:
            j = j + 1
            if (i + j) % 3 == 0:
                s = s + j % 7
            else:
                s = s - 1
""",
        """
local function loop()
  local i, j, s = 0, 0, 0
  while i < 200 do
    i = i + 1
    j = 0
    while j < 1000 do
      j = j + 1
      if (i + j) % 3 == 0 then
        s = s + j % 7
      else
        s = s - 1
      end
    end
  end
end
""",
    ),
    Loop(
        "short circuits",
        190_000,
        950_006,
        """procedure B is
I : Integer := 0;
P, Q : Boolean := False;
begin
while I < 190000 loop
I := I + 1;
P := I > 5 and then I mod 2 = 0;
Q := P or else not Q;
exit when I < 0 and then Q;
end loop;
end B;
""",
        """
def loop():
    i = 0
    p, q = False, False
    while i < 190000:
        i = i + 1
        p = i > 5 and i % 2 == 0
        q = p or not q
        if i < 0 and q:
            break
""",
        """
local function loop()
  local i = 0
  local p, q = false, false
  while i < 190000 do
    i = i + 1
    p = i > 5 and i % 2 == 0
    q = p or not q
    if i < 0 and q then break end
  end
end
""",
    ),
    Loop(
        "a producer and a consumer, by rendezvous",
        20_000,
        120_010,
        """procedure B is
task Consumer is
entry Take (N : in Integer);
end Consumer;
task body Consumer is
S : Integer := 0;
begin
for I in 1 .. 20000 loop
accept Take (N : in Integer) do
S := N;
end Take;
end loop;
end Consumer;
begin
for I in 1 .. 20000 loop
Consumer.Take (I);
end loop;
end B;
""",
        HANDING_ON_PYTHON,
        HANDING_ON_LUA,
    ),
    Loop(
        "a producer and a consumer, by a protected buffer of one",
        20_000,
        220_010,
        """procedure B is
protected Buffer is
entry Put (N : in Integer);
entry Get (N : out Integer);
private
Kept : Integer := 0;
Full : Boolean := False;
end Buffer;
protected body Buffer is
entry Put (N : in Integer) when not Full is
begin
Kept := N;
Full := True;
end Put;
entry Get (N : out Integer) when Full is
begin
N := Kept;
Full := False;
end Get;
end Buffer;
task Consumer;
task body Consumer is
S : Integer;
begin
for I in 1 .. 20000 loop
Buffer.Get (S);
end loop;
end Consumer;
begin
for I in 1 .. 20000 loop
Buffer.Put (I);
end loop;
end B;
""",
        HANDING_ON_PYTHON,
        HANDING_ON_LUA,
    ),
]

PYTHON_LOOP = """
from time import process_time
begin = process_time()
loop()
print(process_time() - begin)
"""
LUA_LOOP = """
local begin = os.clock()
loop()
print(os.clock() - begin)
"""
PYTHON_LOAD = """
import sys
from time import process_time
text = open(sys.argv[1]).read()
begin = process_time()
for _ in range(int(sys.argv[2])):
    compile(text, "b", "exec")
print((process_time() - begin) / int(sys.argv[2]))
"""
LUA_LOAD = """
local file = io.open(arg[1])
local text, count = file:read("a"), tonumber(arg[2])
local begin = os.clock()
for _ = 1, count do load(text) end
print((os.clock() - begin) / count)
"""


def measure(words, given=b"", env=None):
    """A process's processor time in seconds, and what it wrote."""
    with tempfile.TemporaryFile() as out, tempfile.TemporaryFile() as stdin:
        stdin.write(given)
        stdin.seek(0)
        process = subprocess.Popen(words, stdin=stdin, stdout=out, env=env)
        _, status, used = os.wait4(process.pid, 0)
        process.returncode = os.waitstatus_to_exitcode(status)
        if process.returncode != 0:
            sys.exit(f"benchmark: {words[0]} ended with status {process.returncode}")
        out.seek(0)
        return used.ru_utime + used.ru_stime, out.read()


def peak(program, given):
    """The most memory in bytes that a session had while it was watched. (What the system tells of a process that has
    ended is at least what this one had when it began it.)"""
    most = 0
    with tempfile.TemporaryFile() as stdin:
        stdin.write(given)
        stdin.seek(0)
        process = subprocess.Popen([program, "--solo"], stdin=stdin, stdout=subprocess.DEVNULL)
        while process.poll() is None:
            try:
                with open(f"/proc/{process.pid}/status") as file:
                    told = [line for line in file if line.startswith("VmHWM:")]
                    name = os.readlink(f"/proc/{process.pid}/exe")
            except OSError:
                break
            if told and os.path.samefile(name, program):
                most = max(most, int(told[0].split()[1]) * 1024)
        process.wait()
    return most


def load_of(source):
    return f"LOAD {source.count(chr(10))}\n{source}"


def of_aud(program, loop, a_run):
    """Seconds of a loop in aud, this number of steps a RUN."""
    session = load_of(loop.ada)
    runs = -(-loop.steps // a_run)
    alone, _ = measure([program, "--solo"], session.encode())
    whole, wrote = measure([program, "--solo"], (session + f"RUN {a_run}\n" * runs).encode())
    last = wrote.splitlines()[-1].decode()
    if last != f"ran {loop.steps - a_run * (runs - 1)} ended":
        sys.exit(f"benchmark: aud ended the loop '{loop.name}' by '{last}'")
    return whole - alone


def of_other(other, loop):
    return float(measure([*other.words, other.loop(loop)])[1])


def fast(number):
    return f"{number / 1e6:6.2f} million"


def loops(program, others):
    print("Loops, times around a second:")
    for loop in LOOPS:
        times = {"aud": [], "aud, 1,000 steps a RUN": [], **{name: [] for name in others}}
        for _ in range(TIMES):
            times["aud"].append(of_aud(program, loop, 100_000))
            times["aud, 1,000 steps a RUN"].append(of_aud(program, loop, 1_000))
            for name, other in others.items():
                times[name].append(of_other(other, loop))
        speed = {name: loop.count / median(seconds) for name, seconds in times.items()}
        print(f"  {loop.name}, {loop.count:,} times, {loop.steps:,} steps")
        for name, each in speed.items():
            beside = "" if name == "aud" else f"   aud is {speed['aud'] / each:.2f} of it"
            print(f"    {name:23}{fast(each)}{beside}")


# Other tasks of a program, so many of them: terminated, waiting for a call, or waiting at a call that nobody accepts.
BESIDE = {
    "terminated": ("task type Over;", "Gone : array (1 .. {}) of Over;", "task body Over is begin null; end Over;"),
    "wait": (
        "task type Waiting is entry Stop; end Waiting;",
        "Servers : array (1 .. {}) of Waiting;",
        "task body Waiting is begin select accept Stop; or terminate; end select; end Waiting;",
    ),
    "have called": (
        "task Late is entry Stop; end Late;",
        "task body Late is begin delay 86400.0; end Late;",
        "task type Calling;",
        "Callers : array (1 .. {}) of Calling;",
        "task body Calling is begin Late.Stop; end Calling;",
    ),
}


def beside(what, count):
    return [line.format(count) for line in BESIDE[what]] if count else []


def turns(tasks, what="terminated", count=0):
    """So many tasks that loop, beside others: each goes around until it has done its share of some 900,000 steps."""
    around = 900_000 // (3 * tasks)
    lines = ["procedure B is", "task type Looping;", *beside(what, count)]
    lines += ["task body Looping is", "X, Y : Integer := 0;", "begin", f"while X < {around} loop", "X := X + 1;", "Y := X - Y;", "end loop;", "end Looping;"]
    lines += ["begin", "declare", f"All_Of : array (1 .. {tasks}) of Looping;", "begin", "null;", "end;", "end B;"]
    return "\n".join(lines) + "\n"


def meetings(what="wait", count=0):
    """Two tasks that meet again and again, beside others: no step of theirs is taken ahead."""
    lines = ["procedure B is", *beside(what, count), "task Server is entry Meet; end Server;", "task Caller;"]
    lines += ["task body Server is begin loop accept Meet; end loop; end Server;"]
    lines += ["task body Caller is begin loop Server.Meet; end loop; end Caller;", "begin null; end B;"]
    return "\n".join(lines) + "\n"


# 64 tasks in all are the most that there may be.
TASKS = [
    ("1 task that loops", turns(1)),
    ("2 tasks that loop", turns(2)),
    ("8 tasks that loop", turns(8)),
    ("63 tasks that loop", turns(63)),
    ("2 tasks that loop beside 61 that are terminated", turns(2, "terminated", 61)),
    ("1 task that loops beside 1 that waits", turns(1, "wait", 1)),
    ("1 task that loops beside 62 that wait", turns(1, "wait", 62)),
    ("1 task that loops beside 61 that have called", turns(1, "have called", 61)),
    ("2 tasks that meet", meetings()),
    ("2 tasks that meet beside 61 that wait", meetings("wait", 61)),
    ("2 tasks that meet beside 60 that have called", meetings("have called", 60)),
]


# As many choices as may wait.
CHOOSES = "".join("CHOOSE " + " ".join(str(at % 63) for at in range(first, first + 250)) + "\n" for first in range(0, 10_000, 250))


def of_tasks(program, source, choices):
    """The steps of a program with tasks, and the seconds that they take: in the order of the tasks, or by choices, as many as may wait."""
    session = load_of(source)
    chosen = CHOOSES if choices else ""
    alone, _ = measure([program, "--solo"], (session + chosen).encode())
    whole, wrote = measure([program, "--solo"], (session + chosen + ("RUN 9000\n" if choices else "RUN 100000\n" * 10)).encode())
    steps = sum(int(line.split()[1]) for line in wrote.decode().splitlines() if line.startswith("ran "))
    return steps, whole - alone


def tasks(program):
    print("Tasks, steps a second: the first enabled move each time, and by 9,000 choices")
    for name, source in TASKS:
        speeds = []
        for choices in (False, True):
            runs = [of_tasks(program, source, choices) for _ in range(TIMES)]
            speeds.append(median(steps / max(seconds, 1e-6) for steps, seconds in runs))
        print(f"    {name:50}{fast(speeds[0])}   {fast(speeds[1])}")


VIEWED = """procedure M is
Sum : Integer := 0;
Seen : array (1 .. 8) of Integer;
task type Adder;
All_Of : array (1 .. 8) of Adder;
task body Adder is
begin loop Sum := Sum + 1; end loop; end Adder;
begin
loop Seen (1) := Sum; end loop;
end M;
"""


def views(program):
    turn = load_of(VIEWED).encode() + VIEWS
    seconds = []
    for _ in range(TIMES):
        alone, _ = measure([program, "--solo"], turn)
        whole, wrote = measure([program, "--solo"], turn * (TURNS + 1))
        if b"- E" in wrote:
            sys.exit("benchmark: a listing is refused")
        seconds.append(whole - alone)
    speed = 8 * TURNS / max(median(seconds), 1e-6)
    print(f"Views: {speed:,.0f} requests a second: LOAD, CHOOSE, RUN 1000 and the five listings in turn (wanted: 2,000)")


def filled(head, unit, tail, size, joint=""):
    """As many units as fit into a source text of a size, in lines of no more than LINE bytes."""
    text, line, count = head + "\n", "", 0
    while True:
        more = (joint if count else "") + unit(count)
        if len(text) + len(line) + len(more) + len(tail) + 2 > size:
            return text + line + "\n" + tail + "\n"
        if len(line) + len(more) > LINE:
            text, line = text + line + "\n", ""
        line, count = line + more, count + 1


def name_of(number):
    letters = ""
    for _ in range(3):
        number, letter = divmod(number, 26)
        letters = chr(ord("A") + letter) + letters
    return "V" + letters


def nested(size):
    """Statements as deep as they may be, one such nest behind the other."""
    nest = "if True then\n" * 198 + "null;\n" + "end if;\n" * 198
    return filled("procedure B is begin", lambda i: "\n" + nest, "null; end B;", max(size, 2 * len(nest)))


def shapes():
    """Names of shapes, and the source text of each at a size."""
    one = "procedure B is X:Integer:=0;begin"
    yield "a list of assignments", lambda size: filled(one, lambda i: "X:=X+1;", "end B;", size)
    yield "one chain", lambda size: filled(one + " X:=", lambda i: "X", ";end B;", size, "+")
    yield "names that are declared", lambda size: filled("procedure B is", lambda i: name_of(i) + ":Integer;", "begin null;end B;", size)
    yield "names in one declaration", lambda size: filled("procedure B is", name_of, ":Integer;begin null;end B;", size, ",")
    yield "names in one declaration, a long value", lambda size: filled(
        filled("procedure B is A:Integer:=0;", name_of, "", size // 2, ",").rstrip() + ":Integer:=",
        lambda i: "A", ";begin null;end B;", size, "+")
    yield "names that are used", lambda size: filled(
        filled("procedure B is", lambda i: name_of(i) + ":Integer;", "begin", size // 2).rstrip(),
        lambda i: f"{name_of(i % 900)}:=1;", "end B;", size)
    yield "faults", lambda size: filled("procedure B is begin", lambda i: "Z:=Y;", "end B;", size)
    yield "loops and ifs in one another", nested


def loading(program, source):
    """Seconds of one LOAD."""
    start, _ = measure([program, "--solo"], b"QUIT\n")
    seconds, _ = measure([program, "--solo"], (load_of(source) * LOADS).encode())
    return (seconds - start) / LOADS


def loads(program):
    print(f"LOAD of a source text of {SOURCE:,} bytes, and how many times the time is of one a quarter as long:")
    for name, text in shapes():
        large, small = text(SOURCE), text(SOURCE // 4)
        times = [(loading(program, large), loading(program, small)) for _ in range(TIMES)]
        whole = median(it[0] for it in times)
        quarter = median(it[1] for it in times)
        memory = max(peak(program, (load_of(large) * LOADS).encode()) for _ in range(TIMES))
        print(f"  {name:30}{whole * 1e3:8.2f} ms   {whole / quarter:5.1f} times   at most {memory / 1e6:6.1f} MB")


def loading_at_large_seat(port, sources):
    """Seconds of one LOAD of each source text at a large seat, the way of the answer counted."""
    with greeted(port, large=1) as link, link.makefile("rb") as answers:
        link.sendall(b"SEAT 1\n")
        answers.readline()
        seconds = []
        for source in sources:
            begin = perf_counter()
            for _ in range(LARGE_LOADS):
                link.sendall(load_of(source).encode())
                if answers.readline().startswith(b"+"):
                    answers.readline()
            seconds.append((perf_counter() - begin) / LARGE_LOADS)
        link.sendall(b"QUIT\n")
        answers.read()
    return seconds


def loads_at_large_seat(program):
    print(f"The same at a large seat, of {2 * SOURCE:,} bytes:")
    server, port = listening(program, 1, large=1)
    try:
        for name, text in shapes():
            times = [loading_at_large_seat(port, [text(2 * SOURCE), text(SOURCE // 2)]) for _ in range(TIMES)]
            whole, quarter = (median(it[part] for it in times) for part in (0, 1))
            print(f"  {name:30}{whole * 1e3:8.2f} ms   {whole / quarter:5.1f} times")
    finally:
        server.kill()
        server.wait()


def loads_in_bytes(program, folder):
    """LOADs of lines of one byte, which are refused, and before that read a byte at a time."""
    if not shutil.which(os.environ.get("CC", "cc")):
        print("LOAD a byte at a time: no C compiler")
        return
    env = surroundings(library(folder), MOST_READ=1)
    times = {LINES: [], LINES // 4: []}
    for _ in range(TIMES):
        start, _ = measure([program, "--solo"], b"QUIT\n", env)
        for lines in times:
            times[lines].append(measure([program, "--solo"], (f"LOAD {lines}\n" + "x\n" * lines).encode(), env)[0] - start)
    whole, quarter = (median(times[lines]) for lines in times)
    print(f"LOAD of {LINES:,} lines, a byte at a time: {whole * 1e3:.2f} ms, {whole / quarter:.1f} times a quarter of them")


@dataclass
class Frames:
    """A program that enters and leaves frames for ever, or makes entry calls, and one for python3 that does so as often as it is told."""

    name: str
    ada: str
    python: str


CALLED = "   procedure P is Cells : array (1 .. 1024) of Integer; begin Cells (1) := 1; end P;\n"
CALLS = "def p():\n    cells = [0] * 1024\n    cells[0] = 1\n"
FORMALS = ",\n".join(", ".join(f"F{i}" for i in range(first, first + 50)) for first in range(0, 200, 50))
FRAMES = (
    Frames("calls", f"procedure M is\n{CALLED}begin loop P; end loop; end M;\n", f"{CALLS}for _ in range(COUNT):\n    p()\n"),
    Frames(
        "blocks",
        "procedure M is begin loop declare Cells : array (1 .. 1024) of Integer; begin Cells (1) := 1; end; end loop; end M;\n",
        "for _ in range(COUNT):\n    cells = [0] * 1024\n    cells[0] = 1\n    del cells\n",
    ),
    Frames(
        "calls of 60 tasks",
        "procedure M is\ntask type T;\nAll_Of_Them : array (1 .. 60) of T;\ntask body T is\n"
        f"{CALLED}begin loop P; end loop; end T;\nbegin null; end M;\n",
        f"{CALLS}def calls():\n    while True:\n        p()\n        yield\nall = [calls() for _ in range(60)]\n"
        "for i in range(COUNT):\n    next(all[i % 60])\n",
    ),
    Frames(
        "entry calls of 200 formals",
        f"procedure M is\ntask T is entry E ({FORMALS} : in out Integer); end T;\nX : Integer;\ntask body T is begin loop accept E ({FORMALS} : in out Integer); end loop; end T;\n"
        f"begin loop T.E ({', '.join(['X'] * 200)}); end loop; end M;\n",
        "def e(*formals):\n    return formals\nfor _ in range(COUNT):\n    e(*[0] * 200)\n",
    ),
)
ITS_PEAK = "\nimport resource\nprint(resource.getrusage(resource.RUSAGE_SELF).ru_maxrss * 1024)\n"


def frames(program):
    """Of all steps of a LOAD, four make one of these frames and leave it, or make a call that is accepted."""
    print("Memory, at most, where all steps of a LOAD enter and leave frames with 1,024 cells, or make entry calls:")
    for it in FRAMES:
        most = max(peak(program, (load_of(it.ada) + "RUN 100000\n" * 10).encode()) for _ in range(TIMES))
        there = max(int(measure([sys.executable, "-c", it.python.replace("COUNT", "250000") + ITS_PEAK])[1]) for _ in range(TIMES))
        print(f"  {it.name:30}{most / 1e6:6.2f} MB   python3 {there / 1e6:6.2f} MB")


def loads_beside(program, others):
    print("LOAD of assignments:")
    count = (SOURCE - 60) // 7 - 40
    source = filled("procedure B is X:Integer:=0;begin", lambda i: "X:=X+1;", "end B;", SOURCE)
    with tempfile.TemporaryDirectory() as folder:
        path = f"{folder}/assignments.txt"
        with open(path, "w") as file:
            file.write("X=X+1;" * 100 + "\n")
            file.write(("X=X+1;" * 100 + "\n") * (count // 100 - 1))
        times = {"aud": [], **{name: [] for name in others}}
        for _ in range(TIMES):
            times["aud"].append(loading(program, source))
            for name, other in others.items():
                times[name].append(float(measure([*other.words, other.load, path, str(LOADS)])[1]))
    aud = median(times["aud"])
    for name, seconds in times.items():
        beside = "" if name == "aud" else f"   aud takes {aud / median(seconds):.2f} of it"
        print(f"    {name:23}{median(seconds) * 1e3:8.2f} ms{beside}")


def of_hall(worlds, slice_units, before):
    """The seconds that the steps of all seats take, in slices of so many units, behind so many other requests at each; with no units, on one bench."""
    alone, _ = measure([worlds, "--work", str(SEATS), str(before), "1", str(slice_units)])
    whole, wrote = measure([worlds, "--work", str(SEATS), str(before), str(SEAT_STEPS), str(slice_units)])
    steps = SEATS * SEAT_STEPS
    wanted = SEATS * (before + 1) + steps if slice_units else before + steps // 1_000_000 + steps
    if wrote.decode().strip() != f"{wanted} units":
        sys.exit(f"benchmark: the hall said '{wrote.decode().strip()}'")
    return whole - alone


def resident(worlds, seats):
    """The most memory in bytes that a hall of so many idle seats has: it waits until its input ends."""
    process = subprocess.Popen([worlds, "--idle", str(seats)], stdin=subprocess.PIPE, stdout=subprocess.PIPE)
    process.stdout.readline()
    with open(f"/proc/{process.pid}/status") as file:
        told = [line for line in file if line.startswith("VmHWM:")]
    process.communicate()
    if process.returncode != 0 or not told:
        sys.exit(f"benchmark: {worlds} ended with status {process.returncode}")
    return int(told[0].split()[1]) * 1024


def halls(worlds):
    """Each measure of a hall stands between two of one bench, since a machine may be faster now and slower then; what is told beside it is the
    median of the measures' parts of the two around them."""
    print(f"A hall of {SEATS} seats, {SEAT_STEPS:,} steps at each, by one thread; steps a second, and the part of one bench's right before and behind it:")
    for slice_units, before in [(1_000, 0), (100, 0), (1_000, 1_000), (1_000, 4_000)]:
        alone, hall = [of_hall(worlds, 0, 0)], []
        for _ in range(PAIRS):
            hall.append(of_hall(worlds, slice_units, before))
            alone.append(of_hall(worlds, 0, 0))
        parts = sorted((first + second) / 2 / own for first, second, own in zip(alone, alone[1:], hall))
        name = f"in slices of {slice_units:,}" + (f", behind {before:,} requests" if before else "")
        speed, bench = (fast(SEATS * SEAT_STEPS / median(seconds)) for seconds in (hall, alone))
        half = f"half of them {parts[PAIRS // 4]:.2f} to {parts[-1 - PAIRS // 4]:.2f}"
        print(f"    {name:43}{speed}   one bench {bench}   {median(parts):.2f} of it ({half})")
    one, all_of = (median(resident(worlds, seats) for _ in range(TIMES)) for seats in (1, SEATS))
    print(f"An idle seat takes {(all_of - one) / (SEATS - 1) / 1024:.1f} KiB")


def of_desk(program, work, workers):
    """Steps a second of the listening program where each seat has the same to do. All requests are sent at once, and the answers read
    later: the client has next to nothing to do meanwhile."""
    server, port = listening(program, workers, large=0)
    try:
        links = [greeted(port, large=0) for _ in range(SEATS)]
        for seat, link in enumerate(links, 1):
            link.sendall(b"SEAT %d\n" % seat)
            if link.recv(LINE) != CLAIMED:
                sys.exit(f"benchmark: seat {seat} is not to be had")
        begin = perf_counter()
        for link in links:
            link.sendall(work.sent)
        for link in links:
            with link, link.makefile("rb") as answers:
                if answers.read() != work.told:
                    sys.exit("benchmark: a seat of the desk is answered otherwise than it must be")
        return SEATS * work.steps / (perf_counter() - begin)
    finally:
        server.kill()
        server.wait()


def session_at_once(program, work, count):
    """The seconds that the session of a seat takes, in so many `aud --solo` at once."""
    benches = [subprocess.Popen([program, "--solo"], stdin=subprocess.PIPE, stdout=subprocess.PIPE) for _ in range(count)]
    for bench in benches:  # an empty line is answered by one line
        bench.stdin.write(b"\n")
        bench.stdin.flush()
        bench.stdout.readline()
    begin = perf_counter()
    for bench in benches:
        bench.stdin.write(work.sent)
        bench.stdin.flush()
    for bench in benches:
        if bench.stdout.read() != work.told:
            sys.exit("benchmark: a bench is answered otherwise than it must be")
    seconds = perf_counter() - begin
    for bench in benches:
        bench.communicate()
    return seconds


def of_benches(program, work, count):
    """Steps a second of so many `aud --solo` at once, all together."""
    return count * SESSIONS_ALONE * work.steps / sum(session_at_once(program, work, count) for _ in range(SESSIONS_ALONE))


def desk(program):
    """Each measure of a desk stands between two of one bench, as those of a hall do. Beside it is measured what as many benches at once
    as there are workers come to: how much more than one the machine can do."""
    most = min(MOST_WORKERS, processors())
    for work in WORKS:
        print(f"A desk of {SEATS} busy seats, {work.steps:,} steps at each, {work.name}; steps a second, and the part of one bench's that each worker does (wanted: 0.90):")
        for workers in sorted({most, *(1 << power for power in range(most.bit_length()))}):
            desk_with(program, work, workers)


def desk_with(program, work, workers):
    alone, busy, benches = [of_benches(program, work, 1)], [], []
    for _ in range(DESK_PAIRS):
        busy.append(of_desk(program, work, workers))
        alone.append(of_benches(program, work, 1))
        benches.append(of_benches(program, work, workers))
    parts = sorted(own * (1 / first + 1 / second) / 2 / workers for first, second, own in zip(alone, alone[1:], busy))
    half = f"half of them {parts[DESK_PAIRS // 4]:.2f} to {parts[-1 - DESK_PAIRS // 4]:.2f}"
    name = f"{workers} worker{'s' if workers > 1 else ''}"
    beside = f"one bench {fast(median(alone))}, {workers} at once {fast(median(benches))}"
    print(f"    {name:11}{fast(median(busy))}   {beside}   {median(parts):.2f} ({half})", flush=True)


def found(folder):
    """The other interpreters that are there. A script of theirs lies in the folder."""
    others = {"python3": Other([sys.executable, "-c"], lambda loop: loop.python + PYTHON_LOOP, PYTHON_LOAD)}
    lua = shutil.which("lua5.4")
    if lua:
        script = f"{folder}/run.lua"
        with open(script, "w") as file:
            file.write("local text = table.remove(arg, 1)\nload(text)()\n")
        others["lua5.4"] = Other([lua, script], lambda loop: loop.lua + LUA_LOOP, LUA_LOAD)
    return others


def alone(program):
    """Loops and tasks alone."""
    with tempfile.TemporaryDirectory() as folder:
        loops(program, found(folder))
    tasks(program)


def main(program, worlds):
    with tempfile.TemporaryDirectory() as folder:
        others = found(folder)
        loops(program, others)
        tasks(program)
        views(program)
        frames(program)
        loads_beside(program, others)
        loads(program)
        loads_at_large_seat(program)
        loads_in_bytes(program, folder)
        halls(worlds)
        desk(program)


if __name__ == "__main__":
    if sys.argv[1] == "desk":
        desk(sys.argv[2])
    elif sys.argv[1] == "views":
        views(sys.argv[2])
    elif sys.argv[1] == "loops":
        alone(sys.argv[2])
    else:
        main(sys.argv[1], sys.argv[2])
