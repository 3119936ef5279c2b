"""Loads and runs the largest source text of every shape on a stack of so many KiB: by `aud --solo`, and with `large` at a large seat of
the listening program, whose threads have such stacks.

A text is long (one chain of operators, one list of statements or of names) or nested (parentheses at
the limit of levels), or both. tools/check calls it.
usage: stack.py PROGRAM KIBIBYTES [large]
"""
import resource
import subprocess
import sys

from greeting import Wrong, read_greeting
from listening import PATIENCE, at_free_port, connected

SOURCE = 32_768  # bytes of the largest source text; at a large seat twice as many
LINE = 1_000  # bytes that are put on a line, which may have 1,024
DEEP = 199  # parentheses that fit into the statements of a body at the limit of 200 levels


def source(head, unit, tail, joint=""):
    """As many of the same units as fit into a source text, the line feeds between them counted."""
    text, line, count = head + "\n", "", 0
    while True:
        more = (joint if count else "") + unit(count)
        if len(text) + len(line) + len(more) + len(tail) + 2 > SOURCE:
            return text + line + "\n" + tail + "\n", count
        if len(line) + len(more) > LINE:
            text, line = text + line + "\n", ""
        line, count = line + more, count + 1


def wrapped(text):
    """The text, cut into lines behind parentheses that open."""
    lines, line = [], ""
    for piece in text.replace("(", "(\n").split("\n"):
        if len(line) + len(piece) > LINE:
            lines, line = lines + [line], ""
        line += piece
    return "\n".join(lines + [line]) + "\n"


def name(number):
    letters = ""
    for _ in range(3):
        number, letter = divmod(number, 26)
        letters = chr(ord("A") + letter) + letters
    return "V" + letters


def chain(operator, operand):
    text, _ = source(
        "procedure M is X:Integer:=1;begin X:=", lambda i: operand, ";end M;", operator
    )
    return text, 4


def nested_statements():
    """Statements at the limit of levels; the statements of the body are one, and those of each part of a statement one."""
    inner = DEEP
    ifs = "if 1=1 then\n" * inner + "null;\n" + "end if;\n" * inner
    yield "ifs in one another", f"procedure M is begin\n{ifs}end M;\n", inner + 3
    others = "if 1=2 then null;elsif 1=1 then\n" * inner + "null;\n" + "end if;\n" * inner
    yield "ifs in elsif parts", f"procedure M is begin\n{others}end M;\n", 2 * inner + 3
    last = "if 1=2 then null;else\n" * inner + "null;\n" + "end if;\n" * inner
    yield "ifs in else parts", f"procedure M is begin\n{last}end M;\n", inner + 3
    loops = "loop\n" * inner + "null;\n" + "exit;end loop;\n" * inner
    yield "loops in one another", f"procedure M is begin\n{loops}end M;\n", inner + 3
    labels = "".join(f"{name(i)}:while 1=1 loop\n" for i in range(inner))
    ends = "".join(f"exit when 1=1;end loop {name(i)};\n" for i in reversed(range(inner)))
    yield "loops with labels and conditions", f"procedure M is begin\n{labels}null;\n{ends}end M;\n", 2 * inner + 3
    text, _ = source("procedure M is begin loop exit;", lambda i: "end loop;loop exit;", "end loop;end M;")
    yield "one list of loops", text, None
    text, _ = source("procedure M is begin if 1=2 then null;", lambda i: "elsif 1=2 then null;", "end if;end M;")
    yield "one list of elsif parts", text, None


def nested_bodies():
    """Blocks, handlers and for loops at the limit of levels, of which 127 are entered at once."""
    inner, entered = DEEP, 127
    full = "+ 1\nloaded M\n+ 2\nran {} ended\nmain raised STORAGE_ERROR\n"
    blocks = "begin\n" * inner + "null;\n" + "end;\n" * inner
    yield "blocks in one another", f"procedure M is begin\n{blocks}end M;\n", full.format(2 * entered + 3)
    declares = "declare X:Integer;begin\n" * inner + "null;\n" + "end;\n" * inner
    yield "blocks with declarations", f"procedure M is begin\n{declares}end M;\n", full.format(3 * entered + 3)
    handlers = "begin null;exception when others=>\n" * inner + "null;\n" + "end;\n" * inner
    yield "handlers in one another", f"procedure M is begin\n{handlers}end M;\n", 5
    again = "begin raise Program_Error;exception when others=>\n" * (entered - 1) + "null;\n" + "end;\n" * (entered - 1)
    yield "handlers that are all entered", f"procedure M is begin\n{again}end M;\n", 4 * (entered - 1) + 3
    loops = "for I in 1..1 loop\n" * inner + "null;\n" + "end loop;\n" * inner
    yield "for loops in one another", f"procedure M is begin\n{loops}end M;\n", full.format(entered + 3)
    text, count = source("procedure M is begin", lambda i: "begin null;end;", "end M;")
    yield "one list of blocks", text, 3 * count + 2
    text, _ = source("procedure M is", name, ":exception;begin null;end M;", ",")
    yield "one list of exceptions", text, 3
    declared = ",\n".join(",".join(name(i) for i in range(line, line + 150)) for line in range(0, 3_000, 150))
    chosen = declared.replace(",", "|")
    yield "one list of choices", (
        f"procedure M is\n{declared}:exception;begin null;exception when\n{chosen}=>null;end M;\n"
    ), 3


def nested_procedures():
    """Procedures at the limit of levels, of which 127 are entered at once besides the main one, and long lists of their parts."""
    inner, entered = DEEP, 127
    full = f"+ 1\nloaded M\n+ 2\nran {2 * entered + 3} ended\nmain raised STORAGE_ERROR\n"
    for shape, formals, arguments in ("", "", ""), (" with formals", "(A,B:in out Integer)", "(X,Y)"):
        heads = "".join(f"procedure {name(i)}{formals} is\n" for i in range(inner))
        ends = "".join(f"begin {name(i)}{arguments};end;\n" for i in reversed(range(1, inner)))
        text = f"procedure M is X,Y:Integer;\n{heads}begin null;end;\n{ends}begin {name(0)}{arguments};end M;\n"
        yield f"procedures in one another{shape}", text, full.replace(str(2 * entered + 3), str(2 * entered + 5))
    yield "a program that calls itself", "procedure M is begin\nM;end M;\n", full
    text, _ = source("procedure M is", lambda i: f"procedure {name(i)} is begin null;end;", "begin null;end M;")
    yield "one list of procedures", text, 3
    text, _ = source("procedure M is procedure P(", lambda i: f"{name(i)}:out Natural", ")is begin null;end;begin null;end M;", ";")
    yield "one list of formals", text, 3
    count = 3_000
    names = ",\n".join(",".join(name(i) for i in range(line, line + 150)) for line in range(0, count, 150))
    values = ",\n".join([",".join("1" * 150)] * (count // 150))
    text = f"procedure M is procedure P(\n{names}:Integer)is begin null;end;begin P(\n{values});end M;\n"
    yield "one list of arguments with their formals", text, 5
    text, count = source("procedure M is procedure P is begin return;end;begin", lambda i: "P;", "end M;")
    yield "one list of calls", text, 3 * count + 2


def nested_tasks():
    """Task bodies at the limit of levels, of which 63 are entered at once and the next is one task too many, whose exception goes no further; long lists of tasks and of what is said of them."""
    inner, over = DEEP, "+ 1\nloaded M\n+ 2\nran "
    heads = "".join(f"task {name(i)};task body {name(i)} is\n" for i in range(inner))
    ends = "begin null;end;\n" * inner
    yield "task bodies in one another", f"procedure M is\n{heads}{ends}begin null;end M;\n", None
    text, _ = source("procedure M is", lambda i: f"task {name(i)};task body {name(i)} is begin null;end;", "begin null;end M;")
    yield "one list of tasks", text, over
    text, _ = source("procedure M is", lambda i: f"task type {name(i)};task body {name(i)} is begin null;end;", "begin null;end M;")
    yield "one list of task types", text, 3
    text, _ = source("procedure M is task type T;task body T is begin null;end;", name, ":T;begin null;end M;", ",")
    yield "one list of task objects", text, over
    text, _ = source("procedure M is task T;task body T is begin null;end;begin Put_Line(Boolean'Image(", lambda i: "T'Callable", "));end M;", " and ")
    yield "one chain of tests of a task", text, None


def nested_rendezvous():
    """Accepts, selects and calls at the limit of levels, and long lists of their parts."""
    inner = DEEP - 1
    entries = "".join(f"entry {name(i)};\n" for i in range(inner))
    accepts = "".join(f"accept {name(i)} do\n" for i in range(inner))
    calls = "".join(f"task {name(i)}x;task body {name(i)}x is begin T.{name(i)};end;\n" for i in range(60))
    yield "accepts in one another", f"procedure M is task T is {entries}end T;\n{calls}task body T is begin\n{accepts}null;\n{'end;' * inner}\nend T;\nbegin null;end M;\n", "+ 1\nloaded M\n+ 1\nran "
    head = "procedure M is task T is entry E(N:in out Integer);end T;X:Integer;task body T is begin"
    selects = "select accept E(N:in out Integer);\n" * inner + "null;\n" + "or delay 0.0;end select;\n" * inner
    yield "selects in one another", f"{head}\n{selects}end T;begin null;end M;\n", "+ 1\nloaded M\n+ 1\nran "
    others = "select accept E(N:in out Integer);or delay 0.0;\n" * inner + "null;\n" + "end select;\n" * inner
    yield "selects behind delays in one another", f"{head}\n{others}end T;begin null;end M;\n", "+ 1\nloaded M\n+ 1\nran "
    timed = "select T.E(X);or delay 0.0;\n" * inner + "null;\n" + "end select;\n" * inner
    yield "timed calls in one another", f"{head} null;end T;begin\n{timed}end M;\n", None
    text, _ = source("procedure M is task T is", lambda i: f"entry {name(i)};", "end T;task body T is begin null;end T;begin null;end M;")
    yield "one list of entries", text, 9
    text, _ = source(f"{head} select accept E(N:in out Integer);", lambda i: "or when 1=2=>accept E(N:in out Integer);", "or delay 0.0;end select;end T;begin null;end M;")
    yield "one list of alternatives", text, None
    text, _ = source(f"{head}", lambda i: "delay 0.0;", "end T;begin null;end M;")
    yield "one list of delays", text, None
    text, _ = source(f"{head} null;end T;begin", lambda i: "T.E(X);", "end M;")
    yield "one list of entry calls", text, "+ 1\nloaded M\n+ 2\nran 10 ended\n"


def nested_indexes():
    """Elements at the limit of levels, each the index of another."""
    nest = "A(" * DEEP + "1" + ")" * DEEP
    head = "procedure M is A:array(1..1)of Positive;X:Integer;begin"
    yield "elements in one another", wrapped(f"{head} X:={nest};end M;"), 5
    yield "a target of elements in one another", wrapped(f"{head} {nest}:=1;end M;"), 5
    text, _ = source(f"{head} X:=", lambda i: "A(1)-A(1)", ";end M;", "+")
    yield "one chain of elements", text, 5


def nested_arguments():
    """Names with arguments that are not declared."""
    calls = "F(" * DEEP + "1" + ")" * DEEP
    yield "arguments in one another", wrapped(f"procedure M is X:Integer;begin X:={calls};end M;"), "- E30"
    levels = "1=1 and 1=1 and 1=1+1*A'B(" * DEEP + "1" + ")" * DEEP
    yield "operators of every level around attributes", wrapped(
        f"procedure M is X:Integer;begin X:={levels};end M;"
    ), "- E30"
    targets = "A(" * DEEP + "1" + ")" * DEEP
    yield "arguments of a target in one another", wrapped(f"procedure M is begin {targets}:=1;end M;"), "- E30"
    text, _ = source("procedure M is begin F(", lambda i: "1", ");end M;", ",")
    yield "one list of arguments", text, "- E30"
    text, _ = source("procedure M is begin A.", lambda i: "B", ";end M;", ".")
    yield "one name of many parts", text, "- E30"


def shapes():
    """Names, source texts, and the steps of each (None: whatever they are), or the refusal."""
    for operator in "+", "-", "*", " mod ":
        yield f"one chain of {operator.strip()}", *chain(operator, "1")
    yield "one chain of parenthesized operands", *chain("+", "(1)")
    yield "one chain of signed groups", *chain("+", "(-1)")
    text, _ = source("procedure M is begin Put_Line(", lambda i: '""', ");end M;", "&")
    yield "one chain of texts", text, 3
    text, _ = source("procedure M is begin Put_Line(", lambda i: "Integer'Image(1)", ");end M;", "&")
    yield "one chain of images", text, 3
    text, count = source("procedure M is begin", lambda i: "null;", "end M;")
    yield "one list of null statements", text, count + 2
    text, count = source("procedure M is X:Integer;begin", lambda i: "X:=1;", "end M;")
    yield "one list of assignments", text, count + 3
    text, count = source("procedure M is", name, ":Integer;begin null;end M;", ",")
    yield "one list of names", text, count + 3
    value = "+\n".join(["+".join("1" * 400)] * 10)
    text, count = source("procedure M is", name, f":Integer:=\n{value};begin null;end M;", ",")
    yield "one list of names with a long value", text, count + 3
    text, count = source("procedure M is", lambda i: name(i) + ":Integer;", "begin null;end M;")
    yield "one list of declarations", text, count + 3
    nest = "(" * DEEP + "1" + ")" * DEEP
    yield "the deepest parentheses", wrapped(f"procedure M is X:Integer;begin X:={nest};end M;"), 4
    text, count = source("procedure M is X:Integer;begin", lambda i: f"X:={nest};", "end M;")
    yield "the deepest parentheses in each statement", text, count + 3
    right = "(1+" * DEEP + "1" + ")" * DEEP
    yield "operands nested to the right", wrapped(
        f"procedure M is X:Integer;begin X:={right};end M;"
    ), 4
    inner = "(1+1*" * DEEP + "1" + ")" * DEEP
    yield "operands of both levels nested to the right", wrapped(
        f"procedure M is X:Integer;begin X:=1+1*{inner};end M;"
    ), 4
    left = "(" * DEEP + "1" + "+1)" * DEEP
    yield "operands nested to the left", wrapped(
        f"procedure M is X:Integer;begin X:={left};end M;"
    ), 4
    signs = "(-abs" * DEEP + " 1" + ")" * DEEP
    yield "signs and operators at every level", wrapped(
        f"procedure M is X:Integer;begin X:=-abs{signs};end M;"
    ), 4
    texts = "(" * (DEEP - 1) + '""' + '&"")' * (DEEP - 1)
    yield "nested texts", wrapped(f"procedure M is begin Put_Line({texts});end M;"), 3
    images = "Integer'Image(" * DEEP + "1" + ")" * DEEP
    yield "attributes in one another", wrapped(
        f"procedure M is X:Integer;begin X:={images};end M;"
    ), "- E33"
    text, _ = source(
        "procedure M is begin Put_Line(Boolean'Image(", lambda i: "1=1", "));end M;", " and "
    )
    yield "one chain of relations", text, 3
    logic = "1=1 and(" * (DEEP - 2) + "1=1" + ")" * (DEEP - 2)
    yield "logical operators nested to the right", wrapped(
        f"procedure M is begin Put_Line(Boolean'Image({logic}));end M;"
    ), 3
    levels = "1=1 and 1=1 and 1=1+1*(" * DEEP + "1" + ")" * DEEP
    yield "operators of every level nested to the right", wrapped(
        f"procedure M is X:Integer;begin X:={levels};end M;"
    ), "- E33"
    yield from nested_statements()
    yield from nested_bodies()
    yield from nested_procedures()
    yield from nested_tasks()
    yield from nested_rendezvous()
    yield from nested_indexes()
    yield from nested_arguments()
    yield "one parenthesis too many", wrapped(
        f"procedure M is X:Integer;begin X:=({nest});end M;"
    ), "- E23"
    text, _ = source("procedure M is X:Integer;begin X:=", lambda i: "(", "")
    yield "parentheses without an end", text, "- E23"


def asked(text):
    return f"LOAD {text.count(chr(10))}\n{text}RUN 100000\nQUIT\n".encode()


def limited(size):
    """What is done in a process before its program runs."""
    return lambda: resource.setrlimit(resource.RLIMIT_STACK, (size * 1_024, size * 1_024))


def answered(program, text, size):
    """What `aud --solo` answers, and its status."""
    done = subprocess.run([program, "--solo"], input=asked(text), capture_output=True, preexec_fn=limited(size), timeout=PATIENCE, check=False)
    return done.stdout.decode(), done.returncode


def answered_at_large_seat(program, text, size):
    """What a client at a large seat is answered, and the status of the program, which serves it alone."""
    status, answer = at_free_port(lambda port: served(program, text, size, port))
    return answer, status


def served(program, text, size, port):
    words = [program, "--seats", "1", "--large", "1", "--workers", "1", "--connections", "1", "--port", str(port)]
    server = subprocess.Popen(words, stdin=subprocess.DEVNULL, preexec_fn=limited(size))
    try:
        client = connected(server, port)
        if not client:
            return server.returncode, ""
        with client:
            said = read_greeting(client)[1]
            client.sendall(b"SEAT 1\n" + asked(text))
            while piece := client.recv(1 << 16):
                said += piece
        return server.wait(PATIENCE), said.decode().removeprefix("+ 0\n")
    finally:
        server.kill()
        server.wait()


def is_right(answer, result):
    """Loaded, and ended, after this number of steps where it is known; or refused by this code."""
    if result is None:
        return answer.startswith("+ 1\nloaded M\n+ 1\nran ") and answer.endswith(" ended\n+ 0\n")
    if isinstance(result, int):
        return answer == f"+ 1\nloaded M\n+ 1\nran {result} ended\n+ 0\n"
    return answer.startswith(result)


def main(program, size, large):
    global SOURCE
    ask = answered
    if large:
        SOURCE *= 2
        ask = answered_at_large_seat
    count = failed = 0
    for shape, text, result in shapes():
        assert len(text) <= SOURCE and max(map(len, text.split("\n"))) < 1_024, shape
        try:
            answer, status = ask(program, text, size)
        except (OSError, Wrong, UnicodeDecodeError, subprocess.TimeoutExpired) as lost:
            # A connection that is reset, say.
            answer, status = f"{type(lost).__name__}: {lost}", None
        good = status == 0 and is_right(answer, result)
        count, failed = count + 1, failed + (not good)
        print(f"{'good' if good else 'BAD '}  {size} KiB  {len(text):6} bytes  {shape}")
        if not good:
            print(f"      status {status}: {answer[:120]!r}")
    print(f"stack: {failed} of {count} shapes fail" if failed else f"stack: {count} shapes on {size} KiB are answered")
    return 1 if failed else 0


if __name__ == "__main__":
    sys.exit(main(sys.argv[1], int(sys.argv[2]), sys.argv[3:] == ["large"]))
