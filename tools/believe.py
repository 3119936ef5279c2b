"""Lists the definitions that the theorem on one user and the headline on many are made of, in an order in which each
stands behind those that it uses.

The roots are the words of `solo`, `program`, `HeadlineLaw` and `LastLaw`. From there the imports are followed through the
folders specs/. What is not reached ties contracts to these words, or says why they are right: it stands in Ties/ or Why/,
or in what TYING and TYING_MODULES name, and this script stops where a file stands in the wrong folder.
usage: believe.py [--ties]
"""
import os
import re
import sys

TOP = os.path.join(os.path.dirname(os.path.abspath(__file__)), "..", "crates")
ROOTS = ("aud_solo.specs.Serving", "aud_solo.specs.Solo", "aud_lines.specs.Requests", "aud_lines.specs.Text", "aud_server.specs.Program", "aud_bench.specs.Alone", "aud_worlds.specs.Headline", "aud_worlds.specs.Taken")
# crates whose words only tie contracts together, or say what a desk and a connection promise
TYING = ("aud_scoped", "aud_code", "aud_over", "aud_framed", "aud_calls", "aud_state", "aud_layout", "aud_gen", "aud_exc", "aud_expr", "aud_masters", "aud_rendezvous", "aud_select", "aud_protected", "aud_abort", "aud_sequential", "aud_tasks", "aud_machine", "aud_examples", "aud_pass", "aud_desk", "aud_connection")
TYING_MODULES = ("aud_hall.specs.Told",)
USE = re.compile(r"^(?:pub )?use Rattle\.(aud_\w+)\.specs\.([\w.]+?)(?:\.\{.*\}| as \w+)$", re.MULTILINE)


def path_of(module):
    crate, _, rest = module.partition(".specs.")
    return os.path.join(TOP, crate, "specs", *rest.split(".")) + ".antt"


def imports_of(module):
    with open(path_of(module), encoding="utf-8") as it:
        for crate, rest in USE.findall(it.read()):
            name = f"{crate}.specs.{rest}"
            if not rest.startswith(("declared.", "contracts.")):
                yield name


def reached(roots):
    order, seen = [], set()

    def visit(module):
        if module in seen or not os.path.exists(path_of(module)):
            return
        seen.add(module)
        for other in imports_of(module):
            visit(other)
        order.append(module)

    for root in roots:
        visit(root)
    return order


def sources(modules):
    """The files of types that the program and these definitions share."""
    found = set()
    for module in modules:
        with open(path_of(module), encoding="utf-8") as it:
            for crate, name in re.findall(r"^(?:pub )?use Rattle\.(aud_\w+)\.specs\.(?:declared|contracts)\.(\w+)\.", it.read(), re.MULTILINE):
                found.add(os.path.join(TOP, crate, "src", name + ".rt"))
    return sorted(found)


def lines_of(module):
    with open(path_of(module), encoding="utf-8") as it:
        return len(it.readlines())


def every():
    for crate in sorted(os.listdir(TOP)):
        specs = os.path.join(TOP, crate, "specs")
        for folder, _, names in os.walk(specs):
            for name in sorted(names):
                if name.endswith(".antt") and name not in ("Lib.antt", "Ties.antt", "Why.antt"):
                    inner = os.path.relpath(os.path.join(folder, name), specs)[:-5].replace(os.sep, ".")
                    yield f"{crate}.specs.{inner}"


def ties(module):
    crate, _, rest = module.partition(".specs.")
    return crate in TYING or module in TYING_MODULES or rest.startswith(("Ties.", "Why."))


def main():
    order = reached(ROOTS)
    misplaced = [m for m in every() if (m in order) == ties(m)]
    if misplaced:
        sys.exit("in the wrong folder: " + ", ".join(misplaced))
    chosen = [m for m in every() if m not in order] if "--ties" in sys.argv[1:] else order
    for module in chosen:
        print(f"{lines_of(module):5}  {os.path.relpath(path_of(module), os.path.join(TOP, '..'))}")
    print(f"{sum(map(lines_of, chosen)):5}  lines in {len(chosen)} files")
    if chosen is order:
        print("and the types that the program shares with them, in")
        for path in sources(order):
            print("       " + os.path.relpath(path, os.path.join(TOP, "..")))


main()
