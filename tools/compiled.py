"""Compiles each program of course/, examples/ and the documents by GNAT, and tells which it does not take.

Those of course/ and examples/ are files, and must be taken; those of the documents stand in sessions of
crates/aud_session_tests/data/documents.txt, and may leave out that they name Ada.Text_IO (docs/LANGUAGE.md, section 9). tools/check calls it.
"""
import re
import subprocess
import sys
import tempfile
from pathlib import Path

import sessions

TOP = Path(__file__).resolve().parents[1]
DOCUMENTS = TOP / "crates/aud_session_tests/data/documents.txt"
CHECK = ["gcc", "-c", "-gnatc", "-gnat2022", "-gnatws"]
CONTEXT = "with Ada.Text_IO; use Ada.Text_IO;\n"


def files():
    for path in sorted([*TOP.glob("course/*/*.adb"), *TOP.glob("examples/*.adb")]):
        yield str(path.relative_to(TOP)), path.read_text()


def in_documents():
    """The programs that are loaded in sessions of the documents, each by the session's title."""
    for session in DOCUMENTS.read_text().split("\n\n"):
        title, sent = session.split("\n")[0], re.findall(r"^> ?(.*)$", session, re.MULTILINE)
        for line, texts in sessions.requests("\n".join(sent)):
            if texts:
                yield f"documents: {title.removeprefix('= ')}", "\n".join(texts) + "\n"


def is_taken(folder, text):
    found = re.search(r"procedure\s+(\w+)", text)
    path = Path(folder) / f"{found[1].lower() if found else 'none'}.adb"
    path.write_text(text)
    return subprocess.run([*CHECK, path.name], cwd=folder, capture_output=True).returncode == 0


def main():
    taken = lacking = 0
    with tempfile.TemporaryDirectory() as folder:
        for name, text in files():
            taken += is_taken(folder, text)
            if not is_taken(folder, text):
                lacking += 1
                print(f"{name}: GNAT does not take it")
        for name, text in in_documents():
            if is_taken(folder, text) or is_taken(folder, CONTEXT + text):
                taken += 1
            else:
                print(f"{name}: GNAT does not take it")
    print(f"{taken} programs of course/, examples/ and the documents are taken by GNAT, {lacking} of course/ and examples/ are not")
    return lacking > 0


if __name__ == "__main__":
    sys.exit(main())
