#!/usr/bin/env python3
"""Looks up each clause that docs/CAUSES.md names, and says which are not there: tests/causes.py

Under a heading with a crate's name stands a line that begins with functions in backticks, and under it what they
answer; each other word in backticks is the name of a clause of each of these functions, or CRATE::LAW.
"""
import glob
import os
import re
import sys

TOP = os.path.join(os.path.dirname(os.path.abspath(__file__)), "..")
sys.path.insert(0, os.path.join(TOP, "tools"))
sys.dont_write_bytecode = True
import program  # noqa: E402

TYPES = {"Alone", "Marked", "Spilled", "Copied", "Voided", "Erased"}


def contracts(crate):
    """The contracts of a crate's public functions and methods: a list of (name, text up to its body)."""
    found = []
    for file in sorted(glob.glob(os.path.join(TOP, "crates", crate, "src", "**", "*.rt"), recursive=True)):
        with open(file, encoding="utf-8") as text:
            found += re.findall(r"^ *pub fn (\w+)(.*?)^ *\{", text.read(), re.M | re.S)
    return found


def has_clause(texts, clause):
    """One of the functions of this name has the clause."""
    return any(re.search(rf"\bensures {clause} \{{", text) for text in texts)


def missing(document):
    """What the document names and no contract has."""
    crate, known, functions = None, [], []
    for number, line in enumerate(document.split("\n"), 1):
        if line.startswith("## "):
            crate = line[3:] if os.path.isdir(os.path.join(TOP, "crates", line[3:])) else None
            known, functions = contracts(crate) if crate else [], []
            continue
        if crate is None:
            continue
        words = re.findall(r"`([^`]+)`", line)
        if line.startswith("`") or (functions is not None and line.startswith("(")):
            if line.startswith("`"):
                functions = []
            functions += [word for word in words if word not in TYPES]
            for function in functions:
                if function not in [name for name, _ in known]:
                    yield f"{number}: {crate} has no public function {function}"
            continue
        for word in words:
            if "::" in word:
                other, law = word.split("::")
                if law not in [name for name, _ in contracts(other)]:
                    yield f"{number}: {other} has no law {law}"
                continue
            for function in functions:
                texts = [text for name, text in known if name == function]
                if not has_clause(texts, word):
                    yield f"{number}: {crate} {function} has no clause {word}"


def main(words):
    program.usage(words, __doc__)
    if words:
        program.refuse(__doc__)
    with open(os.path.join(TOP, "docs", "CAUSES.md"), encoding="utf-8") as document:
        lines = list(missing(document.read()))
    for line in lines:
        print(f"docs/CAUSES.md:{line}")
    print("docs/CAUSES.md names clauses that are not there" if lines else "each clause of docs/CAUSES.md is there")
    return 1 if lines else 0


if __name__ == "__main__":
    sys.exit(main(sys.argv[1:]))
