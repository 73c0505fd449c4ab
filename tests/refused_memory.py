#!/usr/bin/env python3
"""Refuses each command one allocation, one number at a time: tests/refused_memory.py [FIRST [LAST]]

It runs the tests of crates/test_storage_cli/src/memory.rt by `rt try --test --fail-alloc N`, for N from FIRST, or 1, to
LAST, or until no command made so many. Each number is built anew and takes about a minute, so the gate leaves it out.
For each number it says what became of each command:

    not begun   the refused allocation is one that the test makes before it calls `run`
    status 2    it is one of the command's own: the status is 2, and `error 2 memory` is all that was printed
    done        the command makes fewer allocations, and did its work

Anything else, as another status, another text or an end by a signal, is WRONG. The script then ends with status 1, and
with 2 where rt said nothing of the tests.
"""
import os
import re
import subprocess
import sys

TOP = os.path.join(os.path.dirname(os.path.abspath(__file__)), "..")
sys.path.insert(0, os.path.join(TOP, "tools"))
sys.dont_write_bytecode = True
import program  # noqa: E402

RESULT = re.compile(r"^test memory::(\w+)_with_memory \.\.\. (ok|FAILED)(?:\n +error: \"(not begun|status 2)\")?", re.M)


def outcomes(number):
    """What became of each command where the allocation with this number is refused."""
    done = subprocess.run(["rt", "try", "--test", "--fail-alloc", str(number), "--", "with_memory"],
                          cwd=os.path.join(TOP, "crates", "test_storage_cli"), check=False, text=True, errors="replace",
                          stdin=subprocess.DEVNULL, stdout=subprocess.PIPE, stderr=subprocess.STDOUT)
    found = {name: "done" if passed == "ok" else cause or "WRONG"
             for name, passed, cause in RESULT.findall(done.stdout)}
    if sorted(found) != sorted(program.COMMANDS):
        print(done.stdout, file=sys.stderr)
        sys.exit(2)
    return found


def main(words):
    program.usage(words, __doc__)
    if len(words) > 2 or not all(word.isdigit() and int(word) for word in words):
        program.refuse(__doc__)
    first = int(words[0]) if words else 1
    last = int(words[1]) if len(words) > 1 else sys.maxsize
    wrong = False
    for number in range(first, last + 1):
        found = outcomes(number)
        print(f"{number:3}", *(f"{name}: {found[name]:10}" for name in program.COMMANDS), flush=True)
        wrong = wrong or "WRONG" in found.values()
        if set(found.values()) == {"done"}:
            break
    return 1 if wrong else 0


if __name__ == "__main__":
    sys.exit(main(sys.argv[1:]))
