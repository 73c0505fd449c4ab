#!/usr/bin/env python3
"""Compares what the documents quote with the sources: quotes.py [--write]

A quote stands in a document between two marks,

    <!-- quote crates/vehicle_runs/specs/Safe.antt Safe SafeAt -->
    <!-- end -->

the first of which names a file of specs/ and definitions there, or a file of code, a function and its clauses. Between
them stand the file, the lines and the text, word for word. With --write they are written anew.
"""
import glob
import os
import re
import sys

sys.path.insert(0, os.path.dirname(os.path.realpath(__file__)))
sys.dont_write_bytecode = True
import program  # noqa: E402
import sources  # noqa: E402

QUOTE = re.compile(r"<!-- quote (\S+) ([^\n]+?) -->\n(.*?)<!-- end -->", re.S)


def documents():
    """The documents of the repository, each named from its top."""
    return [os.path.relpath(name, sources.TOP) for pattern in ("*.md", "docs/*.md", "crates/*/README.md")
            for name in sorted(glob.glob(os.path.join(sources.TOP, pattern)))]


def pieces(file, names):
    """The first line's number and the lines of each definition or clause that a quote names, None where one is not."""
    if not file.endswith(".rt"):
        return [sources.definition(file, name) for name in names]
    _, clauses = sources.functions(file).get(names[0], (0, {}))
    found = [clauses.get(label) for label in names[1:]]
    return [piece and (piece[0], sources.unindented(piece[1])) for piece in found]


def quote(document, file, found):
    """What stands between the marks."""
    link = os.path.relpath(file, os.path.dirname(document) or ".")
    heading = ",\n".join(f"[{line}]({link}#L{line})" for line, _ in found)
    rust = file.endswith(".rt")
    text = ("\n" if rust else "\n\n").join("\n".join(lines) for _, lines in found)
    word = "line" if len(found) == 1 else "lines"
    return f"{os.path.relpath(file, 'crates')}, {word}\n{heading}:\n\n```{'rust' if rust else 'agda'}\n{text}\n```\n"


def compare(document, write):
    """Tells each quote of a document that isn't what its source says, or writes it anew. True where all agree."""
    old, agrees = sources.text_of(document), True

    def written(mark):
        nonlocal agrees
        file, names, text = mark[1], mark[2].split(), mark[3]
        there = pieces(file, names) if os.path.exists(os.path.join(sources.TOP, file)) else [None]
        if not there or None in there:
            print(f"{document}: {file} has not all of {' '.join(names)}", file=sys.stderr)
            agrees = False
            return mark[0]
        now = quote(document, file, there)
        if text != now and not write:
            print(f"{document}: {' '.join(names)} stand otherwise in {file} (tools/quotes.py --write)", file=sys.stderr)
            agrees = False
        return f"<!-- quote {file} {mark[2]} -->\n{now}<!-- end -->"

    new = QUOTE.sub(written, old)
    if write and new != old:
        with open(os.path.join(sources.TOP, document), "w", encoding="utf-8") as file:
            file.write(new)
        print(f"{document} is written anew")
    return agrees


def main(words):
    program.usage(words, __doc__)
    if words not in ([], ["--write"]):
        program.refuse(__doc__)
    return 0 if all([compare(document, bool(words)) for document in documents()]) else 1


if __name__ == "__main__":
    sys.exit(main(sys.argv[1:]))
