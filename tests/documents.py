#!/usr/bin/env python3
"""Compares the documents with the repository: documents.py

Quotes are word for word what the sources say (tools/quotes.py). Each link leads to a file, and to a heading there. In
docs/MAP.md each file is there and has the functions that are named with it, and in docs/DEFINITIONS.md each crate has
its definitions. docs/MAP.md and docs/PROVED.md name each crate, and in its README each function has the clauses that
stand beside it in parentheses. Wherever a document names a clause, a law or a wrong body of a crate, the crate has it.
All name one kit, and it is told where the kit of this machine is another one. The commands that the wrappers and
docs/USING.md list are those of crates/command_line. The sizes in docs/PROVED.md are those of
the sources to a tenth, and the longest chain in docs/MAP.md is a longest one.
"""
import os
import re
import shutil
import subprocess
import sys
import unittest

TOP = os.path.join(os.path.dirname(os.path.abspath(__file__)), "..")
sys.path.insert(0, os.path.join(TOP, "tools"))
sys.dont_write_bytecode = True
import program  # noqa: E402
import quotes  # noqa: E402
import sources  # noqa: E402

LINK = re.compile(r"(?:\]\(|^\[[^\]^]+\]: )([^)#\s]+)", re.M)
ANCHOR = re.compile(r"\]\(((?:[\w./-]+\.md)?)#([\w-]+)\)")
NAME = r"[A-Za-z_][\w:]*"
POINT = re.compile(r"^- (.*\n(?:  \S.*\n)*)", re.M)
SECTION = re.compile(r"^(?=[a-z_]+(?: and [a-z_]+)?(?: \(.*\))?:$)", re.M)
ITEM = re.compile(r"^\d+\. (.*\n(?:   +\S.*\n)*)", re.M)
# "`crate`, `function`, clauses `one` and `two`", and "`crate`, law `name`"
CLAUSES = re.compile(rf"`(\w+)`, `({NAME})`, clauses? ((?:`\w+`(?: \([^)]*\))?(?:, | and )?)+)")
LAW = re.compile(rf"`(\w+)`, law `({NAME})`")
# "(wrong bodies: `crate`, one and two; `crate`, three)"
WRONG_BODIES = re.compile(r"wrong bod(?:y|ies): ([^)]*)\)")
# a place in a list of docs/MAP.md: a file, or a function
PLACE = re.compile(rf"`({NAME}(?:/[\w./]+)?)`")

KIT = re.compile(r"\brattle-kit-\w+")
SIZES = re.compile(r"about ([\d,]+) lines of code with contracts and tests, ([\d,]+) of definitions and ([\d,]+) of "
                   r"proofs: ([\d,]+) functions with ([\d,]+) clauses, and ([\d,]+) wrong bodies")
# a command in the code, which picks it by its first word, and its words there, in ./zuddrin and in docs/USING.md
PICKED = re.compile(r'^    if first == "(\w+)" \{$', re.M)
VARIANT = re.compile(r"^    /// `(\w+) ([^`]+)`: .*\n    [A-Z]\w* \{$", re.M)
CALLED = re.compile(r"^    zuddrin (\w+) (\S+(?: \S+)*)  ", re.M)
LISTED = re.compile(r"^\| `(\w+) ([^`]+)` \| ", re.M)
CHAIN = re.compile(r"The longest chain of crates is ((?:\w+, )+\w+)\.")


def prose(document):
    """A document on one line, without what it quotes."""
    return re.sub(r"\s+", " ", re.sub(r"```.*?```", "", sources.text_of(document), flags=re.S))


def headings(document):
    """The names by which hosts link to the headings of a document."""
    return {re.sub(r"[^\w -]", "", heading.lower()).replace(" ", "-")
            for heading in re.findall(r"^#+ (.*)$", sources.text_of(document), re.M)}


def joined(points):
    """Each point on one line."""
    return [re.sub(r"\s+", " ", point) for point in points]


def definitions():
    """The definitions of docs/DEFINITIONS.md, each with the crates under which it stands."""
    for section in SECTION.split(sources.text_of("docs/DEFINITIONS.md")):
        crates = re.findall(r"[a-z]+_[a-z_]+", section.split("\n")[0].split("(")[0])
        for point in joined(POINT.findall(section)) if crates else []:
            yield from ((crates, name) for name in names(point.split(":")[0]))


def points(document):
    """The points of a document that begin with functions: these, the clauses in parentheses behind, and the laws."""
    for point in joined(POINT.findall(sources.text_of(document))):
        if found := re.match(rf"((?:`{NAME}`(?:, )?)+): ", point):
            rest = point[found.end():]
            clauses = re.findall(r"\(((?:`\w+`(?:, )?)+)[;)]", rest)
            laws = re.findall(r"[(;] ?laws? ((?:`\w+`(?:, )?)+)\)", rest)
            yield names(found[1]), names(" ".join(clauses)), names(" ".join(laws))


def names(text):
    """What stands in backticks."""
    return re.findall(r"`([^`]+)`", text)


def longest_chain(uses):
    """How many crates the longest chain has, each of which uses the one before it."""
    lengths = {}

    def length(crate):
        if crate not in lengths:
            lengths[crate] = 1 + max(map(length, uses[crate]), default=0)
        return lengths[crate]

    return max(map(length, uses))


class Documents(unittest.TestCase):
    def test_quotes_are_what_the_sources_say(self):
        for document in quotes.documents():
            with self.subTest(document):
                self.assertTrue(quotes.compare(document, False))

    def test_each_link_leads_to_a_file(self):
        for document in quotes.documents():
            for link in LINK.findall(sources.text_of(document)):
                if "://" not in link:
                    with self.subTest(f"{document}: {link}"):
                        self.assertTrue(os.path.exists(os.path.join(TOP, os.path.dirname(document), link)))

    def test_each_link_into_a_document_leads_to_a_heading(self):
        for document in quotes.documents():
            for name, heading in ANCHOR.findall(sources.text_of(document)):
                with self.subTest(f"{document}: {name}#{heading}"):
                    place = os.path.join(os.path.dirname(document), name) if name else document
                    self.assertIn(heading, headings(place))

    def test_each_place_on_the_map_is_there(self):
        for item in joined(ITEM.findall(sources.text_of("docs/MAP.md"))):
            places = PLACE.findall(item)
            files = [place for place in places if "/" in place]
            known = [sources.functions(f"crates/{file}") for file in files]
            for function in (place for place in places if "/" not in place):
                with self.subTest(f"{function}, in {' '.join(files)}"):
                    self.assertTrue(any(function in functions for functions in known))

    def test_each_clause_that_a_document_names_is_there(self):
        for document in quotes.documents():
            text = prose(document)
            for crate, function, clauses in CLAUSES.findall(text):
                with self.subTest(f"{document}: {crate} {function} {clauses}"):
                    self.assertLessEqual(set(names(clauses)), sources.clauses_of(crate, function) or set())
            for crate, law in LAW.findall(text):
                with self.subTest(f"{document}: {crate} {law}"):
                    self.assertEqual(sources.clauses_of(crate, law), {""})

    def test_each_definition_is_there(self):
        for crates, name in definitions():
            with self.subTest(f"{' '.join(crates)}: {name}"):
                self.assertTrue(any(sources.defines(crate, name) for crate in crates))

    def test_each_wrong_body_is_there(self):
        for document in quotes.documents():
            for named in WRONG_BODIES.findall(prose(document)):
                for part in named.split(";"):
                    crate, *edits = re.findall(r"\w+", part.replace(" and ", " "))
                    for edit in edits:
                        with self.subTest(f"{document}: {crate} {edit}"):
                            self.assertTrue(os.path.exists(f"{TOP}/crates/{crate}/must-fail/{edit}.edit"))

    def test_each_crate_says_what_it_proves(self):
        index, map_of_crates = sources.text_of("docs/PROVED.md"), sources.text_of("docs/MAP.md")
        for crate in sorted(os.listdir(os.path.join(TOP, "crates"))):
            document = f"crates/{crate}/README.md"
            with self.subTest(document):
                self.assertTrue(os.path.exists(os.path.join(TOP, document)))
                self.assertIn(f"../{document}", index)
                self.assertRegex(map_of_crates, rf"\b{crate}\b")
            for functions, clauses, laws in points(document):
                with self.subTest(f"{document}: {' '.join(functions)}"):
                    self.assertNotIn(None, [sources.clauses_of(crate, name) for name in functions + laws])
                    known = set().union(*(sources.clauses_of(crate, name) for name in functions))
                    self.assertLessEqual(set(clauses), known)

    def test_one_kit_is_named(self):
        named = {document: set(KIT.findall(prose(document))) for document in quotes.documents()}
        self.assertEqual(len(named["README.md"]), 1)
        for document, kits in named.items():
            with self.subTest(document):
                self.assertLessEqual(kits, named["README.md"])
        if shutil.which("rt"):
            kit = KIT.findall(subprocess.run(["rt", "version"], capture_output=True, text=True, check=False).stdout)
            if set(kit) != named["README.md"]:
                print(f"README.md says that {named['README.md'].pop()} proved all; the kit here is {' '.join(kit)}")

    def test_the_commands_are_those_of_the_program(self):
        code = sources.text_of("crates/command_line/src/lib.rt")
        self.assertEqual(PICKED.findall(code), list(program.COMMANDS))
        self.assertEqual(dict(VARIANT.findall(code)), program.COMMANDS)
        self.assertEqual(dict(CALLED.findall(sources.text_of("zuddrin"))), program.COMMANDS)
        table = sources.text_of("docs/USING.md").split("\n## Words and statuses\n")[1].split("\n## ")[0]
        self.assertEqual(dict(LISTED.findall(table)), program.COMMANDS)

    def test_the_sizes_are_so(self):
        told = SIZES.search(prose("docs/PROVED.md"))
        for (name, size), text in zip(sources.sizes().items(), told.groups()):
            with self.subTest(name):
                self.assertAlmostEqual(int(text.replace(",", "")), size, delta=size / 10)

    def test_the_longest_chain_is_one(self):
        chain, uses = CHAIN.search(prose("docs/MAP.md"))[1].split(", "), program.crates()
        for low, high in zip(chain, chain[1:]):
            with self.subTest(f"{low}, {high}"):
                self.assertIn(low, uses[high])
        self.assertEqual(len(chain), longest_chain(uses))


if __name__ == "__main__":
    program.usage(sys.argv[1:], __doc__)
    unittest.main()
