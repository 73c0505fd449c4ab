"""Where a definition, a function or a clause stands in the sources of the crates, and what is written there."""
import glob
import os
import re

TOP = os.path.join(os.path.dirname(os.path.realpath(__file__)), "..")
DEFINITION = r"^(?:abbrev pub|unfoldable pub|pub record|pub data) (\w+)\b"
FUNCTION = re.compile(r"^(\s*)(?:pub(?:\(crate\))? )?(?:const )?fn (\w+)")
CLAUSE = re.compile(r"^\s*(?:requires|ensures)\*?(?: (\w+))? \{")
IMPL = re.compile(r"^(?:impl|pub trait)\b(?:<.*?> )?(?:.* for )? ?(\w+)")


def text_of(file):
    """What a file holds, which is named from the top of the repository."""
    with open(os.path.join(TOP, file), encoding="utf-8") as text:
        return text.read()


def unindented(lines):
    """Lines without the spaces that stand before the first one."""
    indent = len(lines[0]) - len(lines[0].lstrip())
    return [line[indent:] for line in lines]


def with_comments(lines, at, mark):
    """The first line of the comment that stands directly above a line, or the line itself."""
    while at > 0 and lines[at - 1].lstrip().startswith(mark):
        at -= 1
    return at


def definition(file, name):
    """The first line's number and the lines of a definition of specs/ with its comment, or None."""
    lines = text_of(file).split("\n")
    for at, line in enumerate(lines):
        found = re.match(DEFINITION, line)
        if found and found[1] == name:
            end = next((k for k in range(at, len(lines)) if not lines[k].strip()), len(lines))
            start = with_comments(lines, at, "--")
            return start + 1, lines[start:end]
    return None


def clause_end(lines, at):
    """The line after a clause that begins here: where its braces are closed."""
    depth = 0
    for end in range(at, len(lines)):
        depth += lines[end].count("{") - lines[end].count("}")
        if depth <= 0:
            return end + 1
    return len(lines)


def functions(file):
    """For each function of a file, by its name and by Type::name: its line, and its clauses by their labels.

    A clause is its first line's number and its lines. A clause without a label has the empty one.
    """
    lines, found, owner, name, at = text_of(file).split("\n"), {}, None, None, 0
    while at < len(lines):
        line = lines[at]
        if impl := IMPL.match(line):
            owner = impl[1]
        elif line == "}":
            owner = None
        if function := FUNCTION.match(line):
            name, clauses = function[2], {}
            for key in (name, f"{owner}::{name}"):
                found.setdefault(key, (at + 1, clauses))
        elif name and (clause := CLAUSE.match(line)):
            end = clause_end(lines, at)
            clauses[clause[1] or ""] = (at + 1, lines[at:end])
            at = end - 1
        at += 1
    return found


def files_of(crate, folder="src"):
    """The files of code of a crate, or those of its specs/, each named from the top of the repository."""
    return sorted(os.path.relpath(os.path.join(path, name), TOP)
                  for path, _, names in os.walk(os.path.join(TOP, "crates", crate, folder))
                  for name in names if name.endswith((".rt", ".antt")))


def defines(crate, name):
    """A crate's specs/ define the name, or a trait of the crate has it as a ghost member."""
    ghost = re.compile(rf"^    ghost {name}:", re.M)
    return (any(definition(file, name) for file in files_of(crate, "specs"))
            or any(ghost.search(text_of(file)) for file in files_of(crate)))


def clauses_of(crate, function):
    """The labels of the clauses of all functions of a crate with this name, or None where there is none."""
    labels = [set(functions(file)[function][1]) for file in files_of(crate) if function in functions(file)]
    return set().union(*labels) if labels else None


def sizes():
    """How large the repository is: lines of code, definitions and proofs, functions, clauses, and wrong bodies."""
    crates = sorted(os.listdir(os.path.join(TOP, "crates")))
    code, definitions, proofs = ([text_of(file) for crate in crates for file in files_of(crate, folder)]
                                 for folder in ("src", "specs", "proofs"))
    return {
        **{name: sum(text.count("\n") for text in texts)
           for name, texts in (("code", code), ("definitions", definitions), ("proofs", proofs))},
        "functions": sum(len(re.findall(FUNCTION.pattern, text, re.M)) for text in code),
        "clauses": sum(len(re.findall(r"^\s*ensures\b", text, re.M)) for text in code),
        "wrong bodies": len(glob.glob(os.path.join(TOP, "crates", "*", "must-fail", "*.edit"))),
    }
