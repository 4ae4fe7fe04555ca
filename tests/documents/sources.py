"""The sources that documents speak of, and how a document's tables are read."""
import functools
import glob
import os
import re

ROOT = os.path.dirname(os.path.dirname(os.path.dirname(os.path.abspath(__file__))))


@functools.cache
def read(path):
    """The text of a file, named from the top of the repository."""
    with open(os.path.join(ROOT, path), encoding="utf-8") as file:
        return file.read()


# A line of crates.txt is NAME: DEP DEP .., or with words for its kind between name and colon: NAME staticlib: DEP DEP ..
DEPENDENCIES = {name: deps.split() for name, deps in re.findall(r"^(\w+)(?: [^:\n]*)?:(.*)", read("crates.txt"), re.M)}
CRATES = list(DEPENDENCIES)
# What is written of a function's proof, in a folder below proofs/. The names that it declares are those of goals.
FUNCTION_PROOF = re.compile(r"crates/\w+/proofs/.*/(Answers|Invariants|Proof)\.antt")


def documents():
    """Every document."""
    patterns = ("*.md", "docs/**/*.md", "examples/*.md", "tests/*/*.md")
    return [path for pattern in patterns for path in sorted(glob.glob(pattern, root_dir=ROOT, recursive=True))]


@functools.cache
def files():
    """Every file of code, definitions and proofs."""
    parts = ("src", "specs", "proofs")
    return [path for part in parts for ending in ("antt", "rt") for path in glob.glob(f"crates/*/{part}/**/*.{ending}", root_dir=ROOT, recursive=True)]


@functools.cache
def laws_and_definitions():
    """Every file of code, definitions and proofs but the proofs of functions."""
    return [path for path in files() if not FUNCTION_PROOF.fullmatch(path)]


@functools.cache
def declared(path):
    """The names that a file declares: the public ones of definitions and proofs; functions, types and constants of the code."""
    if path.endswith(".rt"):
        return set(re.findall(r"\b(?:fn|struct|enum|const) (\w+)", read(path)))
    return set(re.findall(r"^ *(?:\w+ )*pub (?!mod )(?:record |data )?([^\s:]+)", read(path), re.M))


@functools.cache
def functions(crate):
    """The names of a crate's functions."""
    paths = [path for path in files() if path.startswith(f"crates/{crate}/src/")]
    return {name for path in paths for name in re.findall(r"\bfn (\w+)", read(path))}


@functools.cache
def defined():
    """The names that files of definitions declare."""
    return set().union(*(declared(path) for path in files() if path.split("/")[2] == "specs"))


@functools.cache
def edits(crate):
    """The names of a crate's edits."""
    return {name[:-5] for name in glob.glob("*.edit", root_dir=os.path.join(ROOT, "crates", crate, "must-fail"))}


def ticked(text):
    """What stands between backticks."""
    return re.findall(r"`([^`\n]+)`", text)


def cells(line):
    return [cell.strip() for cell in re.findall(r"(?:`[^`]*`|[^|`])+", line.strip()[1:-1])]


def tables(text):
    """The tables of a document: head and rows, each a list of cells."""
    for block in re.findall(r"^\|.*\n\|-.*\n(?:\|.*\n)*", text, re.M):
        head, _, *rows = block.split("\n")[:-1]
        yield cells(head), [cells(row) for row in rows]
