"""What documents name and quote of the sources stands there: names, the paths of definitions and laws, and blocks of text."""
import os
import re
import unittest

from sources import CRATES, ROOT, declared, documents, edits, files, laws_and_definitions, read, ticked

# Those that say how things are today; the notes of landings name what went, too.
DOCUMENTS = ("README.md", "CONTRIBUTING.md", "docs/C.md", "docs/DECISIONS.md", "docs/FORMAT.md", "docs/PROOFS.md")
COINED = re.compile(r"(?=.*[-_A-Z])[A-Za-z][\w-]*")
# Names that stand for any: of a function, a struct.
ANY = {"F", "F-requires", "Struct"}
MODULE = re.compile(r"\bRattle[.·]([a-z]\w*)[.·](\w+(?:[.·]\w+)*)")
# A block below a line that ends with a file's name: between fences, or set in. A session is none.
QUOTED = re.compile(r"`((?:crates|examples|include|tests|tools)/[^`\s*]+\.\w+)`\)?:\n\n(?:```\w*\n([^`]*?)\n```|((?:    (?!\$ )[^\n]*\n)+))")


def known():
    """The names of crates, edits and files, what these declare, and what C programs and make know."""
    names = set(CRATES)
    for crate in CRATES:
        names |= edits(crate)
    for path in laws_and_definitions():
        names |= declared(path) | {re.sub(r"\.\w+$", "", os.path.basename(path))}
    names |= set(re.findall(r"\w+", read("include/vaultgarlic.h") + read("tests/c/trials.h")))
    return names | set(re.findall(r"^(\w+) [?:]?=", read("Makefile"), re.M))


def module(crate, words):
    """The file of definitions or laws that a path names, or of a struct or enum of the code; or None."""
    if words[:2] == ["specs", "declared"]:
        sources = [path for path in files() if path.startswith(f"crates/{crate}/src/")]
        return next((path for path in sources if words[2:3] and words[2] in declared(path)), None)
    if crate in CRATES and words[0] in ("specs", "proofs"):
        for end in range(len(words), 1, -1):
            path = f"crates/{crate}/{'/'.join(words[:end])}.antt"
            if path in files() and set(words[end:]) <= declared(path):
                return path
    return None


class Names(unittest.TestCase):
    def test_names(self):
        names, goals = known() | ANY, set().union(*(declared(path) for path in files()))
        for document in DOCUMENTS:
            for name in set(filter(COINED.fullmatch, ticked(read(document)))):
                with self.subTest(document + ": " + name):
                    self.assertTrue(name in names or document == "CONTRIBUTING.md" and name in goals, "declared nowhere")

    def test_modules(self):
        for document in documents():
            for crate, words in MODULE.findall(read(document)):
                with self.subTest(document + ": Rattle." + crate + "." + words):
                    self.assertTrue(crate == "std" or module(crate, re.split("[.·]", words)), "no such file, or it declares no such name")

    def test_quotes(self):
        count = 0
        for document in documents():
            for path, fenced, inset in QUOTED.findall(read(document)):
                with self.subTest(document + ": " + path):
                    block, there = ([line.strip() for line in text.split("\n")] for text in ((fenced or inset).rstrip("\n"), read(path)))
                    starts = range(len(there) - len(block) + 1)
                    self.assertTrue(any(there[at:at + len(block)] == block for at in starts), "it does not stand so there")
                count += 1
        self.assertGreaterEqual(count, 5)
