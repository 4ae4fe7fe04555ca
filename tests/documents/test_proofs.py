"""docs/PROOFS.md names what stands in the sources: theorems in their files, functions, definitions, files, and edits with their number."""
import os
import re
import unittest

from sources import CRATES, ROOT, declared, defined, edits, files, functions, laws_and_definitions, read, tables, ticked

DOCUMENT = read("docs/PROOFS.md")
FILE = re.compile(r"[\w./-]+\.(?:antt|rt|h|c|md)")
EDIT = re.compile(r"`(\w+)/must-fail/([\w-]*)`")
# A name that is no word of a language: with a hyphen, an underscore or a capital letter.
COINED = re.compile(r"(?=.*[-_A-Z])[A-Za-z][\w-]*")
# Columns in which a name is that of a definition, also where a function has the same.
OF_DEFINITIONS = ("Equals", "Answer", "Output")


def column(head, word):
    """The number of the column whose head begins with the word, and the folder that its head names."""
    for number, cell in enumerate(head):
        if cell.startswith(word):
            return number, "".join(ticked(cell))
    return None, ""


def found(name, folder=""):
    """The file that a name means: from the top of the repository, from crates/, or from the folder. None: there is none."""
    for start in ("", "crates/", folder, "crates/" + folder):
        if os.path.isfile(os.path.join(ROOT, start + name)):
            return start + name
    return None


class Proofs(unittest.TestCase):
    def paths(self, cell, folder):
        """The files that a cell names. Behind `crates/text/specs/Ascii.antt` a name alone is of the same folder."""
        paths = []
        for name in ticked(cell):
            path = found(name, folder)
            self.assertIsNotNone(path, "no file %s" % name)
            paths.append(path)
            folder = os.path.dirname(path) + "/"
        return paths

    def test_theorems(self):
        count = 0
        for head, rows in tables(DOCUMENT):
            theorems, _ = column(head, "Theorem")
            place, folder = column(head, "File")
            for row in rows if place is not None else []:
                with self.subTest(row[0]):
                    paths = self.paths(row[place], folder)
                    names = ticked(row[theorems]) if theorems is not None else []
                    for name in names:
                        self.assertTrue(any(name in declared(path) for path in paths), "%s is not in %s" % (name, paths))
                    count += len(names)
        self.assertGreaterEqual(count, 80)

    def test_functions(self):
        count = 0
        for head, rows in tables(DOCUMENT):
            named, _ = column(head, "Function")
            crates, _ = column(head, "Crate")
            for row in rows if named is not None else []:
                for name in ticked(row[named]):
                    with self.subTest(name):
                        among = CRATES if crates is None else ticked(row[crates])
                        self.assertTrue(any(name in functions(crate) for crate in among), "no function of %s" % among)
                    count += 1
        self.assertGreaterEqual(count, 40)

    def test_definitions(self):
        count = 0
        for head, rows in tables(DOCUMENT):
            named, _ = column(head, "Function")
            for place, _ in filter(lambda found: found[0] is not None, (column(head, word) for word in OF_DEFINITIONS)):
                for row in rows:
                    others = ticked(row[named]) if named is not None else []
                    for name in filter(COINED.fullmatch, ticked(row[place])):
                        with self.subTest(name):
                            self.assertTrue(name in defined() or name in others, "no definition")
                        count += 1
        self.assertGreaterEqual(count, 20)

    def test_files(self):
        names = list(filter(FILE.fullmatch, ticked(DOCUMENT)))
        for name in names:
            with self.subTest(name):
                self.assertTrue(found(name) or any(path.endswith("/" + name) for path in files()), "no such file")
        self.assertGreaterEqual(len(names), 80)

    def test_every_file_of_definitions_is_named(self):
        named = set(ticked(DOCUMENT))
        for path in files():
            name = os.path.basename(path)
            if "/specs/" in path and name != "Lib.antt":
                with self.subTest(path):
                    self.assertTrue(named & {path, name, name[:-5]}, "not named")

    def test_edits(self):
        named = EDIT.findall(DOCUMENT)
        for crate, label in named:
            with self.subTest(crate + "/must-fail/" + label):
                self.assertTrue(label in edits(crate) if label else edits(crate), "no such edit")
        self.assertGreaterEqual(len(named), 10)

    def test_numbers_of_edits(self):
        for head, rows in tables(DOCUMENT):
            if head[:2] == ["Crate", "Edits"]:
                for row in rows:
                    with self.subTest(row[0]):
                        self.assertEqual(int(row[1]), sum(len(edits(crate)) for crate in ticked(row[0])))
                self.assertEqual({crate for row in rows for crate in ticked(row[0])}, {crate for crate in CRATES if edits(crate)})

    def test_other_names(self):
        known = set(CRATES)
        for crate in CRATES:
            known |= edits(crate)
        for path in laws_and_definitions():
            known |= declared(path) | {re.sub(r"\.\w+$", "", os.path.basename(path))}
        for name in set(filter(COINED.fullmatch, ticked(DOCUMENT))):
            with self.subTest(name):
                self.assertTrue(name in known, "declared nowhere")
