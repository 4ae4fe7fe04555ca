"""Every edit that the gate tries can be made: its files are there, and what it replaces stands in them exactly once."""
import os
import re
import unittest

from sources import CRATES, ROOT, edits, read

NAME = re.compile(r"[a-z0-9]+(-[a-z0-9]+)*")


def replaced(text):
    """The file, the replaced text and the new one of each pair of an edit, as rt reads them."""
    path = old = None
    for line in text.split("\n"):
        if line.startswith("file: "):
            path = line[len("file: "):]
        elif line.startswith("old: "):
            old = line[len("old: "):]
        elif line.startswith("new:"):
            yield path, old, re.sub(r"^ ", "", line[len("new:"):])
            old = None


class Edits(unittest.TestCase):
    def made(self, crate, name):
        """The texts of the files that an edit changes. A pair applies to what those before it made."""
        pairs = list(replaced(read(f"crates/{crate}/must-fail/{name}.edit")))
        self.assertTrue(pairs, "it replaces nothing")
        texts = {}
        for path, old, new in pairs:
            self.assertRegex(path or "", r"^(src|specs)/", "it changes neither a source nor a definition")
            self.assertTrue(os.path.isfile(os.path.join(ROOT, "crates", crate, path)), "no file %s" % path)
            text = texts.get(path) or read(f"crates/{crate}/{path}")
            self.assertTrue(old, "no text that is replaced")
            self.assertEqual(text.count(old), 1, "not once in %s: %s" % (path, old))
            texts[path] = text.replace(old, new)
        return texts

    def test_edits(self):
        count = 0
        for crate in CRATES:
            for name in sorted(edits(crate)):
                with self.subTest(crate + "/" + name):
                    self.assertTrue(NAME.fullmatch(name), "its name is not words joined by hyphens")
                    for path, text in self.made(crate, name).items():
                        self.assertNotEqual(text, read(f"crates/{crate}/{path}"), "it changes nothing")
                    count += 1
        self.assertGreaterEqual(count, 100)

    def test_nothing_else_stands_beside_them(self):
        for crate in CRATES:
            folder = os.path.join(ROOT, "crates", crate, "must-fail")
            if os.path.isdir(folder):
                self.assertEqual(set(os.listdir(folder)), {name + ".edit" for name in edits(crate)})
