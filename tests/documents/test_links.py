"""Links, paths and targets of make that the documents name are there."""
import glob
import os
import re
import unittest

from sources import ROOT, documents, read, ticked

TARGETS = set(re.search(r"^\.PHONY: (.*)", read("Makefile"), re.M)[1].split())
PATH = re.compile(r"(?:bench|crates|docs|examples|include|tests|tools)/[\w./*-]*")
# In code: between backticks, or in a line that is set in.
MAKE = re.compile(r"(?:`|^    (?:\$ )?)make ([a-z][a-z-]*)", re.M)


class Links(unittest.TestCase):
    def test_links(self):
        for document in documents():
            for link in re.findall(r"\]\(([^)#]+)\)", read(document)):
                with self.subTest(document + ": " + link):
                    self.assertTrue("://" in link or os.path.exists(os.path.join(ROOT, os.path.dirname(document), link)))

    def test_paths(self):
        for document in documents():
            for path in filter(PATH.fullmatch, ticked(read(document))):
                with self.subTest(document + ": " + path):
                    self.assertTrue(glob.glob(os.path.join(ROOT, path)))

    def test_targets(self):
        for document in documents():
            for target in MAKE.findall(read(document)):
                with self.subTest(document + ": make " + target):
                    self.assertIn(target, TARGETS)
