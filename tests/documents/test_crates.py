"""README.md has every crate of crates.txt, in the same groups, and the groups in the same order."""
import os
import re
import unittest

from sources import CRATES, DEPENDENCIES, ROOT, read, ticked


def listed_groups():
    """The groups of crates.txt: a comment above crates is the name of their group."""
    groups, name = {}, ""
    for line in read("crates.txt").split("\n"):
        if line.startswith("#"):
            name = line.strip("#= ")
        elif ":" in line:
            groups.setdefault(name, set()).add(line.split(":")[0].split()[0])
    return groups


def shown_groups():
    """The groups of README.md: the name of a group is a heading above a table of crates, or a row of its own in bold."""
    groups, name, inside = {}, "", False
    for line in read("README.md").split("\n"):
        inside = line.startswith("| Crate |") or inside and line.startswith("|")
        heading = re.match(r"#+ (.*)|\| \*\*(.*?)\*\* \|", line)
        if heading:
            name = heading[1] or heading[2]
        elif inside and line.startswith("| `"):
            groups.setdefault(name, set()).update(ticked(line.split("|")[1]))
    return groups


class Crates(unittest.TestCase):
    def test_every_crate_is_shown(self):
        self.assertEqual(set().union(*shown_groups().values()), set(CRATES))

    def test_groups(self):
        listed = listed_groups()
        if len(listed) > 1:
            self.assertEqual(list(shown_groups().items()), list(listed.items()))

    def test_every_folder_is_listed(self):
        self.assertEqual(set(os.listdir(os.path.join(ROOT, "crates"))), set(CRATES))

    def test_no_library_of_the_kit_but_std(self):
        self.assertEqual({dep for deps in DEPENDENCIES.values() for dep in deps} - set(CRATES), set())
