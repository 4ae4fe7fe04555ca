"""What the program overlap_list prints: the list, or `refused`, number and place."""
import glob
import os
import unittest

from support import COMMAND, E, E_LIST, EXAMPLES, LIST_NAMES, PROGRAM, many_overlaps, monomials, run, with_line


class Program(unittest.TestCase):
    def prints(self, expected, stdin):
        self.assertEqual(run(PROGRAM, stdin=stdin), (0, expected, b""))

    def test_list(self):
        self.prints(E_LIST, E)

    def test_list_judges_no_sum(self):
        self.prints(E_LIST, with_line(15))

    def test_list_of_a_basis_that_is_not_trimmed(self):
        self.prints(LIST_NAMES + b"1 1 1 1 1 aaa\n2 1 2 1 1 aaab\n3 2 1 2 0 aab\n", with_line(8, b"B 2 1 aab"))
        self.prints(LIST_NAMES + b"1 1 2 0 0 -\n", monomials(b"-", b"-"))

    def test_refused(self):
        self.prints(b"refused 3 2\n", with_line(2, b"9 2 1 2"))
        self.prints(b"refused 3 2\n", with_line(2, b"128 2 1 2"))
        self.prints(b"refused 5 4\n", with_line(4, b"G 1 7 aa"))
        self.prints(b"refused 8 3\n", with_line(2, b"7 2 1 3"))

    def test_no_byte(self):
        self.prints(b"refused 2 1\n", b"")

    def test_too_many_bytes(self):
        self.prints(b"refused 2 1\n", b"x" * 65536)
        self.prints(b"refused 1 0\n", b"x" * 65537)
        with open("/dev/zero", "rb") as zero:
            self.prints(b"refused 1 0\n", zero)

    def test_a_list_over_65536_bytes(self):
        self.prints(b"refused 19 263477\n", many_overlaps())

    def test_the_command_prints_the_same(self):
        packages = [path for folder in ("", "scaled", "untrimmed") for path in glob.glob(os.path.join(EXAMPLES, folder, "*.pkg"))]
        self.assertEqual(len(packages), 12)
        for package in packages:
            with self.subTest(os.path.basename(package)), open(package, "rb") as file:
                listed = run(COMMAND, "overlaps", package)
                self.assertLessEqual(len(listed[1]), 65536)
                self.prints(listed[1], file)
