"""The packages and formulas of examples/: every answer stands in a file or table there, taken from elsewhere than a run of the command."""
import glob
import os
import re
import subprocess
import sys
import tempfile
import unittest

from support import COMMAND, EXAMPLES, run

# Number and place of each refusal: 01's table 'Numbers and places', where the input is one of that table's. Lines of 07 and 10: three lines
# above the terms, so the 49th is line 52; 48 + 1 terms, the names line 53, so the eleventh sum line is line 64. 08 has three basis polynomials
# by line 2, and terms of two. The second of 13 and of 14 are wrong in pair 7, an inclusion, whose first O line is line 28.
REFUSED = {
    "01-too-long": (1, 0),
    "02-shape": (2, 1),
    "03-not-prime": (3, 2),
    "03-power-of-two": (3, 2),
    "04-counts": (4, 2),
    "05-bounds": (5, 4),
    "06-order": (6, 5),
    "07-too-many-terms": (7, 52),
    "08-zero-polynomial": (8, 3),
    "10-sum-too-long": (10, 64),
    "11-basis-sum": (11, 2),
    "12-relation-sum": (12, 1),
    "13-overlap-sum": (13, 1),
    "13-inclusion-sum": (13, 7),
    "14-not-below": (14, 15),
    "14-inclusion-not-below": (14, 28),
    "15-no-overlap": (15, 18),
    "singular-moore-penrose": (11, 1),
}

# The place as the message has it: behind the file's name, or in the words.
LINE = r"\A[^\n]*%s\.pkg:(\d+): refused (\d+): "
ITEM = r"\A[^\n]*%s\.pkg: refused (\d+): [^\n]*?\b(?:[BG]|overlap) (\d+)\b"


def content(path):
    with open(path, "rb") as file:
        return file.read()


class Refused(unittest.TestCase):
    def setUp(self):
        folder = tempfile.TemporaryDirectory()
        self.addCleanup(folder.cleanup)
        self.folder = folder.name
        self.refused = os.path.join(EXAMPLES, "refused")
        subprocess.run([sys.executable, "-B", os.path.join(self.refused, "large.py"), self.folder], check=True)

    def place(self, name, number, told):
        """The place that the message tells."""
        if number == 1:
            self.assertRegex(told, r"\A[^\n]*%s\.pkg: refused 1: " % name)
            return 0
        if number in (8, 11, 12, 13):
            found = re.search(ITEM % name, told)
            self.assertIsNotNone(found, told)
            self.assertEqual(int(found.group(1)), number)
            return int(found.group(2))
        found = re.search(LINE % name, told)
        self.assertIsNotNone(found, told)
        self.assertEqual(int(found.group(2)), number)
        return int(found.group(1))

    def test_number_and_place(self):
        for name, (number, place) in REFUSED.items():
            with self.subTest(name):
                folder = self.folder if name == "01-too-long" else self.refused
                status, out, told = run(COMMAND, "check", os.path.join(folder, name + ".pkg"))
                self.assertEqual((status, out), (1, b""))
                self.assertEqual(self.place(name, number, told.decode("ascii")), place)

    def test_every_number_has_one(self):
        self.assertEqual({number for number, _ in REFUSED.values()}, set(range(1, 16)) - {9})

    def test_every_package_is_in_the_table(self):
        names = {os.path.basename(path)[:-4] for path in glob.glob(os.path.join(self.refused, "*.pkg"))}
        self.assertEqual(names | {"01-too-long"}, set(REFUSED))

    def test_large_ones_are_what_the_script_writes(self):
        for name in ("07-too-many-terms", "10-sum-too-long"):
            self.assertEqual(content(os.path.join(self.refused, name + ".pkg")), content(os.path.join(self.folder, name + ".pkg")))
        self.assertEqual(len(content(os.path.join(self.folder, "01-too-long.pkg"))), 65537)

    def test_the_power_of_two_alone_is_wrong(self):
        lines = content(os.path.join(self.refused, "03-power-of-two.pkg")).split(b"\n")
        self.assertEqual(lines[1], b"128 2 1 2")
        for p, expected in ((b"2", 0), (b"4", 1), (b"64", 1), (b"256", 0), (b"512", 1), (b"32768", 1)):
            with self.subTest(p):
                package = b"\n".join(lines[:1] + [p + b" 2 1 2"] + lines[2:])
                status, out, told = run(COMMAND, "check", "-", stdin=package)
                self.assertEqual((status, out), (expected, b"" if expected else b"accepted, 2 overlaps\n"))
                self.assertEqual(told.startswith(b"vaultgarlic: <stdin>:2: refused 3: "), expected == 1)

    def test_wrong_inclusions_differ_from_the_right_package_in_their_o_lines(self):
        right = content(os.path.join(EXAMPLES, "untrimmed", "e_untrimmed.pkg")).split(b"\n")
        self.assertEqual(content(os.path.join(self.refused, "13-inclusion-sum.pkg")).split(b"\n"), right[:27] + [b""])
        self.assertEqual(content(os.path.join(self.refused, "14-inclusion-not-below.pkg")).split(b"\n"),
                         right[:27] + [b"O 7 1 - 3 -", b"O 7 6 a 2 -"] + right[29:])

    def test_singular_differs_from_the_right_package_in_one_line(self):
        wrong = content(os.path.join(self.refused, "singular-moore-penrose.pkg")).split(b"\n")
        right = content(os.path.join(EXAMPLES, "mp_unique.pkg")).split(b"\n")
        self.assertEqual(len(wrong), len(right))
        self.assertEqual([(w, r) for w, r in zip(wrong, right) if w != r], [(b"B 1 65520 - 4 -", b"B 1 65520 - 4 b")])


class Accepted(unittest.TestCase):
    def test_packages(self):
        packages = [path for folder in ("", "scaled", "untrimmed") for path in sorted(glob.glob(os.path.join(EXAMPLES, folder, "*.pkg")))]
        self.assertEqual(len(packages), 12)
        for package in packages:
            with self.subTest(os.path.basename(package)):
                status, out, told = run(COMMAND, "check", package)
                self.assertEqual((status, told), (0, b""))
                self.assertRegex(out, rb"\Aaccepted, \d+ overlaps?\n\Z")
                # The count is the number of lines that the list has below its names line.
                count = int(re.search(rb"\d+", out).group())
                self.assertEqual(run(COMMAND, "overlaps", package)[1].count(b"\n"), count + 1)


class Scaled(unittest.TestCase):
    """scaled/e_scaled.pkg is e.pkg with its basis polynomials times 3 and 5."""

    def scaled(self, line):
        """A line of e.pkg, its coefficient times the factor of its basis polynomial, or times the inverse of the factor of the one it names."""
        fields = line.split(b" ")
        if fields[0] == b"B":
            times = (3, 5)[int(fields[1]) - 1]
        elif fields[0] in (b"G", b"O") and len(fields) == 6:
            times = (5, 3)[int(fields[4]) - 1]
        else:
            return line
        return b" ".join([*fields[:2], b"%d" % (int(fields[2]) * times % 7), *fields[3:]])

    def test_coefficients(self):
        lines = content(os.path.join(EXAMPLES, "e.pkg")).split(b"\n")
        expected = b"\n".join(self.scaled(line) for line in lines)
        self.assertEqual(content(os.path.join(EXAMPLES, "scaled", "e_scaled.pkg")), expected)

    def test_every_answer_is_that_of_e(self):
        e, scaled = os.path.join(EXAMPLES, "e.pkg"), os.path.join(EXAMPLES, "scaled", "e_scaled.pkg")
        for service in ("check", "overlaps"):
            self.assertEqual(run(COMMAND, service, scaled), run(COMMAND, service, e))
        formulas = glob.glob(os.path.join(EXAMPLES, "formulas", "e-*.formula")) + [os.path.join(EXAMPLES, "aba.formula")]
        self.assertEqual(len(formulas), 5)
        for formula in formulas:
            for service in ("short", "member"):
                with self.subTest(service + " " + os.path.basename(formula)):
                    answer = run(COMMAND, service, "--steps", scaled, formula)
                    self.assertEqual(answer[0], 0)
                    self.assertEqual(answer, run(COMMAND, service, "--steps", e, formula))


def block(name, kind, number):
    """The lines of a package of that kind and with so many fields, without the kind."""
    lines = content(os.path.join(EXAMPLES, name)).split(b"\n")[3:]
    return [line[2:] for line in lines if line.startswith(kind + b" ") and line.count(b" ") == number - 1]


class Untrimmed(unittest.TestCase):
    """untrimmed/e_untrimmed.pkg has two basis polynomials more than e.pkg; mp_unique_untrimmed.pkg has the relations of mp_unique.pkg before its
    basis polynomials."""

    def test_basis_of_e(self):
        for kind, number in ((b"G", 4), (b"G", 6)):
            self.assertEqual(block("untrimmed/e_untrimmed.pkg", kind, number), block("e.pkg", kind, number))
        terms, sums = ([block(name, b"B", number) for name in ("untrimmed/e_untrimmed.pkg", "e.pkg")] for number in (4, 6))
        self.assertEqual(terms[0], terms[1] + [b"3 1 aab", b"3 6 bb", b"4 1 ab", b"4 6 ba"])
        self.assertEqual(sums[0], sums[1] + [b"3 1 - 1 b", b"4 1 - 1 a", b"4 6 a 1 -"])

    def test_basis_of_mp_unique(self):
        def behind(line):
            item, rest = line.split(b" ", 1)
            return b"%d %s" % (int(item) + 12, rest)

        trimmed, whole = "mp_unique.pkg", "untrimmed/mp_unique_untrimmed.pkg"
        relations = block(trimmed, b"G", 4)
        self.assertEqual(block(whole, b"G", 4), relations)
        self.assertEqual(block(whole, b"B", 4), relations + [behind(line) for line in block(trimmed, b"B", 4)])
        own = [b"%d 1 - %d -" % (i, i) for i in range(1, 13)]
        self.assertEqual(block(whole, b"B", 6), own + [behind(line) for line in block(trimmed, b"B", 6)])
        self.assertEqual(block(whole, b"G", 6), own)

    def test_overlaps_and_inclusions_of_mp_unique(self):
        name = "untrimmed/mp_unique_untrimmed.pkg"
        leads = {}
        for line in block(name, b"B", 4):
            item, _, word = line.split(b" ")
            leads.setdefault(item, word)
        rows = [line.split(b" ") for line in run(COMMAND, "overlaps", os.path.join(EXAMPLES, name))[1].split(b"\n")[1:-1]]
        inside = [row[5] == leads[row[1]] for row in rows]
        self.assertEqual(inside, [False] * 106 + [True] * 24)


class Formulas(unittest.TestCase):
    """examples/README.md has a row for each formula, with its package and the steps, and for some a second one, with a package of the same
    relations; the short form stands beside the formula."""

    def rows(self):
        with open(os.path.join(EXAMPLES, "README.md"), encoding="utf-8") as file:
            return re.findall(r"^\| `(\w+-\d)` \| `([\w/]+)\.pkg` \| (\d+) \|", file.read(), re.M)

    def test_every_formula_has_its_row(self):
        for ending in (".formula", ".short"):
            names = {os.path.basename(path)[: -len(ending)] for path in glob.glob(os.path.join(EXAMPLES, "formulas", "*" + ending))}
            self.assertEqual(names, {row[0] for row in self.rows()})

    def test_short_forms(self):
        for name, package, steps in self.rows():
            with self.subTest(name + " under " + package):
                package = os.path.join(EXAMPLES, package + ".pkg")
                formula = os.path.join(EXAMPLES, "formulas", name + ".formula")
                short = content(os.path.join(EXAMPLES, "formulas", name + ".short"))
                told = ("%s step%s\n" % (steps, "" if steps == "1" else "s")).encode()
                self.assertEqual(run(COMMAND, "short", "--steps", package, formula), (0, short, told))
                member = b"yes\n" if short == b"coef word\n" else b"no\n"
                self.assertEqual(run(COMMAND, "member", "--steps", package, formula), (0, member, told))
                self.assertEqual(run(COMMAND, "short", "--budget", steps, package, formula)[0], 0)
                if steps != "0":
                    self.assertEqual(run(COMMAND, "short", "--budget", str(int(steps) - 1), package, formula)[0], 1)
