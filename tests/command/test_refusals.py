"""How each refusal is told. Numbers and places are those of document 01 and of its readings in docs/DECISIONS.md."""
import os

from support import Command, E, E_LINES, EXAMPLES, formula, text, with_line

TERM = "the line has the wrong shape; it must be `G item coef word`, or B for G, or the names line `kind item coef left of right`"
BOUNDS = "a coefficient, letter, word length, item or `of` is out of bounds"
HERE = "      | bounds here: coef 1 to 6; letters a to b, 24 in a word; G 1 to 1; B 1 to 2"
NOT_BELOW = "left, the leading word of `of` and right make a word that is not below the overlap word"
NAMES = "      | item first second shared at word"


def untrimmed():
    """The lines of E with aab - bb and a second ab - ba in its basis; lines 28 to 31 are the O sums 7 and 8."""
    with open(os.path.join(EXAMPLES, "untrimmed", "e_untrimmed.pkg"), "rb") as file:
        return file.read().split(b"\n")[:-1]


class OfPackages(Command):
    def told(self, content, where, number, words, *shown):
        """Check and the formula services tell the same; so does listing for 1 to 8."""
        self.put("any.pkg", content)
        self.put("zero", formula())
        expected = ["vaultgarlic: any.pkg%s: refused %d: %s" % (where, number, words)] + list(shown)
        self.refuses(expected, "check", "any.pkg")
        self.refuses(expected, "short", "any.pkg", "zero")
        self.refuses(expected, "member", "any.pkg", "zero")
        if number < 9:
            self.refuses(expected, "overlaps", "any.pkg")
        else:
            self.assertEqual(self.run_command("overlaps", "any.pkg")[0], 0)

    def test_1(self):
        self.told(b"x" * 65537, "", 1, "a package has at most 65536 bytes, this file has 65537")
        self.told(b"x" * 100000, "", 1, "a package has at most 65536 bytes, this file has 100000")
        self.refuses(["vaultgarlic: <stdin>: refused 1: a package has at most 65536 bytes, this one has more"], "check", "-",
                     stdin=b"x" * 65537)

    def test_65536_bytes_are_read(self):
        status, _, told = self.run_command("check", self.put("any.pkg", b"x" * 65536))
        self.assertEqual(status, 1)
        self.assertTrue(told.startswith(b"vaultgarlic: any.pkg:1: refused 2: the line is unfinished"))

    def test_2_wrong(self):
        shape = "the line has the wrong shape; it must be "
        self.told(with_line(1, b"p letters basis gens"), ":1", 2, shape + "`p letters gens basis`", "    1 | p letters basis gens")
        self.told(with_line(2, b"07 2 1 2"), ":2", 2, shape + "four numbers: p, letters, gens, basis", "    2 | 07 2 1 2")
        self.told(with_line(3, b"7 2 1 2"), ":3", 2, shape + "`kind item coef word`", "    3 | 7 2 1 2")
        self.told(with_line(4, b"O 1 1 aa"), ":4", 2, TERM, "    4 | O 1 1 aa")
        self.told(with_line(15, b"C 1 1 - 2 -"), ":15", 2, shape + "`B item coef left of right`, or G or O for B", "   15 | C 1 1 - 2 -")
        self.told(E + b"\n", ":18", 2, shape + "`B item coef left of right`, or G or O for B", "   18 | ")

    def test_2_unfinished(self):
        self.told(E[:-1], ":17", 2, "the line is unfinished: no newline ends it; it must be `B item coef left of right`, or G or O for B",
                  "   17 | O 2 1 b 1 - (unfinished)")

    def test_2_missing(self):
        self.told(b"", ":1", 2, "the line is missing; it must be `p letters gens basis`", "    1 | (missing)")
        self.told(text(E_LINES[:9]), ":10", 2, TERM.replace("has the wrong shape", "is missing"), "   10 | (missing)")

    def test_3(self):
        for counts in (b"9 2 1 2", b"65537 2 1 2", b"1 2 1 2", b"0 2 1 2", b"63001 2 1 2", b"128 2 1 2", b"512 2 1 2", b"65536 2 1 2"):
            self.told(with_line(2, counts), ":2", 3, "p is neither a prime from 2 to 65521 nor 256", "    2 | " + counts.decode())

    def test_4(self):
        for counts in (b"7 27 1 2", b"7 0 1 2", b"7 2 33 2", b"7 2 1 65"):
            self.told(with_line(2, counts), ":2", 4, "letters must be 1 to 26, gens 0 to 32, basis 0 to 64", "    2 | " + counts.decode())

    def test_5(self):
        for number, line in ((4, b"G 1 7 aa"), (4, b"G 1 0 aa"), (4, b"G 1 1 ac"), (4, b"G 1 1 " + b"a" * 25), (4, b"G 2 1 aa"),
                             (11, b"B 1 1 - 2 -"), (15, b"O 0 1 - 2 -")):
            self.told(with_line(number, line), ":%d" % number, 5, BOUNDS, "%5d | %s" % (number, line.decode()), HERE)

    def test_5_over_256(self):
        here = HERE.replace("1 to 6", "1 to 255")
        for number, line in ((5, b"G 1 256 b"), (5, b"G 1 0 b"), (11, b"B 1 256 - 1 -"), (16, b"O 2 257 - 2 a")):
            package = text([E_LINES[0], b"256 2 1 2"] + with_line(number, line).split(b"\n")[2:-1])
            self.told(package, ":%d" % number, 5, BOUNDS, "%5d | %s" % (number, line.decode()), here)

    def test_5_without_items(self):
        package = text([b"p letters gens basis", b"2 26 0 0", b"kind item coef word", b"G 1 1 a", b"kind item coef left of right"])
        self.told(package, ":4", 5, BOUNDS, "    4 | G 1 1 a", "      | bounds here: coef 1 to 1; letters a to z, 24 in a word; no G; no B")

    def test_6(self):
        terms = "out of order: G before B, items not falling, in an item each word below the one before (a is above b)"
        swapped = text(E_LINES[:3] + [E_LINES[4], E_LINES[3]] + E_LINES[5:])
        self.told(swapped, ":5", 6, terms, "    4 | G 1 6 b", "    5 | G 1 1 aa")
        self.told(text(E_LINES[:3] + [E_LINES[4], E_LINES[3]]), ":5", 6, terms, "    4 | G 1 6 b", "    5 | G 1 1 aa")
        self.told(E + b"B 2 1 - 1 -\n", ":18", 6, "out of order: B before G before O, items not falling", "   17 | O 2 1 b 1 -",
                  "   18 | B 2 1 - 1 -")

    def test_7(self):
        words = [b"%c%c" % (97 + i, 97 + j) for i in range(26) for j in range(26)]
        package = text([b"p letters gens basis", b"7 26 1 0", b"kind item coef word"] + [b"G 1 1 " + word for word in words[:49]])
        self.told(package, ":52", 7, "the 49th term of an item, or the 1025th term line", "   52 | G 1 1 bw")

    def test_8(self):
        self.told(with_line(2, b"7 2 1 3"), "", 8, "B 3 is the zero polynomial", "      | no term line has B 3")
        self.told(text(E_LINES[:5] + E_LINES[7:]), "", 8, "B 1 is the zero polynomial", "      | no term line has B 1")

    def test_11(self):
        words = "B %d is not the sum over the relations that its B lines give"
        self.told(with_line(13), "", 11, words % 2, "    8 | B 2 1 ab", "   12 | B 2 1 - 1 a")
        self.told(with_line(11), "", 11, words % 1, "    6 | B 1 1 aa", "      | no sum line has B 1")

    def test_11_of_another_leading_coefficient(self):
        # 2 aa + 6 b may be in a basis, but its B line gives aa + 6 b.
        self.told(with_line(6, b"B 1 2 aa"), "", 11, "B 1 is not the sum over the relations that its B lines give", "    6 | B 1 2 aa",
                  "   11 | B 1 1 - 1 -")

    def test_11_of_a_leading_word_that_holds_another(self):
        # 01's input for 9: aab + 6 ba may be in a basis beside aa + 6 b, but its B lines give ab + 6 ba.
        self.told(with_line(8, b"B 2 1 aab"), "", 11, "B 2 is not the sum over the relations that its B lines give", "    8 | B 2 1 aab",
                  "   12 | B 2 1 - 1 a")

    def test_12(self):
        self.told(with_line(14), "", 12, "G 1 is not the sum over the basis that its G lines give", "    4 | G 1 1 aa", "      | no sum line has G 1")

    def test_13(self):
        words = "the difference of overlap %d is not the sum that its O lines give"
        self.told(with_line(15), "", 13, words % 1, NAMES, "      | 1 1 1 1 1 aaa", "      | no sum line has O 1")
        self.told(with_line(17), "", 13, words % 2, NAMES, "      | 2 1 2 1 1 aab", "   16 | O 2 1 - 2 a")

    def test_13_of_an_inclusion(self):
        # Each line of the O sums 7 and 8 left out in turn, and all of them; and a line for pair 6, whose difference is zero.
        words = "the difference of overlap %d is not the sum that its O lines give"
        lines = untrimmed()
        for left_out, item, word, shown in ((28, 7, "7 3 2 2 1 aab", "   28 | O 7 1 b 1 -"), (29, 7, "7 3 2 2 1 aab", "   28 | O 7 1 - 2 a"),
                                            (30, 8, "8 3 4 2 1 aab", "   30 | O 8 1 b 1 -"), (31, 8, "8 3 4 2 1 aab", "   30 | O 8 1 - 2 a")):
            self.told(text(lines[: left_out - 1] + lines[left_out:]), "", 13, words % item, NAMES, "      | " + word, shown)
        self.told(text(lines[:27]), "", 13, words % 7, NAMES, "      | 7 3 2 2 1 aab", "      | no sum line has O 7")
        self.told(text(lines[:27] + [b"O 6 1 b 1 -"] + lines[27:]), "", 13, words % 6, NAMES, "      | 6 3 1 2 0 aab", "   28 | O 6 1 b 1 -")

    def test_14(self):
        self.told(with_line(15, b"O 1 1 a 1 -"), ":15", 14, NOT_BELOW, NAMES, "      | 1 1 1 1 1 aaa", "   15 | O 1 1 a 1 -")

    def test_14_of_an_inclusion(self):
        # The word is the first leading word. That of pair 7 is aab: B 3 leads with it, and so does a x B 2; B 1 x a with aaa, above it.
        lines = untrimmed()
        for line in (b"O 7 1 - 3 -", b"O 7 6 a 2 -", b"O 7 1 - 1 a"):
            self.told(text(lines[:27] + [line] + lines[29:]), ":28", 14, NOT_BELOW, NAMES, "      | 7 3 2 2 1 aab", "   28 | " + line.decode())
        self.told(text(lines[:27] + [b"O 5 1 - 2 -"] + lines[27:]), ":28", 14, NOT_BELOW, NAMES, "      | 5 2 4 2 0 ab", "   28 | O 5 1 - 2 -")

    def test_15(self):
        self.told(E + b"O 3 1 - 1 -\n", ":18", 15, "there is no such overlap; the package has 2", "   18 | O 3 1 - 1 -")
        self.told(text(untrimmed() + [b"O 9 1 - 1 -"]), ":32", 15, "there is no such overlap; the package has 8", "   32 | O 9 1 - 1 -")


class OfFormulas(Command):
    def told(self, content, where, number, words, *shown, budget="1000000", package="e.pkg"):
        self.put("any.formula", content)
        expected = ["vaultgarlic: any.formula%s: refused %d: %s" % (where, number, words)] + list(shown)
        for service in ("short", "member"):
            self.refuses(expected, service, "--budget", budget, "--steps", package, "any.formula")

    def test_16(self):
        term = "the line does not read; it must be a term in bounds, below the one before, and not the 49th"
        self.told(b"word coef\n", ":1", 16, "the line does not read; it must be `coef word`", "    1 | word coef")
        self.told(b"", ":1", 16, "the line is missing; it must be `coef word`", "    1 | (missing)")
        self.told(b"coef word", ":1", 16, "the line is unfinished: no newline ends it; it must be `coef word`", "    1 | coef word (unfinished)")
        self.told(formula(b"0 a"), ":2", 16, term, "    2 | 0 a")
        self.told(formula(b"1 b", b"1 a"), ":3", 16, term, "    3 | 1 a")
        self.told(formula(b"1 a", b""), ":3", 16, term, "    3 | ")
        self.told(formula(b"1 a") + b"1 b", ":3", 16, term.replace("does not read", "is unfinished: no newline ends it"),
                  "    3 | 1 b (unfinished)")

    def test_16_over_256(self):
        term = "the line does not read; it must be a term in bounds, below the one before, and not the 49th"
        self.put("any.pkg", text([E_LINES[0], b"256 2 0 0", E_LINES[2], E_LINES[9]]))
        for line in (b"256 a", b"0 a", b"65521 a"):
            self.told(formula(line), ":2", 16, term, "    2 | " + line.decode(), package="any.pkg")
        self.answers(formula(b"255 a"), "short", "any.pkg", "-", stdin=formula(b"255 a"))

    def test_16_of_a_long_text(self):
        term = "the line does not read; it must be a term in bounds, below the one before, and not the 49th"
        self.told(formula(b"1" * 70000), ":2", 16, term, "    2 | " + "1" * 72 + "...")
        words = [b"1 " + bytes(97 + (i >> k & 1) for k in range(5, -1, -1)) for i in range(64)]
        self.told(formula(*words * 1000), ":50", 16, term, "   50 | 1 bbaaaa")

    def test_16_from_standard_input(self):
        self.refuses(["vaultgarlic: <stdin>:1: refused 16: the line is missing; it must be `coef word`", "    1 | (missing)"], "member",
                     "e.pkg", "-")

    def test_17(self):
        # The basis polynomial leads with ab, which has no overlap with itself, and has 47 words more, none with ab inside. Each of the
        # formula's 48 words ends with ab, so a step takes one word away and adds 47 new ones: 48 + 46 x 10 is not over 512, 48 + 46 x 11 is.
        pairs = [b"%c%c" % (i, j) for i in b"cdefghi" for j in b"cdefghi"]
        words = [b"ab"] + pairs[:47]
        package = text([b"p letters gens basis", b"7 9 1 1", b"kind item coef word"] + [b"G 1 1 " + word for word in words]
                       + [b"B 1 1 " + word for word in words] + [b"kind item coef left of right", b"B 1 1 - 1 -", b"G 1 1 - 1 -"])
        self.put("any.pkg", package)
        heads = formula(*[b"1 " + pair + b"ab" for pair in pairs[:48]])
        self.told(heads, "", 17, "step 11 leaves over 512 terms", package="any.pkg")
        self.told(heads, "", 18, "the budget of 10 steps is used, and the formula can still be reduced; --budget N allows more",
                  budget="10", package="any.pkg")

    def test_18(self):
        words = "the budget of %s used, and the formula can still be reduced"
        more = "; --budget N allows more"
        self.told(formula(b"1 aba"), "", 18, words % "1 step is" + more, budget="1")
        self.told(formula(b"1 aba"), "", 18, words % "0 steps is" + more, budget="0")

    def test_the_package_comes_first(self):
        self.put("any.pkg", with_line(15))
        self.assertIn(b"vaultgarlic: any.pkg: refused 13: ", self.run_command("short", "any.pkg", "-", stdin=b"")[2])
