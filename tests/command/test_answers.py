"""What the four services answer, and where to."""
import os

from support import Command, E, E_LIST, EXAMPLES, LIST_NAMES, formula, many_overlaps, monomials, text, with_line


class Answers(Command):
    def test_check(self):
        self.answers(b"accepted, 2 overlaps\n", "check", "e.pkg")

    def test_check_counts_in_words(self):
        one = text([b"p letters gens basis", b"7 1 1 1", b"kind item coef word", b"G 1 1 aa", b"B 1 1 aa",
                    b"kind item coef left of right", b"B 1 1 - 1 -", b"G 1 1 - 1 -"])
        none = text([b"p letters gens basis", b"7 1 0 0", b"kind item coef word", b"kind item coef left of right"])
        self.answers(b"accepted, 1 overlap\n", "check", "-", stdin=one)
        self.answers(b"accepted, 0 overlaps\n", "check", "-", stdin=none)

    def test_overlaps(self):
        self.answers(E_LIST, "overlaps", "e.pkg")

    def test_overlaps_judges_no_sum(self):
        self.answers(E_LIST, "overlaps", "-", stdin=with_line(15))

    def test_overlaps_over_65536_bytes(self):
        status, out, told = self.run_command("overlaps", "-", stdin=many_overlaps())
        self.assertEqual((status, len(out), told), (0, 263477, b""))
        self.assertTrue(out.startswith(LIST_NAMES + b"1 1 2 1 23 baaa"))

    def test_inclusions(self):
        # Behind all overlaps, by first, second and place; equal leading words once, an empty one at every place from 0 to the length.
        for words, lines in (((b"aa", b"aa"), b"1 1 1 1 1 aaa\n2 1 2 1 1 aaa\n3 2 1 1 1 aaa\n4 2 2 1 1 aaa\n5 1 2 2 0 aa\n"),
                             ((b"-", b"ab", b"-"), b"1 1 3 0 0 -\n2 2 1 0 0 ab\n3 2 1 0 1 ab\n4 2 1 0 2 ab\n5 2 3 0 0 ab\n6 2 3 0 1 ab\n"
                                                   b"7 2 3 0 2 ab\n"),
                             ((b"abab", b"ab"), b"1 1 1 2 2 ababab\n2 1 2 2 0 abab\n3 1 2 2 2 abab\n"),
                             ((b"b", b"aba"), b"1 2 2 1 2 ababa\n2 2 1 1 1 aba\n"),
                             ((b"-",), b"")):
            self.answers(LIST_NAMES + lines, "overlaps", "-", stdin=monomials(*words))

    def test_the_longest_list_known(self):
        # 64 x 64 x 23 overlaps, and an inclusion for each two of the 64.
        status, out, told = self.run_command("overlaps", "-", stdin=monomials(*[b"a" * 24] * 64))
        self.assertEqual((status, len(out), told), (0, 5154248, b""))
        lines = out.split(b"\n")
        self.assertEqual(len(lines), 1 + 94208 + 2016 + 1)
        self.assertEqual(lines[94208:94210], [b"94208 64 64 23 1 " + b"a" * 25, b"94209 1 2 24 0 " + b"a" * 24])
        self.assertEqual(lines[96224:], [b"96224 63 64 24 0 " + b"a" * 24, b""])

    def test_short(self):
        self.put("aba", formula(b"1 aba"))
        self.answers(b"coef word\n1 bb\n", "short", "e.pkg", "aba")
        self.answers(b"coef word\n1 bb\n", "short", "--steps", "e.pkg", "aba", told=b"2 steps\n")

    def test_short_of_document_01(self):
        for before, after, steps in ((b"aaa", b"ba", 1), (b"aba", b"bb", 2), (b"abab", b"bbb", 2), (b"bba", b"bba", 0),
                                     (b"ab", b"ba", 1)):
            told = b"%d step%s\n" % (steps, b"" if steps == 1 else b"s")
            self.answers(formula(b"1 " + after), "short", "e.pkg", "-", "--steps", stdin=formula(b"1 " + before), told=told)

    def test_short_of_zero(self):
        self.answers(b"coef word\n", "short", "e.pkg", "-", stdin=formula())

    def test_short_of_a_short_form(self):
        first = self.run_command("short", "e.pkg", "-", stdin=formula(b"1 abab", b"3 aa", b"2 b"))[1]
        self.answers(first, "short", "e.pkg", "-", stdin=first)

    def test_member(self):
        self.answers(b"yes\n", "member", "e.pkg", "-", stdin=formula(b"1 aba", b"6 bb"))
        self.answers(b"no\n", "member", "e.pkg", "-", stdin=formula(b"1 aba"))
        self.answers(b"yes\n", "member", "e.pkg", "-", stdin=formula())
        self.answers(b"yes\n", "member", "--steps", "e.pkg", "-", stdin=formula(b"1 aba", b"6 bb"), told=b"2 steps\n")

    def test_over_256(self):
        # E with -1 written 1: aa becomes b, ab becomes ba. In GF(256) 6 + 5 is 3, and a number added to itself is 0.
        lines = [line.replace(b" 6 ", b" 1 ") for line in E.split(b"\n")[:-1]]
        self.put("any.pkg", text([lines[0], b"256 2 1 2"] + lines[2:]))
        self.answers(b"accepted, 2 overlaps\n", "check", "any.pkg")
        self.answers(E_LIST, "overlaps", "any.pkg")
        self.answers(formula(b"3 b"), "short", "any.pkg", "-", stdin=formula(b"6 aa", b"5 b"))
        self.answers(b"yes\n", "member", "any.pkg", "-", stdin=formula(b"142 aba", b"142 bb"))
        self.answers(b"no\n", "member", "any.pkg", "-", stdin=formula(b"142 aba", b"114 bb"))

    def test_other_leading_coefficients(self):
        # 3 aa + 4 b and 5 ab + 2 ba over GF(7): E's basis times 3 and 5. Steps and short forms are E's.
        with open(os.path.join(EXAMPLES, "scaled", "e_scaled.pkg"), "rb") as file:
            self.put("any.pkg", file.read())
        self.answers(b"accepted, 2 overlaps\n", "check", "any.pkg")
        self.answers(E_LIST, "overlaps", "any.pkg")
        self.answers(formula(b"1 bbb"), "short", "any.pkg", "-", "--steps", stdin=formula(b"1 abab"), told=b"2 steps\n")
        self.answers(b"yes\n", "member", "any.pkg", "-", "--steps", stdin=formula(b"1 aba", b"6 bb"), told=b"2 steps\n")

    def test_other_leading_coefficients_over_256(self):
        # aa becomes 2 b, from 2 aa + 4 b; ab becomes ba, from 4 ab + 4 ba. The inverses of 2 and 4 are 142 and 71, and 2 x 128 is 29.
        self.put("any.pkg", text([b"p letters gens basis", b"256 2 1 2", b"kind item coef word", b"G 1 1 aa", b"G 1 2 b", b"B 1 2 aa",
                                  b"B 1 4 b", b"B 2 4 ab", b"B 2 4 ba", b"kind item coef left of right", b"B 1 2 - 1 -", b"B 2 2 - 1 a",
                                  b"B 2 2 a 1 -", b"G 1 142 - 1 -", b"O 1 142 - 2 -", b"O 2 71 - 2 a", b"O 2 142 b 1 -"]))
        self.answers(b"accepted, 2 overlaps\n", "check", "any.pkg")
        self.answers(E_LIST, "overlaps", "any.pkg")
        self.answers(formula(b"29 b"), "short", "any.pkg", "-", stdin=formula(b"128 aa"))
        self.answers(b"yes\n", "member", "any.pkg", "-", "--steps", stdin=formula(b"1 aba", b"2 bb"), told=b"2 steps\n")

    def test_a_basis_that_is_not_trimmed(self):
        # aa, ab, aab and ab lead. In aab, aa and aab begin at place 0: the step takes the lower number. In baab aa begins before ab.
        with open(os.path.join(EXAMPLES, "untrimmed", "e_untrimmed.pkg"), "rb") as file:
            self.put("any.pkg", file.read())
        self.answers(b"accepted, 8 overlaps\n", "check", "any.pkg")
        self.answers(LIST_NAMES + b"1 1 1 1 1 aaa\n2 1 2 1 1 aab\n3 1 3 1 1 aaab\n4 1 4 1 1 aab\n5 2 4 2 0 ab\n6 3 1 2 0 aab\n7 3 2 2 1 aab\n"
                     b"8 3 4 2 1 aab\n", "overlaps", "any.pkg")
        for before, after, steps in ((b"baab", b"bbb", b"1 step\n"), (b"aab", b"bb", b"1 step\n"), (b"aabab", b"bbba", b"2 steps\n")):
            self.answers(formula(b"1 " + after), "short", "any.pkg", "-", "--steps", stdin=formula(b"1 " + before), told=steps)
        self.answers(b"yes\n", "member", "any.pkg", "-", stdin=formula(b"1 aab", b"6 bb"))

    def test_the_lower_number_of_two(self):
        # Both ab + c and (ab + c)(d + 1) begin at place 0 of abd. A step with the first leads to -cd; one with the second leaves -ab too.
        few, more = (b"1 ab", b"1 c"), (b"1 abd", b"1 ab", b"1 cd", b"1 c")
        for p, minus in ((b"7", b"6"), (b"256", b"1")):
            for basis, of, steps in (((few, more), 1, b"1 step\n"), ((more, few), 2, b"2 steps\n")):
                terms = [b"%c %d %s" % (kind, i, term) for kind in b"GB" for i, terms in enumerate(basis, 1) for term in terms]
                sums = [b"B 1 1 - 1 -", b"B 2 1 - 2 -", b"G 1 1 - 1 -", b"G 2 1 - 2 -", b"O 1 1 - %d -" % of]
                self.put("any.pkg", text([b"p letters gens basis", p + b" 4 2 2", b"kind item coef word", *terms,
                                          b"kind item coef left of right", *sums]))
                self.answers(b"accepted, 1 overlap\n", "check", "any.pkg")
                self.answers(formula(minus + b" cd"), "short", "any.pkg", "-", "--steps", stdin=formula(b"1 abd"), told=steps)

    def test_package_from_standard_input(self):
        self.put("aba", formula(b"1 aba"))
        self.answers(b"coef word\n1 bb\n", "short", "-", "aba", stdin=E)
        self.answers(b"no\n", "member", "-", "aba", stdin=E)
