"""Refusals 11 to 15: the sums that certify a basis, with few terms. Listing does not give them."""
from cases import accepted, refused, shortened
from packages import LINES, formula, monomials, own_basis, package, with_line, with_lines, without


def table():
    """01's refusal table, rows 11 to 15."""
    refused("01 row 11: line 13 absent", without(13), 11, 2)
    refused("01 row 12: line 14 absent", without(14), 12, 1)
    refused("01 row 13: line 15 absent", without(15), 13, 1)
    refused("01 row 14, A28: line 15 `O 1 1 a 1 -`", with_line(15, "O 1 1 a 1 -"), 14, 15)
    refused("01 row 15: line 18 `O 3 1 - 1 -`", with_line(18, "O 3 1 - 1 -"), 15, 18)


def basis_sums():
    refused("line 11 absent", without(11), 11, 1)
    refused("line 12 absent", without(12), 11, 2)
    refused("A23 lines 11 to 17 absent", without(*range(11, 18)), 11, 1)
    refused("line 11 `B 1 2 - 1 -`", with_line(11, "B 1 2 - 1 -"), 11, 1)
    refused("line 12 `B 2 1 a 1 -`", with_line(12, "B 2 1 a 1 -"), 11, 2)
    refused("line 13 `B 2 1 a 1 -`", with_line(13, "B 2 1 a 1 -"), 11, 2)
    refused("line 12 `B 2 1 - 1 b`", with_line(12, "B 2 1 - 1 b"), 11, 2)
    accepted("lines 12, 13 exchanged", with_lines({12: [LINES[12]], 13: [LINES[11]]}), 2)
    accepted("A42 line 12 as `B 2 4 - 1 a` twice", with_line(12, "B 2 4 - 1 a", "B 2 4 - 1 a"), 2)
    refused("A42 line 11 twice", with_line(11, LINES[10], LINES[10]), 11, 1)
    accepted("line 11 eight times, 8 is 1 modulo 7", with_line(11, *[LINES[10]] * 8), 2)
    refused("a basis polynomial more than the relations", with_lines({2: ["7 2 1 3"], 10: ["B 3 1 bbb", LINES[9]]}), 11, 3)
    far = "B 1 %d %s 1 %s"
    taken_back = [far % (1, "a" * 24, "b" * 24), far % (6, "a" * 24, "b" * 24)]
    accepted("A9 words of 72 letters, taken back", own_basis(7, 2, [["a" * 23 + "b", "b"]], taken_back), 0)
    refused("A9 a word of 72 letters, not taken back", own_basis(7, 2, [["a" * 23 + "b", "b"]], taken_back[:1]), 11, 1)


def relation_sums():
    refused("line 14 `G 1 1 - 2 -`", with_line(14, "G 1 1 - 2 -"), 12, 1)
    refused("line 14 `G 1 2 - 1 -`", with_line(14, "G 1 2 - 1 -"), 12, 1)
    refused("line 14 twice", with_line(14, LINES[13], LINES[13]), 12, 1)
    refused("A41 one relation `a`, no basis", package("7 2 1 0", ["G 1 1 a"]), 12, 1)
    refused("01 err: the relation `bb` more than the basis", with_lines({2: ["7 2 2 2"], 6: ["G 2 1 bb", LINES[5]]}), 12, 2)
    accepted("A41 a zero relation without lines", with_line(2, "7 2 2 2"), 2)
    refused("A41 a zero relation, a sum that is not", with_lines({2: ["7 2 2 2"], 14: [LINES[13], "G 2 1 - 1 -"]}), 12, 2)
    accepted("A41 a zero relation, a sum of zero", with_lines({2: ["7 2 2 2"], 14: [LINES[13], "G 2 1 - 1 b", "G 2 6 - 1 b"]}), 2)
    accepted("A41 G 1 zero, G 2 and G 3 as G 1 was", package(
        "7 2 3 1", ["G 2 1 ab", "G 3 2 ab", "B 1 1 ab"], ["B 1 1 - 2 -", "G 2 1 - 1 -", "G 3 2 - 1 -"]), 0)


def overlap_sums():
    refused("line 16 absent", without(16), 13, 2)
    refused("line 17 absent", without(17), 13, 2)
    refused("line 15 `O 1 2 - 2 -`", with_line(15, "O 1 2 - 2 -"), 13, 1)
    refused("line 15 twice", with_line(15, LINES[14], LINES[14]), 13, 1)
    accepted("lines 16, 17 exchanged", with_lines({16: [LINES[16]], 17: [LINES[15]]}), 2)
    for words, count in ((["aaaa"], 3), (["ab", "ba"], 2), (["a" * 24], 23), (["bb", "aba", "bab"], 7)):
        accepted("A29 A41 %s, no O line" % ", ".join(words), own_basis(7, 2, [[w] for w in words]), count)
    no_second = with_lines({2: ["7 2 1 1"], 8: [], 9: [], 12: [], 13: [], 15: [], 16: [], 17: []})
    refused("01 err: E without B 2 and O lines", no_second, 13, 1)
    refused("01 err: certified by its own two products", no_second + "O 1 1 - 1 a\nO 1 6 a 1 -\n", 14, 11)
    exchanged = package("7 2 1 2", LINES[3:5] + ["B 1 1 ab", "B 1 6 ba", "B 2 1 aa", "B 2 6 b"], [
        "B 1 1 - 1 a", "B 1 6 a 1 -", "B 2 1 - 1 -", "G 1 1 - 2 -", "O 1 1 - 1 a", "O 1 1 b 2 -", "O 2 1 - 1 -"])
    accepted("E with B 1 and B 2 exchanged", exchanged, 2)
    shortened("E with B 1 and B 2 exchanged", exchanged, formula("1 aba"), 2, formula("1 bb"))


def below_the_overlap_word():
    """14. The overlap words of E are aaa and aab; aaa is above aab, aab above aba, and every word of four letters above all of them."""
    refused("A28 left of 24 times b", with_line(15, "O 1 1 %s 2 -" % ("b" * 24)), 14, 15)
    refused("A28 50 letters", with_line(15, "O 1 1 %s 2 %s" % ("b" * 24, "b" * 24)), 14, 15)
    accepted("A28 aab below aaa, taken back", with_line(15, LINES[14], "O 1 1 a 2 -", "O 1 6 a 2 -"), 2)
    refused("aaa above aab", with_line(16, "O 2 1 a 1 -", "O 2 6 a 1 -", LINES[15]), 14, 16)
    refused("A27 line 16 `O 2 1 - 1 b`: aab is aab", with_line(16, "O 2 1 - 1 b"), 14, 16)
    refused("equal words that cancel", with_line(15, LINES[14], "O 1 1 a 1 -", "O 1 6 a 1 -"), 14, 16)
    refused("four letters that cancel", with_line(17, LINES[16], "O 2 1 bb 2 -", "O 2 6 bb 2 -"), 14, 18)
    refused("two lines not below: the first", with_lines({16: ["O 2 1 - 1 b"], 17: ["O 2 1 a 1 -"]}), 14, 16)
    accepted("b and aa are below", with_line(15, LINES[14], "O 1 1 - 1 -", "O 1 6 - 1 -"), 2)


def items_above_the_count():
    refused("A8 line 18 `O 99999 1 - 1 -`", with_line(18, "O 99999 1 - 1 -"), 15, 18)
    refused("15 at the first of two", with_line(18, "O 3 1 - 1 -", "O 4 1 - 1 -"), 15, 18)
    refused("15 for a sum of zero", with_line(18, "O 3 1 - 1 -", "O 3 6 - 1 -"), 15, 18)
    refused("no overlap and an O line", own_basis(7, 2, [["ab"]]) + "O 1 1 - 1 -\n", 15, 9)
    refused("no basis sums, `O 3 1 - 1 -`", monomials(["aa"]) + "O 3 1 - 1 -\n", 11, 1)


def cases():
    table()
    basis_sums()
    relation_sums()
    overlap_sums()
    below_the_overlap_word()
    items_above_the_count()
