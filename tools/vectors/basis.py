"""Refusal 8, a zero polynomial in the basis (P4), which every service gives; and leading words inside one another, for which 9 is no longer met
(P2)."""
from cases import accepted, listed, refused, shortened, unread
from packages import CONSTANT, E_LIST, NOTHING, copies, formula, monomials, own_basis, package, with_line, with_lines
from pairs import leading_words, pair_list


def zero_polynomials():
    unread("A20 8 of item 2, and item 1 holds item 3", package("7 2 1 3", ["B 1 1 aab", "B 3 1 aa"]), 8, 2)
    unread("A20 no B 3 line", with_line(2, "7 2 1 3"), 8, 3)
    unread("no B line", package("7 2 1 2", []), 8, 1)
    unread("no B 1 line", with_lines({6: [], 7: []}), 8, 1)
    unread("no B 2 line", with_lines({8: [], 9: []}), 8, 2)
    unread("64 basis polynomials, the last is zero", copies(32).replace("B 64 1 aeib\nB 64 6 baei\n", ""), 8, 64)
    unread("64 basis polynomials, all zero", package("7 26 0 64", []), 8, 1)


def leading_with_others():
    """01's row 8 and its like are refused by 8 no more (P4): the sums of E are over polynomials that lead with 1."""
    refused("01 row 8, P4: `B 1 2 aa`", with_line(6, "B 1 2 aa"), 11, 1)
    listed("01 row 8, P4: `B 1 2 aa`", with_line(6, "B 1 2 aa"), E_LIST)
    refused("P4 leading coef p-1", with_line(8, "B 2 6 ab"), 11, 2)
    terms = ["G 1 1 ab", "G 1 2 b", "B 1 1 ab", "B 1 2 b"]
    accepted("a coef of 2 behind the leading one", package("7 2 1 1", terms, ["B 1 1 - 1 -", "G 1 1 - 1 -"]), 0)


def inside_another():
    """01's row 9 and its like are refused by 9 no more (P2): they are listed, and the first wrong B sum is told."""
    for name, whole, item in (
        ("01 row 9: `B 2 1 aab`", with_line(8, "B 2 1 aab"), 2),
        ("A21 equal leading words", with_line(8, "B 2 1 aa"), 2),
        ("A21 B 1 `bab`, B 2 `ab`", monomials(["bab", "ab"]), 1),
        ("a word inside, in the middle", monomials(["ab", "cc", "cabc"]), 1),
        ("A22 B 1 `-`, B 2 `a`", monomials(["-", "a"]), 1),
        ("A22 B 1 `a`, B 2 `-`", monomials(["a", "-"]), 1),
        ("two items hold others", monomials(["aa", "aab", "baa"]), 1),
        ("a word of one letter inside", monomials(["bba", "a"]), 1),
        ("24 letters hold one", monomials(["b" * 23 + "a", "a"]), 1),
        ("P4 the word inside leads with 2", package("7 2 1 2", ["B 1 1 aab", "B 2 2 aa"]), 1),
    ):
        listed(name, whole, pair_list(leading_words(whole)))
        refused(name, whole, 11, item)
    accepted("a leading word inside a lower term", own_basis(7, 3, [["acc", "ab"], ["ab"]]), 0)
    accepted("letters of a leading word apart", own_basis(7, 3, [["ab"], ["acb"]]), 0)


def constant_and_empty():
    """01's Edges: a nonzero constant relation with basis `1`, where 3 times 5 is 1 modulo 7; and no relations and no basis."""
    accepted("A22 01 edge: a constant, basis `1`", CONSTANT, 0)
    shortened("A37 01 edge: `1 ab`, `6 b`, `3 -`", CONSTANT, formula("1 ab", "6 b", "3 -"), 3, formula())
    refused("A37 budget 2", CONSTANT, 18, 2, "SM", formula("1 ab", "6 b", "3 -"), 2)
    shortened("01 edge: a constant, the zero formula", CONSTANT, formula(), 0, formula())
    shortened("01 edge: a constant, `1 -`", CONSTANT, formula("1 -"), 1, formula())
    shortened("01 edge: a constant, 24 letters", CONSTANT, formula("1 " + "ab" * 12), 1, formula())
    refused("a constant without a relation", monomials(["-"]), 11, 1)
    accepted("01 edge: no relations and no basis", NOTHING, 0)
    for terms in ([], ["1 -"], ["1 ab", "6 ba", "2 b", "3 -"], ["5 " + "a" * 24]):
        name = "01 edge: nothing, " + (" ".join(terms) or "the zero formula")
        shortened(name, NOTHING, formula(*terms), 0, formula(*terms))


def cases():
    zero_polynomials()
    leading_with_others()
    inside_another()
    constant_and_empty()
