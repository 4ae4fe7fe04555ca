"""Formulas: refusals 16, 18 and 19, short forms and steps under small packages, and membership."""
from cases import LARGEST, both_sides, halted, refused, shortened
from packages import E, LETTERS, NOTHING, falling, formula, own_basis, package

ABA = formula("1 aba")
BB = formula("1 bb")


def table():
    """01's refusal table, rows 16, 18 and 19; row 17 is in terms.py."""
    halted("01 row 16: `coef word`, `0 a`", E, formula("0 a"), 16, 2)
    halted("01 row 18: `1 aba`, budget 1", E, ABA, 18, 1, 1)
    refused("01 row 19: 10 bytes for `ab`", E, 19, 15, "S", formula("1 ab"), 1, 10)


def examples():
    """01's examples under E. aaa is aa times a: ba. aba: baa, then bb. abab: baab, where aa stands before ab: bbb."""
    both_sides("01 example `aaa`", E, formula("1 aaa"), 1, formula("1 ba"))
    both_sides("01 example `aba`", E, ABA, 2, BB)
    both_sides("01 example `abab`", E, formula("1 abab"), 2, formula("1 bbb"))
    both_sides("01 example `aba` + 6 `bb`", E, formula("1 aba", "6 bb"), 2, formula())
    both_sides("01 example `bba`", E, formula("1 bba"), 0, formula("1 bba"))
    both_sides("01 example `ab`", E, formula("1 ab"), 1, formula("1 ba"))
    shortened("01 example `ab` above `ba`", E, formula("1 ab", "1 ba"), 1, formula("2 ba"))
    shortened("01 example `aa` above `b`", E, formula("1 aa", "1 b"), 1, formula("2 b"))
    shortened("A43 01 example `a` above `-`", E, formula("1 a", "1 -"), 0, formula("1 a", "1 -"))
    both_sides("A38 01 edge: the zero formula", E, formula(), 0, formula())
    shortened("01 edge: budget 2 suffices for `aba`", E, ABA, 2, BB, 2)


def unreadable():
    """16, at the first line with a fault."""
    for name, content, line in (
        ("A31 no byte", "", 1),
        ("A31 one byte 10", "\n", 1),
        ("A31 names line unfinished", "coef word", 1),
        ("names line `word coef`", "word coef\n1 a\n", 1),
        ("names line with a space behind", "coef word \n1 a\n", 1),
        ("names line with byte 13", "coef word\r\n1 a\n", 1),
        ("no names line", "1 a\n", 1),
        ("names line twice", "coef word\ncoef word\n", 2),
        ("A31 `7 a` under p 7", formula("7 a"), 2),
        ("`65521 a` under p 7", formula("65521 a"), 2),
        ("A31 `1 c` under 2 letters", formula("1 c"), 2),
        ("A31 25 times b", formula("1 " + "b" * 25), 2),
        ("A31 `1 b`, `1 a`", formula("1 b", "1 a"), 3),
        ("A43 `1 ba`, `1 ab`", formula("1 ba", "1 ab"), 3),
        ("`1 b`, `1 aa`: the longer word is greater", formula("1 b", "1 aa"), 3),
        ("A31 `1 a`, `1 a`", formula("1 a", "1 a"), 3),
        ("`1 -` twice", formula("1 -", "1 -"), 3),
        ("A31 an empty line at the end", formula("1 a", ""), 3),
        ("an empty line before the terms", formula("", "1 a"), 2),
        ("A31 `1 b` unfinished", formula("1 a") + "1 b", 3),
        ("`1 a` unfinished", "coef word\n1 a", 2),
        ("`01 a`", formula("01 a"), 2),
        ("`+1 a`", formula("+1 a"), 2),
        ("`-1 a`", formula("-1 a"), 2),
        ("`100001 a`", formula("100001 a"), 2),
        ("`a 1`", formula("a 1"), 2),
        ("`1`", formula("1"), 2),
        ("`1 a b`", formula("1 a b"), 2),
        ("`1  a`", formula("1  a"), 2),
        ("a space before", formula(" 1 a"), 2),
        ("a space behind", formula("1 a "), 2),
        ("byte 13 behind", formula("1 a\r"), 2),
        ("`1 A`", formula("1 A"), 2),
        ("`1 a-`", formula("1 a-"), 2),
        ("byte 96", formula("1 `"), 2),
        ("byte 123", formula("1 {"), 2),
        ("byte 0", formula("1 \0"), 2),
        ("byte 225", formula("1 \xe1"), 2),
        ("a line of a package", formula("G 1 1 aa"), 2),
        ("two faults: the first", formula("1 b", "1 a", "0 a"), 3),
    ):
        halted("16: " + name, E, content, 16, line)
    words = falling(49)
    halted("A31 49 terms", E, formula(*["1 " + w for w in words]), 16, 50)
    halted("the 49th term repeats a word", E, formula(*["1 " + w for w in words[:48] + words[47:48]]), 16, 50)
    halted("A32 70,000 times 1", E, "coef word\n" + "1" * 70000, 16, 2)
    refused("A32 70,000 letters", E, 16, 2, "S", formula("1 " + "b" * 70000))
    halted("16: `1 z` under 25 letters", package("7 25 0 0", []), formula("1 z"), 16, 2)
    halted("16: `2 a` under p 2", package("2 2 0 0", []), formula("2 a"), 16, 2)
    halted("16: `65521 a` under p 65521", package("65521 2 0 0", []), formula("65521 a"), 16, 2)


def readable():
    """Both sides of a formula's bounds that do read; without a basis each formula is its own short form."""
    shortened("24 times b", E, formula("1 " + "b" * 24), 0, formula("1 " + "b" * 24))
    shortened("coef p-1", E, formula("6 a"), 0, formula("6 a"))
    shortened("`3 -`", E, formula("3 -"), 0, formula("3 -"))
    words = falling(48)
    shortened("48 terms", NOTHING, formula(*["1 " + w for w in words]), 0, formula(*["1 " + w for w in words]))
    long = formula(*["65520 " + w + "z" * 18 for w in words])
    shortened("48 terms of 24 letters, p 65521", package("65521 26 0 0", []), long, 0, long)
    shortened("`1 z` under 26 letters", package("7 26 0 0", []), formula("1 z"), 0, formula("1 z"))
    letters = formula(*["1 " + x for x in LETTERS])
    shortened("26 letters, falling", package("7 26 0 0", []), letters, 0, letters)


def steps_under_e():
    """E turns aa into b and ab into ba."""
    shortened("A36 `1 bbba`, `1 ab`: the greatest reducible", E, formula("1 bbba", "1 ab"), 1, formula("1 bbba", "1 ba"))
    shortened("A36 `1 baab`: aa before ab", E, formula("1 baab"), 1, formula("1 bbb"))
    shortened("A36 `1 aab`: aa before ab", E, formula("1 aab"), 1, formula("1 bb"))
    # abaa: baaa, then bba; with aa first it were abb, bab, bba.
    shortened("A36 `1 abaa`: ab before aa", E, formula("1 abaa"), 2, formula("1 bba"))
    # aba becomes baa, which is there: one step for both. The smaller word first would take three steps.
    shortened("the greatest word first: `1 aba`, `1 baa`", E, formula("1 aba", "1 baa"), 2, formula("2 bb"))
    shortened("01 err: `1 aba`, `6 baa` cancel after a step", E, formula("1 aba", "6 baa"), 1, formula())
    shortened("01 err: `1 ab`, `6 ba` cancel", E, formula("1 ab", "6 ba"), 1, formula())
    shortened("01 err: `1 ab`, `6 ba`, `2 b`: one is left", E, formula("1 ab", "6 ba", "2 b"), 1, formula("2 b"))
    shortened("a coef times p-1: `3 aa`", E, formula("3 aa"), 1, formula("3 b"))
    shortened("a coef that wraps: `6 aa`, `5 b`", E, formula("6 aa", "5 b"), 1, formula("4 b"))
    # Each step takes the aa behind the b's that stand already.
    both_sides("24 times a", E, formula("1 " + "a" * 24), 12, formula("1 " + "b" * 12))
    shortened("A43 `1 a`, `1 b`", E, formula("1 a", "1 b"), 0, formula("1 a", "1 b"))
    both_sides("A43 written falling: aaaa, abb", E, formula("1 aaaa", "1 abb"), 4, formula("1 bba", "1 bb"))
    shortened("01 err: the formula untouched", E, formula("1 bbba", "1 aba"), 2, formula("1 bbba", "1 bb"))
    shortened("01 err: only the greatest word cleared", E, formula("1 aaa", "1 aa"), 2, formula("1 ba", "1 b"))


def steps_elsewhere():
    # a + 65520 b over GF(65521): a becomes b, and 65520 times 65520 is 1.
    large = package("65521 2 1 1", ["G 1 1 a", "G 1 65520 b", "B 1 1 a", "B 1 65520 b"], ["B 1 1 - 1 -", "G 1 1 - 1 -"])
    shortened("p 65521, `65520 a`", large, formula("65520 a"), 1, formula("65520 b"))
    shortened("p 65521, `65520 a`, `1 b`", large, formula("65520 a", "1 b"), 1, formula())
    # In 24 times a each step turns the leftmost a into b.
    both_sides("p 65521, 24 times a", large, formula("2 " + "a" * 24), 24, formula("2 " + "b" * 24))
    # a + b over GF(2): aa becomes ba, ab becomes bb, then ba becomes bb and cancels.
    two = own_basis(2, 2, [["a", "b"]])
    shortened("p 2, `1 aa`, `1 ab`: both become bb", two, formula("1 aa", "1 ab"), 3, formula())
    shortened("p 2, `1 aa`, `1 bb`", two, formula("1 aa", "1 bb"), 2, formula())
    letters = own_basis(7, 26, [[x] for x in LETTERS])
    shortened("all letters are relations", letters, formula("1 zz", "1 a", "1 z", "5 -"), 3, formula("5 -"))
    word = "a" * 23 + "b"
    both_sides("a leading word of 24 letters", own_basis(7, 2, [[word, "b"]]), formula("1 " + word, "1 b"), 1, formula())


def rooms_and_budgets():
    refused("A30 the zero formula into 9 bytes", E, 19, 10, "S", formula(), 0, 9)
    shortened("A30 the zero formula into 10 bytes", E, formula(), 0, formula(), 0, 10, "S")
    refused("the zero formula into 0 bytes", E, 19, 10, "S", formula(), 0, 0)
    shortened("`ab` into 15 bytes", E, formula("1 ab"), 1, formula("1 ba"), 1, 15, "S")
    refused("`ab` into 14 bytes", E, 19, 15, "S", formula("1 ab"), 1, 14)
    shortened("`ab` into 65,536 bytes", E, formula("1 ab"), 1, formula("1 ba"), 1, 65536, "S")
    shortened("A34 `1 bba`, budget 0", E, formula("1 bba"), 0, formula("1 bba"), 0)
    halted("A34 `1 aba`, budget 0", E, ABA, 18, 0, 0)
    shortened("A34 `1 aba`, budget 2", E, ABA, 2, BB, 2)
    shortened("`1 aba`, budget 3", E, ABA, 2, BB, 3)
    shortened("`1 aba`, budget 4,294,967,295", E, ABA, 2, BB, LARGEST)
    shortened("the zero formula, budget 4,294,967,295", E, formula(), 0, formula(), LARGEST)
    halted("A39 `1 aba`, budget 1", E, ABA, 18, 1, 1)
    halted("18 before 19: `1 aba`, budget 1, no room", E, ABA, 18, 1, 1, 0)
    halted("16 before 18 and 19: budget 0, no room", E, formula("1 aba", "0 a"), 16, 3, 0, 0)
    refused("19 after the steps: `1 aba`, no room", E, 19, 15, "S", ABA, 2, 0)
    shortened("no 19: membership of `1 aba`", E, ABA, 2, BB, 2, services="M")


def cases():
    table()
    examples()
    unreadable()
    readable()
    steps_under_e()
    steps_elsewhere()
    rooms_and_budgets()
