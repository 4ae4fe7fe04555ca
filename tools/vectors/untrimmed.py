"""Leading words inside one another, request P2 of document 02: the list goes on behind the overlaps, O sums are over all of it, and of two
polynomials that match at one place a step takes the lower number.

The packages over E's relation have members of its ideal for a basis, so short forms are those under E, and what can differ are the steps.
"""
from cases import accepted, both_sides, halted, listed, prints, refused, shortened, unread
from completing import made, minus, short
from packages import E, E_LIST, LIST_NAMES, formula, monomials, own_basis, package, text
from pairs import leading_words, pair_list, pairs
from terms import overlapping

# Members of E's ideal as B sums over its relation aa - b: aa - b, ab - ba, aab - bb, aab - baa; baa - bb, baab - bbb,
# baab - bbb + ab - ba, aaaa - aab.
AA, AB, AAB, AAB_BAA = ["1 - 1 -"], ["1 - 1 a", "-1 a 1 -"], ["1 - 1 b"], ["1 - 1 b", "-1 b 1 -"]
BAA, BAAB, BAAB_AB, AAAA = ["1 b 1 -"], ["1 b 1 b"], ["1 b 1 b", "1 - 1 a", "-1 a 1 -"], ["1 aa 1 -"]


def over_e(*basis, p=7, factors=()):
    """The package with E's relation, this basis, and O lines made by steps."""
    return made(p, 2, [{"aa": 1, "b": minus(p, 1)}], basis, factors)


# The leading words aa, ab, aab, ab: four overlaps, ab once in itself, and aa, ab and ab inside aab.
UNTRIMMED = over_e(AA, AB, AAB, AB)
UNTRIMMED_LIST = LIST_NAMES + (
    "1 1 1 1 1 aaa\n2 1 2 1 1 aab\n3 1 3 1 1 aaab\n4 1 4 1 1 aab\n5 2 4 2 0 ab\n6 3 1 2 0 aab\n7 3 2 2 1 aab\n8 3 4 2 1 aab\n"
)


def put(whole, number, *lines):
    """The package with the line of that number replaced; the number behind the last adds lines."""
    old = whole.split("\n")[:-1]
    return text(old[: number - 1] + list(lines) + old[number:])


def readings():
    """The rows of P2.1 to P2.5 and of P1.7."""
    listed("P2.1 E", E, E_LIST)
    empty = LIST_NAMES + "1 1 3 0 0 -\n2 2 1 0 0 ab\n3 2 1 0 1 ab\n4 2 1 0 2 ab\n5 2 3 0 0 ab\n6 2 3 0 1 ab\n7 2 3 0 2 ab\n"
    in_room("P2.2 `-`, `ab`, `-`", monomials(["-", "ab", "-"]), empty)
    equal = LIST_NAMES + "1 1 1 1 1 aaa\n2 1 2 1 1 aaa\n3 2 1 1 1 aaa\n4 2 2 1 1 aaa\n5 1 2 2 0 aa\n"
    in_room("P2.3 `aa`, `aa`", monomials(["aa", "aa"]), equal)
    both_sides("P2.4 untrimmed E: `1 baab`", UNTRIMMED, formula("1 baab"), 1, formula("1 bbb"))
    accepted("P2.5 untrimmed E", UNTRIMMED, 8)
    word, line = "a" * 24, 4 + 65 + 65 + 1
    many = package("7 1 1 64", ["G 1 1 " + word] + ["B %d 1 %s" % (i, word) for i in range(1, 65)],
                   ["B %d 1 - 1 -" % i for i in range(1, 65)] + ["G 1 1 - 64 -"])
    required = len(pair_list([word] * 64))
    assert required == 5154248
    accepted("P1.7 64 times 24 letters a", many, 96224)
    refused("P1.7 64 times 24 letters a, into 65,536 bytes", many, 19, required, "L")
    refused("P1.7 64 times 24 letters a, into 0 bytes", many, 19, required, "L", room=0)
    prints("P1.7 64 times 24 letters a", many, "refused 19 %d\n" % required)
    refused("P1.7 64 times 24 letters a, an O 96224 line", many + "O 96224 1 - 1 -\n", 14, line)
    refused("P1.7 64 times 24 letters a, an O 96225 line", many + "O 96225 1 - 1 -\n", 15, line)


def in_room(name, whole, answer):
    """The list into just enough bytes, into one less (19), and printed."""
    listed(name, whole, answer, len(answer))
    refused(name + ", a byte less", whole, 19, len(answer), "L", room=len(answer) - 1)
    prints(name, whole, answer)


def untrimmed_e():
    """O lines are those from 22 on. Items 5 and 6 have the difference zero; items 7 and 8 have aab - bb - a (ab - ba), which is
    (ab - ba) a + b (aa - b)."""
    assert UNTRIMMED.endswith("O 3 1 - 2 b\nO 4 1 - 2 a\nO 4 1 b 1 -\nO 7 1 - 2 a\nO 7 1 b 1 -\nO 8 1 - 2 a\nO 8 1 b 1 -\n")
    in_room("P2 untrimmed E", UNTRIMMED, UNTRIMMED_LIST)
    for number, item in ((22, 1), (23, 2), (24, 2), (25, 3), (26, 4), (27, 4), (28, 7), (29, 7), (30, 8), (31, 8)):
        refused("P2 untrimmed E, line %d absent" % number, put(UNTRIMMED, number), 13, item)
    refused("P2 untrimmed E, line 18 absent", put(UNTRIMMED, 18), 11, 3)
    refused("P2 untrimmed E, line 20 absent", put(UNTRIMMED, 20), 11, 4)
    refused("P2 untrimmed E, line 21 absent", put(UNTRIMMED, 21), 12, 1)
    unread("P2 untrimmed E, lines 10, 11 absent", put(put(UNTRIMMED, 10), 10), 8, 3)
    # aab and aabab: aa at 0 before ab and aab, then bbab, where ab becomes ba.
    both_sides("P2 untrimmed E: `1 aab`", UNTRIMMED, formula("1 aab"), 1, formula("1 bb"))
    both_sides("P2 untrimmed E: `1 aabab`", UNTRIMMED, formula("1 aabab"), 2, formula("1 bbba"))
    both_sides("P2 untrimmed E: `1 aab`, `6 bb`", UNTRIMMED, formula("1 aab", "6 bb"), 1, formula())
    shortened("P2 untrimmed E: the zero formula", UNTRIMMED, formula(), 0, formula())
    shortened("P2 untrimmed E: `1 bba`", UNTRIMMED, formula("1 bba"), 0, formula("1 bba"))
    halted("P2 untrimmed E: `1 aab`, `7 b`", UNTRIMMED, formula("1 aab", "7 b"), 16, 3)


def places():
    """Single words, whose differences are all zero: the list, and the check's count of it without O lines."""
    for words in (
        ["ab", "aab"], ["aab", "ab"], ["aba", "ab"], ["ab", "cabc"], ["abab", "ab"], ["aaaa", "aa"], ["aa", "aaaa"], ["ab", "ab", "ab"],
        ["abab", "ab", "ba", "bab"], ["bab", "ba", "ab", "abab"], ["a", "b", "ab"], ["aaa", "a", "aaa", "aa"], ["a", "a"], ["abc", "b", "abc"],
        ["-", "-"], ["-", "-", "-"], ["a", "-"], ["-", "a"], ["abab", "-", "ab"], ["-", "ab", "-", "ab"], ["aa", "-", "aa"],
        ["b" * 23 + "a", "a"], ["a" + "b" * 23, "a"], ["a" * 24, "a"], ["a" * 24, "a" * 23], ["a" * 24, "-"], ["a" * 24, "a" * 24],
    ):
        name = "P2 " + ", ".join("%d letters" % len(w) if len(w) > 8 else w for w in words)
        plain = [w.replace("-", "") for w in words]
        answer = pair_list(plain)
        listed(name, monomials(words), answer, len(answer))
        accepted(name, own_basis(7, 26, [[w] for w in words]), len(pairs(plain)))
    nested = ["a" * n for n in range(1, 25)]
    accepted("P2 a to 24 times a", own_basis(7, 26, [[w] for w in nested]), len(pairs(nested)))
    refused("P2 a to 24 times a", monomials(nested), 19, len(pair_list(nested)), "L", room=0)


def many_bases():
    """Bases of E's ideal in several orders: accepted with the O lines that steps make, and not without the first line of an inclusion."""
    for name, basis in (
        ("aa, ab, baa", (AA, AB, BAA)), ("baa, ab, aa", (BAA, AB, AA)), ("aa, ab, baab", (AA, AB, BAAB)), ("baab, aa, ab", (BAAB, AA, AB)),
        ("aa, ab, baab + ab", (AA, AB, BAAB_AB)), ("baab + ab, ab, aa", (BAAB_AB, AB, AA)), ("aa, ab, aaaa", (AA, AB, AAAA)),
        ("aaaa, ab, aa", (AAAA, AB, AA)), ("aa, ab, aab, aab'", (AA, AB, AAB, AAB_BAA)), ("aa, ab, aab', aab", (AA, AB, AAB_BAA, AAB)),
        ("aab', aa, ab, baab + ab", (AAB_BAA, AA, AB, BAAB_AB)), ("aaaa, aab', aa, ab, aab, aa", (AAAA, AAB_BAA, AA, AB, AAB, AA)),
        ("aa, aa, ab", (AA, AA, AB)), ("all", (BAAB_AB, AAAA, BAAB, AAB_BAA, BAA, AAB, AB, AA)),
    ):
        whole = over_e(*basis)
        words = leading_words(whole)
        overlaps = sum(shared < len(words[second - 1]) for _, second, shared, _ in pairs(words))
        listed("P2 " + name, whole, pair_list(words))
        accepted("P2 " + name, whole, len(pairs(words)))
        lines = whole.split("\n")
        for n, fields in enumerate([line.split(" ") for line in lines], 1):
            if fields[0] == "O" and int(fields[1]) > overlaps and fields[:2] != lines[n - 2].split(" ")[:2]:
                refused("P2 %s, line %d absent" % (name, n), put(whole, n), 13, int(fields[1]), "C")
        for terms in (["1 aab"], ["1 aaaa", "3 baab"], ["2 abaabaa", "5 baaaa", "1 aaba", "6 ab"]):
            shortened("P2 %s: %s" % (name, terms[0]), whole, formula(*terms), *short(whole, *terms))


def sides():
    """baab - bbb is aa - b between b and b, so that item's difference is zero; of baab - bbb + ab - ba there is ab - ba left. Without left or
    right it would be another."""
    between = over_e(AA, AB, BAAB)
    assert between.endswith("O 6 1 b 2 a\nO 6 1 bb 1 -\n") and "O 5 " not in between
    accepted("P2 b (aa - b) b, no O 5 line", between, 6)
    left = over_e(AA, AB, BAAB_AB)
    assert "O 5 1 - 2 -\n" in left
    accepted("P2 b (aa - b) b + ab - ba", left, 6)
    for line in ("O 5 6 - 2 -", "O 5 2 - 2 -", "O 5 1 - 2 a"):
        refused("P2 b (aa - b) b + ab - ba: `%s`" % line, left.replace("O 5 1 - 2 -", line), 13, 5)
    # Equal leading words: aab - bb - (aab - baa) is b (aa - b), and in the other order minus that.
    for name, basis, right, wrong in (("aab, aab'", (AAB, AAB_BAA), 1, 6), ("aab', aab", (AAB_BAA, AAB), 6, 1)):
        whole = over_e(AA, AB, *basis)
        item = pairs(leading_words(whole)).index((3, 4, 3, 0)) + 1
        assert "O %d %d b 1 -\n" % (item, right) in whole
        signed = whole.replace("O %d %d b 1 -" % (item, right), "O %d %d b 1 -" % (item, wrong))
        refused("P2 %s with the other sign" % name, signed, 13, item)


def item_sums():
    """Items 5 to 8 of untrimmed E."""
    accepted("P2 item 6, a sum of zero", put(UNTRIMMED, 28, "O 6 1 b 1 -", "O 6 6 b 1 -", "O 7 1 - 2 a"), 8)
    refused("P2 item 6, not zero", put(UNTRIMMED, 28, "O 6 1 b 1 -", "O 7 1 - 2 a"), 13, 6)
    accepted("P2 item 7 by the other ab", put(UNTRIMMED, 28, "O 7 1 - 4 a"), 8)
    accepted("P2 lines 28, 29 exchanged", put(put(UNTRIMMED, 28, "O 7 1 b 1 -"), 29, "O 7 1 - 2 a"), 8)
    refused("P2 `O 7 2 - 2 a`", put(UNTRIMMED, 28, "O 7 2 - 2 a"), 13, 7)
    refused("P2 `O 7 1 - 2 b`", put(UNTRIMMED, 28, "O 7 1 - 2 b"), 13, 7)
    refused("P2 item 7 with the other sign", put(put(UNTRIMMED, 28, "O 7 6 - 2 a"), 29, "O 7 6 b 1 -"), 13, 7)
    refused("P2 item 7's lines as item 6's", put(put(UNTRIMMED, 28, "O 6 1 - 2 a"), 29, "O 6 1 b 1 -"), 13, 6)
    refused("P2 no line of items 7 and 8", text(UNTRIMMED.split("\n")[:27]), 13, 7)


def below_the_first_word():
    """14: the word of items 6 to 8 is aab, and that of item 5 is ab."""
    for name, lines in (
        ("its own two products", ["O 7 1 - 3 -", "O 7 6 a 2 -"]),
        ("aab is aab", ["O 7 1 a 2 -", "O 7 6 a 2 -"]),
        ("aaa is above aab", ["O 7 1 a 1 -", "O 7 6 a 1 -"]),
        ("four letters", ["O 7 1 bb 2 -", "O 7 6 bb 2 -"]),
        ("72 letters", ["O 7 1 %s 2 %s" % ("b" * 24, "b" * 24)]),
        ("item 6, baab", ["O 6 1 b 3 -", "O 6 6 b 3 -", "O 7 1 - 2 a"]),
        ("item 5, ab is ab", ["O 5 1 - 2 -", "O 5 6 - 4 -", "O 7 1 - 2 a"]),
        ("item 5, aa is above ab", ["O 5 1 - 1 -", "O 5 6 - 1 -", "O 7 1 - 2 a"]),
    ):
        refused("P2 " + name, put(UNTRIMMED, 28, *lines), 14, 28)
    accepted("P2 aba is below aab, taken back", put(UNTRIMMED, 31, "O 8 1 b 1 -", "O 8 1 - 2 a", "O 8 6 - 2 a"), 8)
    refused("P2 14 of the last line", put(UNTRIMMED, 32, "O 8 1 a 2 -"), 14, 32)
    constants = made(7, 1, [{"": 3}], [["5 - 1 -"], ["4 - 1 -"]])
    accepted("P2 1 and 5: nothing is below `-`", constants, 1)
    refused("P2 1 and 5: nothing is below `-`", constants + "O 1 1 - 1 -\nO 1 4 - 2 -\n", 14, 11)


def order_of_items():
    """15 for all O lines, then item by item, overlaps before inclusions."""
    refused("P2 `O 9 1 - 1 -`", UNTRIMMED + "O 9 1 - 1 -\n", 15, 32)
    refused("P2 15 before 13 of item 7", put(UNTRIMMED, 28) + "O 9 1 - 1 -\n", 15, 31)
    refused("P2 15 before 14 of item 7", put(UNTRIMMED, 28, "O 7 1 a 2 -") + "O 9 1 - 1 -\n", 15, 32)
    refused("P2 12 before 15", put(UNTRIMMED, 21) + "O 9 1 - 1 -\n", 12, 1)
    refused("P2 13 of item 4 before 14 of item 7", put(put(UNTRIMMED, 28, "O 7 1 a 2 -"), 26), 13, 4)
    refused("P2 13 of item 7 before 14 of item 8", put(put(UNTRIMMED, 30, "O 8 1 a 2 -"), 28), 13, 7)
    refused("P2 14 of item 7 before 13 of item 8", put(put(UNTRIMMED, 30), 28, "O 7 1 a 2 -"), 14, 28)
    refused("P2 no overlap, ab in abc: `O 1 1 - 1 -`", own_basis(7, 3, [["abc"], ["ab"]]) + "O 1 1 - 1 -\n", 14, 13)
    refused("P2 no overlap, ab in abc: `O 2 1 - 1 -`", own_basis(7, 3, [["abc"], ["ab"]]) + "O 2 1 - 1 -\n", 15, 13)
    for services, given in (("SM", "x"), ("SM", formula("1 aba"))):
        refused("P2 13 of item 7, whatever the formula", put(UNTRIMMED, 28), 13, 7, services, given, 0, 0)


def steps_at_one_place():
    """aab by aa - b: bb; by aab - baa: baa, then bb."""
    for name, basis, steps in (
        ("aa, ab, aab'", (AA, AB, AAB_BAA), 1), ("aab', aa, ab", (AAB_BAA, AA, AB), 2), ("ab, aab', aa", (AB, AAB_BAA, AA), 2),
        ("ab, aa, aab'", (AB, AA, AAB_BAA), 1), ("aab, aab', aa, ab", (AAB, AAB_BAA, AA, AB), 1),
        ("aab', aab, aa, ab", (AAB_BAA, AAB, AA, AB), 2),
    ):
        both_sides("P2 %s: `1 aab`" % name, over_e(*basis), formula("1 aab"), steps, formula("1 bb"))
    # The leftmost place is chosen first: baab has aa at 1, and ab, of a lower number, at 2.
    both_sides("P2 ab, aab, aa: `1 baab`", over_e(AB, AAB, AA), formula("1 baab"), 1, formula("1 bbb"))
    both_sides("P2 ab, ab, aa: `1 baab`", over_e(AB, AB, AA), formula("1 baab"), 1, formula("1 bbb"))
    # baab as a whole stands at 0, before aa at 1.
    both_sides("P2 aa, ab, baab + ab: `1 baab`", over_e(AA, AB, BAAB_AB), formula("1 baab"), 2, formula("1 bbb"))


def empty_leading_words():
    """The empty word stands at place 0 of every word: with 1 and a + 3, the word a becomes 0 by 1, and 4 by a + 3."""
    one, more = ["5 - 1 -"], ["5 a 1 -", "1 - 1 -"]
    for name, basis, steps in (("1, a + 3", (one, more), 1), ("a + 3, 1", (more, one), 2)):
        whole = made(7, 2, [{"": 3}], basis)
        of = name.split(", ").index("1") + 1
        assert whole.endswith("O 1 3 - %d -\nO 2 3 - %d -\n" % (of, of))
        accepted("P2 " + name, whole, 2)
        both_sides("P2 %s: `1 a`" % name, whole, formula("1 a"), steps, formula())
        both_sides("P2 %s: `2 ba`, `1 b`" % name, whole, formula("2 ba", "1 b"), 2, formula())
        refused("P2 %s, the last line absent" % name, whole[: whole.rindex("O")], 13, 2)
        refused("P2 %s, 5 for 3" % name, whole.replace("O 2 3", "O 2 5"), 13, 2)
        refused("P2 %s, an O 3 line" % name, whole + "O 3 1 - 1 -\n", 15, len(whole.split("\n")))


def scaled():
    """Each side of an inclusion is divided by its own leading coefficient (P4): the list, the differences and the steps are untrimmed E's."""
    for factors in ((3, 5, 2, 4), (1, 1, 6, 1), (6, 1, 1, 1), (1, 2, 1, 1), (1, 1, 1, 3), (2, 2, 2, 2)):
        whole, name = over_e(AA, AB, AAB, AB, factors=factors), "P2 P4 %d %d %d %d" % factors
        accepted(name, whole, 8)
        listed(name, whole, UNTRIMMED_LIST)
        both_sides(name + ": `3 aabab`", whole, formula("3 aabab"), 2, formula("3 bbba"))
    whole = over_e(AA, AB, AAB, AB, factors=(3, 5, 2, 4))
    assert whole.endswith("O 7 3 - 2 a\nO 7 5 b 1 -\nO 8 3 - 2 a\nO 8 5 b 1 -\n")
    for number, line in ((28, "O 7 1 - 2 a"), (29, "O 7 1 b 1 -"), (28, "O 7 6 - 2 a"), (29, "O 7 3 b 1 -")):
        refused("P2 P4 line %d `%s`" % (number, line), put(whole, number, line), 13, 7)
    large = over_e(AAB_BAA, AA, AB, BAAB_AB, p=65521, factors=(2, 65520, 256, 60000))
    accepted("P2 P4 p 65521", large, len(pairs(leading_words(large))))
    shortened("P2 P4 p 65521", large, formula("65520 baab", "1 aab"), *short(large, "65520 baab", "1 aab"))


def bytes_untrimmed():
    """Over GF(256), where minus is plus."""
    for factors in ((1, 1, 1, 1), (2, 142, 29, 255)):
        whole, name = over_e(AA, AB, AAB, AB, p=256, factors=factors), "P2 p 256, %d %d %d %d" % factors
        accepted(name, whole, 8)
        listed(name, whole, UNTRIMMED_LIST)
        both_sides(name + ": `200 aabab`", whole, formula("200 aabab"), 2, formula("200 bbba"))
        shortened(name + ": a member", whole, formula("128 aab", "128 bb"), 1, formula())
        refused(name + ", line 31 absent", put(whole, 31), 13, 8)
    # B 2 is 142 (ab + ba), and the inverse of 142 is 2.
    assert whole.split("\n")[27] == "O 7 2 - 2 a"
    refused("P2 p 256, `O 7 142 - 2 a`", put(whole, 28, "O 7 142 - 2 a"), 13, 7)
    whole = over_e(AAB_BAA, AA, AB, BAAB_AB, p=256, factors=(7, 9, 11, 13))
    accepted("P2 p 256, aab', aa, ab", whole, len(pairs(leading_words(whole))))
    both_sides("P2 p 256, aab', aa, ab: `5 aab`", whole, formula("5 aab"), 2, formula("5 bb"))


def terms_of_a_sum():
    """10 in the sum of an inclusion: the basis of terms.overlapping and aab - bb. Item 5 is ab inside aab; its difference aba - bb has two
    terms, and ten lines of 48 words of three letters make it 482."""
    lines = ["O 5 1 - 3 " + x for x in "klmnopqrst"] + ["O 5 1 - 4 k"]
    for count in (30, 31):
        whole, before = overlapping(count, [])
        whole = whole.replace("7 26 3 4\n", "7 26 3 5\n").replace("kind item coef left", "B 5 1 aab\nB 5 6 bb\nkind item coef left")
        whole = whole.replace("G 1 1 - 1 -\n", "B 5 1 - 1 b\nG 1 1 - 1 -\n") + "O 3 1 - 2 b\n"
        whole += text(lines + [line.replace(" 1 ", " 6 ") for line in lines] + ["O 5 1 - 2 a", "O 5 1 b 1 -"])
        assert pairs(leading_words(whole))[3:] == [(5, 1, 2, 0), (5, 2, 2, 1)]
        if count == 30:
            accepted("P2 512 terms in the sum of an inclusion", whole, 5)
            shortened("P2 512 terms in the sum of an inclusion", whole, formula("1 aab"), 1, formula("1 bb"))
        else:
            refused("P2 513 terms in the sum of an inclusion", whole, 10, before + 3 + 3 + 1 + 11)


def sixty_three():
    """E 21 times, with a word u of its own in place of a, as in packages.copies, and uub - bb for each: five pairs for each u."""
    words = ["a" + x + y for x in "bcd" for y in "bcdefgh"]
    basis = []
    for i, u in enumerate(words, 1):
        basis += [["1 - %d -" % i], ["1 - %d %s" % (i, u), "-1 %s %d -" % (u, i)], ["1 - %d b" % i]]
    whole = made(7, 26, [{u + u: 1, "b": 6} for u in words], basis)
    accepted("P2 63 basis polynomials", whole, 105)
    both_sides("P2 63 basis polynomials", whole, formula("2 abbabbb", "1 adhadhb", "1 adhb"), 3, formula("1 badh", "3 bb"))
    refused("P2 63 basis polynomials, the last line absent", whole[: whole.rindex("O")], 13, 105)


def cases():
    readings()
    untrimmed_e()
    places()
    many_bases()
    sides()
    item_sums()
    below_the_first_word()
    order_of_items()
    steps_at_one_place()
    empty_leading_words()
    scaled()
    bytes_untrimmed()
    terms_of_a_sum()
    sixty_three()
