"""Refusals 10 and 17, and the bounds of 48 and 512 terms.

A line or a step here adds words that are in no other: all words of one line end in a word of its own, and these ends are equally long.
"""
from cases import accepted, halted, refused, shortened, unread
from packages import LETTERS, falling, formula, own_basis, package, polynomial, sum_line

WORDS = falling(63)
ENDS = falling(16, 4)
LOWER = falling(49, 3, "bcde")


def shifts(kind, item, of, ends, coef=1):
    """Sum lines that each add polynomial `of` with an end of its own."""
    return ["%s %d %d - %d %s" % (kind, item, coef, of, end) for end in ends]


def one_letter(relations, lines):
    """The basis `a`, the relation `a`, and further relations whose words all hold an a, so that each is a sum over the basis; and B 1's
    sum lines before the one that makes the sum right. A relation is a list of pairs of coefficient and word."""
    terms = ["G 1 1 a"]
    sums = lines + ["B 1 1 - 1 -", "G 1 1 - 1 -"]
    for i, relation in enumerate(relations, 2):
        terms += ["G %d %d %s" % (i, c, w) for c, w in relation]
        for c, w in relation:
            left, right = w.split("a", 1)
            sums.append("G %d %d %s 1 %s" % (i, c, left or "-", right or "-"))
    terms.append("B 1 1 a")
    return package("7 2 %d 1" % (1 + len(relations)), terms, sums), terms


def ones(words):
    return [(1, w) for w in words]


def in_basis_sums():
    """B 1 has one term, relation 2 has 48: after ten lines 1 + 480 terms."""
    ten = shifts("B", 1, 2, ENDS[:10])
    back = shifts("B", 1, 2, ENDS[:10], 6)
    eleven, terms = one_letter([ones(WORDS[:48])], shifts("B", 1, 2, ENDS[:11]))
    refused("01 row 10: eleven lines of 48 new words", eleven, 10, sum_line(terms, 11))
    for count in (31, 32):
        last = [shifts("B", 1, 3, ENDS[10:11]), shifts("B", 1, 3, ENDS[10:11], 6)]
        whole, terms = one_letter([ones(WORDS[:48]), ones(WORDS[:count])], ten + last[0] + back + last[1])
        if count == 31:
            accepted("A24 512 terms, then taken back", whole, 0)
            shortened("A24 512 terms, then taken back", whole, formula("1 a", "1 b"), 1, formula("1 b"))
        else:
            refused("A24 513 terms", whole, 10, sum_line(terms, 11))
    # At 512 terms one more line adds ten words, cancels twenty and adds ten: from whichever end it is added, over 512 only on the way.
    there = WORDS[10:41]
    mixed = ones(WORDS[:10]) + [(6, w) for w in WORDS[10:30]] + ones(WORDS[48:58])
    lines = ten + shifts("B", 1, 3, ENDS[10:11]) + shifts("B", 1, 4, ENDS[10:11])
    lines += shifts("B", 1, 4, ENDS[10:11], 6) + shifts("B", 1, 3, ENDS[10:11], 6) + back
    whole, terms = one_letter([ones(WORDS[:48]), ones(there), mixed], lines)
    accepted("A24 over 512 terms only within a line", whole, 0)


def in_relation_sums():
    """G 1 has 48 terms, as has B 1: after nine lines 480; B 2 has 32 or 33. Leading words aaaaab and cd: no overlap."""
    long = WORDS[1:49]
    for count in (32, 33):
        short = falling(88, 2, LETTERS)[55 : 55 + count]
        lines = shifts("G", 1, 1, ENDS[:9]) + shifts("G", 1, 2, ENDS[9:10])
        lines += shifts("G", 1, 1, ENDS[:9], 6) + shifts("G", 1, 2, ENDS[9:10], 6)
        terms = [line for kind in "GB" for i, words in ((1, long), (2, short)) for line in polynomial(kind, i, words)]
        whole = package("7 26 2 2", terms, ["B 1 1 - 1 -", "B 2 1 - 2 -"] + lines + ["G 1 1 - 1 -", "G 2 1 - 2 -"])
        if count == 32:
            accepted("A24 512 terms in a G sum", whole, 0)
        else:
            refused("A24 513 terms in a G sum", whole, 10, sum_line(terms, 2 + 10))


def overlapping(count, lines):
    """E with two relations more, which are basis polynomials 3 and 4, of 48 and of `count` terms in words of two letters; leading words
    aa, ab, cd, eg, so the overlaps are E's. Overlap 1's sum lines come before the one that makes the sum right."""
    pairs = falling(26 * 6, 2, LETTERS)
    three, four = pairs[55 : 55 + 48], pairs[110 : 110 + count]
    assert (three[0], four[0]) == ("cd", "eg")
    terms = ["G 1 1 aa", "G 1 6 b"] + polynomial("G", 2, three) + polynomial("G", 3, four)
    terms += ["B 1 1 aa", "B 1 6 b", "B 2 1 ab", "B 2 6 ba"] + polynomial("B", 3, three) + polynomial("B", 4, four)
    sums = ["B 1 1 - 1 -", "B 2 1 - 1 a", "B 2 6 a 1 -", "B 3 1 - 2 -", "B 4 1 - 3 -", "G 1 1 - 1 -", "G 2 1 - 3 -", "G 3 1 - 4 -"]
    sums += lines + ["O 1 1 - 2 -", "O 2 1 - 2 a", "O 2 1 b 1 -"]
    return package("7 26 3 4", terms, sums), sum_line(terms, 8)


def in_overlap_sums():
    """Overlap 1's difference ab - ba has two terms, its word is aaa: after ten lines of three letters 482 terms."""
    ten, back = shifts("O", 1, 3, "klmnopqrst"), shifts("O", 1, 3, "klmnopqrst", 6)
    whole, before = overlapping(30, ten + ["O 1 1 - 4 k"] + back + ["O 1 6 - 4 k"])
    accepted("A24 512 terms in an O sum", whole, 2)
    shortened("A24 512 terms in an O sum", whole, formula("1 aba"), 2, formula("1 bb"))
    whole, before = overlapping(31, ten + ["O 1 1 - 4 k"] + back + ["O 1 6 - 4 k"])
    refused("A24 513 terms in an O sum", whole, 10, before + 11)
    whole, before = overlapping(31, ten + ["O 1 1 - 3 kk"])
    refused("A27 14 before 10 in a line", whole, 14, before + 11)
    whole, before = overlapping(31, ten + ["O 1 1 - 3 u", "O 1 1 - 3 kk"])
    refused("A27 10 of a line before 14 of the next", whole, 10, before + 11)
    whole, before = overlapping(31, ["O 1 1 - 3 kk"] + ten + ["O 1 1 - 3 u"])
    refused("A27 14 of a line before 10 of a later one", whole, 14, before + 1)
    whole, before = overlapping(31, ten + ["O 1 1 - 3 u"])
    refused("A26 15 before 10 of an O sum", whole + "O 3 1 - 1 -\n", 15, before + 15)


def order_of_sums():
    """Item by item: what is wrong with an earlier item comes first."""
    relation = polynomial("G", 1, WORDS[:48])
    eleven = shifts("B", 2, 1, ENDS[:11])
    terms = relation + ["B 1 1 b", "B 2 1 a"]
    refused("A25 11 of B 1 before 10 of B 2", package("7 2 1 2", terms, eleven), 11, 1)
    refused("A25 10 of B 1 before 11 of B 1 and of B 2", package("7 2 1 2", terms, shifts("B", 1, 1, ENDS[:11])), 10, sum_line(terms, 11))
    eleven, terms = one_letter([ones(WORDS[:48])], shifts("B", 1, 2, ENDS[:11]))
    refused("A25 10 of B 1 before 12 of G 1", eleven.replace("G 1 1 - 1 -\n", ""), 10, sum_line(terms, 11))
    refused("A25 10 of B 1 before 15", eleven + "O 1 1 - 1 -\n", 10, sum_line(terms, 11))
    long = WORDS[1:49]
    grown = own_basis(7, 2, [long]) + "".join(line + "\n" for line in shifts("G", 1, 1, ENDS[:11]) + ["O 1 1 - 1 -"])
    refused("A26 10 of G 1 before 15", grown, 10, 4 + 96 + 2 + 11)


def forty_eight_terms():
    words = WORDS[1:50]
    whole = own_basis(7, 2, [words[:48]])
    accepted("48 terms in G 1 and in B 1", whole, 0)
    shortened("48 terms in G 1 and in B 1", whole, formula("1 aaaaab"), 1, formula(*["6 " + w for w in words[1:48]]))
    terms = polynomial("G", 1, words[:48]) + polynomial("B", 1, words)
    unread("49 terms in B 1", package("7 2 1 1", terms, ["B 1 1 - 1 -", "G 1 1 - 1 -"]), 7, 4 + 96)


def growing(last):
    """The basis aab, aac and aad, each plus lower words in other letters: 47, `last` and 47 of them. No leading word overlaps another."""
    return own_basis(5, 5, [["aab"] + LOWER[:47], ["aac"] + LOWER[:last], ["aad"] + LOWER[:47]])


def written(kept, products):
    """The text of a short form: words that were there before with coefficient 1, and words that steps put there with coefficient 4, for a
    step takes away the words behind the leading one. All have seven letters, so they fall as in a dictionary."""
    terms = [(w, 1) for w in kept] + [(w, 4) for w in products]
    return formula(*["%d %s" % (c, w) for w, c in sorted(terms)])


def in_steps():
    """48 terms, and each step on aab leaves 46 more: after ten steps 508."""
    ends = falling(64, 4, "bcde")
    fill = ["ab" + w for w in falling(48, 5, "bcde")]
    many = formula(*["1 aab" + e for e in ends[:48]])
    for budget in (11, 12):
        halted("01 row 17, A35: budget %d" % budget, growing(5), many, 17, 11, budget)
    halted("A35 48 words, each step adding 47, budget 10", growing(5), many, 18, 10, 10)
    halted("17 before 19: no room", growing(5), many, 17, 11, 11, 0)
    products = [w + e for w in LOWER[:47] for e in ends[:10]]
    eleven = formula(*["1 aab" + e for e in ends[:10]] + ["1 aac" + ends[10]] + ["1 " + w for w in fill[:37]])
    form = written(fill[:37], products + [w + ends[10] for w in LOWER[:5]])
    assert form.count("\n") == 513
    shortened("A44 a short form of 512 terms", growing(5), eleven, 11, form)
    refused("A44 512 terms, a byte less", growing(5), 19, len(form), "S", eleven, 11, len(form) - 1)
    halted("A44 that short form handed in", growing(5), form, 16, 50)
    halted("A35 513 terms, nothing reducible in them", growing(6), eleven, 17, 11, 11)
    # The eleventh step, on aad, adds twelve words, cancels 22 that the formula has, and adds thirteen: over 512 only on the way.
    hit = [w + ends[10] for w in LOWER[12:34]]
    crossing = formula(*["1 aab" + e for e in ends[:10]] + ["1 aad" + ends[10]] + ["1 " + w for w in fill[:15] + hit])
    form = written(fill[:15], products + [w + ends[10] for w in LOWER[:12] + LOWER[34:47]])
    assert form.count("\n") == 511
    shortened("A35 over 512 terms only within a step", growing(5), crossing, 11, form)


def cases():
    in_basis_sums()
    in_relation_sums()
    in_overlap_sums()
    order_of_sums()
    forty_eight_terms()
    in_steps()
