"""Leading coefficients other than 1, request P4 of document 02.

E's basis polynomials times s and t: a B sum has its polynomial's factor, and each line over the basis the inverse of the factor of the
polynomial that it names, so that it stands for what it stood for. A difference divides each side by its own leading coefficient, so it stays
E's. A step divides by the leading coefficient, so formulas come to the short forms that they have under E, in as many steps.
"""
from cases import accepted, both_sides, listed, prints, refused, shortened, unread
from packages import E_LIST, LINES, formula, package, text


def inverse(a, p):
    return next(b for b in range(1, p) if a * b % p == 1)


def scaled(s, t, p=7):
    """E with s and t as the leading coefficients."""
    u, v = inverse(s, p), inverse(t, p)
    terms = ["G 1 1 aa", "G 1 %d b" % (p - 1), "B 1 %d aa" % s, "B 1 %d b" % (p - s), "B 2 %d ab" % t, "B 2 %d ba" % (p - t)]
    sums = ["B 1 %d - 1 -" % s, "B 2 %d - 1 a" % t, "B 2 %d a 1 -" % (p - t), "G 1 %d - 1 -" % u]
    sums += ["O 1 %d - 2 -" % v, "O 2 %d - 2 a" % v, "O 2 %d b 1 -" % u]
    return package("%d 2 1 2" % p, terms, sums)


# 3 aa + 4 b and 5 ab + 2 ba: the inverses of 3 and 5 are 5 and 3.
SCALED = scaled(3, 5)


def put(number, *lines):
    """SCALED with the line of that number replaced."""
    old = SCALED.split("\n")[:-1]
    return text(old[: number - 1] + list(lines) + old[number:])


def readings():
    assert SCALED.endswith("O 1 3 - 2 -\nO 2 3 - 2 a\nO 2 5 b 1 -\n")
    accepted("P4.2 scaled E", SCALED, 2)
    listed("P4.2 scaled E", SCALED, E_LIST)
    prints("P4.2 scaled E", SCALED, E_LIST)
    both_sides("P4.1 scaled E: `1 abab`", SCALED, formula("1 abab"), 2, formula("1 bbb"))
    both_sides("P4.1 scaled E: `1 aba`", SCALED, formula("1 aba"), 2, formula("1 bb"))
    both_sides("P4.1 scaled E: `1 aaa`", SCALED, formula("1 aaa"), 1, formula("1 ba"))
    both_sides("P4.1 scaled E: `1 aba`, `6 bb`", SCALED, formula("1 aba", "6 bb"), 2, formula())
    both_sides("P4.1 scaled E: `4 ab`", SCALED, formula("4 ab"), 1, formula("4 ba"))
    shortened("P4.1 scaled E: `1 ab`, `6 ba`", SCALED, formula("1 ab", "6 ba"), 1, formula())
    shortened("P4.1 scaled E: `1 bba`", SCALED, formula("1 bba"), 0, formula("1 bba"))


def differences():
    """The difference of overlap 1 is ab + 6 ba, whatever the leading coefficients; B 2 is 5 times that."""
    refused("P4.2 O 1 as under E: 5 times the difference", put(15, "O 1 1 - 2 -"), 13, 1)
    refused("P4.2 O 1 three times the difference", put(15, "O 1 2 - 2 -"), 13, 1)
    refused("P4.2 O 2 as under E", put(17, "O 2 1 b 1 -"), 13, 2)
    refused("P4.2 O 2 with the coefficient of B 1", put(17, "O 2 3 b 1 -"), 13, 2)
    refused("P4.2 O 2 with the coefficient of B 2", put(16, "O 2 5 - 2 a"), 13, 2)
    accepted("P4.2 O 1 in two lines", put(15, "O 1 1 - 2 -", "O 1 2 - 2 -"), 2)


def sums():
    """Sums are over the polynomials as they stand."""
    refused("P4 the B sum of aa + 6 b", put(11, "B 1 1 - 1 -"), 11, 1)
    refused("P4 the B sum of ab + 6 ba", put(12, "B 2 1 - 1 a"), 11, 2)
    refused("P4 the G sum over aa + 6 b", put(14, "G 1 1 - 1 -"), 12, 1)
    refused("P4 the G sum with the coefficient of B 1", put(14, "G 1 3 - 1 -"), 12, 1)


def zero():
    """8 is left for the zero polynomial."""
    unread("P4 scaled E, B 1 zero", text(LINES[:5] + SCALED.split("\n")[7:-1]), 8, 1)
    unread("P4 scaled E, B 3 zero", SCALED.replace("7 2 1 2\n", "7 2 1 3\n"), 8, 3)


def every_factor():
    """All factors modulo 7, and the greatest and some others modulo 65,521."""
    for s in range(1, 7):
        for t in range(1, 7):
            whole, name = scaled(s, t), "P4 E with %d and %d" % (s, t)
            accepted(name, whole, 2)
            shortened(name, whole, formula("%d abab" % s, "%d ab" % t), 3, formula("%d bbb" % s, "%d ba" % t))
    for s, t in ((1, 65520), (65520, 1), (2, 32761), (65519, 256), (257, 60000)):
        whole, name = scaled(s, t, 65521), "P4 p 65521, E with %d and %d" % (s, t)
        accepted(name, whole, 2)
        shortened(name, whole, formula("65520 abab"), 2, formula("65520 bbb"))


def single_terms():
    """Polynomials of one term: 5 aa from 3 aa, where 4 x 3 is 5 and 2 x 5 is 3; and a constant other than 1."""
    square = package("7 1 1 1", ["G 1 3 aa", "B 1 5 aa"], ["B 1 4 - 1 -", "G 1 2 - 1 -"])
    accepted("P4 B 1 `5 aa`", square, 1)
    both_sides("P4 B 1 `5 aa`: `2 aaa`, `1 a`", square, formula("2 aaa", "1 a"), 1, formula("1 a"))
    constant = package("7 2 1 1", ["G 1 3 -", "B 1 3 -"], ["B 1 1 - 1 -", "G 1 1 - 1 -"])
    accepted("P4 B 1 `3 -`", constant, 0)
    both_sides("P4 B 1 `3 -`: `1 ab`, `6 b`, `3 -`", constant, formula("1 ab", "6 b", "3 -"), 3, formula())


def bytes_scaled():
    """Over GF(256): a becomes 2 b, from 2 a + 4 b, where 142 is the inverse of 2, and from 142 a + b."""
    for lead, second, up in ((2, 4, 142), (142, 1, 2)):
        terms = ["G 1 1 a", "G 1 2 b", "B 1 %d a" % lead, "B 1 %d b" % second]
        whole = package("256 2 1 1", terms, ["B 1 %d - 1 -" % lead, "G 1 %d - 1 -" % up])
        name = "P4 p 256, %d a + %d b" % (lead, second)
        accepted(name, whole, 0)
        both_sides(name + ": `128 a`", whole, formula("128 a"), 1, formula("29 b"))
        shortened(name + ": `1 a`, `2 b`", whole, formula("1 a", "2 b"), 1, formula())
        refused(name + ", G 1 with it", whole.replace("G 1 %d - 1 -" % up, "G 1 %d - 1 -" % lead), 12, 1)


def cases():
    readings()
    differences()
    sums()
    zero()
    every_factor()
    single_terms()
    bytes_scaled()
