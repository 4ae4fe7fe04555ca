"""GF(256), request P9 of document 02: 256 in place of p, coefficients 1 to 255 with bit i for x^i, x^8 = x^4 + x^3 + x^2 + 1, which is 29.

A sum is the exclusive or of the bits. x times a number is the number shifted by one bit; where that leaves 256 or more, 256 is taken away and
29 added. So x^8 to x^16 are 29, 58, 116, 232, 205, 135, 19, 38, 76.
"""
from cases import accepted, both_sides, halted, listed, prints, refused, shortened, unread
from packages import E, E_LIST, LINES, LIST_NAMES, formula, package, with_line
from pairs import pair_list

NOTHING = package("256 2 0 0", [])
# E with 1 for 6, which is -1 modulo 7: its sums hold where 1 + 1 is 0.
TWIN = E.replace(" 6 ", " 1 ")


def under(p, whole):
    """The package with p in line 2."""
    names, counts, rest = whole.split("\n", 2)
    return "\n".join((names, "%d %s" % (p, counts.split(" ", 1)[1]), rest))


OVER = under(256, TWIN)


def over(number, *put):
    """OVER with the line of that number replaced by those put; line 18 is behind the last."""
    return under(256, with_line(number, *put).replace(" 6 ", " 1 "))


def equal(k, first=1, second=None, down=1, up=1):
    """One relation, first a + second b; the basis a + k b; and the coefficients of the B line and of the G line. So a becomes k b."""
    terms = ["G 1 %d a" % first, "G 1 %d b" % (second or k), "B 1 1 a", "B 1 %d b" % k]
    return package("256 2 1 1", terms, ["B 1 %d - 1 -" % down, "G 1 %d - 1 -" % up])


def which_numbers():
    """Refusal 3 lets 256 pass, and no other higher power of a prime."""
    accepted("P9.2 p 256", NOTHING, 0)
    listed("P9.2 p 256", NOTHING, LIST_NAMES)
    accepted("P9.2 p 256, E with 1 for 6", OVER, 2)
    listed("P9.2 p 256, E with 1 for 6", OVER, E_LIST)
    prints("P9.2 p 256, E with 1 for 6", OVER, E_LIST)
    accepted("P9.2 p 2, E with 1 for 6", under(2, TWIN), 2)
    unread("P9.2 p 128", under(128, TWIN), 3, 2)
    prints("P9.2 p 128", under(128, TWIN), "refused 3 2\n")
    for p in (4, 8, 9, 16, 25, 32, 64, 81, 243, 255, 512, 1024, 6561, 32768, 65536):
        unread("P9.2 p %d, E with 1 for 6" % p, under(p, TWIN), 3, 2, "LC")
    unread("P9.2 `0256 2 0 0`", package("0256 2 0 0", []), 2, 2)
    unread("P9.2 `256 27 0 0`", package("256 27 0 0", []), 4, 2)
    unread("P9.2 `128 27 0 0`", package("128 27 0 0", []), 3, 2)
    # E's B 2 is ab + 6 ba, and its sum lines add aaa and 6 aaa, which is 7 aaa.
    refused("P9.2 p 256, E", under(256, E), 11, 2)
    listed("P9.2 p 256, E", under(256, E), E_LIST)


def coefficients():
    """1 to 255: 256 is out of bounds, as p always is."""
    halted("P9.1 `256 a`", NOTHING, formula("256 a"), 16, 2)
    halted("P9.1 `1 aba`, `256 a`", OVER, formula("1 aba", "256 a"), 16, 3)
    halted("P9.1 `0 a`", NOTHING, formula("0 a"), 16, 2)
    halted("P9.1 `257 a`", NOTHING, formula("257 a"), 16, 2)
    shortened("P9.1 `255 a`", NOTHING, formula("255 a"), 0, formula("255 a"))
    unread("P9.1 256 in a G line", over(5, "G 1 256 b"), 5, 5)
    unread("P9.1 256 in a B line", over(9, "B 2 256 ba"), 5, 9)
    unread("P9.1 256 in a sum line", over(17, "O 2 256 b 1 -"), 5, 17)
    unread("P9.1 0 in a sum line", over(11, "B 1 0 - 1 -"), 5, 11)
    accepted("P9.1 255 in a package", equal(255), 0)
    shortened("P9.1 255 in a package", equal(255), formula("1 a"), 1, formula("255 b"))
    # Its B sum is aa + b still.
    refused("P9.1 a basis polynomial leads with 255", over(6, "B 1 255 aa"), 11, 1)
    refused("P9.1 a leading word holds another's", over(8, "B 2 1 aab"), 11, 2)
    listed("P9.1 a leading word holds another's", over(8, "B 2 1 aab"), pair_list(["aa", "aab"]))


def products():
    """Under a = k b the formula c a becomes c times k, b."""
    both_sides("P9.1 2 x 128 is 29", equal(2), formula("128 a"), 1, formula("29 b"))
    both_sides("P9.1 128 x 2 is 29", equal(128), formula("2 a"), 1, formula("29 b"))
    # (x + 1)(x + 1) is x^2 + 1, since x + x is 0.
    shortened("P9.1 3 x 3 is 5", equal(3), formula("3 a"), 1, formula("5 b"))
    # x^7 x^7 is x^14.
    shortened("P9.1 128 x 128 is 19", equal(128), formula("128 a"), 1, formula("19 b"))
    # The square of a sum is the sum of the squares: 1, 4, 16, 64, and x^8, x^10, x^12, x^14, which are 29, 116, 205, 19.
    shortened("P9.1 255 x 255 is 226", equal(255), formula("255 a"), 1, formula("226 b"))
    # 142 shifted is 256 + 28, and 28 + 29 is 1.
    shortened("P9.1 2 x 142 is 1", equal(2), formula("142 a"), 1, formula("1 b"))
    shortened("P9.1 200 x 1 is 200", equal(200), formula("1 a"), 1, formula("200 b"))
    # Each step turns the leftmost a into 2 b. x^17 to x^24 are 152, 45, 90, 180, 117, 234, 201, 143.
    both_sides("P9.1 2 to the 24th is 143", equal(2), formula("1 " + "a" * 24), 24, formula("143 " + "b" * 24))


def sums_of_coefficients():
    """Exclusive or: a number added to itself is 0, and minus is plus. Under OVER aba becomes baa, and baa bb."""
    shortened("P9.1 200 + 100 is 172", equal(1), formula("200 a", "100 b"), 1, formula("172 b"))
    shortened("P9.1 255 + 1 is 254", equal(1), formula("255 a", "1 b"), 1, formula("254 b"))
    shortened("P9.1 128 + 128 is 0", equal(1), formula("128 a", "128 b"), 1, formula())
    both_sides("P9.1 minus is plus: `1 aba`, `1 bb`", OVER, formula("1 aba", "1 bb"), 2, formula())
    shortened("P9.1 142 + 114 is 252, and not 0", OVER, formula("142 aba", "114 bb"), 2, formula("252 bb"))
    shortened("P9.1 `6 aa`, `5 b`", OVER, formula("6 aa", "5 b"), 1, formula("3 b"))
    shortened("P9.1 a member: `128 a`, `29 b`", equal(2), formula("128 a", "29 b"), 1, formula())
    shortened("P9.1 no member: `128 a`, `28 b`", equal(2), formula("128 a", "28 b"), 1, formula("1 b"))
    # Both words become 2 bb.
    shortened("P9.1 `1 ab`, `1 ba` cancel", equal(2), formula("1 ab", "1 ba"), 2, formula())


def sums_of_lines():
    """Sum lines multiply and add in the field. 142 is 1/2, and 142 x 4 is 2."""
    accepted("P9.1 B line 142, G line 2", equal(2, 2, 4, 142, 2), 0)
    shortened("P9.1 B line 142, G line 2", equal(2, 2, 4, 142, 2), formula("128 a"), 1, formula("29 b"))
    refused("P9.1 B line 128, where 142 is due", equal(2, 2, 4, 128, 2), 11, 1)
    refused("P9.1 G line 142, where 2 is due", equal(2, 2, 4, 142, 142), 12, 1)
    # 244 shifted is 256 + 232, and 232 + 29 is 245. So 244 x 3 is 245 + 244, which is 1.
    constant = package("256 2 1 1", ["G 1 3 -", "B 1 1 -"], ["B 1 244 - 1 -", "G 1 3 - 1 -"])
    accepted("P9.1 the constant 3, basis `1`", constant, 0)
    shortened("P9.1 the constant 3: `1 ab`, `255 -`", constant, formula("1 ab", "255 -"), 2, formula())
    refused("P9.1 a line twice is zero", over(11, LINES[10], LINES[10]), 11, 1)
    accepted("P9.1 a line three times is the line", over(14, LINES[13], LINES[13], LINES[13]), 2)
    accepted("P9.1 an O line more, twice", over(15, LINES[14], "O 1 255 - 1 -", "O 1 255 - 1 -"), 2)
    refused("P9.1 an O line more, once", over(15, LINES[14], "O 1 255 - 1 -"), 13, 1)
    refused("P9.1 `O 1 2 - 2 -`", over(15, "O 1 2 - 2 -"), 13, 1)
    refused("P9.1 `O 1 1 a 1 -`", over(15, "O 1 1 a 1 -"), 14, 15)
    refused("P9.1 `O 3 1 - 1 -`", over(18, "O 3 1 - 1 -"), 15, 18)


def reed_solomon():
    """examples/reed_solomon.pkg: ba, ca, da, ea become 1, 2, 4, 8 times b, c, d, e; aaaaf becomes 15 aaaf, 54 aaf, 120 af, 64 f and g; and bg,
    cg, dg, eg become zero."""
    with open("examples/reed_solomon.pkg", encoding="ascii", newline="") as file:
        whole = file.read()
    words = ["%d %d 5 1 1 %saaaaf\n" % (i, i, x) for i, x in enumerate("bcde", 1)]
    accepted("example reed_solomon", whole, 4)
    listed("example reed_solomon", whole, LIST_NAMES + "".join(words))
    shortened("example reed_solomon, `128 ca`", whole, formula("128 ca"), 1, formula("29 c"))
    shortened("example reed_solomon, `142 ca`, `1 c`", whole, formula("142 ca", "1 c"), 1, formula())
    form = formula("15 aaaf", "54 aaf", "120 af", "64 f", "1 g")
    shortened("example reed_solomon, `1 aaaaf`", whole, formula("1 aaaaf"), 1, form)
    # Division by the generator. 15, 54, 120, 64 times 142 are 137, 27, 60, 32, and 255 + 137 is 118; times 118 they are 200, 124, 14, 204, and
    # 1 + 27 + 200 is 210; times 210 they are 218, 40, 158, 190. What is left: 60 + 124 + 218, 32 + 14 + 40, 204 + 158, 190.
    form = formula("154 aaaf", "6 aaf", "142 aag", "82 af", "118 ag", "190 f", "210 g")
    both_sides("example reed_solomon, parity", whole, formula("142 aaaaaaf", "255 aaaaaf", "1 aaaaf"), 3, form)
    # 255 times 8, five times: 171, 49, 149, 220, 174. The sixth step is that on eg.
    shortened("example reed_solomon, an error", whole, formula("255 eaaaaaf", "1 eg"), 6, formula("174 ef"))
    # daaag: three steps to 64 dg, and one; eag: one step to eg, and one.
    both_sides("example reed_solomon, syndromes", whole, formula("255 daaag", "142 eag"), 6, formula())


def cases():
    which_numbers()
    coefficients()
    products()
    sums_of_coefficients()
    sums_of_lines()
    reed_solomon()
