"""Packages and formulas as texts: document 01's package E, E with lines put in or left out, and packages built for one purpose."""
import itertools

with open("examples/e.pkg", encoding="ascii") as file:
    E = file.read()
LINES = E.split("\n")[:-1]
LIST_NAMES = "item first second shared at word\n"
E_LIST = LIST_NAMES + "1 1 1 1 1 aaa\n2 1 2 1 1 aab\n"
LETTERS = "abcdefghijklmnopqrstuvwxyz"


def text(lines):
    return "".join(line + "\n" for line in lines)


def with_line(number, *put):
    """E with the line of that number replaced by those put; line 18 is behind the last."""
    return text(LINES[: number - 1] + list(put) + LINES[number:])


def with_lines(changes):
    """E with several lines replaced, each by a list of lines; line 18 is behind the last."""
    return text(line for n, old in enumerate(LINES + [None], 1) for line in changes.get(n, [old] if old else []))


def without(*numbers):
    """E without the lines of those numbers."""
    return with_lines({n: [] for n in numbers})


def package(counts, terms, sums=()):
    """A package of a counts line, term lines and sum lines."""
    return text(LINES[0:1] + [counts] + LINES[2:3] + list(terms) + LINES[9:10] + list(sums))


def sum_line(terms, k):
    """The number of the k-th sum line behind those term lines."""
    return 4 + len(terms) + k


def formula(*terms):
    return text(["coef word"] + list(terms))


def polynomial(kind, item, words, coef=1):
    """Term lines of one item: these words, each with the coefficient."""
    return ["%s %d %d %s" % (kind, item, coef, w) for w in words]


def own_basis(p, letters, polynomials, more=()):
    """A package whose basis is its relations, each given as words with coefficient 1, and sum lines before those that certify it: where no
    leading word overlaps another, it is accepted."""
    count = len(polynomials)
    terms = [line for kind in "GB" for i, words in enumerate(polynomials, 1) for line in polynomial(kind, i, words)]
    sums = ["%s %d 1 - %d -" % (kind, i, i) for kind in "BG" for i in range(1, count + 1)]
    return package("%d %d %d %d" % (p, letters, count, count), terms, list(more) + sums)


def monomials(words, letters=26):
    """A package without relations whose basis polynomials are the words."""
    return package("7 %d 0 %d" % (letters, len(words)), ["B %d 1 %s" % (i + 1, w) for i, w in enumerate(words)])


def falling(count, length=6, letters="ab"):
    """So many words of equal length, falling: a is greater than b, so they stand as in a dictionary."""
    return ["".join(w) for w in itertools.islice(itertools.product(letters, repeat=length), count)]


def forty_eight(*more):
    """E with 48 terms in G 1, lines 4 to 51, and more lines behind them."""
    return text(LINES[:3] + polynomial("G", 1, falling(48)) + list(more) + LINES[5:])


def copies(count):
    """E so many times, with a word u of its own in place of a: the relations uu - b, and for each the basis polynomials uu - b and ub - bu.
    Each u begins with the only a in it, so uu overlaps itself and ub in u, and nothing overlaps otherwise: two overlaps for each."""
    words = ["a" + x + y for x in "bcde" for y in "bcdefghi"][:count]
    terms = [line for i, u in enumerate(words, 1) for line in ("G %d 1 %s" % (i, u + u), "G %d 6 b" % i)]
    sums = {"B": [], "G": [], "O": []}
    for i, u in enumerate(words, 1):
        one, two = 2 * i - 1, 2 * i
        terms += ["B %d 1 %s" % (one, u + u), "B %d 6 b" % one, "B %d 1 %sb" % (two, u), "B %d 6 b%s" % (two, u)]
        sums["B"] += ["B %d 1 - %d -" % (one, i), "B %d 1 - %d %s" % (two, i, u), "B %d 6 %s %d -" % (two, u, i)]
        sums["G"] += ["G %d 1 - %d -" % (i, one)]
        sums["O"] += ["O %d 1 - %d -" % (one, two), "O %d 1 - %d %s" % (two, two, u), "O %d 1 b %d -" % (two, one)]
    return package("7 26 %d %d" % (count, 2 * count), terms, sums["B"] + sums["G"] + sums["O"])


NOTHING = package("7 2 0 0", [])
CONSTANT = package("7 2 1 1", ["G 1 3 -", "B 1 1 -"], ["B 1 5 - 1 -", "G 1 3 - 1 -"])
