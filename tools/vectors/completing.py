"""Packages whose O lines are made by steps: the difference of each pair of leading words (01; 02, P2 and P4) is brought to zero by 01's
steps, and each step is a sum line.

A polynomial is a dictionary from words to coefficients, none of them 0; a word is a text, the empty one without letters. In place of p, 256
stands for GF(256) (P9).
"""
import functools

from packages import formula, package
from pairs import leading_words, pairs


def plus(p, a, b):
    return a ^ b if p == 256 else (a + b) % p


def minus(p, a):
    return a if p == 256 else -a % p


def times(p, a, b):
    """In GF(256) x^8 is x^4 + x^3 + x^2 + 1, so 256 is taken away by adding 256 + 29."""
    if p != 256:
        return a * b % p
    product = 0
    for bit in reversed(range(8)):
        product = 2 * product ^ (a if b >> bit & 1 else 0)
        product = product ^ 285 if product > 255 else product
    return product


@functools.cache
def inverse(p, a):
    return next(b for b in range(1, p) if times(p, a, b) == 1)


def add(p, f, coef, left, g, right):
    """f becomes f + coef × left × g × right."""
    for word, c in g.items():
        word = left + word + right
        f[word] = plus(p, f.get(word, 0), times(p, coef, c))
        if f[word] == 0:
            del f[word]


def multiple(p, coef, f):
    return {word: times(p, coef, c) for word, c in f.items()}


def falling(words):
    """The longer word is greater, and at equal length the one that comes first in a dictionary."""
    return sorted(words, key=lambda word: (-len(word), word))


def shown(word):
    return word or "-"


def basis_of(whole):
    """p, and the basis polynomials."""
    fields = [line.split(" ") for line in whole.split("\n")]
    basis = [{} for _ in range(int(fields[1][3]))]
    for kind, item, coef, word in [f for f in fields[3:] if len(f) == 4 and f[0] == "B"]:
        basis[int(item) - 1][word.replace("-", "")] = int(coef)
    return int(fields[1][0]), basis


def difference(p, basis, words, pair):
    """First × rest minus left × second × right, each divided by its leading coefficient. An overlap has no right, an inclusion no rest."""
    first, second, shared, at = pair
    u, v = words[first - 1], words[second - 1]
    f = {}
    add(p, f, inverse(p, basis[first - 1][u]), "", basis[first - 1], v[shared:])
    add(p, f, minus(p, inverse(p, basis[second - 1][v])), u[:at], basis[second - 1], u[at + len(v) :])
    return f


def spot(words, word):
    """The leftmost place where a leading word stands in a word, and the lowest number of those that stand there; or None."""
    found = [(at, g) for at in range(len(word) + 1) for g, v in enumerate(words, 1) if word.startswith(v, at)]
    return min(found, default=None)


def run(p, basis, words, f):
    """Makes f its short form by steps; what each step subtracted: coefficient, left, number and right."""
    lines = []
    while True:
        word = next((word for word in falling(f) if spot(words, word)), None)
        if word is None:
            return lines
        at, g = spot(words, word)
        lead = words[g - 1]
        coef = times(p, f[word], inverse(p, basis[g - 1][lead]))
        lines.append((coef, word[:at], g, word[at + len(lead) :]))
        add(p, f, minus(p, coef), word[:at], basis[g - 1], word[at + len(lead) :])


def completed(whole):
    """The package, which has no O line, with those that certify its basis."""
    p, basis = basis_of(whole)
    words = leading_words(whole)
    for item, pair in enumerate(pairs(words), 1):
        f = difference(p, basis, words, pair)
        for coef, left, of, right in run(p, basis, words, f):
            whole += "O %d %d %s %d %s\n" % (item, coef, shown(left), of, shown(right))
        assert not f, pair
    return whole


def short(whole, *terms):
    """A formula's steps, and its short form's text."""
    p, basis = basis_of(whole)
    f = {word.replace("-", ""): int(coef) for coef, word in (term.split(" ") for term in terms)}
    steps = len(run(p, basis, leading_words(whole), f))
    return steps, formula(*["%d %s" % (f[word], shown(word)) for word in falling(f)])


def made(p, letters, relations, basis, factors=()):
    """The completed package of relations, each a polynomial, and of a basis, each of whose polynomials is given by its B sum: lines of
    coefficient, left, relation and right, where -1 is minus 1. Where factors are given, each polynomial is taken times its own. Each relation
    is a multiple of a basis polynomial."""
    polynomials, sums = [], []
    for item, (lines, factor) in enumerate(zip(basis, factors or [1] * len(basis)), 1):
        f = {}
        for coef, left, of, right in [line.split(" ") for line in lines]:
            coef = times(p, factor, minus(p, 1) if coef == "-1" else int(coef))
            add(p, f, coef, left.replace("-", ""), relations[int(of) - 1], right.replace("-", ""))
            sums.append("B %d %d %s %s %s" % (item, coef, left, of, right))
        polynomials.append(f)
    for item, relation in enumerate(relations, 1):
        multiples = ((c, g) for g, f in enumerate(polynomials, 1) for c in range(1, p) if multiple(p, c, f) == relation)
        sums.append("G %d %d - %d -" % (item, *next(multiples)))
    terms = ["%s %d %d %s" % (kind, item, f[word], shown(word))
             for kind, family in (("G", relations), ("B", polynomials)) for item, f in enumerate(family, 1) for word in falling(f)]
    return completed(package("%d %d %d %d" % (p, letters, len(relations), len(basis)), terms, sums))
