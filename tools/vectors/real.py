"""The packages of examples/, which are accepted, and formulas under them.

facts.json has for each formula the package, a size class, the steps by 01's rule, the formula's terms and those of its short form. The
short forms are normal forms computed by Singular 4.3.1, with which Macaulay2 1.21 agrees.
"""
import json
import os

from cases import accepted, both_sides, listed, refused, shortened
from packages import formula
from pairs import leading_words, pair_list

NAMES = ("e", "conv_encoder", "mp_unique", "weyl_a3", "hecke_a4", "clifford_4_3", "temperley_lieb_7", "coxeter_s8")


def cases():
    packages = {}
    for name in NAMES:
        with open("examples/%s.pkg" % name, encoding="ascii", newline="") as f:
            packages[name] = f.read()
        words = pair_list(leading_words(packages[name]))
        accepted("example " + name, packages[name], words.count("\n") - 1)
        listed("example " + name, packages[name], words)
    with open(os.path.join(os.path.dirname(__file__), "facts.json")) as f:
        facts = json.load(f)
    for name, size, steps, terms, form in facts:
        package, title = packages[name], "example %s, %s" % (name, size)
        text, short = [formula(*x.split(", ")) if x else formula() for x in (terms, form)]
        if steps > 1000:
            # The long runs are made once for each service: the short form with just enough steps, membership with one step less.
            shortened(title, package, text, steps, short, services="S")
            refused(title + ", a step less", package, 18, steps - 1, "M", text, steps - 1)
        elif len(package) < 3000:
            both_sides(title, package, text, steps, short)
        else:
            shortened(title, package, text, steps, short)
    # A Moore-Penrose inverse is unique: b - c is itself in the basis.
    shortened("example mp_unique, b - c", packages["mp_unique"], formula("1 b", "65520 c"), 1, formula())
