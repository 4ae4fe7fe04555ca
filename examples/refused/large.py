#!/usr/bin/env python3
"""Writes the three refused packages whose size is the point: large.py [DIRECTORY], this one if none is named.

01-too-long.pkg: E (examples/e.pkg) with newlines behind it, up to 65,537 bytes.
07-too-many-terms.pkg: relation G 1 with 49 terms.
10-sum-too-long.pkg: B 1 has one term, G 1 has 48, and eleven sum lines each add 48 new words to what B 1 still lacks.
"""
import os
import sys

HERE = os.path.dirname(os.path.abspath(__file__))
LETTERS = "abcdefghijklmnopqrstuvwxyz"


def package(counts, terms, sums):
    lines = ["p letters gens basis", counts, "kind item coef word"] + terms + ["kind item coef left of right"] + sums
    return "".join(line + "\n" for line in lines)


def words(count):
    """So many words of two letters, falling: a is greater than b, so they stand as in a dictionary."""
    return [one + two for one in LETTERS for two in LETTERS][:count]


def too_long():
    with open(os.path.join(HERE, "..", "e.pkg")) as file:
        return file.read().ljust(65537, "\n")


def too_many_terms():
    return package("7 26 1 0", ["G 1 1 " + word for word in words(49)], [])


def sum_too_long():
    terms = ["G 1 1 " + word for word in words(48)] + ["B 1 1 a"]
    return package("7 26 1 1", terms, ["B 1 1 %s 1 -" % left for left in LETTERS[:11]])


def main():
    directory = sys.argv[1] if len(sys.argv) > 1 else HERE
    for name, content in (("01-too-long", too_long()), ("07-too-many-terms", too_many_terms()), ("10-sum-too-long", sum_too_long())):
        with open(os.path.join(directory, name + ".pkg"), "w") as file:
            file.write(content)


main()
