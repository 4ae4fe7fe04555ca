"""Listing, which judges no sum; its lists and the room for them; and what the program overlap_list prints."""
from cases import listed, prints, refused
from packages import E, E_LIST, LINES, LIST_NAMES, NOTHING, monomials, package, with_line, without
from pairs import pair_list


def sums_not_judged():
    listed("A22 B 1 `-` alone", monomials(["-"]), LIST_NAMES)
    listed("A23 lines 11 to 17 absent", without(*range(11, 18)), E_LIST)
    listed("A25 line 13 absent", without(13), E_LIST)
    listed("A25 line 14 absent", without(14), E_LIST)
    listed("A27 line 15 absent", without(15), E_LIST)
    listed("A26 line 15 `O 1 1 a 1 -`", with_line(15, "O 1 1 a 1 -"), E_LIST)
    listed("A26 line 18 `O 3 1 - 1 -`", with_line(18, "O 3 1 - 1 -"), E_LIST)
    listed("A41 one relation, no basis", package("7 2 1 0", ["G 1 1 a"]), LIST_NAMES)
    listed("A42 line 12 as `B 2 4 - 1 a` twice", with_line(12, "B 2 4 - 1 a", "B 2 4 - 1 a"), E_LIST)
    listed("A42 line 11 twice", with_line(11, LINES[10], LINES[10]), E_LIST)


def overlap_lists():
    listed("A29 B 1 `aaaa`", monomials(["aaaa"]), LIST_NAMES + "1 1 1 1 3 aaaaaaa\n2 1 1 2 2 aaaaaa\n3 1 1 3 1 aaaaa\n")
    listed("A29 B 1 `a`", monomials(["a"]), LIST_NAMES)
    listed("no relations and no basis", NOTHING, LIST_NAMES)
    listed("both orders of a pair", monomials(["ab", "ba"]), LIST_NAMES + "1 1 2 1 1 aba\n2 2 1 1 1 bab\n")
    listed("shared 2 and not 1", monomials(["abab"]), LIST_NAMES + "1 1 1 2 2 ababab\n")
    listed("first, then second, then shared", monomials(["bb", "aba", "bab"]),
           LIST_NAMES + "1 1 1 1 1 bbb\n2 1 3 1 1 bbab\n3 2 2 1 2 ababa\n4 2 3 2 1 abab\n5 3 1 1 2 babb\n6 3 2 2 1 baba\n7 3 3 1 2 babab\n")
    letters = LIST_NAMES + "".join("%d 1 1 %d %d %s\n" % (s, s, 24 - s, "a" * (48 - s)) for s in range(1, 24))
    listed("a leading word of 24 letters", monomials(["a" * 24]), letters)
    refused("a leading word of 25 letters", monomials(["a" * 25]), 5, 4, "L")
    words = ["a" * i + "b" + "a" * (23 - i) for i in range(24)]
    required = len(pair_list(words))
    refused("A40 24 monomials, 65,536 bytes lent", monomials(words), 19, required, "L")
    prints("A40 24 monomials", monomials(words), "refused 19 %d\n" % required)


def rooms():
    refused("01 row 19: E into 10 bytes", E, 19, 61, "L", room=10)
    refused("A30 E into 60 bytes", E, 19, 61, "L", room=60)
    listed("A30 E into 61 bytes", E, E_LIST, 61)
    listed("A30 E into 62 bytes", E, E_LIST, 62)
    refused("A39 E into 0 bytes", E, 19, 61, "L", room=0)
    refused("names line into 32 bytes", NOTHING, 19, 33, "L", room=32)
    listed("names line into 33 bytes", NOTHING, LIST_NAMES, 33)
    refused("names line into 0 bytes", NOTHING, 19, 33, "L", room=0)
    refused("`B 2 1 aab` into 0 bytes: no 9 before 19", with_line(8, "B 2 1 aab"), 19, 76, "L", room=0)
    refused("8 before 19", with_line(2, "7 2 1 3"), 8, 3, "L", room=0)
    refused("2 before 19", "", 2, 1, "L", room=0)


def printed():
    prints("01 E", E, E_LIST)
    prints("no byte", "", "refused 2 1\n")
    prints("A40 line 2 `9 2 1 2`", with_line(2, "9 2 1 2"), "refused 3 2\n")
    prints("line 4 `G 1 7 aa`", with_line(4, "G 1 7 aa"), "refused 5 4\n")
    prints("line 2 `7 2 1 3`", with_line(2, "7 2 1 3"), "refused 8 3\n")
    prints("line 8 `B 2 1 aab`", with_line(8, "B 2 1 aab"), pair_list(["aa", "aab"]))
    prints("no relations and no basis", NOTHING, LIST_NAMES)


def cases():
    sums_not_judged()
    overlap_lists()
    rooms()
    printed()
