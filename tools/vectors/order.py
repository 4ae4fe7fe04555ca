"""The order of refusals: packages and formulas with two faults, of which the earlier one by 01's 'Order' is given."""
from cases import halted, listed, refused, unread
from packages import E, LINES, falling, formula, forty_eight, with_line, with_lines
from pairs import pair_list


def lines_top_down():
    """Refusals 1 to 7 are judged line by line, so a later line's lower number does not come first."""
    unread("3 of line 2 before 2 of line 3", with_lines({2: ["9 2 1 2"], 3: ["kind item word coef"]}), 3, 2)
    unread("4 of line 2 before 2 of line 3", with_lines({2: ["7 27 1 2"], 3: ["kind item word coef"]}), 4, 2)
    unread("5 of line 4 before 2 of line 5", with_lines({4: ["G 1 7 aa"], 5: ["G 1 6"]}), 5, 4)
    unread("6 of line 5 before 2 of line 6", with_lines({5: ["G 1 6 aa"], 6: ["B 1 1"]}), 6, 5)
    unread("7 of line 52 before 2 of line 53", forty_eight("G 1 1 " + falling(49)[48], "B 1 1"), 7, 52)
    unread("5 of line 11 before 6 of line 12", with_lines({11: ["B 1 0 - 1 -"], 12: ["B 1 1 - 1 -", "O 1 1 - 2 -"]}), 5, 11)
    unread("2 before 5 in a line", with_line(4, "G 1 7 aA"), 2, 4)
    unread("2 before 5 in a sum line", with_line(11, "B 3 0 c 2 A"), 2, 11)
    unread("5 before 6 in a sum line", with_line(14, "B 1 0 - 1 -"), 5, 14)


def reading_before_judging():
    unread("2 of line 17 before 8", with_lines({2: ["7 2 1 3"], 17: ["O 2 1 b 1"]}), 2, 17)
    unread("5 of line 17 before 11 of B 2, `aab`", with_lines({8: ["B 2 1 aab"], 17: ["O 2 1 b 9 -"]}), 5, 17)
    unread("6 of line 18 before 8", with_lines({2: ["7 2 1 3"], 18: ["B 1 1 - 1 -"]}), 6, 18)
    unread("8 before 11", with_lines({2: ["7 2 1 3"], 11: []}), 8, 3)
    unread("8 of B 2 before 11 of B 1", with_lines({8: [], 9: [], 11: []}), 8, 2)
    unread("8 before 15", with_lines({2: ["7 2 1 3"], 18: ["O 3 1 - 1 -"]}), 8, 3)
    no_nine("no 9 before 11", with_lines({8: ["B 2 1 aab"], 11: []}), 11, 1)
    no_nine("no 9 before 14", with_lines({8: ["B 2 1 aab"], 15: ["O 1 1 a 1 -"]}), 11, 2)


def no_nine(name, content, number, place):
    """B 2's leading word aab holds B 1's, aa: 9 is no longer met (P2), and the first wrong sum is told."""
    listed(name, content, pair_list(["aa", "aab"]))
    refused(name, content, number, place)


def sums_in_order():
    """B, then G, then 15, then O. Where a line is absent, those behind it move up."""
    refused("11 of B 1 before 11 of B 2", with_lines({11: [], 13: []}), 11, 1)
    refused("A25 lines 13 and 14 absent", with_lines({13: [], 14: []}), 11, 2)
    refused("A25 lines 14 and 15 absent", with_lines({14: [], 15: []}), 12, 1)
    refused("11 before 13", with_lines({13: [], 15: []}), 11, 2)
    refused("11 before 14", with_lines({13: [], 15: ["O 1 1 a 1 -"]}), 11, 2)
    refused("11 before 15", with_lines({13: [], 18: ["O 3 1 - 1 -"]}), 11, 2)
    refused("A26 12 before 15", with_lines({14: [], 18: ["O 3 1 - 1 -"]}), 12, 1)
    refused("12 before 14", with_lines({14: [], 15: ["O 1 1 a 1 -"]}), 12, 1)
    refused("12 of G 1 before 12 of G 2", with_lines({2: ["7 2 2 2"], 6: ["G 2 1 bb", LINES[5]], 14: []}), 12, 1)
    refused("A26 15 before 14 of item 1", with_lines({15: ["O 1 1 a 1 -"], 18: ["O 3 1 - 1 -"]}), 15, 18)
    refused("A26 15 before 13 of item 1", with_lines({15: [], 18: ["O 3 1 - 1 -"]}), 15, 17)
    refused("A27 13 of item 1 before 14 of item 2", with_lines({15: [], 16: ["O 2 1 - 1 b"]}), 13, 1)
    refused("14 of item 1 before 13 of item 2", with_lines({15: ["O 1 1 a 1 -"], 16: []}), 14, 15)
    refused("13 of item 1 before 13 of item 2", with_lines({15: [], 16: []}), 13, 1)
    refused("14 before 13 in an item", with_lines({16: [], 17: ["O 2 1 a 1 -"]}), 14, 16)


def formulas_last():
    """The whole package, then 16, then 17 and 18 as steps go, then 19. Each fault is given with every later one: a formula that does not
    read, then one that does, with budget 0 and no room."""
    readable = formula("1 aba")
    for number, place, content, *more in (
        (2, 1, with_line(1, "p letters basis gens")),
        (3, 2, with_line(2, "9 2 1 2")),
        (4, 2, with_line(2, "7 27 1 2")),
        (5, 4, with_line(4, "G 1 7 aa")),
        (6, 5, with_lines({4: [LINES[4]], 5: [LINES[3]]})),
        (8, 3, with_line(2, "7 2 1 3")),
        (11, 2, with_line(8, "B 2 1 aab"), " (P2)"),
        (11, 2, with_line(13)),
        (12, 1, with_line(14)),
        (13, 1, with_line(15)),
        (14, 15, with_line(15, "O 1 1 a 1 -")),
        (15, 18, with_line(18, "O 3 1 - 1 -")),
    ):
        name = "%d%s" % (number, "".join(more))
        refused(name + " before 16 and 19", content, number, place, "SM", "x", 0, 0)
        refused(name + " before 18 and 19", content, number, place, "SM", readable, 0, 0)
        refused(name + ", and the budget would do", content, number, place, "SM", readable, 2)
    refused("A33 13 before 16: no formula byte", with_line(15), 13, 1, "SM", "")
    halted("16 before 18", E, formula("1 aba", "7 a"), 16, 3, 0)


def cases():
    lines_top_down()
    reading_before_judging()
    sums_in_order()
    formulas_last()
