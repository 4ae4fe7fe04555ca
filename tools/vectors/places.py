"""Whether a word stands at a place of another, and how many letters are compared (document 02, P3): back from the end to the first that
differs, that one counted, all when none does, 0 where the word would run past the end."""
from cases import LARGEST, stood

FRONT = "abcdefghijklmnopqrstuvwxyz" * 2 + "abcdefghijklmnopqrs"


def rows():
    """The rows of P3.1."""
    stood("P3.1", "ab", "bb", 0, 0, 2)
    stood("P3.1", "ab", "aa", 0, 0, 1)
    stood("P3.1", "ab", "ab", 1, 0, 0)
    stood("P3.1", "", "ab", 2, 1, 0)
    stood("P3.1", "", "ab", 3, 0, 0)


def empty_word():
    stood("empty in empty", "", "", 0, 1, 0)
    stood("empty, behind empty", "", "", 1, 0, 0)
    stood("empty, at the front", "", "ab", 0, 1, 0)
    stood("empty, in the middle", "", "ab", 1, 1, 0)
    stood("a letter in the empty word", "a", "", 0, 0, 0)


def all_compared():
    stood("one letter, the same", "a", "a", 0, 1, 1)
    stood("one letter, another", "a", "b", 0, 0, 1)
    stood("the whole word", "abc", "abc", 0, 1, 3)
    stood("in the middle", "bcd", "abcde", 1, 1, 3)
    stood("at the end", "cde", "abcde", 2, 1, 3)
    stood("the first letter differs", "xcde", "abcde", 1, 0, 4)
    stood("the first two differ", "xycd", "zabcd", 1, 0, 3)
    stood("the first of three differs", "xbc", "abc", 0, 0, 3)
    stood("one letter repeated", "aaa", "aaaaa", 2, 1, 3)


def stopped():
    """The first that differs from the end is the last compared, whatever stands before it."""
    stood("the last letter differs", "abx", "abcd", 0, 0, 1)
    stood("the one before the last", "axc", "abcd", 0, 0, 2)
    stood("first and last differ", "xbx", "abc", 0, 0, 1)
    stood("the second differs", "abab", "aabaaab", 3, 0, 3)
    stood("a long front", FRONT + "x", FRONT + "y", 0, 0, 1)
    stood("a long end", "x" + FRONT, "y" + FRONT, 0, 0, 72)
    stood("long and the same", FRONT + "x", FRONT + "x", 0, 1, 72)


def past_the_end():
    stood("one letter past the end", "cdef", "abcde", 2, 0, 0)
    stood("longer than the other word", "abc", "ab", 0, 0, 0)
    stood("a letter at the length", "a", "aa", 2, 0, 0)
    stood("far behind the end", "a", "aa", 100, 0, 0)
    stood("the greatest of a case", "", "aa", LARGEST, 0, 0)


def cases():
    rows()
    empty_word()
    all_compared()
    stopped()
    past_the_end()
