"""The numbers that a word is packed into (document 02, P6): 'twelve letters of five bits in one 64-bit number, first letter highest'. The greater
letter has the greater code, a 26 down to z 1, and 0 stands behind the end; the first letter is in bits 55 to 59 (P6.1, docs/DECISIONS.md).
A word of up to 72 letters takes six numbers. Each call below says the codes of the letters, number by number."""
from cases import packed, unpacked

ALPHABET = "abcdefghijklmnopqrstuvwxyz"


def block(*codes):
    """Up to twelve codes of five bits in one number, the first in bits 55 to 59, and zeros behind them."""
    assert len(codes) <= 12
    return sum(code * 2 ** (55 - 5 * place) for place, code in enumerate(codes))


A, Y, Z = block(*[26] * 12), block(*[2] * 12), block(*[1] * 12)


def rows():
    """The row of P6.1."""
    packed("P6.1", "ab", 964896220164128768)


def one_number():
    packed("empty word", "")
    packed("greatest code", "a", block(26))
    packed("least code", "z", block(1))
    packed("the first letter is highest", "az", block(26, 1))
    packed("the first letter is highest", "za", block(1, 26))
    packed("one letter again", "mmm", block(14, 14, 14))
    packed("eleven letters", ALPHABET[:11], block(*range(26, 15, -1)))
    packed("twelve letters", ALPHABET[:12], block(*range(26, 14, -1)))
    packed("twelve of the greatest code, 60 bits", "a" * 12, A)
    packed("twelve of the least code", "z" * 12, Z)


def more_numbers():
    packed("the second number begins", ALPHABET[:13], block(*range(26, 14, -1)), block(14))
    packed("all letters", ALPHABET, block(*range(26, 14, -1)), block(*range(14, 2, -1)), block(2, 1))
    packed("a package's longest word", "a" * 12 + "y" * 12, A, Y)
    packed("a letter more", "a" * 12 + "y" * 12 + "z", A, Y, block(1))
    packed("three whole numbers", "z" * 12 + "a" * 12 + "y" * 12, Z, A, Y)
    packed("a letter less than five", "a" * 59, A, A, A, A, block(*[26] * 11))
    packed("five whole numbers", "y" * 60, Y, Y, Y, Y, Y)
    packed("a letter in the sixth", "y" * 60 + "a", Y, Y, Y, Y, Y, block(26))
    packed("a letter less than six", "z" * 71, Z, Z, Z, Z, Z, block(*[1] * 11))
    packed("the longest word", "a" * 72, A, A, A, A, A, A)
    packed("the last of 72 is lowest", "z" * 71 + "a", Z, Z, Z, Z, Z, block(*[1] * 11, 26))


def no_word():
    """Bytes that are no word of at most 72 letters: no, and six zeros."""
    unpacked("73 letters", "a" * 73)
    unpacked("1,000 letters", "z" * 1000)
    unpacked("an upper-case letter", "A")
    unpacked("the text of the empty word", "-")
    unpacked("the byte before a", "`")
    unpacked("the byte behind z", "{")
    unpacked("a space first", " ab")
    unpacked("a byte 10 last", "ab\n")
    unpacked("a byte 0", "a\x00b")
    unpacked("a letter with its highest bit", "\xe1")
    unpacked("a digit behind twelve letters", "a" * 12 + "1")
    unpacked("the last of 72 is no letter", "a" * 71 + "Z")
    unpacked("the last of 73 is no letter", "a" * 72 + "Z")


def cases():
    rows()
    one_number()
    more_numbers()
    no_word()
