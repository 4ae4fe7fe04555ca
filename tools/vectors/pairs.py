"""The pairs of leading words that document 01 lists, and document 02 behind them (P2). A word is a text, the empty one without letters."""
from packages import LIST_NAMES


def leading_words(package):
    """The word of the first term line of each basis polynomial."""
    fields = [line.split(" ") for line in package.split("\n")]
    first = {}
    for f in fields:
        if f[0] == "B" and len(f) == 4:
            first.setdefault(int(f[1]), f[3].replace("-", ""))
    return [first[i] for i in sorted(first)]


def pairs(words):
    """First, second, shared and at: the overlaps by first, second and shared, and then each place where another leading word stands inside the
    first, by first, second and place. An empty word stands at every place from 0 to the first's length; of two equal words the lower
    number is first, and the other never."""
    both = [(i, u, j, v) for i, u in enumerate(words, 1) for j, v in enumerate(words, 1)]
    overlaps = [(i, j, s, len(u) - s) for i, u, j, v in both for s in range(1, min(len(u), len(v))) if u.endswith(v[:s])]
    others = [(i, u, j, v) for i, u, j, v in both if i < j or (i > j and u != v)]
    return overlaps + [(i, j, len(v), at) for i, u, j, v in others for at in range(len(u) + 1) if u.startswith(v, at)]


def pair_list(words):
    """The list's text."""
    lines = [LIST_NAMES]
    for item, (first, second, shared, at) in enumerate(pairs(words), 1):
        word = words[first - 1] + words[second - 1][shared:]
        lines.append("%d %d %d %d %d %s\n" % (item, first, second, shared, at, word or "-"))
    return "".join(lines)
