#!/usr/bin/env python3
"""Counts the places of each point of docs/DESIGN-PASS.md in the sources, crates/*/src: `design_counts.py [--list] [POINT ..]`.

1a  enums declared                       1b  flags: fields of type bool, of structs that C does not read
1c  kinds and refusals as numbers: parameters and fields `kind` and `number` of a type of numbers, and numbers written as a refusal's
2   functions that are the same but for names and literals (contracts left out)
3   loops with `while` or `loop`
4   functions whose body only converts, or says yes and no as numbers, or copies, fills or compares entry by entry
5a  facts that stand in the contracts of three functions or more        5b  parameters that travel together through five functions or more
6   functions that take two slices or arrays or more for one list of things
"""
import collections
import glob
import re
import sys


def sources():
    for path in sorted(glob.glob("crates/*/src/**/*.rt", recursive=True)):
        with open(path, encoding="utf-8") as file:
            yield path, file.read()


FUNCTION = re.compile(r"^ *(?:pub(?:\(crate\))? )?(?:extern \"C\" )?fn (\w+)(?:<[^{;]*?>)?\((.*?)\)(?: -> [^{]*?)?(?=\n| \{| requires)", re.S | re.M)


def functions():
    """Each function: where, its name, its parameters, its contract's text and its body's."""
    for path, text in sources():
        for found in FUNCTION.finditer(text):
            rest = text[found.end():]
            # The body opens at the first brace that stands alone on a line, or that ends the line of the parameters.
            opens = re.search(r"^( *)\{$|(?<=\)) \{$|(?<=\w) \{$|(?<=>) \{$", rest, re.M)
            if not opens:
                continue
            indent = re.match(r" *", found.group(0)).group(0)
            close = re.search(rf"^{indent}\}}$", rest[opens.end():], re.M)
            body = rest[opens.end():opens.end() + close.start()] if close else ""
            line = text[: found.start()].count("\n") + 1
            parameters = re.findall(r"(\w+): ([^,]+?)\s*(?:,|$)", re.sub(r"\s+", " ", found.group(2)))
            yield path, line, found.group(1), parameters, rest[: opens.start()], body


def lines_with(pattern):
    for path, text in sources():
        for number, line in enumerate(text.split("\n"), 1):
            if not line.lstrip().startswith("//") and re.search(pattern, line):
                yield f"{path}:{number}: {line.strip()}"


def point_1a():
    return list(lines_with(r"^(pub )?enum "))


def point_1b():
    out = []
    for path, text in sources():
        for found in re.finditer(r"((?:#\[[^\n]*\]\n)*)pub struct (\w+)[^{;]*\{(.*?)^\}", text, re.S | re.M):
            if "repr(C)" not in found.group(1):
                out += [f"{path}: {found.group(2)}.{name}" for name in re.findall(r"pub (\w+): bool", found.group(3))]
    return out


def point_1c():
    out = list(lines_with(r"\b(kind|number): (u8|u32|u64)\b"))
    out += list(lines_with(r"\bnumber: \d+,|Refused\(\d+\)"))
    return [line for line in out if "crates/services/" not in line]


def shape(parameters, body):
    """The parameters' types and the body with each name and literal replaced."""
    text = " ".join(kind for _, kind in parameters) + " :: " + re.sub(r"//[^\n]*", "", body)
    return re.sub(r"b?\"[^\"]*\"|b'[^']*'|\b\w+\b", lambda word: word.group(0) if word.group(0) in KEPT else "x", re.sub(r"\s+", " ", text))


KEPT = {"if", "else", "while", "for", "in", "return", "match", "let", "mut", "loop", "len"}


def point_2():
    groups = collections.defaultdict(list)
    for path, line, name, parameters, _, body in functions():
        if len(body.strip().split("\n")) > 2:
            groups[shape(parameters, body)].append(f"{path}:{line}: {name}")
    return [" = ".join(group) for group in groups.values() if len(group) > 1]


def point_3():
    return list(lines_with(r"^\s*('\w+: )?(while|loop)\b"))


CONVERTS = re.compile(r"^\s*\w+ as \w+\s*$")
YES_NO = re.compile(r"^\s*if [^{]*\{\s*return (1|true);\s*\}\s*(0|false)\s*$")
LESSER = re.compile(r"^\s*if (\w+) < (\w+) \{\s*return \1;\s*\}\s*\2\s*$")
STORES = re.compile(r"(\w+\[[^\]]*\] = [^;]*;\s*){3,}")
COMPARES = re.compile(r"while .*(\n.*)?(\n.*)?if \w+\[[^\]]*\] (!=|==) [^{]*\{\s*return", re.S)
NOT_BELOW = re.compile(r"match \w+ \{[^}]*=> true,[^}]*=> false,[^}]*=> false,\s*\}")


def point_4():
    out = []
    for path, line, name, _, _, body in functions():
        for what, test in (("converts", CONVERTS), ("yes as a number", YES_NO), ("lesser", LESSER), ("stores one by one", STORES), ("compares one by one", COMPARES), ("compares", NOT_BELOW)):
            if test.search(body):
                out.append(f"{path}:{line}: {name}: {what}")
                break
    return out


def point_5a():
    facts = collections.defaultdict(set)
    for path, line, name, _, contract, _ in functions():
        for clause in re.findall(r"(?:requires|ensures)(?: \w+)? \{ (.*?) \}(?=\n|$)", contract, re.S):
            for fact in re.split(r" × ", re.sub(r"\s+", " ", clause)):
                facts[re.sub(r"\.(old|now|new)\b", "", fact).strip(" ()")].add(f"{path}:{name}")
    return [f"{len(where)} {fact}" for fact, where in sorted(facts.items(), key=lambda item: -len(item[1])) if len(where) > 2]


def point_5b():
    pairs = collections.defaultdict(set)
    for path, line, name, parameters, _, _ in functions():
        for one in range(len(parameters)):
            for other in range(one + 1, len(parameters)):
                if re.search(r"\[", parameters[one][1] + parameters[other][1]):
                    pairs[": ".join(parameters[one]) + ", " + ": ".join(parameters[other])].add(f"{path}:{name}")
    return [f"{len(where)} {pair}" for pair, where in sorted(pairs.items(), key=lambda item: -len(item[1])) if len(where) > 4]


GROUPS = ({"c", "l", "w", "o"}, {"coefs", "sizes", "blocks", "places"}, {"kinds", "items", "coefs", "starts", "lens", "firsts"}, {"heads", "headlens"}, {"fc", "fs", "fl"})


def point_6():
    out = []
    for path, line, name, parameters, _, _ in functions():
        held = {parameter for parameter, kind in parameters if "[" in kind}
        if any(len(held & group) > 1 for group in GROUPS):
            out.append(f"{path}:{line}: {name}: {', '.join(parameter for parameter, kind in parameters if '[' in kind)}")
    return out


POINTS = {name[len("point_"):]: count for name, count in list(globals().items()) if name.startswith("point_")}


def main():
    wanted = [word for word in sys.argv[1:] if word != "--list"] or sorted(POINTS)
    for point in wanted:
        places = POINTS[point]()
        print(f"{point}: {len(places)}")
        if "--list" in sys.argv:
            print("".join(f"  {place}\n" for place in places), end="")


if __name__ == "__main__":
    main()
