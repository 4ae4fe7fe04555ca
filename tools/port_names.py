#!/usr/bin/env python3
"""Brings the repository's own definitions and lemmas to today's spelling of names, by the table port_names.tsv beside this file.

usage: port_names.py [--table] [FOLDER]       (with --table several folders, joined by commas)

FOLDER is the repository, '.' if it is left out, turned by port.py and otherwise untouched. A word of code turns where it stands whole: in .antt files, in the
clauses and 'ghost use' items of .rt files, and in a comment as a code span, or bare if it has a capital inside. Functions of src/ and their goals keep their names.
--table writes the table anew from the declarations of FOLDER, in place of turning it, and says which names would fall together.

The rule: words are in snake case. A dash stays where it joins two names (of a definition, a field, a constructor, a function, or a word that the
library joins so, as in take-append); otherwise it becomes '_'.
"""
import collections
import os
import re
import subprocess
import sys

HERE = os.path.dirname(os.path.realpath(__file__))
TABLE = os.path.join(HERE, "port_names.tsv")
WORD = r'[^\s(){}.;,@"«»]+'
DECLARED = re.compile(r'(?m)^( *)((?:pub|abbrev|unfoldable|opaque) )*(' + WORD + r')(?: \{[^{}\n]*\})* :(?=\s)(?! *(?:tie\.|\{M : Type 1\} → statement|statement))')
TIED = re.compile(r'(?m)^(?:abbrev )?(?:pub )?(' + WORD + r') : (?:tie\.|\{M : Type 1\} → statement|statement)')


def texts(roots, ends):
    for root in roots.split(","):
        yield from texts_of(root, ends)


def texts_of(root, ends):
    for folder, dirs, files in os.walk(os.path.join(root, "crates")):
        dirs[:] = sorted(d for d in dirs if d not in ("out", ".git"))
        for f in sorted(files):
            if f.endswith(ends):
                path = os.path.join(folder, f)
                with open(path, encoding="utf-8") as it:
                    yield path, it.read()


def snake(word):
    return re.sub(r"(?<=[a-z0-9])([A-Z])", lambda m: "_" + m[1].lower(), word)


def joined(name, names):
    parts = name.split("-")
    out = parts[0]
    for a, b in zip(parts, parts[1:]):
        out += ("-" if a in names and b in names else "_") + b
    return out


def words_of(text):
    return set(re.findall(WORD, text))


def make_table(root):
    declared, lemmas, files = set(), set(), {}
    names = set("lt le eq ne add sub mul div mod suc zero pow max min append cons nil take drop length get set map filter sum reverse".split())
    for path, text in texts(root, (".antt",)):
        code = re.sub(r"(?m)(?<![^\s])--[^\n]*", "", text)
        files[path] = words_of(code)
        tied = set(TIED.findall(code))
        for m in DECLARED.finditer(code):
            n = m[3]
            if n in tied or not re.match(r"[a-z]", n):
                continue
            declared.add(n)
            if "/specs/" in path and "-" not in n:
                names.add(snake(n))
    rust = {}
    for path, text in texts(root, (".rt",)):
        code = re.sub(r"//[^\n]*", "", text)
        rust[path] = set(re.findall(r"[A-Za-z_]\w*", code))
        for n in re.findall(r"\bfn (\w+)", code):
            names.add(n)
    # words that the library joins by a dash
    count = collections.Counter()
    kit = os.path.dirname(subprocess.run(["rt", "doc"], capture_output=True, text=True).stdout.strip())
    for folder, _, fs in os.walk(os.path.join(kit, "rattle", "std", "proofs")):
        for f in fs:
            if f.endswith(".antt"):
                with open(os.path.join(folder, f), encoding="utf-8") as it:
                    for m in DECLARED.finditer(it.read()):
                        if "-" in m[3]:
                            count.update(m[3].split("-"))
    names |= {w for w, n in count.items() if n >= 12}
    names -= set("of in at is by to from and or not no the its as with on".split())
    table = {}
    for n in sorted(declared):
        new = joined("-".join(snake(p) for p in n.split("-")), names)
        if new != n:
            table[n] = new
    functions = {f for w in (re.findall(r"\bfn (\w+)", t) for _, t in texts(root, (".rt",))) for f in w}
    every = set().union(*files.values())
    every -= functions
    taken, first = collections.Counter(table.values()), dict(table)
    for old, new in list(table.items()):
        others = {w for p, ws in rust.items() for w in ws} - functions
        bad = taken[new] > 1 or (new in every and new not in functions) or new in others or new in declared
        if bad:
            why = "twice" if taken[new] > 1 else "in antt" if new in every else "in rust"
            print("falls together:", old, new, why)
            lemma = "-" in old or not re.search("[A-Z]", old)
            if lemma:
                new += "_lem"
            elif not (taken[new] == 2 and sum(v == new and "-" in k for k, v in first.items()) == 1 and new not in every and new not in others):
                new += "_of"
            if (new in every or new in others) and new not in functions:
                print("   and so does", new)
            table[old] = new
    with open(TABLE, "w", encoding="utf-8") as f:
        for old, new in sorted(table.items()):
            f.write(f"{old}\t{new}\n")
    print(len(table), "names")


def turned(text, table, comment, own_dots=None):
    """The text with each word of the table turned. comment is what begins a comment."""
    out, at = [], 0
    quiet = re.compile(r'"(?:[^"\\\n]|\\.)*"|' + (r'(?<![^\s(){}.;,@"«»])--[^\n]*' if comment == "--" else r"//[^\n]*"))

    def words(code, keep=()):
        def one(m):
            w = m[0]
            if w in keep and not (own_dots and m.start() and code[m.start() - 1] == "." and w in own_dots):
                return w
            return table.get(w, w)
        return re.sub(WORD, one, code)

    def prose(c):
        c = re.sub(r"\x60([^\x60\n]+)\x60", lambda m: "\x60" + words(m[1]) + "\x60", c)
        return re.sub(r"(?<![\w.-])[a-z][a-z0-9]*(?:[A-Z][a-z0-9]*)+(?![\w-])", lambda m: table.get(m[0], m[0]), c)

    keep = set(TIED.findall(text)) if comment == "--" else set()
    for m in quiet.finditer(text):
        out.append(words(text[at:m.start()], keep))
        out.append(m[0] if m[0].startswith('"') else prose(m[0]))
        at = m.end()
    out.append(words(text[at:], keep))
    return "".join(out)


def main(argv):
    make = "--table" in argv
    rest = [a for a in argv if not a.startswith("--")]
    root = rest[0] if rest else "."
    if make:
        return make_table(root)
    with open(TABLE, encoding="utf-8") as f:
        table = dict(line.rstrip("\n").split("\t") for line in f)
    n = 0
    for path, text in list(texts(root, (".antt", ".rt"))):
        new = turned(text, table, "--" if path.endswith(".antt") else "//")
        if new != text:
            with open(path, "w", encoding="utf-8") as f:
                f.write(new)
            n += 1
    print(n, "files turned")
    for crate in sorted(os.listdir(os.path.join(root, "crates"))):
        subprocess.run(["rt", "fmt"], cwd=os.path.join(root, "crates", crate), stdout=subprocess.DEVNULL, stderr=subprocess.DEVNULL)


if __name__ == "__main__":
    main(sys.argv[1:])
