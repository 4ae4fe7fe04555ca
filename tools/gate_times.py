"""What the log of a gate tells of its time: the seconds of the whole, what was done in them, and a table of the crates in Markdown.

    gate_times.py LOG            one gate
    gate_times.py BEFORE AFTER   two gates side by side

A log is what `rt ci` prints; `make gate` keeps it as target/gate.log, with the seconds of the whole in its first line. rt tells no times of single
crates, and proves and tries only what it has not passed before on the machine. So the table has of each crate whether it was proved in that run or
kept from an earlier one, and how many edits were refused. An edit costs a check of its crate: the crate with the most edits stands first. The seconds
of two gates compare where each did everything in its run.
"""
import re
import sys
from collections import Counter

WHOLE = re.compile(r"rt ci took (\d+) s$")
PROOF = re.compile(r"rt: (\w+) (proved$|is kept: )")
EDIT = re.compile(r"rt: must-fail (\w+)/[\w.-]+: refused")
DONE = re.compile(r"rt: ok; .*?((?:done in this run: |every proof ).*)$")
VERDICT = re.compile(r"(\d+) passed, 0 failed$")


class Gate:
    """What a log tells: the seconds of the whole, what was done in them, and by a crate's name how it was proved and how many edits were refused."""

    def __init__(self, path):
        self.seconds, self.done, self.proved, self.edits, passed = "?", "", {}, Counter(), 0
        with open(path, encoding="utf-8", errors="replace") as log:
            for line in map(str.rstrip, log):
                if found := WHOLE.match(line):
                    self.seconds = found[1]
                elif found := PROOF.match(line):
                    self.proved[found[1]] = "now" if found[2] == "proved" else "kept"
                elif found := EDIT.match(line):
                    self.edits[found[1]] += 1
                elif found := DONE.match(line):
                    self.done = found[1]
                elif found := VERDICT.match(line):
                    passed = int(found[1])
        crates, edits = len(self.proved), self.edits.total()
        if passed != crates + edits:
            print(f"gate_times: {path}: {crates} crates and {edits} edits, and {passed} passed: not the whole log of a gate that passed", file=sys.stderr)

    def cells(self, name):
        """How a crate was proved and how many edits it has, or all crates; nothing where the gate has no such crate."""
        if not name:
            return f"{list(self.proved.values()).count('now')} of {len(self.proved)} now", self.edits.total()
        return (self.proved[name], self.edits[name]) if name in self.proved else ("", "")


def print_gates(gates, titles):
    """The seconds of each, a row for each crate, the one with the most edits first, and a row for all of them."""
    for gate, title in zip(gates, titles):
        print(f"{title}{gate.seconds} s; {gate.done}")
    print("rt ci tells no times of single crates.\n")
    head = ["Proved", "Edits"] if len(gates) == 1 else ["Proved: before", "after", "Edits: before", "after"]
    print("| " + " | ".join(["Crate", *head]) + " |")
    print("|---" * (1 + len(gates)) + "|---:" * len(gates) + "|")
    names = sorted(set().union(*(gate.proved for gate in gates)), key=lambda name: (-max(gate.edits[name] for gate in gates), name))
    for name in names + [None]:
        proved, edits = zip(*(gate.cells(name) for gate in gates))
        print("| " + " | ".join([f"`{name}`" if name else "all", *proved, *map(str, edits)]) + " |")


def main(paths):
    if len(paths) not in (1, 2):
        sys.exit("usage: gate_times.py LOG, or gate_times.py BEFORE AFTER")
    try:
        gates = [Gate(path) for path in paths]
    except OSError as error:
        sys.exit(f"gate_times: {error.filename}: {error.strerror}")
    print_gates(gates, ["The gate: "] if len(gates) == 1 else ["Before: ", "After: "])


main(sys.argv[1:])
