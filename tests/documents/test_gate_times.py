"""What is told of a gate's time, and the table of its crates, from stored logs."""
import os
import subprocess
import sys
import unittest

from sources import ROOT

BEFORE, AFTER = (os.path.join(os.path.dirname(os.path.abspath(__file__)), name) for name in ("gate-before.log", "gate-after.log"))

ONE = """\
The gate: 95 s; every proof and must-fail edit was done in this run
rt ci tells no times of single crates.

| Crate | Proved | Edits |
|---|---|---:|
| `field` | now | 2 |
| `words` | now | 1 |
| `overlap_list` | now | 0 |
| all | 3 of 3 now | 3 |
"""

BOTH = """\
Before: 95 s; every proof and must-fail edit was done in this run
After: 31 s; done in this run: 1 of the 3 proofs (of crates and of their tests) and 1 of the 2 must-fail edits; the others are kept from earlier runs of the same files on this machine
rt ci tells no times of single crates.

| Crate | Proved: before | after | Edits: before | after |
|---|---|---|---:|---:|
| `field` | now | kept | 2 | 1 |
| `order` |  | now |  | 1 |
| `words` | now |  | 1 |  |
| `overlap_list` | now | kept | 0 | 0 |
| all | 3 of 3 now | 1 of 3 now | 3 | 2 |
"""


def gate_times(*logs, **more):
    done = subprocess.run([sys.executable, "-B", os.path.join(ROOT, "tools", "gate_times.py"), *logs], check=False, capture_output=True, text=True, **more)
    return done.returncode, done.stdout, done.stderr


class GateTimes(unittest.TestCase):
    def test_one_gate(self):
        self.assertEqual(gate_times(BEFORE), (0, ONE, ""))

    def test_two_gates(self):
        self.assertEqual(gate_times(BEFORE, AFTER), (0, BOTH, ""))

    def test_a_log_that_is_cut(self):
        with open(BEFORE, encoding="utf-8") as log:
            status, out, told = gate_times("/dev/stdin", input="".join(log.readlines()[5:]))
        self.assertEqual((status, out.split("\n")[-2]), (0, "| all | 2 of 2 now | 3 |"))
        self.assertIn("not the whole log of a gate", told)

    def test_no_log(self):
        self.assertEqual(gate_times("none"), (1, "", "gate_times: none: No such file or directory\n"))
