"""The sessions in the documents and in --help are what the command and the program print, run at the top of the source."""
import glob
import os
import re
import subprocess
import unittest

from support import COMMAND, E_LINES, ROOT


def sessions(document):
    """The commands `    $ ...` that call vaultgarlic or the program, each with the lines printed below it."""
    command, printed = None, []
    for line in document.split("\n") + [""]:
        begins = line.startswith("    $ ")
        if command is not None and (begins or not line.startswith("    ")):
            yield command, printed
            command = None
        if begins and re.search(r"\bvaultgarlic (-|[a-z])|\boverlap_list ", line):
            command, printed = line[6:], []
        elif command is not None:
            printed.append(line[4:])


class Documents(unittest.TestCase):
    def compare(self, document):
        count = 0
        environment = dict(os.environ, PATH=os.path.dirname(COMMAND) + os.pathsep + os.environ["PATH"])
        for command, printed in sessions(document):
            with self.subTest(command):
                done = subprocess.run(["sh", "-c", command], cwd=ROOT, env=environment, stdout=subprocess.PIPE, stderr=subprocess.STDOUT,
                                      check=False, timeout=60)
                self.assertEqual(done.stdout.decode("utf-8").split("\n"), printed + [""])
                count += 1
        return count

    def test_documents(self):
        count = 0
        for pattern in ("*.md", "docs/**/*.md", "examples/*.md"):
            for path in glob.glob(os.path.join(ROOT, pattern), recursive=True):
                with open(path, encoding="utf-8") as file:
                    count += self.compare(file.read())
        self.assertGreaterEqual(count, 5)

    def test_the_package_explained_in_format(self):
        with open(os.path.join(ROOT, "docs", "FORMAT.md"), encoding="utf-8") as file:
            rows = re.findall(r"^\| (\d+) \| `([^`]*)` \| [A-Z.]", file.read(), re.M)
        self.assertEqual([int(number) for number, _ in rows], list(range(1, len(E_LINES) + 1)))
        self.assertEqual([line.encode() for _, line in rows], E_LINES)

    def test_the_pairs_explained_in_format(self):
        package = os.path.join(ROOT, "examples", "untrimmed", "e_untrimmed.pkg")
        with open(os.path.join(ROOT, "docs", "FORMAT.md"), encoding="utf-8") as file:
            rows = re.findall(r"^\| `(\d+ \d+ \d+ \d+ \d+ \w+)` \| .* \|(?: (`O .*`))? \|$", file.read(), re.M)
        listed = subprocess.run([COMMAND, "overlaps", package], stdout=subprocess.PIPE, check=True).stdout.decode("ascii")
        self.assertEqual([line for line, _ in rows], listed.split("\n")[1:-1])
        with open(package, encoding="ascii") as file:
            lines = [line for line in file.read().split("\n") if line.startswith("O ")]
        self.assertEqual([line for _, cell in rows for line in re.findall(r"`([^`]*)`", cell)], lines)

    def test_the_table_of_packages(self):
        with open(os.path.join(ROOT, "examples", "README.md"), encoding="utf-8") as file:
            rows = re.findall(r"^\| `(\w+\.pkg)` \| .* \| (\d+) \| (\d+) \| (\d+) \| (\d+) \| (\d+) \|$", file.read(), re.M)
        self.assertEqual(len(rows), 9)
        for name, *counts, overlaps in rows:
            with self.subTest(name):
                path = os.path.join(ROOT, "examples", name)
                with open(path, encoding="ascii") as file:
                    self.assertEqual(file.read().split("\n")[1].split(" "), counts)
                done = subprocess.run([COMMAND, "check", path], stdout=subprocess.PIPE, check=True)
                self.assertEqual(done.stdout.decode("ascii"), "accepted, %s overlaps\n" % overlaps)

    def test_help(self):
        done = subprocess.run([COMMAND, "--help"], stdout=subprocess.PIPE, check=True)
        self.assertEqual(self.compare(done.stdout.decode("ascii")), 4)
