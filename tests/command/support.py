"""Running the command and the program: where things are, and what a run gives."""
import os
import subprocess
import tempfile
import unittest

ROOT = os.path.dirname(os.path.dirname(os.path.dirname(os.path.abspath(__file__))))
COMMAND = os.path.abspath(os.environ.get("VAULTGARLIC", os.path.join(ROOT, "target", "vaultgarlic")))
PROGRAM = os.path.join(ROOT, "target", "bin", "overlap_list")
EXAMPLES = os.path.join(ROOT, "examples")

with open(os.path.join(EXAMPLES, "e.pkg"), "rb") as file:
    E = file.read()
E_LINES = E.split(b"\n")[:-1]
LIST_NAMES = b"item first second shared at word\n"
E_LIST = LIST_NAMES + b"1 1 1 1 1 aaa\n2 1 2 1 1 aab\n"


def text(lines):
    return b"".join(line + b"\n" for line in lines)


def with_line(number, *put):
    """E with the line of that number replaced by those put; line 18 is behind the last."""
    return text(E_LINES[: number - 1] + list(put) + E_LINES[number:])


def formula(*terms):
    return text((b"coef word",) + terms)


def monomials(*words):
    """A package without relations whose basis polynomials are the words."""
    return text([b"p letters gens basis", b"7 2 0 %d" % len(words), b"kind item coef word"]
                + [b"B %d 1 %s" % (i + 1, word) for i, word in enumerate(words)] + [b"kind item coef left of right"])


def many_overlaps():
    """A package whose list is longer than 65,536 bytes (decision A40): 263,477."""
    return monomials(*[b"a" * i + b"b" + b"a" * (23 - i) for i in range(24)])


def run(*words, stdin=b"", **more):
    """Exit status, standard output and standard error. What is read is bytes or a file."""
    options = dict(stdout=subprocess.PIPE, stderr=subprocess.PIPE, timeout=60)
    options["input" if isinstance(stdin, bytes) else "stdin"] = stdin
    options.update(more)
    done = subprocess.run(words, check=False, **options)
    return done.returncode, done.stdout, done.stderr


class Command(unittest.TestCase):
    """A case with a folder of its own, in which the command is run."""

    def setUp(self):
        folder = tempfile.TemporaryDirectory()
        self.addCleanup(folder.cleanup)
        self.folder = folder.name
        self.put("e.pkg", E)

    def put(self, name, content):
        with open(os.path.join(self.folder, name), "wb") as to:
            to.write(content)
        return name

    def run_command(self, *arguments, **more):
        """Exit status, standard output and standard error."""
        return run(COMMAND, *arguments, cwd=self.folder, **more)

    def answers(self, expected, *arguments, stdin=b"", told=b""):
        """Answered: status 0, these bytes on standard output, and nothing but `told` on standard error."""
        self.assertEqual(self.run_command(*arguments, stdin=stdin), (0, expected, told))

    def refuses(self, expected, *arguments, stdin=b""):
        """Refused: status 1, nothing on standard output, these lines on standard error."""
        status, out, told = self.run_command(*arguments, stdin=stdin)
        self.assertEqual((status, out), (1, b""))
        self.assertEqual(told.decode("ascii").split("\n"), expected + [""])

    def troubled(self, words, *arguments, stdin=b"", **more):
        """Trouble: status 2, nothing on standard output, and these words on standard error."""
        status, out, told = self.run_command(*arguments, stdin=stdin, **more)
        self.assertEqual((status, out or b""), (2, b""))
        self.assertTrue(told.startswith(b"vaultgarlic: ") and told.endswith(b"\n"), told)
        self.assertIn(words, told)
