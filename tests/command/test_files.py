"""Files that cannot be read or written, and bytes of any kind."""
import os
import unittest

from support import COMMAND, Command, E, E_LINES, formula, run, text


class Files(Command):
    def test_no_such_file(self):
        self.troubled(b"none: No such file", "check", "none")
        self.troubled(b"none: No such file", "short", "e.pkg", "none")

    def test_directory(self):
        os.mkdir(os.path.join(self.folder, "folder"))
        self.troubled(b"folder: Is a directory", "check", "folder")
        self.troubled(b"folder: Is a directory", "member", "e.pkg", "folder")

    @unittest.skipIf(os.geteuid() == 0, "everything can be read")
    def test_no_permission(self):
        os.chmod(os.path.join(self.folder, "e.pkg"), 0)
        self.troubled(b"e.pkg: Permission denied", "check", "e.pkg")

    def test_closed_standard_input(self):
        status, out, told = run("sh", "-c", '"$0" check - <&-', COMMAND)
        self.assertEqual((status, out), (2, b""))
        self.assertTrue(told.startswith(b"vaultgarlic: <stdin>: "))

    def test_full_device(self):
        self.put("aba", formula(b"1 aba"))
        for arguments in (["check", "e.pkg"], ["overlaps", "e.pkg"], ["short", "--steps", "e.pkg", "aba"], ["member", "e.pkg", "aba"],
                          ["--help"], ["--version"]):
            with open("/dev/full", "wb") as full:
                status, _, told = self.run_command(*arguments, stdout=full)
            self.assertEqual((status, told), (2, b"vaultgarlic: standard output: No space left on device\n"))

    def test_closed_standard_output(self):
        status, _, told = run("sh", "-c", '"$0" check e.pkg >&-', COMMAND, cwd=self.folder)
        self.assertEqual(status, 2)
        self.assertTrue(told.startswith(b"vaultgarlic: standard output: "))

    def test_a_file_is_not_changed(self):
        self.run_command("check", "e.pkg")
        with open(os.path.join(self.folder, "e.pkg"), "rb") as file:
            self.assertEqual(file.read(), E)

    def test_endless_input(self):
        with open("/dev/zero", "rb") as zero:
            self.refuses(["vaultgarlic: <stdin>: refused 1: a package has at most 65536 bytes, this one has more"], "check", "-", stdin=zero)
        status, _, told = self.run_command("short", "e.pkg", "/dev/zero")
        self.assertEqual(status, 1)
        self.assertIn(b"/dev/zero:1: refused 16: the line does not read", told)


class Bytes(Command):
    def shows(self, content, line, number=4):
        """The offending line as it is shown."""
        status, out, told = self.run_command("check", self.put("any.pkg", content))
        self.assertEqual((status, out), (1, b""))
        self.assertEqual(told.split(b"\n")[1], b"%5d | " % number + line)

    def put_line(self, content):
        return text(E_LINES[:3] + [content] + E_LINES[4:])

    def test_escapes(self):
        self.shows(self.put_line(b"G 1 1 aa\r"), b"G 1 1 aa\\r")
        self.shows(self.put_line(b"G\t1 1 aa"), b"G\\t1 1 aa")
        self.shows(self.put_line(b"G 1 1 a\0a"), b"G 1 1 a\\x00a")
        self.shows(self.put_line(b"G 1 1 \x1b[31m"), b"G 1 1 \\x1b[31m")
        self.shows(self.put_line(b"G 1 1 \xc3\xa4\x7f\x80\xff"), b"G 1 1 \\xc3\\xa4\\x7f\\x80\\xff")
        self.shows(self.put_line(b"G 1 1 \\x00"), b"G 1 1 \\\\x00")

    def test_empty_line(self):
        self.shows(self.put_line(b""), b"")

    def test_long_lines_are_cut(self):
        self.shows(self.put_line(b"x" * 72), b"x" * 72)
        self.shows(self.put_line(b"x" * 73), b"x" * 72 + b"...")
        self.shows(self.put_line(b"x" * 60000), b"x" * 72 + b"...")

    def test_every_byte_is_shown_as_ascii(self):
        told = self.run_command("check", "-", stdin=bytes(range(256)) * 256)[2]
        self.assertTrue(all(byte == 10 or 32 <= byte < 127 for byte in told))

    def test_control_characters_of_names_are_not_shown(self):
        name = self.put("a\x1bb\nc", b"")
        self.assertTrue(self.run_command("check", name)[2].startswith(b"vaultgarlic: a?b?c:1: refused 2: "))

    def test_names_in_utf_8(self):
        name = self.put("käse", b"")
        self.assertTrue(self.run_command("check", name)[2].startswith("vaultgarlic: käse:1: refused 2: ".encode()))
