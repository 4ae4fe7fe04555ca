"""The command line."""
import os

from support import Command, ROOT, formula


class Options(Command):
    def setUp(self):
        super().setUp()
        self.put("aba", formula(b"1 aba"))

    def test_version(self):
        with open(os.path.join(ROOT, "VERSION"), "rb") as file:
            self.answers(b"vaultgarlic " + file.read(), "--version")

    def test_help(self):
        status, out, told = self.run_command("--help")
        self.assertEqual((status, told), (0, b""))
        for word in (b"check", b"overlaps", b"short", b"member", b"--budget N", b"--steps", b"--help", b"--version", b"Exit status: 0"):
            self.assertIn(word, out)
        self.assertLessEqual(max(len(line) for line in out.split(b"\n")), 96)

    def test_help_comes_before_what_is_missing(self):
        self.assertEqual(self.run_command("short", "--help"), self.run_command("--help"))

    def test_budget(self):
        for budget in ("2", "3", "4294967295"):
            self.answers(b"coef word\n1 bb\n", "short", "--budget", budget, "e.pkg", "aba")
            self.answers(b"no\n", "member", "e.pkg", "aba", "--budget=" + budget)

    def test_budget_0_answers_where_nothing_is_reducible(self):
        self.answers(formula(b"1 bba"), "short", "--budget", "0", "e.pkg", "-", stdin=formula(b"1 bba"))

    def test_the_last_budget_holds(self):
        self.answers(b"no\n", "member", "--budget", "0", "--budget", "2", "e.pkg", "aba")

    def test_budget_is_read_strictly(self):
        for budget in ("", " 2", "2 ", "+2", "-2", "02", "00", "0x2", "2.0", "1e3", "two", "4294967296", "18446744073709551618",
                       "9" * 400):
            self.troubled(b"a budget is a number from 0 to 4294967295", "short", "--budget", budget, "e.pkg", "aba")
            self.troubled(b"a budget is a number from 0 to 4294967295", "short", "--budget=" + budget, "e.pkg", "aba")

    def test_budget_without_number(self):
        self.troubled(b"--budget: a number is needed", "short", "e.pkg", "aba", "--budget")

    def test_services_without_steps(self):
        for service in ("check", "overlaps"):
            self.troubled(b"takes no steps", service, "--budget", "5", "e.pkg")
            self.troubled(b"takes no steps", service, "--steps", "e.pkg")

    def test_end_of_options(self):
        self.put("--steps", formula(b"1 aba"))
        self.answers(b"coef word\n1 bb\n", "short", "--", "e.pkg", "--steps")
        self.answers(b"coef word\n1 bb\n", "--", "short", "e.pkg", "-", stdin=formula(b"1 aba"))

    def test_wrong_arguments(self):
        self.troubled(b"check, overlaps, short or member is needed")
        self.troubled(b"check, overlaps, short or member is needed", "--steps")
        self.troubled(b"chek: not one of", "chek", "e.pkg")
        self.troubled(b": not one of", "", "e.pkg")
        self.troubled(b"check: takes a package\n", "check")
        self.troubled(b"check: takes a package\n", "check", "e.pkg", "aba")
        self.troubled(b"short: takes a package and a formula", "short", "e.pkg")
        self.troubled(b"aba: one argument too many", "member", "e.pkg", "aba", "aba")
        for option in ("-x", "--bugdet", "--budge", "--steps=1", "--helpme", "---"):
            self.troubled(option.encode() + b": unknown option", "short", option, "e.pkg", "aba")

    def test_standard_input_once(self):
        self.troubled(b"cannot both be standard input", "short", "-", "-")

    def test_control_characters_of_arguments_are_not_shown(self):
        self.troubled(b"?[31m: not one of", "\x1b[31m", "e.pkg")
