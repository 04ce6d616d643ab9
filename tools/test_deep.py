#!/usr/bin/env python3
"""Tests of deep.py: the texts that it builds, and that it tells a program that does otherwise."""

import contextlib
import io
import os
import tempfile
import unittest
from pathlib import Path
from types import SimpleNamespace

import deep
from deep import EXPRESSION, FORMS, UNCLOSED, Form, run, runs_of, tried

PARENTHESES = Form("parentheses", EXPRESSION, "(", "a", ")")

# Refuses what holds a wrong token, and goes on for ever where more than 100 bytes are given.
PROGRAM = """#!/bin/sh
text=$(cat)
[ ${#text} -gt 100 ] && while :; do :; done
case $text in *=\\>*) exit 1 ;; esac
"""


class Texts(unittest.TestCase):
    def test_levels(self):
        self.assertEqual(PARENTHESES.text(3), "let _ = (((a)));")
        self.assertEqual(PARENTHESES.text(1, "b"), "let _ = (b);")
        self.assertEqual(Form("`?`", EXPRESSION, "", "a", "?").text(2), "let _ = a??;")

    def test_runs(self):
        self.assertEqual(runs_of(PARENTHESES), [("print", None, 0), ("check", None, 0), ("print", "a => ", 1)])
        self.assertEqual([it for it in runs_of(Form("macros", EXPRESSION, "m!(", "a", ")", raw=True)) if it[2]], [])
        self.assertEqual(runs_of(UNCLOSED[0]), [("print", None, 1)])

    def test_each_form_has_a_name_of_its_own(self):
        names = [it.name for it in FORMS + UNCLOSED]
        self.assertEqual(sorted(names), sorted({*names}))


class Programs(unittest.TestCase):
    def setUp(self):
        self.folder = tempfile.TemporaryDirectory()
        self.addCleanup(self.folder.cleanup)

    def program(self, text):
        path = Path(self.folder.name) / "program"
        path.write_text(text)
        os.chmod(path, 0o755)
        return str(path)

    def options(self, program, **changed):
        return SimpleNamespace(**{"bin": self.program(program), "levels": 8, "seconds": 10, "growth": 8, "noise": 1, **changed})

    def test_what_answers_as_it_must(self):
        self.assertEqual(tried(PARENTHESES, self.options(PROGRAM))[1], [])

    def test_another_status(self):
        faults = tried(PARENTHESES, self.options("#!/bin/sh\nexit 3\n"))[1]
        self.assertEqual(len(faults), 6)
        self.assertIn("print, 8 levels: status 3 instead of 1, with a wrong token", faults)

    def test_what_continues_for_ever_is_ended(self):
        status, _seconds = run(self.program(PROGRAM), "print", "stmts", "(" * 200, 0.5)
        self.assertEqual(status, -9)

    def test_what_takes_too_long(self):
        faults = tried(UNCLOSED[0], self.options("#!/bin/sh\nexit 1\n", growth=-1, noise=0))[1]
        self.assertEqual([fault.split(":")[0] for fault in faults], ["print"])

    def test_no_such_form(self):
        with contextlib.redirect_stdout(io.StringIO()) as said:
            self.assertEqual(deep.main(["no form has this name"]), 1)
        self.assertEqual(said.getvalue(), "0 of 0 forms passed\n")


if __name__ == "__main__":
    unittest.main()
