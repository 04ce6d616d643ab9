#!/usr/bin/env python3
"""Tests of refusals.py: it takes what its table says, and tells a program that says something else."""

import subprocess
import sys
import tempfile
import unittest
from pathlib import Path

from refusals import TABLE, refusals

HERE = Path(__file__).resolve().parent

# Refuses each text at its length, and reads `fine`.
PROGRAM = """#!/bin/sh
text=$(cat)
[ "$text" = fine ] && echo fine && exit 0
echo "refused at ${#text}: $1 $2 is refused" >&2
exit 1
"""

GOOD = """# a comment

stmts  a # b  # 5: print stmts is refused
derive  # 0: print derive is refused
"""


class Refusals(unittest.TestCase):
    def run_table(self, text):
        """The status and the last line of refusals.py, of a table."""
        with tempfile.TemporaryDirectory() as folder:
            program, table = Path(folder) / "program", Path(folder) / "table.txt"
            program.write_text(PROGRAM)
            program.chmod(0o755)
            table.write_text(text)
            done = subprocess.run([sys.executable, HERE / "refusals.py", "--bin", program, "--table", table], capture_output=True, text=True)
            return done.returncode, done.stdout.splitlines()[-1:]

    def test_what_a_line_says(self):
        self.assertEqual([*refusals(GOOD)], [
            (3, "stmts", "a # b", "refused at 5: print stmts is refused\n"),
            (4, "derive", "", "refused at 0: print derive is refused\n"),
        ])

    def test_a_line_of_another_form_is_a_fault(self):
        for line in ("stmts a", "stmts  a", "stmts  a  # 1", "  a  # 1: b"):
            with self.assertRaises(ValueError):
                [*refusals(line)]

    def test_what_the_program_says(self):
        self.assertEqual(self.run_table(GOOD), (0, ["refusals: 2 texts, 0 failed"]))

    def test_other_words_bytes_and_answers_fail(self):
        for line in ("stmts  a  # 1: something else", "stmts  a  # 2: print stmts is refused", "stmts  fine  # 4: print stmts is refused"):
            self.assertEqual(self.run_table(GOOD + line), (1, ["refusals: 3 texts, 1 failed"]), line)

    def test_nothing_to_run_fails(self):
        self.assertEqual(self.run_table("# nothing\n"), (1, ["refusals: 0 texts, 0 failed"]))

    def test_the_table_is_read(self):
        self.assertGreater(len([*refusals(TABLE.read_text())]), 50)


if __name__ == "__main__":
    unittest.main()
