#!/usr/bin/env python3
"""Tests of bench/deep: the depths that it tries, how a run ends, and the rows of its table."""

import os
import sys
import tempfile
import unittest
from importlib.machinery import SourceFileLoader
from importlib.util import module_from_spec, spec_from_loader
from pathlib import Path
from types import SimpleNamespace

TOP = Path(__file__).resolve().parent.parent
LOADER = SourceFileLoader("bench_deep", str(TOP / "bench/deep"))
BENCH = module_from_spec(spec_from_loader("bench_deep", LOADER))
sys.dont_write_bytecode = True
LOADER.exec_module(BENCH)

PARENTHESES = next(it for it in BENCH.forms([]) if it.name == "parentheses")

# Refuses what is longer than 60 characters, or ends by a signal then.
PROGRAM = """#!/bin/sh
read -r text kind
[ ${#text} -gt 60 ] && %s || echo '1 printed, 0 beyond trees'
"""


class Texts(unittest.TestCase):
    def test_depths_grow_by_a_seventh(self):
        self.assertEqual(BENCH.depths(22), [16, 18, 20, 23])
        self.assertEqual(BENCH.depths(100)[-2:], [94, 108])

    def test_lines_are_hex_digits_and_a_kind(self):
        self.assertEqual(BENCH.line_of(PARENTHESES, 2), b"let _ = ((a));".hex() + " stmts\n")

    def test_forms_are_chosen_by_words(self):
        self.assertEqual({it.name for it in BENCH.forms(["tuple types", "`else if`"])}, {"tuple types", "`else if`", "`else if` as a value"})
        self.assertFalse([it.name for it in BENCH.forms([]) if it.raw])

    def test_limits_are_taken_away(self):
        with tempfile.TemporaryDirectory() as folder:
            path = Path(folder) / "limits.rt"
            path.write_text((TOP / BENCH.LIMITS).read_text())
            BENCH.without_limits(path)
            self.assertEqual(path.read_text().count(f"pub const STACK: u32 = {BENCH.UNLIMITED};"), 1)


class Runs(unittest.TestCase):
    def test_how_a_run_ends(self):
        self.assertEqual(BENCH.outcome(0, "1 texts, 0 beyond trees"), BENCH.ANSWERED)
        self.assertEqual(BENCH.outcome(0, "1 texts, 1 beyond trees"), BENCH.REFUSED)
        self.assertEqual(BENCH.outcome(-11, ""), BENCH.ENDED)
        self.assertEqual(BENCH.outcome(None, ""), BENCH.ENDED)

    def fits(self, otherwise, most):
        with tempfile.TemporaryDirectory() as folder:
            path = Path(folder) / "program"
            path.write_text(PROGRAM % otherwise)
            os.chmod(path, 0o755)
            return BENCH.built(str(path), 1024, PARENTHESES, most)

    def test_a_program(self):
        # the text is 10 characters and two a level, and each is two digits
        self.assertEqual(self.fits("echo '0 printed, 1 beyond trees'", 100), (10, BENCH.REFUSED))
        self.assertEqual(self.fits("kill -SEGV $$", 100), (10, BENCH.ENDED))
        self.assertEqual(self.fits("kill -SEGV $$", 10), (10, None))

    def test_what_a_trial_reports(self):
        said = b"case=0 run=ended status=0 x\ncase=1 run=ended status=139 x\n"
        ran = SimpleNamespace(stderr=said, stdout=b"== 0\n1 texts, 1 beyond trees\n== 1\n")
        self.assertEqual(BENCH.told(ran, 3), [BENCH.REFUSED, BENCH.ENDED, BENCH.ENDED])


class Rows(unittest.TestCase):
    def test_what_fits_a_trial(self):
        levels = [8, 10, 20]
        self.assertEqual(BENCH.first_wrong(levels, [BENCH.ANSWERED, BENCH.REFUSED, BENCH.ENDED]), (8, BENCH.REFUSED))
        self.assertEqual(BENCH.first_wrong(levels, [BENCH.ANSWERED] * 3), (20, None))
        self.assertEqual(BENCH.first_wrong(levels, [BENCH.ENDED] * 3), (0, BENCH.ENDED))

    def test_rows(self):
        self.assertEqual(BENCH.row_of(PARENTHESES, 10, BENCH.ENDED, 1000), "| parentheses | 10 | ended | 102400 |")
        self.assertEqual(BENCH.row_of(PARENTHESES, 8, BENCH.REFUSED, 1000), "| parentheses | 8 | refused | - |")
        self.assertEqual(BENCH.row_of(PARENTHESES, 20, None, 1000), "| parentheses | 20 | - | - |")
        self.assertEqual(BENCH.row_of(PARENTHESES, 0, BENCH.ENDED, 1000), "| parentheses | 0 | ended | - |")


if __name__ == "__main__":
    unittest.main()
