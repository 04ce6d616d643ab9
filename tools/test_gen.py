#!/usr/bin/env python3
"""Tests of gen."""
import contextlib
import importlib.util
import io
import unittest
from importlib.machinery import SourceFileLoader
from pathlib import Path
from unittest import mock

LOADER = SourceFileLoader("gen", str(Path(__file__).resolve().with_name("gen")))
gen = importlib.util.module_from_spec(importlib.util.spec_from_loader("gen", LOADER))
LOADER.exec_module(gen)


class Gen(unittest.TestCase):
    def called(self, *words, failing=()):
        """The status of a call with these words, the generators that it ran, each with its words, and its output."""
        ran = []

        def run(name, *given):
            ran.append((name, *given))
            return name not in failing, f"{name}: line"

        said = io.StringIO()
        with mock.patch.object(gen, "run", run), mock.patch("sys.argv", ["gen", *words]), contextlib.redirect_stdout(said), contextlib.redirect_stderr(said):
            with self.assertRaises(SystemExit) as ended:
                gen.main()
        return ended.exception.code, ran, said.getvalue()

    def test_every_generator_is_a_script_that_checks(self):
        for name in gen.GENERATORS:
            self.assertIn('"--check"', gen.TOOLS.joinpath(f"{name}.py").read_text().replace("'", '"'), name)

    def test_generators_run_in_order(self):
        self.assertEqual(self.called()[:2], (0, [(name,) for name in gen.GENERATORS]))
        self.assertEqual(self.called("claims", "tokens")[:2], (0, [("tokens",), ("claims",)]))

    def test_none_runs_after_one_that_fails(self):
        status, ran, _ = self.called("grammar", "kinds", "claims", failing={"kinds"})
        self.assertEqual((status, ran), (1, [("grammar",), ("kinds",)]))

    def test_all_are_checked_and_reported(self):
        status, ran, said = self.called("--check", failing={"grammar"})
        self.assertEqual((status, sorted(ran)), (1, sorted((name, "--check") for name in gen.GENERATORS)))
        self.assertEqual(said.splitlines(), [f"{name}: line" for name in gen.GENERATORS])

    def test_an_unknown_name_is_refused(self):
        self.assertEqual(self.called("nothing")[:2], (2, []))
        self.assertEqual(self.called("--no-such-word")[:2], (2, []))


if __name__ == "__main__":
    unittest.main()
