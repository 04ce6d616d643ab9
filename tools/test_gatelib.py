#!/usr/bin/env python3
"""Tests of gatelib: which steps run and how they are reported, and the progress of proofs."""

import contextlib
import io
import subprocess
import sys
import tempfile
import unittest
from pathlib import Path
from types import SimpleNamespace

from gatelib.kit import kit
from gatelib.progress import Progress, Report
from gatelib.steps import Step, run_gate, selected

TOP = Path(__file__).resolve().parent.parent


def python(text):
    return (sys.executable, "-c", text)


def names(steps):
    return [it.name for it in steps]


class Steps(unittest.TestCase):
    def run_all(self, steps, words=(), jobs=2):
        """The exit status, and the lines that are printed, without the times."""
        said = io.StringIO()
        with contextlib.redirect_stdout(said), contextlib.redirect_stderr(said):
            status = run_gate(steps, words, jobs)
        return status, said.getvalue().splitlines()

    def test_words_select_steps_and_what_they_come_after(self):
        steps = [Step("build of a", ()), Step("build of b", (), after=("tools",)), Step("tools", ()), Step("cases", (), after=("build of b",))]
        self.assertEqual(names(selected(steps, ())), names(steps))
        self.assertEqual(names(selected(steps, ["case"])), ["build of b", "tools", "cases"])
        self.assertEqual(names(selected(steps, ["of a", "tool"])), ["build of a", "tools"])
        self.assertEqual(selected(steps, ["x"]), [])

    def test_all_pass(self):
        status, said = self.run_all([Step("first", python("print(1)")), Step("second", python("print(2)"), after=("first",))])
        self.assertEqual(status, 0)
        self.assertRegex(said[0], r"^passed +\d+ s +\d+ s of processor  first$")
        self.assertRegex(said[1], r"^passed .*  second$")
        self.assertRegex(said[2], r"^\d+ s, \d+ s of processor$")
        self.assertEqual(said[3:], ["2 passed, 0 failed"])

    def test_one_fails(self):
        status, said = self.run_all([Step("first", python("print('why'); raise SystemExit(3)")), Step("second", python("")), Step("third", (), after=("first",))])
        self.assertEqual((status, said[-1]), (1, "1 passed, 1 failed, 1 left out"))
        self.assertEqual(said[-3:-1], ["left out: third", "FAILED: first"])
        self.assertIn("    why", said)
        self.assertEqual([it for it in said if it.endswith("third: first has not passed")][0][:8], "left out")

    def test_missing_files(self):
        status, said = self.run_all([Step("cases", (), needs=("no/such/file",)), Step("other", python(""), needs=("tools",))])
        self.assertEqual((status, said[-1]), (0, "1 passed, 0 failed, 1 left out"))
        self.assertTrue([it for it in said if it.endswith("cases: no/such/file is missing")])
        self.assertEqual(self.run_all([Step("cases", (), needs=("no/such/file",))])[0], 1)

    def test_no_such_step(self):
        status, said = self.run_all([Step("cases", ())], ["tests"])
        self.assertEqual((status, said), (2, ["no step has a name with tests: cases"]))

    def test_the_order(self):
        with tempfile.TemporaryDirectory() as folder:
            note = lambda name: python(f"open({folder + '/notes'!r}, 'a').write({name!r})")
            steps = [Step("a", note("a"), after=("b",)), Step("b", note("b")), Step("c", note("c")), Step("d", note("d"), live=True)]
            self.assertEqual(self.run_all(steps, jobs=1)[0], 0)
            self.assertEqual(Path(folder, "notes").read_text(), "dbac")

    def test_what_both_commands_run(self):
        for command in ("test", "prove"):
            ran = subprocess.run([sys.executable, TOP / command, "no such step"], capture_output=True, text=True, check=False)
            self.assertEqual(ran.returncode, 2, ran.stderr)
            for name in ("conformance", "fuzz of the program", "fuzz of the reader", "answers by trees and without", "cuts of streams", "refusals", "deep texts"):
                self.assertIn(name, ran.stderr)

    def test_each_script_is_a_step(self):
        ran = subprocess.run([sys.executable, TOP / "test", "no such step"], capture_output=True, text=True, check=False).stderr
        for path in TOP.glob("tools/test_*.py"):
            self.assertIn(f"tools/{path.name}", ran)


class Reports(unittest.TestCase):
    def told(self, *texts):
        to = io.StringIO()
        report = Report(to)
        for text in texts:
            report.write(text)
        report.flush()
        return to.getvalue()

    def test_details_of_what_is_proved_are_left_out(self):
        self.assertEqual(self.told("rt: note\n== low\nso far: 1 of 2\n", "prov", "ed\nrt: low proved\n", "rt: low: its tests are proved\n"), "rt: note\nrt: low proved\nrt: low: its tests are proved\n")

    def test_details_of_what_is_not_proved(self):
        text = "== low\nerror: this\nrt: low NOT PROVED\n0 passed, 1 failed\n"
        self.assertEqual(self.told(text), text)

    def test_output_of_tests(self):
        to = io.StringIO()
        report = Report(to)
        report.buffer.write(b"test a ... ok\n")
        self.assertEqual(to.getvalue(), "test a ... ok\n")

    def test_what_has_no_result_is_shown(self):
        self.assertEqual(self.told("== low\nerror\n== high\nmore\n", "end"), "== low\nerror\n== high\nmore\nend")


class Clock:
    def __init__(self):
        self.now = 0

    def __call__(self):
        return self.now


class ProgressOfProofs(unittest.TestCase):
    def setUp(self):
        self.clock, self.said = Clock(), []
        task = lambda name, takes, following, kind="proof": SimpleNamespace(key=(name, kind), takes=takes, following=following, lines=takes)
        self.low, self.tests, self.high, self.wide = task("low", 1000, 3000), task("low", 0, 0, "tests"), task("high", 2000, 2000), task("wide", 5000, 5000)
        self.progress = Progress([self.low, self.tests, self.high, self.wide], 4, self.said.append, self.clock)

    def do(self, task, seconds):
        self.progress.start(task)
        self.clock.now += seconds
        self.progress.end(task)

    def test_a_crate_is_reported_as_it_ends(self):
        self.do(self.low, 250)
        self.do(self.tests, 0)
        # 7000 s are left at 4 a second, but the chain of 5000 s has half of the processors
        self.assertEqual(self.said, ["-- crate 1 of 3, 250 s, about 42 min left; low took 250 s"])

    def test_what_was_kept_says_nothing_of_the_speed(self):
        self.do(self.low, 1)
        self.assertEqual((self.progress.done, self.progress.speed(1)), (0, 3))
        self.do(self.high, 1000)
        self.assertEqual((self.progress.done, self.progress.speed(1001)), (2000, 2))
        self.assertEqual(self.progress.left(), 2500)

    def test_what_runs(self):
        self.do(self.low, 250)
        self.progress.start(self.high)
        self.clock.now += 100
        self.progress.tell()
        self.assertRegex(self.said[-1], r"^-- crate 1 of 3, 350 s, about \d+ min left; running: high$")

    def test_the_end(self):
        for task in (self.low, self.high, self.wide):
            self.do(task, 300)
        self.assertIn("crate 3 of 3, 900 s, about 0 min left", self.said[-1])


class Keeping(unittest.TestCase):
    def test_a_program_keeps_its_executable(self):
        with tempfile.TemporaryDirectory() as folder:
            made, kept, main = Path(folder, "made"), Path(folder, "kept"), Path(folder, "main.c")
            main.write_text("int main(void) { return 7; }\n")
            clang, keep = kit() / "toolchain/bin/clang", TOP / "tools/gatelib/keep.c"
            for source in (keep, main):
                subprocess.run([clang, "-fPIC", "-c", f'-DKEPT="{kept}"', source, "-o", f"{folder}/{source.stem}.o"], check=True)
            subprocess.run(["cc", f"{folder}/keep.o", f"{folder}/main.o", "-o", made], check=True)
            self.assertEqual(subprocess.run([made], check=False).returncode, 7)
            self.assertEqual(kept.read_bytes(), made.read_bytes())
            self.assertEqual(subprocess.run([kept], check=False).returncode, 7)


if __name__ == "__main__":
    unittest.main()
