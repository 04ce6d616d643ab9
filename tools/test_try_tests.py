#!/usr/bin/env python3
"""Tests of try_tests.py, with a command in the place of rt: which runs it takes for well ended. Run it with no arguments."""

import contextlib
import functools
import io
import tempfile
import unittest
from pathlib import Path
from unittest import mock

import try_tests

PASSED = "tests: 2\ntest tests::a ... ok\ntest tests::b ... ok\ntest result: ok. 2 passed; 0 failed; 0 ignored; 0 filtered out\n"
ENDED = "run=ended status=0 runners=1 proved=no\n"


class Trial(unittest.TestCase):
    def setUp(self):
        folder = tempfile.TemporaryDirectory()
        self.addCleanup(folder.cleanup)
        self.top = Path(folder.name)
        (self.top / "crates.txt").write_text("# crates\nlow:\nhigh: low\nprogram may_wait=1: low\n", encoding="utf-8")
        self.write("crates/low/src/lib.rt", "pub fn f() {}\n")
        self.write("crates/high/src/tests/a.rt", "#[test]\nfn a() {}\n")
        self.write("crates/program/src/main.rt", "fn main() {}\n")
        self.write("crates/program/stdin", "a\nb\n")
        self.write("crates/program/stdout", "2\n")

    def write(self, name, text):
        """Writes a file below the folder of the test."""
        path = self.top / name
        path.parent.mkdir(parents=True, exist_ok=True)
        path.write_text(text, encoding="utf-8")
        return path

    def answered(self, run, name, script):
        """What the run of the crate says went wrong, where rt does as the script says."""
        command = ["sh", str(self.write("rt", script))]
        with mock.patch.object(try_tests, "COMMAND", command):
            return run(self.top / "crates" / name)[1]

    def tried(self, log, status=0):
        """The same of tests of which rt writes this log."""
        self.write("log", log)
        return self.answered(try_tests.run_tests, "high", f"cat {self.top}/log\nexit {status}\n")

    def program(self, script):
        """The same of the program."""
        return self.answered(try_tests.run_program, "program", script)


class Tests(Trial):
    def test_all_passed(self):
        self.assertEqual(self.tried(PASSED + ENDED), "")

    def test_one_failed(self):
        self.assertIn("tests::b failed", self.tried(PASSED.replace("b ... ok", "b ... FAILED") + ENDED.replace("status=0", "status=1"), 1))
        # also where the end of the log doesn't tell
        self.assertIn("tests::b failed", self.tried(PASSED.replace("b ... ok", "b ... FAILED") + ENDED))

    def test_none_ran(self):
        self.assertIn("not all tests ran", self.tried("tests: 0\n" + ENDED))
        self.assertIn("not all tests ran", self.tried(ENDED))

    def test_one_did_not_run(self):
        self.assertIn("not all tests ran", self.tried(PASSED.replace("test tests::b ... ok\n", "") + ENDED))

    def test_no_end(self):
        for log, status in ((PASSED, 0), (PASSED + "run=none proved=no\n", 2), (PASSED + ENDED, 1), (PASSED + ENDED.replace("status=0", "status=3"), 0)):
            self.assertIn("did not end", self.tried(log, status))


class Refused(Trial):
    """Tests with a request for memory refused."""

    def refused(self, log):
        self.write("log", log)
        run = functools.partial(try_tests.run_refused, 7)
        return self.answered(run, "high", f'[ "$4 $5" = "--fail-alloc 7" ] && cat {self.top}/log\nexit 1\n')

    def test_those_of_the_module_have_to_pass(self):
        self.assertEqual(self.refused("test tests::a ... FAILED\ntest tests::scarce_memory::b ... ok\n"), "")
        self.assertIn("tests::scarce_memory::b failed", self.refused("test tests::scarce_memory::b ... FAILED\n"))
        self.assertIn("no test failed", self.refused("test tests::scarce ... ok\n"))


class Programs(Trial):
    END = f"echo '{ENDED.strip()}' >&2\n"

    def test_it_answers_its_input(self):
        self.assertEqual(self.program("wc -l\n" + self.END), "")

    def test_its_words_and_status(self):
        self.write("crates/program/args", "print\na b\n")
        self.write("crates/program/status", "3\n")
        self.write("crates/program/stdout", "3 -- print a b\n")
        self.assertEqual(self.program('shift 2; echo "$# $*"\n' + self.END.replace("status=0", "status=3") + "exit 3\n"), "")

    def test_it_writes_something_else(self):
        self.assertIn("differs from", self.program("echo 3\n" + self.END))
        self.assertIn("differs from", self.program("printf 2\n" + self.END))

    def test_another_status(self):
        self.assertIn("status 1 in place of 0", self.program("wc -l\n" + self.END.replace("status=0", "status=1") + "exit 1\n"))

    def test_no_end(self):
        self.assertIn("did not end", self.program("wc -l\n"))
        self.assertIn("did not end", self.program("wc -l\necho run=none proved=no >&2\nexit 2\n"))

    def test_it_hangs(self):
        with mock.patch.object(try_tests, "WITH_BUILD", 0.001):
            self.assertIn("did not end", self.program("exec sleep 5\n"))


class Choice(Trial):
    def test_what_is_run(self):
        tasks = [("high", try_tests.run_tests), ("program", try_tests.run_program)]
        self.assertEqual(try_tests.tasks_of(self.top, []), tasks)
        self.assertEqual(try_tests.tasks_of(self.top, ["program"]), tasks[1:])

    def test_unknown_and_empty_crates(self):
        for name in ("other", "low"):
            self.assertRaises(SystemExit, try_tests.tasks_of, self.top, [name])

    def test_the_copy_has_the_sources_alone(self):
        self.write("crates/low/out/kept", "")
        self.write("crates/low/edits.toml", "")
        self.write("HANDLES", "Handles allowed: none.\n")
        room = self.top / "room"
        room.mkdir()
        try_tests.copied(self.top, room)
        found = {str(path.relative_to(room)) for path in room.rglob("*") if path.is_file()}
        self.assertLessEqual({"crates.txt", "HANDLES", "crates/low/src/lib.rt", "crates/program/stdin"}, found)
        self.assertFalse([name for name in found if "/out/" in name or name.endswith("/edits.toml")])

    def test_the_whole_script(self):
        script = self.write("rt", f'if [ "$3" = --test ]; then cat {self.write("log", PASSED + ENDED)}; else wc -l; {Programs.END.strip()}; fi\n')
        for wanted, change in ((0, ""), (1, "1\n")):
            (self.top / "crates/program/stdout").write_text(change or "2\n", encoding="utf-8")
            said = io.StringIO()
            with mock.patch.object(try_tests, "COMMAND", ["sh", str(script)]), mock.patch.object(try_tests, "TOP", self.top), mock.patch.object(try_tests, "kit_for_trials"), \
                    mock.patch("sys.argv", ["try_tests.py", "--jobs", "2"]), contextlib.redirect_stdout(said):
                with self.assertRaises(SystemExit) as ended:
                    try_tests.main()
            self.assertEqual(ended.exception.code, wanted)
            self.assertIn(f"2 runs, {wanted} failed", said.getvalue())


if __name__ == "__main__":
    unittest.main()
