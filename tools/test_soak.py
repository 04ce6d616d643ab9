#!/usr/bin/env python3
"""Tests of tools/soak.py, with stand-ins for the program. Run it with no arguments."""

import contextlib
import io
import random
import re
import subprocess
import sys
import tempfile
import unittest
from pathlib import Path
from unittest import mock

import soak

# In place of the program: it refuses what isn't UTF-8, or has a quote, at the byte, and prints the words of the rest.
PROGRAM = """import sys
data = sys.stdin.buffer.read()
try:
    text = data.decode()
except UnicodeDecodeError:
    sys.exit(print('refused at 0: no text', file=sys.stderr) or 1)
if "'" in text:
    sys.exit(print(f"refused at {text.index(chr(39))}: a quote", file=sys.stderr) or 1)
print(' '.join(text.split()) if sys.argv[1] == 'print' else 'ok')
"""


class Soak(unittest.TestCase):
    def setUp(self):
        folder = tempfile.TemporaryDirectory()
        self.addCleanup(folder.cleanup)
        self.folder = Path(folder.name)

    def program(self, text=PROGRAM):
        path = self.folder / "program"
        path.write_text(f"#!{sys.executable}\n{text}")
        path.chmod(0o755)
        return str(path)

    def ended(self, text, words=("print", "item"), data=b"a  b"):
        return soak.Ended(self.program(text), list(words), data)


class Runs(Soak):
    def test_runs_that_end_well(self):
        for data, kind in ((b"a  b", (0, "")), (b"a 'b", (1, "refused at N: a quote\n")), (b"\xff", (1, "refused at N: no text\n"))):
            ended = self.ended(PROGRAM, data=data)
            self.assertEqual((ended.kind(), ended.wrong), (kind, ""))

    def test_memory_may_be_out(self):
        ended = self.ended("import sys\nprint('out of memory', file=sys.stderr)\nsys.exit(3)\n")
        self.assertEqual((ended.status, ended.wrong), (3, ""))

    def test_runs_that_fail(self):
        tell = "import os, sys\nprint('refused at 0: no', file=sys.stderr)\n"
        for text in (tell + "sys.exit(2)\n", tell + "sys.exit(0)\n", tell + "print('a')\nsys.exit(1)\n", tell + "os.abort()\n",
                     "import sys\nsys.exit(1)\n", tell + "sys.exit(3)\n", tell.replace("0: no", "no") + "sys.exit(1)\n"):
            with self.subTest(text):
                self.assertNotEqual(self.ended(text).wrong, "")

    def test_a_print_that_is_printed_otherwise(self):
        for text in ("import sys\nprint(sys.stdin.read() + 'a')\n", "import sys\nprint('b')\nsys.exit(sys.stdin.read() == 'b\\n')\n"):
            self.assertIn("its print", self.ended(text).wrong)
        self.assertEqual(self.ended("import sys\nprint(sys.stdin.read() + 'a')\n", words=("check", "item")).wrong, "")

    def test_a_run_without_an_end(self):
        with mock.patch.object(soak, "SECONDS", 0.2):
            ended = self.ended("import time\ntime.sleep(9)\n")
        self.assertEqual((ended.status, ended.wrong), (None, "no end after 0.2 seconds"))


class Inputs(Soak):
    def test_real_files_are_changed(self):
        data = b"struct S(u8);" * 30
        made = {soak.changed(data, random.Random(seed)) for seed in range(60)}
        self.assertGreater(len(made), 30)
        self.assertIn(data, made)
        self.assertIn(b"", {soak.changed(b"", random.Random(seed)) for seed in range(9)})

    def test_spaces_alone_are_changed(self):
        found = soak.spaced("a b " * 200, random.Random(1))
        self.assertNotEqual(found, "a b " * 200)
        self.assertEqual(re.sub(r"//.*\n|/\*.*?\*/|\ufeff|\s", "", found), "ab" * 200)

    def test_what_is_not_there_is_left_out(self):
        said = io.StringIO()
        with contextlib.redirect_stdout(said):
            source = soak.Source(1, self.folder / "none", self.folder)
        self.assertRegex(said.getvalue(), "left out: real files; .*\nleft out: derivations; ")
        cases = [source.case() for _ in range(200)]
        self.assertEqual({words[0] for words, _ in cases}, {"print", "check", "list"})

    def test_pieces_of_real_files(self):
        (self.folder / "a.rs").write_bytes(b"struct S;" * 5000)
        with contextlib.redirect_stdout(io.StringIO()):
            source = soak.Source(1, self.folder / "none", self.folder)
        pieces = [source.of_file()[0] for _ in range(30)]
        self.assertTrue(any(b"struct S;struct S;" in piece for piece in pieces))
        self.assertLess(max(map(len, pieces)), soak.LONGEST_PIECE + 1000)


class Script(Soak):
    def status(self, program, *words):
        kept, said = self.folder / "kept", io.StringIO()
        argv = ["soak.py", "--bin", program, "--minutes", "0.01", "--jobs", "2", "--kept", str(kept), "--oracle", str(self.folder / "none"), *words]
        with mock.patch("sys.argv", argv), contextlib.redirect_stdout(said), contextlib.redirect_stderr(said), self.assertRaises(SystemExit) as ended:
            with mock.patch.object(soak, "BATCH", 8):
                soak.main()
        return ended.exception.code, said.getvalue(), kept

    def test_runs_are_counted_and_kinds_kept(self):
        status, said, kept = self.status(self.program())
        self.assertEqual(status, 0, said)
        self.assertRegex(said, r"(?m)^\d+ runs, \d+ a second: \d+ with status 0, \d+ with status 1; [23] kinds of answers, kept in \S+; 0 failed$")
        words = (kept / "answer-1.words").read_text().split()
        ended = subprocess.run([self.program(), *words], input=(kept / "answer-1").read_bytes(), capture_output=True)
        self.assertIn(ended.returncode, (0, 1))

    def test_failures_are_kept(self):
        status, said, kept = self.status(self.program("import os\nos.abort()\n"))
        self.assertEqual(status, 1)
        self.assertRegex(said, r"status -6 with ''.*\n(.*\n)*.*; 0 kinds of answers, .*; \d+ failed")
        self.assertTrue((kept / "failure-1").is_file() and (kept / "failure-1.words").is_file())

    def test_no_program(self):
        self.assertEqual(self.status(str(self.folder / "none"))[0], 2)


if __name__ == "__main__":
    unittest.main()
