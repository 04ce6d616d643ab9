#!/usr/bin/env python3
"""Tests that a script of this folder refuses a word that it doesn't know, that --help only helps, and that neither writes
a file: each is called so in a copy of the repository."""

import hashlib
import shutil
import subprocess
import tempfile
import unittest
from pathlib import Path

TOP = Path(__file__).resolve().parent.parent
SCRIPTS = sorted(path.name for path in (TOP / "tools").glob("*.py") if not path.name.startswith("test_"))
# What of the repository the scripts read and write; what rt and cargo make is left out.
PARTS = ("tools", "crates", "docs", "bench", "crates.txt", "HANDLES", "README.md", "CONTRIBUTING.md", "run", "test")
MADE = shutil.ignore_patterns("out", "target", "__pycache__")


def sums(folder):
    """Each file below the folder with the sum of its bytes. What Python keeps of the scripts is left out."""
    files = (path for path in folder.rglob("*") if path.is_file() and "__pycache__" not in path.parts)
    return {str(path.relative_to(folder)): hashlib.sha256(path.read_bytes()).hexdigest() for path in files}


class Words(unittest.TestCase):
    @classmethod
    def setUpClass(cls):
        folder = tempfile.TemporaryDirectory()
        cls.addClassCleanup(folder.cleanup)
        cls.top = Path(folder.name) / "repository"
        cls.top.mkdir()
        for part in PARTS:
            if (TOP / part).is_dir():
                shutil.copytree(TOP / part, cls.top / part, ignore=MADE)
            elif (TOP / part).is_file():
                shutil.copy(TOP / part, cls.top / part)

    def called(self, script, *words):
        """The status and the output of the script. A file that it changed fails the test."""
        before = sums(self.top)
        ran = subprocess.run(["python3", f"tools/{script}", *words], cwd=self.top, stdin=subprocess.DEVNULL, capture_output=True, timeout=60)
        self.assertEqual(sums(self.top), before, f"{script} {words} writes")
        return ran.returncode, ran.stdout

    def test_a_word_that_no_script_knows_is_refused(self):
        for script in SCRIPTS:
            for words in (("--no-such-word",), ("--check", "--no-such-word"), ("--chek",)):
                status, _ = self.called(script, *words)
                self.assertNotEqual(status, 0, f"{script} takes {words}")

    def test_help_only_helps(self):
        self.assertGreater(len(SCRIPTS), 5)
        for script in SCRIPTS:
            status, told = self.called(script, "--help")
            self.assertEqual(status, 0, script)
            self.assertIn(b"usage:", told, script)


if __name__ == "__main__":
    unittest.main()
