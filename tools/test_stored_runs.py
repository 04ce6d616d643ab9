#!/usr/bin/env python3
"""Tests of stored_runs.py: it takes what its files say, and tells a program that does otherwise."""

import os
import tempfile
import unittest
from pathlib import Path

import stored_runs
from stored_runs import bytes_of, differences, runs_of

# Writes a line for what it is given, and ends with the status 4.
PROGRAM = """#!/bin/sh
echo "$# $1 $(cat | wc -c)"
echo told >&2
exit 4
"""

TEXT = """# A comment.
run: one
args: a 'b c'
input: x\\n\\xff
times: 3
# Another one.
status: 4
output: 2 a 9\\n
faults: told\\n

run: two
args:
status: 4
output: 0  0\\n
faults: told\\n
"""


class Files(unittest.TestCase):
    def test_what_a_value_present_for(self):
        for text, wanted in (("", b""), ("a b", b"a b"), ("\\n\\t\\\\n", b"\n\t\\n"), ("\\xff\\x00", b"\xff\0"), ("é", "é".encode())):
            self.assertEqual(bytes_of(text), wanted)
        for text in ("\\", "\\q", "\\xf", "\\xFF"):
            self.assertRaises(ValueError, bytes_of, text)

    def test_runs(self):
        one, two = runs_of(TEXT)
        self.assertEqual((one.name, one.args, one.input, one.status), ("one", ["a", "b c"], b"x\n\xff" * 3, 4))
        self.assertEqual((two.args, two.input, two.output, two.places), ([], b"", b"0  0\n", {}))

    def test_what_present_around_a_text(self):
        for lines, wanted in (("input: x\nbefore: (\nbehind: )\ntimes: 3", b"(((x)))"), ("before: -\ntimes: 2\ninput: 1", b"--1"), ("input: a\nbehind: +a", b"a+a")):
            self.assertEqual(runs_of(f"run: a\nargs:\nstatus: 0\n{lines}\n")[0].input, wanted)

    def test_lines_that_say_nothing(self):
        for text in ("run: a\nargs:\n", "args:\nstatus: 0\n", "run: a\nargs:\nstatus: 0\nstdot: x\n", "run: a\nargs:\nstatus: 0\nstatus: 1\n", "run: a\nargs:\nstatus\n",
                     "run: a\nargs:\nstatus: 0\nfaults: x\nfaults begin: x\n"):
            self.assertRaises(ValueError, runs_of, text)


class Programs(unittest.TestCase):
    def setUp(self):
        folder = tempfile.TemporaryDirectory()
        self.addCleanup(folder.cleanup)
        self.top, stored_runs.TOP = Path(folder.name), Path(folder.name)
        (self.top / "crates.txt").write_text("low:\nprogram: low std\n")
        for name in ("low", "program"):
            (self.top / "crates" / name / "src").mkdir(parents=True)
            (self.top / "crates" / name / "src/lib.rt").write_text("fn some() {}\n")
        self.crate = self.top / "crates/program"
        (self.crate / "out").mkdir()
        (self.crate / "runs.txt").write_text(TEXT)
        self.built = self.build("program")

    def build(self, name, text=PROGRAM):
        path = self.crate / "out" / name
        path.write_text(text)
        path.chmod(0o755)
        return path

    def found(self, **changed):
        run = runs_of(TEXT)[0]
        for name, value in changed.items():
            setattr(run, name, value)
        return differences(str(self.built), run)

    def test_what_is_as_known(self):
        self.assertEqual(self.found(), [])
        self.assertEqual(stored_runs.tried("program"), (2, 0))

    def test_what_differs(self):
        self.assertEqual(self.found(status=0), ["status 4 in place of 0"])
        self.assertEqual(self.found(output=b"2 a 8\n"), ["stdout b'2 a 9\\n' in place of b'2 a 8\\n'"])
        self.assertEqual(self.found(faults=b""), ["stderr b'told\\n' in place of b''"])
        self.assertEqual(len(self.found(args=[], faults=b"told", status=1)), 3)

    def test_how_a_line_begins(self):
        self.assertEqual(runs_of("run: a\nargs:\nstatus: 1\nfaults begin: at 3:\\x20\n")[0].begins, b"at 3: ")
        for begins in (b"", b"to", b"told\n"):
            self.assertEqual(self.found(begins=begins), [], begins)
        for begins in (b"x", b"old", b"told\n\n"):
            self.assertEqual(self.found(begins=begins), [f"stderr b'told\\n' in place of {begins!r}"])
        for script in ("printf told >&2", "echo told >&2; echo again >&2", ":"):
            self.build("program", f"#!/bin/sh\necho '2 a 9'\n{script}\nexit 4\n")
            self.assertEqual(len(self.found(begins=b"to")), 1, script)

    def test_what_present_in_the_place_of_pipes(self):
        self.build("program", "#!/bin/sh\n[ -e /proc/self/fd/1 ] && [ -e /proc/self/fd/2 ] || exit 7\ncat || exit 8\necho x || exit 9\n")
        for places, status in (({"stdout": "closed"}, 7), ({"stderr": "closed"}, 7), ({"stdin": "folder"}, 8), ({"stdout": "full"}, 8), ({}, 0)):
            said = self.found(places=places, input=b"y", status=status, output=b"yx\n", faults=b"")
            self.assertEqual([it for it in said if it.startswith("status")], [], places)

    def test_an_input_that_breaks(self):
        self.build("program", "#!/bin/sh\ncat 2>/dev/null || exit 8\n")
        self.assertEqual(self.found(input=b"some", breaks=True, status=8, output=b"some", faults=b""), [])
        self.assertEqual(self.found(input=b"", breaks=True, status=8, output=b"", faults=b""), [])
        many = b"x" * 300000
        self.assertEqual(self.found(input=many, breaks=True, status=8, output=many, faults=b""), [])
        self.assertEqual(self.found(input=b"some", status=0, output=b"some", faults=b""), [])
        self.assertTrue(runs_of("run: a\nargs:\nstatus: 1\nbreaks: input\n")[0].breaks)
        self.assertRaises(ValueError, runs_of, "run: a\nargs:\nstatus: 1\nbreaks: output\n")

    def test_an_output_with_room_for_some_bytes(self):
        self.build("program", "#!/bin/sh\nprintf 12345678 2>/dev/null || exit 8\n")
        for room, status in ((0, 8), (3, 8), (8, 0), (9, 0)):
            self.assertEqual(self.found(room=room, status=status, output=b"12345678"[:room], faults=b""), [], room)
        self.assertEqual(runs_of("run: a\nargs:\nstatus: 1\nroom: 0\n")[0].room, 0)

    def test_memory(self):
        self.build("program", "#!/bin/sh\nulimit -v\n")
        self.assertEqual(self.found(memory=512, status=0, output=b"524288\n", faults=b""), [])

    def test_each_build_is_run(self):
        self.build("program.by-rattle", PROGRAM.replace("exit 4", "exit 5"))
        self.assertEqual(stored_runs.tried("program"), (4, 2))

    def test_what_is_not_built(self):
        self.built.unlink()
        self.assertRaisesRegex(ValueError, "is not built", stored_runs.tried, "program")

    def test_what_is_older_than_a_source(self):
        late = self.built.stat().st_mtime + 10
        os.utime(self.top / "crates/low/src/lib.rt", (late, late))
        self.assertRaisesRegex(ValueError, "is older than crates/low/src/lib.rt", stored_runs.tried, "program")


if __name__ == "__main__":
    unittest.main()
