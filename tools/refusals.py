#!/usr/bin/env python3
"""Runs the program on the texts of tools/refusals.txt, and fails if the byte or the message of a parse error differs from that file.

A line there is `KIND  TEXT  # BYTE: MESSAGE`: `print KIND` of TEXT ends with status 1, writes nothing to standard output, and writes
`refused at BYTE: MESSAGE` to standard error. Empty lines and lines that begin with `#` are comments."""

import argparse
import re
import subprocess
import sys
from pathlib import Path

TOP = Path(__file__).resolve().parent.parent
TABLE = TOP / "tools/refusals.txt"
PROGRAM = TOP / "crates/syn_canon/out/syn_canon"
LINE = re.compile(r"(\S+)  (.*?) *# (\d+): (.+)")
SECONDS = 60


def refusals(table):
    """The number of each line, its KIND, its text, and the expected standard error."""
    for number, line in enumerate(table.splitlines(), 1):
        if not line or line.startswith("#"):
            continue
        found = LINE.fullmatch(line)
        if not found:
            raise ValueError(f"line {number} is no `KIND  TEXT  # BYTE: WORDS`: {line}")
        kind, text, byte, words = found.groups()
        yield number, kind, text, f"refused at {byte}: {words}\n"


def answer(program, kind, text):
    """The status of the program, its standard output and its standard error."""
    done = subprocess.run([program, "print", kind], input=text, capture_output=True, text=True, timeout=SECONDS)
    return done.returncode, done.stdout, done.stderr


def main():
    parser = argparse.ArgumentParser(description=__doc__, formatter_class=argparse.RawDescriptionHelpFormatter)
    parser.add_argument("--bin", default=PROGRAM, help="the program that is run (crates/syn_canon/out/syn_canon)")
    parser.add_argument("--table", type=Path, default=TABLE, help="the file of texts (tools/refusals.txt)")
    options = parser.parse_args()
    total = wrong = 0
    for number, kind, text, wanted in refusals(options.table.read_text()):
        total += 1
        status, output, faults = answer(options.bin, kind, text)
        if (status, output, faults) != (1, "", wanted):
            wrong += 1
            print(f"refusals: line {number}: status {status}, {output + faults!r} in place of {wanted!r}")
    print(f"refusals: {total} texts, {wrong} failed")
    return 1 if wrong or not total else 0


if __name__ == "__main__":
    sys.exit(main())
