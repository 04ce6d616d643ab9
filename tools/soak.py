#!/usr/bin/env python3
"""Runs the built program on random input for some minutes, and checks that each run ends in an allowed way.

    tools/soak.py [--bin PROGRAM] [--minutes M] [--seed N] [--jobs N] [--kept FOLDER] [--oracle FOLDER] [FOLDER OF SOURCES]

The input is chosen at random from these, and so are the arguments, `print` or `check` of a kind, or `list`:

- random bytes;
- what lexers get wrong (tools/fuzz_reader.py);
- derivations of the kinds with a few tokens changed, with odd spacing, by the generator of the independent reader beside the repository;
- a piece of a real file with a few places changed, from the folder of sources or else from Debian's rust-src.

A run has to end with 0, and its print is parsed again and printed unchanged; with 1 and a line `refused at BYTE: TEXT`; or with 3 and the
line that memory is out. Anything else, and a run that takes too long, is a failure. For each kind of result, a status and a message without
its numbers, the first input is kept in FOLDER, and so is that of each failure, each beside a file with the arguments.

It prints the number of runs, of runs a second, of runs with each status, of kinds of results, and of failures. The status is 1 if a run
failed. What is missing is left out, and named.
"""
import argparse
import itertools
import os
import random
import re
import subprocess
import sys
import tempfile
import time
from collections import Counter
from concurrent.futures import ThreadPoolExecutor
from pathlib import Path

from compare_answers import ORACLE, STAGE, WORDS, random_texts, there
from cutlib.texts import REFUSAL
from fuzz_reader import random_text
from real_files import PROGRAM, library

# How many inputs are made at once, and how many derivations.
BATCH, DERIVATIONS = 100, 40
# No random bytes and no piece of a file is longer.
MOST_BYTES, LONGEST_PIECE = 60, 20_000
SECONDS = 60
# Between tokens, in place of a space.
SPACES = [" ", "  ", "\n", "\r\n", "\t", "\x0b", "\u2028", "\u00a0", "/**/", "/* a */", "// a\n", "\ufeff", ""]
# What is put into a piece of a file.
SCRAPS = [b"'", b'"', b"#", b"(", b")", b"{", b"}", b"[", b"]", b"<", b">", b"::", b"@", b"/*", b"*/", b"\\", b"\0", b"\xff", b"r#", b"\xc3", b"pub ", b"where ", b"<>"]


def random_bytes(pick):
    return pick.randbytes(pick.randrange(MOST_BYTES))


def spaced(text, pick):
    """The text with some of its spaces in another form."""
    return re.sub(" ", lambda found: pick.choice(SPACES) if pick.random() < 0.2 else found[0], text)


def changed(data, pick):
    """The bytes with a few places changed: a piece left out, twice, or elsewhere, or a scrap put in."""
    for _ in range(pick.choice([0, 1, 1, 2, 4, 8])):
        start, end = sorted(pick.randrange(len(data) + 1) for _ in range(2))
        end = min(end, start + pick.choice([1, 4, 60]))
        place = pick.randrange(len(data) + 1)
        data = pick.choice([
            data[:start] + data[end:],
            data[:place] + data[start:end] + data[place:],
            data[:start] + pick.choice(SCRAPS) + data[end:],
            data[:place] + pick.choice(SCRAPS) + data[place:],
        ])
    return data


class Source:
    """Where the inputs come from."""

    def __init__(self, seed, oracle, files):
        self.pick, self.oracle = random.Random(seed), oracle
        self.files = sorted(files.rglob("*.rs")) if files else []
        self.derived = iter(())
        makers = [self.of_bytes, self.of_lexer]
        if self.files:
            makers += [self.of_file] * 2
        else:
            print("left out: real files; no folder has one")
        if there(oracle / "oracle.py", "derivations"):
            makers += [self.of_derivation] * 3
        self.makers = makers

    def of_bytes(self):
        return random_bytes(self.pick), None

    def of_lexer(self):
        return random_text(self.pick).encode(), None

    def of_file(self):
        data = self.pick.choice(self.files).read_bytes()
        start = self.pick.choice([0, self.pick.randrange(len(data) + 1)])
        return changed(data[start:start + self.pick.randrange(LONGEST_PIECE)], self.pick), "file"

    def of_derivation(self):
        found = next(self.derived, None)
        if found is None:
            self.derived = iter(random_texts(self.oracle, STAGE, DERIVATIONS, self.pick.randrange(1 << 30)))
            found = next(self.derived)
        text, kinds = found
        return spaced(text, self.pick).encode(), kinds[0]

    def case(self):
        """The words and the input of a run."""
        data, kind = self.pick.choice(self.makers)()
        if kind is None or self.pick.random() < 0.1:
            kind = self.pick.choice(WORDS)
        words = ["list"] if kind == "file" and self.pick.random() < 0.3 else [self.pick.choice(["print", "print", "check"]), kind]
        return words, data


class Ended:
    """How a run ended: its status, its message without numbers, and what is wrong with it, if something is."""

    def __init__(self, program, words, data):
        try:
            done = called(program, words, data)
            self.status, self.message = done.returncode, re.sub(r"\d+", "N", done.stderr.decode(errors="replace"))
            self.wrong = fault_of(done) or (words[0] == "print" and not done.returncode and fault_of_print(program, words, done.stdout)) or ""
        except subprocess.TimeoutExpired:
            self.status, self.message, self.wrong = None, "", f"no end after {SECONDS} seconds"

    def kind(self):
        return self.status, self.message


def called(program, words, data):
    return subprocess.run([program, *words], input=data, capture_output=True, timeout=SECONDS)


def fault_of(done):
    """What is wrong with how a run ended."""
    said = done.stderr.decode(errors="replace")
    if done.returncode == 0:
        return f"with status 0 it says {said!r}" if said else ""
    if done.stdout:
        return f"with status {done.returncode} it writes {done.stdout[:60]!r}"
    is_reported = {1: REFUSAL.fullmatch(said), 3: said == "out of memory\n"}.get(done.returncode)
    return "" if is_reported else f"status {done.returncode} with {said!r}"


def fault_of_print(program, words, text):
    """What is wrong with a print: it is read again, and printed so."""
    again = called(program, words, text)
    return "" if (again.returncode, again.stdout) == (0, text) else f"its print ends with status {again.returncode}, or is printed otherwise"


def kept(folder, name, words, data):
    """Keeps an input, and beside it the words."""
    (folder / name).write_bytes(data)
    (folder / f"{name}.words").write_text(" ".join(words) + "\n")


def soaked(program, source, folder, seconds, jobs):
    """Runs the program for so long. Returns how many runs ended with each status, how many kinds of answers there were, and what was wrong
    with those that failed."""
    statuses, kinds, wrong, end = Counter(), set(), [], time.monotonic() + seconds
    with ThreadPoolExecutor(jobs) as pool:
        while time.monotonic() < end:
            cases = [source.case() for _ in range(BATCH)]
            for (words, data), ended in zip(cases, pool.map(lambda it: Ended(program, *it), cases)):
                statuses[ended.status] += 1
                if ended.wrong:
                    wrong.append(f"{ended.wrong}: {' '.join(words)}, {data[:60]!r}")
                    kept(folder, f"failure-{len(wrong)}", words, data)
                elif ended.kind() not in kinds:
                    kinds.add(ended.kind())
                    kept(folder, f"answer-{len(kinds)}", words, data)
    return statuses, len(kinds), wrong


def main():
    parser = argparse.ArgumentParser(description=__doc__, formatter_class=argparse.RawDescriptionHelpFormatter)
    parser.add_argument("sources", nargs="?", type=Path, default=library(), help="a folder of Rust sources (Debian's rust-src)")
    parser.add_argument("--bin", default=str(PROGRAM), help="the program, built (crates/syn_canon/out/syn_canon)")
    parser.add_argument("--minutes", type=float, default=1)
    parser.add_argument("--seed", type=int, default=1)
    parser.add_argument("--jobs", type=int, default=len(os.sched_getaffinity(0)), help="how many runs go on side by side")
    parser.add_argument("--kept", type=Path, help="where inputs are kept (a new folder for what is temporary)")
    parser.add_argument("--oracle", type=Path, default=ORACLE, help="the folder of the other reading")
    options = parser.parse_args()
    if not os.access(options.bin, os.X_OK):
        print(f"soak: {options.bin} can't be run", file=sys.stderr)
        sys.exit(2)
    folder = options.kept or Path(tempfile.mkdtemp(prefix="soak-"))
    folder.mkdir(parents=True, exist_ok=True)
    start = time.monotonic()
    statuses, kinds, wrong = soaked(options.bin, Source(options.seed, options.oracle, options.sources), folder, 60 * options.minutes, options.jobs)
    for line in itertools.islice(wrong, 20):
        print(line)
    runs = statuses.total()
    told = ", ".join(f"{count} with status {status}" for status, count in sorted(statuses.items(), key=str))
    print(f"{runs} runs, {runs / (time.monotonic() - start):.0f} a second: {told}; {kinds} kinds of answers, kept in {folder}; {len(wrong)} failed")
    sys.exit(1 if wrong or not runs else 0)


if __name__ == "__main__":
    main()
