#!/usr/bin/env python3
"""Runs the tests of the crates, and each program on its own input, by trial builds: nothing is proved.

    tools/try_tests.py [--jobs N] [--seconds N] [CRATE ..]     all crates if none is named
    tools/try_tests.py --refused N CRATE ..                    the tests of a module `scarce_memory`, with the Nth request for memory refused

Up to --jobs crates run side by side (default: one for each processor). A run may take --seconds (default: 300), and four times as long
with its build.

The script works on a copy of the sources, so the sources may change meanwhile. A crate with tests fails if a test fails, if not all
tests ran, or if the run was cut off. A program (a crate with a file `stdin` or `stdout`) fails if its status differs from its file
`status` or its output from its file `stdout`.

A trial run checks only some of the calls that break a `requires`. What passes here may still be refused by the prover.
"""

import argparse
import concurrent.futures
import functools
import os
import re
import shutil
import subprocess
import sys
import tempfile
import time
from pathlib import Path

from gatelib.kit import kit_for_trials

TOP = Path(__file__).resolve().parent.parent
COMMAND = ["rt", "try"]
# How long a run may take without its build (the deep tests take a minute on a busy machine), and how many times that with its build.
SECONDS, WITH_BUILD = 300, 4
# The tests that pass even if one request for memory is refused are in modules of this name.
MODULE = "scarce_memory"
NOT_COPIED = ("out", "edits.toml", "must-fail")
TEST = re.compile(r"(?m)^test (\S+) \.\.\. (ok|FAILED)$")
COUNT = re.compile(r"(?m)^tests: (\d+)$")
ENDED = re.compile(r"(?m)^run=ended status=(\d+) .*proved=no\s*\Z")


def listed(top):
    """The names of the crates of the repository, in the order of crates.txt."""
    return re.findall(r"(?m)^(\w+)[^:\n#]*:", (top / "crates.txt").read_text(encoding="utf-8"))


def has_tests(folder):
    """Whether the crate has a test."""
    return any("#[test]" in path.read_text(encoding="utf-8") for path in (folder / "src").rglob("*.rt"))


def is_answered(folder):
    """Whether the crate is a program with an input of its own."""
    return (folder / "src/main.rt").is_file() and any((folder / name).is_file() for name in ("stdin", "stdout"))


def tasks_of(top, names):
    """The runs: crates, each with the function that runs it. Exits if a named crate is unknown or has nothing to run."""
    known = listed(top)
    for name in names:
        if name not in known:
            sys.exit(f"try_tests: {name} is no crate of crates.txt")
    tasks = []
    for name in names or known:
        folder = top / "crates" / name
        found = [(name, run) for run, is_meant in ((run_tests, has_tests), (run_program, is_answered)) if is_meant(folder)]
        if name in names and not found:
            sys.exit(f"try_tests: {name} has no test, and is no program with an input")
        tasks += found
    return tasks


def copied(top, to):
    """Copies the sources of the repository, without build results."""
    shutil.copytree(top / "crates", to / "crates", ignore=shutil.ignore_patterns(*NOT_COPIED))
    for name in ("crates.txt", "HANDLES"):
        if (top / name).is_file():
            shutil.copyfile(top / name, to / name)


def command_in(folder):
    """The command for a crate of a copy: that of the kit for trials beside the copied crates, or else `rt try`."""
    rt = folder.parent.parent / "kit/bin/rt"
    return [str(rt), "try"] if rt.is_file() else COMMAND


def called(words, folder, seconds, given=b"", command=None):
    """Runs `rt try`, or another command, in the folder. Returns its standard output, its standard error and its status."""
    pipe = subprocess.PIPE
    started = subprocess.Popen([*(command or command_in(folder)), "--seconds", str(seconds), *words], cwd=folder, stdin=pipe, stdout=pipe, stderr=pipe)
    try:
        wrote, said = started.communicate(given, timeout=WITH_BUILD * seconds)
    except subprocess.TimeoutExpired:
        # on this signal rt ends what it started
        started.terminate()
        started.communicate()
        return b"", f"no end after {WITH_BUILD * seconds} s", None
    return wrote, said.decode(errors="replace"), started.returncode


def end_of(text):
    """The last lines of a log, for an error message."""
    return "\n".join("    " + line[:300] for line in text.splitlines()[-20:])


def without_passed(text):
    """The log without the lines of tests that passed."""
    return re.sub(r"(?m)^test \S+ \.\.\. ok\n", "", text)


def run_refused(number, folder, seconds=SECONDS):
    """Runs the tests of the crate, each with this request for memory refused. Those of a module `scarce_memory` have to pass, others may
    fail. Returns the same as `run_tests`."""
    wrote, said, _ = called(["--test", "--fail-alloc", str(number)], folder, seconds)
    tests = [it for it in TEST.findall(wrote.decode(errors="replace") + said) if MODULE in it[0].split("::")]
    failed = [name for name, outcome in tests if outcome != "ok"]
    told = f"{len(tests) - len(failed)} tests passed without request {number}"
    if failed or not tests:
        return told, f"{', '.join(failed) or 'no test'} failed\n{end_of(said)}"
    return told, ""


def run_tests(folder, seconds=SECONDS):
    """Runs the tests of the crate. Returns a text with the number that passed, and the error, or an empty text."""
    wrote, said, status = called(["--test"], folder, seconds)
    text = wrote.decode(errors="replace") + said
    tests, counts = TEST.findall(text), COUNT.findall(text)
    passed = sum(outcome == "ok" for _, outcome in tests)
    told = f"{passed} tests passed"
    failed = [name for name, outcome in tests if outcome != "ok"]
    if failed:
        return told, f"{', '.join(failed)} failed\n{end_of(without_passed(text))}"
    ended = ENDED.search(text)
    if status != 0 or not ended or ended[1] != "0":
        return told, f"the run did not end\n{end_of(text)}"
    if not passed or counts != [str(passed)]:
        return told, f"not all tests ran: {counts or 'unknown how many'}"
    return told, ""


def run_program(folder, seconds=SECONDS):
    """Runs the program on its input. Returns its last line of output, and the error, or an empty text."""
    read = lambda name: (folder / name).read_bytes() if (folder / name).is_file() else b""
    words = read("args").decode().splitlines()
    wrote, said, _ = called(["--", *words] if words else [], folder, seconds, read("stdin"))
    ended = ENDED.search(said)
    told = (wrote.decode(errors="replace").splitlines() or [""])[-1][:60]
    if not ended:
        return told, f"the run did not end\n{end_of(said)}"
    status = (read("status").decode() or "0").strip()
    if ended[1] != status:
        return told, f"status {ended[1]} in place of {status}\n{end_of(said)}"
    if wrote != read("stdout"):
        return told, f"its output differs from its file stdout: {wrote[-300:]!r}"
    return told, ""


def timed(name, run, room, seconds):
    """Runs one task, prints its result, and returns whether it passed."""
    start = time.monotonic()
    told, wrong = run(room / "crates" / name, seconds)
    line = f"{'FAILED' if wrong else 'passed'}  {time.monotonic() - start:5.0f} s  {name}: {told}"
    print(line + (f"; {wrong}" if wrong else ""), flush=True)
    return not wrong


def main():
    parser = argparse.ArgumentParser(description=__doc__, formatter_class=argparse.RawDescriptionHelpFormatter)
    parser.add_argument("--jobs", type=int, default=len(os.sched_getaffinity(0)))
    parser.add_argument("--seconds", type=int, default=SECONDS)
    parser.add_argument("--refused", type=int, help="the request for memory that is refused")
    parser.add_argument("crates", nargs="*", help="the crates whose tests and programs are run")
    options = parser.parse_args()
    if options.jobs < 1 or options.seconds < 1:
        parser.error("--jobs and --seconds are at least 1")
    tasks = tasks_of(TOP, options.crates)
    if options.refused:
        tasks = [(name, functools.partial(run_refused, options.refused)) for name, run in tasks if run is run_tests]
    with tempfile.TemporaryDirectory(prefix="try_tests-") as room:
        copied(TOP, Path(room))
        kit_for_trials(room)
        with concurrent.futures.ThreadPoolExecutor(options.jobs) as pool:
            ended = list(pool.map(lambda task: timed(*task, Path(room), options.seconds), tasks))
    print(f"try_tests: {len(ended)} runs, {ended.count(False)} failed; nothing was proved")
    sys.exit(0 if ended and all(ended) else 1)


if __name__ == "__main__":
    main()
