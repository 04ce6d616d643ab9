#!/usr/bin/env python3
"""Runs the built programs as their files crates/NAME/runs.txt say, and fails if a status or a byte of output differs.

Each program is run from crates/NAME/out: what `./prove` or `rt run` has built, with both builds that `rt ci` leaves there. A program
that is not built, or is older than one of its sources, is a failure too. If names of crates are given, only these are run.

A file runs.txt has runs, separated by empty lines. Each line of a run is a word, a colon and a value; a line with `#` is a comment.

    run        the name of the run
    args       the arguments, with the shell's quotes
    input      standard input: a text in which \\n, \\t, \\\\ and \\xNN are a line break, a tab, a backslash and a byte
    times      how many times that text is given (default: once)
    before     a text that is given `times` times before that text, which is then given once
    behind     the same after that text
    status     the exit status
    output     the expected standard output, written as `input` (default: nothing)
    faults     the expected standard error, likewise
    faults begin     how the line of standard error begins, if the rest of it is unspecified
    stdin, stdout, stderr     `closed`, `full` (the device that takes no byte) or `folder` (one that no byte can be read from),
                              instead of a pipe; nothing is compared then
    breaks     `input`: standard input is a socket that gives all of `input`, and at the next read an error instead of the end
    room       how many bytes standard output takes, as a file, before a write to it fails
    memory     the address space of the run, in MiB
"""

import argparse
import contextlib
import os
import re
import resource
import shlex
import signal
import socket
import subprocess
import sys
import tempfile
from dataclasses import dataclass, field
from pathlib import Path

TOP = Path(__file__).resolve().parent.parent
WORDS = {"run", "args", "input", "times", "before", "behind", "status", "output", "faults", "faults begin", "stdin", "stdout", "stderr", "breaks", "room", "memory"}
# How the name of what each compiler built ends.
BUILDS = ("", ".by-rattle")
ESCAPES = {b"n": b"\n", b"t": b"\t", b"\\": b"\\"}
SECONDS = 60


@dataclass
class Run:
    """One run of a program: its arguments, its input, and the expected result."""

    name: str
    args: list
    input: bytes
    status: int
    output: bytes
    faults: bytes
    places: dict = field(default_factory=dict)
    memory: int = 0
    begins: bytes = None
    breaks: bool = False
    room: int = None


def bytes_of(text):
    """The bytes of a value of runs.txt."""

    def replaced(found):
        name = found[1]
        if name in ESCAPES:
            return ESCAPES[name]
        if name.startswith(b"x"):
            return bytes([int(name[1:], 16)])
        raise ValueError(f"\\{name.decode()} is no escape")

    return re.sub(rb"\\(x[0-9a-f]{2}|.|$)", replaced, text.encode())


def input_of(words):
    """The input of a run."""
    text, before, behind = (bytes_of(words.get(word, "")) for word in ("input", "before", "behind"))
    times = int(words.get("times", 1))
    return before * times + text + behind * times if before or behind else text * times


def run_of(lines):
    """The run of these lines, `word: value` each."""
    words = {}
    for line in lines:
        word, colon, value = line.partition(":")
        if not colon or word not in WORDS or word in words:
            raise ValueError(f"no line of a run: {line}")
        words[word] = value.removeprefix(" ")
    for word in ("run", "args", "status"):
        if word not in words:
            raise ValueError(f"a run has no `{word}`: {lines[0]}")
    if {"faults", "faults begin"} <= {*words}:
        raise ValueError(f"a run has both `faults` and `faults begin`: {lines[0]}")
    if words.get("breaks", "input") != "input":
        raise ValueError(f"only `input` breaks: {lines[0]}")
    return Run(
        name=words["run"],
        args=shlex.split(words["args"]),
        input=input_of(words),
        status=int(words["status"]),
        output=bytes_of(words.get("output", "")),
        faults=bytes_of(words.get("faults", "")),
        places={it: words[it] for it in ("stdin", "stdout", "stderr") if it in words},
        memory=int(words.get("memory", 0)),
        begins=bytes_of(words["faults begin"]) if "faults begin" in words else None,
        breaks="breaks" in words,
        room=int(words["room"]) if "room" in words else None,
    )


def runs_of(text):
    """The runs of a file runs.txt."""
    runs, lines = [], []
    for line in [*text.splitlines(), ""]:
        if line.startswith("#"):
            continue
        if line:
            lines.append(line)
        elif lines:
            runs.append(run_of(lines))
            lines = []
    return runs


def place_of(number, place):
    """Replaces the open file of that number with what `place` names."""
    os.close(number)
    if place == "closed":
        return
    path, how = {"full": ("/dev/full", os.O_WRONLY), "folder": ("/", os.O_RDONLY)}[place]
    opened = os.open(path, how)
    if opened == number:
        os.set_inheritable(number, True)
    else:
        os.dup2(opened, number)
        os.close(opened)


def broken(text):
    """A socket from which the text can be read, and then an error instead of the end: the other side left data unread."""
    ours, theirs = socket.socketpair()
    with ours:
        ours.setsockopt(socket.SOL_SOCKET, socket.SO_SNDBUF, 2 * len(text) + 4096)
        ours.sendall(text)
        theirs.sendall(b"left")
    return theirs


def ended(program, run):
    """The completed run, with its status, standard output and standard error."""

    def prepare():
        resource.setrlimit(resource.RLIMIT_CORE, (0, 0))
        if run.memory:
            resource.setrlimit(resource.RLIMIT_AS, (run.memory << 20, run.memory << 20))
        if run.room is not None:
            # without the signal, a write beyond the limit is an error
            signal.signal(signal.SIGXFSZ, signal.SIG_IGN)
            resource.setrlimit(resource.RLIMIT_FSIZE, (run.room, run.room))
        for number, stream in enumerate(("stdin", "stdout", "stderr")):
            if stream in run.places:
                place_of(number, run.places[stream])

    how = {"stderr": subprocess.PIPE, "cwd": "/", "env": {}}
    with tempfile.TemporaryFile() as file, broken(run.input) if run.breaks else contextlib.nullcontext() as given:
        how |= {"stdin": given} if run.breaks else {"input": run.input}
        how["stdout"] = subprocess.PIPE if run.room is None else file
        done = subprocess.run([program, *run.args], preexec_fn=prepare, timeout=SECONDS, **how)
        if run.room is not None:
            file.seek(0)
            done.stdout = file.read()
    return done


def differences(program, run):
    """The differences between the program and the run, in words."""
    try:
        done = ended(program, run)
    except subprocess.TimeoutExpired:
        return [f"it had not ended after {SECONDS} seconds"]
    found = []
    if done.returncode != run.status:
        found.append(f"status {done.returncode} in place of {run.status}")
    for stream, wrote, wanted in (("stdout", done.stdout, run.output), ("stderr", done.stderr, faults_of(run, done.stderr))):
        if stream not in run.places and wrote != wanted:
            found.append(f"{stream} {wrote[:200]!r} in place of {wanted[:200]!r}")
    return found


def faults_of(run, wrote):
    """The expected standard error: that of the run, or this line, if it begins as the run says."""
    if run.begins is None:
        return run.faults
    is_line = wrote.endswith(b"\n") and wrote.count(b"\n") == 1
    return wrote if is_line and wrote.startswith(run.begins) else run.begins


def sources_of(crate):
    """The crate and the crates of the repository that it uses."""
    below = dict(re.findall(r"(?m)^(\w+)[^:\n]*:(.*)$", (TOP / "crates.txt").read_text()))
    found, left = set(), [crate]
    while left:
        name = left.pop()
        if name not in found and (TOP / "crates" / name).is_dir():
            found.add(name)
            left += below.get(name, "").split()
    return found


def builds_of(crate):
    """The builds of a program. Fails if there is none, or a source is newer."""
    builds = [path for path in (TOP / "crates" / crate / "out" / (crate + end) for end in BUILDS) if path.is_file()]
    if not builds:
        raise ValueError(f"{crate} is not built: ./prove or rt run in its folder builds it")
    files = [it for name in sources_of(crate) for it in (TOP / "crates" / name / "src").rglob("*.rt")]
    newest = max(files, key=lambda it: it.stat().st_mtime)
    for path in builds:
        if path.stat().st_mtime < newest.stat().st_mtime:
            raise ValueError(f"{path.relative_to(TOP)} is older than {newest.relative_to(TOP)}: build it again")
    return builds


def tried(crate):
    """Runs the program as its file says, and returns the number of runs and the number that differ."""
    runs = runs_of((TOP / "crates" / crate / "runs.txt").read_text())
    count = failures = 0
    for path in builds_of(crate):
        for run in runs:
            count += 1
            found = differences(str(path), run)
            failures += bool(found)
            for it in found:
                print(f"stored_runs: {path.name}: {run.name}: {it}")
    return count, failures


def main():
    parser = argparse.ArgumentParser(description=__doc__, formatter_class=argparse.RawDescriptionHelpFormatter)
    parser.add_argument("crates", nargs="*", help="the crates whose runs are tried (all that have a runs.txt)")
    crates = parser.parse_args().crates or sorted(path.parent.name for path in TOP.glob("crates/*/runs.txt"))
    total = wrong = 0
    for crate in crates:
        try:
            count, failures = tried(crate)
        except (ValueError, OSError) as why:
            print(f"stored_runs: {crate}: {why}")
            count, failures = 0, 1
        total, wrong = total + count, wrong + failures
    print(f"stored_runs: {total} runs, {wrong} failed")
    sys.exit(1 if wrong or not total else 0)


if __name__ == "__main__":
    main()
