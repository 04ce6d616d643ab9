#!/usr/bin/env python3
"""Refuses each request for memory of each call, one after another, and fails if the call does not return that error.

    tools/memory.py [--strict] [--told] [--bin PROGRAM]     calls of the library, on the inputs of tools/memory_inputs.txt
    tools/memory.py program [--strict]                      runs of the program, on those inputs that are of its kinds

The program `memory_sweep` makes the calls (see its src/main.rt). It gets each input, and a block and a file that are made of all inputs;
its last line has the counts. A call may repeat the request that was refused, and then return the right result; such runs are counted as
`again`, and are errors with --strict. With --told each call that does so is printed.

`program` runs `syn_canon`. Each run with a refused request has to end with status 3, to write nothing to standard output, and to report
that memory is refused; or it ends as usual, which counts as `again`.

Both programs are built by trial builds over a heap that refuses the requests that it is told to refuse (tools/refusing_heap.c): rt runs
from a folder of links to the kit, in which that heap replaces the kit's own. PROGRAM is a program that was built so.

The status is 0 if nothing is wrong, 1 if something is, and 2 if a program could not be built or run.
"""
import argparse
import re
import subprocess
import sys
import tempfile
from collections import Counter
from dataclasses import dataclass
from pathlib import Path

import kinds
import trial_build
import try_tests
from gatelib.kit import kit_for_trials

TOP = Path(__file__).resolve().parent.parent
HEAP = TOP / "tools/refusing_heap.c"
INPUTS = TOP / "tools/memory_inputs.txt"
SWEEP, PROGRAM = "memory_sweep", "syn_canon"
# How long a run may take without its build, on a busy machine.
SECONDS = 9000
# How many wrong calls are shown.
SHOWN = 40
FOUND = re.compile(r"(wrong|again) (\d+) (.*)")
COUNT = re.compile(r"(\d+) ([a-z]+)")
COUNTED = ("calls", "runs", "memory", "again", "wrong")

# Words of the program and its standard input; the inputs of its kinds are printed too.
RUNS = [
    ("print item", "#[a] pub struct S<T, 'a>(pub(in b) &'a [T; 1 + 2]);"),
    ("check stmts", "let a = b(c); d::<E>().f?"),
    ("list", "struct A; use b::c; impl D for E { fn f() {} }"),
]
# No run makes so many requests.
MOST = 1000
REFUSED = (3, "", "out of memory\n")


@dataclass(frozen=True)
class Input:
    """A text, with the type that it is parsed as, and the variant, or an empty text if the type has none."""

    type: str
    variant: str
    text: str

    @property
    def line(self):
        """The line of the program's input."""
        name = f"{self.type}::{self.variant}" if self.variant else self.type
        return f"{name} {self.text}" if self.text else name

    @property
    def is_in_group(self):
        return self.text.startswith("<< ") and self.text.endswith(" >>")


def inputs_of(text):
    """The inputs of a text, one on each line; empty lines and lines that begin with `#` are left out."""
    lines = [line for line in text.splitlines() if line.strip() and not line.startswith("#")]
    names = [line.partition(" ")[0].partition("::") for line in lines]
    return [Input(name[0], name[2], line.partition(" ")[2]) for name, line in zip(names, lines)]


def of_each_form(inputs):
    """Each of these inputs that is a type, a pattern, an expression or stored as tokens, since each has a form of its own; of the others
    the shortest of each variant. Inputs in a group without delimiters are left out."""
    shortest = {}
    for it in sorted(inputs, key=lambda it: len(it.text)):
        if not it.is_in_group:
            has_own_form = it.variant == "Verbatim" or it.type in ("Type", "Pat", "Expr")
            shortest.setdefault((it.type, it.text if has_own_form else it.variant), it)
    return list(shortest.values())


def texts_of(inputs):
    """The texts of each type."""
    texts = {}
    for it in of_each_form(inputs):
        texts.setdefault(it.type, []).append(it.text)
    return texts


def whole_block(inputs):
    """A block with a statement of each form, and in statements of their own each type, pattern and expression."""
    texts = texts_of(inputs)
    parts = ["{", *texts["Stmt"], *(f"let _: {text} = a;" for text in texts["Type"]), *(f"let {text} = a;" for text in texts["Pat"])]
    return Input("Block", "", " ".join([*parts, *(f"let _ = {text};" for text in texts["Expr"]), "}"]))


def whole_file(inputs):
    """A file with an item and a member of each form, each type as that of a field, and that block as the body of a function."""
    texts = texts_of(inputs)
    parts = ["#![a]", *texts["Item"], "trait Members {", *texts["TraitItem"], "}", "impl Members {", *texts["ImplItem"], "}"]
    parts += ['extern "C" {', *texts["ForeignItem"], "}", listed("struct Types(", texts["Type"], ");"), "struct Kept { _: struct { a: b } }"]
    return Input("File", "", " ".join([*parts, "fn bodies()", whole_block(inputs).text]))


def listed(opening, texts, closing):
    """The texts with commas between them, in a group."""
    return opening + ", ".join(texts) + closing


def kit_over_heap(room, *words):
    """Makes a kit whose trial builds have the refusing heap, compiled with these words, and returns its command rt."""
    made = kit_for_trials(room, ("liblibc_c.a",))
    compiler = [made / "toolchain/bin/clang", "-O2", "-fPIC", *words, "-c", HEAP, "-o", made / "c/liblibc_c.a"]
    subprocess.run(compiler, check=True)
    return made / "bin/rt"


def tried(lines):
    """The status of the sweep over these lines and its output, by a trial build."""
    with tempfile.TemporaryDirectory(prefix="memory-") as folder:
        room = Path(folder)
        try_tests.copied(TOP, room)
        command = [kit_over_heap(room), "try"]
        # the interpreter stops after these steps; the result is that of the compiled program
        wrote, said, _ = try_tests.called(["--steps", "1000"], room / "crates" / SWEEP, SECONDS, lines.encode(), command)
    ended = try_tests.ENDED.search(said)
    if not ended:
        raise RuntimeError(f"the sweep did not end\n{try_tests.end_of(said)}")
    return int(ended[1]), wrote.decode()


def asked(program, lines):
    """The same, by this program."""
    run = subprocess.run([program], input=lines, capture_output=True, text=True)
    return run.returncode, run.stdout


def found_in(status, wrote):
    """The counts of the sweep, and its lines of wrong calls and of calls that repeat a request, each with the number of its input."""
    *lines, last = wrote.splitlines() or [""]
    counts = {name: int(number) for number, name in COUNT.findall(last)}
    if tuple(counts) != COUNTED or status != (counts["wrong"] > 0):
        raise RuntimeError(f"the sweep ended with status {status}, and wrote {last!r} at the end")
    found = {"wrong": [], "again": []}
    for line in lines:
        kind, number, what = FOUND.fullmatch(line).groups()
        found[kind].append((int(number), what))
    return counts, found


def shown(it):
    """The line of an input, shortened."""
    return shown_text(it.line)


def shown_text(text):
    """A text, shortened."""
    return text if len(text) <= 100 else text[:100] + " .."


def sweep(options):
    """Sweeps the calls of the library. Returns the counts."""
    inputs = inputs_of(INPUTS.read_text(encoding="utf-8"))
    inputs += [whole_block(inputs), whole_file(inputs)]
    lines = "".join(it.line + "\n" for it in inputs)
    counts, found = found_in(*(asked(options.bin, lines) if options.bin else tried(lines)))
    # a line without an input has the number 0
    named = ["without input", *map(shown, inputs)]
    told = [("wrong", it) for it in found["wrong"][:SHOWN]] + [("again", it) for it in found["again"] if options.told]
    for kind, (number, what) in told:
        print(f"{kind}: {named[number]}\n    {what}")
    return counts


def planned(inputs):
    """The words and texts of the runs: those of RUNS, and the print of each input that is of a kind of the program."""
    words = {name: word for word, name, _ in kinds.KINDS}
    return RUNS + [(f"print {words[it.type]}", it.text) for it in inputs if it.type in words and not it.is_in_group]


class Refusing:
    """The program over a heap that refuses each run one request, or none."""

    def __init__(self, room):
        """Builds it in this folder. The run of the build is not counted."""
        try_tests.copied(TOP, room)
        self.program, self.counter = room / PROGRAM, room / "counter"
        kit_over_heap(room, f'-DCOUNTER="{self.counter}"')
        why = trial_build.built(room, PROGRAM, self.program)
        if why:
            raise RuntimeError(f"{PROGRAM} was not built\n{try_tests.end_of(why)}")
        self.file("came").touch()
        self.counter.unlink()
        self.runs = 0

    def file(self, name):
        return self.counter.with_name(f"counter.{name}")

    def run(self, words, text, number):
        """Refuses this request of a run. Returns whether the run made it, and the status, output and errors of the run."""
        with self.file("plan").open("ab") as plan:
            plan.write(number.to_bytes(2, "little"))
        ran = subprocess.run([self.program, *words.split()], input=text, capture_output=True, text=True)
        self.runs += 1
        if self.counter.stat().st_size != self.runs:
            raise RuntimeError(f"{PROGRAM} {words}: the run was not counted\n{try_tests.end_of(ran.stderr)}")
        came = self.file("came").read_bytes()
        return came[self.runs - 1 : self.runs] == b"1", (ran.returncode, ran.stdout, ran.stderr)


def judged(words, runs):
    """The counts of these runs, of which each is refused the next request, up to the first that doesn't make it. That one has to end as
    usual. Wrong runs are printed."""
    refused = []
    for is_refused, outcome in runs:
        if not is_refused:
            break
        refused.append(outcome)
    else:
        raise RuntimeError(f"{PROGRAM} {words}: no answer, where {len(refused)} requests were refused")
    if outcome[0] != 0:
        raise RuntimeError(f"{PROGRAM} {words}: ended as {outcome}, where no request was refused")
    counts = Counter(calls=1, runs=len(refused) + 1)
    for number, each in enumerate(refused, 1):
        kind = "memory" if each == REFUSED else "again" if each == outcome else "wrong"
        counts[kind] += 1
        if kind == "wrong":
            print(f"wrong: {PROGRAM} {words}, request {number}: {each}")
    return counts


def program(_options):
    """Sweeps the runs of the program. Returns the counts."""
    counts = Counter()
    with tempfile.TemporaryDirectory(prefix="memory-") as folder:
        refusing = Refusing(Path(folder))
        for words, text in planned(inputs_of(INPUTS.read_text(encoding="utf-8"))):
            counts += judged(f"{words} {shown_text(text)}", (refusing.run(words, text, number) for number in range(1, MOST)))
    return counts


def main():
    parser = argparse.ArgumentParser(description=__doc__, formatter_class=argparse.RawDescriptionHelpFormatter)
    parser.add_argument("what", nargs="?", default="calls", choices=["calls", "program"])
    parser.add_argument("--strict", action="store_true", help="an answer in place of the refusal is wrong too")
    parser.add_argument("--told", action="store_true", help="print each call that asks again")
    parser.add_argument("--bin", help="the program memory_sweep, built over the heap that refuses")
    options = parser.parse_args()
    try:
        counts = (program if options.what == "program" else sweep)(options)
    except (OSError, RuntimeError, subprocess.CalledProcessError) as error:
        print(f"memory: {error}", file=sys.stderr)
        sys.exit(2)
    print(", ".join(f"{counts[name]} {name}" for name in COUNTED))
    sys.exit(1 if counts["wrong"] or options.strict and counts["again"] else 0)


if __name__ == "__main__":
    main()
