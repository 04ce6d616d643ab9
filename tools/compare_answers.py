#!/usr/bin/env python3
"""Compares the results of trees with those of recognition, on texts with known answers, rows and random texts.

    tools/compare_answers.py [--stage N] [--count N] [--seed N] [--every] [--conformance FILE] [--oracle FOLDER] [--bin PROGRAM]

The program `tree_answers` (see its src/main.rt) parses each text as kinds of the program in both ways, and compares the prints, whether
there is a print, and whether the text has the form of its print and of the text before it. The results, and the bytes of parse errors,
have to be the same. The texts are

- those of the conformance cases, in the file beside the repository, each as the kinds that its cases name;
- both lines of each row of `check_rows`, so that texts to be compared follow each other;
- --count random ones, by the generator of the independent reader beside the repository: derivations of each kind that is built at the
  stage, each followed by itself with a few tokens changed, both as that kind.

Each is also parsed as a few other kinds, which --seed selects, and with --every as each kind. A text takes some 6 ms of a processor
for each kind in a trial build, which checks memory accesses as well.

What is missing beside the repository is left out, and named. The program is built by a trial build, in a copy of the sources, or is
PROGRAM. The status is 0 if nothing differs, 1 if something does, and 2 if the program did not end.
"""
import argparse
import importlib
import itertools
import json
import random
import re
import subprocess
import sys
import tempfile
from collections import Counter
from pathlib import Path

import try_tests
from kinds import KINDS

TOP = Path(__file__).resolve().parent.parent
ROWS = TOP / "crates/check_rows/stdin"
CONFORMANCE = TOP.parent / "shared/conformance/shared.jsonl"
ORACLE = TOP.parent / "shared/oracle"
CRATE = "tree_answers"
# How much of the grammar is built, by default.
STAGE = 15
# A trial takes at most a MiB of input.
CHUNK = 1_000_000
# The words of all kinds, and the number of other kinds of each text.
WORDS = [word for word, _, _ in KINDS]
OTHERS = 2
# How long a run may take without its build, on a busy machine.
SECONDS = 9000
# The length of the longest random text.
LONGEST = 4000
# How many differences are shown, of three lines each.
SHOWN = 20
ESCAPES = {"n": "\n", "t": "\t", "s": " ", "\\": "\\", "e": ""}
COUNT = re.compile(r"(\d+) ([a-z ]+)")


def live_cases(path, stage):
    """The cases of the stage that are text."""
    cases = map(json.loads, path.read_text(encoding="utf-8").splitlines())
    return [case for case in cases if "stdin" in case and case["stage"] <= stage and (case["until"] is None or stage <= case["until"])]


def conformance_texts(path, stage):
    """The input of each case of the stage, once, with the kinds that its cases name."""
    texts = {}
    for case in live_cases(path, stage):
        texts.setdefault(case["stdin"], []).append(kind_of(case["args"]))
    return list(texts.items())


def kind_of(words):
    """The kind as which the program parses a text, if it is run with these words; `list` reads a file."""
    return words[1] if len(words) == 2 and words[1] in WORDS else "file"


def row_sections(path):
    """The heading of each section of rows, and the texts of the lines after it."""
    for section in path.read_text(encoding="utf-8").split("\n\n"):
        lines = list(itertools.dropwhile(lambda line: line.startswith("#"), section.splitlines()))
        if lines:
            yield lines[0], [re.sub(r"\\(.)", lambda found: ESCAPES[found[1]], line.removeprefix("    ")) for line in lines[1:]]


def row_texts(path):
    """The texts of the rows, without a kind."""
    for _, texts in row_sections(path):
        yield from ((text, []) for text in texts)


def random_texts(folder, stage, count, seed):
    """Derivations of each kind, each followed by a changed copy, with that kind."""
    sys.path.insert(0, str(folder))
    gen, oracle, mkrender = (importlib.import_module(name) for name in ("gen", "oracle", "mkrender"))
    made = gen.G(seed, stage)
    kinds = [kind for kind, (_, since) in oracle.KINDS.items() if since <= stage]
    texts = []
    while len(texts) < count:
        kind = kinds[len(texts) // 2 % len(kinds)]
        trees = made.trees(made.atoms(kind, made.r.randint(0, 3)), 0)
        changed = made.mutate(trees, made.ch(1, 1, 2, 3))
        pair = [mkrender.render(each, made.r, made.ch(0, 0.3, 0.9)) for each in (trees, changed)]
        if max(map(len, pair)) <= LONGEST:
            texts += [(text, [kind]) for text in pair]
    return texts[:count]


def asked_as(texts, seed, every):
    """The texts, each with the words of its kinds, or none for all kinds. Each two texts that follow each other get the same other kinds."""
    dice = random.Random(seed)
    for number, (text, words) in enumerate(texts):
        if number % 2 == 0:
            others = dice.sample(WORDS, OTHERS)
        yield text, [] if every else sorted({*words, *others})


def packed(lines, size=CHUNK):
    """The lines, in packs of the size of one run."""
    pack, length = [], 0
    for line in lines:
        if pack and length + len(line) > size:
            yield "".join(pack)
            pack, length = [], 0
        pack.append(line)
        length += len(line)
    if pack:
        yield "".join(pack)


def chunks(texts, size=CHUNK):
    """The lines of the texts, in packs of the size of one run."""
    return packed((" ".join([text.encode().hex(), *words]) + "\n" for text, words in texts), size)


def gathered(options):
    """The texts, in the order of their sources, each with its kinds."""
    texts = []
    if there(options.conformance, "the conformance cases"):
        texts += conformance_texts(options.conformance, options.stage)
    texts += row_texts(ROWS)
    if there(options.oracle / "oracle.py", "random texts"):
        texts += random_texts(options.oracle, options.stage, options.count, options.seed)
    return asked_as(texts, options.seed, options.every)


def there(path, name):
    """Whether the file exists; if not, prints what is left out."""
    if not path.is_file():
        print(f"left out: {name}; {path} isn't there")
    return path.is_file()


def asked(program, inputs):
    """The status and the output of this program on each input."""
    runs = [subprocess.run([program], input=text, capture_output=True, text=True) for text in inputs]
    return [(run.returncode, run.stdout) for run in runs]


def tried(inputs, crate=CRATE):
    """The same, by one trial build of the crate."""
    with tempfile.TemporaryDirectory(prefix="compare_answers-") as folder:
        room = Path(folder)
        try_tests.copied(TOP, room)
        (room / "cases").mkdir()
        for number, text in enumerate(inputs):
            (room / f"cases/{number:04}").write_text(text)
        # the interpreter stops after these steps; the result is that of the compiled program
        words = ["--steps", "1000", "--cases", str(room / "cases")]
        wrote, said, _ = try_tests.called(words, room / "crates" / crate, SECONDS)
    statuses = re.findall(r"(?m)^case=\d+ run=ended status=(\d+) ", said)
    parts = re.split(r"(?m)^== \d+\n", wrote.decode())[1:]
    if len(statuses) != len(inputs) or len(parts) != len(inputs):
        raise RuntimeError(f"{len(statuses)} of {len(inputs)} runs ended\n{try_tests.end_of(said)}")
    return [(int(status), part) for status, part in zip(statuses, parts)]


def summed(answers):
    """The sums of the counts, and the lines of the differences."""
    counts, differences = Counter(), []
    for status, wrote in answers:
        *lines, last = wrote.splitlines() or [""]
        found = {name: int(number) for number, name in COUNT.findall(last)}
        if "differ" not in found or status != (found["differ"] > 0):
            raise RuntimeError(f"the program ended with status {status}, and wrote {last!r} at the end")
        counts.update(found)
        differences += lines
    return counts, differences


def main():
    parser = argparse.ArgumentParser(description=__doc__, formatter_class=argparse.RawDescriptionHelpFormatter)
    parser.add_argument("--stage", type=int, default=STAGE, help=f"how much of the grammar is built ({STAGE})")
    parser.add_argument("--count", type=int, default=3000, help="how many random texts (3000)")
    parser.add_argument("--seed", type=int, default=1)
    parser.add_argument("--every", action="store_true", help="parse each text as each kind")
    parser.add_argument("--conformance", type=Path, default=CONFORMANCE, help="the file of cases with answers")
    parser.add_argument("--oracle", type=Path, default=ORACLE, help="the folder of the other reading")
    parser.add_argument("--bin", help="the program, built")
    options = parser.parse_args()
    inputs = list(chunks(gathered(options)))
    try:
        counts, differences = summed(asked(options.bin, inputs) if options.bin else tried(inputs))
    except (OSError, RuntimeError) as error:
        print(f"compare_answers: {error}", file=sys.stderr)
        sys.exit(2)
    for line in differences[: 3 * SHOWN]:
        print(line)
    print(", ".join(f"{number} {name}" for name, number in counts.items()))
    sys.exit(1 if counts["differ"] else 0)


if __name__ == "__main__":
    main()
