"""What is beside the repository, in ../shared: cases with answers, and an independent reader of the grammar with its fuzzer."""

import sys

STAGE = 15  # the whole grammar
CONFORMANCE, ORACLE = "../shared/conformance", "../shared/oracle"
# The files without which a step is left out.
CASES, READER = f"{CONFORMANCE}/shared.jsonl", f"{ORACLE}/oracle.py"
# The options of scripts that read them.
FOLDER = ("--oracle", ORACLE)
BOTH = ("--stage", STAGE, "--conformance", CASES, *FOLDER)


def command(path, *words):
    """The command of a script there."""
    return (sys.executable, path, "--stage", str(STAGE), *map(str, words))


def conformance(*words):
    """The cases, with their answers."""
    return (*command(f"{CONFORMANCE}/run_corpus.py", *words), CASES)


def fuzz(*words):
    """Random texts, compared with the answers of the reader."""
    return command(f"{ORACLE}/fuzz.py", *words)
