"""The texts that are accepted as a kind, by rows and conformance cases."""
from dataclasses import dataclass

from compare_answers import kind_of, live_cases, row_sections
from kinds import INNER, KINDS, OTHERS

NAMES = {word: name for word, name, _ in KINDS}
# The types under test.
TYPES = {*NAMES.values(), *(name for name, _ in OTHERS + INNER)}
# Questions of rows whose first line is accepted, and those whose second line is a text that is accepted too.
OF_ONE, OF_TWO = {"tree", "print", "canonical", "faults", "parts"}, {"equal", "differs", "alike", "unlike"}


@dataclass(frozen=True)
class Input:
    """A text that is accepted as the type of this name."""

    kind: str
    text: str


def of_rows(path):
    """Inputs from the rows of the types under test."""
    for heading, texts in row_sections(path):
        question, *kinds = heading.split(" ")
        if "refused" in kinds or question not in OF_ONE | OF_TWO:
            continue
        for kind in kinds:
            if kind in TYPES:
                yield from (Input(kind, text) for text in texts[::1 if question in OF_TWO else 2])


def of_cases(path, stage):
    """Inputs from the cases that the program accepts."""
    for case in live_cases(path, stage):
        if case["status"] == 0:
            yield Input(NAMES[kind_of(case["args"])], case["stdin"])


def part_of(inputs, number, count):
    """The inputs of one of `count` parts, numbered from 1; each once."""
    return list(dict.fromkeys(inputs))[number - 1::count]
