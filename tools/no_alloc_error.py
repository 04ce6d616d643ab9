#!/usr/bin/env python3
"""Finds expressions that make an `AllocError`, in the sources of the product.

Refused memory is reported by the error that the allocator returned. An `AllocError` is a unit struct, so any function could make one, and
no contract would notice. This script looks for its name in expressions, and for struct literals of `AllocFailed`, which converts to it.
Types, paths (`AllocError::from`) and patterns are fine. Another name for one of them (`use .. as`, `type`, `Self` in an `impl`) is not.

    tools/no_alloc_error.py [--check]      prints each such expression as FILE:LINE; status 1 if there is one
"""

import argparse
import re
import sys
from pathlib import Path

from rt_ci import BESIDE

TOP = Path(__file__).resolve().parent.parent
NAMES = ("AllocError", "AllocFailed")
# a comment, a string or a character; what it holds is no code
NO_CODE = re.compile(r'//[^\n]*|/\*.*?\*/|b?"(?:\\.|[^"\\])*"|b?\'(?:\\.|[^\'\\\n])\'', re.DOTALL)
TOKEN = re.compile(r"[A-Za-z_][A-Za-z_0-9]*|::|->|=>|==|[^\sA-Za-z_0-9]")
OPENING = {"(": ")", "[": "]", "{": "}"}
# Items whose text up to `{` or `;` holds types alone; of the second kind, what their braces hold too.
HEADS = ("fn", "impl", "trait")
TYPES = ("use", "struct", "enum", "type", "ghost")
# tokens before a type
BEFORE_TYPES = ("<", ":", "->", "as", "&")
# tokens of a pattern, after a name in it
IN_PATTERNS = re.compile(r"[A-Za-z_][A-Za-z_0-9]*|[(){},|:_.]|::")


def tokens_of(text):
    """The tokens of a source, each with its line."""
    lines = NO_CODE.sub(lambda found: "\n" * found.group().count("\n") or " ", text).split("\n")
    return [(word, number) for number, line in enumerate(lines, 1) for word in TOKEN.findall(line)]


def closing(tokens, place):
    """Where the group that opens at this place is closed."""
    depth = 0
    for end in range(place, len(tokens)):
        if tokens[end][0] in OPENING:
            depth += 1
        elif tokens[end][0] in OPENING.values():
            depth -= 1
            if depth == 0:
                return end
    return len(tokens) - 1


def head_end(tokens, place):
    """Where the head of an item ends: its body's `{`, or its `;`. Groups of ghost code in braces belong to the head."""
    while place < len(tokens):
        word = tokens[place][0]
        if word in ("requires", "ensures", "decreases"):
            while tokens[place][0] != "{":
                place += 1
            place = closing(tokens, place)
        elif word in "([":
            place = closing(tokens, place)
        elif word in "{;":
            return place
        place += 1
    return place


def bodies(tokens):
    """The places of tokens that are in bodies of functions, constants or statics."""
    place = 0
    while place < len(tokens):
        word = tokens[place][0]
        if word in TYPES and not (word == "type" and tokens[place - 1][0] == "."):
            place = head_end(tokens, place + 1)
            if place < len(tokens) and tokens[place][0] == "{":
                place = closing(tokens, place)
        elif word in HEADS:
            place = head_end(tokens, place + 1)
        elif word in NAMES:
            yield place
        place += 1


def is_pattern(tokens, place):
    """Whether what follows shows that the name at this place is in a pattern."""
    depth = 0
    for word, _line in tokens[place + 1:]:
        if word in ("=>", "="):
            return True
        if not IN_PATTERNS.fullmatch(word) or (word == "," and depth <= 0):
            return False
        depth += (word in OPENING) - (word in OPENING.values())
    return False


def is_made(tokens, place):
    """Whether the name at this place makes a value."""
    word = tokens[place][0]
    before = tokens[place - 1][0]
    after = tokens[place + 1][0]
    if after == "::" or before in BEFORE_TYPES or (before == "," and after in (">", ",")):
        return False
    if word == "AllocFailed" and after != "{":
        return False
    return not is_pattern(tokens, place)


def is_renamed(tokens, place):
    """Whether a type at this place gets another name, by which a value could be made."""
    if tokens[place + 1][0] == "as":
        return True
    while tokens[place - 1][0] == "::":
        place -= 2
    before = tokens[place - 1][0]
    return before == "for" or (before == "=" and tokens[place - 3][0] == "type")


def made_in(text):
    """The lines of a source where a value is made, or could be by another name."""
    if not any(name in text for name in NAMES):
        return []
    tokens = tokens_of(text) + [("", 0)]
    renamed = [place for place, (word, _line) in enumerate(tokens) if word in NAMES and is_renamed(tokens, place)]
    made = [place for place in bodies(tokens) if is_made(tokens, place)]
    return [tokens[place][1] for place in sorted({*renamed, *made})]


def product(top):
    """The sources of the product's crates."""
    lines = (top / "crates.txt").read_text().splitlines()
    names = [re.split(r"[ :]", line)[0] for line in lines if line and not line.startswith("#")]
    for name in names:
        if name not in BESIDE:
            yield from sorted((top / "crates" / name / "src").rglob("*.rt"))


def main():
    parser = argparse.ArgumentParser(description=__doc__.split("\n")[0])
    parser.add_argument("--check", action="store_true", help="the same: nothing is written")
    parser.parse_args()
    found = [f"{file.relative_to(TOP)}:{line}" for file in product(TOP) for line in made_in(file.read_text())]
    for place in found:
        print(f"{place}: makes an AllocError")
    sys.exit(1 if found else 0)


if __name__ == "__main__":
    main()
