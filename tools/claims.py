#!/usr/bin/env python3
"""Writes docs/reference/CLAIMS.md from tools/claims.txt: crate by crate what is proved, with the clause that carries it, what is only
tested, and what is neither.

    tools/claims.py            writes the page
    tools/claims.py --check    writes nothing, and fails where the page isn't as it would be written

It reads the contracts of the public functions. It refuses a claim whose clause the named function doesn't have, and a public function
with a contract that no claim covers. In tools/claims.txt

    crate NAME: TITLE          begins a crate; the lines up to the first call are its text
    call NAME, NAME ..         functions, as Type::function or function; * matches any letters
    for TRAIT                  the page names the types with this trait beside the call
      CLAUSE, CLAUSE: TEXT     what these clauses of each function say; `contract` is a clause without a name
      only tested: TEXT        what is only tested
      neither: TEXT            what is neither proved nor tested
    unproved: TEXT             a line after the crate's table
"""

import argparse
import fnmatch
import sys
from pathlib import Path

from claimslib import functions, implementors

SOURCE = Path("tools/claims.txt")
PAGE = Path("docs/reference/CLAIMS.md")


class Row:
    """The claims for some functions."""

    def __init__(self, calls):
        self.calls = calls
        self.trait = None
        self.clauses = []
        self.tested = ""
        self.neither = ""


class Crate:
    """The claims for a crate."""

    def __init__(self, name, title):
        self.name = name
        self.title = title
        self.text = []
        self.rows = []
        self.unproved = []


def read_source(text):
    """The head of the page, and the crates with their rows."""
    head, crates = [], []
    for line in text.split("\n"):
        word, _, rest = line.partition(" ")
        if word == "crate":
            name, _, title = rest.partition(": ")
            crates.append(Crate(name, title))
        elif not crates:
            head.append(line)
        elif word == "call":
            crates[-1].rows.append(Row([call.strip() for call in rest.split(",")]))
        elif word == "for":
            crates[-1].rows[-1].trait = rest
        elif word == "unproved:":
            crates[-1].unproved.append(rest)
        elif line.startswith("  "):
            add_claim(crates[-1].rows[-1], line.strip())
        elif not crates[-1].rows:
            crates[-1].text.append(line)
        elif line:
            sys.exit(f"claims: a line that belongs to nothing: {line}")
    return head, crates


def add_claim(row, line):
    """One line of a row."""
    names, _, text = line.partition(": ")
    if names == "only tested":
        row.tested = text
    elif names == "neither":
        row.neither = text
    else:
        row.clauses.append(([name.strip() for name in names.split(",")], text))


def meant_by(call, known):
    """The functions that a row's name matches."""
    return [function for function in known if fnmatch.fnmatchcase(full_name(function), call)]


def full_name(function):
    return f"{function.owner}::{function.name}" if function.owner else function.name


def complaints_of(crate, known):
    """The faults of a crate's claims: each claim names clauses that exist, and each contract is claimed."""
    found, claimed = [], set()
    for row in crate.rows:
        for call in row.calls:
            meant = meant_by(call, known)
            if not meant:
                found.append(f"{crate.name}: there is no public function {call} with a contract")
            said = {name for names, _ in row.clauses for name in names}
            for function in meant:
                claimed.add(full_name(function))
                found += [f"{crate.name}: nothing is claimed of the clause {clause} of {full_name(function)}" for clause in function.clauses if clause not in said]
        there = {clause for call in row.calls for function in meant_by(call, known) for clause in function.clauses}
        found += [f"{crate.name}: {row.calls[0]} has no clause {name}" for names, _ in row.clauses for name in names if name not in there]
    found += [f"{crate.name}: nothing is claimed of {full_name(function)} ({', '.join(function.clauses)})" for function in known if full_name(function) not in claimed]
    return found


def table_of(crate):
    """The table of a crate's claims."""
    lines = ["| call | proved, and the clause that carries it | only tested | neither |", "|---|---|---|---|"]
    for row in crate.rows:
        calls = ", ".join(f"`{call}`" for call in row.calls)
        if row.trait:
            calls += ": " + ", ".join(f"`{kind}`" for kind in implementors(crate.name, row.trait))
        proved = ". ".join(text if names == ["contract"] else f"{', '.join(f'`{name}`' for name in names)}: {text}" for names, text in row.clauses)
        lines.append(f"| {calls} | {proved} | {row.tested} | {row.neither} |")
    return lines


def page_of(head, crates):
    """The whole page."""
    lines = list(head)
    for crate in crates:
        lines += [f"## `{crate.name}`: {crate.title}", "", *crate.text]
        if crate.rows:
            lines += [*table_of(crate), ""]
        for text in crate.unproved:
            lines += [text, ""]
    return "\n".join(lines).rstrip("\n") + "\n"


def main():
    parser = argparse.ArgumentParser(description=__doc__, formatter_class=argparse.RawDescriptionHelpFormatter)
    parser.add_argument("--check", action="store_true", help="write nothing, and fail where the page isn't up to date")
    only_check = parser.parse_args().check
    head, crates = read_source(SOURCE.read_text())
    complaints = []
    for crate in crates:
        known = [function for function in functions([crate.name]) if function.public and function.clauses]
        complaints += complaints_of(crate, known)
    claimed = {crate.name for crate in crates}
    complaints += [f"nothing is claimed of the crate {path.name}" for path in sorted(Path("crates").iterdir()) if path.name not in claimed]
    for complaint in complaints:
        print("claims:", complaint)
    if complaints:
        sys.exit(1)
    page = page_of(head, crates)
    if only_check:
        if not PAGE.is_file() or PAGE.read_text() != page:
            sys.exit(f"claims: {PAGE} isn't as it would be written; run tools/claims.py")
        print(f"claims: {PAGE} is up to date")
    else:
        PAGE.write_text(page)


if __name__ == "__main__":
    main()
