"""The mutants of a crate: which functions are changed in which turn, and which mutants are known to mean the same.

With each turn others are tried: the functions of a crate are in an order that the hash of their names gives, each turn begins with
other ones, and of each function another operator and another of its changes is taken.
"""

import hashlib
from collections import Counter
from dataclasses import dataclass
from functools import cached_property

from editlib import operators
from editlib.body import Body, blanked
from editlib.edits import Edit
from editlib.functions import IMPL, opened
from editlib.types import Types

# Mutants that mean the same as the code: lines `CRATE FUNCTION OPERATOR: REASON`; `*` for any crate or function
EQUIVALENT = "tools/equivalent_edits.txt"


@dataclass
class Mutant(Edit):
    """An edit that an operator made."""

    operator: str = ""

    @property
    def shown(self):
        """What it changes, in one line."""
        return f"{' '.join(self.changes[0].old.split())[:200]}  ->  {' '.join(self.changes[0].new.split())[:200]}"


@dataclass
class File:
    """The file of a function, for operators."""

    crate: str
    path: str
    text: str
    types: Types

    @cached_property
    def plain(self):
        return blanked(self.text)

    def block_of(self, function):
        """The head of the block in which a function is; empty where it is free."""
        lines = self.text.split("\n")
        indent = len(lines[function.first]) - len(lines[function.first].lstrip())
        for at in range(function.first - 1, -1, -1) if indent else ():
            line = lines[at]
            if line.strip() and len(line) - len(line.lstrip()) < indent and IMPL.match(line.strip()):
                return opened(lines, at)
        return ""


class Mutants:
    """All mutants of a crate, made as they are asked for."""

    def __init__(self, source, lower):
        self.source = source
        texts = {f"{crate.name}/{path.relative_to(crate)}": path.read_text() for crate in lower for path in sorted(crate.glob("src/**/*.rt"))}
        self.types = Types({**texts, **source.kept})
        self.files = {path: File(source.name, path, text, self.types) for path, text in source.kept.items() if path.startswith("src/")}

    @cached_property
    def functions(self):
        """The functions that have a contract, also by their trait, and a name of their own, in the order of their hashes."""
        own = [(path, it) for path, functions in self.source.functions.items() for it in functions if it.body]
        names = Counter(it.name for _, it in own)
        found = [(path, it) for path, it in own if names[it.name] == 1 and (it.clauses or it.trait)]
        return sorted(found, key=lambda it: number_of(it[1].name))

    def of(self, path, function):
        """The mutants of a function by their operators."""
        file = self.files[path]
        body = Body(function, file.text.split("\n"), file)
        return {name: [self.mutant(name, it) for it in changes] for name, changes in operators.all_of(body, path).items()}

    def mutant(self, operator, change):
        number = number_of(change.new) % 10_000
        name = f"{change.function} {operator} {number:04}"
        return Mutant(self.source.crate / "operators", name, [], [change], {f"{self.source.name}::{change.function}"}, operator=operator)

    def of_turn(self, turn, most):
        """At most so many mutants of this turn, each of another function; the turn after begins with the functions after those."""
        found, functions = [], self.functions
        for at in range(len(functions)):
            if len(found) >= most:
                break
            place = turn * most + at
            path, function = functions[place % len(functions)]
            by_operator = self.of(path, function)
            if by_operator:
                chosen = number_of(f"{function.name} {place // len(functions)}")
                operator = sorted(by_operator)[chosen % len(by_operator)]
                found.append(by_operator[operator][chosen // len(by_operator) % len(by_operator[operator])])
        return found

    def named(self, words):
        """All mutants of the functions or operators with these names; of functions also the end of the name."""
        for path, function in self.functions:
            for operator, found in self.of(path, function).items():
                if not words or operator in words or any(f"::{function.name}".endswith(f"::{it}") for it in words):
                    yield from found


def number_of(text):
    """A number that is the same in each run."""
    return int(hashlib.sha256(text.encode()).hexdigest()[:12], 16)


def equivalents(top):
    """The lines of the list of mutants that mean the same: crate, function, operator, reason."""
    path, found = top / EQUIVALENT, []
    for line in path.read_text().split("\n") if path.is_file() else []:
        if line.strip() and not line.startswith("#"):
            words, _, reason = line.partition(": ")
            crate, function, operator = words.split()
            found.append((crate, function, operator, reason))
    return found


def is_equivalent(mutant, crate, known):
    """Whether a mutant is known to mean the same."""
    wanted = (crate, mutant.changes[0].function, mutant.operator)
    return any(all(it in ("*", own) for it, own in zip(line, wanted)) for line in known)
