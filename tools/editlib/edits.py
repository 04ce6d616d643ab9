"""Edits: changed texts of a crate, the functions that they change, and packs of edits that are tried together."""

import os
from dataclasses import dataclass, field
from pathlib import Path

from editlib.functions import functions_of, types_of


class Unfit(Exception):
    """Why an edit can't be applied."""


@dataclass
class Change:
    """One text for another in a file, or in one function of it."""

    path: str
    function: str
    old: str
    new: str


@dataclass
class Edit:
    """The changes of one wrong body, the file that has it, and the clauses that it breaks."""

    path: Path
    name: str
    clauses: list
    changes: list
    functions: set = field(default_factory=set)
    # it changes something else than bodies of functions: a contract, a definition, a table
    is_outside: bool = False

    @property
    def is_of_kit(self):
        """Whether `rt ci` itself tries it."""
        return self.path.parent.name == "must-fail"


class Source:
    """The files of a crate as they stand, and the functions in them and in the crates below it, whose traits it implements."""

    def __init__(self, crate, lower=()):
        self.crate, self.name = crate, crate.name
        self.kept = {str(file.relative_to(crate)): file.read_text() for file in sorted(crate.glob("src/**/*.rt"))}
        types = types_of(self.kept)
        self.functions = {path: functions_of(path, text, types) for path, text in self.kept.items()}
        self.lower = [it for other in lower for file in other.glob("src/**/*.rt") for it in functions_of(file.name, file.read_text(), {})]

    def text(self, path):
        if path not in self.kept:
            if not (self.crate / path).is_file():
                raise Unfit(f"there is no file {path}")
            self.kept[path] = (self.crate / path).read_text()
        return self.kept[path]

    def place(self, text, change):
        """Where in this text the change's old text is, once."""
        start, end = 0, len(text)
        if change.function:
            here = [it for it in self.functions.get(change.path, []) if it.name == change.function]
            if len(here) != 1:
                raise Unfit(f"{change.path} has no function {change.function}")
            lines = text.split("\n")
            start = sum(len(line) + 1 for line in lines[: here[0].first])
            end = start + sum(len(line) + 1 for line in lines[here[0].first : here[0].last + 1])
        found = text.count(change.old, start, end)
        if found != 1:
            raise Unfit(f"its text occurs {found} times in {change.function or change.path}, and not once: {change.old.strip()}")
        return text.index(change.old, start, end)

    def function_at(self, path, line, column):
        """The function in whose body this place is; None outside of bodies."""
        found = [it for it in self.functions.get(path, []) if it.has_in_body(line, column)]
        return max(found, key=lambda it: it.first).name if found else None

    def function_around(self, path, line):
        """The function in whose lines this line is; None outside of functions."""
        found = [it for it in self.functions.get(path, []) if it.body and it.first <= line <= it.last]
        return max(found, key=lambda it: it.first).name if found else None

    def names(self):
        """The names of the crate's functions that have a body, with the crate's."""
        return [f"{self.name}::{it.name}" for functions in self.functions.values() for it in functions if it.body]

    def public(self):
        """The names of those that others may call, with the crate's: what is `pub`, and the methods of traits."""
        for path, functions in self.functions.items():
            lines = self.kept[path].split("\n")
            heads = ((it, lines[it.first].lstrip()) for it in functions if it.body)
            yield from (f"{self.name}::{it.name}" for it, head in heads if it.trait or head.startswith("pub "))

    def clauses_of(self, function):
        """The names of the clauses of a function's contract, by its name with the crate's; those of the trait that it implements
        where it has none of its own. Empty where that trait is none of the repository's."""
        for it in (it for functions in self.functions.values() for it in functions):
            if f"{self.name}::{it.name}" == function:
                return it.clauses or (self.of_trait(it) if it.trait else ())
        return ()

    def of_trait(self, function):
        method = f"::{function.trait}::{function.name.rpartition('::')[2]}"
        own = [it for functions in self.functions.values() for it in functions]
        found = [it.clauses for it in [*own, *self.lower] if f"::{it.name}".endswith(method)]
        return found[0] if len(found) == 1 else ()

    def clauses(self, edit):
        """The clauses of all contracts of which the edit changes a body."""
        return list(dict.fromkeys(clause for function in sorted(edit.functions) for clause in self.clauses_of(function)))

    def only_clause(self, function):
        """What the prover means by a goal that names no clause."""
        found = self.clauses_of(function)
        return found[0] if len(found) == 1 else "returns"

    def applied(self, texts, edit):
        """These texts with the edit too, the functions whose bodies it changes, and whether it changes something else."""
        texts, functions, is_outside = dict(texts), set(), False
        for change in edit.changes:
            text = texts.get(change.path) or self.text(change.path)
            start = self.place(text, change)
            at = start + len(os.path.commonprefix([change.old, change.new]))
            function = self.function_at(change.path, text.count("\n", 0, at), at - text.rfind("\n", 0, at) - 1)
            functions |= {f"{self.name}::{function}"} if function else set()
            is_outside |= not function
            texts[change.path] = text[:start] + padded(change) + text[start + len(change.old) :]
        return texts, functions, is_outside


def padded(change):
    """The new text with as many lines as the old one, since no change moves the functions after it."""
    more = change.old.count("\n") - change.new.count("\n")
    if more < 0:
        raise Unfit(f"its new text has more lines than the old one: {change.new.strip()}")
    return change.new + "\n" * more


def applying(source, edits):
    """Those of the edits that can be applied, with the functions that they change, and of each other one its name and why not."""
    found, unfit = [], []
    for edit in edits:
        try:
            _, edit.functions, edit.is_outside = source.applied({}, edit)
            found.append(edit)
        except Unfit as why:
            unfit.append((edit.name, str(why)))
    return found, unfit


@dataclass
class Pack:
    """Edits that are tried together, with the texts that they make."""

    edits: list
    texts: dict

    def takes(self, source, edit, size):
        """Adds the edit if it fits: each edit changes bodies of other functions, and one that changes something else is alone."""
        if len(self.edits) >= size or edit.is_outside or any(it.is_outside or it.functions & edit.functions for it in self.edits):
            return False
        try:
            self.texts = source.applied(self.texts, edit)[0]
        except Unfit:
            return False
        self.edits.append(edit)
        return True


def packs(source, edits, size):
    """The edits in packs of at most so many."""
    found = []
    for edit in edits:
        if not any(pack.takes(source, edit, size) for pack in found):
            found.append(Pack([edit], source.applied({}, edit)[0]))
    return found
