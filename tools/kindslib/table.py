"""Reads the table of kinds, tools/kinds.txt."""
import re
from dataclasses import dataclass, field
from pathlib import Path

TABLE = Path(__file__).resolve().parent.parent / "kinds.txt"
SECTIONS = ("program", "library", "inner", "parsed", "tokens")
MORE = {"tried", "listed", "name", "guess"}


class BadRow(Exception):
    """A row that is not as the head of the table describes."""


@dataclass(frozen=True)
class Row:
    """A kind: its word, its type, its rule, and what a kind of item has besides."""

    word: str
    type: str
    rule: str
    more: dict = field(default_factory=dict)

    @property
    def listed(self):
        """The rule of a listed item of this kind."""
        return self.more.get("listed", self.rule)

    @property
    def listed_word(self):
        """How `list` writes the kind."""
        return self.word.removeprefix("item-")


def row_of(line, number):
    cells = line.split()
    if len(cells) < 3:
        raise BadRow(f"{TABLE.name}, line {number}: a row is a word, a type and a rule")
    more = dict(cell.partition("=")[::2] for cell in cells[3:])
    if len(more) < len(cells) - 3 or not set(more) <= MORE or not all(more.values()):
        raise BadRow(f"{TABLE.name}, line {number}: after the rule a row has {', '.join(sorted(MORE))}, each once")
    return Row(*cells[:3], more)


def read_table(text):
    """The rows of each section."""
    sections, rows, seen = {name: [] for name in SECTIONS}, None, set()
    for number, line in enumerate(text.splitlines(), 1):
        heading = re.fullmatch(r"\[(\w+)\]", line)
        if heading:
            if heading[1] not in sections:
                raise BadRow(f"{TABLE.name}, line {number}: no section has the name {heading[1]}")
            rows = sections[heading[1]]
        elif line and not line.startswith("#"):
            if rows is None:
                raise BadRow(f"{TABLE.name}, line {number}: a row before the first section")
            row = row_of(line, number)
            if row.word != "-" and row.word in seen:
                raise BadRow(f"{TABLE.name}, line {number}: {row.word} has two rows")
            seen.add(row.word)
            rows.append(row)
    return sections


ROWS = read_table(TABLE.read_text())

# the program's word, the type and the rule
KINDS = [(row.word, row.type, row.rule) for row in ROWS["program"]]
# the type and the rule of what the library alone parses
OTHERS = [(row.type, row.rule) for row in ROWS["library"]]
INNER = [(row.type, row.rule) for row in ROWS["inner"]]
PARSED = [row.type for row in ROWS["parsed"]]
TEXTS = [row.type for row in ROWS["tokens"]]
# the oracle's word of each kind that has one, with its rule
ORACLE_KINDS = {row.word: row.rule for section in ("program", "library", "inner") for row in ROWS[section] if row.word != "-"}
