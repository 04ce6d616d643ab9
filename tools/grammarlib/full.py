"""The rules whose shown tokens (all tokens of a value in their order) are read again: the tests of proofs/Shows.antt.

The full form of a form reads the same and prints everything that it read, except parts that are never printed. The tests of forms apply to
full forms too, with their summaries. So the shown tokens of a rule are read if its full form and those of all rules that it names pass.
"""
import copy

from .complaints import Tests
from .starts import opt_generics

PARTS = {'&': (1, 2), 'when': (2, 3), 'vanishing': (3,), 'inside': (2,), 'either': (1, 2), 'such': (2,), 'shaped': (2,), 'captured': (1,),
         'supplied': (2, 3), 'generics_before': (1, 2, 3), 'ordered': (1, 2), 'row': (1, 2)}


def named(form):
    """The rules that a form names."""
    if form[0] == 'rule':
        return {form[1][0]}
    if form[0] == 'one_of':
        return {rule[0] for rule in form[1]}
    return {rule for n in PARTS.get(form[0], ()) for rule in named(form[n])}


def full(lookaheads, form):
    kind = form[0]
    parts = [full(lookaheads, form[n]) for n in PARTS.get(kind, ())]
    if kind == 'vanishing' and not form[1]:
        return ('when', form[2], parts[0], ('empty',))
    if kind in ('such', 'shaped'):
        return parts[0]
    if kind in ('ordered', 'row'):
        return (kind, ('either', *parts), ('either', *parts))
    if kind == 'generics_before':
        member = ('either', *parts[:2])
        return ('&', opt_generics(lookaheads, member, member), parts[2])
    for place, part in zip(PARTS.get(kind, ()), parts):
        form = form[:place] + (part,) + form[place + 1:]
    return form


def with_forms(starts, table):
    """The same beginnings and ends of rules, with the forms of this table."""
    other = copy.copy(starts)
    other.table = table
    return other


class Shown:
    """The rules whose shown tokens are read (`rules`: they and all rules that they name pass), and the tests of all rules with the full
    forms of those."""

    def __init__(self, tests):
        table, lookaheads = tests.table, tests.lookaheads
        self.rules = set(table)
        while True:
            forms = {rule: full(lookaheads, form) if rule in self.rules else form for rule, form in table.items()}
            self.tests = Tests(with_forms(tests.starts, forms), tests.show)
            failed = {complaint.rule for complaint in self.tests.complaints()} & self.rules
            fewer = {rule for rule in self.rules - failed if named(table[rule]) <= self.rules - failed}
            if fewer == self.rules:
                return
            self.rules = fewer
