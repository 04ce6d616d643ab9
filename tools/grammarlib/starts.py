"""What each rule begins with, whether it may read nothing, whether it ends by itself, and what never follows it.

These are the functions of proofs/FirstSets.antt, proofs/Extend.antt and proofs/NeverFollow.antt, computed for all rules at once.
"""
from .lookaheads import NAME, NEVER, group_terminals, mentions_fact, parts, unique

LOOKS = ('at_word', 'at_mark', 'ended', 'at_name', 'at_literal', 'at_group', 'at_empty_group', 'ahead', 'or_else', 'and_also', 'but_not')


def opt_generics(lookaheads, x, y):
    """A list in `< >` where generics are next, or nothing."""
    return ('when', lookaheads.at_generics, ('ordered', x, y), ('empty',))


def looks_of(form):
    """The conditions in a form."""
    found = [form[1]] if form[0] == 'when' else [form[2]] if form[0] == 'vanishing' else []
    for part in form[1:]:
        if isinstance(part, tuple) and part and isinstance(part[0], str) and part[0] not in LOOKS and form[0] != 'token':
            found += looks_of(part)
    return found


class Starts:
    def __init__(self, lookaheads, table):
        self.lookaheads, self.table = lookaheads, table
        self.start_of = {k: (frozenset(), False) for k in table}
        self.settle(self.start_of, lambda form: (frozenset(self.first_set(form)), self.nullable(form)))
        self.first_set_of = {k: unique(self.first_set(form)) for k, form in table.items()}
        self.closed_of = {k: True for k in table}
        self.settle(self.closed_of, self.closes)
        every = unique(look for form in table.values() for look in looks_of(form))
        self.never_follow_of = {k: list(every) for k in table}
        self.settle(self.never_follow_of, lambda form: unique(self.never_follow([], form)), set)

    def settle(self, known, compute, compare=lambda x: x):
        """Computes anew until nothing changes."""
        while True:
            new = {k: compute(form) for k, form in self.table.items()}
            if all(compare(new[k]) == compare(known[k]) for k in new):
                return
            known.update(new)

    def nullable(self, form):
        """The form may read nothing."""
        kind = form[0]
        if kind in ('empty', 'vanishing', 'unshown'):
            return True
        if kind == '&':
            return self.nullable(form[1]) and self.nullable(form[2])
        if kind == 'when':
            return self.nullable(form[2]) or self.nullable(form[3])
        if kind == 'either':
            return self.nullable(form[1]) or self.nullable(form[2])
        if kind == 'one_of':
            return any(self.start_of[k[0]][1] for k in form[1])
        if kind == 'rule':
            return self.start_of[form[1][0]][1]
        if kind == 'generics_before':
            return self.nullable(form[3])
        if kind in ('such', 'shaped'):
            return self.nullable(form[2])
        return kind == 'captured' and self.nullable(form[1])

    def first_set(self, form):
        """The terminals that what the form reads may begin with."""
        kind, lookaheads = form[0], self.lookaheads
        if kind == 'token':
            return lookaheads.terminals(form[2])
        if kind == 'mark':
            return lookaheads.mark_first_set(form[2])
        if kind == 'rest_after':
            return lookaheads.mark_first_set(form[1])
        if kind == 'lifetime':
            return [('Punctuation', lookaheads.lifetime_mark)]
        if kind == '&':
            return self.first_set(form[1]) + (self.first_set(form[2]) if self.nullable(form[1]) else [])
        if kind == 'when':
            return ([f for f in self.first_set(form[2]) if lookaheads.may(form[1], f)]
                    + [f for f in self.first_set(form[3]) if not lookaheads.must(form[1], f)])
        if kind == 'vanishing':
            return [f for f in self.first_set(form[3]) if lookaheads.may(form[2], f)]
        if kind in ('inside', 'raw'):
            return group_terminals(form[1])
        if kind == 'either':
            return self.first_set(form[1]) + self.first_set(form[2])
        if kind == 'one_of':
            return [f for k in form[1] for f in sorted(self.start_of[k[0]][0])]
        if kind == 'rule':
            return sorted(self.start_of[form[1][0]][0])
        if kind in ('such', 'shaped'):
            return self.first_set(form[2])
        if kind == 'captured':
            return self.first_set(form[1])
        if kind == 'generics_before':
            return lookaheads.mark_first_set('<') + self.first_set(form[3])
        if kind == 'supplied':
            return lookaheads.terminals(('name',)) + self.first_set(form[2]) + lookaheads.mark_first_set(':')
        return lookaheads.mark_first_set('<') if kind == 'ordered' else []

    def closes(self, form):
        """What is read by the form alone is read before everything."""
        kind = form[0]
        if kind == 'mark':
            mark = form[2]
            return len(mark) == 1 and not self.lookaheads.beginning(mark) and not self.lookaheads.asked(('Punctuation', mark))
        if kind in ('inside', 'raw'):
            return True
        if kind == '&':
            return self.closes(form[2])
        if kind == 'when':
            return self.closes(form[2]) and self.closes(form[3])
        if kind == 'either':
            return self.closes(form[1]) and self.closes(form[2])
        if kind == 'one_of':
            return all(self.closed_of[k[0]] for k in form[1])
        if kind == 'rule':
            return self.closed_of[form[1][0]]
        if kind == 'generics_before':
            return self.closes(form[3])
        if kind in ('such', 'shaped'):
            return self.closes(form[2])
        return kind == 'captured' and self.closes(form[1])

    def never_follow(self, known, form):
        """Looks that never hold of what follows the form (`known`: those that hold where it reads nothing)."""
        kind = form[0]
        if kind in ('empty', 'unshown'):
            return known
        if kind == '&':
            return self.never_follow([], form[2])
        if kind == 'when':
            yes, other = self.never_follow([], form[2]), self.never_follow([form[1]] + known, form[3])
            return other if form[2] == NEVER else [c for c in yes if c in other]
        if kind == 'vanishing':
            return [c for c in self.never_follow([], form[3]) if c in [form[2]] + known]
        if kind == 'either':
            left, right = self.never_follow(known, form[1]), self.never_follow(known, form[2])
            return [c for c in left if c in right]
        if kind == 'one_of':
            lists = [self.never_follow_of[k[0]] for k in form[1]]
            return [c for c in (lists[0] if lists else []) if all(c in x for x in lists)]
        if kind == 'rule':
            return self.never_follow_of[form[1][0]]
        if kind in ('such', 'shaped'):
            return self.never_follow(known, form[2])
        if kind == 'captured':
            return self.never_follow(known, form[1])
        if kind in ('supplied', 'generics_before'):
            return self.never_follow([], form[3])
        return []
