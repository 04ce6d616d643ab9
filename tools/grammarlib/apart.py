"""The test of unions (proofs/Unique.antt, `apart`): no stream is read by two of their forms."""
import sys

from .complaints import Complaint
from .starts import opt_generics

LIMIT = 400
OPPOSITES = [('trailing_brace', 'no_trailing_brace'), ('has', 'has_no')]
INNER = ('&', 'when', 'either', 'one_of', 'vanishing', 'inside', 'such', 'shaped', 'captured', 'supplied', 'ordered',
         'generics_before')


def opposite(p, q):
    return any({p[0], q[0]} == set(pair) and p[1:] == q[1:] for pair in OPPOSITES)


class Apart:
    def __init__(self, starts):
        sys.setrecursionlimit(20000)
        self.starts, self.lookaheads, self.table = starts, starts.lookaheads, starts.table

    def openings(self, form):
        """Forms that together read what this one reads, one step simpler (an empty list if there are none)."""
        kind = form[0]
        if kind == '&':
            rest = form[2]
            if form[1][0] in ('empty', 'unshown'):
                return [rest]
            if form[1][0] == '&':
                return [('&', form[1][1], ('&', form[1][2], rest))]
            if form[1][0] == 'generics_before':
                x, y, behind = form[1][1:]
                return [('&', opt_generics(self.lookaheads, x, y), ('&', behind, rest))]
            return [('&', part, rest) for part in self.openings(form[1])]
        if kind == 'when':
            return [form[2], form[3]]
        if kind == 'either':
            return [form[1], form[2]]
        if kind == 'rule':
            return [self.table[form[1][0]]]
        if kind == 'one_of':
            return [self.table[k[0]] for k in form[1]]
        if kind == 'generics_before':
            return [('&', opt_generics(self.lookaheads, form[1], form[2]), form[3])]
        if kind in ('such', 'shaped'):
            return [form[2]]
        if kind == 'captured':
            return [form[1]]
        return [('when', form[2], form[3], ('empty',))] if kind == 'vanishing' else []

    def clears(self, g, h):
        """g reads something, or nothing only before what h can't begin with."""
        never_follow = self.starts.never_follow([], g)
        return not self.starts.nullable(g) or all(any(self.lookaheads.must(c, f) for c in never_follow) for f in self.starts.first_set(h))

    def disjoint(self, g, h):
        starts = self.starts
        return (not (starts.nullable(g) and starts.nullable(h)) and self.clears(g, h) and self.clears(h, g)
                and not set(starts.first_set(g)) & set(starts.first_set(h)))

    def sides(self, form):
        """A form that branches on the next token: the look and its two sides."""
        if form[0] == 'when':
            return form[1], form[2], form[3]
        if form[0] == 'generics_before':
            return self.lookaheads.at_generics, ('&', ('ordered', *form[1:3]), form[3]), form[3]
        if form[0] == '&' and form[1][0] == 'when':
            look, yes, other = form[1][1:]
            return look, ('&', yes, form[2]), ('&', other, form[2])
        if form[0] == '&' and form[1][0] == 'generics_before':
            x, y, behind = form[1][1:]
            return self.lookaheads.at_generics, ('&', ('ordered', x, y), ('&', behind, form[2])), ('&', behind, form[2])
        return None

    def apart(self, g, h, depth=0):
        if depth > LIMIT:
            return False
        pairs = g[0] == '&' and h[0] == '&'
        if pairs and g[1][0] == 'such' and h[1][0] == 'such' and g[1][2] == h[1][2] and opposite(g[1][1], h[1][1]):
            return True
        if self.disjoint(g, h):
            return True
        single = ('token', 'raw', 'inside')
        if pairs and (g[1] == h[1] or (g[1][0] in single and h[1][0] in single)):
            return self.apart(g[2], h[2], depth + 1)
        if pairs and g[2][0] == 'rule' and g[2] == h[2]:
            return self.apart(g[1], h[1], depth + 1)
        x, y = self.sides(g), self.sides(h)
        if x and y and x[0] == y[0]:
            return self.apart(x[1], y[1], depth + 1) and self.apart(x[2], y[2], depth + 1)
        opened = self.openings(g)
        if opened:
            return all(self.apart(x, h, depth + 1) for x in opened)
        opened = self.openings(h)
        return bool(opened) and all(self.apart(g, x, depth + 1) for x in opened)

    def complaints(self):
        found = []
        for rule, form in self.table.items():
            self.check(form, rule, found)
        return found

    def check(self, form, rule, found):
        kind = form[0]
        if kind == 'one_of':
            names = [k[0] for k in form[1]]
            for place, a in enumerate(names):
                for b in names[place + 1:]:
                    if not self.apart(self.table[a], self.table[b]):
                        found.append(Complaint('UNION', rule, f'{a} and {b}'))
        if kind in ('either', 'ordered', 'generics_before') and not self.apart(form[1], form[2]):
            found.append(Complaint('UNION', rule, 'its two forms'))
        for part in form[1:]:
            if isinstance(part, tuple) and part and part[0] in INNER:
                self.check(part, rule, found)
