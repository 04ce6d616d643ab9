"""Random sentences of the table, and random changes of token trees."""
from .lookaheads import EMPTY, NEVER
from .tokens import Group, Ident, Literal, Punct

NAMES = ['a', 'b', 'T', 'x', 'union', 'auto', 'foo']
LIFETIMES = ['a', 'a', 'b', 'static', '_', 'where', 'mut', 'r#in']  # an identifier of any text
LITERALS = {'Int': ['0', '1', '01', '7u8'], 'Float': ['1.5'], 'Char': ["'c'"], 'Byte': ["b'x'"],
            'Str': ['"s"'], 'ByteStr': ['b"x"'], 'CStr': ['c"x"']}
STRAY = (
    [Ident(x) for x in 'pub crate self Self super in struct union where const fn _ a r#in as if else let loop unsafe return break mut'.split()]
    + [Punct(c, joint) for c in ":,;=<>#!&'+-.?*/%^|" for joint in (False, True)]
    + [Literal('Int', '1')] + [Group(d, ()) for d in ('Paren', 'Brace', 'Bracket', 'None')])
LONGEST = 60
ENDLESS = 1000  # more token trees than any form reads at least
SHORT = 0.95  # how often a deep sentence ends as soon as it can


class TooDeep(Exception):
    """A sentence grew without an end."""


def branches(form):
    """The forms that a chain of choices leads to."""
    found = []
    while form[0] == 'when':
        found.append(form[2])
        form = form[3]
    return found + [form]


class Sentences:
    """Random token trees; `random` is a random.Random."""

    def __init__(self, lookaheads, table, random):
        self.lookaheads, self.table, self.random = lookaheads, table, random
        self.lengths, self.length_of = {}, dict.fromkeys(table, ENDLESS)
        while True:  # the lengths of all rules, until nothing changes
            new = {k: self.length(form) for k, form in table.items()}
            self.lengths.clear()
            if new == self.length_of:
                break
            self.length_of = new

    def length(self, form):
        """How many token trees the form reads at least."""
        if id(form) not in self.lengths:
            self.lengths[id(form)] = self.computed_length(form)
        return self.lengths[id(form)]

    def computed_length(self, form):
        kind = form[0]
        if kind in ('empty', 'unshown', 'vanishing'):
            return 0
        if form == NEVER:
            return ENDLESS
        if kind == '&':
            return min(self.length(form[1]) + self.length(form[2]), ENDLESS)
        if kind in ('when', 'either'):
            return min(map(self.length, form[-2:]))
        if kind in ('one_of', 'rule'):
            return min(self.length_of[k[0]] for k in (form[1] if kind == 'one_of' else [form[1]]))
        if kind == 'inside':
            return min(1 + self.length(form[2]), ENDLESS)
        if kind in ('such', 'shaped', 'captured', 'generics_before'):
            return self.length(form[-1])
        if kind == 'supplied':
            return self.length(form[-1]) + 2
        return len(form[2]) if kind == 'mark' else 2 if kind in ('lifetime', 'rest_after', 'ordered') else 1

    def sentence(self, rule, depth):
        return self.of(('rule', (rule,)), depth)

    def of(self, form, depth):
        """Token trees that the form reads, as a rule (a condition on what follows may be missed)."""
        if depth < -LONGEST:
            raise TooDeep()
        if form in (EMPTY, NEVER, ('unshown',)):
            return []
        kind, r = form[0], self.random
        if kind in ('token', 'mark', 'lifetime', 'raw', 'rest_after'):
            return self.leaf(form)
        if kind == '&':
            return self.of(form[1], depth) + self.of(form[2], depth)
        if kind == 'when':
            return self.choice(branches(form), depth)
        if kind == 'vanishing':
            return self.choice([form[3], EMPTY], depth)
        if kind == 'inside':
            return [Group(form[1][0], tuple(self.of(form[2], depth - 1)))]
        if kind == 'either':
            return self.of(r.choice(form[1:]), depth)
        if kind in ('one_of', 'rule'):
            rule = r.choice(form[1])[0] if kind == 'one_of' else form[1][0]
            return self.of(self.table[rule], depth - 1)
        if kind in ('such', 'shaped', 'captured'):
            return self.of(form[-1], depth)
        if kind == 'supplied':
            return self.of(form[2], depth) + self.mark(':') + self.of(form[3], depth)
        generics = self.list(form[1:3], depth) if kind == 'ordered' or r.random() < 0.5 else []
        return generics + (self.of(form[3], depth) if kind == 'generics_before' else [])

    def leaf(self, form):
        """Of a form that contains no other form."""
        kind, r = form[0], self.random
        if kind == 'token':
            return [self.token(r.choice(self.lookaheads.terminals(form[2])))]
        if kind == 'mark':
            return self.mark(form[2])
        if kind == 'lifetime':
            return [Punct("'", True), Ident(r.choice(LIFETIMES))]
        if kind == 'raw':
            return [Group(form[1][0], (r.choice(STRAY),))]
        return self.mark(form[1]) + [r.choice(STRAY)]

    def choice(self, forms, depth):
        """One of these forms: one of the shortest where it is deep enough, nothing now and then where that may be."""
        r, forms = self.random, [form for form in forms if self.length(form) < ENDLESS]
        if not forms:
            raise TooDeep()
        if depth <= 0 and r.random() < SHORT:
            least = min(map(self.length, forms))
            forms = [form for form in forms if self.length(form) == least]
        elif EMPTY in forms and len(forms) > 1:
            if r.random() < 0.4:
                return []
            forms.remove(EMPTY)
        return self.of(r.choice(forms), depth - 1)

    def list(self, members, depth):
        count = self.random.choice([0, 1, 1, 2, 3]) if depth > 0 else 0
        trees = self.mark('<')
        for place in range(count):
            trees += self.of(self.random.choice(members), depth - 1)
            if place + 1 < count or self.random.random() < 0.3:
                trees += self.mark(',')
        return trees + self.mark('>')

    def token(self, terminal):
        r = self.random
        if terminal[0] == 'Name':
            return Ident(r.choice(NAMES))
        return Ident(terminal[1]) if terminal[0] == 'Word' else Literal(terminal[1][0], r.choice(LITERALS[terminal[1][0]]))

    def mark(self, text):
        """Its last character is Joint now and then: that isn't looked at."""
        return [Punct(c, n + 1 < len(text) or self.random.random() < 0.15) for n, c in enumerate(text)]

    def changed(self, trees):
        """The trees with one thing put in, taken out, exchanged or done to a group's content."""
        r, trees = self.random, list(trees)
        groups = [n for n, t in enumerate(trees) if isinstance(t, Group)]
        if groups and r.random() < 0.5:
            place = r.choice(groups)
            trees[place] = Group(trees[place].delimiter, tuple(self.changed(trees[place].content)))
            return trees
        place, what = r.randrange(len(trees) + 1), r.random()
        if what < 0.4 or not trees:
            trees.insert(place, r.choice(trees + STRAY))
            return trees
        place = min(place, len(trees) - 1)
        if what < 0.6:
            del trees[place]
        elif what < 0.8:
            trees[place] = r.choice(STRAY)
        elif isinstance(trees[place], Punct):
            trees[place] = Punct(trees[place].character, not trees[place].joint)
        elif isinstance(trees[place], Group):
            trees[place] = Group(r.choice(['Paren', 'Brace', 'Bracket']), trees[place].content)
        else:
            other = r.randrange(len(trees))
            trees[place], trees[other] = trees[other], trees[place]
        return trees
