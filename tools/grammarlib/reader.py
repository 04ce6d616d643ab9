"""Reads token trees by the table, as `DerivesPrefix` of specs/Grammar.antt does, and prints what was read."""
from .lookaheads import ENDED
from .tokens import Group, Ident, Literal, Punct, Stream, mark, stream

LARGEST_INDEX = 2 ** 32 - 1
LONGEST_CHAIN = 500  # of forms that read what another does


class Refused(Exception):
    """The form doesn't read this stream."""


def is_index(text):
    return text.isascii() and text.isdigit() and (text == '0' or text[0] != '0') and int(text) <= LARGEST_INDEX


class Reader:
    """Trees are tuples: nothing, token, mark, tokens, both, vanishing, group, case, impl, list."""

    def __init__(self, lookaheads, table):
        self.lookaheads, self.table = lookaheads, table
        self.methods = {'&': self.read_pair}

    # FRONTS

    def lookahead(self, here):
        if here.known_lookahead is None:
            here.known_lookahead = self.compute_lookahead(here)
        return here.known_lookahead

    def compute_lookahead(self, here):
        token, lookaheads = here.token, self.lookaheads
        if token is None:
            return ENDED, []
        if isinstance(token, Ident):
            terminal = lookaheads.leaf_terminal(token.text)
            return terminal, lookaheads.facts_for(lookaheads.asked(terminal), self.lookahead(here.rest)) if lookaheads.asked(terminal) else []
        if isinstance(token, Literal):
            return ('Literal', (token.kind,)), []
        if isinstance(token, Punct):
            return lookaheads.punctuation_lookahead(token.character, token.joint, self.lookahead(here.rest))
        return lookaheads.group_lookahead((token.delimiter,), self.lookahead(here.content()))

    def sees(self, look, here):
        """The look holds of the next token. Each stream caches the results by look, since many tables read it."""
        known = here.known_looks.get(id(look))
        if known is None:
            known = here.known_looks[id(look)] = look, self.lookaheads.answers(look, self.lookahead(here))
        return known[1]

    # READING: each gives the tree and what is left, or raises Refused

    def whole(self, rule, trees):
        """The tree of all these token trees."""
        tree, rest = self.read(('rule', (rule,)), stream(trees))
        if rest.token is not None:
            raise Refused()
        return tree

    def read(self, form, here):
        for _ in range(LONGEST_CHAIN):
            kind = form[0]
            if kind == 'when':
                form = form[2] if self.sees(form[1], here) else form[3]
            elif kind == 'rule':
                form = self.table[form[1][0]]
            elif kind == 'shaped':
                form = form[2]
            else:
                method = self.methods.get(kind)
                if method is None:
                    method = self.methods[kind] = getattr(self, f'read_{kind}')
                return method(form, here)
        raise RecursionError('a rule calls itself')

    def read_empty(self, form, here):
        return ('nothing',), here

    read_unshown = read_empty

    def read_token(self, form, here):
        token, kind = here.token, form[2]
        if not isinstance(token, (Ident, Literal)) or self.lookahead(here)[0] not in self.lookaheads.terminals(kind):
            raise Refused()
        if kind[0] == 'index' and not is_index(token.text):
            raise Refused()
        return ('token', token), here.rest

    def read_mark(self, form, here):
        return self.take_mark(form[2], here)

    def take_mark(self, text, here):
        for place, character in enumerate(text):
            token = here.token
            if not isinstance(token, Punct) or token.character != character or (place + 1 < len(text) and not token.joint):
                raise Refused()
            here = here.rest
        return ('mark', text), here

    def read_lifetime(self, form, here):
        first = here.token
        if not isinstance(first, Punct) or first.character != "'" or not first.joint or not isinstance(here.rest.token, Ident):
            raise Refused()
        return ('tokens', (first, here.rest.token)), here.rest.rest

    def read_rest_after(self, form, here):
        taken, rest = self.take_mark(form[1], here)
        if rest.token is None:
            raise Refused()
        return ('both', taken, ('tokens', tuple(rest.trees()))), Stream()

    def read_pair(self, form, here):
        first, rest = self.read(form[1], here)
        second, rest = self.read(form[2], rest)
        return ('both', first, second), rest

    def read_vanishing(self, form, here):
        if not self.sees(form[2], here):
            return ('nothing',), here
        tree, rest = self.read(form[3], here)
        return ('vanishing', form[1], tree), rest

    def open_group(self, delimiter, here):
        if not isinstance(here.token, Group) or here.token.delimiter != delimiter[0]:
            raise Refused()
        return here.token

    def read_raw(self, form, here):
        return ('tokens', (self.open_group(form[1], here),)), here.rest

    def read_inside(self, form, here):
        group = self.open_group(form[1], here)
        tree, rest = self.read(form[2], here.content())
        if rest.token is not None:
            raise Refused()
        return ('group', form[1][0], tree), here.rest

    def read_one_of(self, form, here):
        for rule in form[1]:
            try:
                tree, rest = self.read(self.table[rule[0]], here)
                return ('case', rule, tree), rest
            except Refused:
                pass
        raise Refused()

    def read_either(self, form, here):
        try:
            return self.read(form[1], here)
        except Refused:
            return self.read(form[2], here)

    def read_captured(self, form, here):
        tree, rest = self.read(form[1], here)
        return ('tokens', tuple(here.trees(rest))), rest

    def read_such(self, form, here):
        tree, rest = self.read(form[2], here)
        if not self.holds(form[1], tree, here.trees(rest)):
            raise Refused()
        return tree, rest

    def holds(self, test, tree, trees):
        kind = test[0]
        ends = bool(trees) and isinstance(trees[-1], Group) and trees[-1].delimiter == 'Brace'
        if kind in ('trailing_brace', 'no_trailing_brace'):
            return ends == (kind == 'trailing_brace')
        if kind in ('has', 'has_no'):
            return has_part(test[1], tree) == (kind == 'has')
        return wheres(tree) < 2

    def read_generics_before(self, form, here):
        x, y, behind = form[1:]
        generics = ('nothing',)
        if self.sees(self.lookaheads.at_generics, here):
            generics, here = self.read(('ordered', x, y), here)
        tree, rest = self.read(behind, here)
        return ('impl', generics, tree), rest

    def read_supplied(self, form, here):
        if self.sees(('and_also', ('at_name',), ('ahead', form[1])), here):
            tree, rest = self.read(form[3], here)
            return ('both', ('token', Ident('_')), ('both', ('mark', ':'), tree)), rest
        name, rest = self.read(form[2], here)
        colon, rest = self.take_mark(':', rest)
        tree, rest = self.read(form[3], rest)
        return ('both', name, ('both', colon, tree)), rest

    def read_ordered(self, form, here):
        taken, here = self.take_mark('<', here)
        members = []
        while not self.sees(('at_mark', '>'), here):
            place, tree, here = self.read_member(form[1:3], here)
            comma = self.sees(('at_mark', ','), here)
            members.append((place, tree, comma))
            if not comma:
                break
            here = here.rest
        taken, here = self.take_mark('>', here)
        return ('list', tuple(members)), here

    def read_member(self, forms, here):
        for place, form in enumerate(forms):
            try:
                tree, rest = self.read(form, here)
                return place, tree, rest
            except Refused:
                pass
        raise Refused()

    # PRINTING

    def print(self, tree):
        kind = tree[0]
        if kind == 'nothing':
            return []
        if kind == 'token':
            return [tree[1]]
        if kind == 'mark':
            return mark(tree[1])
        if kind == 'tokens':
            return list(tree[1])
        if kind == 'both':
            return self.print(tree[1]) + self.print(tree[2])
        if kind == 'case':
            return self.print(tree[2])
        if kind == 'vanishing':
            return [] if tree[1] or bare(tree[2]) else self.print(tree[2])
        if kind == 'group':
            return [Group(tree[1], tuple(self.print(tree[2])))]
        if kind == 'impl':
            return self.print_impl(tree)
        return self.print_list(tree[1])

    def print_impl(self, tree):
        behind = self.print(tree[2])
        if not bare(tree[1]):
            return self.print(tree[1]) + behind
        led = self.sees(self.lookaheads.at_generics, stream(behind)) or self.has_led(tree[2])
        return (mark('<') + mark('>') if led else []) + behind

    def has_led(self, tree):
        """A part that was chosen as a self type would be read as generics."""
        if tree[0] == 'case':
            leads = tree[1][0] in self.lookaheads.source.self_types and self.sees(self.lookaheads.at_generics, stream(self.print(tree[2])))
            return leads or self.has_led(tree[2])
        return tree[0] == 'both' and (self.has_led(tree[1]) or self.has_led(tree[2]))

    def print_list(self, members):
        first = [list(m) for m in members if m[0] == 0]
        second = [list(m) for m in members if m[0] == 1]
        if first and second and not first[-1][2]:
            first[-1][2] = True
        printed = mark('<')
        for _, tree, comma in first + second:
            printed += self.print(tree) + (mark(',') if comma else [])
        return printed + mark('>')


def has_part(rule, tree):
    """Some part of it, in groups too, was chosen by a union as this rule."""
    kind = tree[0]
    if kind == 'case':
        return tree[1] == rule or has_part(rule, tree[2])
    if kind == 'both':
        return has_part(rule, tree[1]) or has_part(rule, tree[2])
    return kind == 'group' and has_part(rule, tree[2])


def wheres(tree):
    """How often the word `where` occurs in it, not counting lifetimes, groups, lists in `< >` and what is never printed."""
    kind = tree[0]
    if kind == 'token':
        return int(tree[1] == Ident('where'))
    if kind == 'both':
        return wheres(tree[1]) + wheres(tree[2])
    if kind == 'case' or (kind == 'vanishing' and not tree[1]):
        return wheres(tree[2])
    return 0


def bare(tree):
    """It holds no list element: nothing but a colon, the word `where`, and an empty list."""
    kind = tree[0]
    if kind == 'nothing':
        return True
    if kind == 'token':
        return tree[1] == Ident('where')
    if kind == 'mark':
        return tree[1] == ':'
    if kind == 'both':
        return bare(tree[1]) and bare(tree[2])
    if kind == 'case':
        return bare(tree[2])
    if kind == 'vanishing':
        return tree[1] or bare(tree[2])
    return kind == 'list' and not tree[1]
