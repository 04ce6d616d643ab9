"""The rules that read the same where the rest after them is cut off: the tests of proofs/Cut.antt.

Where the rest is cut off, each token before it keeps its terminal, and only its facts may change. So a look stays as it was, or was true and
becomes false; the tests are stricter only where a form was chosen because the look was true.
"""
from .lookaheads import ENDED, mentions_fact, parts

# facts that may become true where what follows is cut off
RISING = ('Before_end', 'Before_own_self', 'Before_parameter', 'Not_item')
# facts that rest on the terminal of what follows alone
NEAR = ('Before_equals', 'Before_colons', 'Before_paren', 'Before_less', 'Before_bang')
ENOUGH = 3  # so many trees hold all that a near fact looks at


def fades(look):
    """Where it is false, it stays false when the rest is cut off; at the end it is false."""
    if look[0] in ('or_else', 'and_also'):
        return fades(look[1]) and fades(look[2])
    if look[0] == 'but_not':
        return fades(look[1]) and not mentions_fact(look[2])
    return look[1][0] not in RISING if look[0] == 'ahead' else look[0] != 'ended'


def near(look):
    """It tests no facts but near ones."""
    return look[1][0] in NEAR if look[0] == 'ahead' else all(map(near, parts(look)))


def spaced(said, form):
    """The last token that is shown of what it reads is no mark that is joined to what follows."""
    kind = form[0]
    if kind in ('&', 'either'):
        return spaced(said, form[1]) and spaced(said, form[2])
    if kind == 'when':
        return spaced(said, form[2]) and spaced(said, form[3])
    if kind in ('such', 'shaped'):
        return spaced(said, form[2])
    if kind == 'ordered':
        return spaced(said, form[1]) and spaced(said, form[2])
    if kind == 'one_of':
        return all(rule[0] in said for rule in form[1])
    if kind == 'rule':
        return form[1][0] in said
    return kind in ('empty', 'unshown', 'token', 'mark', 'lifetime', 'inside', 'raw')


class Cuts:
    def __init__(self, starts):
        self.starts, self.lookaheads, self.table = starts, starts.lookaheads, starts.table
        self.spaced = self.greatest(spaced)
        self.cut = self.greatest(self.cuts)

    def greatest(self, test):
        """The largest set of rules that all pass the test, where the test takes the set for granted."""
        good = set(self.table)
        while True:
            fewer = {rule for rule in good if test(good, self.table[rule])}
            if fewer == good:
                return good
            good = fewer

    def lowest(self, form):
        """How many token trees it reads at least."""
        kind = form[0]
        if kind == '&':
            return self.lowest(form[1]) + self.lowest(form[2])
        if kind == 'when':
            return min(self.lowest(form[2]), self.lowest(form[3]))
        if kind == 'either':
            return min(self.lowest(form[1]), self.lowest(form[2]))
        if kind in ('such', 'shaped'):
            return self.lowest(form[2])
        if kind == 'captured':
            return self.lowest(form[1])
        if kind == 'generics_before':
            return self.lowest(form[3])
        if kind in ('mark', 'rest_after'):
            return len(form[-1])
        if kind in ('rule', 'one_of'):
            return 0 if self.starts.nullable(form) else 1
        return {'token': 1, 'lifetime': 2, 'inside': 1, 'raw': 1, 'supplied': 1, 'ordered': 2}.get(kind, 0)

    def least(self, terminal, form, deep=True):
        """How many it reads at least from what begins with this terminal, the rules that it names looked into (`deep`)."""
        kind, lookaheads = form[0], self.lookaheads
        if kind == '&':
            return self.least(terminal, form[1], deep) + self.lowest(form[2])
        if kind == 'when':
            yes = self.least(terminal, form[2], deep) if lookaheads.may(form[1], terminal) else ENOUGH
            other = ENOUGH if lookaheads.must(form[1], terminal) else self.least(terminal, form[3], deep)
            return min(yes, other)
        if kind in ('such', 'shaped'):
            return self.least(terminal, form[2], deep)
        return self.least(terminal, self.table[form[1][0]], False) if kind == 'rule' and deep else self.lowest(form)

    def kept_on(self, look, form):
        """The look stays true where the form was read."""
        lookaheads = self.lookaheads
        stays = lambda f: not lookaheads.may(look, f) or lookaheads.must(look, f) or (near(look) and self.least(f, form) >= ENOUGH)
        return (self.starts.closes(form) or (not mentions_fact(look) and lookaheads.must(look, ENDED))
                or (self.lowest(form) >= 1 and (not mentions_fact(look) or all(map(stays, self.starts.first_set(form))))))

    def kept_off(self, look, form):
        """The look stays false where the form was read."""
        return self.starts.closes(form) or fades(look) or (not mentions_fact(look) and self.lowest(form) >= 1)

    def cuts(self, said, form):
        kind = form[0]
        if kind in ('&', 'either', 'ordered'):
            return self.cuts(said, form[1]) and self.cuts(said, form[2])
        if kind == 'when':
            return (self.kept_on(form[1], form[2]) and self.kept_off(form[1], form[3])
                    and self.cuts(said, form[2]) and self.cuts(said, form[3]))
        if kind in ('such', 'shaped'):
            return self.cuts(said, form[2])
        if kind in ('one_of', 'rule'):
            rules = form[1] if kind == 'one_of' else [form[1]]
            return all(self.starts.closed_of[rule[0]] or rule[0] in said for rule in rules)
        return kind in ('empty', 'unshown', 'token', 'mark', 'lifetime', 'inside', 'raw')
