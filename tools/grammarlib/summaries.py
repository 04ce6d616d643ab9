"""The summary of each rule: how what it prints may differ, at its front and its end, from what it read (proofs/Summaries.antt).

stays   terminals that begin what was read and what is printed alike
moves   a terminal that began what was read, the one that begins the print, and the facts that both share
passes  the form may read nothing
gone    terminals that began what was read where nothing is printed
ends    looks that the form tests of what follows it, with the same result in source and print
halts   looks that are false of what follows in the source, and must be false in the print
shuns   looks that no lookahead after the print may meet
"""
from dataclasses import dataclass, field

from .lookaheads import ENDED, INVISIBLE, barred, group_terminals, mentions_fact, occurs, unique
from .starts import opt_generics

WILD = ('Word', '_')


@dataclass
class Summary:
    stays: list = field(default_factory=list)
    moves: list = field(default_factory=list)
    nullable: bool = False
    gone: list = field(default_factory=list)
    ends: list = field(default_factory=list)
    halts: list = field(default_factory=list)
    shuns: list = field(default_factory=list)

    def __post_init__(self):
        for name in ('stays', 'moves', 'gone', 'ends', 'halts', 'shuns'):
            setattr(self, name, unique(getattr(self, name)))

    def key(self):
        return (frozenset(self.stays), frozenset(self.moves), self.nullable, frozenset(self.gone),
                frozenset(self.ends), frozenset(self.halts), frozenset(self.shuns))

    def prints(self):
        """The terminals that the print may begin with."""
        return unique(self.stays + [b for a, b, known in self.moves])

    def beside(self, other):
        """The summary of a union of two forms."""
        return Summary(self.stays + other.stays, self.moves + other.moves, self.nullable or other.nullable, self.gone + other.gone,
                     self.ends + other.ends, self.halts + other.halts, self.shuns + other.shuns)


class Summaries:
    """Two summaries for each rule: one where the facts of its lookahead are tested, and one where they aren't."""

    def __init__(self, starts):
        self.starts, self.lookaheads, self.table = starts, starts.lookaheads, starts.table
        self.said = {(k, False): Summary() for k in self.table}
        self.grown = True  # a summary was requested that isn't solved yet
        self.asked_for = set()

    def solve(self):
        """The summaries of all rules, until nothing changes. One is computed again where one that it was made of has changed."""
        changed, used = set(self.said), {}
        while changed:
            new = {}
            for x in list(self.said):
                if x not in used or used[x] & changed:
                    self.asked_for = used[x] = set()
                    new[x] = self.summary(self.table[x[0]], x[1])
            added = {x for x in self.said if x not in used}
            if not added and all(new[x].key() == self.said[x].key() for x in new):
                break
            changed = added | {x for x in new if new[x] != self.said[x]}
            self.said.update(new)
        self.grown = False

    def of_rule(self, rule, known):
        self.asked_for.add((rule, known))
        if (rule, known) not in self.said:
            self.said[rule, known] = Summary()
            self.grown = True
        return self.said[rule, known]

    def heeds(self, known, summary):
        """The facts of what follows a form with this summary are tested."""
        return (known and summary.nullable) or any(mentions_fact(c) for c in summary.ends + summary.halts + summary.shuns)

    def summary(self, form, known=False):
        """The summary of a form (`known`: the facts of its lookahead are tested)."""
        method = self.pair_summary if form[0] == '&' else getattr(self, f'{form[0]}_summary')
        return method(form, known)

    def empty_summary(self, form, known):
        return Summary(nullable=True)

    unshown_summary = empty_summary

    def token_summary(self, form, known):
        facts, terminals = form[1] if known else (), self.lookaheads.terminals(form[2])
        kept = {f: all(n in facts for c, n in self.lookaheads.asked(f)) for f in terminals}
        return Summary([f for f in terminals if kept[f]], [(f, f, tuple(facts)) for f in terminals if not kept[f]],
                     ends=[c for f in terminals for c, n in self.lookaheads.asked(f) if n in facts])

    def mark_summary(self, form, known):
        return self.summary_of_mark(form[1] and known, form[2])

    def rest_after_summary(self, form, known):
        summary = self.summary_of_mark(True, form[1])
        summary.ends = [('ended',)]
        return summary

    def lifetime_summary(self, form, known):
        return Summary([('Punctuation', self.lookaheads.lifetime_mark)])

    def when_summary(self, form, known):
        asked = known or mentions_fact(form[1])
        return self.choice(form[1], self.summary(form[2], asked), self.summary(form[3], asked))

    def raw_summary(self, form, known):
        return Summary(group_terminals(form[1]))

    def either_summary(self, form, known):
        return self.summary(form[1], known).beside(self.summary(form[2], known))

    def one_of_summary(self, form, known):
        summary = Summary()
        for rule in form[1]:
            summary = summary.beside(self.of_rule(rule[0], known))
        return summary

    def rule_summary(self, form, known):
        return self.of_rule(form[1][0], known)

    def such_summary(self, form, known):
        return self.summary(form[2], known)

    shaped_summary = such_summary

    def captured_summary(self, form, known):
        return Summary(self.starts.first_set(form[1]))

    def ordered_summary(self, form, known):
        summary = self.summary_of_mark(False, '<')
        summary.ends = []
        return summary

    def summary_of_mark(self, asking, text):
        """A mark reports what its last character tests, if it is of one character, or of two and seen whole."""
        lookaheads, terminal = self.lookaheads, self.lookaheads.mark_terminal(text)
        last = lookaheads.asked(('Punctuation', text[-1])) if len(text) <= 2 else []
        quiet = not any(lookaheads.asked(('Punctuation', c)) for c in text)
        tells = len(text) == 1 or (len(text) == 2 and terminal == ('Punctuation', text) and all(lookaheads.deaf(text[-1], c) for c, _ in last))
        steady = quiet or (asking and tells)
        return Summary([terminal] if steady else [],
                     [(f, terminal, self.known_of(asking, text, f, last)) for f in lookaheads.mark_first_set(text) if f != terminal or not steady],
                     ends=[c for c, _ in last] if asking else [])

    def known_of(self, asking, text, terminal, last):
        """Facts that a mark of one character has neither where a longer mark is seen in the source nor in the print."""
        longer = len(text) == 1 and len(terminal[1]) > 1 and text != ':'
        still = asking and longer and all(self.lookaheads.deaf(text, c) for c, _ in last)
        return tuple(n for _, n in last) if still else ()

    def pair_summary(self, form, known):
        first = self.summary(form[1], known)
        second = self.summary(form[2], self.heeds(known, first))
        guarded = self.guards([c for c in self.starts.never_follow([], form[2]) if c in second.halts], first.ends)
        thin = second.nullable or second.gone
        return Summary(
            first.stays + (second.stays if first.nullable else []),
            first.moves + (second.moves if first.nullable else []) + [(a, b, ()) for a in first.gone for b in second.prints()],
            first.nullable and second.nullable,
            (second.gone if first.nullable else []) + (first.gone if thin else []),
            second.ends + (guarded if second.nullable else []),
            second.halts + (first.halts if second.nullable else []),
            second.shuns + (first.shuns if thin else []) + (first.ends + first.halts if second.gone else []))

    def guards(self, never_follow, looks):
        """The conditions of a form on what follows the next one, where that one reads nothing.

        They are tested only where the next one's own halts (`never_follow`) are false."""
        guarded = []
        for look in looks:
            for off in never_follow:
                if occurs(off, look) and not barred(off, look):
                    look = ('but_not', look, off)
            guarded.append(look)
        return guarded

    def choice(self, look, yes, other):
        lookaheads = self.lookaheads
        left = [f for f in other.gone if not lookaheads.must(look, f)]
        return Summary([f for f in yes.stays if lookaheads.may(look, f)] + [f for f in other.stays if not lookaheads.must(look, f)],
                     [x for x in yes.moves if lookaheads.may(look, x[0])] + [x for x in other.moves if not lookaheads.must(look, x[0])],
                     yes.nullable or other.nullable, left,
                     yes.ends + other.ends + ([look] if yes.nullable else []),
                     yes.halts + other.halts + ([look] if other.nullable else []),
                     yes.shuns + other.shuns + ([look] if left else []))

    def vanishing_summary(self, form, known):
        _, never_printed, look, inner = form
        x = self.choice(look, self.summary(inner, known or mentions_fact(look)), Summary(nullable=True))
        return Summary([] if never_printed else x.stays, [] if never_printed else x.moves, True,
                     x.stays + [a for a, b, known in x.moves], x.ends, x.halts, x.shuns + [look])

    def inside_summary(self, form, known):
        looks = [c for c, _ in self.lookaheads.asked_inside(form[1])]
        content, terminals = self.summary(form[2], bool(looks)), group_terminals(form[1])
        if not self.steady(looks, content) or (form[1] == INVISIBLE and not self.lasts(content)):
            return Summary([], [(a, b, ()) for a in terminals for b in terminals])
        return Summary(terminals if content.nullable else terminals[:1])

    def lasts(self, summary):
        """Where the form reads something, it prints something."""
        return not summary.gone and ENDED not in summary.prints() + [a for a, b, known in summary.moves]

    def steady(self, looks, summary):
        """The looks give the same result for what the form reads and for what it prints."""
        lookaheads = self.lookaheads
        return (all(lookaheads.agree(c, *x) for c in looks for x in summary.moves)
                and not any(lookaheads.may(c, a) for c in looks for a in summary.gone + [ENDED]))

    def generics_before_summary(self, form, known):
        inner = self.summary(form[3])
        first_set = self.lookaheads.mark_first_set('<') + self.starts.first_set(form[3])
        return Summary([], [(a, b, ()) for a in first_set for b in [('Punctuation', '<')] + inner.prints()],
                     ends=inner.ends, halts=inner.halts, shuns=inner.shuns)

    def supplied_summary(self, form, known):
        name, inner = self.summary(form[2], True), self.summary(form[3])
        moves = [(a, b, ()) for a in self.lookaheads.terminals(('name',)) for b in self.wild_out(name)]
        return Summary(name.stays, name.moves + moves, ends=inner.ends, halts=inner.halts, shuns=inner.shuns)

    def wild_out(self, summary):
        """What a form prints of a supplied `_`."""
        return ([WILD] if WILD in summary.stays else []) + [b for a, b, known in summary.moves if a == WILD]

    def colon_summary(self):
        """The colon after a supplied `_`."""
        summary = self.summary_of_mark(False, ':')
        summary.moves = summary.moves + [(ENDED, self.lookaheads.mark_terminal(':'), ())]
        return summary

    def sure(self, look, after, form, known=False):
        """Each print of the form, before a lookahead with one of the terminals `after`, meets the look."""
        kind, lookaheads = form[0], self.lookaheads
        if kind == '&':
            first = self.summary(form[1], known)
            asked = self.heeds(known, first)
            second = self.summary(form[2], asked)
            if form[1][0] == 'token':
                behind = unique(second.prints() + after)
                return all(lookaheads.surely(lookaheads.asked(f), behind, look, f) for f in lookaheads.terminals(form[1][2]))
            return all(lookaheads.must(look, f) for f in first.prints()) and (
                not (first.nullable or first.gone) or self.sure(look, after, form[2], asked))
        if kind == 'when':
            asked = known or mentions_fact(form[1])
            return self.sure(look, after, form[2], asked) and self.sure(look, after, form[3], asked)
        if kind == 'either':
            return self.sure(look, after, form[1], known) and self.sure(look, after, form[2], known)
        summary = self.summary(form, known)
        return all(lookaheads.must(look, f) for f in summary.prints()) and not (summary.nullable or summary.gone)
