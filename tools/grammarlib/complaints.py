"""The tests that the laws require of a table, with complaints that say what is wrong and where to look first.

They are the tests of proofs/Reprint.antt (`fine`), proofs/Unique.antt (`sound`) and proofs/Low.antt; the checker computes them again.
"""
from dataclasses import dataclass

from .lookaheads import ENDED, mentions_fact, unique
from .summaries import Summary, Summaries

EXPLAINED = {
    'SEAM': 'a part tests what follows it, and the result may differ in the print, where the next part begins with another terminal. '
            'First: which facts does the token before it report (plainly, telling, asking)? Then: is a look tested that isn\'t needed?',
    'HALT': 'an optional part was absent because a look was false; in the print of what follows it may be true. '
            'First: let the token that follows report that fact (telling, asking); then: is the look too wide?',
    'SHUN': 'a part that vanishes from the print requires that something doesn\'t follow, but that may follow. Narrow the look of the vanishing part.',
    'GONE': 'what follows may vanish from the print, and a look before it tests it. Test what surely stays, or don\'t let it vanish.',
    'KEPT': 'a `when` may turn the other way in the print, because the terminal that it tests is printed otherwise. '
            'Let the form keep its first token, or use a look that holds of both terminals or of neither.',
    'END': 'the content of a group may end where a vanishing part requires that nothing of the kind follows. As SHUN.',
    'ENDED': 'a rule\'s last part requires that the stream doesn\'t end. Every rule must be readable alone: move the condition to the rule that calls it.',
    'SUPPLIED': 'the name before a supplied `_ :` may read or print nothing. Let it keep its first token in the print.',
    'WILD': 'a supplied `_` would be printed as something that is taken for a nameless form again.',
    'NAMED': 'a written name may be printed as something that is taken for a nameless form.',
    'OPEN': 'a captured part must end by itself (with a group or a mark that tests nothing) and read at least one token.',
    'LEAD': 'each member of such generics must begin a parameter in the print too, and what follows them must read and print something and end by itself. '
            'Begin each member with `#`, a lifetime, `const`, or a name after which no type continues.',
    'LIST': 'a member of a list may read or print nothing, or begins with `>`. Move the optional part after one that is always there.',
    'MEMBER': 'a member of a list tests what follows it, and the result differs for `,` and `>`. Narrow the look.',
    'UNION': 'two alternatives of a union may read the same stream. Let one turn away where the other reads (`when look then never else ..`), '
             'or make them one rule with a choice by the next token.',
    'LEFT': 'a rule calls itself before it has read anything. Write the repetition to the right: an operand, and then the others.',
}


@dataclass(frozen=True)
class Complaint:
    code: str
    rule: str
    about: str

    def __str__(self):
        return f'{self.code} in rule {self.rule}: {self.about}'


def terminal_words(terminal):
    kind = terminal[0]
    return {'Ended': 'the end', 'Name': 'a name'}.get(kind) or {
        'Word': lambda: f'`{terminal[1]}`', 'Punctuation': lambda: f'`{terminal[1]}`',
        'Literal': lambda: f'a literal {terminal[1][0]}', 'Delimited': lambda: f'a {terminal[1][0]} group{" without content" * terminal[2]}'}[kind]()


class Tests:
    """Solves the summaries of a table and collects the complaints."""

    def __init__(self, starts, show_look):
        self.starts, self.lookaheads, self.table = starts, starts.lookaheads, starts.table
        self.summaries = Summaries(starts)
        self.show = show_look
        self.found = []
        self.run()

    def run(self):
        summaries = self.summaries
        while summaries.grown:  # the tests may need the facts of further rules
            summaries.solve()
            self.found = []
            for rule, told in list(summaries.said):
                self.fine(self.table[rule], rule, told)
        for rule in self.table:
            for look in summaries.said[rule, False].shuns:
                if self.lookaheads.may(look, ENDED):
                    self.report('ENDED', rule, self.show(look))

    def report(self, code, rule, about):
        self.found.append(Complaint(code, rule, about))

    def complaints(self):
        return unique(self.found)

    # THE PRINT IS READ AGAIN

    def fine(self, form, rule, told):
        kind = form[0]
        test = getattr(self, f'fine_{kind}', None)
        if kind == '&':
            self.fine_pair(form, rule, told)
        elif kind in ('such', 'shaped'):
            self.fine(form[2], rule, told)
        elif kind == 'either':
            self.fine(form[1], rule, told)
            self.fine(form[2], rule, told)
        elif test:
            test(form, rule, told)

    def fine_pair(self, form, rule, told):
        first = self.summaries.summary(form[1], told)
        asked = self.summaries.heeds(told, first)
        second = self.summaries.summary(form[2], asked)
        self.fine(form[1], rule, told)
        self.fine(form[2], rule, asked)
        self.seam(rule, first, second, self.starts.never_follow([], form[1]))

    def seam(self, rule, first, second, never_follow):
        """The conditions of the first form on what follows it, of the prints of the second."""
        lookaheads = self.lookaheads
        excluded = lambda terminal: any(lookaheads.must(c, terminal) for c in never_follow)
        for a, b, told in second.moves:
            if excluded(a):
                continue
            for look in first.ends:
                if not lookaheads.agree(look, a, b, told):
                    self.report('SEAM', rule, f'{self.show(look)}, where {terminal_words(a)} may be printed as {terminal_words(b)}')
            for look in first.halts:
                if not lookaheads.stays_off(look, a, b, told):
                    self.report('HALT', rule, f'{self.show(look)}, where {terminal_words(a)} may be printed as {terminal_words(b)}')
            for look in first.shuns:
                if lookaheads.may(look, b):
                    self.report('SHUN', rule, f'{self.show(look)}, before {terminal_words(b)}')
        for a in second.stays:
            for look in first.shuns:
                if not excluded(a) and lookaheads.may(look, a):
                    self.report('SHUN', rule, f'{self.show(look)}, before {terminal_words(a)}')
        for a in second.gone:
            for look in first.ends:
                if not excluded(a) and lookaheads.may(look, a):
                    self.report('GONE', rule, f'{self.show(look)}, where {terminal_words(a)} may vanish')

    def fine_when(self, form, rule, told):
        look = form[1]
        asked = told or mentions_fact(look)
        self.fine(form[2], rule, asked)
        self.fine(form[3], rule, asked)
        yes = Summary() if self.sure_list(look, form[2]) else self.summaries.summary(form[2], asked)
        self.kept(rule, look, yes, self.summaries.summary(form[3], asked))

    def sure_list(self, look, form):
        """Each print of a list in `< >` meets the look, since each of its members begins a parameter."""
        return (form[0] == 'ordered' and self.begin_parameters(form[1:3])
                and self.lookaheads.answers(look, (('Punctuation', '<'), [('Before_parameter',)])))

    def begin_parameters(self, members):
        edges = unique(self.lookaheads.mark_first_set(',') + self.lookaheads.mark_first_set('>'))
        return all(self.summaries.sure(self.lookaheads.at_parameter, edges, member) for member in members)

    def fine_vanishing(self, form, rule, told):
        look = form[2]
        asked = told or mentions_fact(look)
        self.fine(form[3], rule, asked)
        self.kept(rule, look, self.summaries.summary(form[3], asked), Summary(nullable=True))

    def kept(self, rule, look, yes, other):
        lookaheads = self.lookaheads
        for a, b, told in yes.moves:
            if lookaheads.may(look, a) and not lookaheads.must(look, b) and not lookaheads.agree(look, a, b, told):
                self.report('KEPT', rule, f'{self.show(look)}, where {terminal_words(a)} may be printed as {terminal_words(b)}')
        for a, b, told in other.moves:
            if not lookaheads.must(look, a) and lookaheads.may(look, b) and not lookaheads.agree(look, a, b, told):
                self.report('KEPT', rule, f'not {self.show(look)}, where {terminal_words(a)} may be printed as {terminal_words(b)}')
        for a in yes.gone:
            if lookaheads.may(look, a):
                self.report('KEPT', rule, f'{self.show(look)}, where {terminal_words(a)} may vanish')

    def fine_inside(self, form, rule, told):
        asked = bool(self.lookaheads.asked_inside(form[1]))
        self.fine(form[2], rule, asked)
        for look in self.summaries.summary(form[2], asked).shuns:
            if self.lookaheads.may(look, ENDED):
                self.report('END', rule, self.show(look))

    def fine_supplied(self, form, rule, told):
        self.fine(form[2], rule, True)
        self.fine(form[3], rule, False)
        name = self.summaries.summary(form[2], True)
        look = ('and_also', ('at_name',), ('ahead', form[1]))
        if name.nullable or name.gone:
            self.report('SUPPLIED', rule, 'the first of its forms')
        self.seam(rule, name, self.summaries.colon_summary(), self.starts.never_follow([], form[2]))
        for terminal in self.summaries.wild_out(name):
            if self.lookaheads.may(look, terminal):
                self.report('WILD', rule, terminal_words(terminal))
        for move in name.moves:
            if not self.lookaheads.stays_off(look, *move):
                self.report('NAMED', rule, f'{terminal_words(move[0])} may be printed as {terminal_words(move[1])}')

    def fine_captured(self, form, rule, told):
        if not self.starts.closes(form[1]) or self.starts.nullable(form[1]):
            self.report('OPEN', rule, 'the captured form')

    def fine_generics_before(self, form, rule, told):
        x, y, behind = form[1:]
        self.fine(('ordered', x, y), rule, False)
        if not self.begin_parameters((x, y)):
            self.report('LEAD', rule, 'a member may not begin a parameter in the print')
        self.fine(behind, rule, False)
        summary = self.summaries.summary(behind)
        if not self.starts.closes(behind) or self.starts.nullable(behind) or summary.nullable or summary.gone:
            self.report('LEAD', rule, 'what follows the generics')

    def fine_ordered(self, form, rule, told):
        lookaheads = self.lookaheads
        edges = lookaheads.mark_first_set(',') + lookaheads.mark_first_set('>')
        for member in form[1:3]:
            self.fine(member, rule, False)
            summary = self.summaries.summary(member)
            if summary.nullable or summary.gone:
                self.report('LIST', rule, 'a member may read or print nothing')
            for look in summary.ends + summary.halts:
                if not (all(lookaheads.must(look, e) for e in edges) or not any(lookaheads.may(look, e) for e in edges)):
                    self.report('MEMBER', rule, self.show(look))
            for look in summary.shuns:
                if any(lookaheads.may(look, e) for e in edges):
                    self.report('MEMBER', rule, f'{self.show(look)} (of a part that vanishes)')
            for terminal in summary.prints():
                if lookaheads.may(('at_mark', '>'), terminal):
                    self.report('LIST', rule, f'a member may begin with {terminal_words(terminal)}')
