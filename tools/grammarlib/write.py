"""The files that are written from the table: what the proofs need to know of each rule."""
import re

from .antt_text import COMMON, CRATE, PRELUDE, Writer, argument, exports, use_lines
from .cut import Cuts
from .full import Shown
from .lookaheads import ENDED
from .ranks import HIGHEST
from .summaries import Summary

SEPARATORS = ',;'
MARK = '-- Written by tools/grammar.py from specs/Table.antt; edits are lost.'


def truth(value):
    return 'true' if value else 'false'


class Files:
    """Path (below the crate) and text of each file."""

    def __init__(self, source, starts, tests, rank):
        self.source, self.starts, self.said, self.rank = source, starts, tests.summaries.said, rank
        self.writer = Writer(source)
        shown = Shown(tests)
        self.rules, self.shown, self.shown_said, self.cuts = source.rules, shown.rules, shown.tests.summaries.said, Cuts(starts)

    def all(self):
        return {
            'specs/Rules.antt': self.rules_file(),
            'specs/RuleNumbers.antt': self.numbers_file(),
            'specs/IsAlone.antt': self.is_alone_file(),
            'specs/Table.antt': self.table_file(),
            'proofs/Said.antt': self.said_file(),
            'proofs/Ranks.antt': self.ranks_file(),
            'proofs/Each.antt': self.each_file(),
        }

    def specs(self, *names):
        """Modules of specs/ with their public names; those of the rules as the table has them now."""
        return [(f'{CRATE}.specs.{n}', ['Rule'] + self.rules if n == 'Rules' else self.exports(n)) for n in names]

    def exports(self, name):
        return exports(self.source.crate / 'specs' / f'{name}.antt')

    def file(self, about, modules, body):
        return f'{MARK}\n-- {about}\n' + use_lines(body, modules) + '\n' + body

    def lines(self, line, of=None):
        return ''.join(line(k) + '\n' for k in (of or self.rules))

    # SPECS

    def rules_file(self):
        return (f'{MARK}\n-- The rules of the written grammar, by name.\npub data Rule : Type 0 where\n'
                + self.lines(lambda k: f'  {k} : Rule'))

    def numbers_file(self):
        body = ('abbrev pub place : Rule → ℕ\n'
                + ''.join(f'place {k} = {n}\n' for n, k in enumerate(self.rules))
                + '\nabbrev pub same_rule : Rule → Rule → Bool\nsame_rule a b = nat_eq (place a) (place b)\n'
                + '\nabbrev pub rules : List Rule\nrules = ' + ' ∷ '.join(self.rules) + ' ∷ []\n'
                + '\nabbrev pub at_place : List Rule → ℕ → Rule\n'
                + f'at_place [] n = {self.rules[0]}\nat_place (x ∷ l) zero = x\nat_place (x ∷ l) (suc n) = at_place l n\n'
                + '\n-- the rule of each number is the one that has it\n'
                + 'pub back : (k : Rule) → at_place rules (place k) ≡ k\n'
                + self.lines(lambda k: f'back {k} = refl'))
        modules = [('Rattle.std.specs.Prelude', PRELUDE)] + self.specs('Rules')
        return self.file('Rules are distinguished by their numbers.', modules, body)

    def cut_off(self, rule):
        """Its shown tokens are read before the same rest, and that rest may be cut off."""
        return not self.shown_said[rule, False].shuns and rule in self.cuts.cut and rule in self.cuts.spaced

    def is_alone(self, rule):
        """It tests nothing of what follows it that differs at the end, or the rest may be cut off."""
        summary, may = self.shown_said[rule, False], self.starts.lookaheads.may
        asks_nothing = not summary.ends and not any(may(look, ENDED) for look in summary.halts + summary.shuns)
        return rule in self.shown and (asks_nothing or self.cut_off(rule))

    def is_before(self, rule, mark):
        """Its tests of what follows it give the same result at the end as before this mark, or the rest may be cut off."""
        summary, lookaheads = self.shown_said[rule, False], self.starts.lookaheads
        same = lambda a: (all(lookaheads.agree(look, a, ENDED, ()) for look in summary.ends)
                          and all(lookaheads.stays_off(look, a, ENDED, ()) for look in summary.halts))
        asks_alike = all(map(same, lookaheads.mark_first_set(mark))) and not any(lookaheads.may(look, ENDED) for look in summary.shuns)
        return rule in self.shown and (asks_alike or self.cut_off(rule))

    def is_before_line(self, rule):
        marks = [self.writer.text(mark) for mark in SEPARATORS if self.is_before(rule, mark)]
        return f'is_before {rule} = {self.writer.list(marks)}'

    def is_alone_file(self):
        body = '\n'.join([
            self.block('what is shown of its value (all its tokens, in their order) is read as the same value',
                       'abbrev pub reads_shown : Rule → Bool', lambda k: f'reads_shown {k} = {truth(k in self.shown)}'),
            self.block('what is shown of a value that it read before any rest is read as the same value',
                       'abbrev pub is_alone : Rule → Bool', lambda k: f'is_alone {k} = {truth(self.is_alone(k))}'),
            self.block('the same of a value that it read before one of these marks (of `,` and `;`)',
                       'abbrev pub is_before : Rule → List Text', self.is_before_line),
        ])
        modules = [('Rattle.std.specs.Prelude', PRELUDE)] + self.specs('Words', 'Rules')
        return self.file('The rules whose shown tokens are read again, and where a value that was read before a rest is read at the end; the proofs compute each line again.', modules, body)

    def table_file(self):
        """The table as written, with the `use` lines that it needs."""
        text = (self.source.crate / 'specs' / 'Table.antt').read_text()
        modules = [('Rattle.std.specs.Prelude', PRELUDE)] + self.specs('Words', 'Tokens', 'Rules', 'Shape', 'Grammar', 'Forms')
        lines = use_lines(text, modules)
        first = re.search(r'^use .*\n(?:use .*\n)*', text, re.M)
        if first:
            return text[:first.start()] + lines + text[first.end():]
        head = re.match(r'(?:--.*\n)*', text)
        return head[0] + lines + text[head.end():]

    # PROOFS

    def start_line(self, rule):
        first_set = self.writer.terminals(self.starts.first_set_of[rule])
        never_follow = self.writer.looks(self.starts.never_follow_of[rule])
        return f'start_of {rule} = record {{ first_set = {first_set}; nullable = {truth(self.starts.start_of[rule][1])}; never_follow = {never_follow} }}'

    def move(self, move):
        a, b, told = move
        facts = argument(self.writer.list(n[0] for n in told))
        return f'move {argument(self.writer.terminal(a))} {argument(self.writer.terminal(b))} {facts}'

    def summary_line(self, name, said, rule, told):
        summary, w = said.get((rule, told)) or Summary(), self.writer
        fields = {'stays': w.terminals(summary.stays), 'moves': w.list(map(self.move, summary.moves)), 'nullable': truth(summary.nullable),
                  'gone': w.terminals(summary.gone), 'ends': w.looks(summary.ends), 'halts': w.looks(summary.halts), 'shuns': w.looks(summary.shuns)}
        return f'{name} {truth(told)} {rule} = record {{ ' + '; '.join(f'{k} = {v}' for k, v in fields.items()) + ' }'

    def block(self, about, signature, line):
        """A definition with one line a rule."""
        return f'-- {about}\n{signature}\n' + self.lines(line)

    def twice(self, about, signature, line):
        """A definition with two lines for each rule: one where its facts aren't tested, and one where they are."""
        return f'-- {about}\n{signature}\n' + self.lines(lambda k: line(k, False)) + self.lines(lambda k: line(k, True))

    def said_values(self):
        closed = self.starts.closed_of
        return [
            self.block('what each rule begins with, whether it may read nothing, and what never follows it',
                       'abbrev pub start_of : Rule → Start', self.start_line),
            self.block('it ends by itself',
                       'abbrev pub closed_of : Rule → Bool', lambda k: f'closed_of {k} = {truth(closed[k])}'),
            self.block('each look gives the same result where what follows it is cut off',
                       'abbrev pub cut_of : Rule → Bool', lambda k: f'cut_of {k} = {truth(k in self.cuts.cut)}'),
            self.block('no mark that is joined to what follows is the last token that is shown of it',
                       'abbrev pub spaced_of : Rule → Bool', lambda k: f'spaced_of {k} = {truth(k in self.cuts.spaced)}'),
            self.block('the facts of its lookahead are tested',
                       'abbrev pub heard_of : Rule → Bool', lambda k: f'heard_of {k} = {truth((k, True) in self.said)}'),
            self.twice('how its print may differ from what it read',
                       'abbrev pub summary_of : Bool → Rule → Summary', lambda k, told: self.summary_line('summary_of', self.said, k, told)),
            self.block('the same of its full form, where what is shown of it is read',
                       'abbrev pub shown_heard_of : Rule → Bool', lambda k: f'shown_heard_of {k} = {truth((k, True) in self.shown_said)}'),
            self.twice('how what is shown of it may differ from what it read',
                       'abbrev pub shown_summary_of : Bool → Rule → Summary',
                       lambda k, told: self.summary_line('shown_summary_of', self.shown_said, k, told)),
        ]

    def said_proofs(self):
        absurd = 'absurd (true≢false (sym e))'
        nullable = lambda k: 'refl' if self.starts.start_of[k][1] else 'e'
        closes = lambda k: 'refl' if self.starts.closed_of[k] else absurd
        summary = lambda k, told: '(refl, refl)' if (k, told) in self.said else absurd
        return [
            self.block('so it is', 'pub starts_hold : IsSaid start_of table', lambda k: f'starts_hold {k} = (refl, λ e. {nullable(k)})'),
            self.block('nor do these', 'pub never_follow_hold : IsOff start_of table', lambda k: f'never_follow_hold {k} = refl'),
            self.block('it tests nothing of what follows it',
                       'pub closed_hold : (k : Rule) → closed_of k ≡ true → closes closed_of (table k) ≡ true',
                       lambda k: f'closed_hold {k} e = {closes(k)}'),
            self.block('no stream is read by two forms of a union',
                       'pub unions_hold : (k : Rule) → sound table start_of (table k) ≡ true', lambda k: f'unions_hold {k} = refl'),
            self.twice('its summary covers what its form prints',
                       'pub summaries_hold : IsSummary summary_of heard_of start_of closed_of table',
                       lambda k, told: f'summaries_hold {truth(told)} {k} e = {summary(k, told)}'),
            self.block('nothing that may not follow is the end',
                       'pub ends_hold : (k : Rule) → clear (summary_of false k).shuns Ended ≡ true', lambda k: f'ends_hold {k} = refl'),
        ]

    def said_file(self):
        lemmas = [('FirstSets', ['Start', 'IsSaid']), ('NeverFollow', ['IsOff']), ('Extend', ['closes']), ('Apart', ['sound']),
                  ('Again', ['move', 'clear']), ('Summaries', ['Summary']), ('Reprint', ['IsSummary'])]
        modules = ([('Rattle.std.proofs.Common', COMMON)] + self.specs('Words', 'Tokens', 'Rules', 'Table')
                   + [(f'{CRATE}.proofs.{m}', names) for m, names in lemmas])
        body = '\n'.join(self.said_values() + self.said_proofs())
        return self.file('What the proofs say of each rule; the checker computes each line again.', modules, body)

    def ranks_file(self):
        body = '\n'.join([
            self.block('how many rules may be called, one by the other, before it reads a token',
                       'abbrev pub rank : Rule → ℕ', lambda k: f'rank {k} = {self.rank[k]}'),
            self.block('not too many',
                       f'pub ranks_low : (k : Rule) → nat_lt (rank k) {HIGHEST} ≡ true', lambda k: f'ranks_low {k} = refl'),
            self.block('each of them has a lower rank, so no rule comes back to itself',
                       'pub lookaheads_low : (k : Rule) → low start_of rank (rank k) (table k) ≡ true', lambda k: f'lookaheads_low {k} = refl'),
        ])
        modules = [('Rattle.std.proofs.Common', COMMON), ('Rattle.std.specs.Prelude', ['nat_lt'])] + self.specs('Rules', 'Table') + [
            (f'{CRATE}.proofs.Said', ['start_of']), (f'{CRATE}.proofs.Low', ['low'])]
        return self.file('How many rules may call one another before anything is read.', modules, body)

    def each_file(self):
        equation = lambda k: f'pub {k}_is : (ts : Stream) → parse_rule {k} ts ≡ wrap Node (parse_form (table {k}) ts)\n{k}_is = parse_rule_is {k}\n'
        modules = [('Rattle.std.specs.Prelude', PRELUDE)] + self.specs('Tokens', 'Rules', 'Grammar', 'Table', 'Run') + [
            (f'{CRATE}.proofs.Run', ['parse_rule_is'])]
        return self.file('What each rule reads is what its form reads.', modules, '\n'.join(map(equation, self.rules)))
