"""Worked examples as theorems: what a rule reads and prints, what it leaves, and what it refuses, computed by the checker.

tools/examples.txt has one line for each subject, which names the file of the theorems after it, and one line for each example:

    subject Name: words
    name    rule    text  =>  print             the whole text is read, and printed so
    name    rule    text  =>  print  ..  rest   the beginning is read, and this rest is left
    name    rule    text  =>  refused           the whole text isn't read (but perhaps a beginning of it)
    name    rule    text  =>  unread            no beginning of it is read either

A mark `=>` or `..` that is part of a text has no space after it.
"""
import re
from dataclasses import dataclass

from .antt import Fault
from .antt_text import COMMON, CRATE, Writer, exports, use_lines
from .reader import Reader, Refused
from .tokens import Group, Ident, Literal, Punct, read_text, stream
from .write import MARK

UNFOLD = 'left is_end lookahead_at sees take_token take_lifetime take_mark take_group before rows_for rows run parse_rule'
SUPPLIED = UNFOLD.replace('before', 'before first_span')  # where something may be supplied before a token
BLOCKS = {'block', 'body', 'plain_body', 'statements', 'statement'}  # what these read may hold any other rule


SUBJECT = re.compile(r'subject ([A-Z]\w*): (.+)$')


@dataclass
class Example:
    subject: tuple  # its name, and in words
    name: str
    rule: str
    text: str
    printed: str = None
    rest: str = ''
    unread: bool = False


def parse(path, rules):
    found, subject = [], None
    for number, line in enumerate(path.read_text().split('\n'), 1):
        if not line.strip() or line.startswith('#'):
            continue
        where = f'{path.name}, line {number}'
        if begun := SUBJECT.match(line):
            subject = begun.groups()
            continue
        parts = re.match(r'(\w+)\s+(\w+)(?:\s+(.*?))?\s+=>(?:\s(.*))?$', line)
        if not parts:
            raise Fault(f'{where}: an example is `name rule text => print`')
        name, rule, text, answer = parts[1], parts[2], parts[3] or '', parts[4] or ''
        if not subject:
            raise Fault(f'{where}: there is no subject above the example')
        if rule not in rules:
            raise Fault(f'{where}: no rule is named `{rule}`')
        if name in rules:
            raise Fault(f'{where}: `{name}` is the name of a rule; give the example another')
        if any(e.name == name for e in found):
            raise Fault(f'{where}: the name `{name}` is used twice')
        if answer.strip() in ('refused', 'unread'):
            found.append(Example(subject, name, rule, text, unread=answer.strip() == 'unread'))
            continue
        printed, _, rest = f' {answer} '.partition(' .. ')
        found.append(Example(subject, name, rule, text, printed.strip(), rest.strip()))
    return found


def parts(form):
    """A form and all forms in it."""
    if isinstance(form, tuple) and form:
        if isinstance(form[0], str):
            yield form
        for part in form:
            yield from parts(part)


def named(form):
    """The rules that the form itself names."""
    return [form[1][0]] if form[0] == 'rule' else [rule[0] for rule in form[1]] if form[0] == 'one_of' else []


class Theorems:
    def __init__(self, source, lookaheads):
        self.source, self.writer = source, Writer(source)
        self.reader = Reader(lookaheads, source.table)
        self.supplying = {rule for rule in source.rules if self.may_supply(rule)}

    def may_supply(self, rule):
        """The rule leads to a form that is supplied, not through a block."""
        seen, asked = set(), [rule]
        while asked:
            rule = asked.pop()
            if rule in seen:
                continue
            seen.add(rule)
            found = list(parts(self.source.table[rule]))
            if any(form[0] == 'supplied' for form in found):
                return True
            asked += [k for form in found for k in named(form) if k not in BLOCKS]
        return False

    def span(self, span, plain):
        return 'call_site' if plain else f'(at {span[0]} {span[1]})'

    def stream(self, trees, plain=False):
        """A stream as Antt (`plain`: every span is 0 to 0)."""
        if not trees:
            return 'end'
        token, rest = trees[0], self.stream(trees[1:], plain)
        rest = f'({rest})' if ' ' in rest else rest
        if isinstance(token, Ident):
            return f'leaf (ident {self.writer.text(token.text)}) {self.span(token.span, plain)} {rest}'
        if isinstance(token, Literal):
            return f'leaf (literal {token.kind} {self.writer.text(token.text)}) {self.span(token.span, plain)} {rest}'
        if isinstance(token, Punct):
            joint = 'true' if token.joint else 'false'
            return f'punct {ord(token.character)} {joint} {self.span(token.span, plain)} {rest}'
        content = self.stream(token.content, plain)
        content = f'({content})' if ' ' in content else content
        return f'group {token.delimiter} {self.span(token.opening, plain)} {self.span(token.closing, plain)} {content} {rest}'

    def agree(self, example):
        """The reader of the scripts agrees with what the example says; else the file is wrong, or the table."""
        trees = read_text(example.text)
        try:
            tree, rest = self.reader.read(('rule', (example.rule,)), stream(trees))
        except Refused:
            return example.printed is None
        left = rest.trees()
        if example.printed is None:
            return bool(left) and not example.unread
        return self.reader.print(tree) == list(read_text(example.printed)) and left == list(read_text(example.rest))

    def theorem(self, example):
        trees = read_text(example.text)
        comment = f'-- `{example.text}`' if example.text else '-- no tokens'
        if example.unread:
            claim, proof = f'NotDerived (rule {example.rule})\n    ({self.stream(trees)})', f'not_read {example.rule} _ refl'
            comment += ': nothing is read'
        elif example.printed is None:
            claim, proof = f'Refused {example.rule}\n    ({self.stream(trees)})', f'not_derived {example.rule} _ refl'
            comment += ' is refused'
        else:
            rest = trees[len(trees) - len(read_text(example.rest)):] if example.rest else ()
            printed = self.stream(read_text(example.printed), True)
            claim = f'DerivesAs {example.rule}\n    ({self.stream(trees)})\n    ({printed})\n    ({self.stream(rest)})'
            proof = f'computed {example.rule} _ _ _ refl'
            comment += f' prints `{example.printed}`' + (f' and leaves `{example.rest}`' if example.rest else '')
        opened = SUPPLIED if example.rule in self.supplying or example.rule in ('statement', 'statements') and 'fn ' in example.text else UNFOLD
        return f'{comment}\n{example.name} : {claim}\nunfolding {opened}\n{example.name} = {proof}\n'

    def files(self, examples):
        """The file of each subject, and the rules without an example that is read and one that is refused."""
        wrong = [e.name for e in examples if not self.agree(e)]
        if wrong:
            raise Fault('examples.txt: the table reads these otherwise: ' + ', '.join(wrong))
        reads = {k for k in self.source.rules if self.source.table[k] != ('one_of', ())}
        lacking = [k for k in self.source.rules if (k in reads and not any(e.rule == k and e.printed is not None for e in examples))
                   or not any(e.rule == k and e.printed is None for e in examples)]
        subjects = dict.fromkeys(e.subject for e in examples)
        return {f'proofs/ExamplesOf{name}.antt': self.file(words, [e for e in examples if e.subject == (name, words)])
                for name, words in subjects}, lacking

    def file(self, words, examples):
        body = '\n'.join(self.theorem(e) for e in examples)
        specs = lambda name: (f'{CRATE}.specs.{name}', exports(self.source.crate / 'specs' / f'{name}.antt'))
        modules = [
            ('Rattle.std.proofs.Common', COMMON), specs('Words'), specs('Tokens'),
            (f'{CRATE}.specs.Rules', ['Rule'] + self.source.rules), (f'{CRATE}.specs.Grammar', ['rule']),
            specs('Take'), specs('Run'), (f'{CRATE}.specs.Promises', ['Refused', 'NotDerived']),
            (f'{CRATE}.proofs.Means', ['not_derived']), (f'{CRATE}.proofs.Shown', ['at', 'DerivesAs', 'computed', 'not_read'])]
        about = f'-- Worked examples of {words}, from tools/examples.txt: what each rule reads, prints and refuses. The checker computes each.'
        return f'{MARK}\n{about}\n' + use_lines(body, modules) + '\n' + body
