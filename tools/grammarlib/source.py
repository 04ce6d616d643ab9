"""The grammar as it is written in a crate's specs/: words, facts, looks and rules."""
import re
from pathlib import Path

from . import antt

FILES = ['Words', 'Tokens', 'Shape', 'SelfTypes', 'Grammar', 'Forms', 'Table']


class Source:
    """What the files of specs/ say. `table` gives each rule its form, `comments` its sentence, `looks` each named look its value."""

    def __init__(self, crate):
        self.crate = Path(crate)
        definitions, constructors = {}, set()
        for file in FILES:
            path = self.crate / 'specs' / f'{file}.antt'
            if not path.exists():
                continue
            more, names = antt.read(path, f'specs/{file}.antt')
            if file == 'Table':
                self.refuse_known(more, definitions)
            definitions.update(more)
            constructors |= names
        if 'table' not in definitions:
            raise antt.Fault('specs/Table.antt: it has no definition of `table`')
        self.definitions = definitions
        clauses = definitions['table'].clauses
        self.rules = [self.rule_of(clause) for clause in clauses]
        self.refuse_doubles(clauses)
        self.evaluator = antt.Evaluator(definitions, constructors, self.rules)
        self.comments = {k: c.comment for k, c in zip(self.rules, clauses)}
        self.lines = {k: c.line for k, c in zip(self.rules, clauses)}
        self.table = {k: self.form(c) for k, c in zip(self.rules, clauses)}
        self.looks = {n: self.value(n) for n, d in definitions.items() if d.type == 'Look'}
        self.texts = {n: self.value(n) for n, d in definitions.items() if d.type == 'Text'}
        self.self_types = [k for k in self.rules if self.names_self_type(k)]
        self.facts = [n for n in self.facts_of()]

    def rule_of(self, clause):
        if len(clause.patterns) != 1 or clause.patterns[0][0] != 'name':
            raise antt.Fault(f'specs/Table.antt, line {clause.line}: a line of the table is `table NAME = FORM`')
        return clause.patterns[0][1]

    def refuse_known(self, new, known):
        for name in new:
            if name in known and known[name].file != 'specs/Shape.antt':
                raise antt.Fault(f'specs/Table.antt, line {new[name].line}: `{name}` is defined in {known[name].file} already')

    def refuse_doubles(self, clauses):
        for place, rule in enumerate(self.rules):
            if rule in self.rules[:place]:
                raise antt.Fault(f'specs/Table.antt, line {clauses[place].line}: the rule `{rule}` is in the table twice')

    def form(self, clause):
        names = {k: (k,) for k in self.rules}
        return antt.simple(self.evaluator.evaluate(clause.body, names, f'specs/Table.antt, line {clause.line}'))

    def names_self_type(self, rule):
        """specs/SelfTypes.antt lists the rule (its constructors are the rules, so the list is read as written)."""
        body = self.definitions['self_types'].clauses[0].body
        return rule in antt.names_in(body)

    def value(self, name, *arguments):
        return antt.simple(self.evaluator.value(name, *arguments))

    def facts_of(self):
        """The constructors of Next, in their order."""
        text = (self.crate / 'specs' / 'Tokens.antt').read_text()
        body = re.search(r'^pub data Fact : Type 0 where\n((?:  .*\n)+)', text, re.M)[1]
        return re.findall(r'^  (\w+) : Fact', body, re.M)

    def without_sentence(self):
        """The rules and looks of the table that no sentence explains."""
        table = [d for d in self.definitions.values() if d.file == 'specs/Table.antt']
        looks = [d.name for d in table if d.type == 'Look' and not d.comment]
        return looks + [k for k in self.rules if not self.comments[k]]
