"""The table of the earlier grammar, which the promise on the change of the grammar is about: specs/Before.antt."""
from . import antt

FILE = 'specs/Before.antt'
# the last line of the file: the rules that it doesn't name are those of the table
REMAINING = ('k', ('apply', ('name', 'table'), [('name', 'k')]))


def earlier_table(source):
    """The form of each rule in the earlier grammar: its line of Before.antt if it has one, otherwise that of the table."""
    definitions, constructors = antt.read(source.crate / FILE, FILE)
    *clauses, last = definitions['before'].clauses
    if (source_name(last), last.body) != REMAINING:
        raise antt.Fault(f'{FILE}, line {last.line}: the last line is `before k = table k`')
    evaluator = antt.Evaluator(source.definitions | definitions, source.evaluator.constructors | constructors, source.rules)
    rules = {rule: (rule,) for rule in source.rules}
    table = dict(source.table)
    for clause in clauses:
        rule, where = source_name(clause), f'{FILE}, line {clause.line}'
        if rule not in rules:
            raise antt.Fault(f'{where}: `{rule}` is no rule of the table')
        table[rule] = antt.simple(evaluator.evaluate(clause.body, rules, where))
    return table


def source_name(clause):
    """The name that the clause's only pattern is."""
    (kind, name), = clause.patterns
    return name if kind == 'name' else None
