#!/usr/bin/env python3
"""Compares the table of the written grammar with an oracle: an executable reading of what the grammar should be, in Python.

    tools/fuzz_grammar.py --oracle FOLDER [--earlier] [--count N] [--seed N] [--kinds KIND,KIND..]

The repository holds no oracle. Give the folder of one by --oracle, or in the environment variable ORACLE; without it nothing is compared,
and the status is 2. It must have oracle.py (with KINDS, parse2, parse_prefix, flat, SynErr, the token classes, and a function for each
part below) and gen.py (random sentences of its own).

The oracle builds the grammar in stages. It reads as at STAGE, the last: items of all kinds, files, and expressions with struct literals.
With --earlier the grammar before `const` traits and impls and struct literals (specs/Before.antt) takes the place of the table, and the
oracle reads as at EARLIER_STAGE, the one before these forms. The random sentences are those of today's table, so the new forms are tried too.

Random token trees, from sentences of the table and of the oracle's own, unchanged and changed, are read by the table
(by a reader in Python of specs/Table.antt) and by the oracle. They must agree whether the whole is read, on its print, token by token
with spacing; and whether a beginning is read, on its print and on how many trees are left. The worked examples (tools/examples.txt)
are compared as well, those of rules that the oracle doesn't know as items. Prints each difference, and a summary; the status is 1 if
something differs."""
import argparse
import os
import random
import sys
import time
from pathlib import Path

from grammarlib.earlier import earlier_table
from grammarlib.examples import parse
from grammarlib.lookaheads import Lookaheads
from grammarlib.reader import Reader, Refused
from grammarlib.sentences import LONGEST, Sentences, TooDeep
from grammarlib.source import Source
from grammarlib.tokens import DELIMITER_TEXTS, Group, Ident, Literal, Punct, read_text, shown, stream
from kindslib.table import ORACLE_KINDS as KINDS

HERE = Path(__file__).resolve().parent
CRATE = HERE.parent / 'crates' / 'syn_grammar'
# how far the oracle builds the grammar, and how far before the change of which specs/Before.antt has the earlier state
STAGE, EARLIER_STAGE = 15, 13
# the rules of parts, which the oracle reads by a function and not by a kind
PARTS = [
    'attributes', 'meta', 'module_path', 'type_path', 'type_words', 'return_type', 'generic_arguments', 'generic_argument',
    'qualified_path', 'path_as_type', 'types', 'generics', 'lifetime_parameter', 'lifetimes', 'parameter_bounds', 'bound', 'trait_bound',
    'where_clause', 'predicate', 'predicate_bounds', 'named_fields', 'unnamed_fields', 'variants', 'structure_rest',
    'enumeration_rest', 'union_item_rest', 'inner_attributes', 'expression_path', 'expression_words', 'qualified_expression_path',
    'path_as_expression', 'macro_invocation', 'pattern', 'patterns', 'expressions', 'body', 'plain_body', 'primary', 'block_like',
    'if_expression', 'loop_expression', 'postfixes', 'unary', 'casts', 'cast', 'products', 'product', 'sum', 'shift', 'bit_and', 'bit_xor',
    'bit_or', 'comparison', 'conjunction', 'disjunction', 'operand_rest', 'local', 'literal_fields', 'literal_field', 'primary_head',
    'unary_head', 'cast_head', 'product_head', 'sum_head', 'shift_head', 'bit_and_head', 'bit_xor_head', 'bit_or_head', 'comparison_head',
    'conjunction_head', 'disjunction_head', 'whole_expression_head', 'inputs', 'abi', 'foreign_signature', 'use_trees', 'alias_bounds',
    'type_bounds', 'supertraits', 'trait_items', 'impl_items', 'foreign_items', 'items',
]
# parts that the oracle reads to the end of a group alone, or refuses where the table leaves what can't follow: of these no beginnings are
# compared
TO_THE_END = ['meta', 'types', 'named_fields', 'unnamed_fields', 'variants', 'patterns', 'expressions', 'casts', 'cast', 'products', 'product',
              'sum', 'shift', 'bit_and', 'bit_xor', 'bit_or', 'comparison', 'conjunction', 'disjunction', 'operand_rest', 'literal_fields',
              'cast_head', 'product_head', 'sum_head', 'shift_head', 'bit_and_head', 'bit_xor_head', 'bit_or_head', 'comparison_head',
              'conjunction_head', 'disjunction_head', 'inputs', 'use_trees', 'trait_items', 'impl_items', 'foreign_items', 'items']
SHOWN = 20


def part_readers(o):
    """How the oracle `o` reads parts, by their rules: functions of its cursor."""
    path = lambda style: lambda c: o.p_path(c, style)
    members = lambda read: lambda c: o.commas(c, read)
    bounds = lambda end: lambda c: o.p_bounds(c, end)
    bare = lambda read: lambda c: read(c, [])
    return {
        'attributes': o.p_outer, 'meta': o.p_meta, 'module_path': path('mod'), 'type_path': path('type'),
        'type_words': lambda c: words_of(o, c), 'return_type': o.p_return_type, 'generic_arguments': lambda c: o.p_angle(c, None),
        'generic_argument': lambda c: argument_of(o, c), 'qualified_path': lambda c: qualified_of(o, c),
        'path_as_type': lambda c: qualified_of(o, c) if c.mark('<') else path('type')(c), 'types': members(o.p_type),
        'generics': o.p_generics, 'lifetime_parameter': o.p_lifetime_param, 'lifetimes': o.p_lifetimes,
        'parameter_bounds': bounds(o.end_param), 'bound': o.p_bound, 'trait_bound': o.p_trait_bound,
        'where_clause': lambda c: where_of(o, c), 'predicate': o.p_predicate, 'predicate_bounds': bounds(o.end_where),
        'named_fields': members(o.p_named_field), 'unnamed_fields': members(o.p_unnamed_field),
        'variants': members(o.p_variant),
        'structure_rest': bare(o.p_struct), 'enumeration_rest': bare(o.p_enum), 'union_item_rest': bare(o.p_union),
        **expression_readers(o)}


def expression_readers(o):
    """The same of patterns, expressions and statements."""
    path, members = lambda style: lambda c: o.p_path(c, style), lambda read: lambda c: o.commas(c, read)
    expression, unary = lambda c: o.p_expr(c, False), lambda c: o.p_unary(c, False)
    cast = lambda c: o.p_cast(c, unary(c))
    level = lambda lowest: lambda c: o.p_levels(c, cast(c), lowest, False)
    nothing = o.N('ExprVerbatim', tokens=[])
    return {
        'inner_attributes': o.p_inner, 'expression_path': path('expr'), 'expression_words': lambda c: words_of(o, c, 'expr'),
        'qualified_expression_path': lambda c: qualified_of(o, c, 'expr'),
        'path_as_expression': lambda c: qualified_of(o, c, 'expr') if c.mark('<') else path('expr')(c),
        'macro_invocation': lambda c: macro_of(o, c), 'pattern': o.p_pat, 'patterns': members(o.p_pat), 'expressions': members(expression),
        'body': lambda c: o.p_ia_block(c, 'ExprBlock', label=None), 'plain_body': o.p_block, 'primary': lambda c: o.p_primary(c, False),
        'block_like': lambda c: block_like_of(o, c), 'if_expression': o.p_if, 'loop_expression': lambda c: o.p_loop(c, None),
        'postfixes': lambda c: o.p_postfix(c, nothing), 'unary': unary, 'casts': lambda c: o.p_cast(c, nothing), 'cast': cast,
        'products': lambda c: o.p_levels(c, nothing, o.MUL, False), 'product': level(o.MUL), 'sum': level(o.ADD), 'shift': level(o.SHIFT),
        'bit_and': level(o.BAND), 'bit_xor': level(o.BXOR), 'bit_or': level(o.BOR), 'comparison': level(o.CMP), 'conjunction': level(o.ANDAND),
        'disjunction': level(o.OROR), 'local': lambda c: o.p_local(c, []),
        'operand_rest': lambda c: o.p_levels(c, o.p_cast(c, o.p_postfix(c, nothing)), o.ASSIGN, False),
        'literal_fields': lambda c: literal_fields_of(o, c), 'literal_field': o.p_field_value, **head_readers(o), **item_readers(o)}


def head_readers(o):
    """The same of expressions in the head of an `if`, a `while` or a `for`."""
    unary = lambda c: o.p_unary(c, True)
    cast = lambda c: o.p_cast(c, unary(c))
    level = lambda lowest: lambda c: o.p_levels(c, cast(c), lowest, True)
    return {
        'primary_head': lambda c: o.p_primary(c, True), 'unary_head': unary, 'cast_head': cast, 'product_head': level(o.MUL),
        'sum_head': level(o.ADD), 'shift_head': level(o.SHIFT), 'bit_and_head': level(o.BAND), 'bit_xor_head': level(o.BXOR),
        'bit_or_head': level(o.BOR), 'comparison_head': level(o.CMP), 'conjunction_head': level(o.ANDAND), 'disjunction_head': level(o.OROR),
        'whole_expression_head': lambda c: o.p_expr(c, True)}


def item_readers(o):
    """The same of parts of items."""
    bounds = lambda end: lambda c: o.p_bounds(c, end)
    members = lambda read: lambda c: all_of(c, read)
    return {
        'inputs': lambda c: inputs_of(o, c), 'abi': lambda c: abi_of(o, c), 'foreign_signature': lambda c: o.p_sig(c, True),
        'use_trees': lambda c: o.commas(c, o.p_use_tree), 'alias_bounds': bounds(o.end_alias), 'type_bounds': bounds(o.end_type),
        'supertraits': bounds(o.end_trait), 'trait_items': members(o.p_trait_item), 'impl_items': members(o.p_impl_item),
        'foreign_items': members(o.p_foreign_item), 'items': members(o.p_item)}


def all_of(c, read):
    """What stands next, one after another, to the end."""
    found = []
    while not c.end:
        found.append(read(c))
    return found


def abi_of(o, c):
    if not c.word('extern'):
        raise c.err()
    return o.p_abi(c)


def inputs_of(o, c):
    """The parameters of a function and its variadic one, as a signature prints them."""
    inputs, variadic = o.p_args(c)
    return [inputs, variadic]


def literal_fields_of(o, c):
    """What the braces of a struct literal hold, as it is printed."""
    braces = [o.Group('{', c.t[c.i:])]
    o.KEEP.append(braces)
    literal = o.p_struct_lit(o.Cur(braces, 0), None, None)
    c.i = c.n
    return [literal.fields, literal.dot2, literal.rest]


def words_of(o, c, style='type'):
    words = o.Pun()
    o.p_segments(c, style, words)
    return words


def macro_of(o, c):
    path = o.p_path(c, 'mod')
    if c.mark('!='):
        raise c.err()
    return o.p_macro_rest(c, path)


def block_like_of(o, c):
    if not o.block_like_next(c):
        raise c.err()
    return o.p_primary(c, False)


def argument_of(o, c):
    """A generic argument that isn't a lifetime."""
    if c.lifetime():
        raise c.err()
    return o.p_generic_arg(c)


def qualified_of(o, c, style='type'):
    before, path = o.p_qpath(c, style)
    return o.N('TypePath', qself=before, path=path)


def where_of(o, c):
    """A where clause, as it is printed."""
    clause = o.p_where(c)
    return [clause.where, clause.predicates] if clause and clause.predicates else []


# sentences of parts by the oracle's generator; of the others the table alone makes sentences
PART_SENTENCES = {
    'attributes': lambda g, d: g.oa(1, 0.5), 'meta': lambda g, d: g.meta(d), 'module_path': lambda g, d: g.modpath(d),
    'type_path': lambda g, d: g.path(d, 'type'), 'generic_arguments': lambda g, d: g.gargs(d),
    'qualified_path': lambda g, d: g.qpath(d, 'type'), 'path_as_type': lambda g, d: g.path(d, 'type'), 'generics': lambda g, d: g.gen(d, 0.95),
    'lifetime_parameter': lambda g, d: g.ltparam(d), 'lifetimes': lambda g, d: g.lifetimes(), 'parameter_bounds': lambda g, d: g.bounds(d),
    'bound': lambda g, d: g.bound(d), 'where_clause': lambda g, d: g.where(d, 0.95), 'predicate': lambda g, d: g.pred(d),
    'predicate_bounds': lambda g, d: g.bounds(d),
    'inner_attributes': lambda g, d: g.ia(0.5), 'expression_path': lambda g, d: g.path(d, 'expr'),
    'qualified_expression_path': lambda g, d: g.qpath(d, 'expr'), 'path_as_expression': lambda g, d: g.path(d, 'expr'),
    'macro_invocation': lambda g, d: g.macro(d), 'pattern': lambda g, d: g.pat(d), 'body': lambda g, d: g.iablock(d),
    'primary': lambda g, d: g.primary(d), 'if_expression': lambda g, d: g.if_(d), 'unary': lambda g, d: g.unary(d, False)}


class Oracle:
    def __init__(self, folder, stage=STAGE):
        sys.path.insert(0, str(folder))
        import gen
        import oracle
        oracle.STAGE = stage
        # the table looks into invisible groups in three places alone
        oracle.has_none = lambda trees: False
        oracle.plain_path = lambda ty: ty if ty.k == 'TypePath' and ty.qself is None else None
        self.o, self.own = oracle, gen
        self.signs = {d: '' if d == 'None' else texts[0] for d, texts in DELIMITER_TEXTS.items()}
        self.delimiters = {sign: d for d, sign in self.signs.items()}
        readers = part_readers(oracle)
        oracle.API_KINDS.update({rule: (readers[rule], stage) for rule in PARTS})

    def to(self, trees):
        o = self.o
        made = {Ident: lambda t: o.Ident(t.text),
                Punct: lambda t: o.Punct(t.character, t.joint),
                Literal: lambda t: o.Lit(t.kind, t.text),
                Group: lambda t: o.Group(self.signs[t.delimiter], self.to(t.content))}
        return [made[type(t)](t) for t in trees]

    def back(self, trees):
        o = self.o
        made = {o.Ident: lambda t: Ident(t.text),
                o.Punct: lambda t: Punct(t.ch, t.joint),
                o.Lit: lambda t: Literal(t.kind, t.text),
                o.Group: lambda t: Group(self.delimiters[t.delim], tuple(self.back(t.trees)))}
        return [made[type(t)](t) for t in trees]

    def whole(self, kind, trees):
        try:
            return self.back(self.o.flat(self.o.parse2(kind, self.to(trees))))
        except self.o.SynErr:
            return None

    def beginning(self, kind, trees):
        try:
            tree, rest = self.o.parse_prefix(kind, self.to(trees))
            return self.back(self.o.flat(tree)), len(rest)
        except self.o.SynErr:
            return None

    def sentence(self, generator, kind):
        depth = generator.r.randint(0, 2)
        atoms = PART_SENTENCES[kind](generator, depth) if kind in PART_SENTENCES else generator.atoms(kind, depth)
        return self.back(generator.trees(atoms, 0.1))


class Table:
    def __init__(self, reader):
        self.reader = reader

    def whole(self, rule, trees):
        found = self.beginning(rule, trees)
        return found[0] if found and not found[1] else None

    def beginning(self, rule, trees):
        try:
            tree, rest = self.reader.read(('rule', (rule,)), stream(trees))
            return self.reader.print(tree), len(rest.trees())
        except Refused:
            return None


def pairs():
    """The kinds and parts, each with its rule."""
    return list(KINDS.items()) + [(rule, rule) for rule in PARTS]


def holds_invisible(trees):
    """An invisible group with content stands in them, at any depth."""
    return any(isinstance(t, Group) and (t.delimiter == 'None' and t.content or holds_invisible(t.content)) for t in trees)


def random_trees(sentences, oracle, generator, rule, kind):
    r = sentences.random
    is_known = kind in PART_SENTENCES or any(kind in kinds for kinds in KINDS.values())
    if is_known and r.random() < 0.25:
        trees = oracle.sentence(generator, kind)
    else:
        trees = sentences.sentence(rule, r.choice([3, 5, 7, 9]))
    if holds_invisible(trees):
        return trees  # changed, it may be an expression, which the table doesn't read yet
    for _ in range(r.choice([0, 0, 1, 1, 1, 2, 3])):
        changed = sentences.changed(trees)
        trees = trees if holds_invisible(changed) else changed
    return trees


class Comparison:
    """What table and oracle answered so far."""

    def __init__(self, table, oracle):
        self.table, self.oracle = table, oracle
        self.inputs, self.accepted, self.begun, self.differ = 0, 0, 0, 0

    def of(self, kind, rule, trees):
        self.inputs += 1
        mine, theirs = self.table.whole(rule, trees), self.oracle.whole(kind, trees)
        first = second = None
        if kind not in TO_THE_END:
            first, second = self.table.beginning(rule, trees), self.oracle.beginning(kind, trees)
        self.accepted += theirs is not None
        self.begun += second is not None
        if mine == theirs and first == second:
            return
        self.differ += 1
        if self.differ <= SHOWN:
            print(f'DIFFERENT {kind}: {shown(trees)}')
            print(f'  whole: table {mine}, oracle {theirs}')
            print(f'  beginning: table {first}, oracle {second}', flush=True)


def kinds_of(example, kinds):
    """As which of these kinds a worked example is read: those of its rule; as an item if the oracle doesn't know the rule."""
    is_known = any(rule == example.rule for _, rule in pairs())
    return [(kind, rule) for kind, rule in kinds if rule == (example.rule if is_known else 'item')]


def compare(options):
    source = Source(options.crate)
    lookaheads = Lookaheads(source)
    oracle = Oracle(options.oracle, EARLIER_STAGE if options.earlier else STAGE)
    table = earlier_table(source) if options.earlier else source.table
    kinds = [pair for pair in pairs() if not options.kinds or pair[0] in options.kinds.split(',')]
    found = Comparison(Table(Reader(lookaheads, table)), oracle)
    for example in parse(HERE / 'examples.txt', source.rules):
        for kind, rule in kinds_of(example, kinds):
            found.of(kind, rule, read_text(example.text))
    worked = found.inputs
    dice = random.Random(options.seed)
    sentences, generator = Sentences(lookaheads, source.table, dice), oracle.own.G(options.seed, STAGE)
    started = time.time()
    while found.inputs < worked + options.count:
        kind, rule = dice.choice(kinds)
        try:
            trees = random_trees(sentences, oracle, generator, rule, kind)
        except TooDeep:
            continue
        if len(trees) <= LONGEST:
            found.of(kind, rule, trees)
    print(f'{worked} worked examples and {options.count} inputs, {found.accepted} read whole, {found.begun} read in part, '
          f'{found.differ} differ ({time.time() - started:.0f} s, seed {options.seed})')
    return 1 if found.differ else 0


def without_oracle(message):
    print(f'fuzz_grammar: {message}', file=sys.stderr)
    sys.exit(2)


def main():
    parser = argparse.ArgumentParser(description=__doc__, formatter_class=argparse.RawDescriptionHelpFormatter)
    parser.add_argument('--oracle', type=Path, default=os.environ.get('ORACLE') and Path(os.environ['ORACLE']))
    parser.add_argument('--earlier', action='store_true', help='the earlier grammar, of specs/Before.antt')
    parser.add_argument('--count', type=int, default=20000)
    parser.add_argument('--seed', type=int, default=1)
    parser.add_argument('--kinds', default='', help='of these kinds and parts alone')
    parser.add_argument('--crate', type=Path, default=CRATE)
    options = parser.parse_args()
    if not options.oracle:
        without_oracle('nothing was compared: the repository holds no oracle; give the folder of one by --oracle FOLDER or in ORACLE')
    if not (options.oracle / 'oracle.py').exists():
        without_oracle(f'nothing was compared: no oracle.py stands in {options.oracle}')
    sys.setrecursionlimit(10000)
    sys.exit(compare(options))


if __name__ == '__main__':
    main()
