#!/usr/bin/env python3
"""Tests of tools/fuzz_grammar.py: what it compares, and what it says. Run it with no arguments."""
import os
import shutil
import subprocess
import sys
import tempfile
import unittest
from pathlib import Path

from fuzz_grammar import PART_SENTENCES, PARTS, TO_THE_END, pairs
from grammarlib import antt
from grammarlib.earlier import earlier_table
from grammarlib.source import Source

HERE = Path(__file__).resolve().parent
CRATE = HERE.parent / 'crates' / 'syn_grammar'

# an oracle that reads by the table itself (at stage 13 by the earlier one), but for the kind WRONG, of which it reads nothing; its parts are
# what it is asked for
ORACLE = '''
from collections import namedtuple
from pathlib import Path
from fuzz_grammar import CRATE, Oracle, Table, pairs
from grammarlib.earlier import earlier_table
from grammarlib.lookaheads import Lookaheads
from grammarlib.reader import Reader
from grammarlib.source import Source

Ident, Punct = namedtuple('Ident', 'text'), namedtuple('Punct', 'ch joint')
Lit, Group = namedtuple('Lit', 'kind text'), namedtuple('Group', 'delim trees')
API_KINDS = {}
SOURCE = Source(CRATE)
TABLES = {stage: Table(Reader(Lookaheads(SOURCE), table)) for stage, table in ((15, SOURCE.table), (13, earlier_table(SOURCE)))}
STAGE = None


class SynErr(Exception):
    pass


class Mirror(Oracle):
    def __init__(self):
        import oracle
        self.o, self.signs = oracle, {'Paren': '(', 'Brace': '{', 'Bracket': '[', 'None': ''}
        self.delimiters = {sign: d for d, sign in self.signs.items()}


def __getattr__(name):
    if name.startswith(('p_', 'end_')) or name in ('commas', 'Pun', 'N'):
        return lambda *words, **parts: None
    if name in ('MUL', 'ADD', 'SHIFT', 'BAND', 'BXOR', 'BOR', 'CMP', 'ANDAND', 'OROR'):
        return 0
    raise AttributeError(name)


def parse_prefix(kind, trees):
    trees = Mirror().back(trees)
    found = TABLES[STAGE].beginning(dict(pairs())[kind], trees)
    if found is None or kind == WRONG:
        raise SynErr()
    return found[0], trees[len(trees) - found[1]:]


def parse2(kind, trees):
    tree, rest = parse_prefix(kind, trees)
    if rest:
        raise SynErr()
    return tree


def flat(tree):
    return Mirror().to(tree)
'''
GENERATOR = '''
import random
from oracle import Ident


class G:
    def __init__(self, seed, stage):
        self.r = random.Random(seed)

    def __getattr__(self, name):
        return lambda *words: ['a', 'b']

    def trees(self, atoms, loose):
        return [Ident(text) for text in atoms]
'''


def fuzz(*words, **settings):
    environment = {k: v for k, v in os.environ.items() if k != 'ORACLE'} | settings
    found = subprocess.run([sys.executable, HERE / 'fuzz_grammar.py', *words], capture_output=True, text=True, env=environment)
    return found.returncode, found.stdout, found.stderr


class Fuzz(unittest.TestCase):
    def oracle(self, wrong=None):
        folder = tempfile.TemporaryDirectory()
        self.addCleanup(folder.cleanup)
        (Path(folder.name) / 'oracle.py').write_text(f'WRONG = {wrong!r}\n{ORACLE}')
        (Path(folder.name) / 'gen.py').write_text(GENERATOR)
        return folder.name

    def test_rules_of_the_table_are_named(self):
        rules = Source(CRATE).rules
        found = [rule for _, rule in pairs()]
        self.assertEqual([rule for rule in found if rule not in rules], [])
        self.assertEqual(len(found), len(set(found)))
        self.assertLessEqual({*TO_THE_END, *PART_SENTENCES}, {*PARTS})

    def test_what_agrees(self):
        status, said, faults = fuzz('--oracle', self.oracle(), '--count', '60')
        self.assertEqual((status, faults), (0, ''), said)
        self.assertIn(' worked examples and 60 inputs, ', said)
        self.assertRegex(said, r' 0 differ \(\d+ s, seed 1\)')

    def test_a_difference(self):
        status, said, _ = fuzz('--oracle', self.oracle('visibility'), '--count', '1')
        self.assertEqual(status, 1)
        self.assertIn("DIFFERENT visibility: pub\n  whole: table [Ident(text='pub', ", said)
        self.assertNotIn('DIFFERENT derive', said)

    def test_a_rule_that_is_read_otherwise_is_known(self):
        _, said, _ = fuzz('--oracle', self.oracle('type'), '--count', '1')
        self.assertIn("DIFFERENT type: &'a mut T\n", said)

    def test_the_earlier_grammar(self):
        status, said, faults = fuzz('--oracle', self.oracle(), '--count', '60', '--earlier')
        self.assertEqual((status, faults), (0, ''), said)
        self.assertRegex(said, r' 0 differ \(\d+ s, seed 1\)')

    def test_each_wrong_rule_of_the_earlier_grammar_is_found(self):
        rules = [rule for rule, form in earlier_table(Source(CRATE)).items() if form != Source(CRATE).table[rule]]
        self.assertEqual(len(rules), 8)
        for rule in [*rules, 'visibility']:
            words = ['--count', '1', '--earlier', '--kinds', 'item,primary,visibility', '--crate', self.crate_without(rule)]
            status, said, faults = fuzz('--oracle', self.oracle(), *words)
            self.assertEqual((status, faults), (1, ''), f'{rule}: {said}')
            self.assertIn('DIFFERENT ', said)

    def crate_without(self, rule):
        """A copy of the crate whose earlier grammar reads nothing by this rule."""
        folder = tempfile.TemporaryDirectory()
        self.addCleanup(folder.cleanup)
        shutil.copytree(CRATE / 'specs', Path(folder.name) / 'specs')
        path = Path(folder.name) / 'specs/Before.antt'
        head, *parts = path.read_text().split('\nbefore ')
        parts = [part for part in parts if not part.startswith(f'{rule} ')]
        path.write_text('\nbefore '.join([head, f'{rule} = never', *parts]))
        return folder.name

    def test_an_earlier_grammar_that_ends_otherwise(self):
        crate = self.crate_without('visibility')
        path = Path(crate) / 'specs/Before.antt'
        path.write_text(path.read_text().replace('before k = table k', 'before k = never'))
        with self.assertRaisesRegex(antt.Fault, 'the last line is `before k = table k`'):
            earlier_table(Source(crate))

    def test_without_an_oracle(self):
        status, said, faults = fuzz()
        self.assertEqual((status, said), (2, ''))
        self.assertIn('nothing was compared', faults)
        self.assertEqual(fuzz('--oracle', tempfile.gettempdir())[0], 2)
        self.assertEqual(fuzz(ORACLE=tempfile.gettempdir())[0], 2)


if __name__ == '__main__':
    unittest.main()
