#!/usr/bin/env python3
"""Tests of tools/mutate_table.py: each change of the table is found out, and one that isn't is told. Run it with no arguments."""
import shutil
import subprocess
import sys
import tempfile
import unittest
from pathlib import Path

from grammar import checked
from grammarlib.antt import Fault
from grammarlib.borders import Borders, read_equivalent, read_untold, written_untold
from grammarlib.examples import Theorems, parse
from grammarlib.lookaheads import Lookaheads
from grammarlib.mutants import Mutants
from grammarlib.source import Source

HERE = Path(__file__).resolve().parent
CRATE = HERE.parent / 'crates' / 'syn_grammar'
COUNT = 120  # changes of the sample

# wrong tables that break no law, each by one change of a line
WRONG = {
    'a keyword names a variant': ('    & plainly name\n', '    & plainly (name_or (w_crate ∷ []))\n'),
    'a field without a name has no visibility': ('table unnamed_field =\n    rule attributes\n    & rule visibility\n', 'table unnamed_field =\n    rule attributes\n'),
    'a restriction occurs twice': ('inside Paren (rule restriction)', 'inside Paren (rule restriction & (when at_word w_in then rule restriction else empty))'),
}
# a rule of forms that the table doesn't use today
FORMS = '''table a = captured (inside Brace (raw Paren & lifetime)) & vanishing false (at_mark plus) (punctuation plus & either lifetime (plainly name))
table b = such no_trailing_brace (rule a) & generics_before lifetime (plainly name) (rest_after equals)
table c = ordered lifetime (rule a) & supplied Before_less (plainly index) (one_of (a ∷ b ∷ []))
'''


def mutate(*words):
    found = subprocess.run([sys.executable, HERE / 'mutate_table.py', *words], capture_output=True, text=True)
    return found.returncode, found.stdout + found.stderr


class Mutations(unittest.TestCase):
    def setUp(self):
        self.folder = Path(tempfile.mkdtemp())
        shutil.copytree(CRATE / 'specs', self.folder / 'specs')
        self.table = self.folder / 'specs' / 'Table.antt'

    def tearDown(self):
        shutil.rmtree(self.folder)

    def borders(self, equivalent=None):
        source = Source(self.folder)
        examples = parse(HERE / 'examples.txt', source.rules)
        untold = read_untold(HERE / 'untold_borders.txt')
        return Borders(Lookaheads(source), source.table, examples, equivalent or read_equivalent(HERE / 'equivalent_mutants.txt'), untold)

    def test_no_change_gets_through(self):
        self.assertEqual(self.borders().lacking(), [])
        status, said = mutate('--count', str(COUNT), '--seed', '1')
        self.assertEqual(status, 0, said)
        self.assertIn(f'{COUNT} changes of the table', said)

    def test_an_example_too_few(self):
        kept = [line for line in (HERE / 'examples.txt').read_text().split('\n') if not line.startswith('struct_rest_crate ')]
        path = self.folder / 'examples.txt'
        path.write_text('\n'.join(kept))
        status, said = mutate('--examples', path, '--rule', 'structure_rest', '--find')
        self.assertEqual(status, 1)
        self.assertIn('GETS THROUGH: structure_rest: the name may also be `crate` (', said)
        self.assertEqual(said.count('GETS THROUGH:'), 1)

    def test_wrong_tables_are_known(self):
        right = self.table.read_text()
        for name, (old, new) in WRONG.items():
            with self.subTest(name):
                self.assertIn(old, right)
                self.table.write_text(right.replace(old, new, 1))
                source = Source(self.folder)
                self.assertEqual(checked(source)[1], [], 'a law refuses it already')
                with self.assertRaises(Fault):
                    Theorems(source, Lookaheads(source)).files(parse(HERE / 'examples.txt', source.rules))

    def test_a_new_rule_wants_examples(self):
        self.table.write_text(self.table.read_text().rstrip() + '\n--\n-- New.\ntable new =\n    plainly (word w_pub) & punctuation comma\n')
        lacking = self.borders().lacking(['new'])
        for change in ['`pub` may be left out', '`,` may occur again at the end', '`pub` may be any identifier']:
            self.assertIn(f'`new`: no example detects the change "{change}"', lacking)

    def test_a_name_that_a_choice_has_seen_to(self):
        self.table.write_text(self.table.read_text().rstrip() + '\n--\n-- New.\ntable new =\n    when at_name then plainly name & plainly name else punctuation comma\n')
        lacking = self.borders().lacking(['new'])
        self.assertEqual(sum('the name may be any identifier' in line for line in lacking), 1)
        self.assertEqual(sum('the name may also be a literal' in line for line in lacking), 1)
        self.assertEqual(sum('the name may not be `union`' in line for line in lacking), 2)

    def test_borders_without_an_example(self):
        borders = self.borders()
        rule, may = max(borders.untold.items(), key=lambda it: it[1])
        borders.lacking([rule])
        self.assertLessEqual(borders.counts[rule], may)
        borders.untold[rule] = borders.counts[rule] - 1
        self.assertIn(f'`{rule}`: {borders.counts[rule]} borders have no example, and {borders.counts[rule] - 1} may', borders.lacking([rule])[0])

    def test_counts_of_borders(self):
        path = self.folder / 'counts.txt'
        path.write_text(written_untold({'a': 2, 'b': 0, 'c': 11}))
        self.assertEqual(read_untold(path), {'a': 2, 'c': 11})
        path.write_text('a 1\na 2\n')
        with self.assertRaises(Fault):
            read_untold(path)

    def test_each_change_has_words_of_its_own(self):
        source = Source(CRATE)
        mutants = Mutants(Lookaheads(source), source.table)
        for rule in source.table:
            changes = [m.change for m in mutants.of(rule)]
            self.assertEqual(len(changes), len(set(changes)), rule)

    def test_listed_changes(self):
        listed = read_equivalent(HERE / 'equivalent_mutants.txt')
        told = {**listed, ('structure_rest', 'the name may also be `crate`'): 'wrongly'}
        self.assertIn('but the example `struct_rest_crate` detects it', '\n'.join(self.borders(told).lacking(['structure_rest'])))
        unknown = {**listed, ('structure', 'it is blue'): 'wrongly'}
        self.assertIn('is no change of this rule', '\n'.join(self.borders(unknown).lacking(['structure'])))

    def test_every_form_is_changed(self):
        text = self.table.read_text()
        head = text[:text.index('abbrev pub table')].replace('w_crate,', 'w_crate, plus,')
        self.table.write_text(f'{head}abbrev pub table : Rule → Grammar\n{FORMS}')
        source = Source(self.folder)
        mutants = Mutants(Lookaheads(source), source.table)
        changes = {rule: [m.change for m in mutants.of(rule)] for rule in source.table}
        self.assertIn('the group { } has no delimiters', changes['a'])
        self.assertIn('`+` may also be `,`', changes['a'])
        self.assertIn('the test no_trailing_brace is left out', changes['b'])
        self.assertIn('no b', changes['c'])


if __name__ == '__main__':
    unittest.main()
