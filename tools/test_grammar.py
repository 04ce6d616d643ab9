#!/usr/bin/env python3
"""Tests of tools/grammar.py: the files are as written, and each complaint comes where it should. Run it with no arguments."""
import shutil
import tempfile
import unittest
from pathlib import Path

from grammar import checked
from grammarlib.antt import Fault
from grammarlib.complaints import EXPLAINED
from grammarlib.examples import Theorems, parse
from grammarlib.lookaheads import Lookaheads, barred
from grammarlib.reader import Reader
from grammarlib.source import Source
from grammarlib.tokens import Group, Ident, Literal, Punct, read_text, shown, stream

HERE = Path(__file__).resolve().parent
CRATE = HERE.parent / 'crates' / 'syn_grammar'
EXAMPLES = HERE.parent / 'crates' / 'syn_examples'

# small tables, each with the complaint that it must meet
SPOILED = {
    'SEAM': ['table a = plainly name & (when at_mark colons then punctuation colons & rule a else empty)',
             'table b = (when at_name and_also ahead Before_colons then rule a else plainly name) & punctuation comma & rule c',
             'table c = (when at_name and_also ahead Before_equals then empty else empty) & plainly name & punctuation equals'],
    'HALT': ['table a = (when at_word w_where then never else empty) & vanishing true (at_word w_pub) (plainly (word w_pub)) & plainly (word w_where)'],
    'SHUN': ['table a = vanishing true (at_word w_pub) (plainly (word w_pub)) & (when at_word w_pub then plainly (word w_pub) else empty)'],
    'GONE': ['table a = (when at_word w_pub then empty else plainly name) & vanishing true (at_word w_pub) (plainly (word w_pub))'],
    'KEPT': ['table a = when at_name and_also ahead Before_equals then plainly name & punctuation equals else plainly name'],
    'END': ['table a = inside Paren (vanishing true ended empty)'],
    'ENDED': ['table a = vanishing true ended empty'],
    'UNION': ['table a = one_of (b ∷ c ∷ [])', 'table b = plainly name', 'table c = plainly (word w_union)'],
    'LEFT': ['table a = (when at_word w_pub then plainly (word w_pub) else empty) & rule b', 'table b = rule a'],
    'OPEN': ['table a = captured (plainly name)'],
    'LIST': ['table a = ordered lifetime (when at_name then plainly name else empty)'],
    'MEMBER': ['table a = ordered lifetime (plainly (word w_pub) & (when at_mark comma then empty else plainly name))'],
    'LEAD': ['table a = generics_before lifetime (punctuation star) (inside Brace empty)'],
    'SUPPLIED': ['table a = supplied Before_less (when at_name then plainly name else empty) (plainly name)'],
    'NAMED': ['table a = supplied Before_less (plainly name & (when at_mark less then punctuation less else empty)) (punctuation star)'],
}
HEAD = '-- A table of a test.\nuse Rattle.syn_grammar.specs.Grammar.{Grammar}\n\nabbrev pub table : Rule → Grammar\n'


class Table(unittest.TestCase):
    def setUp(self):
        self.folder = Path(tempfile.mkdtemp())
        shutil.copytree(CRATE / 'specs', self.folder / 'specs')

    def tearDown(self):
        shutil.rmtree(self.folder)

    def write(self, text):
        (self.folder / 'specs' / 'Table.antt').write_text(text)
        return Source(self.folder)

    def codes(self, lines):
        files, complaints = checked(self.write(HEAD + '\n'.join(lines) + '\n'))
        self.assertEqual(files is None, bool(complaints))
        return {c.code for c in complaints}

    def test_files_are_as_written(self):
        source = Source(CRATE)
        files, complaints = checked(source)
        self.assertEqual(complaints, [])
        examples, lacking = Theorems(source, Lookaheads(source)).files(parse(HERE / 'examples.txt', source.rules))
        self.assertEqual(lacking, [])
        self.assertEqual(sorted(examples), sorted(f'proofs/{p.name}' for p in (EXAMPLES / 'proofs').glob('Examples*.antt')))
        for crate, texts in ((CRATE, files), (EXAMPLES, examples)):
            for path, text in texts.items():
                self.assertEqual((crate / path).read_text(), text, path)

    def test_each_file_of_examples_is_proved(self):
        modules = (EXAMPLES / 'proofs' / 'Lib.antt').read_text().split()
        self.assertEqual([p.stem for p in sorted((EXAMPLES / 'proofs').glob('*.antt')) if p.stem not in modules], ['Lib'])

    def test_every_rule_and_look_has_a_sentence(self):
        self.assertEqual(Source(CRATE).without_sentence(), [])

    def test_a_rule_that_calls_itself_is_read_to_an_end(self):
        source = self.write(HEAD + 'table a = when at_name then rule a else empty\n')
        with self.assertRaises(RecursionError):
            Reader(Lookaheads(source), source.table).read(('rule', ('a',)), stream(read_text('b')))

    def test_a_look_is_taken_out_of_another_once(self):
        look = ('but_not', ('but_not', ('at_name',), ('ended',)), ('at_mark', ','))
        self.assertTrue(barred(('ended',), look))
        self.assertTrue(barred(('at_mark', ','), look))
        self.assertFalse(barred(('at_name',), look))

    def test_a_good_table(self):
        self.assertEqual(self.codes(['table a = asking name & (when at_mark colons then asking_punctuation colons & rule a else empty)']), set())

    def test_each_complaint(self):
        for code, lines in SPOILED.items():
            with self.subTest(code):
                self.assertIn(code, self.codes(lines))

    def refuses(self, lines, part):
        with self.assertRaises(Fault) as found:
            self.codes(lines)
        self.assertIn(part, str(found.exception))

    def test_what_cannot_be_read(self):
        self.refuses(['table a = when at_wrd w_pub then empty else empty'], 'nothing is named `at_wrd`')
        self.refuses(['table a = empty', 'table a = unshown'], 'twice')
        self.refuses(['table a = when at_name but_not ahead Before_less and_also at_name then empty else empty'], 'parentheses')
        self.refuses(['table a = empty & when at_name then empty else empty'], 'parentheses')

    def test_an_example_that_is_read_otherwise(self):
        source = Source(CRATE)
        path = self.folder / 'examples.txt'
        path.write_text('subject One: one\nwrong  visibility  pub(in)  => pub ( in )\n')
        with self.assertRaises(Fault) as found:
            Theorems(source, Lookaheads(source)).files(parse(path, source.rules))
        self.assertIn('otherwise: wrong', str(found.exception))

    def test_examples_are_in_the_file_of_their_subject(self):
        source = Source(CRATE)
        path = self.folder / 'examples.txt'
        path.write_text('subject One: a thing\npublic  visibility  pub  => pub\nsubject Two: others\narrow  return_type  =>a  => .. =>a\n')
        examples = parse(path, source.rules)
        self.assertEqual([(e.text, e.printed, e.rest) for e in examples], [('pub', 'pub', ''), ('=>a', '', '=>a')])
        files, _ = Theorems(source, Lookaheads(source)).files(examples)
        self.assertEqual(list(files), ['proofs/ExamplesOfOne.antt', 'proofs/ExamplesOfTwo.antt'])
        self.assertIn('-- Worked examples of a thing, ', files['proofs/ExamplesOfOne.antt'])
        self.assertIn('\npublic : DerivesAs', files['proofs/ExamplesOfOne.antt'])
        self.assertNotIn('public', files['proofs/ExamplesOfTwo.antt'])
        path.write_text('public  visibility  pub  => pub\n')
        with self.assertRaises(Fault) as found:
            parse(path, source.rules)
        self.assertIn('no subject', str(found.exception))

    def test_what_a_text_spells(self):
        kinds = {'"s"': 'Str', 'b"s"': 'ByteStr', 'c"s"': 'CStr', "b'c'": 'Byte', "'c'": 'Char', '7u8': 'Int', '1.5': 'Float'}
        for text, kind in kinds.items():
            self.assertEqual(read_text(text), (Literal(kind, text),))
        self.assertEqual(read_text("&'a b"), (Punct('&', True), Punct("'", True), Ident('a'), Ident('b')))
        self.assertEqual(read_text('1.'), (Literal('Int', '1'), Punct('.', False)))

    def test_what_spells_an_invisible_group(self):
        text = r'\((a) \(b\)\) c'
        trees = read_text(text)
        self.assertEqual(trees, (Group('None', (Group('Paren', (Ident('a'),)), Group('None', (Ident('b'),)))), Ident('c')))
        self.assertEqual((trees[0].opening, trees[0].closing, trees[1].span), ((0, 2), (11, 13), (14, 15)))
        self.assertEqual(read_text(shown(trees)), trees)
        for wrong in (r'\(a)', r'(a\)', r'\(a', r'a\)', '\\', r'\a'):
            with self.assertRaises(ValueError):
                read_text(wrong)

    def test_all_complaints_are_tested(self):
        # no form of today prints `_` as a name
        self.assertEqual(set(SPOILED) | {'WILD'}, set(EXPLAINED))


if __name__ == '__main__':
    unittest.main()
