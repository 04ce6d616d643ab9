#!/usr/bin/env python3
"""Tests of tools/fuzz_reader.py: with a stand-in for the other reading and for the program. Run it with no arguments."""
import random
import stat
import subprocess
import sys
import tempfile
import unittest
from pathlib import Path

import fuzz_reader

HERE = Path(__file__).resolve().parent

# Another language: each character but `!` is an identifier.
READING = '''
from dataclasses import dataclass

CLOSE = {}


class SynErr(Exception):
    def __init__(self, pos, text):
        self.pos, self.text = pos, text


@dataclass
class Ident:
    text: str
    s: int
    e: int


class Punct: pass
class Lit: pass


def read_tokens(text):
    if '!' in text:
        raise SynErr(len(text.split('!')[0].encode()), 'unexpected character')
    trees, at = [], 0
    for character in text:
        trees.append(Ident(character, at, at + len(character.encode())))
        at = trees[-1].e
    return trees


def token_text(trees):
    return ' '.join(tree.text for tree in trees)
'''

# A program of that language; what is put in the place of `spoiled` changes the line of a text.
PROGRAM = '''#!{python}
import sys
sys.path.insert(0, {tools!r})
import fuzz_reader
oracle = fuzz_reader.Oracle({folder!r})
for digits in sys.stdin.read().splitlines():
    text = bytes.fromhex(digits).decode()
    line = oracle.line(text)
    {spoiled}
    print(line)
'''


class Fuzz(unittest.TestCase):
    def setUp(self):
        self.held = tempfile.TemporaryDirectory()
        self.folder = Path(self.held.name)
        (self.folder / 'oracle.py').write_text(READING)

    def tearDown(self):
        self.held.cleanup()

    def run_with(self, spoiled, count=2000, oracle=None):
        program = self.folder / 'program'
        program.write_text(PROGRAM.format(python=sys.executable, tools=str(HERE), folder=str(self.folder), spoiled=spoiled))
        program.chmod(program.stat().st_mode | stat.S_IXUSR)
        command = [sys.executable, str(HERE / 'fuzz_reader.py'), '--bin', str(program), '--oracle', str(oracle or self.folder),
                   '--count', str(count), '--show', '1']
        return subprocess.run(command, capture_output=True, text=True)

    def test_agreement(self):
        done = self.run_with('pass')
        self.assertEqual((done.returncode, done.stderr), (0, ''))
        self.assertIn('2000 texts, seed 1: ', done.stdout)
        self.assertTrue(done.stdout.endswith('\n0 differ\n'), done.stdout)

    def test_another_byte_of_the_refusal(self):
        done = self.run_with("line = line.replace('refused at 0', 'refused at 1')")
        self.assertEqual(done.returncode, 1)
        self.assertIn("DIFFERENCE '!'\n   program refused at 1: unexpected character\n   other   refused at 0", done.stdout)

    def test_other_words_of_the_refusal(self):
        self.assertEqual(self.run_with("line = line.replace('unexpected', 'strange')").returncode, 1)

    def test_another_span(self):
        done = self.run_with("line = line.replace('Ident:0:1', 'Ident:0:2')")
        self.assertEqual(done.returncode, 1)
        self.assertIn('program Ident:0:2:', done.stdout)

    def test_another_token_text(self):
        self.assertEqual(self.run_with("line = line + '20'").returncode, 1)

    def test_one_rare_text(self):
        done = self.run_with("line = line[1:] if chr(92) + '0x' in text else line")
        self.assertEqual(done.returncode, 1)
        self.assertIn('DIFFERENCE ' + repr('\\0x'), done.stdout)

    def test_no_answer(self):
        for spoiled in ['sys.exit(3)', 'continue', 'print(line)']:
            with self.subTest(spoiled):
                done = self.run_with(spoiled)
                self.assertEqual(done.returncode, 2)
                self.assertIn('of 2000 texts', done.stderr)

    def test_no_program_and_no_other_reading(self):
        self.assertEqual(self.run_with('pass', oracle=self.folder / 'none').returncode, 2)
        done = subprocess.run([sys.executable, str(HERE / 'fuzz_reader.py'), '--bin', str(self.folder / 'none'),
                               '--oracle', str(self.folder)], capture_output=True)
        self.assertEqual(done.returncode, 2)


class Texts(unittest.TestCase):
    def test_every_piece_comes(self):
        pick = random.Random(1)
        whole = ' '.join(fuzz_reader.random_text(pick) for _ in range(20000))
        for pieces, _ in fuzz_reader.KINDS:
            for piece in pieces:
                self.assertIn(piece, whole)

    def test_the_same_again(self):
        one, other = random.Random(7), random.Random(7)
        self.assertEqual([fuzz_reader.random_text(one) for _ in range(100)], [fuzz_reader.random_text(other) for _ in range(100)])


if __name__ == '__main__':
    unittest.main()
