#!/usr/bin/env python3
"""Compares the reader of text with an independent reader of the same rules, on random texts.

    tools/fuzz_reader.py [--count N] [--seed N] [--bin PROGRAM] [--oracle FOLDER] [--show N]

The texts are made of what lexers get wrong: quotes, hashes, backslashes, the letters before literals, points and exponents, comment
signs, characters of several bytes, line ends, NUL, groups. For each text the program `token_lines` (`rt run` in crates/token_lines builds
it) and the independent reader have to give the same line: every token with its kind, span, text and spacing, and the token text; or the
byte and the message of the refusal. Each difference is reduced to a smaller text first. The status is 0 if there is none, 1 if there is
one, and 2 if nothing could be compared.

The independent reader is not part of this repository: FOLDER has its module `oracle.py`, with `read_tokens(text)` and
`token_text(trees)`; the default is ../shared/oracle beside the repository.
"""
import argparse
import importlib.util
import random
import subprocess
import sys
from collections import Counter
from pathlib import Path

ROOT = Path(__file__).resolve().parent.parent
PROGRAM = ROOT / 'crates' / 'token_lines' / 'out' / 'token_lines'
ORACLE = ROOT.parent / 'shared' / 'oracle'
BATCH = 20000

QUOTES = ['"', '"', "'", "'", "''", '\\', '\\', '\\"', "\\'", '\\\\', '#', '#', '##', 'r#', 'r#"', '"#', 'r##"', '"##',
          'b"', "b'", 'c"', 'br"', 'br#"', 'cr"', 'cr#"', 'r"', "'a", "'\\", '`']
LETTERS = ['r', 'b', 'c', 'br', 'cr', 'rb', 'e', 'E', 'x', 'o', 'a', '_', '_a', 'R', 'B', 'u8', 'f32', 'struct', 'r#a']
NUMBERS = ['0', '1', '9', '00', '0x', '0o', '0b', '0X', '0xe', '1_', '1.', '1..', '.', '.', '..', '...', '1e', '1E', '1e+',
           'e+1', 'e-', 'E-2', 'e_1', '._', '.0', '1.5', '1u8.']
COMMENTS = ['/', '/', '*', '//', '///', '////', '//!', '/*', '/*', '*/', '*/', '/**', '/***', '/*!', '/**/', '/***/', '!']
SPACES = [' ', ' ', ' ', '\n', '\n', '\r', '\r\n', '\t', '\x0b', '\x0c', '\x85', '\xa0', '\u2028', '\u3000']
BEYOND = ['\xe9', '\u65e5', '\U0001f600', '\u0301', '\xb7', '\u0661', '\u2118', '\u20ac', '\u200b', '\u200e', '\ufeff',
          '\0', '\x01', '\x1c', '\x7f', '\ud7ff', '\uffff', '\U0010ffff']
MARKS = list('~!@#$%^&*-=+|;:,<.>?/') + ['::', '->', '=', '&', '+', '-', '+=', '=>']
GROUPS = list('(){}[]')
WHOLE = ['"a"', '"\\""', 'r"\\"', 'r#"""#', 'r##"a"#"##', 'b"a"', 'br#"a"#', 'c"a"', 'cr"a"', "'a'", "'\\''", "'''", "b'a'",
         "b'\\''", "'a", "'_", 'r#a', '1.0', '1e3', '1e-3', '0x1F', '1_000u8', '/* a */', '/** a */', '/*! a */', '// a\n',
         '/// a\n', '//! a\r\n', '/* /* */ */', '"a"b', "'a'b", '(a)', '{1}', '[]', '\xe9']
KINDS = [(QUOTES, 6), (LETTERS, 5), (NUMBERS, 5), (COMMENTS, 4), (SPACES, 2), (BEYOND, 1), (MARKS, 3), (GROUPS, 1), (WHOLE, 7)]


def random_text(pick):
    """A text of some pieces: of all kinds, of two kinds alone, or whole tokens with one character taken away or put in."""
    form = pick.randrange(4)
    kinds = KINDS if form < 2 else pick.sample(KINDS, 2) if form == 2 else [(WHOLE, 9), (SPACES, 1)]
    lists, weights = zip(*kinds)
    pieces = [pick.choice(pick.choices(lists, weights)[0]) for _ in range(pick.choice([1, 2, 2, 3, 3, 4, 5, 7, 10, 15]))]
    if pick.random() < 0.15:
        opening, closing = pick.choice(['()', '{}', '[]'])
        pieces = [opening] + pieces + [closing]
    text = ''.join(pieces)
    if form == 3 and text:
        place = pick.randrange(len(text))
        put = pick.choice(pick.choices([kind for kind, _ in KINDS], [weight for _, weight in KINDS])[0])
        text = text[:place] + pick.choice([put, '']) + text[place + pick.randrange(2):]
    return text


class Oracle:
    """The other reading, in the program's lines."""

    def __init__(self, folder):
        path = Path(folder) / 'oracle.py'
        if not path.is_file():
            raise FileNotFoundError(f'the other reading is not there: {path}')
        spec = importlib.util.spec_from_file_location('oracle', path)
        self.module = importlib.util.module_from_spec(spec)
        spec.loader.exec_module(self.module)

    def line(self, text):
        try:
            trees = self.module.read_tokens(text)
        except self.module.SynErr as error:
            return f'refused at {error.pos}: {error.text}'
        words = []
        self.add(trees, words)
        return ' '.join(words) + '\t' + self.module.token_text(trees).encode().hex()

    def add(self, trees, words):
        for tree in trees:
            if isinstance(tree, self.module.Ident):
                words.append(f'Ident:{tree.s}:{tree.e}:{tree.text.encode().hex()}')
            elif isinstance(tree, self.module.Lit):
                words.append(f'{tree.kind}:{tree.s}:{tree.e}:{tree.text.encode().hex()}')
            elif isinstance(tree, self.module.Punct):
                words.append(f'Punct:{tree.s}:{tree.e}:{ord(tree.ch):02x}:{"Joint" if tree.joint else "Alone"}')
            else:
                words.append(f'{tree.delim}:{tree.os}:{tree.oe}')
                self.add(tree.trees, words)
                words.append(f'{self.module.CLOSE[tree.delim]}:{tree.cs}:{tree.ce}')


def program_lines(program, texts):
    """The program's line of each text."""
    given = ''.join(text.encode().hex() + '\n' for text in texts)
    done = subprocess.run([program], input=given.encode(), stdout=subprocess.PIPE)
    lines = done.stdout.decode().split('\n')[:-1]
    if done.returncode != 0 or len(lines) != len(texts):
        raise RuntimeError(f'{program} ended with status {done.returncode} after {len(lines)} of {len(texts)} texts')
    return lines


def differences(program, oracle, texts):
    """The texts whose lines differ, with the program's line and the other one; and how each text was answered."""
    found, answers = [], Counter()
    for text, line in zip(texts, program_lines(program, texts)):
        expected = oracle.line(text)
        answers[expected.split(': ')[1] if expected.startswith('refused') else 'read'] += 1
        if line != expected:
            found.append((text, line, expected))
    return found, answers


def smaller(program, oracle, difference):
    """A difference of a text from which no single character can be taken away any more."""
    while True:
        text = difference[0]
        found, _ = differences(program, oracle, [text[:i] + text[i + 1:] for i in range(len(text))])
        if not found:
            return difference
        difference = found[0]


def readable(line):
    """A line with its texts in place of their hex digits."""
    if line.startswith('refused'):
        return line
    words = []
    for word in line.split('\t')[0].split():
        parts = word.split(':')
        if len(parts) > 3:
            parts[3] = repr(bytes.fromhex(parts[3]).decode())
        words.append(':'.join(parts))
    return ' '.join(words) + '  text ' + repr(bytes.fromhex(line.split('\t')[1]).decode())


def main():
    parser = argparse.ArgumentParser(description=__doc__, formatter_class=argparse.RawDescriptionHelpFormatter)
    parser.add_argument('--count', type=int, default=300000)
    parser.add_argument('--seed', type=int, default=1)
    parser.add_argument('--bin', default=str(PROGRAM))
    parser.add_argument('--oracle', default=str(ORACLE))
    parser.add_argument('--show', type=int, default=20)
    options = parser.parse_args()
    pick = random.Random(options.seed)
    differ, answers = 0, Counter()
    try:
        oracle = Oracle(options.oracle)
        for start in range(0, options.count, BATCH):
            texts = [random_text(pick) for _ in range(min(BATCH, options.count - start))]
            found, these = differences(options.bin, oracle, texts)
            answers += these
            for difference in found[:max(0, options.show - differ)]:
                text, line, expected = smaller(options.bin, oracle, difference)
                print(f'DIFFERENCE {text!r}\n   program {readable(line)}\n   other   {readable(expected)}', flush=True)
            differ += len(found)
    except (OSError, RuntimeError) as error:
        print(f'fuzz_reader: {error}', file=sys.stderr)
        sys.exit(2)
    print(f'{options.count} texts, seed {options.seed}: ' + ', '.join(f'{n} {answer}' for answer, n in answers.most_common()))
    print(f'{differ} differ')
    sys.exit(1 if differ else 0)


if __name__ == '__main__':
    main()
