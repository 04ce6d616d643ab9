#!/usr/bin/env python3
"""Changes the table of the written grammar at one place, and sees whether that is found out.

    tools/mutate_table.py                     all changes of every rule (some hundred, in some seconds)
    tools/mutate_table.py --count N --seed S  a sample of them
    tools/mutate_table.py --rule NAME --all   the changes of one rule, each with what finds it out
    tools/mutate_table.py --find              for each change that nothing detects, looks for a text that does

A change is detected by a worked example of its rule (tools/examples.txt) that the changed table reads otherwise, or by a law that refuses
the changed table. Changes that alter nothing of what is read and printed are named in tools/equivalent_mutants.txt, with the reason. Of
some rules not each border has an example yet; tools/untold_borders.txt has their number (tools/grammar.py counts them).
Ends with 1 where a change of another rule gets through. Writes no file."""
import argparse
import random
import sys
import time
from collections import Counter
from pathlib import Path

from grammarlib.antt import Fault
from grammarlib.borders import Borders, read_equivalent, read_untold
from grammarlib.examples import parse
from grammarlib.lookaheads import Lookaheads
from grammarlib.reader import Reader, Refused
from grammarlib.sentences import Sentences, TooDeep
from grammarlib.source import Source
from grammarlib.tokens import shown, stream

HERE = Path(__file__).resolve().parent
TRIES = 4000  # texts that --find tries of each change


def borders_of(source, examples):
    equivalent, untold = read_equivalent(HERE / 'equivalent_mutants.txt'), read_untold(HERE / 'untold_borders.txt')
    return Borders(Lookaheads(source), source.table, parse(examples, source.rules), equivalent, untold)


def fate(borders, mutant):
    """What finds the change out: a kind, and its name or reason."""
    if told := borders.told(mutant):
        return 'example', told
    if reason := borders.equivalent.get((mutant.rule, mutant.change)):
        return 'alters nothing', reason
    if borders.untold.get(mutant.rule):
        return 'without an example', ''
    if code := borders.law(mutant):
        return 'law', code
    return 'GETS THROUGH', ''


def chosen(borders, options):
    """The changes that are tried."""
    rules = [options.rule] if options.rule else list(borders.table)
    found = [m for rule in rules for m in borders.mutants.of(rule)]
    if options.count and options.count < len(found):
        found = random.Random(options.seed).sample(found, options.count)
    return found


def answer(reader, rule, trees):
    try:
        tree, rest = reader.read(('rule', (rule,)), stream(trees))
        return reader.print(tree), len(rest.trees())
    except (Refused, RecursionError):
        return None


def telling_text(borders, mutant, dice):
    """A short random text that the changed table reads otherwise, or None."""
    right, wrong, found = Reader(borders.lookaheads, borders.table), borders.reader(mutant), None
    tables = [borders.table, {**borders.table, mutant.rule: mutant.form}]
    makers = [Sentences(borders.lookaheads, table, dice) for table in tables]
    for _ in range(TRIES):
        sentences = dice.choice(makers)
        try:
            trees = sentences.sentence(mutant.rule, dice.choice([1, 3, 5]))
        except (TooDeep, AttributeError, IndexError, RecursionError):
            continue
        for _ in range(dice.choice([0, 1, 2])):
            trees = sentences.changed(trees)
        if answer(right, mutant.rule, trees) != answer(wrong, mutant.rule, trees):
            text = shown(trees)
            found = text if found is None or len(text) < len(found) else found
    return found


def quiet_changes(borders, options):
    """Changes of the facts that tokens promise: how many a law refuses, and how many of them are never tested."""
    found = [m for rule in borders.table for m in borders.mutants.of_facts(rule) if options.rule in (None, rule)]
    refused = sum(borders.law(m) is not None for m in found)
    return f'{len(found)} promises taken back: {refused} refused by a law, {len(found) - refused} that nobody asks for'


def main():
    parser = argparse.ArgumentParser(description=__doc__, formatter_class=argparse.RawDescriptionHelpFormatter)
    parser.add_argument('--crate', type=Path, default=HERE.parent / 'crates' / 'syn_grammar')
    parser.add_argument('--examples', type=Path, default=HERE / 'examples.txt')
    parser.add_argument('--rule', help='only this rule')
    parser.add_argument('--count', type=int, default=0, help='how many changes are tried; 0: all')
    parser.add_argument('--seed', type=int, default=1)
    parser.add_argument('--all', action='store_true', help='print each change, not only those that get through')
    parser.add_argument('--find', action='store_true', help='look for texts that detect the changes that get through')
    options = parser.parse_args()
    started = time.time()
    try:
        borders = borders_of(Source(options.crate), options.examples)
    except Fault as fault:
        sys.exit(f'mutate_table: {fault}')
    if options.rule and options.rule not in borders.table:
        sys.exit(f'mutate_table: no rule is named `{options.rule}`')
    fates, dice = Counter(), random.Random(options.seed)
    for mutant in chosen(borders, options):
        kind, name = fate(borders, mutant)
        fates[kind] += 1
        through = kind == 'GETS THROUGH' or (kind == 'without an example' and options.find)
        if through and options.find:
            name = telling_text(borders, mutant, dice) or f'no text of {TRIES} detects it'
        if through or options.all:
            print(f'{kind}: {mutant.rule}: {mutant.change}' + (f' ({name})' if name else ''))
    print(f'{sum(fates.values())} changes of the table: ' + ', '.join(f'{n} {kind}' for kind, n in sorted(fates.items())))
    print(f'{quiet_changes(borders, options)} ({time.time() - started:.0f} s)')
    sys.exit(1 if fates['GETS THROUGH'] else 0)


if __name__ == '__main__':
    main()
