#!/usr/bin/env python3
"""Checks the table of the written grammar and writes what the proofs need to know of each rule.

    tools/grammar.py            reads crates/syn_grammar/specs/Table.antt, checks it, and writes the other files
    tools/grammar.py --check    writes nothing; fails where a written file isn't what it would write, or where the examples lack something
    tools/grammar.py --lower    writes tools/untold_borders.txt, of the rules of which fewer borders lack an example than it says
    tools/grammar.py --crate F  the same of the crate in the folder F

The theorems of tools/examples.txt are files of a crate of their own, crates/syn_examples (--examples names another folder).

Fails, with a complaint for each fault, where the table breaks a test that the laws need (`EXPLAINED` of tools/grammarlib/complaints.py says
what each means, and so does the output)."""
import argparse
import sys
from pathlib import Path

from grammarlib.antt import Fault
from grammarlib.antt_text import Writer
from grammarlib.apart import Apart
from grammarlib.borders import Borders, read_equivalent, read_untold, written_untold
from grammarlib.complaints import EXPLAINED, Tests
from grammarlib.examples import Theorems, parse
from grammarlib.lookaheads import Lookaheads
from grammarlib.ranks import ranks
from grammarlib.source import Source
from grammarlib.starts import Starts
from grammarlib.write import Files

HERE = Path(__file__).resolve().parent
SHOWN = 20  # complaints that are printed
UNTOLD = HERE / 'untold_borders.txt'


def checked(source):
    """The files that the table gives, and the complaints about it."""
    starts = Starts(Lookaheads(source), source.table)
    tests = Tests(starts, Writer(source).look)
    rank, circles = ranks(starts)
    complaints = tests.complaints() + Apart(starts).complaints() + circles
    return (None if complaints else Files(source, starts, tests, rank).all()), complaints


def worked_examples(source):
    """The files of the worked examples, what they lack (of each rule one that is read, one that is refused, and its borders), and the borders."""
    lookaheads, examples = Lookaheads(source), parse(HERE / 'examples.txt', source.rules)
    files, bare = Theorems(source, lookaheads).files(examples)
    lacking = [f'`{rule}`: an example that is read, and one that is refused' for rule in bare]
    borders = Borders(lookaheads, source.table, examples, read_equivalent(HERE / 'equivalent_mutants.txt'), read_untold(UNTOLD))
    return files, lacking + borders.lacking(), borders


def report_lacking(lacking):
    for line in lacking[:SHOWN]:
        print(f'grammar: tools/examples.txt lacks: {line}', file=sys.stderr)
    if len(lacking) > SHOWN:
        print(f'.. and {len(lacking) - SHOWN} more', file=sys.stderr)


def complain(complaints):
    for complaint in complaints[:SHOWN]:
        print(complaint, file=sys.stderr)
    if len(complaints) > SHOWN:
        print(f'.. and {len(complaints) - SHOWN} more', file=sys.stderr)
    for code in dict.fromkeys(c.code for c in complaints):
        print(f'{code}: {EXPLAINED[code]}', file=sys.stderr)


def read_table(crate):
    """The table, the files that it gives, the files of its examples, what these lack, and its borders. Exits where the table is refused."""
    try:
        source = Source(crate)
        files, complaints = checked(source)
        if complaints:
            complain(complaints)
            sys.exit(f'grammar: {len(complaints)} complaints; nothing was written')
        examples, lacking, borders = worked_examples(source)
        return source, files, examples, lacking, borders
    except Fault as fault:
        sys.exit(f'grammar: {fault}')


def report_unexplained(source):
    for name in source.without_sentence():
        print(f'grammar: no sentence explains `{name}`', file=sys.stderr)
    page = HERE.parent / 'docs' / 'reference' / 'RULES.md'
    rows = page.read_text() if page.exists() else ''
    for rule in source.rules:
        if f'`{rule}`' not in rows:
            print(f'grammar: docs/reference/RULES.md has no row for the rule `{rule}`', file=sys.stderr)


def lower(borders):
    """Writes the counts of borders without an example that became fewer."""
    counts = {rule: min(n, borders.counts.get(rule, 0)) for rule, n in borders.untold.items()}
    UNTOLD.write_text(written_untold(counts))
    print(f'grammar: {sum(counts.values())} borders without an example, {sum(borders.untold.values())} before')


def named(paths):
    """The paths without the folders above the crates."""
    return ', '.join('/'.join(path.parts[-3:]) for path in paths)


def main():
    parser = argparse.ArgumentParser(description=__doc__, formatter_class=argparse.RawDescriptionHelpFormatter)
    parser.add_argument('--check', action='store_true', help='write nothing, and fail where a file differs or the examples lack something')
    parser.add_argument('--crate', type=Path, default=HERE.parent / 'crates' / 'syn_grammar')
    parser.add_argument('--examples', type=Path, default=HERE.parent / 'crates' / 'syn_examples', help='the folder of the crate of the examples')
    parser.add_argument('--lower', action='store_true', help='write the counts of borders without an example that became fewer')
    options = parser.parse_args()
    source, files, examples, lacking, borders = read_table(options.crate)
    if options.lower:
        lower(borders)
        return
    report_unexplained(source)
    report_lacking(lacking)
    written = {options.crate / p: text for p, text in files.items()} | {options.examples / p: text for p, text in examples.items()}
    stale = [p for p, text in written.items() if not p.exists() or p.read_text() != text]
    others = [p for p in sorted((options.examples / 'proofs').glob('Examples*.antt')) if p not in written]
    if options.check:
        if stale or others:
            sys.exit('grammar: run tools/grammar.py; these files are not what it writes: ' + named(stale + others))
        if lacking:
            sys.exit(f'grammar: {len(lacking)} things are lacking in the examples')
        print(f'grammar: {len(source.rules)} rules, all files as written; {sum(borders.counts.values())} borders without an example')
        return
    for path in others:
        path.unlink()
    for path in stale:
        path.write_text(written[path])
    print(f'grammar: {len(source.rules)} rules; written: {named(stale) or "nothing, all files are up to date"}')


if __name__ == '__main__':
    main()
