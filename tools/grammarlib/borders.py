"""The borders of a rule: a worked example of that rule must detect each change of its form (mutants.py).

An example detects a change if the changed table reads its text differently than it says. Changes that alter nothing of what is
read and printed are named, with the reason, in tools/equivalent_mutants.txt. The number of borders of each rule without an example is in
tools/untold_borders.txt; they may only become fewer.
"""
from .antt import Fault
from .antt_text import Writer
from .apart import Apart
from .complaints import Tests
from .mutants import ANY_REST, Mutants, places
from .ranks import ranks
from .reader import Reader, Refused
from .starts import Starts
from .tokens import Stream, read_text, stream


def read_equivalent(path):
    """The reason of each change that is named as one that alters nothing, by its rule and its words."""
    found = {}
    for number, line in enumerate(path.read_text().split('\n') if path.exists() else [], 1):
        if not line.strip() or line.startswith('#'):
            continue
        parts = [p.strip() for p in line.split(' | ')]
        if len(parts) != 3 or not all(parts):
            raise Fault(f'{path.name}, line {number}: a line is `rule | change | reason`')
        if tuple(parts[:2]) in found:
            raise Fault(f'{path.name}, line {number}: the same change is listed before')
        found[tuple(parts[:2])] = parts[2]
    return found


def read_untold(path):
    """How many borders of each rule may lack an example."""
    found = {}
    for number, line in enumerate(path.read_text().split('\n') if path.exists() else [], 1):
        if not line.strip() or line.startswith('#'):
            continue
        parts = line.split()
        if len(parts) != 2 or not parts[1].isdigit() or parts[0] in found:
            raise Fault(f'{path.name}, line {number}: a line is `rule count`, each rule once')
        found[parts[0]] = int(parts[1])
    return found


def written_untold(counts):
    """The file of such counts."""
    lines = ['# How many borders of a rule no example detects yet (tools/examples.txt). They may only become fewer: tools/grammar.py --check fails',
             '# where a rule has more. tools/grammar.py --lower writes those that became fewer.']
    return '\n'.join(lines + [f'{rule} {n}' for rule, n in counts.items() if n]) + '\n'


class WrongReader(Reader):
    """A reader of a changed table, which may have one form more."""

    def read_any_rest(self, form, here):
        return ('tokens', tuple(here.trees())), Stream()


class Prepared:
    """An example with its trees."""

    def __init__(self, example):
        self.name, self.rule, self.unread = example.name, example.rule, example.unread
        self.stream = stream(read_text(example.text))
        self.printed = None if example.printed is None else list(read_text(example.printed))
        self.rest = list(read_text(example.rest))

    def agrees(self, reader):
        """The reader reads it as the example says."""
        try:
            tree, rest = reader.read(('rule', (self.rule,)), self.stream)
        except Refused:
            return self.printed is None
        except RecursionError:
            return False
        left = rest.trees()
        if self.printed is None:
            return bool(left) and not self.unread
        return left == self.rest and reader.print(tree) == self.printed


class Borders:
    def __init__(self, lookaheads, table, examples, equivalent, untold=None):
        self.lookaheads, self.table, self.equivalent, self.untold = lookaheads, table, equivalent, untold or {}
        self.counts = {}  # how many borders of each rule have no example, once they were looked for
        self.mutants = Mutants(lookaheads, table)
        self.examples = {rule: [Prepared(e) for e in examples if e.rule == rule] for rule in table}

    def reader(self, mutant):
        return WrongReader(self.lookaheads, {**self.table, mutant.rule: mutant.form})

    def told(self, mutant):
        """The name of an example of the rule that detects this change, or None."""
        reader = self.reader(mutant)
        return next((p.name for p in self.examples[mutant.rule] if not p.agrees(reader)), None)

    def law(self, mutant):
        """The complaint by which a law refuses the changed table, or None."""
        if any(part == ANY_REST for _, part in places(mutant.form)):
            return None
        starts = Starts(self.lookaheads, {**self.table, mutant.rule: mutant.form})
        found = Tests(starts, Writer(self.lookaheads.source).look).complaints() + Apart(starts).complaints() + ranks(starts)[1]
        return found[0].code if found else None

    def lacking(self, rules=None):
        """What tools/examples.txt and the list of equivalent changes lack of these rules, else of all, one line each. Of a rule that may
        lack examples of some borders none is listed, unless it lacks more."""
        lines, known, rules = [], set(), rules or list(self.table)
        for rule in rules:
            bare = []
            for mutant in self.mutants.of(rule):
                known.add((rule, mutant.change))
                listed, told = (rule, mutant.change) in self.equivalent, self.told(mutant)
                if listed and told:
                    lines.append(f'`{rule}`: the change "{mutant.change}" is listed as one that alters nothing, but the example `{told}` detects it')
                elif not listed and not told:
                    bare.append(f'`{rule}`: no example detects the change "{mutant.change}"')
            self.counts[rule] = len(bare)
            lines += self.too_many(rule, bare)
        return lines + [f'`{rule}`: "{change}" is listed as a change that alters nothing, but is no change of this rule'
                        for rule, change in self.equivalent if rule in rules and (rule, change) not in known]

    def too_many(self, rule, bare):
        """The lines, where they are more than the rule may have."""
        may = self.untold.get(rule, 0)
        if len(bare) <= may:
            return []
        return ([f'`{rule}`: {len(bare)} borders have no example, and {may} may (tools/untold_borders.txt)'] if may else []) + bare
