#!/usr/bin/env python3
"""Tests of tools/grammarlib/full.py and cut.py: of which rules what is shown is read again, and where. Run it with no arguments."""
import re
import unittest

from grammar import checked
from test_grammar import HEAD, Table

PATH = 'table a = plainly name & (when at_mark colons then punctuation colons & rule a else empty)'
AT_END = 'table a = plainly name & (when ended then empty else never)'
NOT_AT_END = 'table a = plainly name & (when ended then never else empty)'
BEFORE_COMMA = 'table a = plainly name & (when at_mark comma then empty else punctuation semicolon)'
# where the rest is cut off, a fact may become false and not true (OFF); it is what the rule was chosen by (ON); it may become true (RISING)
OFF = 'table a = when at_name and_also ahead Before_equals then asking name & punctuation equals & plainly name else asking name'
ON = 'table a = when at_name and_also ahead Before_equals then asking name & (when at_mark equals then empty else never) else asking name'
RISING = 'table a = when at_word w_crate and_also ahead Before_end then asking (word w_crate) else asking (word w_crate)'
# the fact looks as far as two trees, and the second may be the first of the rest
FAR = ['table a = when at_name and_also ahead Before_macro then rule b else asking name',
       'table b = asking name & asking_punctuation colons & asking name & (when at_mark exclamation but_not at_mark not_equals then empty else never)']
# a mark that is kept as it stands may be joined to what follows
CAPTURED = [OFF.replace('table a', 'table b'), 'table a = captured (punctuation semicolon) & rule b']
# an impl of a type that may begin with `<`: nothing tells whether generics stand there once the marks are shown apart
IMPL = ['table a = generics_before lifetime (plainly (word w_const) & plainly name) '
        '(when at_mark less then punctuation less & plainly name & punctuation greater & inside Brace empty else inside Brace empty)',
        'table b = plainly name & rule a', 'table c = plainly name']


class Full(unittest.TestCase):
    setUp, tearDown, write = Table.setUp, Table.tearDown, Table.write

    def told(self, lines):
        """What the written file says of each rule: whether it reads what is shown, stands alone, and before which marks it stands."""
        files, complaints = checked(self.write(HEAD + '\n'.join(lines) + '\n'))
        self.assertEqual([str(c) for c in complaints], [])
        text = files['specs/IsAlone.antt']
        value = lambda name, rule: re.search(rf'^{name} {rule} = (.*)$', text, re.M)[1]
        return {rule: tuple(value(name, rule) for name in ('reads_shown', 'is_alone', 'is_before'))
                for rule in re.findall(r'^reads_shown (\w+) =', text, re.M)}

    def test_a_path_is_alone(self):
        self.assertEqual(self.told([PATH])['a'], ('true', 'true', 'comma ∷ semicolon ∷ []'))

    def test_a_rule_that_is_read_at_the_end_alone_is_alone(self):
        self.assertEqual(self.told([AT_END])['a'], ('true', 'true', 'comma ∷ semicolon ∷ []'))

    def test_a_rule_that_is_not_read_at_the_end_is_not_alone(self):
        self.assertEqual(self.told([NOT_AT_END])['a'], ('true', 'false', '[]'))

    def test_a_fact_that_only_must_not_become_true_hinders_nothing(self):
        self.assertEqual(self.told([OFF])['a'], ('true', 'true', 'comma ∷ semicolon ∷ []'))

    def test_a_fact_that_must_stay_true_hinders(self):
        self.assertEqual(self.told([ON])['a'], ('true', 'false', 'comma ∷ semicolon ∷ []'))
        self.assertEqual(self.told(FAR)['a'][:2], ('true', 'false'))

    def test_a_fact_that_is_known_before_the_end_hinders(self):
        self.assertEqual(self.told([RISING])['a'], ('true', 'false', '[]'))

    def test_what_is_kept_as_it_is_may_end_joined(self):
        told = self.told(CAPTURED)
        self.assertEqual([told[rule][1] for rule in 'ab'], ['false', 'true'])

    def test_a_rule_that_asks_for_a_mark_is_not_before_it(self):
        self.assertEqual(self.told([BEFORE_COMMA])['a'], ('true', 'false', 'semicolon ∷ []'))

    def test_what_names_a_rule_that_is_not_read_shown_is_not_either(self):
        told = self.told(IMPL)
        self.assertEqual([told[rule][0] for rule in 'abc'], ['false', 'false', 'true'])
        self.assertEqual([told[rule][1:] for rule in 'ab'], [('false', '[]')] * 2)


del Table  # its tests run in test_grammar.py

if __name__ == '__main__':
    unittest.main()
