#!/usr/bin/env python3
"""Tests of recognizers.py. Run it with no arguments."""
import re
import shutil
import subprocess
import sys
import tempfile
import unittest
from pathlib import Path

from recognizers import BY_PLANS, CRATE, CUT, LARGEST, PLACES, PLANS, Writer, camel, rules_in, size

HERE = Path(__file__).resolve().parent
TOP = HERE.parent


def check(folder):
    found = subprocess.run([sys.executable, HERE / 'recognizers.py', '--check'], cwd=folder, capture_output=True, text=True)
    return found.returncode, found.stderr


def forms_of(plan):
    """The forms that a plan reads."""
    own = [plan[1]] if plan[0] == 'reads' else [plan[2]] if plan[0] == 'then' else []
    return own + [form for part in plan[1:] if isinstance(part, tuple) and part and isinstance(part[0], str) for form in forms_of(part)]


class Recognizers(unittest.TestCase):
    @classmethod
    def setUpClass(cls):
        cls.writer = Writer()

    def copy(self):
        """The crates that the script reads and writes, in a folder of their own."""
        folder = tempfile.TemporaryDirectory()
        self.addCleanup(folder.cleanup)
        for name in ('syn_grammar', 'syn_recognize'):
            shutil.copytree(TOP / 'crates' / name, Path(folder.name) / 'crates' / name, ignore=shutil.ignore_patterns('out'))
        return Path(folder.name)

    def test_all_rules_that_are_led_to_are_data(self):
        rules = self.writer.rules()
        self.assertEqual({*rules, *BY_PLANS}, {*self.writer.source.rules})
        for rule in rules:
            if rule not in PLANS:
                self.assertLessEqual({*rules_in(self.writer.source.table[rule])}, {*rules}, rule)

    def test_plans_read_what_is_data(self):
        forms = [form for name in PLANS.values() for form in forms_of(self.writer.plans.plan(name))]
        self.assertGreater(len(forms), 100)
        for form in forms:
            self.assertLessEqual({*rules_in(form)}, {*self.writer.rules()}, form)

    def test_rules_present_in_the_order_of_the_table(self):
        rules = self.writer.rules()
        self.assertEqual(rules, sorted(rules, key=self.writer.source.rules.index))

    def test_looks_as_data(self):
        self.assertEqual(self.writer.look(('ended',)), 'Look::Ended')
        self.assertEqual(self.writer.look(('at_literal', ('Int',))), 'Look::Integer')
        both = self.writer.look(('or_else', ('ended',), ('at_name',)))
        self.assertEqual(both, 'Look::Or(&Look::Ended, &Look::Name)')

    def test_a_look_without_data_is_a_fault(self):
        with self.assertRaisesRegex(ValueError, 'no data for the look'):
            self.writer.look(('ahead', ('Before_end',)))

    def test_names(self):
        self.assertEqual(camel('whole_expression'), 'WholeExpression')

    def test_what_present_is_what_would_be_written(self):
        self.assertEqual(check(self.copy()), (0, ''))

    def statics(self):
        """The form of each static that is written, by its name."""
        texts = [file.read_text() for file in [*(TOP / CRATE / 'src/rules').glob('*.rt'), TOP / CRATE / 'src/plan.rt']]
        return dict(found for text in texts for found in re.findall(r'static (\w+): Form = (.*?);\n', text, re.DOTALL))

    def test_no_static_is_large(self):
        self.assertGreater(len(self.statics()), len(self.writer.rules()))
        texts = [file.read_text() for file in (TOP / CRATE / 'src').rglob('*.rt')]
        sizes = {name: size(form) for text in texts for name, form in re.findall(r'static (\w+): (?:Form|Plan) = (.*?);\n', text, re.DOTALL)}
        self.assertEqual({name: it for name, it in sizes.items() if it > LARGEST}, {})

    def test_each_part_present_in_one_form(self):
        forms = ' '.join(self.statics().values())
        named = re.findall(r'Part::(\w+)', forms)
        self.assertEqual(len(named), len(set(named)))
        elsewhere = re.findall(r'Part::(\w+)', ''.join((TOP / CRATE / 'src' / name).read_text() for name in ('list.rt', 'plan.rt')))
        self.assertEqual(len(self.statics()), len(self.writer.rules()) + len({*named, *elsewhere}))

    def test_parts_that_others_speak_of_have_statics(self):
        for rule, way in CUT:
            self.assertIn((rule, way), {(k, steps) for _, k, steps, _ in self.parts()})

    def parts(self):
        writer = Writer()
        writer.files()
        return writer.parts

    def test_each_place_present_in_its_rule(self):
        statics = self.statics()
        for (rule, it), place in PLACES.items():
            forms = ' '.join(form for name, form in statics.items() if re.fullmatch(rf'{rule.upper()}(_\d+)?', name))
            self.assertRegex(forms, rf'At\(\w+::{re.escape(it)}, Place::{place}\)', rule)

    def test_a_look_that_is_too_large_is_refused(self):
        writer = Writer()
        writer.rule = 'type'
        with self.assertRaisesRegex(ValueError, 'a look of type refers to too many others'):
            writer.made('When(' + '&Look::' * LARGEST, [(('empty',), ()), (('empty',), ())])

    def known_of_change(self, name, old, new):
        """What the script says of a copy in which this text of a file is changed."""
        folder = self.copy()
        file = folder / name
        text = file.read_text()
        self.assertIn(old, text)
        file.write_text(text.replace(old, new))
        return check(folder)

    def test_a_changed_file_is_known(self):
        status, said = self.known_of_change('crates/syn_recognize/src/rules/types.rt', 'Mark::Semi', 'Mark::Comma')
        self.assertEqual(status, 1)
        self.assertIn("src/rules/types.rt isn't as tools/recognizers.py writes it", said)

    def test_a_changed_table_is_known(self):
        length = 'semicolon & rule whole_expression else empty))'
        status, said = self.known_of_change('crates/syn_grammar/specs/Table.antt', f'punctuation {length}', f'punctuation comma & punctuation {length}')
        self.assertEqual(status, 1)
        self.assertIn('src/rules/types.rt', said)


if __name__ == '__main__':
    unittest.main()
