#!/usr/bin/env python3
"""Tests of plant.py: names with their paths, and what is told of the bodies. Nothing is proved."""

import contextlib
import io
import unittest
from collections import namedtuple
from types import SimpleNamespace

import plant

Body = namedtuple("Body", "text same kind", defaults=(None, ""))
Function = namedtuple("Function", "shown")


class Names(unittest.TestCase):
    def test_with_their_paths(self):
        for text, crate, wanted in [
            ("Err(Refusal::Memory)", "syn_lower", "Err(syn_parse::read::refusal::Refusal::Memory)"),
            ("Err(Refusal::Memory)", "syn_parse", "Err(crate::read::refusal::Refusal::Memory)"),
            ("Err(syn_tokens::Span { start: 0, end: 0 })", "syn_lower", "Err(syn_tokens::span::Span { start: 0, end: 0 })"),
            ('Error::new(Span::call_site(), "")', "syn_tokens", 'crate::error::Error::new(crate::span::Span::call_site(), "")'),
            ("io::Error::new()", "syn_canon", "io::Error::new()"),
            ("CompactSpan::of(MySpan { x })", "syn_tokens", "CompactSpan::of(MySpan { x })"),
            ("Some(span)", "syn", "Some(span)"),
        ]:
            with self.subTest(text):
                self.assertEqual(plant.in_full(text, crate), wanted)

    def test_in_all_bodies(self):
        class Bodies:
            def giving_up(self):
                return [Body("Error::new()", "same")]

            def over_the_real_one(self, refused):
                return [Body(refused)]

        bodies = SimpleNamespace(Bodies=Bodies)
        plant.names_in_full(bodies, "syn")
        self.assertEqual(Bodies().giving_up(), [Body("syn_tokens::error::Error::new()", "same")])
        self.assertEqual(Bodies().over_the_real_one("Span::new()"), [Body("syn_tokens::span::Span::new()")])


class Symbols(unittest.TestCase):
    def test_of_a_type_whose_name_begins_another(self):
        meta, list_ = "low::attr::MetaPartialEq::eq", "low::attr::MetaListPartialEq::eq"
        for shown, symbols, wanted in [
            ("src/attr.rt:1 <Meta as PartialEq>::eq", [meta, list_], [meta]),
            ("src/attr.rt:9 <MetaList as PartialEq>::eq", [list_], [list_]),
            ("src/attr.rt:2 <List<T> as PartialEq>::eq", [meta, list_], [meta, list_]),
            ("src/attr.rt:3 free", [], []),
        ]:
            with self.subTest(shown):
                functions = [SimpleNamespace(shown=shown, symbols=symbols)]
                self.assertEqual(plant.with_own_symbols(functions)[0].symbols, wanted)


class Told(unittest.TestCase):
    def said_of(self, *kinds, shows_all=False):
        kit = SimpleNamespace(KINDS="proves same refused elsewhere not-judged not-source not-run".split(), GIVES_UP=["constant"])
        functions = [Function(f"src/lib.rt:{number} f{number}") for number in range(3)]
        plants = [SimpleNamespace(kind=kind, f=f, form="constant", body="0", why="") for kind, f in zip(kinds, functions)]
        said = io.StringIO()
        with contextlib.redirect_stdout(said):
            status = plant.tell(kit, "low", (functions, functions[2:], plants), shows_all)
        return status, said.getvalue()

    def test_a_body_that_meets_the_contract(self):
        status, said = self.said_of("refused", "proves")
        self.assertEqual(status, 1)
        self.assertIn("proves      src/lib.rt:1 f1: { 0 }\n", said)
        self.assertNotIn("f0", said)

    def test_counts(self):
        status, said = self.said_of("refused", "not-source")
        self.assertEqual(status, 0)
        self.assertIn("no-ensures  src/lib.rt:2 f2\n", said)
        self.assertIn("planted-in=3 untested=2 no-ensures=1 proves=0 same=0 refused=1 elsewhere=0 not-judged=0 not-source=1 not-run=0", said)

    def test_all(self):
        self.assertIn("refused     src/lib.rt:0 f0: { 0 }\n", self.said_of("refused", shows_all=True)[1])


class Kit(unittest.TestCase):
    def test_it_has_what_is_used(self):
        made = plant.kit()
        self.assertEqual((made.BATCH, made.SECONDS), (plant.BATCH, plant.SECONDS))
        self.assertTrue({"proves", "refused", "not-source"} <= {*made.KINDS})


if __name__ == "__main__":
    unittest.main()
