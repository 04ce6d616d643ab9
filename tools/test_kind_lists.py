#!/usr/bin/env python3
"""Tests of the table of kinds, and of the lists of kinds that kinds.py writes from it."""
import tempfile
import unittest
from pathlib import Path

from kindslib import conversions, exports, items, outlines, rows
from kindslib.fields import missing_fields
from kindslib.parts import BEGIN, END, with_parts
from kindslib.source import Fault, Source
from kindslib.table import BadRow, read_table

TYPES = {
    "item": """/// Items.
pub enum Item {
    Fn(ItemFn),
    Ty(ItemType),
    Verbatim(TokenStream),
}
""",
    "simple": """/// Items.
pub struct ItemFn {
    pub sig: Signature,
}

pub struct ItemType {
    pub ident: Ident,
}
""",
    "traits": "pub enum TraitItem {\n    Verbatim(TokenStream),\n}\n",
    "impls": "pub enum ImplItem {\n    Verbatim(TokenStream),\n}\n",
    "foreign": "pub enum ForeignItem {\n    Verbatim(TokenStream),\n}\n",
    "use_tree": "pub enum UseTree {\n    Glob(UseGlob),\n}\n\npub struct UseGlob {\n    pub star: Star,\n}\n",
    "sig": "pub enum FnArg {\n    Typed(PatType),\n}\n",
}
TABLE = """[program]
item       Item      item
item-fn    ItemFn    function   tried=2 name=fn guess=fn
# A comment.
item-type  ItemType  type_item  tried=1 name=type,mut guess=type? listed=listed_type

[library]
-          Pat       pattern
"""
GRAMMAR = "table item =\n    one_of (function ∷ listed_type ∷ kept_item ∷ [])\n"


class Table(unittest.TestCase):
    def test_a_row_has_a_word_a_type_and_a_rule(self):
        table = read_table(TABLE)
        self.assertEqual([(row.word, row.type, row.rule) for row in table["program"]], [("item", "Item", "item"), ("item-fn", "ItemFn", "function"), ("item-type", "ItemType", "type_item")])
        self.assertEqual([(row.listed, row.listed_word) for row in table["program"][1:]], [("function", "fn"), ("listed_type", "type")])
        self.assertEqual([row.type for row in table["library"]], ["Pat"])

    def test_a_bad_row_is_refused_with_its_line(self):
        for text, said in (
            ("[program]\nfile File\n", "line 2: a row is a word"),
            ("[program]\nfile File file other=1\n", "line 2: after the rule"),
            ("[program]\nfile File file tried\n", "line 2: after the rule"),
            ("file File file\n", "line 1: a row before"),
            ("[others]\n", "line 1: no section"),
            ("[program]\nfile File file\nfile File file\n", "line 3: file has two rows"),
        ):
            with self.assertRaises(BadRow) as found:
                read_table(text)
            self.assertIn(said, str(found.exception))


class Lists(unittest.TestCase):
    def setUp(self):
        folder = tempfile.TemporaryDirectory()
        self.addCleanup(folder.cleanup)
        self.crates = Path(folder.name)
        for name, text in TYPES.items():
            self.write(f"syn_item/src/{name}.rt", text)
        self.source = Source(self.crates / "syn_item")
        self.rows = read_table(TABLE)["program"]

    def write(self, name, text):
        path = self.crates / name
        path.parent.mkdir(parents=True, exist_ok=True)
        path.write_text(text)
        return path

    def test_only_the_parts_of_a_file_are_written(self):
        path = self.write("a.rt", f"one\n// {BEGIN}\nold\n// {END}\ntwo\n    // {BEGIN}\n    // {END}\n")
        self.assertEqual(with_parts(path, ["fn f() {}\n", "    pub use a::b;\n"]), f"one\n// {BEGIN}\n\nfn f() {{}}\n\n// {END}\ntwo\n    // {BEGIN}\n    pub use a::b;\n    // {END}\n")
        with self.assertRaises(Fault):
            with_parts(path, ["one part"])

    def test_a_kind_has_a_variant_a_rule_a_name_and_a_guess(self):
        kinds = items.item_kinds(self.source, self.rows)
        self.assertIn("        ItemKind::Ty => Some(Rule::LISTED_TYPE),\n        ItemKind::Verbatim => None,\n", items.rule_by(kinds))
        self.assertIn('        ItemKind::Fn => name_after(&trees, "fn"),\n        ItemKind::Ty => name(&after_mut(&following(&trees, Marker::Word("type")))),\n', items.name_ahead(kinds))
        self.assertIn('        "fn" => Some(ItemKind::Fn),\n        "macro" => Some(ItemKind::Verbatim),\n        "type" => known_before_name(ItemKind::Ty, following),\n', items.known_by_word(kinds))
        self.assertIn('kind_word listed_type = codes "type"\n', items.spec_words(kinds))
        self.assertIn("syntax_of_Item (Item-m.Fn t) = Node (Case function t)\n", items.item_syntax(kinds))

    def test_kinds_are_tried_in_their_order(self):
        kinds = items.item_kinds(self.source, self.rows)
        self.assertEqual(items.shares(kinds), [["Ty", "Fn"], [], []])
        self.assertIn("(K.Ty ∷ K.Fn ∷ [])", items.tries("try_common", "", ["Ty", "Fn"]))
        self.assertIn("all = (no rules.function a.1.0, (no rules.listed_type a.0, (λ t f. (Node t, f), tt)))\n", items.kept(kinds, GRAMMAR))

    def test_a_kind_without_a_row_or_a_rule_of_the_union_is_reported(self):
        with self.assertRaisesRegex(Fault, "Item::Ty has no row"):
            items.item_kinds(self.source, self.rows[:2])
        with self.assertRaisesRegex(Fault, "function"):
            items.kept(items.item_kinds(self.source, self.rows), GRAMMAR.replace("function ∷ ", ""))

    def test_each_variant_is_made_of_what_it_holds(self):
        text = conversions.conversions(self.source, self.crates)[self.crates / "syn_item/src/conversions.rt"]
        self.assertIn("use crate::simple::{ItemFn, ItemType};\n", text)
        self.assertIn("    ghost from_gives = { λ part item. item ≡ items.Ty part };\n\n    fn from(item: ItemType) -> Item {\n        Item::Ty(item)\n", text)
        self.assertIn("impl From<UseGlob> for UseTree {\n", text)
        self.assertNotIn("Verbatim", text)

    def test_rows_are_asked_by_the_names_of_types(self):
        files = rows.row_kinds(self.source, ["ItemFn", "Stmts"], ["Item"], self.crates)
        trees, forms, made = (files[self.crates / f"check_rows/src/{name}.rt"] for name in ("by_kind", "forms_by_kind", "conversions"))
        self.assertIn('        "Item" => answer::<Item>(alloc, question, row),\n        _ => other_tree(', trees)
        self.assertNotIn("Stmts", trees, "a wrapper is no tree")
        self.assertIn('        "Stmts" => form::<Stmts>(alloc, question, row),\n        _ => Err(Failure::Malformed(', forms)
        self.assertIn('        "Item::from(ItemFn)" => called::<Converted<ItemFn, Item>>(alloc, question, row),\n', made)
        self.assertNotIn("Item::from(ItemType)", made, "it has no parser")

    def test_many_rows_are_shared_by_functions(self):
        calls = [(f"T{number}", "call()") for number in range(rows.AT_ONCE + 1)]
        text = rows.functions("first", "Title.", "Question", calls, "other(heading)")
        self.assertIn("        _ => first_1(alloc, question, heading, word, row),\n", text)
        self.assertIn('fn first_1(\n', text)
        self.assertTrue(text.endswith('        "T16" => call(),\n        _ => other(heading),\n    }\n}\n'))

    def test_an_outline_goes_by_the_variants(self):
        self.write("syn_test_support/src/outline.rt", "impl Outlined for ItemFn {\n}\n")
        (text,) = outlines.outlines(self.source, self.crates).values()
        self.assertIn("            Item::Ty(item) => item.show(out),\n            Item::Verbatim(tokens) => {\n", text)
        self.assertIn("impl Outlined for ItemType {\n    fn show(&self, out: &mut TreeText) {\n        self.ident.show(out);\n    }\n}\n", text)
        self.assertNotIn("impl Outlined for ItemFn", text, "it is by hand")

    def test_types_are_exported_by_their_modules(self):
        self.assertEqual(exports.exported(self.source, "top")["syn_item::simple"], {"ItemFn", "ItemType"})
        self.assertNotIn("Items", exports.exported(self.source, "top")["syn_item::item"])
        self.assertIn("Items", exports.exported(self.source, "module")["syn_item::item"])

    def test_a_field_that_no_view_has_is_missing(self):
        self.write("syn_item/specs/Simple.antt", "view_ItemFn a = Node a.sig\nview_UseGlob a = Node a.star\n")
        self.assertEqual(missing_fields([self.crates / "syn_item"]), (["ItemType.ident"], 3))


if __name__ == "__main__":
    unittest.main()
