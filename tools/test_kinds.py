#!/usr/bin/env python3
"""Tests of kinds.py."""

import tempfile
import unittest
from pathlib import Path

from kindslib.grammar import HEAD, rows
from kindslib.impls import comparisons, copies, import_lines, prints
from kindslib.lists import comma_lists, list_rules
from kindslib.program import answers_of_streams, canonical, comparisons_of_answers, dispatch, kind_enum, kind_specs
from kindslib.source import MARK, Fault, Source
from kindslib.sweep import sweeps, variant_names, variants_of
from kindslib.views import endings, plain_views

TYPES = """//! Things.
use crate::other::Inner;
use syn_tokens::ident::Ident;
use syn_tokens::punctuated::Punctuated;
use syn_tokens::token::{Colon, Comma, Paren, kind};

/// One.
#[derive(Drop)]
pub struct Thing {
    pub attrs: Vec<Never>,
    pub ident: Option<Ident>,
    pub colon_token: Option<Colon>,
    pub place: Place,
    /// Behind it all is in the group.
    pub paren_token: Paren,
    pub parts: Punctuated<Choice, Comma>,
}

#[derive(Drop)]
pub enum Never {}

#[derive(Clone, Copy)]
pub struct Place {}

#[derive(Drop)]
pub enum Choice {
    /// A mark.
    Mark(Colon),
    Whole(Box<Thing>),
    Nothing,
}
"""
READING = """
impl Read for Thing {
    ghost form = { of (rule rules.thing) };
}
"""
TABLE = """--
-- A thing.
table thing =
    plainly name
--
-- Things.
table things =
    when ended
    then empty
    else rule thing & (when at_comma then punctuation comma & rule things else empty)
--
-- Unread.
table unread =
    when ended then empty
    else rule other & (when at_comma then punctuation comma & rule unread else empty)
--
-- Things that end otherwise.
table others =
    when at_brace
    then empty
    else rule thing & (when at_comma then punctuation comma & rule others else empty)
"""
SPECS = """abbrev pub syntax_of_Choice : Choice-m.the_data → Syntax
"""

READ_BY_HAND = """
fn things<N: Nested>(nested: &N, input: &mut ParseBuffer<'_>) -> Parsed<Punctuated<Thing, Comma>>
    ensures { Computes IsSyntax syntax_of_things (parse_rule rules.things input.old) result input.new }
{
}
"""


class Kinds(unittest.TestCase):
    def crate(self, types=TYPES, specs=SPECS):
        folder = tempfile.TemporaryDirectory()
        self.addCleanup(folder.cleanup)
        self.top = Path(folder.name) / "syn_tree"
        for name, text in (("src/things.rt", types), ("specs/Things.antt", specs)):
            path = self.top / name
            path.parent.mkdir(parents=True, exist_ok=True)
            path.write_text(text)
        return Source(self.top)

    def test_a_field_without_values_is_copied_as_empty_and_not_compared(self):
        source = self.crate()
        copy = copies(source)[self.top / "src/copies/things.rt"]
        self.assertIn("            attrs: Vec::new(alloc),\n", copy)
        self.assertIn("            place: self.place,\n            paren_token: self.paren_token,\n", copy)
        same = comparisons(source)[self.top / "src/compare/things.rt"]
        self.assertIn("self.ident.is_same(&other.ident)\n            && self.colon_token.is_same(&other.colon_token)\n", same)
        self.assertNotIn("attrs", same)
        self.assertNotIn("paren_token", same)

    def test_a_struct_without_fields_represents_what_its_specification_says(self):
        source = self.crate()
        self.assertNotIn("for Place", copies(source)[self.top / "src/copies/things.rt"])
        source = self.crate(specs=SPECS + "abbrev pub syntax_of_Place : Place → Syntax\n")
        self.assertIn("        Ok(*self)\n", copies(source)[self.top / "src/copies/things.rt"])
        same = comparisons(source)[self.top / "src/compare/things.rt"]
        self.assertIn("    fn is_same(&self, _other: &Place) -> bool {\n        true\n", same)
        self.assertIn("ghost eq = { same_by syntax_of_Place };", same)
        self.assertNotIn("place", plain_views(source, set())[self.top / "specs/Plain.antt"])

    def test_attributes_are_a_list_of_their_own(self):
        source = self.crate(TYPES.replace("attrs: Vec<Never>", "attrs: Vec<Attribute>"))
        self.assertIn("            attrs: self.attrs.try_clone(alloc)?,\n", copies(source)[self.top / "src/copies/things.rt"])
        same = comparisons(source)[self.top / "src/compare/things.rt"]
        self.assertIn("    #[tactic(auto, using(syn_lower::proofs::Attributes::same_attributes))]\n    fn is_same(&self, other: &Thing) -> bool {\n        self.attrs.is_same(&other.attrs)\n", same)
        printed = prints(source, {"Choice"})[self.top / "src/prints/things.rt"]
        self.assertIn("        print_outer(&self.attrs, out)?;\n        self.ident.print_in(out)?;\n", printed)
        view = plain_views(source, set())[self.top / "specs/Plain.antt"]
        self.assertIn("view_Thing a = Node (Both (attributes_syntax a.attrs.items) (Both (maybe syntax_of_ident a.ident)", view)

    def test_a_type_of_the_crate_below_is_named_by_that_crate(self):
        lower = self.crate()
        lower.crate = self.top.with_name("syn_lower")
        for t in lower.types.values():
            t.crate = "syn_lower"
        upper = self.top.with_name("above")
        (upper / "src").mkdir(parents=True)
        (upper / "src/holders.rt").write_text("/// A holder.\n#[derive(Drop)]\npub struct Holder {\n    pub choice: Choice,\n}\n")
        source = Source(upper, lower)
        self.assertEqual([t.name for t in source.printed()], ["Holder"])
        self.assertEqual((source.path_of("Choice"), source.own_path_of("Holder")), ("syn_lower", "crate::holders"))
        view = plain_views(source, set())[upper / "specs/Plain.antt"]
        self.assertIn("use Rattle.syn_lower.specs.Things.{syntax_of_Choice}\n", view)
        self.assertIn("view_Holder a = Node (syntax_of_Choice a.choice)\n", view)

    def test_imports_are_in_the_order_of_the_formatter(self):
        lines = import_lines({"a::b": ["C", "D"], "a::b::e": ["f"], "a": ["g"], "a::c": ["H"]})
        self.assertEqual(lines, "use a::b::e::f;\nuse a::b::{C, D};\nuse a::c::H;\nuse a::g;\n")

    def test_an_enum_goes_by_its_variants(self):
        source = self.crate()
        same = comparisons(source)[self.top / "src/compare/things.rt"]
        self.assertIn("(Choice::Whole(a), Choice::Whole(b)) => a.is_same(b),\n            (Choice::Nothing, Choice::Nothing) => true,\n            _ => false,\n", same)
        copy = copies(source)[self.top / "src/copies/things.rt"]
        self.assertIn("Choice::Mark(value) => Ok(Choice::Mark(*value)),\n            Choice::Whole(value) => Ok(Choice::Whole(value.try_clone(alloc)?)),\n", copy)

    def test_a_variants_struct_that_leads_back_isnt_alone(self):
        cycle = "#[cycle(patterns)]\n#[derive(Drop)]\npub"
        source = self.crate(f"/// A.\n{cycle} enum Pat {{\n    Paren(PatParen),\n}}\n\n/// B.\n{cycle} struct PatParen {{\n    pub pat: Box<Pat>,\n}}\n", "abbrev pub syntax_of_Pat : Pat → Syntax\n")
        for files, shared, own in (
            (copies(source)[self.top / "src/copies/things.rt"], "impl CopyNested<Pat>", "impl TryClone"),
            (comparisons(source)[self.top / "src/compare/things.rt"], "impl CompareNested<Pat>", "impl PartialEq"),
            (prints(source, set())[self.top / "src/prints/things.rt"], "impl PrintNested<Pat>", "impl ToTokens"),
        ):
            self.assertIn(f"{shared} for PatParen ", files)
            self.assertNotIn(f"{own} for PatParen ", files)
            self.assertIn(f"{own} for Pat ", files)

    def test_an_operand_is_copied_by_one_plain_function(self):
        cycle = "#[cycle(expressions)]\n#[derive(Drop)]\npub"
        source = self.crate(f"/// A.\n{cycle} enum Expr {{\n    Try(ExprTry),\n}}\n\n/// B.\n{cycle} struct ExprTry {{\n    pub expr: Box<Expr>,\n}}\n", "abbrev pub syntax_of_Expr : Expr → Syntax\n")
        copy = copies(source)[self.top / "src/copies/things.rt"]
        self.assertIn("expr: copy_operand(nested, &self.expr, alloc)?,\n", copy)
        self.assertIn("copy_operand", copy.split("\n\n")[1], "and it is imported")
        self.assertNotIn("copy_boxed", copy)

    def test_what_follows_a_sign_is_in_its_group(self):
        source = self.crate()
        view = plain_views(source, set())[self.top / "specs/Plain.antt"]
        self.assertIn("view_Thing a = Node (Both (maybe syntax_of_ident a.ident) (Both (maybe colon_syntax a.colon_token) (group_syntax Paren a.paren_token (list_of syntax_of_Choice comma_syntax a.parts.pairs a.parts.last))))\n", view)
        self.assertIn("joined_of", plain_views(source, {("Thing", "parts")})[self.top / "specs/Plain.antt"])
        printed = prints(source, {"Choice"})[self.top / "src/prints/things.rt"]
        self.assertIn("self.paren_token.open(out)?;\n        print_list(&self.parts, out)?;\n        self.paren_token.close(out)\n", printed)
        self.assertNotIn("Choice", printed)

    def test_what_is_written_by_hand_is_left_out(self):
        source = self.crate(TYPES + "\nimpl Compared for Thing {\n}\n", SPECS + "abbrev pub view_Thing : Thing-in.Inside → Syntax\n")
        self.assertEqual(plain_views(source, set()), {}, "no view is left to write, so no file is")
        same = comparisons(source)[self.top / "src/compare/things.rt"]
        self.assertNotIn("impl Compared for Thing", same)
        self.assertIn("impl PartialEq for Thing", same)
        self.assertIn("specs.Things.{view_Thing}", endings(source)[self.top / "src/things.rt"])

    def test_the_ending_is_written_anew(self):
        first = endings(self.crate())[self.top / "src/things.rt"]
        again = endings(self.crate(first))[self.top / "src/things.rt"]
        self.assertEqual(first, again)
        self.assertEqual(first.count(MARK), 1)
        self.assertNotIn("Model for Choice", first)

    def test_what_it_cant_read_is_a_fault(self):
        with self.assertRaises(Fault):
            self.crate("pub struct Wide {\n    pub a: A, pub b: B\n}\n")
        with self.assertRaises(Fault):
            endings(self.crate(specs=""))

    def crate_with_table(self):
        """A crate that reads a rule of the table, and the table."""
        source = self.crate(TYPES + READING)
        table = self.top / "Table.antt"
        table.write_text(TABLE)
        return source, table

    def test_comma_lists_are_found_in_the_table(self):
        source, table = self.crate_with_table()
        self.assertEqual(list_rules(table), [("things", "thing", "Things."), ("unread", "other", "Unread.")])
        files = comma_lists(source, table)
        self.assertIn("punctuated_list::<End, Comma, _, _>(input, |next| next.read())\n", files[self.top / "src/comma_lists.rt"])
        self.assertIn("things_list = record { is = things_is }\n", files[self.top / "proofs/CommaLists.antt"])
        self.assertIn(self.top / "proofs/comma_lists/things/Answers.antt", files)
        self.assertNotIn("unread", files[self.top / "src/comma_lists.rt"])

    def test_a_list_that_is_read_by_hand_is_left_out(self):
        source = self.crate(TYPES + READING + READ_BY_HAND)
        table = self.top / "Table.antt"
        table.write_text(TABLE)
        self.assertNotIn("things", comma_lists(source, table)[self.top / "src/comma_lists.rt"])

    def test_the_page_says_what_reads_each_rule(self):
        source, table = self.crate_with_table()
        page = self.top / "PAGE.md"
        page.write_text(f"Before.\n\n{HEAD}| `old` | Old. | `Old` |\n\nAfter.\n")
        text = rows(source, table, page)
        self.assertTrue(text.startswith(f"Before.\n\n{HEAD}| `thing` | A thing. | `Thing` |\n"))
        self.assertIn("| `things` | Things. | `things` of `syn_tree/src/comma_lists.rt` |\n", text)
        self.assertIn("| `unread` | Unread. | recognized alone |\n", text)
        self.assertTrue(text.endswith("| `others` | Things that end otherwise. | recognized alone |\n\nAfter.\n"))
        page.write_text("No table.\n")
        with self.assertRaises(Fault):
            rows(source, table, page)

    def test_a_generic_function_is_named_as_what_reads_a_rule(self):
        reading = "fn thing<T: Peek>(input: &mut ParseBuffer<'_>) -> Parsed<()>\n    ensures reads { parse_rule rules.thing input.old }\n{\n}\n"
        source = self.crate(TYPES + reading)
        table, page = self.top / "Table.antt", self.top / "PAGE.md"
        table.write_text(TABLE)
        page.write_text(f"{HEAD}\nAfter.\n")
        self.assertIn("| `thing` | A thing. | `thing` of `syn_tree/src/things.rt` |\n", rows(source, table, page))

    def page_of(self, source, table_text):
        """The page of a table of this text, as this crate reads its rules."""
        table, page = self.top / "Table.antt", self.top / "PAGE.md"
        table.write_text(table_text)
        page.write_text(f"{HEAD}\nAfter.\n")
        return rows(source, table, page)

    def test_a_level_reads_its_operands_and_what_continues_them(self):
        level = "\nimpl Level for Sums {\n    ghost chain_rule = { rules.sums };\n\n    ghost level_rule = { rules.sum };\n}\n"
        table = "--\n-- A sum.\ntable sum =\n    rule thing & rule sums\n--\n-- What is added.\ntable sums =\n    empty\n--\n-- A thing.\ntable thing =\n    empty\n"
        text = self.page_of(self.crate(TYPES + level), table)
        self.assertIn("| `sum` | A sum. | `Sums` of `syn_tree/src/things.rt` |\n", text)
        self.assertIn("| `sums` | What is added. | `Sums` of `syn_tree/src/things.rt` |\n", text)

    def test_a_rule_that_is_in_others_alone_is_read_within_them(self):
        table = """--
-- A thing.
table thing =
    plainly name & (when at_comma then rule part else empty)
--
-- A part.
table part =
    rule word
    & rule part
--
-- A word.
table word =
    plainly name
--
-- A list.
table list =
    rule entry
--
-- An entry.
table entry =
    plainly name
"""
        text = self.page_of(self.crate(TYPES + READING), table)
        self.assertIn("| `thing` | A thing. | `Thing` |\n", text)
        for rule, said, read in (("part", "A part.", "within others"), ("word", "A word.", "within others"), ("list", "A list.", "recognized alone"), ("entry", "An entry.", "recognized alone")):
            self.assertIn(f"| `{rule}` | {said} | {read} |\n", text)

    def test_a_function_is_named_for_what_its_own_contract_or_proof_says(self):
        short = "fn short() -> bool {\n    true\n}\n\n"
        reading = "fn thing(input: &mut ParseBuffer<'_>) -> Parsed<()>\n    ensures reads { parse_rule rules.thing input.old }\n{\n}\n\n"
        opening = "#[tactic(auto, using(Each::things_is))]\nfn opening(input: &mut ParseBuffer<'_>) {\n}\n"
        source = self.crate(TYPES + short + reading + opening)
        table, page = self.top / "Table.antt", self.top / "PAGE.md"
        table.write_text(TABLE)
        page.write_text(f"{HEAD}\nAfter.\n")
        text = rows(source, table, page)
        self.assertIn("| `thing` | A thing. | `thing` of `syn_tree/src/things.rt` |\n", text)
        self.assertIn("| `things` | Things. | `opening` of `syn_tree/src/things.rt` |\n", text)

    def test_a_value_may_represent_other_syntax_than_itself(self):
        both = SPECS + "abbrev pub view_Thing : Thing-in.Inside → Syntax\nabbrev pub syntax_of_Thing : Syntax → Syntax\n"
        ending = endings(self.crate(specs=both))[self.top / "src/things.rt"]
        self.assertIn("    ghost view = { view_Thing };\n", ending)
        self.assertIn("    ghost syntax = { syntax_of_Thing };\n", ending)

    def test_a_wrapper_is_a_kind_too(self):
        source = self.crate()
        self.assertIn("use crate::canon::Wrapped;\n", canonical(source, [("Thing", "thing"), ("Wrapped", "thing")]))
        self.assertIn("        Kind::Thing => Rule::A_THING,\n", dispatch([("thing", "Thing", "a_thing")]))

    def test_a_kind_is_compared_by_its_trees_and_its_rule(self):
        text = comparisons_of_answers(self.crate(), [("a-thing", "Thing", "a_thing"), ("wrapped", "Wrapped", "thing")])
        self.assertIn("use syn::canon::Wrapped;\n", text)
        self.assertIn("use syn_tree::things::Thing;\n", text)
        self.assertIn('    compare::<Thing>(case, "a-thing", Rule::A_THING, tally)?;\n    compare::<Wrapped>(case, "wrapped", Rule::THING, tally)?;\n', text)

    def test_a_stream_is_asked_about_as_each_kind(self):
        text = answers_of_streams(self.crate(), [("Thing", "a_thing"), ("Wrapped", "thing"), ("Item", "item")], at_once=2)
        self.assertIn("use syn::canon::{Item, Wrapped};\n", text)
        self.assertIn("""
pub(crate) fn answer_as(kind: &str, tokens: &TokenStream) -> Result<Answer, Failure> {
    match kind {
        "Thing" => answer_of::<Thing>(Rule::A_THING, tokens),
        "Wrapped" => answer_of::<Wrapped>(Rule::THING, tokens),
        _ => answer_as_1(kind, tokens),
    }
}

/// The same of further kinds.
fn answer_as_1(kind: &str, tokens: &TokenStream) -> Result<Answer, Failure> {
    match kind {
        "Item" => answer_of::<Item>(Rule::ITEM, tokens),
        _ => Err(Failure::Broken),
    }
}
""", text)

    def test_a_type_is_swept_by_its_name(self):
        text = sweeps(self.crate(), ["Thing"], ["Wrapped"], ["Choice"], ["Ident"])
        self.assertIn("use syn::Ident;\nuse syn::canon::Wrapped;\n", text)
        for arm in (
            '"Thing" => as_canonical::<Thing, ByItself>(input, tally),\n        _ => of_others(word, input, tally),\n',
            '"Wrapped" => as_canonical::<Wrapped, InField>(input, tally),\n        _ => of_parsed(word, input, tally),\n',
            '"Choice" => as_parsed::<Choice, ByItself>(input, tally),\n        "Ident" => as_parsed::<Ident, ByItself>(input, tally),\n        _ => Err(Failure::Broken),\n',
        ):
            self.assertIn(arm, text)

    def test_a_type_determines_its_variant(self):
        source = self.crate()
        text = variant_names(source, ["Thing", "Choice"], ["Ident"])
        self.assertIn("impl Named for Thing {}\n", text)
        self.assertIn("impl Named for Ident {}\n", text)
        self.assertIn('            Choice::Mark(_) => "Mark",\n            Choice::Whole(_) => "Whole",\n            Choice::Nothing => "Nothing",\n', text)
        self.assertEqual([name for name, _ in variants_of(source, "Choice")], ["Mark", "Whole", "Nothing"])
        self.assertEqual(variants_of(source, "Thing"), [])

    def test_the_kinds_of_the_program(self):
        kinds = [("fields-unnamed", "FieldsUnnamed", "fields_unnamed")]
        self.assertIn('            "fields-unnamed" => Some(Kind::FieldsUnnamed),\n', kind_enum(kinds))
        self.assertIn("rule_of FieldsUnnamed = rules.fields_unnamed\n", kind_specs(kinds))


if __name__ == "__main__":
    unittest.main()
