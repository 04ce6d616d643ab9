#!/usr/bin/env python3
"""Tests of the operators, of the mutants that they make, and of how these are judged. None of them runs the prover."""

import contextlib
import io
import tempfile
import unittest
from pathlib import Path

from editlib import prover
from editlib.body import Body, blanked
from editlib.edits import Source
from editlib.mutant_trial import MutantTrial, summary
from editlib.mutants import Mutants
from editlib.operators import OPERATORS

SOURCE = """use syn_tokens::token::{Comma, Semi};

pub enum Kind {
    Plain,
    Raw,
    Named(u8),
}

pub struct Part {
    name: Option<u8>,
    first: u8,
    last: u8,
    kind: Kind,
}

impl Part {
    fn is_same(&self, other: &Part) -> bool
        ensures same { result ≡ true }
    {
        self.first == other.first && self.last == other.last
    }

    fn print_in(&self, out: &mut StreamBuilder) -> Result<(), AllocError>
        ensures prints { result ≡ true }
    {
        self.first.print_in(out)?;
        // a comment; with signs {
        self.last.print_in(out)
    }

    fn copy(&self) -> Part
        ensures copy { result ≡ self }
    {
        Part {
            name: self.name,
            first: self.first,
            last: self.last,
            kind: Kind::Plain,
        }
    }

    fn word(&self) -> &'static str
        ensures { result ≡ 1 }
    {
        match self.kind {
            Kind::Plain => "plain",
            Kind::Raw => "raw",
            Kind::Named(number) => text_of(number),
        }
    }
}

pub fn comma(input: &mut ParseBuffer<'_>) -> Parsed<Option<Comma>>
    ensures reads { result ≡ 1 }
{
    let mut content = input.fork();
    let at = count(&content, 1) + 1;
    if at < 3 && content.peek::<Comma>() {
        content.read_end()?;
        input.advance_to(&content);
        read_comma(input)
    } else {
        Ok(None)
    }
}

fn first_of(left: u8, right: u8) -> bool
    ensures { result ≡ 1 }
{
    less(left, right)
}

fn more(left: u8, right: u8) -> bool {
    true
}

fn less(left: u8, right: u8) -> bool {
    false
}
"""


class InCrate(unittest.TestCase):
    def setUp(self):
        folder = tempfile.TemporaryDirectory()
        self.addCleanup(folder.cleanup)
        self.top = Path(folder.name)
        self.crate = self.top / "crates/low"
        (self.crate / "src").mkdir(parents=True)
        (self.crate / "src/lib.rt").write_text(SOURCE)
        self.source = Source(self.crate)
        self.mutants = Mutants(self.source, [])

    def of(self, name):
        """The mutants of a function: the texts that its operators put in place of others, without space, by operator."""
        ((path, function),) = [it for it in self.mutants.functions if it[1].name.endswith(name)]
        return self.mutants.of(path, function)

    def texts(self, name, operator):
        """The bodies that an operator makes of a function, in one line each."""
        found = []
        for mutant in self.of(name).get(operator, []):
            text = self.source.applied({}, mutant)[0]["src/lib.rt"]
            self.assertEqual(text.count("\n"), SOURCE.count("\n"), "no function moves")
            function = next(it for it in self.source.functions["src/lib.rt"] if it.name == mutant.changes[0].function)
            body = Body(function, text.split("\n"), None)
            found.append(" ".join(body.text[body.start : body.end].split()))
        return found


class Operators(InCrate):
    def test_literals_and_comments_are_blanked(self):
        text = """a("{\\"}", '{', '\\'', b'}', r#"{"#, 'a: loop) // {"""
        self.assertEqual(blanked(text), """a("____", '_', '__', b__', r____#, 'a: loop)     """)
        self.assertEqual(len(blanked(text)), len(text))

    def test_each_operator_has_a_sentence_and_a_promise(self):
        from editlib import operators

        for operator in OPERATORS:
            self.assertTrue(operator.__doc__)
            self.assertIn(operator.__name__, operators.__doc__)

    def test_comparisons(self):
        self.assertEqual(
            self.texts("is_same", "operand_dropped"), ["self.first == other.first", "self.last == other.last"]
        )
        self.assertEqual(
            self.texts("is_same", "compared_with_itself"),
            ["self.first == self.first && self.last == other.last", "self.first == other.first && self.last == self.last"],
        )
        self.assertEqual(self.texts("is_same", "truth_returned"), ["true", "false"])
        self.assertEqual(len(self.texts("is_same", "bound_one_off")), 2)
        self.assertIn("self.last == other.first && self.last == other.last", self.texts("is_same", "part_exchanged"))

    def test_prints(self):
        first, last = "self.first.print_in(out)?;", "self.last.print_in(out)"
        comment = "// a comment; with signs {"
        self.assertEqual(self.texts("print_in", "statement_left_out"), [f"{comment} {last}"])
        self.assertEqual(self.texts("print_in", "outcome_for_call"), [f"{first} {comment} Ok(())"])
        self.assertEqual(self.texts("print_in", "statements_exchanged"), [f"{last}?; {comment} {first[:-2]}"])
        self.assertEqual(
            self.texts("print_in", "printed_twice"), [f"{first} {first} {comment} {last}", f"{first} {comment} {{ {last}?; {last} }}"]
        )
        self.assertIn(f"{first} {comment} self.first.print_in(out)", self.texts("print_in", "part_exchanged"))

    def test_copies(self):
        left_out = self.texts("copy", "field_left_out")
        self.assertIn("Part { name: None, first: self.first, last: self.last, kind: Kind::Plain, }", left_out)
        self.assertIn("Part { name: self.name, first: self.last, last: self.first, kind: Kind::Plain, }", self.texts("copy", "fields_exchanged"))
        self.assertEqual(len(self.texts("copy", "variant_exchanged")), 1)
        self.assertIn("kind: Kind::Raw", self.texts("copy", "variant_exchanged")[0])

    def test_words(self):
        self.assertIn('Kind::Plain => "raw"', self.texts("word", "constant_exchanged")[0])
        exchanged = self.texts("word", "arms_exchanged")
        self.assertEqual(len(exchanged), 1, "a result that needs a binding stays")
        self.assertIn('Kind::Plain => "raw", Kind::Raw => "plain",', exchanged[0])

    def test_parsers(self):
        for operator, text in [
            ("statement_left_out", "input.advance_to"),
            ("statement_left_out", "content.read_end"),
        ]:
            self.assertTrue(any(text not in it for it in self.texts("comma", operator)))
        self.assertIn("count(&content, 1);", self.texts("comma", "bound_one_off")[1])
        self.assertTrue(any("if at <= 3" in it for it in self.texts("comma", "bound_one_off")))
        self.assertTrue(any("read_comma(&mut input.fork())" in it for it in self.texts("comma", "read_from_fork")))
        self.assertTrue(any("peek::<Semi>()" in it for it in self.texts("comma", "token_exchanged")))
        self.assertTrue(any("peek2::<Comma>()" in it for it in self.texts("comma", "method_exchanged")))
        for operator, condition in [("branch_never", "false"), ("branch_always", "true"), ("condition_negated", "!(at < 3 && content.peek::<Comma>())")]:
            (found,) = self.texts("comma", operator)
            self.assertIn(f"if {condition} {{", found)
        self.assertTrue(self.texts("comma", "refused_always")[0].startswith("Err("))

    def test_calls(self):
        self.assertEqual(self.texts("first_of", "function_exchanged"), ["more(left, right)"])
        self.assertEqual(self.texts("first_of", "arguments_exchanged"), ["less(right, left)"])


class Turns(InCrate):
    def test_each_turn_takes_other_functions_and_in_time_other_operators(self):
        names = [it.name for turn in range(40) for it in self.mutants.of_turn(turn, 2)]
        self.assertEqual(len({it.split(" ")[0] for it in names}), len(self.mutants.functions))
        self.assertGreater(len(set(names)), 20)
        self.assertEqual([it.name for it in self.mutants.of_turn(3, 2)], [it.name for it in self.mutants.of_turn(3, 2)])

    def test_functions_without_a_contract_are_left_out(self):
        self.assertEqual({it.name for _, it in self.mutants.functions} & {"more", "less"}, set())

    def test_operators_and_functions_are_chosen_by_name(self):
        self.assertEqual({it.operator for it in self.mutants.named(["branch_never"])}, {"branch_never"})
        self.assertEqual({it.changes[0].function for it in self.mutants.named(["first_of", "copy"])}, {"first_of", "Part::copy"})


class Judged(InCrate):
    """What becomes of mutants by recorded answers of the prover."""

    def trial(self, says, names, known=""):
        (self.top / "tools").mkdir()
        (self.top / "tools/equivalent_edits.txt").write_text(known)
        calls = []

        def checked(crate, folder, only, kept, end, lanes):
            calls.append(sorted(only))
            text = Path(folder, "src/lib.rt").read_text()
            return "\n".join([*(line for there, line in says if there in text), "logic=not-proved"])

        for name, replacement in [("checked", checked), ("has_libraries", lambda crates, end: True)]:
            self.addCleanup(setattr, prover, name, getattr(prover, name))
            setattr(prover, name, replacement)
        trial, said = MutantTrial(self.crate, [], names=names), io.StringIO()
        with contextlib.redirect_stdout(said):
            trial.run()
        self.said = said.getvalue()
        return trial, calls

    def refused(self, goal):
        return f"fn low::first_of: no proof: expected answers in ./proofs; `search` did not prove `{goal}`"

    def test_any_goal_of_the_function_will_do(self):
        trial, _ = self.trial([("less(right, left)", self.refused("step-requires"))], ["arguments_exchanged"])
        self.assertEqual((trial.wrong, list(trial.outcomes.values())), ([], ["refused"]))
        self.assertIn("refused by step-requires", self.said)

    def test_a_goal_that_only_says_that_a_sum_is_in_range_counts_for_nothing(self):
        trial, _ = self.trial([("less(right, left)", self.refused("overflow_add-left"))], ["arguments_exchanged"])
        self.assertEqual((trial.wrong, list(trial.outcomes.values())), ([], ["only for safety"]))

    def test_what_is_proved_is_not_refused(self):
        trial, _ = self.trial([("less(right, left)", "fn low::first_of: proved")], ["arguments_exchanged"])
        self.assertEqual(len(trial.wrong), 1)
        self.assertIn("less(left, right)", trial.wrong[0])

    def test_what_does_not_compile_is_left_out_and_the_rest_tried_again(self):
        error = "src/lib.rt:24:9: error[mismatched-types]: expected `u8`, found `bool`"
        trial, calls = self.trial([("        true\n", error), ("less(right, left)", self.refused("returns"))], ["arguments_exchanged", "truth_returned"])
        self.assertIn("refused", trial.outcomes.values())
        self.assertEqual(trial.counts()["NOT REFUSED"], 0)

    def test_what_is_known_to_mean_the_same_is_not_tried(self):
        trial, calls = self.trial([], ["arguments_exchanged"], "# reasons\nlow first_of arguments_exchanged: symmetric\n")
        self.assertEqual((calls, trial.counts()["known to mean the same"]), ([], 1))
        self.assertEqual(summary([trial]), "mutants: 0 refused, 1 known to mean the same")


if __name__ == "__main__":
    unittest.main()
