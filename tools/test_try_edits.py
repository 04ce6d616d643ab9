#!/usr/bin/env python3
"""Tests of try_edits.py. None of them runs the prover: what it says is recorded."""

import contextlib
import io
import threading
import time
import unittest
from types import SimpleNamespace

import try_edits
from editlib import prover, stored
from editlib.refusals import answer_of
from editlib.sample import SOURCE, InCrate


class Trials(InCrate):
    """What becomes of edits by recorded answers of the prover."""

    def setUp(self):
        super().setUp()
        self.says = {}

    def trial(self, is_recording=False):
        """Tries the edits. The prover refuses those goals of a function that `says` has for the text that stands in it."""
        trial = try_edits.Trial(self.crate, [], [])
        trial.wrong += [] if is_recording else try_edits.unnamed(trial)
        sizes = []

        def try_pack(pack, kept):
            sizes.append(len(pack.edits))
            text = "".join(pack.texts.values())
            said = [line for there, line in self.says.items() if there in text]
            answer = answer_of("\n".join([*said, "logic=not-proved"]), "low", trial.source.function_around, set())
            return [edit for edit in pack.edits if not trial.is_refused(edit, answer, len(pack.edits) == 1)]

        trial.try_pack = try_pack
        trial.run()
        trial.compare(is_recording)
        return trial.wrong, sizes

    def refused(self, there, function, *goals):
        listed = ", ".join(f"`{goal}`" for goal in goals)
        self.says[there] = f"fn low::{function}: no proof: expected answers in ./proofs; `search` did not prove {listed}"

    def test_what_names_the_clause_that_is_refused_passes(self):
        self.edit("a", clause="value", new="        4")
        self.edit("b", clause="returns by loop-c-preserved", old="        3", new="        6")
        self.refused("        4\n", "Name::first", "returns-clause-value")
        self.refused("        6\n", "Name::second", "loop-c-preserved")
        self.assertEqual(self.trial(), ([], [2]))

    def test_another_clause_than_the_named_one_fails(self):
        self.edit("a", clause="small", new="        4")
        self.refused("        4\n", "Name::first", "returns-clause-value")
        self.assertEqual(self.trial()[0], ["a: names small, but refused were: value"])

    def test_one_of_the_named_clauses_is_enough(self):
        self.edit("a", clause="value or small", new="        7")
        self.refused("        7\n", "Name::first", "returns-clause-small")
        self.assertEqual(self.trial()[0], [])
        self.edit("b", clause="value or wide", new="        6")
        self.refused("        6\n", "Name::first", "returns-clause-small")
        self.assertEqual([it.partition(" (")[0] for it in self.trial()[0]], ["b: wide is no clause of low::Name::first",
                         "b: names value or wide, but refused were: small"])

    def test_what_names_no_clause_of_the_contract_fails(self):
        self.edit("a", new="        4")
        self.edit("b", clause="ok", old="        3", new="        6")
        self.refused("        4\n", "Name::first", "returns-clause-value")
        self.refused("        6\n", "Name::second", "returns")
        wrong = self.trial()[0]
        self.assertEqual([it.partition(":")[0] for it in wrong], ["a", "b", "b"])
        self.assertIn("names no clause", wrong[0])
        self.assertIn("ok is no clause of low::Name::second (returns)", wrong[1])

    def test_what_is_proved_is_tried_again_until_it_is_alone(self):
        self.edit("a", clause="value", new="        4")
        self.edit("b", clause="returns", old="        3", new="        6")
        self.edit("c", clause="returns", old="    1", new="    7")
        self.refused("        6\n", "Name::second", "returns")
        self.says["        4\n"] = "fn low::Name::first: proved"
        self.says["    7\n"] = "fn low::free: no proof: it calls `low::Name::second`, which is not proved"
        wrong, sizes = self.trial()
        self.assertEqual(sizes, [3, 1, 1])
        self.assertEqual(wrong, ["a: NOT REFUSED", "c: NOT REFUSED"])

    def test_what_the_prover_does_not_name_or_read_fails(self):
        self.edit("a", clause="value", new="        4")
        self.assertIn("names no function low::Name::first", self.trial()[0][0])
        self.says["        4\n"] = "src/lib.rt:29:9: error[E0308]: mismatched types"
        self.assertIn("can't read it", self.trial()[0][0])

    def test_an_edit_outside_of_bodies_is_known_by_any_function(self):
        self.edit("a", clause="value", old="LIMIT: usize = 4", new="LIMIT: usize = 5")
        self.refused("= 5;", "Name::first", "returns-clause-value")
        self.assertEqual(self.trial(), ([], [1]))

    def test_of_an_edit_outside_of_bodies_the_function_that_it_names_is_checked(self):
        self.edit("a", clause="Name::first by value", old="LIMIT: usize = 4", new="LIMIT: usize = 5")
        self.edit("b", clause="free by value", old="LIMIT: usize = 4", new="LIMIT: usize = 6")
        self.edit("c", clause="Examples by shown", old="LIMIT: usize = 4", new="LIMIT: usize = 7")
        trial = try_edits.Trial(self.crate, [], [])
        self.assertEqual([trial.changed(edit) for edit in trial.edits], [{"low::Name::first"}, {"low::free"}, set()])
        for there in ["= 5;", "= 6;", "= 7;"]:
            self.refused(there, "Name::first", "returns-clause-value")
        wrong = ["b: names free by value, but refused were: value", "c: names Examples by shown, but refused were: value"]
        self.assertEqual(self.trial()[0], wrong)

    def test_a_table_is_known_by_a_lemma_on_which_a_function_rests(self):
        self.edit("a", clause="first by sound", old="LIMIT: usize = 4", new="LIMIT: usize = 5")
        self.edit("b", clause="first by sound", old="LIMIT: usize = 4", new="LIMIT: usize = 6")
        depends = "1 declaration that depends on `sound`, which was not admitted, was not checked: rest"
        self.says["= 5;"] = "\n".join(
            [
                "./proofs/Said.antt:146:28: error: `sound`: as printed, the two types differ",
                f"./proofs/laws/first/Answers.antt:4:5: error: {depends}",
                "fn low::Name::first: not proved",
            ]
        )
        self.edit("c", clause="Examples by shown", old="LIMIT: usize = 4", new="LIMIT: usize = 7")
        self.says["= 7;"] = "./proofs/Examples.antt:118:45: error: `shown`: `reads structure` differs"
        self.says["= 6;"] = "./proofs/Said.antt:146:28: error: `sound`: `gone` is not in scope\nfn low::Name::first: not proved"
        self.assertEqual(self.trial()[0], ["b: NOT REFUSED"])

    def test_recording_writes_what_is_refused(self):
        self.edit("a", new="        4")
        self.edit("b", old="        3", new="        6")
        self.refused("        4\n", "Name::first", "overflow_add", "returns-clause-small", "returns-clause-value")
        self.refused("        6\n", "Name::second", "loop-c-preserved")
        self.assertEqual(self.trial(is_recording=True)[0], [])
        self.assertEqual([it.clauses for it in stored.read(self.crate)[0]], [["small"], ["returns by loop-c-preserved"]])


class Program(InCrate):
    def test_without_time_nothing_is_tried_and_it_says_so(self):
        (self.top / "crates.txt").write_text("low:\n")
        self.edit("a", clause="value", new="        4")
        options = SimpleNamespace(crate=None, names=[], said=None, minutes=-1, turn=0, record=False, check=False, operators=False, lacking=False, built=False, users_of=None, one_by_one=False)
        said = io.StringIO()
        with contextlib.redirect_stdout(said):
            status = try_edits.tell(options, try_edits.trials_of(options, self.top))
        self.assertEqual((status, "NOT TRIED, no time was left: 1 of low" in said.getvalue()), (0, True))

    def test_check_ends_with_1_where_an_edit_names_no_clause_of_the_contract(self):
        (self.top / "crates.txt").write_text("low:\n")
        self.edit("a", new="        4")
        for clause, status in [("value", 0), ("ok", 1), ([], 1)]:
            self.edit("a", clause=clause, new="        4")
            with self.subTest(clause), self.program("--check") as (said, ended):
                self.assertEqual(ended, status, said)

    def test_public_functions_that_nothing_changes_are_listed(self):
        (self.top / "crates.txt").write_text("low:\n")
        (self.crate / "src/lib.rt").write_text(SOURCE.replace("        2\n", "        LIMIT\n"))
        self.edit("b", old="        3", new="        4", clause="returns")
        with self.program("--lacking") as (said, ended):
            self.assertEqual((said, ended), ("low::Name::first\n", None))
        self.edit("a", old="        LIMIT", new="        4", clause="value")
        with self.program("--lacking") as (said, _):
            self.assertEqual(said.strip(), "")

    def test_the_folder_of_what_was_said_need_not_be_there(self):
        (self.top / "crates.txt").write_text("low:\n")
        self.edit("a", clause="value", new="        4")
        folder = self.top / "said" / "today"
        with self.program("--check", "--said", str(folder)) as (said, ended):
            self.assertEqual((said, ended, folder.is_dir()), ("1 edits, 0 wrong\n", 0, True))

    def crate_above(self):
        (self.top / "crates.txt").write_text("low:\nhigh: low\n")
        (self.top / "crates/high/src").mkdir(parents=True)
        (self.top / "crates/high/src/lib.rt").write_text(SOURCE)

    def test_the_edits_of_two_crates_are_tried_side_by_side(self):
        self.crate_above()
        self.edit("a", clause="value", new="        4")
        self.edit("b", crate="high", clause="value", new="        4")
        both, lanes_of = threading.Barrier(2), {}

        def checked(crate, folder, only, kept, end, lanes):
            lanes_of[crate.name] = lanes
            both.wait(timeout=30)
            return f"fn {crate.name}::Name::first: no proof: `search` did not prove `returns-clause-value`\nonly=1 proved=0\n"

        for name, replacement in [("checked", checked), ("has_libraries", lambda crates, end: True)]:
            self.addCleanup(setattr, prover, name, getattr(prover, name))
            setattr(prover, name, replacement)
        with self.program() as (said, ended):
            self.assertEqual((ended, lanes_of), (0, {"low": 2, "high": 2}), said)
        self.assertIn("2 of 2 refused, 0 wrong", said)

    def test_one_crate_after_another(self):
        self.crate_above()
        self.edit("a", clause="value", new="        4")
        self.edit("b", crate="high", clause="value", new="        4")
        alone, tried = threading.Lock(), []

        def checked(crate, folder, only, kept, end, lanes):
            is_alone = alone.acquire(blocking=False)
            tried.append((crate.name, lanes, is_alone))
            time.sleep(0.1)
            if is_alone:
                alone.release()
            return f"fn {crate.name}::Name::first: no proof: `search` did not prove `returns-clause-value`\nonly=1 proved=0\n"

        for name, replacement in [("checked", checked), ("has_libraries", lambda crates, end: True)]:
            self.addCleanup(setattr, prover, name, getattr(prover, name))
            setattr(prover, name, replacement)
        with self.program("--one-by-one") as (said, ended):
            self.assertEqual((ended, tried), (0, [("low", 1, True), ("high", 1, True)]), said)

    def test_only_of_crates_that_use_another(self):
        self.crate_above()
        for crate in ("low", "high"):
            self.edit("a", crate=crate, clause="value", new="        4")
        for words, number in [((), 2), (("--users-of", "low"), 1), (("--users-of", "high"), 0)]:
            with self.subTest(words), self.program("--check", *words) as (said, _):
                self.assertEqual(said, f"{number} edits, 0 wrong\n")

    def test_only_of_crates_over_built_libraries(self):
        self.crate_above()
        for crate in ("low", "high"):
            self.edit("a", crate=crate, clause="value", new="        4")
        library = self.crate / "out/rlib/low.rlib"
        for make, number in [(lambda: None, 1), (lambda: library.mkdir(parents=True), 1), ((library / "format").touch, 2)]:
            make()
            with self.program("--check", "--built") as (said, _):
                self.assertEqual(said, f"{number} edits, 0 wrong\n")

    def test_each_turn_begins_with_another_crate_and_in_time_with_other_edits(self):
        self.crate_above()
        for crate, name in [("low", "a"), ("low", "b"), ("high", "c")]:
            self.edit(name, crate=crate, clause="value", new="        4")
        (self.crate / "must-fail").mkdir()
        (self.crate / "must-fail/d.edit").write_text("clause: value\nfile: src/lib.rt\nold:         2\nnew:         4\n")
        self.addCleanup(setattr, try_edits, "SMALL", try_edits.SMALL)
        try_edits.SMALL = 1
        found = []
        for turn in range(4):
            options = SimpleNamespace(crate=None, names=[], said=None, minutes=None, turn=turn, check=False, operators=False, lacking=False, built=False, users_of=None, one_by_one=False)
            found.append([edit.name for trial in try_edits.trials_of(options, self.top) for edit in trial.edits])
        self.assertEqual(found, [["a", "b", "c"], ["c", "a", "b"], ["b", "a", "c"], ["c", "b", "a"]])

    @contextlib.contextmanager
    def program(self, *words):
        top, argv, said = try_edits.TOP, try_edits.sys.argv, io.StringIO()
        try_edits.TOP, try_edits.sys.argv = self.top, ["try_edits.py", *words]
        try:
            with contextlib.redirect_stdout(said), self.assertRaises(SystemExit) as ended:
                try_edits.main()
            yield said.getvalue(), ended.exception.code
        finally:
            try_edits.TOP, try_edits.sys.argv = top, argv


if __name__ == "__main__":
    unittest.main()
