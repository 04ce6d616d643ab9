#!/usr/bin/env python3
"""Tests of rt_ci.py: every task is done once, after those that it waits for, and the one with the longest chain gets the processors."""

import contextlib
import io
import os
import tempfile
import threading
import time
import unittest
from pathlib import Path
from types import SimpleNamespace
from unittest import mock

import rt_ci
from rt_ci import Lanes, chained, repository


class Calls:
    """Tasks as rt gives them. Each notes how many jobs it got, and waits until as many others run beside it as it wants."""

    def __init__(self):
        self.tasks, self.order, self.jobs, self.lock = {}, [], {}, threading.Lock()

    def add(self, name, waits=(), lines=1, needs=1, kind="proof", beside=None):
        def call(given, jobs):
            with self.lock:
                self.order.append(name)
                self.jobs[name] = jobs
                self.seen = {**given}
            if beside:
                beside.wait(10)
            return f"{name} done"

        self.tasks[name, kind] = ([(it, "proof") for it in waits], lines, needs, call)

    def run(self, processors=4, memory=100):
        return Lanes(chained(self.tasks), processors, memory).run()


class Tasks(unittest.TestCase):
    def test_each_is_done_once_after_what_it_waits_for(self):
        calls = Calls()
        for number in range(30):
            calls.add(number, [it for it in (number - 1, number - 7) if it >= 0], lines=number % 3)
        given = calls.run()
        self.assertEqual(given, {(it, "proof"): f"{it} done" for it in range(30)})
        self.assertEqual(calls.order, [*range(30)])

    def test_the_longest_chain_comes_first(self):
        calls = Calls()
        calls.add("low")
        calls.add("side", ["low"], lines=50)
        calls.add("middle", ["low"], lines=20)
        calls.add("high", ["middle"], lines=40)
        self.assertEqual([it.key[0] for it in chained(calls.tasks)], ["low", "middle", "side", "high"])

    def test_tasks_without_lines_take_no_processor(self):
        calls = Calls()
        both = threading.Barrier(2)
        for name in ("a", "b", "c"):
            calls.add(name, lines=0)
        calls.add("first", lines=10, beside=both)
        calls.add("second", lines=5, beside=both)
        calls.run()
        self.assertEqual((calls.jobs["first"], calls.jobs["second"]), (4, 4))

    def test_those_after_share_what_is_left(self):
        calls = Calls()
        all_three = threading.Barrier(3)
        for name, lines in (("first", 10), ("second", 5), ("third", 4)):
            calls.add(name, lines=lines, beside=all_three)
        calls.run()
        self.assertEqual(calls.jobs, {"first": 4, "second": 3, "third": 3})

    def test_each_gets_two_of_what_is_left(self):
        calls = Calls()
        names = ("first", "second", "third", "fourth", "fifth", "sixth")
        four = threading.Barrier(4)
        for number, name in enumerate(names):
            calls.add(name, lines=9 - number, beside=four if number < 4 else None)
        calls.run()
        self.assertEqual([calls.jobs[it] for it in names[:4]], [4, 2, 2, 2])
        self.assertEqual(sorted(calls.order[:4]), sorted(names[:4]))

    def test_what_was_measured_comes_before_lines(self):
        calls = Calls()
        calls.add("many lines", lines=rt_ci.SECONDS["list_fields"] - 1)
        calls.add("list_fields", lines=1)
        calls.add("syn_expr", lines=0)
        self.assertEqual([it.key[0] for it in chained(calls.tasks)], ["list_fields", "many lines", "syn_expr"])

    def test_every_crate_of_the_product_is_measured(self):
        names = {it.split(":")[0] for it in (rt_ci.TOP / "crates.txt").read_text().splitlines() if ":" in it}
        self.assertEqual(names - {*rt_ci.BESIDE}, {*rt_ci.SECONDS} & names)

    def test_jobs_on_many_processors(self):
        calls = Calls()
        calls.add("a")
        calls.run(processors=64)
        self.assertEqual(calls.jobs, {"a": 8})

    def test_edits_get_one_job(self):
        calls = Calls()
        calls.add("a", kind="edits", lines=9)
        calls.run()
        self.assertEqual(calls.jobs, {"a": 1})

    def test_memory(self):
        self.assertEqual(self.beside(memory=100), 2)
        self.assertEqual(self.beside(memory=10), 1)

    def beside(self, memory):
        """How many of two tasks with a need of 10 run side by side."""
        most, running = [0], [0]
        lock = threading.Lock()
        started = threading.Event()

        def call(_given, _jobs):
            with lock:
                running[0] += 1
                most[0] = max(most[0], running[0])
                if running[0] == 2:
                    started.set()
            started.wait(0.3)
            with lock:
                running[0] -= 1

        Lanes(chained({(name, "proof"): ([], 1, 10, call) for name in "ab"}), 4, memory).run()
        return most[0]

    def test_what_is_raised(self):
        def call(_given, _jobs):
            raise SystemExit(3)

        self.assertRaises(SystemExit, Lanes(chained({("a", "proof"): ([], 1, 1, call)}), 2, 9).run)

    def test_the_kit_has_what_is_replaced(self):
        self.assertTrue(callable(rt_ci.kit().in_lanes))


class Proved(unittest.TestCase):
    """A run over a kit whose `main` orders two tasks and prints as `rt ci` does."""

    def run_with(self, status, left_out=("low_tests",)):
        def main(_words):
            rt.in_lanes({("low", "proof"): ([], 5, 1, lambda given, jobs: print("== low\nso far: 1 of 2") or print("rt: low proved"))})
            print(f"{1 - status} passed, {status} failed")
            return status

        rt, said, stamps = SimpleNamespace(main=main, processors=lambda: 2, free=lambda: 100), io.StringIO(), []
        script = lambda words, **_: stamps.append(words[2:]) or SimpleNamespace(stdout="sum\n")
        before = Path.cwd()
        with tempfile.TemporaryDirectory() as folder, mock.patch.object(rt_ci, "TOP", Path(folder)), contextlib.redirect_stdout(said), mock.patch.object(rt_ci.subprocess, "run", script), \
                mock.patch.object(rt_ci, "repository", lambda _: contextlib.nullcontext(folder)):
            program = Path(folder, "crates", rt_ci.PROGRAM, "out", rt_ci.PROGRAM)
            program.parent.mkdir(parents=True)
            program.touch()
            self.assertEqual(rt_ci.proved(rt, left_out, rt_ci.Edits(0, 0, 1)), status)
            os.chdir(before)
        return said.getvalue().splitlines(), stamps

    def test_a_proved_program_is_stamped(self):
        said, stamps = self.run_with(0)
        self.assertEqual(stamps, [["sources"], ["write", "sum"]])
        self.assertEqual([said[0], said[2]], ["rt: low proved", "1 passed, 0 failed"])
        self.assertRegex(said[1], r"^-- crate 1 of 1, 0 s, about 0 min left; low took 0 s$")

    def test_another_program_is_not_stamped(self):
        self.assertEqual(self.run_with(1)[1], [["sources"]])
        self.assertEqual(self.run_with(0, (rt_ci.PROGRAM,))[1], [["sources"]])


class TriedEdits(unittest.TestCase):
    """Edits beside the proofs, in a folder whose tools/try_edits.py is replaced."""

    def setUp(self):
        folder = tempfile.TemporaryDirectory()
        self.addCleanup(folder.cleanup)
        self.tools = Path(folder.name) / "tools"
        self.tools.mkdir()
        before = Path.cwd()
        os.chdir(folder.name)
        self.addCleanup(os.chdir, before)
        self.calls = Calls()
        self.calls.add("syn_low")
        self.calls.add(rt_ci.IDLE, ["syn_low"], lines=9)
        self.calls.add(rt_ci.PROGRAM, [rt_ci.IDLE], lines=3)

    def run_with(self, edits, script):
        (self.tools / "try_edits.py").write_text(script)
        return Lanes(chained(edits.among(self.calls.tasks)), 4, 100_000_000_000).run()

    def test_they_wait_for_what_the_largest_crate_waits_for(self):
        tasks = rt_ci.Edits(3, 2, 7).among(self.calls.tasks)
        self.assertEqual([tasks[key][0] for key in (rt_ci.EDITS, rt_ci.USERS)], [[("syn_low", "proof")], [(rt_ci.IDLE, "proof")]])

    def test_what_they_say(self):
        edits = rt_ci.Edits(3, 0, 7)
        self.run_with(edits, "import os, sys; print(*sys.argv[1:], os.environ['RT_JOBS'])")
        self.assertEqual((edits.said, edits.status), ("--built --minutes 3 --turn 7 1\n", 0))
        self.assertEqual(self.calls.order, ["syn_low", rt_ci.IDLE, rt_ci.PROGRAM])

    def test_those_of_its_users_are_tried_beside_a_program(self):
        edits = rt_ci.Edits(0, 2, 7)
        self.run_with(edits, "import sys; print(*sys.argv[1:])")
        self.assertEqual(edits.said, f"--built --users-of {rt_ci.IDLE} --one-by-one --minutes 2 --turn 7\n")

    def test_they_are_nicer_than_what_runs_beside(self):
        edits = rt_ci.Edits(3, 0, 7)
        self.run_with(edits, "import os; print(os.nice(0))")
        self.assertEqual(edits.said, f"{min(19, os.nice(0) + rt_ci.NICE + rt_ci.NICER)}\n")

    def test_those_of_its_users_share_with_the_programs(self):
        edits = rt_ci.Edits(0, 2, 7)
        self.run_with(edits, "import os; print(os.nice(0))")
        self.assertEqual(edits.said, f"{min(19, os.nice(0) + rt_ci.NICE)}\n")

    def test_those_of_its_users_begin_without_a_processor(self):
        begun = self.tools / "begun"
        waits = SimpleNamespace(wait=lambda seconds: [time.sleep(0.05) for _ in range(20 * seconds) if not begun.exists()])
        self.calls.add(rt_ci.PROGRAM, [rt_ci.IDLE], lines=3, beside=waits)
        (self.tools / "try_edits.py").write_text(f"open({str(begun)!r}, 'w')")
        start = time.monotonic()
        Lanes(chained(rt_ci.Edits(0, 2, 7).among(self.calls.tasks)), 1, 1).run()
        self.assertLess(time.monotonic() - start, 9)

    def test_one_that_is_not_refused(self):
        for edits in (rt_ci.Edits(3, 0, 7), rt_ci.Edits(0, 3, 7)):
            self.run_with(edits, "import sys; sys.exit('NOT REFUSED')")
            self.assertEqual((edits.said, edits.status), ("NOT REFUSED\n", 1))

    def test_without_minutes(self):
        edits = rt_ci.Edits(0, 0, 7)
        self.run_with(edits, "import sys; sys.exit(1)")
        self.assertEqual((edits.said, edits.status), ("", 0))


class Copies(unittest.TestCase):
    def setUp(self):
        folder = tempfile.TemporaryDirectory()
        self.addCleanup(folder.cleanup)
        self.top = Path(folder.name)
        (self.top / ".git").mkdir()
        (self.top / "crates.txt").write_text("# what stands on what\nlow:\nlow_tests: low\nhigh: low\n")
        for name in ("low", "low_tests", "high"):
            (self.top / "crates" / name / "src").mkdir(parents=True)
            (self.top / "crates" / name / "src/lib.rt").write_text(name)
            (self.top / "crates" / name / "out").mkdir()
            (self.top / "crates" / name / "out/old").write_text("")

    def test_all_crates(self):
        with repository((), self.top) as folder:
            self.assertEqual(folder, self.top)

    def test_without_some_crates(self):
        with repository(("low_tests",), self.top) as folder:
            self.assertEqual((folder / "crates.txt").read_text(), "# what stands on what\nlow:\nhigh: low\n")
            files = sorted(str(it.relative_to(folder)) for it in folder.rglob("*") if it.is_file())
            self.assertEqual(files, ["crates.txt", "crates/high/src/lib.rt", "crates/low/src/lib.rt"])
            self.assertTrue((folder / ".git").is_dir())
            (folder / "crates/high/out").mkdir()
            (folder / "crates/high/out/new").write_text("")
        built = sorted(str(it.relative_to(self.top / "crates")) for it in (self.top / "crates").glob("*/out/*"))
        self.assertEqual(built, ["high/out/new", "low/out/old", "low_tests/out/old"])
        self.assertEqual([*(self.top / ".git").iterdir()], [])

    def test_what_was_built_stays_where_it_fails(self):
        with self.assertRaises(SystemExit):
            with repository(("low_tests",), self.top) as folder:
                (folder / "crates/low/out").mkdir()
                raise SystemExit(2)
        self.assertEqual([*(self.top / "crates/low/out").iterdir()], [])

    def test_the_crates_that_are_named(self):
        self.assertEqual(rt_ci.all_but(["high"], self.top), ("low_tests",))
        self.assertEqual(rt_ci.all_but(["low"], self.top), ("low_tests", "high"))
        self.assertRaises(SystemExit, rt_ci.all_but, ["higher"], self.top)

    def test_no_crate_of_the_product_depends_on_one_that_is_left_out(self):
        for line in (rt_ci.TOP / "crates.txt").read_text().splitlines():
            name, _, below = line.partition(":")
            if name not in rt_ci.BESIDE:
                self.assertEqual({*below.split()} & {*rt_ci.BESIDE}, set(), name)


if __name__ == "__main__":
    unittest.main()
