"""Steps of a gate: commands that run side by side. Each is reported as it ends, with its time and its processor seconds."""

import os
import shlex
import subprocess
import sys
import tempfile
import time
from concurrent.futures import FIRST_COMPLETED, ThreadPoolExecutor, wait
from dataclasses import dataclass
from pathlib import Path

TOP = Path(__file__).resolve().parent.parent.parent
PASSED, FAILED, LEFT_OUT = "passed", "FAILED", "left out"


@dataclass(frozen=True)
class Step:
    """A command and its name. It is left out if one of the files `needs` is missing, and starts after the steps named in `after` have
    passed. A `live` step runs alone before all others and prints its output as it comes; the output of others is printed if they fail."""

    name: str
    command: tuple
    needs: tuple = ()
    after: tuple = ()
    live: bool = False


@dataclass(frozen=True)
class Outcome:
    """How a step ended."""

    step: Step
    status: str
    seconds: float = 0
    processor: float = 0
    output: str = ""

    def line(self):
        return f"{self.status:8} {self.seconds:6.0f} s {self.processor:7.0f} s of processor  {self.step.name}"


def script(name, *words):
    """The command of a script of tools/."""
    return (sys.executable, f"tools/{name}.py", *map(str, words))


def selected(steps, words):
    """The steps whose names contain one of the words, and those that they come after; all steps if there are no words."""
    names = {it.name for it in steps if not words or any(word in it.name for word in words)}
    while True:
        more = {above for it in steps if it.name in names for above in it.after} - names
        if not more:
            return [it for it in steps if it.name in names]
        names |= more


def ran(step):
    """Runs the command of a step, and returns its outcome."""
    start = time.monotonic()
    with tempfile.TemporaryFile() as output:
        where = {} if step.live else {"stdout": output, "stderr": subprocess.STDOUT}
        child = subprocess.Popen(step.command, cwd=TOP, stdin=subprocess.DEVNULL, **where)
        _, status, used = os.wait4(child.pid, 0)
        child.returncode = os.waitstatus_to_exitcode(status)
        output.seek(0)
        text = output.read().decode(errors="replace")
    outcome = FAILED if child.returncode else PASSED
    return Outcome(step, outcome, time.monotonic() - start, used.ru_utime + used.ru_stime, text)


class Gate:
    """Runs steps, at most `jobs` at a time, in their order. `outcomes` has each that ended."""

    def __init__(self, steps, jobs):
        self.waiting, self.jobs, self.outcomes, self.start = [*steps], jobs, [], time.monotonic()

    def run(self):
        """Runs all steps, and returns the exit status."""
        for step in [it for it in self.waiting if it.live]:
            self.waiting.remove(step)
            self.note(ran(step))
        running = set()
        with ThreadPoolExecutor(self.jobs) as pool:
            while self.waiting or running:
                for step in self.ready(self.jobs - len(running)):
                    self.waiting.remove(step)
                    running.add(pool.submit(ran, step))
                if running:
                    ended, running = wait(running, return_when=FIRST_COMPLETED)
                    for it in ended:
                        self.note(it.result())
        return self.summary()

    def ready(self, count):
        """The next steps that can start. Those that can never start are left out."""
        status = {it.step.name: it.status for it in self.outcomes}
        for step in [*self.waiting]:
            lost = [name for name in step.after if status.get(name) in (FAILED, LEFT_OUT)]
            waits = [name for name in step.after if name not in status]
            missing = [] if waits else [path for path in step.needs if not Path(TOP, path).exists()]
            if lost or missing:
                self.waiting.remove(step)
                why = f"{missing[0]} is missing" if missing else f"{lost[0]} has not passed"
                self.note(Outcome(step, LEFT_OUT, output=why))
        status = {it.step.name for it in self.outcomes if it.status == PASSED}
        return [it for it in self.waiting if {*it.after} <= status][:count]

    def note(self, outcome):
        """Reports how a step ended."""
        self.outcomes.append(outcome)
        print(outcome.line() + (f": {outcome.output}" if outcome.status == LEFT_OUT else ""))
        if outcome.status == FAILED:
            print(f"    {shlex.join(outcome.step.command)}")
            print("".join(f"    {line}\n" for line in outcome.output.splitlines()), end="")
        sys.stdout.flush()

    def summary(self):
        """Reports all steps in two or three lines, and returns the exit status."""
        names = {status: [it.step.name for it in self.outcomes if it.status == status] for status in (PASSED, FAILED, LEFT_OUT)}
        processor = sum(it.processor for it in self.outcomes)
        print(f"{time.monotonic() - self.start:.0f} s, {processor:.0f} s of processor")
        for status in (LEFT_OUT, FAILED):
            if names[status]:
                print(f"{status}: {', '.join(names[status])}")
        print(f"{len(names[PASSED])} passed, {len(names[FAILED])} failed" + (f", {len(names[LEFT_OUT])} left out" if names[LEFT_OUT] else ""))
        return 1 if names[FAILED] or not names[PASSED] else 0


def run_gate(steps, words, jobs):
    """Runs the steps that the words select, and returns the exit status."""
    chosen = selected(steps, words)
    if not chosen:
        print(f"no step has a name with {' or '.join(words)}: {', '.join(it.name for it in steps)}", file=sys.stderr)
        return 2
    return Gate(chosen, jobs).run()
