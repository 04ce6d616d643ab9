#!/usr/bin/env python3
"""Tries edits that the prover has to refuse: wrong bodies, each of which breaks a contract.

    tools/try_edits.py [CRATE [NAME..]]     the edits of crates/CRATE/edits.toml (or those of these names); of every crate
    tools/try_edits.py --operators CRATE [NAME..]      the mutants that the operators make of the crate (or those of these operators or
                                            functions; with --minutes and without names, some of this turn)
    tools/try_edits.py --check              only whether each edit can be applied and names what it breaks; proves nothing
    tools/try_edits.py --lacking [CRATE]    lists the public functions and methods of traits whose bodies no edit and no operator changes
    tools/try_edits.py --record [CRATE ..]  also writes the clause into the edits that name none
    --said FOLDER                           keeps what the prover said of each pack in a file there
    --minutes N                             ends after so many minutes, also a check that goes on, and says how many edits weren't
                                            tried; after half of the time mutants are tried
    --turn N                                begins with another crate for each N, and with other edits and mutants of it, so that in
                                            time all are tried
    --built                                 only of crates for which `rt ci` has built all libraries below
    --users-of OTHER                        only of crates that use this one
    --one-by-one                            one crate after another, and not those of two side by side

An edit is a table of crates/CRATE/edits.toml (editlib/stored.py): it names the clause that it breaks, the function, the file, the
old text and the new one. What `clause` may say:

    reads                                    a clause by its name in the contract; `returns` for a clause without a name,
                                             `invariant` for that of a type
    same or equal                            of a body that breaks several clauses at once, of which the prover doesn't always
                                             report the same one: one of them has to be refused
    skips by loop-character-preserved        the prover stops at another goal than the clause's own: a loop's invariant, or what
                                             a callee requires; of a table, a function that is not proved (the end of its name),
                                             or a file of proofs, and the lemma there that is refused: one_tree by unions_hold,
                                             ItemPlan by item_plan_is

`rt ci` tries the edits of must-fail/ one after another, so there are few; this script tries them only by their names. All others
are tried many at once: a copy of the crate is changed by all edits that touch bodies of different functions, and of that the
changed functions are checked, and those that they call. Contracts are as they were, so each function that was changed has to
be refused for itself, and not only because it calls another one that is refused. What changes something else than bodies, as
a table, is tried alone, of the function that it names, or by a check of the whole crate where it names none. What isn't refused
is tried again in smaller packs, until it is alone.

A mutant is what an operator (editlib/operators) makes of the body of a function that has a contract. It names no clause: the prover
has to refuse the function by any goal, but for one that says only that an index or a sum is in range. What doesn't compile counts for
nothing. tools/equivalent_edits.txt lists the mutants that mean the same as the code; they aren't tried. Beside edits (--minutes) a mutant
that is not refused is reported, and the status stays 0: it may mean the same as the code. With --operators it is an error.

The libraries below are taken as `rt ci` left them, or built by `rt lib` where there are none. Whether the crate is proved as
it is isn't asked. The edits of two crates are tried side by side.

Not counted as refused is an edit that a proof file no longer fits only because it names what is gone: that says nothing
of the contract. Ends with 1 where an edit or a mutant is not refused, or an edit is refused for another clause than it names,
names none, or can't be applied.
"""

import argparse
import resource
import sys
import time
from concurrent.futures import ThreadPoolExecutor
from pathlib import Path

from editlib import prover, rooms
from editlib.mutant_trial import MutantTrial, summary
from editlib.mutants import Mutants
from editlib.trial import SMALL, Trial, alternatives, turned

TOP = Path(__file__).resolve().parent.parent
# how many crates' edits are tried side by side: for much of its time a check is one process
LANES = 2


def lacking(trial):
    """The public functions of the trial's crate that no edit and no operator changes."""
    changed = {name for edit in trial.edits for name in edit.functions}
    unchanged = [name for name in trial.source.public() if name not in changed]
    mutants = Mutants(trial.source, trial.lower)
    functions = {f"{trial.crate.name}::{it.name}": (path, it) for path, it in mutants.functions}
    return [name for name in unchanged if name not in functions or not mutants.of(*functions[name])]


def unnamed(trial):
    """What is wrong with edits before any proof: each names a clause, and one that the contract has."""
    for edit in trial.edits:
        known = trial.source.clauses(edit)
        if not edit.clauses:
            yield f"{edit.name}: names no clause (a line `clause = 'NAME'`; --record writes what is refused)"
        for clause in edit.clauses:
            for name in alternatives(clause.partition(" by ")[0]):
                if known and name not in known and name != "invariant":
                    yield f"{edit.name}: {name} is no clause of {', '.join(sorted(edit.functions))} ({', '.join(known)})"


def is_wanted(lower, options):
    """Whether the edits of a crate over these libraries are to be tried."""
    is_over = not options.users_of or options.users_of in [crate.name for crate in lower]
    return is_over and (not options.built or all(prover.is_of_gate(crate) for crate in lower))


def trials_of(options, top):
    """The crates that have edits, lowest first, or from the one on whose turn it is."""
    uses, folder = rooms.listed(top), top / "crates"
    lower = {name: [folder / it for it in rooms.below(name, uses)] for name in uses}
    names = [options.crate] if options.crate else sorted(uses, key=lambda name: len(lower[name]))
    names = [name for name in names if is_wanted(lower[name], options)]
    has_edits = [name for name in names if [*(folder / name).glob("edits.toml"), *(folder / name).glob("must-fail/*")]]
    end, last = ends(options)
    if options.operators:
        names = options.names or (None if options.minutes is not None else [])
        return turned([MutantTrial(folder / name, lower[name], options.said, last, options.turn, names) for name in has_edits], options.turn)
    rounds = options.turn // max(1, len(has_edits))
    trials = [Trial(folder / name, lower[name], options.names, options.said, end, SMALL * rounds) for name in has_edits]
    if not options.check and not options.names and not options.lacking:
        for trial in trials:
            trial.edits = [edit for edit in trial.edits if not edit.is_of_kit]
    return turned([trial for trial in trials if trial.edits or trial.unfit], options.turn)


def ends(options):
    """When no more edits are tried, and no more mutants; None where there is time for all."""
    start = time.monotonic()
    return (None, None) if options.minutes is None else (start + 30 * options.minutes, start + 60 * options.minutes)


def mutant_trials(options, trials):
    """Mutants of the crates whose edits were tried, where the time is limited, until it is over."""
    _, last = ends(options)
    return [MutantTrial(it.crate, it.lower, options.said, last, options.turn) for it in trials] if last and not options.operators else []


def main():
    parser = argparse.ArgumentParser(description=__doc__, formatter_class=argparse.RawDescriptionHelpFormatter)
    parser.add_argument("crate", nargs="?")
    parser.add_argument("names", nargs="*")
    parser.add_argument("--operators", action="store_true")
    parser.add_argument("--check", action="store_true")
    parser.add_argument("--lacking", action="store_true")
    parser.add_argument("--record", action="store_true")
    parser.add_argument("--said", type=Path)
    parser.add_argument("--minutes", type=float)
    parser.add_argument("--turn", type=int, default=0)
    parser.add_argument("--built", action="store_true")
    parser.add_argument("--users-of", metavar="OTHER")
    parser.add_argument("--one-by-one", action="store_true")
    options = parser.parse_args()
    if options.said:
        options.said.mkdir(parents=True, exist_ok=True)
    trials = trials_of(options, TOP)
    if options.lacking:
        print(*(name for trial in trials for name in lacking(trial)), sep="\n")
        sys.exit()
    sys.exit(tell(options, trials))


def try_all(trials, is_recording, most):
    """Tries the edits of all crates, those of so many side by side, and compares what was refused with what they name."""
    lanes = max(1, min(most, len(trials)))
    for trial in trials:
        trial.lanes = lanes
    with ThreadPoolExecutor(lanes) as pool:
        # what one of them raised is raised
        list(pool.map(lambda trial: trial.run(), trials))
    for trial in trials:
        trial.compare(is_recording)


def tell(options, trials):
    """Tries the edits and then mutants, and reports what is wrong with them; 1 where that is anything."""
    start = time.monotonic()
    edits = [] if options.operators else trials
    mutants = trials if options.operators else mutant_trials(options, trials)
    for trial in edits:
        trial.wrong += [] if options.record else unnamed(trial)
    for some in [] if options.check else [edits, mutants]:
        try_all(some, options.record, 1 if options.one_by_one else LANES)
    wrong = [f"{trial.crate.name}/{it}" for trial in (mutants if options.operators else edits) for it in trial.wrong]
    unsettled = [] if options.operators else [f"{trial.crate.name}/{it}" for trial in mutants for it in trial.wrong]
    number = sum(len(trial.edits) + len(trial.unfit) for trial in edits)
    refused = sum(len(trial.refused) for trial in edits)
    print(*wrong, sep="\n", end="\n" if wrong else "")
    late = ", ".join(f"{len(trial.untried)} of {trial.crate.name}" for trial in edits if trial.untried)
    if late:
        print(f"NOT TRIED, no time was left: {late}")
    if mutants and not options.check:
        print(*unsettled, summary(mutants), sep="\n")
    used = resource.getrusage(resource.RUSAGE_CHILDREN)
    times = f"{time.monotonic() - start:.0f} s, {used.ru_utime + used.ru_stime:.0f} s of processors"
    print(f"{number} edits, {len(wrong)} wrong" if options.check else f"{refused} of {number} refused, {len(wrong)} wrong, {times}")
    return 1 if wrong else 0


if __name__ == "__main__":
    main()
