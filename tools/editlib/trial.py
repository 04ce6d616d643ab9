"""The edits of a crate, tried in packs, and what became of them."""

import tempfile
import time
from functools import cached_property

from editlib import prover, rooms, stored
from editlib.edits import Source, applying, packs
from editlib.refusals import answer_of, clause_of

# the most edits of one check, and where time is short: the prover takes some seconds for each refusal
SIZE, SMALL = 80, 20


class Packed:
    """Changes of one crate, tried many at once, and what isn't refused again in smaller packs, until it is alone."""

    def __init__(self, crate, lower, folder=None, end=None):
        self.crate, self.lower, self.folder, self.end = crate, lower, folder, end
        self.lanes = 1
        self.size = SIZE if end is None else SMALL
        self.edits, self.refused, self.untried, self.wrong = [], {}, [], []

    @cached_property
    def source(self):
        return Source(self.crate, self.lower)

    def is_late(self):
        """Whether no time is left for another check."""
        return self.end is not None and time.monotonic() > self.end

    def run(self):
        """Tries the edits."""
        left, size = self.edits, self.size
        if not self.is_late() and not prover.has_libraries(self.lower, self.end):
            self.wrong.append("a library below it isn't built")
            return
        with tempfile.TemporaryDirectory(prefix="edits-") as kept:
            while left:
                tried = packs(self.source, left, size)
                missed = [edit for pack in tried for edit in self.try_pack(pack, kept)]
                alone = {pack.edits[0].name for pack in tried if len(pack.edits) == 1}
                left, size = [edit for edit in missed if edit.name not in alone], max(1, min(size, len(missed)) // 2)

    def try_pack(self, pack, kept):
        """The edits of the pack that are not refused; none where no time is left. What the check proves is kept in that folder."""
        start = time.monotonic()
        answer = self.answer(pack, kept)
        if answer is None:
            self.untried += pack.edits
            return []
        missed = [edit for edit in pack.edits if not self.is_refused(edit, answer, len(pack.edits) == 1)]
        print(f"{self.crate.name}: {len(pack.edits) - len(missed)} of {len(pack.edits)} refused, {time.monotonic() - start:.0f} s", flush=True)
        return missed

    def answer(self, pack, kept):
        """What a check of the pack said; None where no time is left. What it proves is kept in that folder."""
        only = {function for edit in pack.edits for function in self.changed(edit)}
        with rooms.room(self.crate, pack.texts) as folder:
            said = None if self.is_late() else prover.checked(self.crate, folder, only, kept, self.end, self.lanes)
        if said is None:
            return None
        if self.folder:
            name = pack.edits[0].name.replace("/", "_").replace(" ", "-")
            (self.folder / f"{self.crate.name}-{name}-{len(pack.edits)}.txt").write_text(said)
        return answer_of(said, self.crate.name, self.source.function_around, set(pack.texts))

    def changed(self, edit):
        """The functions that are to be checked."""
        return edit.functions


class Trial(Packed):
    """The stored edits of one crate."""

    def __init__(self, crate, lower, names, folder=None, end=None, start=0):
        super().__init__(crate, lower, folder, end)
        read, unread = stored.read(crate)
        found, unfit = applying(self.source, [edit for edit in read if not names or edit.name in names])
        self.unfit = [*unfit, *((name, why) for name, why in unread if not names or name in names)]
        self.edits = turned(found, start)
        self.wrong = [f"{name}: can't be applied: {why}" for name, why in self.unfit]

    def changed(self, edit):
        """The functions that are to be checked: those whose bodies the edit changes, or else those that it names; none where it names
        the file of a lemma."""
        if not edit.is_outside:
            return edit.functions
        named = [clause.partition(" by ")[0] for clause in edit.clauses if " by " in clause]
        return {function for function in self.source.names() for name in named if is_named(name, function)}

    def is_refused(self, edit, answer, is_alone):
        """Whether one of the functions that the edit changes was refused for itself; of an edit outside of bodies, any function,
        or a lemma on which one rests."""
        names = list(answer.functions) if edit.is_outside else sorted(edit.functions)
        told = {name: answer.of(name) for name in names}
        goals = [(name, goal) for name, it in told.items() if it for goal in it.goals]
        if edit.is_outside:
            goals += [(name, lemma) for _, lemma in answer.lemmas for name in answer.unproved()] + answer.lemmas
        if goals and not answer.unread:
            self.refused[edit.name] = goals
            return True
        if is_alone:
            self.wrong.append(f"{edit.name}: {why_not(told, answer)}")
        return False

    def clauses(self, edit):
        """The clauses whose goals were refused of an edit, and the other goals that were, each in the prover's order."""
        clauses, others = {}, {}
        for function, goal in self.refused[edit.name]:
            clause = clause_of(goal, self.source.only_clause(function))
            (clauses if clause else others)[clause or goal] = function
        return list(clauses), list(others)

    def whole(self, edit):
        """What may be named before ` by `: the clauses of what the edit changes; outside of bodies, a function that isn't
        proved, or the file of a lemma."""
        if edit.is_outside:
            return list(dict.fromkeys(function for function, _ in self.refused[edit.name]))
        return self.source.clauses(edit)

    def compare(self, is_recording):
        """Compares what was refused with what the edits name."""
        recorded = []
        for edit in self.edits:
            if edit.name not in self.refused:
                continue
            clauses, others = self.clauses(edit)
            if not edit.clauses and is_recording:
                edit.clauses = clauses[:1] or [f"{(self.whole(edit) or ['returns'])[0].removeprefix(f'{self.crate.name}::')} by {others[0]}"]
                recorded.append(edit)
            for clause in edit.clauses:
                name, _, goal = clause.partition(" by ")
                if goal:
                    whole = self.whole(edit)
                    fits = goal in [*clauses, *others] and (not whole or any(is_named(name, it) for it in whole))
                else:
                    fits = not set(alternatives(name)).isdisjoint(clauses)
                if not fits:
                    self.wrong.append(f"{edit.name}: names {clause}, but refused were: {', '.join([*clauses, *others])}")
        stored.record(recorded)


def turned(things, start):
    """The same, beginning with another one."""
    at = start % len(things) if things else 0
    return things[at:] + things[:at]


def is_named(name, whole):
    """Whether a name is all of another one, or its end."""
    return f"::{whole}".endswith(f"::{name}")


def alternatives(clauses):
    """The names of clauses of which one is refused."""
    return clauses.split(" or ")


def why_not(told, answer):
    """Why an edit that was tried alone is not refused, in words."""
    if answer.unread:
        return f"the prover can't read it: {answer.unread[0][:300]}"
    unknown = [name for name, it in told.items() if it is None]
    if unknown:
        return f"the prover names no function {unknown[0]}" + ("" if answer.ended else ": there was no verdict")
    if any(it.is_gone for it in told.values()):
        return "refused only by a proof file that names what is gone, which says nothing of the contract"
    return "NOT REFUSED" if answer.ended else "no verdict"
