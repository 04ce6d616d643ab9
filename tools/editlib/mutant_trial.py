"""The mutants of a crate that the operators make, tried in packs, and what became of them."""

from editlib.edits import packs
from editlib.mutants import Mutants, equivalents, is_equivalent
from editlib.refusals import ERROR, is_of_safety
from editlib.trial import Packed, why_not

# the most mutants of a crate in one run, where time is short or all are meant
MOST = 200
OUTCOMES = ("refused", "only for safety", "only by a proof of the old body", "do not compile", "without a verdict", "NOT REFUSED")


class MutantTrial(Packed):
    """Mutants of one crate: those of this turn, or those of these names, which are operators or functions."""

    def __init__(self, crate, lower, folder=None, end=None, turn=0, names=None):
        super().__init__(crate, lower, folder, end)
        self.turn, self.names = turn, names
        self.known = equivalents(crate.parent.parent)
        self.outcomes, self.equivalent = {}, 0

    def run(self):
        if self.is_late():
            return
        mutants = Mutants(self.source, self.lower)
        chosen = mutants.of_turn(self.turn, MOST) if self.names is None else mutants.named(self.names)
        found = list(chosen)
        self.edits = [it for it in found if not is_equivalent(it, self.crate.name, self.known)]
        self.equivalent = len(found) - len(self.edits)
        super().run()

    def try_pack(self, pack, kept):
        """As of edits, but what does not compile is left out, and the rest of the pack tried again."""
        while True:
            missed = super().try_pack(pack, kept)
            unread = [it for it in missed if self.outcomes.get(it.name) == "do not compile"]
            rest = [it for it in missed if it not in unread]
            if not unread or not rest:
                return [it for it in rest if it.name not in self.outcomes]
            pack = packs(self.source, rest, len(rest))[0]

    def answer(self, pack, kept):
        answer = super().answer(pack, kept)
        for error in answer.unread if answer else ():
            place = ERROR.match(error)
            function = self.source.function_around(place[1], int(place[2]) - 1) if place else None
            for it in pack.edits:
                if f"{self.crate.name}::{function}" in it.functions:
                    self.settle(it, "do not compile", error)
        return answer

    def is_refused(self, edit, answer, is_alone):
        """Whether a mutant's function was refused for itself, by a goal that says something of its contract."""
        (function,) = edit.functions
        told = answer.of(function)
        goals = [goal for goal in told.goals if not is_of_safety(goal)] if told else []
        if edit.name in self.outcomes:
            return False
        if answer.unread:
            return self.settle(edit, "do not compile", answer.unread[0]) if is_alone else False
        if goals:
            self.refused[edit.name] = [(function, goal) for goal in goals]
            return self.settle(edit, "refused", goals[0])
        if told and told.goals:
            return self.settle(edit, "only for safety", told.goals[0])
        if told and told.is_gone:
            return self.settle(edit, "only by a proof of the old body", told.line)
        if told and (told.line == "proved" or is_alone and answer.ended):
            return self.settle(edit, "NOT REFUSED", edit.shown)
        return self.settle(edit, "without a verdict", why_not({function: told}, answer)) if is_alone else False

    def settle(self, edit, outcome, why):
        """Notes and prints what became of a mutant."""
        self.outcomes[edit.name] = outcome
        by = {"refused": "refused by"}.get(outcome, f"{outcome}:")
        print(f"{self.crate.name}: {edit.name}: {by} {why}", flush=True)
        if outcome == "NOT REFUSED":
            self.wrong.append(f"{edit.name}: NOT REFUSED: {edit.shown}")
        return outcome == "refused"

    def compare(self, is_recording):
        """A mutant names no clause: any goal of its function will do."""

    def counts(self):
        """How many mutants there are of each outcome."""
        found = {outcome: list(self.outcomes.values()).count(outcome) for outcome in OUTCOMES}
        return {**found, "known to mean the same": self.equivalent}


def summary(trials):
    """The mutants of all crates by what became of them, as a line."""
    found = {}
    for trial in trials:
        for outcome, number in trial.counts().items():
            found[outcome] = found.get(outcome, 0) + number
    return "mutants: " + ", ".join(f"{number} {outcome}" for outcome, number in found.items() if number or outcome == "refused")
