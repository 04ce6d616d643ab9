"""What the prover says of a check: which goals of which function it refused.

The prover names a goal by what it is for: `returns-in_err-read-clause-reads` is the clause `reads` of the contract, where
the error of `read` is handed on, and `returns` the only clause of a contract. Others are the invariant of a type
(`invariant_of-self`), of a loop (`elements-preserved`), what a callee requires (`step_to-requires`), or safety
(`overflow_add-self`).
"""

import re
from dataclasses import dataclass, field

FUNCTION = re.compile(r"fn (\S+?): (.*)")
GOAL = re.compile(r"note: (?:\./)?(src/\S+?):(\d+):\d+: .*?\(`([^`]+)`\)")
ERROR = re.compile(r"(?:\./)?(\S+?):(\d+):\d+: error(?:\[[\w-]+\])?: (.*)")
PROOF = re.compile(r"proofs/(.*)/(?:Answers|Invariants|Proof)\.antt")
# a text of src/ or of an edited file that can't be read, as in the kit
UNREAD = re.compile(r"is not in scope|has no field|is no name|operand is missing|expected the end|cannot continue")
# a proof file that names what is gone
GONE = re.compile(r"is not in scope|has no field|has no `|was not admitted")
# goals that say nothing of the contract: a sum in range, an index, a slice, a cast, a divisor
SAFETY = re.compile(r"(?:overflow|bounds|slice|index|cast|divisor|division|shift)(?:_|-|$)")


@dataclass
class Told:
    """Of one function: the goals that were refused, and whether a proof file names what is gone."""

    goals: list = field(default_factory=list)
    is_gone: bool = False
    line: str = ""


@dataclass
class Answer:
    """What a check said: of each function, by its name; the lemmas that were refused, each with the name of its file; what
    couldn't be read; and its last line."""

    functions: dict = field(default_factory=dict)
    lemmas: list = field(default_factory=list)
    unread: list = field(default_factory=list)
    ended: str = ""

    def unproved(self):
        return [name for name, told in self.functions.items() if told.line != "proved"]

    def of(self, function):
        """What is said of a function and of the closures in it; nothing where the prover names no such function."""
        block, _, name = function.rpartition("::")
        module, _, kind = block.rpartition("::")
        inner = {f"{module}::fn::{kind}::{name}::", f"{block}::fn::{name}::"}
        found = [told for it, told in self.functions.items() if it == function or it.startswith(tuple(inner))]
        if function not in self.functions:
            return None
        return Told(
            [goal for told in found for goal in told.goals], any(told.is_gone for told in found), self.functions[function].line
        )


def answer_of(said, crate, function_at, changed):
    """Reads the lines of a check of this crate. `function_at` tells the function of a place (a file, a line from 0), and
    `changed` are the files that edits change."""
    answer, lines = Answer(), said.rstrip("\n").split("\n")
    for line in lines:
        match = FUNCTION.match(line)
        if match and match[1].startswith(crate + "::"):
            answer.functions[match[1]] = told = Told(line=match[2])
            goals = re.search(r"`search` did not prove ((?:`[^`]+`(?:, )?)+)", match[2])
            told.goals += re.findall(r"`([^`]+)`", goals[1]) if goals else []
        answer.ended = line if line.startswith(("logic=", "only=", "rattle: no verdict")) else answer.ended
    for line in lines:
        goal, error = GOAL.match(line), ERROR.match(line)
        if goal:
            told = answer.functions.get(f"{crate}::{function_at(goal[1], int(goal[2]) - 1)}", Told())
            told.goals += [goal[3]] * (goal[3] not in told.goals)
        elif error:
            report_of_error(answer, crate, changed, error)
    return answer


def report_of_error(answer, crate, changed, error):
    path, _, said = error.groups()
    goal = re.match(r"`([^`]+)`: (.*)", said)
    plain = re.sub(r"`[^`]*`", "", goal[2] if goal else said)
    if (path in changed or path.startswith(("src/", "specs/"))) and (not goal or UNREAD.search(plain)):
        answer.unread.append(error[0])
        return
    proof, is_gone = PROOF.match(path), GONE.search(plain) or not goal
    told = answer.functions.get(f"{crate}::{proof[1].replace('/', '::')}") if proof else None
    if told and is_gone:
        told.is_gone = True
    elif not is_gone:
        refused, it = (told.goals, goal[1]) if told else (answer.lemmas, (path.rpartition("/")[2].removesuffix(".antt"), goal[1]))
        refused += [it] * (it not in refused)


def is_of_safety(goal):
    """Whether a goal says only that an index or a sum is in range."""
    return bool(SAFETY.match(goal))


def clause_of(goal, only):
    """The clause of a contract that a goal is for, `invariant` for that of a type; None where it is for something else.
    `only` is the name of the only clause of the function's contract, which the prover leaves out."""
    named = re.search(r"(?:^|-)clause-(\w+)", goal)
    if goal.startswith("returns"):
        return named[1] if named else only
    return "invariant" if goal.startswith("invariant_of") else None
