"""Mutation operators: small changes of a body, each of which a good contract refuses.

An operator is a function: from the body of a function (editlib/body.py) it yields mutants as places in its text and new texts.
`all_of` makes changes of them. Mutants that do not compile count for nothing, so an operator may guess types.

What each operator shows of the contracts, by the traits and functions that have them:

    promise                                              operator
    `eq`, `is_same`, `is_same_nested`: each part counts   operand_dropped, compared_with_itself, truth_returned, arm_for_another
    `eq`, `is_same`: the part of that name                part_exchanged, function_exchanged
    `try_clone`, `copy_nested`, `From`: each part stays   field_left_out, fields_exchanged, arm_for_another, variant_exchanged
    `print_in`, `print_nested`: each part is printed      statement_left_out, outcome_for_call
    `print_in`, `print_nested`: each part once            printed_twice
    `print_in`, `print_nested`: in this order             statements_exchanged, part_exchanged
    `open`, `close`: of this delimiter, at this place     method_exchanged, variant_exchanged, part_exchanged
    `text`, `character(s)`, `expected`: these words       constant_exchanged, text_returned, function_exchanged
    `kind`, `delimiter`, `rule`: this one                 variant_exchanged
    `peek` and looks: these tokens and no others          token_exchanged, method_exchanged, operand_dropped, condition_negated,
                                                          truth_returned, truth_exchanged
    `read` and parsers: each part is read                 statement_left_out, field_left_out, read_from_fork, outcome_for_call
    parsers: the buffer is advanced                       read_from_fork, statement_left_out
    parsers: what is optional, lists                      branch_never, branch_always, condition_negated, token_exchanged
    parsers: they accept what the grammar has             refused_always, arms_exchanged, arm_for_another
    `operator`, `operand` of levels                       function_exchanged
    counts, lengths, limits, places                       bound_one_off, constant_exchanged, arguments_exchanged
    views, conversions of variants                        variant_exchanged, arms_exchanged, arm_for_another
"""

from editlib.edits import Change
from editlib.operators import calls, conditions, parts, values

OPERATORS = [*conditions.OPERATORS, *calls.OPERATORS, *parts.OPERATORS, *values.OPERATORS]


def all_of(body, path):
    """The mutants of a function: of each operator its name and the changes that it makes, each once."""
    found, seen = {}, set()
    for operator in OPERATORS:
        for start, end, new in operator(body):
            change = change_of(body, path, start, end, new)
            if change and (change.old, change.new) not in seen:
                seen.add((change.old, change.new))
                found.setdefault(operator.__name__, []).append(change)
    return found


def change_of(body, path, start, end, new):
    """The change of whole lines, as many as occur once in the function; None where it changes nothing."""
    text = body.text
    first, last = text.rfind("\n", 0, start) + 1, line_end(text, end)
    if text[start:end].split() == new.split() or new.count("\n") > text.count("\n", start, end):
        return None
    while text.count(text[first:last]) > 1:
        first, last = text.rfind("\n", 0, max(0, first - 1)) + 1, line_end(text, last + 1)
    return Change(path, body.function.name, text[first:last], text[first:start] + new + text[end:last])


def line_end(text, at):
    found = text.find("\n", min(at, len(text)))
    return found if found >= 0 else len(text)
