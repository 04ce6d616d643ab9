"""Operators on conditions, bounds and truth values."""

import re

# where an operand of `&&` or `||` begins at the latest, and ends
BEFORE = re.compile(r"(?:[;,{]|=>|[^=!<>]=(?=[^=>])|\|(?=[^|])|\b(?:if|while|return|match|else)\b)\s*$")


def operands(body, word):
    """Of each `&&` or `||` the places of its left and right operand: up to the next operator of this kind, or what binds less."""
    weaker = [r"\|\|", r"=>", "[;,{]"] + ([] if word == "||" else [])
    stop = re.compile("|".join([re.escape(word), *weaker]))
    for match in body.find(re.escape(word)):
        start = left_of(body, match.start(), word)
        end = match.end()
        while end < body.end and body.plain[end] not in ")]}" and not stop.match(body.plain, end):
            end = body.pairs.get(end, end) + 1 if body.plain[end] in "([" else end + 1
        yield start, match.start(), match.end(), end


def left_of(body, at, word):
    """Where the operand begins that ends here."""
    at -= 1
    while at >= body.start:
        if body.plain[at] in ")]":
            at = body.pairs.get(at, at)
        elif body.plain[at] in "([{;,}" or BEFORE.search(body.plain, max(body.start, at - 8), at + 1) or body.plain[at - 1 : at + 1] in (word, "||"):
            break
        at -= 1
    return at + 1 + len(re.match(r"\s*", body.plain[at + 1 :])[0])


def operand_dropped(body):
    """One operand of `&&` or `||` left out: a part of a comparison, a case of a look."""
    for word in ("&&", "||"):
        for start, left_end, right, end in operands(body, word):
            if body.plain[start:left_end].strip() and not body.is_pattern(left_end) or body.plain[left_end:end].count("=>") == 0:
                rest = body.text[right:end]
                yield start, end, body.text[start:left_end].rstrip() + trailing(rest)
                yield start, end, rest.strip() + trailing(rest)


def trailing(text):
    return text[len(text.rstrip()) :]


def condition_negated(body):
    """The condition of an `if` negated."""
    for _, start, end in body.conditions:
        condition = body.text[start:end]
        is_plain = condition.startswith("!") and not re.search(r"&&|\|\||==|[<>]", body.plain[start:end])
        yield start, end, condition[1:] if is_plain else f"!({condition})"


def branch_never(body):
    """The branch of an `if` never taken, or the loop of a `while` never entered."""
    for _, start, end in body.conditions:
        yield start, end, "false"


def branch_always(body):
    """The branch of an `if` taken for both."""
    for word, start, end in body.conditions:
        if word == "if":
            yield start, end, "true"


def bound_one_off(body):
    """A comparison of numbers that is one off, or a `+ 1` dropped."""
    turned = {"<": "<=", "<=": "<", ">": ">=", ">=": ">", "==": "!=", "!=": "=="}
    for match in body.find(r"(?<= )(<=|>=|==|!=|<|>)(?= )"):
        if not body.is_pattern(match.start()) or " if " in body.plain[body.plain.rfind("\n", 0, match.start()) : match.start()]:
            yield match.start(), match.end(), turned[match[1]]
    for match in body.find(r" [+-] \d+\b"):
        yield match.start(), match.end(), ""
    for match in body.find(r"\.\.=?(?=[\w(])"):
        if "for " in body.plain[body.plain.rfind("\n", 0, match.start()) : match.start()]:
            yield match.end(), match.end(), "1 + "


def truth_exchanged(body):
    """`true` for `false`, and the other way round."""
    for match in body.find(r"\b(true|false)\b"):
        if not body.is_pattern(match.start()) or match.start() > body.plain.rfind("=>", 0, match.end()) > body.plain.rfind("\n", 0, match.start()):
            yield match.start(), match.end(), "false" if match[1] == "true" else "true"


def truth_returned(body):
    """A function that returns `true` always, or `false`."""
    if body.result == "bool":
        for value in ("true", "false"):
            yield body.start, body.end, f" {value} "


OPERATORS = [operand_dropped, condition_negated, branch_never, branch_always, bound_one_off, truth_exchanged, truth_returned]
