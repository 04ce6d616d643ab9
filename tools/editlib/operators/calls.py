"""Operators on statements and calls: prints, reads, steps."""

import re
from functools import lru_cache

from editlib.body import parts

FORK = re.compile(r"&mut (\w+)(?= *[,)])|\b(input|content|ahead|next)(?=[,)]|\.read\b|\.read_)")


def is_let(text):
    return re.match(r"(?:let|return|break|continue)\b", text)


def statement_left_out(body):
    """A statement left out: a print, a read, a step, an assignment."""
    for start, end in body.statements:
        if not is_let(body.plain[start:end]):
            yield start, end, ""


def statements_exchanged(body):
    """Two adjacent statements exchanged, or the last one and the value after it."""
    found = [it for it in body.statements if not is_let(body.plain[it[0] : it[1]])]
    for (start, end), (other, last) in zip(found, found[1:]):
        if not body.plain[end:other].strip():
            yield start, last, body.text[other:last] + body.text[end:other] + body.text[start:end]
    if found and body.tail and "(" in body.plain[slice(*body.tail)] and body.plain[found[-1][1] - 2 : found[-1][1]] == "?;":
        (start, end), (other, last) = found[-1], body.tail
        if not body.plain[end:other].strip() and not re.match(r"Ok\(|\w+ \{|match |if ", body.plain[other:last]):
            yield start, last, body.text[other:last] + "?;" + body.text[end:other] + body.text[start : end - 2]


def printed_twice(body):
    """A part printed twice."""
    if "out" not in body.parameters or nothing_for(body) != "Ok(())":
        return
    for start, end in body.statements:
        if body.plain[start:end].endswith("?;") and not is_let(body.plain[start:end]):
            yield end, end, " " + " ".join(body.text[start:end].split())
    for start, end in ends_of(body):
        call = " ".join(body.text[start:end].split())
        if re.match(r"(?!match |if |Ok\(|return )[^{}]*\(", body.plain[start:end]):
            yield start, end, f"{{ {call}?; {call} }}"


def ends_of(body):
    """The places of the value of a function: what is at its end, and the results of arms where a `match` is."""
    arms = [(start, end) for _, _, start, end in body.arms] if body.tail and "match " in body.plain[slice(*body.tail)] else []
    return [*([body.tail] if body.tail else []), *arms]


def nothing_for(body):
    """What a function of this result may return that says nothing; None where that isn't known."""
    result = body.result
    if re.match(r"(?:\w+::)*Result<\(\)|Parsed<\(\)>", result):
        return "Ok(())"
    if re.match(r"(?:(?:\w+::)*Result|Parsed)<Option<", result):
        return "Ok(None)"
    if re.match(r"(?:(?:\w+::)*Result|Parsed)<bool\b", result):
        return "Ok(false)"
    return "None" if result.startswith("Option<") else None


def outcome_for_call(body):
    """`Ok(())`, `Ok(None)`, `Ok(false)` or `None` in place of a call at the end of a function, or of an arm."""
    nothing = nothing_for(body)
    for start, end in ends_of(body) if nothing else []:
        if re.match(r"(?!match |if |return )[^{}]*\(", body.plain[start:end]) and body.text[start:end] != nothing:
            yield start, end, nothing


def refused_always(body):
    """A parser that refuses everything, or a copy that is refused with a fault though there is memory."""
    tokens = "crate" if body.around.crate == "syn_tokens" else "syn_tokens"
    if body.result.startswith("error::Result<") or body.function.name.endswith("::try_clone"):
        yield body.start, body.end, f' Err({tokens}::error::Error::new({tokens}::span::Span::call_site(), "refused")) '
    if body.result.startswith("Parsed<") and "ParseBuffer" in body.parameters.get("input", ""):
        yield body.start, body.end, ' Err(input.refusal("expected token")) '


def read_from_fork(body):
    """A read from a fork, so that the buffer stays where it was."""
    if "ParseBuffer" not in body.plain[: body.start] and "content" not in body.plain:
        return
    for match in body.find(FORK.pattern):
        name = match[1] or match[2]
        is_borrowed = match[2] and not re.match(r"\.read", body.plain[match.end() :])
        if match[1] and not re.search(rf"\b(?:mut {name}\b|let mut {name}\b)", body.plain):
            continue
        if is_borrowed and "&mut " not in body.parameters.get(name, ""):
            continue
        yield match.start(), match.end(), f"{name}.fork()" if match[2] and not is_borrowed else f"&mut {name}.fork()"


def function_exchanged(body):
    """Another function of the same type called."""
    known, here, own = body.around.types.signatures, names_here(body.around.plain), body.function.name.rpartition("::")[2]
    methods = body.around.types.methods(body.around.path)
    for pattern, types, names in [(r"(?<![\w.:])([a-z]\w*)(?=\()", known, here), (r"(?<=self\.)([a-z]\w*)(?=\()", methods, methods)]:
        for match in body.find(pattern):
            others = [it for it in names if it not in (own, match[1]) and match[1] in types and types.get(it) == types[match[1]]]
            if others:
                yield match.start(), match.end(), next_of(others, match[1])


@lru_cache(maxsize=64)
def names_here(text):
    """The free functions that a file has or imports."""
    own = re.findall(r"(?m)^(?:pub(?:\([^)]*\))? )?(?:const )?fn (\w+)", text)
    uses = " ".join(re.findall(r"(?m)^(?:pub )?use ([^;]*);", text))
    return list(dict.fromkeys([*own, *re.findall(r"(?:::|[{,] *\n? *)([a-z]\w*)(?= *[,};\n]|$)", uses)]))


def next_of(names, name):
    """The name after this one in their order, or the first."""
    return next((it for it in sorted(names) if it > name), sorted(names)[0])


def arguments_exchanged(body):
    """Two adjacent arguments of the same type exchanged."""
    for match in body.find(r"(?<=[\w>])\("):
        inside = (match.end(), body.pairs.get(match.start(), match.end()))
        names = parts(body.plain[slice(*inside)])
        for first, second in zip(names, names[1:]):
            type_ = body.parameters.get(first)
            if type_ and type_ == body.parameters.get(second) and f"{first}, {second}" in body.plain[slice(*inside)]:
                at = body.plain.index(f"{first}, {second}", *inside)
                yield at, at + len(f"{first}, {second}"), f"{second}, {first}"


OPERATORS = [
    statement_left_out,
    statements_exchanged,
    printed_twice,
    outcome_for_call,
    refused_always,
    read_from_fork,
    function_exchanged,
    arguments_exchanged,
]
