"""Operators on the parts of structs: copies, comparisons, conversions, prints."""

import re

NUMBER = re.compile(r"[ui](?:8|16|32|64|128|size)$")


def compared_with_itself(body):
    """`self` for `other` in one place of a comparison, or one binding of a pair for the other."""
    if "other" in body.parameters and "self" in body.parameters:
        for match in body.find(r"\bother\b"):
            yield match.start(), match.end(), "self"
    for pattern, pattern_end, start, end in body.arms:
        names = re.match(r"\((?:\w+::)*\w+\((\w+)\), (?:\w+::)*\w+\((\w+)\)\)\s*$", body.plain[pattern:pattern_end])
        for match in re.finditer(rf"\b{names[2]}\b", body.plain[start:end]) if names else []:
            yield start + match.start(), start + match.end(), names[1]


def literals(body):
    """Of each struct literal the types of its fields, and the places of its fields: name, start and end of the value."""
    for match in body.find(r"\b(?:\w+::)*([A-Z]\w*) \{"):
        name = re.search(r"impl.*? for (?:\w+::)*(\w+)|impl(?:<.*?>)? (?:\w+::)*(\w+)", body.around.block_of(body.function))
        of_self = (name[1] or name[2]) if name and match[1] == "Self" else match[1]
        types = body.around.types.fields.get(of_self)
        close = body.pairs.get(match.end() - 1)
        if not types or close is None or re.match(r"\s*=(?!=)|\s*=>|\s*\|", body.plain[close + 1 :]):
            continue
        yield types, list(fields(body, match.end(), close))


def fields(body, at, close):
    """The fields between these places: name, where the field begins, where its value begins and ends."""
    while at < close:
        end = body.forward(at, ",")
        field = re.match(r"\s*(\w+)(: )?", body.plain[at:end])
        if field and body.plain[at:end].strip():
            start = at + len(re.match(r"\s*", body.plain[at:end])[0])
            yield field[1], start, at + field.end() if field[2] else None, end
        at = end + 1


def empty_of(body, type_, value):
    """A value of the type that says nothing; None where none is known."""
    tokens = "crate" if body.around.crate == "syn_tokens" else "syn_tokens"
    alloc = body.allocator
    simple = {"bool": f"!({value})", "Span": f"{tokens}::span::Span::call_site()"}
    if type_ in simple:
        return simple[type_]
    if type_.startswith("Option<"):
        return "None" if value != "None" else None
    if NUMBER.match(type_):
        return f"{value} / 2"
    if alloc and type_.startswith("Vec<") and not value.startswith("Vec::new"):
        return f"Vec::new({alloc})"
    if alloc and type_.startswith("Punctuated<"):
        return f"{tokens}::punctuated::Punctuated::new({alloc})"
    if alloc and type_ == "TokenStream":
        return f"{tokens}::stream::TokenStream::new({alloc})"
    units = body.around.types.variants.get(type_, [])
    if units and re.search(rf"\b{type_}\b", body.around.plain):
        return f"{type_}::{units[0]}" if value != f"{type_}::{units[0]}" else None
    return None


def field_left_out(body):
    """A part of a value that is built left out: what may be absent is, a list is empty."""
    for types, found in literals(body):
        for name, start, value, end in found:
            old = body.text[value:end] if value else name
            new = empty_of(body, types.get(name, ""), old.strip())
            if new:
                yield start, end, f"{name}: {new}"


def fields_exchanged(body):
    """Two parts of one type of a value that is built exchanged."""
    for types, found in literals(body):
        for (name, start, value, end), (other, start2, value2, end2) in zip(found, found[1:]):
            if types.get(name, "") == types.get(other):
                first, second = (body.text[it:at] if it else name for name, it, at in ((name, value, end), (other, value2, end2)))
                between = body.text[end:start2]
                yield start, end2, f"{name}: {second.strip()}{between}{other}: {first.strip()}"


def part_exchanged(body):
    """Another part of `self` in place of one: in prints the one that is used next, elsewhere one of the same type."""
    used = [(match.start(1), match[1]) for match in body.find(r"\bself\.(\w+)\b(?!\()")]
    names = list(dict.fromkeys(name for _, name in used))
    types = own_fields(body)
    is_print = "out" in body.parameters
    for at, name in used:
        after = [it for it in [*names[names.index(name) + 1 :], *names, *types] if it != name]
        is_printed = is_print and (body.plain[at + len(name) :].startswith(".print_") or body.plain[:at].endswith("&self."))
        other = next((it for it in after if is_printed or types.get(name) and types.get(it) == types.get(name)), None)
        if other:
            yield at, at + len(name), other
    for match in body.find(r"(?<=self\.)(opening|closing)\b"):
        yield match.start(), match.end(), "closing" if match[1] == "opening" else "opening"


def own_fields(body):
    """The types of the fields of the type in whose block the function is."""
    name = re.search(r"impl.*? for &?(?:\w+::)*(\w+)|impl(?:<.*?>)? (?:\w+::)*(\w+)", body.around.block_of(body.function))
    return body.around.types.fields.get(name[1] or name[2], {}) if name else {}


OPERATORS = [compared_with_itself, field_left_out, fields_exchanged, part_exchanged]
