"""Operators on constants, variants, token types, methods and arms."""

import re

METHODS = {
    "is_some": "is_none",
    "is_none": "is_some",
    "is_ok": "is_err",
    "is_err": "is_ok",
    "first": "last",
    "last": "first",
    "min": "max",
    "max": "min",
    "any": "all",
    "all": "any",
    "open": "close",
    "close": "open",
    "peek": "peek2",
    "peek2": "peek3",
    "peek3": "peek2",
    "starts_with": "ends_with",
    "ends_with": "starts_with",
}


def constant_exchanged(body):
    """Another text, character or number."""
    texts = list(dict.fromkeys(re.findall(r'"(?:\\.|[^"\\\n])*"', body.around.text)))
    for match in body.find(r'(?<![\w#])"_*"'):
        own = body.text[match.start() : match.end()]
        others = [it for it in texts if it != own]
        yield match.start(), match.end(), after(texts, own) if others else '"other"'
    for match in body.find(r"'_+'"):
        yield match.start(), match.end(), "'#'" if body.text[match.start() : match.end()] != "'#'" else "'!'"
    for match in body.find(r"(?<![\w.])\d+(?![\w.])"):
        if not body.is_pattern(match.start()) and not body.plain[: match.start()].endswith("; "):
            yield match.start(), match.end(), str(int(match[0]) + 1)


def after(things, own):
    """The one after this, or the first."""
    at = things.index(own) + 1 if own in things else 0
    return things[at % len(things)]


def variant_exchanged(body):
    """Another variant of an enum, or another constant of a type."""
    for match in body.find(r"\b([A-Z]\w*)::([A-Z]\w*)\b(?!\s*[({:!])"):
        units = body.around.types.variants.get(match[1], [])
        others = units if match[2] in units else constants(body, match[1], match[2])
        if len(others) > 1 and not body.is_pattern(match.start()):
            yield match.start(2), match.end(2), after(others, match[2])
    for match in body.find(r"\b([A-Z]\w*)::([A-Z]\w*)(?=\()"):
        others = same_parts(body, match[1], match[2])
        if others and not body.is_pattern(match.start()):
            yield match.start(2), match.end(2), others[0]


def same_parts(body, name, variant):
    """The variants of an enum that this file names with the same parts as this one: here those that take the same binding."""
    text = next((text for text in body.around.types.texts.values() if re.search(rf"(?m)^(?:pub )?enum {name}\b", text)), "")
    items = re.search(rf"enum {name}\b[^{{]*\{{\n(.*?)^\}}", text, re.S | re.M)
    parts = dict(re.findall(r"(?m)^    (\w+)\((.*?)\),$", items[1])) if items else {}
    return [it for it, inside in parts.items() if it != variant and inside == parts.get(variant)]


def constants(body, type_, name):
    """The constants of a type that the file names, where this is one of them."""
    found = list(dict.fromkeys(re.findall(rf"\b{type_}::([A-Z][A-Z0-9_]+)\b", body.around.plain)))
    return found if name in found and name.isupper() else []


def token_exchanged(body):
    """Another token looked for."""
    tokens = re.search(r"(?m)^use (?:syn_tokens|crate)::token::\{([^}]*)\}", body.around.plain)
    peeked = list(dict.fromkeys(re.findall(r"peek[23]?::<(\w+)>", body.around.plain)))
    known = list(dict.fromkeys([*peeked, *re.findall(r"\b[A-Z]\w*", tokens[1] if tokens else "")]))
    for match in body.find(r"\bpeek[23]?::<((?:token::)?)(\w+)>"):
        if len(known) > 1:
            yield match.start(2), match.end(2), after(known, match[2])
    for match in body.find(r"\bpunctuated_list::<(\w+), (\w+),"):
        yield match.start(1), match.end(1), match[2]


def method_exchanged(body):
    """The method that says the opposite, or looks elsewhere."""
    for match in body.find(r"(?<=\.)(\w+)(?=(?:::<\w+>)?\()"):
        if match[1] in METHODS:
            yield match.start(), match.end(), METHODS[match[1]]


def arms_exchanged(body):
    """The result of an arm exchanged with the next one's, where neither needs what its pattern binds."""
    for (pattern, pattern_end, start, end), (pattern2, pattern_end2, start2, end2) in zip(body.arms, body.arms[1:]):
        is_next = body.plain[end : end + 1] in ",\n" and not body.plain[end:pattern2].strip(" ,\n") and end2 > start2
        first, second = body.text[start:end], body.text[start2:end2]
        bound, bound2 = (names_in(body.plain[it]) for it in (slice(pattern, pattern_end), slice(pattern2, pattern_end2)))
        used, used2 = names_in(body.plain[start:end]), names_in(body.plain[start2:end2])
        if is_next and first != second and not used & bound and not used2 & bound2:
            first, second = in_place_of(second, first), in_place_of(first, second)
            yield start, end2, second + body.text[end:start2] + first


def names_in(text):
    """The names of values in a text."""
    return set(re.findall(r"(?<![\w.])[a-z_]\w*\b(?!\(|::)", text))


def in_place_of(old, new):
    """A result for an arm: a block needs no comma after it, and nothing else does without one."""
    return f"{{ {new} }}" if old.startswith("{") and not new.startswith("{") else new


def arm_for_another(body):
    """The result of an arm that binds nothing in place of another's; `true` in place of a comparison."""
    simple = re.compile(r"[A-Z\d][\w:]*(?:\((?:\(\)|true|false|[A-Z][\w:]*)\))?$|true$|false$")
    plain = [(start, end) for _, _, start, end in body.arms if simple.match(body.plain[start:end])]
    for _, _, start, end in body.arms:
        old = body.text[start:end]
        other = next((it for it in reversed(plain) if body.text[slice(*it)] != old), None)
        if other:
            yield start, end, in_place_of(old, body.text[slice(*other)])
        if body.result == "bool" and old not in ("true", "false"):
            yield start, end, in_place_of(old, "true")


def text_returned(body):
    """Another text returned by a function that says one."""
    if body.result == "&'static str" and '"' not in body.plain[body.start : body.end]:
        yield body.start, body.end, ' "other" '


OPERATORS = [constant_exchanged, variant_exchanged, token_exchanged, method_exchanged, arms_exchanged, arm_for_another, text_returned]
