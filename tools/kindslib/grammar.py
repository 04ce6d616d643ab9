"""The table of rules in docs/reference/RULES.md: each rule in the sentence above it in the table, and what reads it."""
import re

from .lists import RULE, read_lists
from .source import Fault

UNREAD = "recognized alone"
NEVER = "nothing"
WITHIN = "within others"
HEAD = "| rule | in words | Rust |\n|---|---|---|\n"
READ = re.compile(r"^impl Read for (\w+) \{\n    ghost form = \{ of \(rule rules\.(\w+)\) \};", re.M)
LEVEL = re.compile(r"^impl Level for (\w+) \{.*?chain_rule = \{ rules\.(\w+) \};.*?level_rule = \{ rules\.(\w+) \};", re.M | re.S)
FUNCTION = re.compile(r"^((?: *#\[[^\n]*\]\n)*)( *)(pub )?(?:pub\(\w+\) )?fn (\w+)(?:<[^(]*>)?(\(.*?(?:\{|\{\}|;))$", re.M | re.S)


def by_hand(source, others):
    """Each file of types that is written by hand, here, in the crate below and in those beside it, by its crate and its path there."""
    return [(f"{it.crate.name}/src/{file.as_posix()}", text) for it in (source.below, source, *others) if it for file, text in it.hand.items()]


def readers(source, lists, others):
    """The readers of each rule: the types with a `Read` by it; or else the functions whose contract names it, public ones first, and the levels
    of operators; or else the functions whose proof uses its equation."""
    types, opened = {}, {}
    functions = {rule: [(False, f"`{rule}` of `{source.crate.name}/src/comma_lists.rt`")] for rule in lists}
    for file, text in by_hand(source, others):
        for name, rule in READ.findall(text):
            types.setdefault(rule, []).append(f"`{name}`")
        for name, chain, level in LEVEL.findall(text):
            for rule in (chain, level):
                functions.setdefault(rule, []).append((False, f"`{name}` of `{file}`"))
        for match in FUNCTION.finditer(text):
            attributes, indent, public, function, signature = match.groups()
            owner = re.findall(r"^impl(?: \w+ for)? (\w+) \{", text[: match.start()], re.M)[-1:] if indent else []
            name = f"`{'::'.join(owner + [function])}` of `{file}`"
            for rule in dict.fromkeys(re.findall(r"rules\.(\w+)\)* input\.", signature)):
                functions.setdefault(rule, []).append((bool(public), name))
            for rule in dict.fromkeys(re.findall(r"Each::(\w+)_is\b", attributes)):
                opened.setdefault(rule, []).append(name)
    promised = {rule: [name for public, name in names if public] or [name for _, name in names] for rule, names in functions.items()}
    return opened | promised | types


def within_others(forms, found):
    """The rules without a reader of their own that are part of a rule with a reader, directly or through another such rule."""
    within, ahead = set(), [rule for rule in forms if rule in found]
    while ahead:
        inner = set(re.findall(r"\brule (\w+)", forms.get(ahead.pop(), ""))) - set(found) - within
        within |= inner
        ahead += inner
    return within


def rows(source, table, page, *others):
    """The page with its table of rules and their readers in these crates."""
    lists = [name for name, _, _ in read_lists(source, table)[0]]
    text, found = page.read_text(), readers(source, lists, others)
    if HEAD not in text:
        raise Fault(f"{page} has no table of rules")
    before, rest = text.split(HEAD)
    after = rest[re.search(r"^(?!\|)", rest, re.M).start():]
    lines, rules = "", RULE.findall(table.read_text())
    within = within_others({rule: form for _, rule, form in rules}, found)
    for words, rule, form in rules:
        sentence = " ".join(line[3:] for line in words.splitlines())
        other = NEVER if form.strip() == "never" else WITHIN if rule in within else UNREAD
        lines += f"| `{rule}` | {sentence} | {', '.join(found.get(rule, [other]))} |\n"
    return before + HEAD + lines + after
