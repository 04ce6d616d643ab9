"""Rules that are comma lists to the end of a group: the function that parses each, and its proof."""
import re
import textwrap

from .impls import WRITTEN, import_lines
from .source import LOWEST
from .views import syntax_of

RULE = re.compile(r"^--\n((?:-- [^\n]*\n)+)table (\w+) =\n((?:    [^\n]*\n)+)", re.M)
LIST = "when ended then empty else rule ELEMENT & (when at_comma then punctuation comma & rule NAME else empty)"
READ = re.compile(r"^impl Read for (\w+) \{\n    ghost form = \{ of \(rule rules\.(\w+)\) \};", re.M)
FUNCTION = re.compile(r"^    pub(?:\(crate\))? fn (\w+)\(input: &mut ParseBuffer<'_>\) -> Parsed<(\w+)>\n        ensures (?:\w+ )?\{ Parses IsSyntax \S+ rules\.(\w+) ", re.M)


def list_rules(table):
    """Each such rule, with the rule of its elements and the sentence above it."""
    found = []
    for words, name, form in RULE.findall(table.read_text()):
        pattern = re.escape(LIST.replace("NAME", name)).replace("ELEMENT", r"(\w+)")
        is_list = re.fullmatch(pattern, " ".join(form.split()))
        if is_list:
            found.append((name, is_list[1], " ".join(line[3:] for line in words.splitlines())))
    return found


def readers(source):
    """The type that each rule parses, and the call that parses it."""
    found = {}
    for text in source.hand.values():
        for name, rule in READ.findall(text):
            found[rule] = (name, "next.read()")
        for match in FUNCTION.finditer(text):
            owner = re.findall(r"^impl (\w+) \{", text[: match.start()], re.M)[-1]
            found[match[3]] = (match[2], f"{owner}::{match[1]}(next)")
    return found


def function(source, name, words, kind, call):
    syntax, _ = syntax_of(source, source.types[kind])
    said = "\n".join(textwrap.wrap(words, 116, initial_indent="/// ", subsequent_indent="/// "))
    return f"""
{said}
pub(crate) fn {name}(input: &mut ParseBuffer<'_>) -> Parsed<Punctuated<{kind}, Comma>>
    ensures reads {{ Computes IsSyntax (λ l. list_of {syntax} comma_syntax l.pairs l.last) (parse_rule rules.{name} input.old) result input.new }}
    ensures moved {{ Kept input.old result input.new }}
{{
    punctuated_list::<End, Comma, _, _>(input, |next| {call})
}}
"""


def answers(source, name, element, kind):
    syntax, module = syntax_of(source, source.types[kind])
    return f"""-- {WRITTEN}
use Rattle.std.proofs.Common.{{rules}}
use Rattle.syn_grammar.specs.Rules.{{{name}, {element}}}
use Rattle.syn_grammar.specs.Grammar.{{rule}}
use Rattle.syn_parse.specs.Form.{{of}}
use Rattle.{module}.{{{syntax}}}
use Rattle.{source.crate.name}.proofs.CommaLists.{{{name}_list}}
use Rattle.{source.crate.name}.proofs.comma_lists.{name}.Goals as goal

pub returns-clause-reads : goal.returns-clause-reads
returns-clause-reads c = c.punctuated_list.ensures.reads {name} (of (rule {element})) {syntax} {name}_list (record {{ says = λ old new x h. search (rules, h) }})
"""


def lemmas(lists):
    rules = ", ".join(dict.fromkeys(rule for name, element, _ in lists for rule in (name, element)))
    steps = ", ".join(f"{name}_is" for name, _, _ in lists)
    body = "".join(f"""
pub {name}_list : IsList {name} (of (rule {element})) (by ended) (by (at_mark comma)) (of (mark false comma))
{name}_list = record {{ is = {name}_is }}
""" for name, element, _ in lists)
    return f"""-- {WRITTEN}
-- The rules that are comma lists.
use Rattle.std.specs.Prelude.{{false}}
use Rattle.syn_grammar.specs.Tokens.{{ended, at_mark}}
use Rattle.syn_grammar.specs.Words.{{comma}}
use Rattle.syn_grammar.specs.Rules.{{{rules}}}
use Rattle.syn_grammar.specs.Grammar.{{rule, mark}}
use Rattle.syn_grammar.proofs.Each.{{{steps}}}
use Rattle.syn_parse.specs.Form.{{by, of}}
use Rattle.syn_parse.specs.Listing.{{IsList}}
{body}"""


def read_lists(source, table):
    """The rules that are comma lists, without those that have no parser of their elements and those with a function by hand; and the
    parsers of elements."""
    known = readers(source)
    by_hand = {rule for text in source.hand.values() for rule in re.findall(r"\(parse_rule rules\.(\w+) input\.old\)", text)}
    return [(name, element, words) for name, element, words in list_rules(table) if element in known and name not in by_hand], known


def comma_lists(source, table):
    """src/comma_lists.rt, proofs/CommaLists.antt and a file Answers for each function."""
    lists, known = read_lists(source, table)
    views = {}
    uses = {"syn_tokens::token": ["Comma"]}
    needs = [("syn_parse::buffer", "ParseBuffer"), ("syn_parse::read::lists", "punctuated_list"), ("syn_tokens::punctuated", "Punctuated"), ("syn_parse::read", "End"), ("syn_parse::read::refusal", "Parsed")]
    for _, element, _ in lists:
        kind, call = known[element]
        syntax, module = syntax_of(source, source.types[kind])
        views.setdefault(module, []).append(syntax)
        needs.append((source.own_path_of(kind), kind))
        if call == "next.read()":
            needs.append(("syn_parse::read", "Read"))
    for path, name in needs:
        uses.setdefault(path, []).append(name)
    heads = "".join(f"ghost use Rattle.{module}.{{{', '.join(dict.fromkeys(names))}}};\n" for module, names in views.items())
    imports = import_lines(uses)
    functions = "".join(function(source, name, words, *known[element]) for name, element, words in lists)
    files = {source.crate / "src/comma_lists.rt": f"""//! {WRITTEN}
//!
//! The rules of the grammar that are comma lists to the end of a group.
ghost use Rattle.syn_grammar.specs.Rules as rules;
ghost use Rattle.{LOWEST}.specs.Parsing.{{parse_rule, Computes, Kept, IsSyntax, list_of}};
ghost use Rattle.syn_tokens.specs.Kinds.{{comma_syntax}};
{heads}
{imports}{functions}"""}
    files[source.crate / "proofs/CommaLists.antt"] = lemmas(lists)
    for name, element, _ in lists:
        files[source.crate / f"proofs/comma_lists/{name}/Answers.antt"] = answers(source, name, element, known[element][0])
    return files
