#!/usr/bin/env python3
"""Writes the kinds of words and marks of crates/syn_tokens: src/token.rt, src/token/kind.rt,
src/token/kind/*.rt, specs/Kinds*.antt.

Run it at the top of the repository, and commit what it writes. With --check it writes nothing, and fails if a file differs
from what it would write."""

import argparse
import sys
from pathlib import Path

CRATE = Path("crates/syn_tokens")
# the first line of each source and spec
WRITTEN = "Written by tools/tokens.py; edits are lost."

# name, text, name of the text in specs/Words of syn_grammar
DECLARATIONS = [
    ("Const", "const", "w_const"), ("Crate", "crate", "w_crate"), ("Enum", "enum", "w_enum"),
    ("Extern", "extern", "w_extern"), ("Fn", "fn", "w_fn"), ("Impl", "impl", "w_impl"), ("In", "in", "w_in"),
    ("Mod", "mod", "w_mod"), ("Pub", "pub", "w_pub"), ("SelfType", "Self", "w_Self_type"),
    ("SelfValue", "self", "w_self"), ("Static", "static", "w_static"), ("Struct", "struct", "w_struct"),
    ("Super", "super", "w_super"), ("Trait", "trait", "w_trait"), ("Type", "type", "w_type"),
    ("Unsafe", "unsafe", "w_unsafe"), ("Use", "use", "w_use"), ("Where", "where", "w_where"),
]
EXPRESSIONS = [
    ("As", "as", "w_as"), ("Async", "async", "w_async"), ("Await", "await", "w_await"), ("Break", "break", "w_break"),
    ("Continue", "continue", "w_continue"), ("Dyn", "dyn", "w_dyn"), ("Else", "else", "w_else"),
    ("False", "false", "w_false"), ("For", "for", "w_for"), ("If", "if", "w_if"), ("Let", "let", "w_let"),
    ("Loop", "loop", "w_loop"), ("Match", "match", "w_match"), ("Move", "move", "w_move"), ("Mut", "mut", "w_mut"),
    ("Ref", "ref", "w_ref"), ("Return", "return", "w_return"), ("True", "true", "w_true"),
    ("Underscore", "_", "w_underscore"), ("While", "while", "w_while"),
]
OTHERS = [
    ("Abstract", "abstract", "w_abstract"), ("Auto", "auto", "w_auto"), ("Become", "become", "w_become"),
    ("Box", "box", "w_box"), ("Default", "default", "w_default"), ("Do", "do", "w_do"), ("Final", "final", "w_final"),
    ("Macro", "macro", "w_macro"), ("Override", "override", "w_override"), ("Priv", "priv", "w_priv"),
    ("Safe", "safe", "w_safe"), ("Try", "try", "w_try"), ("Typeof", "typeof", "w_typeof"),
    ("Union", "union", "w_union"), ("Unsized", "unsized", "w_unsized"), ("Virtual", "virtual", "w_virtual"),
    ("Yield", "yield", "w_yield"),
]
MARKS = [
    ("And", "&"), ("At", "@"), ("Caret", "^"), ("Colon", ":"), ("Comma", ","), ("Dollar", "$"), ("Dot", "."),
    ("Eq", "="), ("Gt", ">"), ("Lt", "<"), ("Minus", "-"), ("Not", "!"), ("Or", "|"), ("Percent", "%"), ("Plus", "+"),
    ("Pound", "#"), ("Question", "?"), ("Semi", ";"), ("Slash", "/"), ("Star", "*"), ("Tilde", "~"),
]
LONG_MARKS = [
    ("AndAnd", "&&"), ("AndEq", "&="), ("CaretEq", "^="), ("DotDot", ".."), ("DotDotDot", "..."), ("EqEq", "=="),
    ("FatArrow", "=>"), ("Ge", ">="), ("Le", "<="), ("MinusEq", "-="), ("Ne", "!="), ("OrEq", "|="), ("OrOr", "||"),
    ("PathSep", "::"), ("PercentEq", "%="), ("PlusEq", "+="), ("RArrow", "->"), ("Shl", "<<"), ("ShlEq", "<<="),
    ("Shr", ">>"), ("ShrEq", ">>="), ("SlashEq", "/="), ("StarEq", "*="),
]
# the type, the delimiter, the doc comment of both, the name in error messages
GROUPS = [
    ("Paren", "Paren", "`( )`", "parentheses"),
    ("Brace", "Brace", "`{ }`", "curly braces"),
    ("Bracket", "Bracket", "`[ ]`", "square brackets"),
    ("Group", "None", "The delimiters of an invisible group, which appear in no text.", "invisible group"),
]

WORD_FILES = [
    ("declarations", "Words of declarations and paths.", DECLARATIONS),
    ("expressions", "Words of expressions, patterns and types.", EXPRESSIONS),
    ("others", "Reserved words, and words that are keywords only in some places.", OTHERS),
]


def snake(name):
    out = ""
    for i, c in enumerate(name):
        out += ("_" if c.isupper() and i else "") + c.lower()
    return out


def codes(text):
    return "".join(f"{ord(c)} ∷ " for c in text) + "[]"


def char(c):
    return "'\\''" if c == "'" else f"'{c}'"


def word_kind(name, text, spec):
    return f"""
/// `{text}`
pub struct {name};

impl WordKind for {name} {{
    ghost text = {{ {spec} }};

    fn text() -> &'static str {{
        "{text}"
    }}

    fn expected() -> &'static str {{
        "expected `{text}`"
    }}

    ghost known = {{ unfold is_known_word in refl }};

    ghost plain = {{ refl }};
}}
"""


def words(title, kinds):
    specs = ", ".join(spec for _, _, spec in kinds)
    return f"""//! {WRITTEN}
//!
//! {title}
ghost use Rattle.std.specs.Prelude.{{refl}};
ghost use Rattle.syn_grammar.specs.Words.{{{specs}}};
ghost use Rattle.syn_tokens.specs.Leaves.{{is_known_word}};

use crate::token::WordKind;
""" + "".join(word_kind(*kind) for kind in kinds)


TRAITS = {1: "OneCharacter", 2: "TwoCharacters", 3: "ThreeCharacters"}


def characters(text):
    """The characters of a mark, and the function that returns them."""
    if len(text) == 1:
        return char(text), "character"
    return "(" + ", ".join(char(c) for c in text) + ")", "characters"


def mark_kind(name, text):
    trait = TRAITS[len(text)]
    ghosts = [("character", "first", "second", "third")[i + (len(text) > 1)] for i in range(len(text))]
    members = "".join(f"    ghost {g} = {{ {ord(c)} }};\n\n" for g, c in zip(ghosts, text))
    result = "char" if len(text) == 1 else "(" + ", ".join(["char"] * len(text)) + ")"
    value, function = characters(text)
    known = "" if len(text) == 1 else "\n    ghost known = { refl };\n"
    printable = "refl" if len(text) == 1 else "(" + ", ".join(["refl"] * len(text)) + ")"
    return f"""
/// `{text}`
pub struct {name};

impl {trait} for {name} {{
{members}    fn {function}() -> {result} {{
        {value}
    }}

    fn expected() -> &'static str {{
        "expected `{text}`"
    }}
{known}
    ghost printable = {{ unfold is_punct_character in {printable} }};
}}
"""


def marks(title, kinds, traits):
    return f"""//! {WRITTEN}
//!
//! {title}
ghost use Rattle.std.specs.Prelude.{{refl}};
ghost use Rattle.syn_tokens.specs.Punct.{{is_punct_character}};

use crate::token::{traits};
""" + "".join(mark_kind(*kind) for kind in kinds)


def groups():
    kinds = "".join(f"""
/// {signs}
pub struct {name};

impl DelimiterKind for {name} {{
    ghost delimiter = {{ grammar.{delimiter} }};

    ghost fault = {{ codes "expected {called}" }};

    fn delimiter() -> Delimiter {{
        Delimiter::{delimiter}
    }}

    fn expected() -> &'static str {{
        "expected {called}"
    }}
}}
""" for name, delimiter, signs, called in GROUPS)
    return f"""//! {WRITTEN}
//!
//! The delimiters of groups.
ghost use Rattle.std.specs.Prelude.{{codes}};
ghost use Rattle.syn_grammar.specs.Tokens as grammar;

use crate::delimiter::Delimiter;
use crate::token::DelimiterKind;
{kinds}"""


def kind_module():
    files = [(f, kinds) for f, _, kinds in WORD_FILES] + [("groups", GROUPS), ("long_marks", LONG_MARKS), ("marks", MARKS)]
    files.sort()
    mods = "".join(f"mod {f};\n" for f, _ in files)
    uses = "".join(f"pub use {f}::{name};\n" for f, kinds in files for name in sorted(kind[0] for kind in kinds))
    return f"""//! {WRITTEN}
//!
//! The kinds of words, marks and delimiters of groups.

{mods}
{uses}"""


def token_module():
    aliases = [(f"`{text}`", name, f"Word<kind::{name}>") for _, _, kinds in WORD_FILES for name, text, _ in kinds]
    aliases.sort(key=lambda alias: alias[1])
    aliases += [(f"`{text}`", name, f"Mark<kind::{name}, {len(text)}>") for name, text in MARKS + LONG_MARKS]
    aliases += [(signs, name, f"Delimiters<kind::{name}>") for name, _, signs, _ in GROUPS]
    body = "".join(f"\n/// {doc}\npub type {name} = {value};\n" for doc, name, value in aliases)
    return f"""//! {WRITTEN}
//!
//! Words, marks and the delimiters of groups, each with a type.

mod characters;
mod custom;
mod delimiters;
pub mod kind;
mod mark;
mod word;

pub use characters::{{OneCharacter, ThreeCharacters, TwoCharacters}};
pub use custom::{{CustomKeyword, CustomKeywordKind, CustomPunctuation, CustomPunctuationKind}};
pub use delimiters::{{DelimiterKind, Delimiters}};
pub use mark::{{Mark, MarkKind}};
pub use word::{{Word, WordKind}};
{body}"""


def kind_specs(title, kinds, imports, entry):
    uses = "".join(f"use Rattle.syn_tokens.specs.declared.token.kind.{file}.{antt_name(name)}.{{{antt_name(name)} as K_{name}}}\n" for file, name, _, _ in kinds)
    body = "".join(entry(*kind) for kind in kinds)
    return f"-- {WRITTEN}\n-- {title}\n{imports}{uses}{body}"


def word_specs():
    kinds = [(file, name, text, spec) for file, _, kinds in WORD_FILES for name, text, spec in kinds]
    specs = ", ".join(spec for _, _, _, spec in kinds)
    imports = f"""use Rattle.syn_grammar.specs.Words.{{{specs}}}
use Rattle.syn_grammar.specs.Grammar.{{Syntax}}
use Rattle.syn_tokens.specs.Leaves.{{syntax_of_word}}
use Rattle.syn_tokens.specs.declared.token.word.Word.{{Word}}
"""

    def entry(file, name, text, spec):
        shown = antt_name(name)
        return f"""
abbrev pub {shown} : Type 0
{shown} = Word K_{name}

abbrev pub {snake(name)}_syntax : {shown} → Syntax
{snake(name)}_syntax w = syntax_of_word {spec} w.span
"""

    return kind_specs("Words as types and as syntax.", kinds, imports, entry)


def mark_specs():
    kinds = [("marks", name, text, None) for name, text in MARKS] + [("long_marks", name, text, None) for name, text in LONG_MARKS]
    imports = """use Rattle.std.specs.Prelude.{[], ◌∷◌}
use Rattle.syn_grammar.specs.Grammar.{Syntax}
use Rattle.syn_tokens.specs.Leaves.{syntax_of_mark}
use Rattle.syn_tokens.specs.declared.token.mark.Mark.{Mark}
"""

    def entry(file, name, text, spec):
        return f"""
abbrev pub {name} : Type 0
{name} = Mark K_{name} {len(text)}

abbrev pub {snake(name)}_syntax : {name} → Syntax
{snake(name)}_syntax m = syntax_of_mark ({codes(text)}) m.spans
"""

    return kind_specs("Marks as types and as syntax.", kinds, imports, entry)


def group_specs():
    uses = "".join(f"use Rattle.syn_tokens.specs.declared.token.kind.groups.{name}.{{{name} as K_{name}}}\n" for name, _, _, _ in GROUPS)
    body = "".join(f"\nabbrev pub {name} : Type 0\n{name} = Delimiters K_{name}\n" for name, _, _, _ in GROUPS)
    return f"""-- {WRITTEN}
-- Words, marks and the delimiters of groups, as types and as syntax.
use Rattle.syn_tokens.specs.declared.token.delimiters.Delimiters.{{Delimiters}}
{uses}pub use Rattle.syn_tokens.specs.KindsOfWords.{{{passed_on([kind[0] for _, _, kinds in WORD_FILES for kind in kinds])}}}
pub use Rattle.syn_tokens.specs.KindsOfMarks.{{{passed_on([name for name, _ in MARKS + LONG_MARKS])}}}
{body}"""


def passed_on(names):
    return ", ".join(f"{antt_name(name)}, {snake(name)}_syntax" for name in sorted(names))


def antt_name(name):
    return "«Type»" if name == "Type" else name


def outputs():
    """The text of each file that this script writes."""
    kind = CRATE / "src/token/kind"
    files = {kind / f"{file}.rt": words(title, kinds) for file, title, kinds in WORD_FILES}
    files[kind / "marks.rt"] = marks("Marks of one character.", MARKS, "OneCharacter")
    files[kind / "long_marks.rt"] = marks("Marks of two and three characters.", LONG_MARKS, "{ThreeCharacters, TwoCharacters}")
    files[kind / "groups.rt"] = groups()
    files[CRATE / "src/token/kind.rt"] = kind_module()
    files[CRATE / "src/token.rt"] = token_module()
    files[CRATE / "specs/KindsOfWords.antt"] = word_specs()
    files[CRATE / "specs/KindsOfMarks.antt"] = mark_specs()
    files[CRATE / "specs/Kinds.antt"] = group_specs()
    return files


def main():
    parser = argparse.ArgumentParser(description=__doc__, formatter_class=argparse.RawDescriptionHelpFormatter)
    parser.add_argument("--check", action="store_true", help="write nothing, and fail if a file differs from what would be written")
    options = parser.parse_args()
    files = outputs()
    if options.check:
        stale = [str(path) for path, text in files.items() if not path.is_file() or path.read_text() != text]
        if stale:
            sys.exit("tokens: not as this script writes them: " + ", ".join(stale))
        print(f"tokens: {len(files)} files as written")
        return
    for path, text in files.items():
        path.parent.mkdir(parents=True, exist_ok=True)
        path.write_text(text)


if __name__ == "__main__":
    main()
