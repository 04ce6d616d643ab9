"""The outlines of items and members: of an enum that of the variant, of a struct those of its fields in order. Odd ones are by hand."""
import re

from tokens import DECLARATIONS, EXPRESSIONS, LONG_MARKS, MARKS
from tokens import OTHERS as OTHER_WORDS

from .conversions import ITEM, MEMBERS, made
from .impls import WRITTEN, import_lines
from .source import ATTRIBUTES, Fault

WORDS = {name: text for name, text, _ in DECLARATIONS + EXPRESSIONS + OTHER_WORDS}
CHARACTERS = {row[0]: row[1] for row in MARKS + LONG_MARKS}
FOLDER = "syn_test_support/src/outline"
# What shows a field of such a type, by a function of outline/parts.rt.
BY_TYPE = {"Box<Type>": "show_type", "Punctuated<TypeParamBound, Plus>": "show_bounds", "Option<(As, Ident)>": "show_rename", "Option<Semi>": "show_semi"}
FUNCTION = re.compile(r"\b(show_\w+|node)\(")


def of_enum(source, enum):
    arms = "".join(f"            {enum.name}::{variant}({enum.value}) => {enum.value}.show(out),\n" for variant, _ in made(source, enum))
    return f"""
impl Outlined for {enum.name} {{
    fn show(&self, out: &mut TreeText) {{
        match self {{
{arms}            {enum.name}::Verbatim(tokens) => {{
                out.word("Verbatim");
                tokens.show(out);
            }}
        }}
    }}
}}
"""


def token_of(source, t, kind):
    """The name of a token, where the type of the field is one."""
    name = kind.removeprefix("token::")
    return name if name != kind or source.owner(t).is_token(t, kind) else None


def steps(source, t, field, kind):
    """The calls that show a field."""
    place = f"self.{field}"
    if kind == ATTRIBUTES:
        is_macro = any(other == "Macro" for _, other in t.fields)
        return [f'node("{t.name}", &{place}, out)' if is_macro else f"out.attributes(&{place})"]
    if field == "modifiers":
        modifiers = [modifier for modifier, _ in source.types[kind].fields]
        if modifiers != ["defaultness"]:
            raise Fault(f"{t.name} has other modifiers than `default`: write its outline by hand, in {FOLDER}")
        return [f"show_modifier(&{place}.defaultness, out)"]
    if kind in BY_TYPE:
        return [f"{BY_TYPE[kind]}(&{place}, out)"]
    name, optional = token_of(source, t, kind), re.fullmatch(r"Option<((?:token::)?\w+)>", kind)
    inner = token_of(source, t, optional[1]) if optional else None
    if name in WORDS:
        return [f'out.token("{WORDS[name]}", {place}.span)']
    if name in CHARACTERS:
        return [f'out.mark("{CHARACTERS[name]}", &{place})']
    if inner in WORDS:
        return [f'show_word("{WORDS[inner]}", &{place}, out)']
    if inner in CHARACTERS:
        return [f'show_mark("{CHARACTERS[inner]}", &{place}, out)']
    if name or "(" in kind or kind.startswith("Vec<"):
        raise Fault(f"{t.name}.{field} has a type that an outline isn't written for: write it by hand, in {FOLDER}")
    return [f"{place}.show(out)"]


def of_struct(source, t):
    lines = "".join(f"        {step};\n" for field, kind in t.fields for step in steps(source, t, field, kind))
    return f"\nimpl Outlined for {t.name} {{\n    fn show(&self, out: &mut TreeText) {{\n{lines}    }}\n}}\n"


def by_hand(crates, name):
    """The types with an outline by hand."""
    paths = [crates / f"{FOLDER}.rt", *(crates / FOLDER).glob("*.rt")]
    return {found for path in paths if path.name != name for found in re.findall(r"^impl Outlined for (\w+) \{", path.read_text(), re.M)}


def outlines(source, crates):
    enums, done = [ITEM, *MEMBERS], by_hand(crates, "kinds.rt")
    structs = [payload for enum in enums for _, payload in made(source, enum) if payload not in done]
    blocks = "".join(of_enum(source, enum) for enum in enums) + "".join(of_struct(source, source.types[name]) for name in structs)
    functions = sorted(set(FUNCTION.findall(blocks)))
    uses = {"crate::outline": ["Outlined", "TreeText"], "syn::item": [*(enum.name for enum in enums), *structs]}
    if functions:
        uses["crate::outline::parts"] = functions
    return {crates / FOLDER / "kinds.rt": f"//! {WRITTEN}\n//!\n//! Items and members of each kind.\n\n{import_lines(uses)}{blocks}"}
