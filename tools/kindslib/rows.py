"""The types of `check_rows`: trees, canonical prints and conversions, by the words of a row's heading."""
from .conversions import ITEM, MEMBERS, Enum, made
from .impls import WRITTEN
from .program import imports

# The number of words of a function; it passes any other word on.
AT_ONCE = 16
# Conversions that are no variant of an enum: from which type, to which.
MADE_BESIDES = [
    ("DeriveInput", "Item"),
    *((name, "DeriveInput") for name in ("ItemStruct", "ItemEnum", "ItemUnion")),
    *((name, "Fields") for name in ("FieldsNamed", "FieldsUnnamed")),
]
UNKNOWN = 'Err(Failure::Malformed(heading.line, "no such kind"))'


def arm(word, call):
    line = f'        "{word}" => {call},\n'
    return line if len(line) <= 101 else f'        "{word}" => {{\n            {call}\n        }}\n'


def functions(name, title, question, calls, otherwise):
    """The functions for these words: the first has this name, each passes any other word to the next, and the last to `otherwise`."""
    packs = [calls[start:start + AT_ONCE] for start in range(0, len(calls), AT_ONCE)]
    blocks = ""
    for number, pack in enumerate(packs):
        last = number == len(packs) - 1
        arms = "".join(arm(*call) for call in pack)
        rest = otherwise if last else f"{name}_{number + 1}(alloc, question, heading, word, row)"
        head = f"/// {title}\npub(crate) fn {name}" if number == 0 else f"/// The same for further types.\nfn {name}_{number}"
        heading = "heading" if "heading" in rest else "_heading"
        blocks += f"""
{head}(
    alloc: Global,
    question: {question},
    {heading}: &Heading<'_>,
    word: &str,
    row: &Row<'_>,
) -> Result<String, Failure> {{
    match word {{
{arms}        _ => {rest},
    }}
}}
"""
    return blocks


def file_of(source, title, names, others, blocks):
    needs = [("crate::failure", "Failure"), ("crate::question", "Heading"), ("crate::row", "Row"), ("std::alloc", "Global")]
    return f"//! {WRITTEN}\n//!\n//! {title}\n\n{imports(source, 'syn', names, needs + others)}{blocks}"


def trees(source, types):
    """The types with a parser and a print."""
    names = [name for name in types if name in source.types]
    calls = [(name, f"answer::<{name}>(alloc, question, row)") for name in names]
    others = [("crate::answer", "answer"), ("crate::kinds", "other_tree"), ("crate::question", "TreeQuestion")]
    blocks = functions("tree_as", "The result of the row as a tree of the type of this name; else that of `other_tree`.", "TreeQuestion", calls, "other_tree(alloc, question, heading, word, row)")
    return file_of(source, "The types of trees, by their names.", names, others, blocks)


def forms(source, types):
    """The types with a canonical print."""
    calls = [(name, f"form::<{name}>(alloc, question, row)") for name in types]
    others = [("crate::form", "form"), ("crate::question", "FormQuestion")]
    blocks = functions("form_as", "The result of the row by the canonical print of the type of this name.", "FormQuestion", calls, UNKNOWN)
    return file_of(source, "The types that have canonical prints, by their names.", types, others, blocks)


def conversions(source, types):
    """Conversions into enums, of the variants whose types have parsers, and some others."""
    enums = [ITEM, *MEMBERS, Enum("FnArg", "", "")]
    pairs = [(payload, enum.name) for enum in enums for _, payload in made(source, enum) if payload in types] + MADE_BESIDES
    calls = [(f"{whole}::from({part})", f"called::<Converted<{part}, {whole}>>(alloc, question, row)") for part, whole in pairs]
    others = [("crate::call", "Converted"), ("crate::called", "called"), ("crate::question", "TreeQuestion")]
    blocks = functions("converted_as", "The result of the row as a tree made by the conversion of this name.", "TreeQuestion", calls, UNKNOWN)
    return file_of(source, "Conversions between trees, by their names.", [name for pair in pairs for name in pair], others, blocks)


def row_kinds(source, canonical, parsed, crates):
    """The files for these types: those with a canonical print, and those with a parser alone."""
    folder = crates / "check_rows/src"
    return {
        folder / "by_kind.rt": trees(source, [*canonical, *parsed]),
        folder / "forms_by_kind.rt": forms(source, canonical),
        folder / "conversions.rt": conversions(source, canonical),
    }
