"""The types of the sweep with too little memory: each by its name, and the variants of trees."""
from .impls import WRITTEN
from .program import imports

# Structs whose forms differ in a field: that field, and its enum.
FORMS = {"DeriveInput": ("shape", "Data")}


def variants_of(source, name):
    """The variants of a type with their payloads; none for a struct or a wrapper."""
    enum = FORMS[name][1] if name in FORMS else name
    return source.types[enum].variants if enum in source.types else []


def arm(enum, variant, held):
    places = ", ".join("_" for kind in held.split(", ") if kind)
    return f'            {enum}::{variant}{"(" + places + ")" if places else ""} => "{variant}",\n'


def named(source, name):
    """The impl that names the variant of a tree."""
    variants = variants_of(source, name)
    if not variants:
        return f"\nimpl Named for {name} {{}}\n"
    field, enum = FORMS.get(name, ("", name))
    arms = "".join(arm(enum, *variant) for variant in variants)
    return f"""
impl Named for {name} {{
    fn variant(&self) -> &'static str {{
        match {"&self." + field if field else "self"} {{
{arms}        }}
    }}
}}
"""


def variant_names(source, names, tokens):
    """The variants of these types, and of these tokens, which have none."""
    held = [enum for name, (_, enum) in FORMS.items() if name in names]
    blocks = "".join(named(source, name) for name in [*names, *tokens])
    others = [("crate::named", "Named"), *(("syn", name) for name in tokens)]
    return f"""//! {WRITTEN}
//!
//! The variants of the types.

{imports(source, "syn", [*names, *held], others)}{blocks}"""


def ways(source, name, tokens):
    """How trees of the type are copied and compared: a wrapper by its field."""
    return "ByItself" if name in source.types or name in tokens else "InField"


def function(source, title, called, names, tokens, otherwise):
    arms = "".join(f'        "{name}" => {called}::<{name}, {ways(source, name, tokens)}>(input, tally),\n' for name in names)
    return f"""
/// {title}
fn {otherwise[0]}(word: &str, input: &Input<'_>, tally: &mut Tally) -> Result<(), Failure> {{
    match word {{
{arms}        _ => {otherwise[1]},
    }}
}}
"""


def sweeps(source, kinds, others, parsed, tokens):
    """Each type by its name: the program's kinds, the other types with a canonical print, and those with a parser alone."""
    head = [("crate::failure", "Failure"), ("crate::given", "Input"), ("crate::sweep", "as_canonical"), ("crate::sweep", "as_parsed")]
    head += [("crate::tally", "Tally"), ("crate::ways", "ByItself"), ("crate::ways", "InField"), *(("syn", name) for name in tokens)]
    call = "{}(word, input, tally)"
    blocks = function(source, "What is no kind of the program; else what `of_parsed` does.", "as_canonical", others, tokens, ("of_others", call.format("of_parsed")))
    blocks += function(source, "What has a parser, and no canonical print.", "as_parsed", [*parsed, *tokens], tokens, ("of_parsed", "Err(Failure::Broken)"))
    first = function(source, "Makes each call on the input as the type of this name.", "as_canonical", kinds, tokens, ("sweep_as", call.format("of_others")))
    return f"""//! {WRITTEN}
//!
//! Each type, by its name.

{imports(source, "syn", [*kinds, *others, *parsed], head)}{first.replace("fn sweep_as", "pub(crate) fn sweep_as")}{blocks}"""
