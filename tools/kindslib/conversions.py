"""The enums of items whose variants are made of what they hold, by `From`."""
from dataclasses import dataclass

from .impls import WRITTEN, import_lines

# The crate that has the impls.
CRATE = "syn_item"
# The modules of types that hold members.
HOLDERS = {"foreign", "impls", "traits"}


@dataclass(frozen=True)
class Enum:
    """An enum: its name, and how the impls call its variants in clauses and a value of it."""

    name: str
    variants: str
    value: str


ITEM = Enum("Item", "items", "item")
MEMBERS = [Enum(name, "members", "item") for name in ("TraitItem", "ImplItem", "ForeignItem")]
OTHERS = [Enum("UseTree", "trees", "tree"), Enum("FnArg", "args", "arg")]
ENUMS = [ITEM, *MEMBERS, *OTHERS]

HEADS = {
    "conversions.rt": """//! Conversions of items, use trees and parameters into the enums that hold them. Nothing is copied or allocated.
ghost use Rattle.std.specs.Prelude.{◌≡◌};

mod members;

""",
    "conversions/members.rt": """//! Conversions of items with members, structs, enums and unions into `Item`, and of members into the enums that hold them. Nothing is
//! copied or allocated.
ghost use Rattle.std.specs.Prelude.{◌≡◌};

""",
}


def made(source, enum):
    """The variants of the enum that hold a tree, each with its type."""
    return [(variant, payload) for variant, payload in source.types[enum.name].variants if payload in source.types]


def conversion(source, enum, variant, payload):
    module = source.path_of(enum.name).split("::")[1]
    return f"""
impl From<{payload}> for {enum.name} {{
    ghost use Rattle.{CRATE}.specs.declared.{module}.{enum.name}.TheVariants as {enum.variants};

    ghost from_gives = {{ λ part {enum.value}. {enum.value} ≡ {enum.variants}.{variant} part }};

    fn from({enum.value}: {payload}) -> {enum.name} {{
        {enum.name}::{variant}({enum.value})
    }}
}}
"""


def has_members(source, payload):
    """Whether it is an item with members, or one of the crate below, which the second file has."""
    t = source.types[payload]
    return t.crate == "syn_tree" or t.crate == CRATE and t.file.parts[0].removesuffix(".rt") in HOLDERS


def conversions(source, crates):
    """The impls of `From`, in two files."""
    rows = {name: [] for name in HEADS}
    for enum in ENUMS:
        for variant, payload in made(source, enum):
            rows["conversions/members.rt" if has_members(source, payload) else "conversions.rt"].append((enum, variant, payload))
    files = {}
    for name, head in HEADS.items():
        uses = {}
        for enum, _, payload in rows[name]:
            for each in (enum.name, payload):
                uses.setdefault(source.path_of(each).replace(CRATE, "crate"), set()).add(each)
        blocks = "".join(conversion(source, *row) for row in rows[name])
        files[crates / CRATE / "src" / name] = f"//! {WRITTEN}\n//!\n{head}{import_lines(uses)}{blocks}"
    return files
