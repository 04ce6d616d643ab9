"""Copies, comparisons and prints: the same for every type, field by field."""
import re
from dataclasses import dataclass

from .source import ATTRIBUTES, DELIMITERS, LOWEST, Fault, wrapped
from .views import syntax_of


@dataclass
class Family:
    """A family of mutually recursive types: its entry, the type by which the others refer back; the names of the helper trait and of its
    method; the function that makes a knot; the functions for lists of the entry; the argument of the traits; and the copy of a boxed entry."""

    entry: str
    bound: str
    method: str
    function: str
    list: str
    argument: str = ""
    boxed: str = "copy_boxed"

    def knot(self, verb):
        field = f"{verb}_{self.function}"
        return f"Knot {{ {verb}: {field} }}" if self.argument else f"Knot {{ {field} }}"

    def knot_call(self, method, verb, last):
        """A call at a knot, in the layout of `rt fmt`: a field of more than 18 characters has a line of its own."""
        field = f"{verb}: {verb}_{self.function}"
        if not self.argument or len(field) <= 18:
            return f"{method}(&{self.knot(verb)}, {last})"
        return f"{method}(\n            &Knot {{\n                {field},\n            }},\n            {last},\n        )"

    def uses(self, source, module, *names):
        """The imports from the module of these functions, and of the type itself where their traits name it."""
        own = [(source.own_path_of(self.entry), self.entry)] if self.argument else []
        return own + [(f"crate::nested::{module}", name) for name in names]


# by the name of their cycle
FAMILIES = {
    "types": Family("Type", "Type", "type", "type", "list"),
    "patterns": Family("Pat", "Of", "one", "pat", "list", "<Pat>"),
    "expressions": Family("Expr", "Of", "one", "expr", "exprs", "<Expr>", "copy_operand"),
    "use_trees": Family("UseTree", "Of", "one", "tree", "list", "<UseTree>"),
}

# Whether the struct of each variant of `Pat` and `Expr` has copies, comparisons and prints of its own too (27 types, 108 functions). Without
# them it is used as that `Pat` or `Expr`.
EACH_VARIANT = False

# the recursive types that have them in any case
ALONE = {"Block", "Expr", "Local", "LocalInit", "Pat", "PatType", "Stmt", "UseGroup", "UsePath", "UseTree"}

# the fields of items and members that are never printed
UNSHOWN = {
    **dict.fromkeys(("ItemConst", "TraitItemConst"), {"modifiers", "generics"}),
    **dict.fromkeys(("ForeignItemFn", "ForeignItemType", "ItemFn", "TraitItemType"), {"modifiers"}),
    "ImplItemConst": {"generics"},
}

# the field after which the where clause of the generics is printed, apart from the parameters
CLAUSES = {"ForeignItemType": "generics", "ImplItemType": "ty", "ItemTraitAlias": "bounds", "Signature": "output", "TraitItemType": "default"}

# types of the content of a body, after its inner attributes
BODY_TYPES = re.compile(r"DeferredBlock|Vec<(?!Attribute>).*")
NUMBERS = ["none", "one", "two", "three", "four", "five"]


def has_body(t):
    """Whether it has attributes, the inner ones in its braces."""
    return t.has_attributes() and any(BODY_TYPES.fullmatch(kind) for _, kind in t.fields)


def is_alone(t):
    """Whether a type has copies, comparisons and prints of its own, beside the helpers of its family."""
    return EACH_VARIANT or not (t.is_nested and FAMILIES[t.family].argument) or t.name in ALONE


# lemmas that the parts of a recursive type are smaller than it, where computation doesn't show it
SMALLER_LISTS = "proofs::Smaller::lists"
SMALLER = {"TypePath": ["crate::proofs::Smaller::qself_smaller", "crate::proofs::Smaller::path_smaller"]}

# Fields of a `Copy` type that are copied by a call all the same: the search proves the last exits of this function only then.
COPIED_BY_CALLS = {"Signature": ("safety", "fn_token")}

# the lemmas for a type whose view arranges its fields in a form of its own: for its print, its copy and its comparison (with the crate's
# name where several crates have a type of this name). `whole` is for a comparison, and covers the attributes too
FORMS = "crate::proofs::Forms"
MEMBERS = "crate::proofs::SameMembers"
COPIED_MEMBERS = "crate::proofs::Members::copied_members"
PARTS = "crate::proofs::SameParts"
UNPRINTED = "crate::proofs::Unprinted"
PATTERNS = "crate::proofs::Patterns"
BODY = {"smaller": ["crate::specs::Falls::inner_size"]}
LEMMAS = {
    **dict.fromkeys(("ExprBlock", "ExprForLoop", "ExprLoop", "ExprUnsafe", "ExprWhile"), BODY),
    **dict.fromkeys(
        ("ForeignItem", "ImplItem", "TraitItem"),
        {"print": ["crate::proofs::Macros::print_among_members"], "compare": [f"{MEMBERS}::same_among_members"]},
    ),
    **dict.fromkeys(
        ("ForeignItemMacro", "ImplItemMacro", "TraitItemMacro"),
        {"print": ["crate::proofs::Macros::print_ended_macro"], "whole": ["crate::proofs::SameMacros::same_member_macro"]},
    ),
    "ExprArray": {"print": ["crate::proofs::Lists::print_array"], "compare": ["crate::proofs::Lists::same_array"], "smaller": ["crate::proofs::Lists::in_array"]},
    "ExprBreak": {"compare": ["syn_grammar::proofs::Same::and_true"]},
    "ExprField": {"print": [f"{FORMS}::print_member"], "compare": [f"{FORMS}::same_member"]},
    "ExprLit": {"print": [f"{FORMS}::print_literal"], "compare": [f"{FORMS}::same_literal"]},
    "ExprMethodCall": {
        "print": [f"{FORMS}::print_arguments"],
        "copy": [f"{FORMS}::copied_arguments"],
        "compare": [f"{FORMS}::same_arguments"],
        "smaller": [f"{FORMS}::arguments_smaller"],
    },
    "ExprParen": {"compare": ["syn_grammar::proofs::Same::and_true"]},
    "FnArg": {
        "print": ["crate::proofs::Arguments::print_receiver_argument", "crate::proofs::Arguments::print_typed_argument"],
        "compare": ["crate::proofs::SameSignatures::same_argument"],
    },
    **dict.fromkeys(("ForeignItemFn", "ForeignItemType"), {"whole": [f"{PARTS}::same_modified"]}),
    "ImplItemConst": {"print": [f"{UNPRINTED}::print_generics_aside"], "whole": [f"{MEMBERS}::same_impl_constant"]},
    "ItemConst": {"print": [f"{UNPRINTED}::print_generics_aside"], "whole": [f"{PARTS}::same_constant"]},
    "ItemFn": {"whole": [f"{PARTS}::same_function"]},
    "ItemForeignMod": {"copy": [COPIED_MEMBERS], "whole": ["crate::proofs::SameRows::same_foreign_module"]},
    **dict.fromkeys(("ItemImpl", "ItemTrait"), {"copy": [COPIED_MEMBERS]}),
    "ItemMacro": {"whole": ["crate::proofs::SameMacros::same_item_macro"]},
    "ItemUse": {"print": ["crate::proofs::Uses::print_used"], "whole": [f"{PARTS}::same_use"]},
    "Local": {"print": ["syn_pat::proofs::Patterns::print_local"]},
    "PatIdent": {"print": [f"{PATTERNS}::print_bound"], "compare": [f"{PATTERNS}::same_bound"]},
    "PatParen": {"compare": ["syn_grammar::proofs::Same::and_true"]},
    "PatType": {"print": [f"{PATTERNS}::print_after"], "compare": [f"{PATTERNS}::same_typed"], "smaller": [f"{PATTERNS}::after_smaller"]},
    "PatWild": {"print": [f"{PATTERNS}::print_after"], "compare": [f"{PATTERNS}::same_wild"]},
    "Receiver": {"whole": ["crate::proofs::SameSignatures::same_receiver"]},
    "TraitItemConst": {"print": [f"{UNPRINTED}::print_generics_aside"], "whole": [f"{MEMBERS}::same_trait_constant"]},
    "TraitItemFn": {"whole": [f"{MEMBERS}::same_trait_function"]},
    "TraitItemType": {"print": ["syn_lower::proofs::GenericPrints::print_bounds"], "whole": [f"{MEMBERS}::same_trait_type"]},
    "syn_item::Item": {"print": ["crate::proofs::Macros::print_among_items"], "compare": [f"{MEMBERS}::same_among_items"]},
}


def lemmas_of(t):
    return LEMMAS.get(f"{t.crate}::{t.name}", LEMMAS.get(t.name, {})) if t.crate != LOWEST else {}


def lemmas(source, t, verb, body):
    """The lemmas for the proof of such a body."""
    of = lemmas_of(t)
    found = of.get(verb, []) + (of.get("smaller", []) if t.is_nested else [])
    if verb != "print" and t.is_nested and t.crate == LOWEST:
        found = SMALLER.get(t.name, []) + found
    if re.search(r"_(list|exprs)\(nested", body):
        found = found + [f"{source.root()}::{SMALLER_LISTS}"]
    return found


def tactic(lemmas):
    return f"    #[tactic(auto, using({', '.join(lemmas)}))]\n" if lemmas else ""

WRITTEN = "Written by tools/kinds.py; edits are lost."


def import_line(path, names, use="use"):
    """An import of these names, in the layout of `rt fmt`; `use` may be indented, and public."""
    names = sorted(set(names))
    inside = names[0] if len(names) == 1 else "{" + ", ".join(names) + "}"
    line = f"{use} {path}::{inside};"
    if len(line) <= 100:
        return line + "\n"
    margin = " " * (len(use) - len(use.lstrip()))
    lines, line = [], f"{margin}   "
    for name in names:
        if len(line) + len(name) + 2 > 99:
            lines.append(line)
            line = f"{margin}   "
        line += f" {name},"
    return f"{use} {path}::{{\n" + "\n".join(lines + [line]) + f"\n{margin}}};\n"


def import_lines(uses, use="use"):
    """The imports of these names, by their paths: in the order of `rt fmt`, where several names of one module are after the
    modules in it."""
    def key(item):
        path, names = item
        names = sorted(set(names))
        return [*path.split("::"), names[0] if len(names) == 1 else "\x7f"]

    return "".join(import_line(path, names, use) for path, names in sorted(uses.items(), key=key))


def folder(source, name, title, one, attribute=""):
    """The files of one trait's impls: for each file of types one of the same name, and the modules above them; the topmost has this
    attribute."""
    files, modules = {}, {}
    for file, types in source.files().items():
        blocks = [block for block in (one(source, t) for t in types) if block]
        if not blocks:
            continue
        files[source.crate / "src" / name / file] = blocks
        parts = file.with_suffix("").parts
        for i in range(len(parts)):
            modules.setdefault(parts[:i], set()).add(parts[i])
    texts = {}
    for path, blocks in files.items():
        relative = path.relative_to(source.crate / "src" / name)
        children = modules.pop(relative.with_suffix("").parts, ())
        of = source.files()[relative][0].file.with_suffix("").as_posix()
        texts[path] = f"//! {WRITTEN}\n//!\n//! {title} of `{of}`.\n" + assembled(blocks, children)
    for parts, names in modules.items():
        path = source.crate / "src" / "/".join((name, *parts))
        path = path.with_name(path.name + ".rt")
        top = "" if parts else attribute
        texts[path] = f"//! {WRITTEN}\n//!\n//! {title} of trees.\n{top}\n" + module_lines(names)
    return texts


def module_lines(names):
    return "".join(f"mod {name};\n" for name in sorted(names))


def assembled(blocks, children):
    """The imports of the blocks, the modules below, and the blocks."""
    ghosts, uses = {}, {}
    for block in blocks:
        for module, name in block["ghosts"]:
            ghosts.setdefault(module, []).append(name)
        for path, name in block["uses"]:
            uses.setdefault(path, []).append(name)
    head = "".join(f"ghost use Rattle.{module}.{{{', '.join(dict.fromkeys(names))}}};\n" for module, names in ghosts.items())
    below = module_lines(children) + "\n" if children else ""
    return head + "\n" + below + import_lines(uses) + "".join("\n" + block["text"] for block in blocks)


# COPIES


def empty_copy(t, field, kind, uses):
    """The copy of a field that is always empty."""
    if kind.startswith("Vec<"):
        return "Vec::new(alloc)"
    if kind.startswith("Punctuated<"):
        uses.append(("syn_tokens::punctuated", "Punctuated"))
        return "Punctuated::new(alloc)"
    if kind.startswith("Option<"):
        return "None"
    raise Fault(f"{t.file}: {t.name}.{field} has no values, so {t.name} has none")


def nested_copy(source, t, place, kind, uses):
    """How a part of a recursive type is copied."""
    family = FAMILIES[t.family]
    inner = kind.removeprefix("Option<").removesuffix(">")
    if kind == family.entry:
        return f"nested.copy_{family.method}(&{place}, alloc)?"
    if kind == f"Box<{family.entry}>" and family.argument:
        uses.append(("crate::nested::copy", family.boxed))
        return f"{family.boxed}(nested, &{place}, alloc)?"
    if kind == f"Box<{family.entry}>":
        return f"Box::new(alloc, nested.copy_{family.method}(&{place}, alloc)?)?"
    if kind == f"Option<Box<{family.entry}>>":
        uses.append(("crate::nested::copy", "copy_maybe"))
        return f"copy_maybe(nested, &{place}, alloc)?"
    if source.is_nested(t, inner):
        return f"{place}.copy_nested(nested, alloc)?"
    if source.lists_nested(t, kind):
        uses.append(("crate::nested::copy", f"copy_{family.list}"))
        return f"copy_{family.list}(nested, &{place}, alloc)?"
    uses.append(("crate::nested::copy", "copied"))
    return f"copied(&{place}, alloc)?"


def copied(source, t, field, kind, uses):
    """How a field is copied."""
    if source.is_plain_copy(t, kind) and field not in COPIED_BY_CALLS.get(t.name, ()):
        return f"self.{field}"
    if source.is_empty(kind):
        return empty_copy(t, field, kind, uses)
    if t.is_nested:
        return nested_copy(source, t, f"self.{field}", kind, uses)
    return f"self.{field}.try_clone(alloc)?"


def copy_struct(source, t, uses):
    if not t.fields:
        return f"        Ok({t.name} {{}})\n"
    lines = "".join(f"            {field}: {copied(source, t, field, kind, uses)},\n" for field, kind in t.fields)
    return f"        Ok({t.name} {{\n{lines}        }})\n"


def copied_payload(source, t, payload, uses):
    """How the payload of a variant is copied."""
    if source.is_token(t, payload) or source.is_copied(payload):
        return "*value"
    if not t.is_nested:
        return "value.try_clone(alloc)?"
    if source.is_nested(t, payload):
        return "value.copy_nested(nested, alloc)?"
    uses.append(("crate::nested::copy", "copied"))
    return "copied(value, alloc)?"


def copy_enum(source, t, uses):
    arms = ""
    for variant, payload in t.variants:
        name = f"{t.name}::{variant}"
        if not payload:
            arms += f"            {name} => Ok({name}),\n"
            continue
        line = f"            {name}(value) => Ok({name}({copied_payload(source, t, payload, uses)})),"
        if len(line) > 100:
            line = f"            {name}(value) => {{\n                Ok({name}({copied_payload(source, t, payload, uses)}))\n            }}"
        arms += line + "\n"
    return f"        match self {{\n{arms}        }}\n"


def copy_body(source, t, uses):
    if t.is_copy:
        return "        Ok(*self)\n"
    return copy_enum(source, t, uses) if t.is_enum else copy_struct(source, t, uses)


def nested_copy_text(source, t, uses):
    """The copy of a recursive type: by the helper trait, and by `TryClone`."""
    text, family = "", FAMILIES[t.family]
    if t.name != family.entry and not source.by_hand(f"impl CopyNested{family.argument} for {t.name}"):
        bound = f"Copy{family.bound}"
        uses += [*family.uses(source, "copy", "CopyNested", bound), ("std::alloc", "AllocError"), ("std::alloc", "Global")]
        head = f"    fn copy_nested<N: {bound}{family.argument}>(&self, nested: &N, alloc: Global) -> Result<{t.name}, AllocError> {{\n"
        if len(head) > 101:
            head = f"    fn copy_nested<N: {bound}{family.argument}>(\n        &self,\n        nested: &N,\n        alloc: Global,\n    ) -> Result<{t.name}, AllocError> {{\n"
        body = copy_body(source, t, uses)
        text = f"impl CopyNested{family.argument} for {t.name} {{\n{tactic(lemmas(source, t, 'copy', body))}{head}{body}    }}\n}}\n\n"
    if not is_alone(t):
        return text
    uses += [("crate::nested::copy", f"copy_{family.function}"), ("std::alloc", "Global"), ("syn_tokens", "error"), TRY_CLONE]
    call = f"copy_{family.function}(self, alloc)?"
    if t.name != family.entry:
        call = f"self.copy_nested(&{family.knot('copy')}, alloc)?"
        uses += [("crate::nested::copy", name) for name in ("CopyNested", "Knot")]
    return text + f"""impl TryClone for {t.name} {{
    fn try_clone(&self, alloc: Global) -> error::Result<{t.name}> {{
        Ok({call})
    }}
}}
"""


TRY_CLONE = ("syn_tokens::syntactic::try_clone", "TryClone")


def copy_block(source, t):
    if source.by_hand(f"impl TryClone for {t.name}"):
        return None
    uses = [(source.own_path_of(t.name), t.name)]
    if t.is_nested:
        text = nested_copy_text(source, t, uses)
        return {"text": text.removesuffix("\n\n") + "\n" if text.endswith("\n\n") else text, "uses": uses, "ghosts": []} if text else None
    uses += [("std::alloc", "Global"), TRY_CLONE]
    body = copy_body(source, t, uses)
    alloc = "alloc" if "alloc" in body else "_alloc"
    result = "error::Result" if source.leads_back(t.file) else "Result"
    uses.append(("syn_tokens", "error") if source.leads_back(t.file) else ("syn_tokens::error", "Result"))
    text = f"""impl TryClone for {t.name} {{
{tactic(lemmas(source, t, "copy", body))}    fn try_clone(&self, {alloc}: Global) -> {result}<{t.name}> {{
{body}    }}
}}
"""
    return {"text": text, "uses": uses, "ghosts": []}


def copies(source):
    return folder(source, "copies", "Copies", copy_block)


# COMPARISONS


def is_compared(source, t, kind):
    """Whether two values can differ in this field, spans aside."""
    one_value = kind in source.types and source.types[kind].has_one_value()
    signs = kind in DELIMITERS and source.is_token(t, kind)
    return not (one_value or signs or source.is_empty(kind))


@dataclass
class Calls:
    """The calls for a field of a recursive type: of the family's entry, of another of its types, or of an option or a list of the entry;
    and the module of the functions for the last two."""

    entry: str
    type: str
    several: str
    word: str
    module: str

    def of(self, source, t, field, kind, uses):
        """The call for this field; none where its type isn't of the family."""
        if not t.is_nested:
            return None
        family = FAMILIES[t.family]
        if kind in (family.entry, f"Box<{family.entry}>"):
            return self.entry.format(field, family.method)
        if source.is_nested(t, kind) or source.is_nested(t, kind.removeprefix("Option<").removesuffix(">")):
            return self.type.format(field)
        maybe = kind == f"Option<Box<{family.entry}>>"
        if maybe or source.lists_nested(t, kind):
            name = f"{self.word}_{'maybe' if maybe else family.list}"
            uses.append((self.module, name))
            return self.several.format(field, name)
        return None


COMPARED = Calls(
    "nested.is_same_{1}(&self.{0}, &other.{0})",
    "self.{0}.is_same_nested(nested, &other.{0})",
    "{1}(nested, &self.{0}, &other.{0})",
    "same",
    "crate::nested::compare",
)


def compared_part(source, t, field, kind, uses):
    """How a field is compared."""
    if kind == "Generics" and t.name in CLAUSES:
        return f"self.{field}.has_same_params(&other.{field})"
    place = f"{field}.stmts" if kind == "DeferredBlock" else field
    return COMPARED.of(source, t, field, kind, uses) or f"self.{place}.is_same(&other.{place})"


def compare_struct(source, t, uses):
    parts = []
    for field, kind in t.fields:
        if is_compared(source, t, kind):
            parts.append(compared_part(source, t, field, kind, uses))
        if CLAUSES.get(t.name) == field:
            parts.append("self.generics.has_same_where(&other.generics)")
    if not parts:
        return "        true\n"
    return wrapped(" && ".join(parts), 8, parts, "&& ") + "\n"


def compared_arm(pattern, function, arguments):
    """An arm of a `match` that calls this function, in the layout of `rt fmt`."""
    line = f"            {pattern} => {function}("
    if len(line) + len(arguments) + 2 <= 100:
        return f"{line}{arguments}),\n"
    if len(line) <= 100:
        return f"{line}\n                {arguments},\n            ),\n"
    return f"            {pattern} =>\n                {function}({arguments}),\n"


def compare_enum(source, t):
    arms = ""
    for variant, payload in t.variants:
        name = f"{t.name}::{variant}"
        is_nested = source.is_nested(t, payload)
        if payload:
            arms += compared_arm(f"({name}(a), {name}(b))", *(("a.is_same_nested", "nested, b") if is_nested else ("a.is_same", "b")))
        else:
            arms += f"            ({name}, {name}) => true,\n"
    if len(t.variants) > 1:
        arms += "            _ => false,\n"
    return f"        match (self, other) {{\n{arms}        }}\n"


def compare_body(source, t, uses):
    return compare_enum(source, t) if t.is_enum else compare_struct(source, t, uses)


def compared_lemmas(source, t, body):
    """The lemmas for the proof of such a comparison."""
    if "whole" in lemmas_of(t):
        return lemmas_of(t)["whole"]
    attributes = [f"{source.root()}::proofs::Attributes::same_attributes"] if t.has_attributes() else []
    if has_body(t):
        between = [kind for field, kind in t.fields if not BODY_TYPES.fullmatch(kind) and kind != ATTRIBUTES and is_compared(source, t, kind)]
        attributes = [f"{source.root()}::proofs::Bodies::same_after_{NUMBERS[len(between)]}"]
    return attributes + lemmas(source, t, "compare", body)


def compared_text(source, t, uses):
    body = compare_body(source, t, uses)
    other = "other" if "other" in body else "_other"
    handed = compared_lemmas(source, t, body)
    return f"""impl Compared for {t.name} {{
{tactic(handed)}    fn is_same(&self, {other}: &{t.name}) -> bool {{
{body}    }}
}}

"""


def nested_compared_text(source, t, uses):
    """The comparison of a recursive type: by the helper trait, and by `Compared`."""
    text, family = "", FAMILIES[t.family]
    if t.name != family.entry and not source.by_hand(f"impl CompareNested{family.argument} for {t.name}"):
        bound = f"Compare{family.bound}"
        uses += family.uses(source, "compare", "CompareNested", bound)
        body = compare_body(source, t, uses)
        head = f"    fn is_same_nested<N: {bound}{family.argument}>(&self, nested: &N, other: &{t.name}) -> bool {{\n"
        if len(head) > 101:
            head = f"    fn is_same_nested<N: {bound}{family.argument}>(\n        &self,\n        nested: &N,\n        other: &{t.name},\n    ) -> bool {{\n"
        text = f"impl CompareNested{family.argument} for {t.name} {{\n{tactic(compared_lemmas(source, t, body))}{head}{body}    }}\n}}\n\n"
    if not is_alone(t):
        return text
    uses.append(("crate::nested::compare", f"is_same_{family.function}"))
    call = f"is_same_{family.function}(self, other)"
    if t.name != family.entry:
        call = family.knot_call("self.is_same_nested", "is_same", "other")
        uses += [("crate::nested::compare", name) for name in ("CompareNested", "Knot")]
    return text + f"""impl Compared for {t.name} {{
    fn is_same(&self, other: &{t.name}) -> bool {{
        {call}
    }}
}}

"""


def equality_text(source, name, syntax):
    return f"""/// Two are equal exactly where they are once every span is 0 to 0.
impl PartialEq for {name} {{
    ghost eq = {{ same_by {syntax} }};

    ghost laws = {{ same_per {syntax} }};

    #[tactic(auto, using({source.root()}::proofs::Equality::equals))]
    fn eq(&self, other: &{name}) -> bool
        ensures same {{ IsSame {syntax} self.now other.now result }}
        ensures equal {{ IsEqual {syntax} self.now other.now result }}
        ensures prints {{ PrintsAlike {syntax} self.now other.now result }}
    {{
        self.is_same(other)
    }}
}}

impl Eq for {name} {{
    ghost laws = {{ same_equiv {syntax} }};
}}
"""


COMPARED_TRAIT = ("syn_tokens::syntactic::compare", "Compared")


def compare_block(source, t):
    syntax, module = syntax_of(source, t)
    odd = source.by_hand(f"impl Compared for {t.name}")
    ghosts = [(module, syntax)]
    ghosts += [(f"{LOWEST}.specs.Equality", name) for name in ("IsSame", "IsEqual", "PrintsAlike")]
    ghosts += [("syn_tokens.specs.Comparison", name) for name in ("same_by", "same_equiv", "same_per")]
    uses = [(source.own_path_of(t.name), t.name)]
    if not is_alone(t):
        text = nested_compared_text(source, t, uses)
        uses += [COMPARED_TRAIT] if ".is_same(" in text else []
        return {"text": text.removesuffix("\n"), "uses": uses, "ghosts": []} if text else None
    uses.append(COMPARED_TRAIT)
    compared = "" if odd else (nested_compared_text if t.is_nested else compared_text)(source, t, uses)
    return {"text": compared + equality_text(source, t.name, syntax), "uses": uses, "ghosts": ghosts}


def comparisons(source):
    return folder(source, "compare", "Comparisons", compare_block)


# PRINTS


PRINTED = Calls(
    "nested.print_{1}(&self.{0}, out)",
    "self.{0}.print_nested(nested, out)",
    "{1}(nested, &self.{0}, out)",
    "print",
    "crate::nested::print",
)


def print_step(source, t, field, kind, uses):
    """How one field is printed."""
    if kind == ATTRIBUTES:
        print_attributes = "print_before_body" if has_body(t) else "print_outer"
        uses.append((f"{source.root()}::attr", print_attributes))
        return f"{print_attributes}(&self.{field}, out)"
    if nested := PRINTED.of(source, t, field, kind, uses):
        return nested
    if ("colon_token", "Option<Colon>") in t.fields and kind == "Punctuated<TypeParamBound, Plus>":
        uses.append((f"{source.root()}::generics", "print_bounds"))
        return f"print_bounds(&self.colon_token, &self.{field}, out)"
    if kind.startswith("Punctuated<"):
        uses.append(("syn_tokens::print", "print_list"))
        return f"print_list(&self.{field}, out)"
    if kind.startswith("Option<("):
        uses.append(("crate::parts", "print_pair"))
        return f"print_pair(&self.{field}, out)"
    if kind == "DeferredBlock":
        uses.append(("crate::parts", "print_body"))
        return f"print_body(&self.attrs, &self.{field}, out)"
    if kind == "Generics" and t.name in CLAUSES:
        return f"self.{field}.print_params(out)"
    return f"self.{field}.print_in(out)"


def print_steps(source, t, field, kind, uses):
    """The steps of a field: each modifier has its own, and members are printed after inner attributes."""
    if field in UNSHOWN.get(t.name, ()) or kind == "Option<Colon>" and ("bounds", "Punctuated<TypeParamBound, Plus>") in t.fields:
        return []
    if field == "modifiers":
        return [f"self.{field}.{modifier}.print_in(out)" for modifier, _ in source.types[kind].fields]
    if has_body(t) and kind.startswith("Vec<") and kind != ATTRIBUTES:
        uses.append(("crate::parts", "print_braced"))
        return [f"print_braced(&self.brace_token, &self.attrs, &self.{field}, out)"]
    return [print_step(source, t, field, kind, uses)]


def print_struct(source, t, uses):
    """The fields in order; those after a delimiter are printed inside its group."""
    steps, open_groups = [], []
    for field, kind in t.fields:
        if kind in DELIMITERS and source.is_token(t, kind) and not has_body(t):
            steps.append(f"self.{field}.open(out)")
            open_groups.append(f"self.{field}.close(out)")
        elif kind not in DELIMITERS and not (source.is_empty(kind) or kind in source.types and source.types[kind].has_one_value()):
            steps += print_steps(source, t, field, kind, uses)
        if CLAUSES.get(t.name) == field:
            steps.append("self.generics.print_where(out)")
    steps += reversed(open_groups)
    return "".join(f"        {step}?;\n" for step in steps[:-1]) + f"        {steps[-1] if steps else 'Ok(())'}\n"


def print_enum(source, t):
    arms = ""
    for variant, payload in t.variants:
        name = f"{t.name}::{variant}"
        call = "print_nested(nested, out)" if source.is_nested(t, payload) else "print_in(out)"
        arms += f"            {name}(value) => value.{call},\n" if payload else f"            {name} => Ok(()),\n"
    return f"        match self {{\n{arms}        }}\n"


# A print of an item with at least so many parts is proved part by part: a search over the parts in any order doesn't end.
MANY = 7


def print_tactic(source, t, body):
    """The lemmas for the proof of a print, beside those that all prints have."""
    groups, more = ".open(out)" in body, lemmas(source, t, "print", body)
    if body.count("?;") >= MANY and t.crate == "syn_item":
        return tactic(["crate::proofs::LongPrints::in_order"] + more)
    steps = [f"syn_tokens::proofs::Prints::{'groups' if groups else 'prints'}"] if groups or more else []
    return tactic(steps + more)


WRITE_USES = [("std::alloc", "AllocError"), ("syn_tokens::stream::builder", "StreamBuilder")]
PRINT_TRAIT = ("syn_tokens::print", "Print")
PRINT_USES = [*WRITE_USES, PRINT_TRAIT]


def print_body(source, t, uses):
    return print_enum(source, t) if t.is_enum else print_struct(source, t, uses)


def print_text(source, t, uses):
    body = print_body(source, t, uses)
    out = "out" if "out" in body else "_out"
    return f"""impl Print for {t.name} {{
{print_tactic(source, t, body)}    fn print_in(&self, {out}: &mut StreamBuilder) -> Result<(), AllocError> {{
{body}    }}
}}

"""


def nested_print_text(source, t, uses):
    """The print of a recursive type: by the helper trait, and by `Print`."""
    text, family = "", FAMILIES[t.family]
    if t.name != family.entry and not source.by_hand(f"impl PrintNested{family.argument} for {t.name}"):
        bound = f"Print{family.bound}"
        uses += [*family.uses(source, "print", "PrintNested", bound), *WRITE_USES]
        body = print_body(source, t, uses)
        text = f"""impl PrintNested{family.argument} for {t.name} {{
{print_tactic(source, t, body)}    fn print_nested<N: {bound}{family.argument}>(
        &self,
        nested: &N,
        out: &mut StreamBuilder,
    ) -> Result<(), AllocError> {{
{body}    }}
}}

"""
    if not is_alone(t):
        return text
    uses += PRINT_USES
    if t.name == family.entry:
        call = f"print_{family.function}(self, out)"
    else:
        call = f"self.print_nested(&{family.knot('print')}, out)"
        uses += [("crate::nested::print", name) for name in ("Knot", "PrintNested")]
    uses.append(("crate::nested::print", f"print_{family.function}"))
    return text + f"""impl Print for {t.name} {{
    fn print_in(&self, out: &mut StreamBuilder) -> Result<(), AllocError> {{
        {call}
    }}
}}

"""


def print_block(source, t):
    uses = [(source.own_path_of(t.name), t.name)]
    if not is_alone(t):
        text = nested_print_text(source, t, uses)
        uses += [PRINT_TRAIT] if ".print_in(" in text else []
        return {"text": text.removesuffix("\n"), "uses": uses, "ghosts": []} if text else None
    uses.append(("syn_tokens::print", "ToTokens"))
    text = ""
    if not source.by_hand(f"impl Print for {t.name}"):
        uses += PRINT_USES
        text = nested_print_text(source, t, uses) if t.is_nested else print_text(source, t, uses)
    return {"text": text + f"impl ToTokens for {t.name} {{}}\n", "uses": uses, "ghosts": []}


def prints(source, unprinted):
    def block(source, t):
        return None if t.name in unprinted else print_block(source, t)

    return folder(source, "prints", "Prints", block, "#![tactic(auto, using(syn_tokens::proofs::Prints::prints))]\n")
