"""Models and views: the syntax of each struct."""
import re

from .source import ATTRIBUTES, DELIMITERS, LOWEST, MARK, Fault, snake

SYNTAXES = {"Ident": "syntax_of_ident", "Literal": "syntax_of_literal"}


def has_model(source, t):
    """A struct has a model, unless it has only a `syntax_of_X`. Where it has a view too, `syntax_of_X` is the syntax of that value."""
    return not t.is_enum and (source.spec_of(f"syntax_of_{t.name}") is None or source.spec_of(f"view_{t.name}") is not None)


def is_plain(source, t):
    """Whether the view of this struct is written here."""
    return has_model(source, t) and source.spec_of(f"view_{t.name}") is None


def model(source, t):
    file = source.spec_of(f"view_{t.name}") or "Plain"
    return f"""
impl std::marker::Model for {t.name} {{
    ghost use Rattle.syn_grammar.specs.Grammar.{{Syntax}};
    ghost use Rattle.syn_grammar.specs.TreeCodes.{{syntax_code}};

    ghost Value = {{ Syntax }};

    ghost coded = {{ syntax_code }};

    ghost use Rattle.{t.crate}.specs.{file}.{{view_{t.name}}};

    ghost view = {{ view_{t.name} }};
{size(t) if t.is_nested else ""}}}
"""


def size(t):
    """The size of a recursive struct: greater than that of each of its parts."""
    return f"""
    ghost use Rattle.{LOWEST}.specs.Sizes.{{tree_size}};

    ghost size = {{ tree_size }};

    ghost use Rattle.{t.crate}.specs.Falls.{{falls_{t.name}}};

    ghost size_decreases = {{ λ a h. falls_{t.name} a }};
"""


def syntax_of(source, t):
    """The function of clauses from a value of this type to its syntax, and the module of that function."""
    name = f"syntax_of_{t.name}"
    source = source.owner(t)
    file = source.spec_of(name)
    if file is None and has_model(source, t):
        return "itself", "syn_grammar.specs.Promises"
    if file is None:
        raise Fault(f"{t.file}: {t.name} needs a {name} in specs/")
    return name, f"{t.crate}.specs.{file}"


def syntactic(source, t):
    name, module = syntax_of(source, t)
    return f"""
impl syn_tokens::syntactic::Syntactic for {t.name} {{
    ghost use Rattle.{module}.{{{name}}};

    ghost syntax = {{ {name} }};
}}
"""


def endings(source):
    """Each file of types, with its written ending."""
    files = {}
    for file, types in source.files().items():
        blocks = [model(source, t) for t in types if has_model(source, t)] + [syntactic(source, t) for t in types]
        files[source.crate / "src" / file] = source.hand[file].rstrip("\n") + "\n\n" + MARK + "".join(blocks)
    return files


class PlainView:
    """The view of one struct: its fields in order, those after a delimiter inside its group."""

    def __init__(self, source, joined, imports):
        self.source = source
        self.joined = joined
        self.imports = imports

    def take(self, module, name):
        self.imports.setdefault(module, set()).add(name)
        return name

    def function(self, t, kind):
        """The function from a value of this type to its syntax; none for a value that is its own."""
        if self.source.is_token(t, kind):
            return self.take("syn_tokens.specs.Kinds", f"{snake(kind)}_syntax")
        if kind in SYNTAXES:
            return self.take("syn_tokens.specs.Leaves", SYNTAXES[kind])
        inner = self.source.types.get(kind)
        if inner is None:
            raise Fault(f"{t.file}: {t.name} holds `{kind}`, so write view_{t.name} in specs/ by hand")
        name, module = syntax_of(self.source, inner)
        return None if name == "itself" else self.take(module, name)

    def of_field(self, t, field, kind):
        place = f"a.{field}"
        if kind == ATTRIBUTES:
            return f"{self.take(f'{LOWEST}.specs.Attributes', 'attributes_syntax')} {place}.items"
        outer = re.fullmatch(r"(Option|Box|Punctuated)<(.*)>", kind)
        if outer and outer[1] == "Box":
            function, place = self.function(t, outer[2]), f"{place}.value"
            return f"{function} {place}" if function else place
        if outer and outer[1] == "Option":
            function = self.function(t, outer[2]) or self.take("syn_grammar.specs.Promises", "itself")
            return f"{self.take('syn_tokens.specs.Leaves', 'maybe')} {function} {place}"
        if outer:
            value, sign = outer[2].split(", ")
            values = self.function(t, value) or self.take("syn_grammar.specs.Promises", "itself")
            name = self.take("syn_tokens.specs.Listing", "joined_of" if (t.name, field) in self.joined else "list_of")
            return f"{name} {values} {self.function(t, sign)} {place}.pairs {place}.last"
        function = self.function(t, kind)
        return f"{function} {place}" if function else place

    def of_fields(self, t, fields):
        (field, kind), *others = fields
        if kind in DELIMITERS and self.source.is_token(t, kind):
            if not others:
                raise Fault(f"{t.file}: the group of {t.name} is empty, so write view_{t.name} in specs/ by hand")
            group = self.take(f"{LOWEST}.specs.Parts", "group_syntax")
            return f"{group} {self.take('syn_grammar.specs.Tokens', kind)} a.{field} {atom(self.of_fields(t, others))}"
        syntax = self.of_field(t, field, kind)
        if not others:
            return syntax
        return f"{self.take('syn_grammar.specs.Grammar', 'Both')} {atom(syntax)} {atom(self.of_fields(t, others))}"

    def text(self, t):
        shown = [(field, kind) for field, kind in t.fields if not self.source.is_empty(kind) and not self.source.holds_place(kind)]
        if not shown:
            raise Fault(f"{t.file}: no field of {t.name} is shown, so write view_{t.name} in specs/ by hand")
        name = f"view_{t.name}"
        return f"\nabbrev pub {name} : {t.name}-in.Inside → Syntax\n{name} a = Node {atom(self.of_fields(t, shown))}\n"


def atom(term):
    return f"({term})" if " " in term else term


def declared(t):
    return ".".join(t.file.with_suffix("").parts) + f".{t.name}"


def plain_views(source, joined):
    """specs/Plain.antt."""
    imports = {"syn_grammar.specs.Grammar": {"Syntax", "Node"}}
    view = PlainView(source, joined, imports)
    types = [t for t in source.printed() if is_plain(source, t)]
    if not types:
        return {}
    body = "".join(view.text(t) for t in types)
    uses = "".join(f"use Rattle.{module}.{{{', '.join(sorted(names))}}}\n" for module, names in sorted(imports.items()))
    insides = "".join(f"use Rattle.{t.crate}.specs.declared.{declared(t)}.TheInside as {t.name}-in\n" for t in types)
    head = "-- Written by tools/kinds.py; edits are lost.\n-- THE VIEWS OF STRUCTS THAT ARE THEIR RULE'S PARTS IN ORDER.\n"
    return {source.crate / "specs/Plain.antt": head + uses + insides + body}
