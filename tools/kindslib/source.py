"""Reads the structs and enums of the crates of trees: one field or variant a line."""
import re

FIRST_LINE = "Written by tools/kinds.py from here to the end; edits are lost."
MARK = f"// {FIRST_LINE}\n"

TYPE = re.compile(r"^((?:///[^\n]*\n|#\[[^\n]*\n)*)pub (struct|enum) (\w+) \{(.*?)\n?\}$", re.S | re.M)
FIELD = re.compile(r"^    pub (\w+): (.+),$", re.M)
VARIANT = re.compile(r"^    (\w+)(?:\((.*)\))?,$", re.M)
USE = re.compile(r"^use (\w+)::([\w:]+)::(?:\{([^}]*)\}|(\w+));$", re.M)
DELIMITERS = {"Paren", "Brace", "Bracket", "Group"}
ATTRIBUTES = "Vec<Attribute>"
# types that are no syntax of the crate, and are `Copy`
PLAIN = {"Span", "u32", "usize"}


class Fault(Exception):
    """A source that this script can't read."""


class Type:
    """A struct or an enum, with its fields or variants in order."""

    def __init__(self, kind, name, body, attributes, file, crate):
        self.crate = crate
        self.is_enum = kind == "enum"
        self.name = name
        self.file = file
        self.is_copy = bool(re.search(r"^#\[derive\(.*\bCopy\b", attributes, re.M))
        family = re.search(r"#\[cycle\((\w+)\)\]", attributes)
        self.family = family[1] if family else None
        self.fields = [] if self.is_enum else FIELD.findall(body)
        self.variants = VARIANT.findall(body) if self.is_enum else []
        lines = [line for line in body.split("\n") if line.strip() and not line.strip().startswith(("///", "//"))]
        if len(lines) != len(self.fields) + len(self.variants):
            raise Fault(f"{file}: {name} isn't laid out with one public field or variant a line")

    @property
    def is_nested(self):
        """Whether it is recursive: it has a family."""
        return self.family is not None

    def has_no_values(self):
        return self.is_enum and not self.variants

    def holds_something(self, nothing=lambda payload: False):
        """Whether it has fields, or a variant with a payload that isn't nothing."""
        return bool(self.fields) or any(payload and not nothing(payload) for _, payload in self.variants)

    def has_attributes(self):
        return any(kind == ATTRIBUTES for _, kind in self.fields)

    def has_one_value(self):
        """Whether all of its values are equal: it has no fields, or one variant without a payload."""
        return not self.fields and not self.is_enum or [payload for _, payload in self.variants] == [""]


# the lowest crate of trees
LOWEST = "syn_lower"


class Source:
    """The types of a crate, the code by hand with its files, and the types of the crate below it."""

    def __init__(self, crate, below=None):
        self.crate = crate
        self.below = below
        self.hand = {}
        self.types = dict(below.types) if below else {}
        self.tokens = {}
        for path in sorted((crate / "src").rglob("*.rt")):
            relative = path.relative_to(crate / "src")
            text = path.read_text().split(MARK)[0]
            if text.startswith("//! Written by tools/kinds.py"):
                continue
            self.hand[relative] = text
            for attributes, kind, name, body in TYPE.findall(text):
                self.types[name] = Type(kind, name, body, attributes, relative, crate.name)
            self.tokens[relative] = imported(text)
        self.specs = {path.stem: path.read_text() for path in sorted((crate / "specs").rglob("*.antt"))}
        self.specs = {name: text for name, text in self.specs.items() if not text.startswith("-- Written by tools/kinds.py")}

    def by_hand(self, block):
        """Whether a file by hand has this block of code."""
        return any(re.search(rf"^{block} \{{", text, re.M) for text in self.hand.values())

    def spec_of(self, name):
        """The file of specs/ that defines this name by hand, if one does."""
        for file, text in self.specs.items():
            if re.search(rf"^(?:abbrev |unfoldable )?pub {name} :", text, re.M):
                return file
        return None

    def is_choice(self, kind):
        """Whether it is an enum without payloads, which has no syntax."""
        t = self.types.get(kind)
        return bool(t and t.is_enum and t.variants and not t.holds_something() and not self.spec_of(f"syntax_of_{kind}"))

    def printed(self):
        """The types of the crate that have syntax: all with something in them but such choices, and the others with a `syntax_of_X`."""
        own = [t for t in self.types.values() if t.crate == self.crate.name]
        return [t for t in own if t.holds_something(self.is_choice) or self.spec_of(f"syntax_of_{t.name}")]

    def owner(self, t):
        """The source of the crate that has this type."""
        return self if t.crate == self.crate.name else self.below.owner(t)

    def root(self):
        """The name of the lowest crate, in this one."""
        return "crate" if self.crate.name == LOWEST else LOWEST

    def path_of(self, name):
        """The path of a type's module: its crate and the top module of its file, which exports it; in the lowest crate, the crate alone."""
        t = self.types[name]
        return t.crate if t.crate == LOWEST else f"{t.crate}::{t.file.parts[0].removesuffix('.rt')}"

    def own_path_of(self, name):
        """The same path, in this crate."""
        return re.sub(rf"^{self.crate.name}\b", "crate", self.path_of(name))

    def is_nested(self, t, kind):
        """Whether it is a type of the family of its holder."""
        return t.is_nested and kind in self.types and self.types[kind].family == t.family

    def leads_back(self, file):
        """Whether this file has a recursive type."""
        return any(t.is_nested for t in self.types.values() if t.file == file)

    def lists_nested(self, t, kind):
        """Whether it is a list of values of such a type."""
        return kind.startswith("Punctuated<") and self.is_nested(t, kind.removeprefix("Punctuated<").split(", ")[0])

    def is_token(self, owner, kind):
        """Whether a type of a field of `owner` is a word, a mark or the delimiters of a group."""
        return kind in self.tokens[owner.file]

    def is_empty(self, kind):
        """Whether a field of this type is always empty, since some type in it has no values. (A name after `::` is no type of the crate.)"""
        return any(name in self.types and self.types[name].has_no_values() for name in re.findall(r"(?<!::)\b\w+", kind))

    def holds_place(self, kind):
        """Whether the field's type is a struct without fields."""
        return kind in self.types and not self.types[kind].is_enum and not self.types[kind].fields

    def is_plain_copy(self, owner, kind):
        """Whether a field is copied by itself."""
        inner = re.fullmatch(r"Option<([\w:]+)>", kind)
        kind = inner[1] if inner else kind
        return kind in PLAIN or self.is_token(owner, kind) or kind.startswith("token::") or self.holds_place(kind) or self.is_copied(kind)

    def is_copied(self, kind):
        """Whether it is a type of these crates that is `Copy`."""
        return kind in self.types and self.types[kind].is_copy

    def files(self):
        """The types that have syntax, by their files."""
        found = {}
        for t in self.printed():
            found.setdefault(t.file, []).append(t)
        return found


def imported(text):
    """The names that a file takes from a module `token`."""
    names = set()
    for _, path, several, one in USE.findall(text):
        if path.split("::")[-1] == "token":
            names |= {name.strip() for name in (several or one).split(",") if name.strip()}
    return names


def snake(name):
    return re.sub(r"(?<!^)(?=[A-Z])", "_", name).lower()


def camel(word):
    return "".join(part.capitalize() for part in re.split(r"[-_]", word))


def wrapped(line, indent, pieces, joiner):
    """The line, or its pieces one a line where it would be wider than 100 characters."""
    if indent + len(line) <= 100:
        return " " * indent + line
    first, *others = pieces
    return "\n".join([" " * indent + first] + [" " * (indent + 4) + joiner + piece for piece in others])
