"""Whether each field of each struct is in the struct's view. A field that a view leaves out may be lost by a print, a copy or a comparison,
and every proof still holds.

A field may be absent where its type has no values (`pub enum Never {}`) or one value (`pub struct FieldModifiers {}`, an enum of one
variant without fields)."""
import re

STRUCT = re.compile(r"^pub struct (\w+) \{(.*?)\}", re.S | re.M)
FIELD = re.compile(r"^\s*pub (\w+): (.+),$", re.M)
NO_VALUES = re.compile(r"^pub enum (\w+) \{\}", re.M)
ONE_VALUE = re.compile(r"^pub (?:struct (\w+) \{\}|enum (\w+) \{\n    \w+,\n\})", re.M)
DEFINITION = re.compile(r"^(?:view|syntax_of)_(\w+) (\w+) =(.*?)(?=^\S|\Z)", re.S | re.M)


def texts(crates, folder, suffix):
    return "\n".join(path.read_text() for crate in crates for path in sorted((crate / folder).rglob(f"*{suffix}")))


def shown_fields(views):
    """Of each struct, the fields that its definition names."""
    shown = {}
    for struct, variable, body in DEFINITION.findall(views):
        shown[struct] = set(re.findall(rf"\b{variable}\.(\w+)", body))
    return shown


def missing_fields(crates):
    """The fields that a view of these crates leaves out, and how many fields there are."""
    code, shown = texts(crates, "src", ".rt"), shown_fields(texts(crates, "specs", ".antt"))
    empty, lone = set(NO_VALUES.findall(code)), {a or b for a, b in ONE_VALUE.findall(code)}
    missing, fields = [], 0
    for struct, body in STRUCT.findall(code):
        for field, kind in FIELD.findall(body):
            fields += 1
            absent = kind in lone or empty & set(re.findall(r"\w+", kind))
            if field not in shown.get(struct, set()) and not absent:
                missing.append(f"{struct}.{field}")
    return missing, fields
