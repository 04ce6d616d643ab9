"""The functions of a source file, by their places and by the names that the prover gives them.

It reads a file in the layout of `rt fmt`: a body begins at the `{` that ends the head of a function without clauses, or
stands alone below its clauses, and ends at the `}` under it.
"""

import re
from dataclasses import dataclass

FUNCTION = re.compile(r"( *)(?:pub(?:\([^)]*\))? )?(?:const )?(?:unsafe )?(?:extern \"C\" )?fn (\w+)")
TRAIT = re.compile(r"(?:pub(?:\([^)]*\))? )?(?:unsafe )?trait (\w+)")
TYPE = re.compile(r"(?m)^(?:pub(?:\([^)]*\))? )?(?:struct|enum) (\w+)")
ENSURES = re.compile(r"\s+ensures\*? (?:(\w+) )?\{")
IMPL = re.compile(r"(?:unsafe )?impl\b")


@dataclass(frozen=True)
class Function:
    """A function: its name below the crate, its first and last line, where its body begins (from 0; None where it has none),
    the names of what it ensures (`returns` for a clause without a name), and the trait that it implements."""

    name: str
    first: int
    last: int
    body: tuple
    clauses: tuple
    trait: str

    def has_in_body(self, line, column):
        return bool(self.body) and self.body <= (line, column) and line <= self.last


def plain(name):
    """A type's or trait's name without lifetimes and arguments: `Ref` stands for a borrow, as in the prover's names."""
    borrow = ""
    if name.startswith("&"):
        borrow = "RefMut" if re.match(r"&('\w+ )?mut ", name) else "Ref"
    return borrow + re.match(r"(?:&('\w+ )?(mut )?)?(?:\w+::)*(\w*)", name)[3]


def subject_of(header):
    """What stands behind `impl` and its parameters, whose bounds may have an `->`."""
    depth, text = 0, header.partition("impl")[2].replace("->", "  ")
    for at, sign in enumerate(text):
        depth += (sign == "<") - (sign == ">")
        if not depth and sign in "> ":
            return header.partition("impl")[2][at + 1 :].strip()
    return ""


def parameters_of(header):
    """The types over which an impl block is generic."""
    text, depth, names = header.partition("impl")[2].replace("->", "  "), 0, []
    if not text.startswith("<"):
        return names
    for at, sign in enumerate(text):
        if depth == 1 and text[at - 1] in "<, " and (found := re.match(r"(\w+)\b", text[at:])) and re.search(r"[<,] *$", text[:at]):
            names.append(found[1])
        depth += (sign == "<") - (sign == ">") + (sign == "(") - (sign == ")")
        if not depth:
            return names
    return names


def block_of(header):
    """The prover's name of an impl block, such as ErrorFromRefusal, AnyParse where the type is a parameter,
    CustomPunctuation2Peek where the type has a number, and OptionWalk of `impl<T> Walk<T> for Option<T>`."""
    inside = subject_of(re.sub(r"\s*(where .*)?\{$", "", header))
    if " for " not in inside:
        return plain(inside)
    trait, kind = inside.split(" for ", 1)
    arguments = [word for word in re.findall(r"\w+", trait.partition("<")[2].partition("<")[0]) if word not in parameters_of(header)]
    name = "Any" if re.fullmatch(r"[A-Z]", kind.split()[0]) else "Tuple2" if kind.startswith("(") else plain(kind)
    numbers = re.findall(r"\b\d+\b", kind.partition("<")[2])
    return name + "".join(numbers) + plain(trait) + "".join(word[0].upper() + word[1:] for word in arguments)


def module_of(path):
    """The module that a file of src/ is, as `token::word`; empty for the root."""
    parts = path.removeprefix("src/").removesuffix(".rt").split("/")
    if parts[-1] in ("lib", "main", "mod"):
        parts.pop()
    return "::".join(parts)


def opened(lines, first):
    """The head of a block that begins in this line, as one line."""
    last = next(i for i in range(first, len(lines)) if lines[i].endswith(("{", "{}", ";")))
    return " ".join(line.strip() for line in lines[first : last + 1])


def body_of(lines, first, indent):
    """Where the body begins of the function whose head is in this line, if it has one, and its last line."""
    for at in range(first, len(lines)):
        line = lines[at]
        of_head = at == first or line.startswith(indent + ")") or line.startswith(indent + "where")
        if line == indent + "{" or of_head and line.endswith(" {"):
            return (at, len(line)), lines.index(indent + "}", at)
        if line == indent + "{}" or of_head and line.endswith("{}"):
            return (at, len(line) - 1), at
        if line.endswith(";"):
            return None, at
    return None, first


def clauses_of(lines):
    """The names of what a head of these lines ensures."""
    found = (ENSURES.match(line) for line in lines)
    return tuple(it[1] or "returns" for it in found if it)


def types_of(texts):
    """The module of each type that stands in these files, by its name; without the names that stand in several."""
    found = {}
    for path, text in texts.items():
        for name in TYPE.findall(text):
            found.setdefault(name, set()).add(module_of(path))
    return {name: modules.pop() for name, modules in found.items() if len(modules) == 1}


def functions_of(path, text, types):
    """The functions with a body of a file of src/. A type's own methods have the name of the type's module."""
    lines, found, around = text.split("\n"), [], []
    for at, line in enumerate(lines):
        indent = re.match(" *", line)[0]
        # the head of a block may go on in lines of its own indent
        while around and line.strip() and len(indent) <= around[-1][0] and not line.strip().startswith((">", "where", "{")):
            around.pop()
        is_open = line.rstrip().endswith("{") or not line.rstrip().endswith((";", "}"))
        start = line.strip()
        if IMPL.match(start) and is_open:
            header = opened(lines, at)
            name = block_of(header)
            module = module_of(path) if " for " in header else types.get(name, module_of(path))
            trait = re.match(r"(?:\w+::)*(\w+)", subject_of(header))[1] if " for " in header else None
            around.append((len(indent), [module, name], trait))
        elif TRAIT.match(start) and is_open:
            around.append((len(indent), [module_of(path), TRAIT.match(start)[1]], None))
        head = FUNCTION.match(line)
        if head:
            _, block, trait = around[-1] if around else (0, [module_of(path)], None)
            body, last = body_of(lines, at, head[1])
            name = "::".join(part for part in [*block, head[2]] if part)
            found.append(Function(name, at, last, body, clauses_of(lines[at : (body or (last,))[0] + 1]), trait))
    return found
