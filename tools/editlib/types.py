"""What operators know of the types and functions of a crate and of those below it: fields, variants without parts, signatures."""

import re
from functools import cached_property

from editlib.body import blanked, parts

ITEM = re.compile(r"(?m)^(?:pub(?:\([^)]*\))? )?(struct|enum) (\w+)[^{;]*\{\n(.*?)^\}", re.S)
FIELD = re.compile(r"(?m)^    (?:pub(?:\([^)]*\))? )?(\w+): (.*?),$", re.S)
UNIT = re.compile(r"(?m)^    (\w+),$")
FREE = re.compile(r"(?m)^(?:pub(?:\([^)]*\))? )?(?:const )?fn (\w+)(<[^{;]*?>)?\((.*?)\)(?: -> (.*?))?(?:\n|;| \{)", re.S)
METHOD = re.compile(r"(?m)^    (?:pub(?:\([^)]*\))? )?(?:const )?fn (\w+)(<[^{;]*?>)?\((.*?)\)(?: -> (.*?))?(?:\n|;| \{)", re.S)


class Types:
    """Read off the sources of crates; what two types of one name say differently is left out."""

    def __init__(self, texts):
        self.texts = {path: blanked(text) for path, text in texts.items()}
        self.methods_by_path = {}

    @cached_property
    def fields(self):
        """The types of the fields of each struct."""
        return self.of_items("struct", lambda body: {name: " ".join(type_.split()) for name, type_ in FIELD.findall(body)})

    @cached_property
    def variants(self):
        """The variants without parts of each enum."""
        return self.of_items("enum", UNIT.findall)

    def of_items(self, word, of):
        found, double = {}, set()
        for text in self.texts.values():
            for kind, name, body in ITEM.findall(text):
                if kind == word and found.setdefault(name, of(body)) != of(body):
                    double.add(name)
        return {name: it for name, it in found.items() if name not in double and it}

    @cached_property
    def signatures(self):
        """The types of the parameters and of the result of each free function, of one line."""
        found = {}
        for text in self.texts.values():
            for name, generic, inside, result in FREE.findall(text):
                found.setdefault(name, set()).add(signature(generic, inside, result))
        return {name: it.pop() for name, it in found.items() if len(it) == 1}

    def methods(self, path):
        """The same of the methods of a file."""
        if path in self.methods_by_path:
            return self.methods_by_path[path]
        found = {}
        for name, generic, inside, result in METHOD.findall(self.texts.get(path, "")):
            found.setdefault(name, set()).add(signature(generic, inside, result))
        self.methods_by_path[path] = {name: it.pop() for name, it in found.items() if len(it) == 1}
        return self.methods_by_path[path]


def signature(generic, inside, result):
    """The types of a function, without names of parameters."""
    types = [" ".join(re.sub(r"^(?:mut )?\w+: ", "", part).split()) for part in parts(inside)]
    return " ".join(generic.split()), tuple(types), " ".join(result.split())
