"""The body of a function as text, for operators: brackets, statements, arms and operands in the layout of `rt fmt`.

Bodies have no ghost code: invariants and steps of proofs are in other files.
"""

import re
from functools import cached_property

OPEN, CLOSE = "([{", ")]}"
LITERAL = re.compile(
    r"""(?P<comment>//[^\n]*)|(?<![\w'])b?r(?P<hashes>\#*)".*?"(?P=hashes)|b?"(?:\\.|[^"\\])*"|b?'(?:\\(?:u\{[^}]*\}|x..|.)|[^\\'\n])'""",
    re.S | re.X,
)


def blanked(text):
    """The text with the inside of literals as `_`, and comments as spaces; each place stays where it was."""

    def blank(match):
        it = match[0]
        return " " * len(it) if match["comment"] else it[0] + "_" * (len(it) - 2) + it[-1]

    return LITERAL.sub(blank, text)


class Body:
    """A function's text from its head to its last line, in which `start` and `end` are around what is in its braces."""

    def __init__(self, function, lines, around):
        self.function, self.around = function, around
        self.text = "\n".join(lines[function.first : function.last + 1])
        self.plain = blanked(self.text)
        line, column = function.body
        self.start = sum(len(it) + 1 for it in lines[function.first : line]) + column
        self.start = self.plain.index("{", max(0, self.start - 1)) + 1
        self.end = self.plain.rindex("}")

    @cached_property
    def pairs(self):
        """The closing place of each opening bracket, and the other way round."""
        found, open_ = {}, []
        for at in range(self.start, self.end):
            if self.plain[at] in OPEN:
                open_.append(at)
            elif self.plain[at] in CLOSE and open_:
                found[at] = open_.pop()
                found[found[at]] = at
        return found

    @cached_property
    def head(self):
        """What is before the body, without clauses and attributes, in one line."""
        text = self.plain[: self.start - 1]
        text = re.split(r"\n\s*(?:requires|ensures|decreases|where)\b", text)[0]
        return " ".join(text.partition("fn ")[2].split())

    @cached_property
    def parameters(self):
        """The types of the parameters by their names; `self` too."""
        found = {"self": "Self"} if re.search(r"[(&]\s*(?:'\w+ )?(?:mut )?self\b", self.head) else {}
        inside = re.search(r"\((.*)\)", self.head.rpartition("->")[0] or self.head)
        for part in parts(inside[1] if inside else ""):
            name, colon, type_ = part.partition(":")
            if colon:
                found[name.replace("mut ", "").strip()] = type_.strip()
        return found

    @cached_property
    def result(self):
        """The type of the result; empty where it has none."""
        return self.head.rpartition("->")[2].strip() if "->" in self.head else ""

    @cached_property
    def allocator(self):
        """An expression for an allocator; empty where none is known."""
        if "alloc" in self.parameters or re.search(r"\blet alloc\b", self.plain):
            return "alloc"
        return "input.alloc()" if "ParseBuffer" in self.parameters.get("input", "") else ""

    def find(self, pattern):
        """The matches of a pattern in the body, outside of literals."""
        return re.compile(pattern).finditer(self.plain, self.start, self.end)

    def is_pattern(self, at):
        """Whether this place is in the pattern of a match arm or of a `let`."""
        line_end = self.plain.find("\n", at)
        line_start = self.plain.rfind("\n", 0, at)
        before = self.plain[line_start:at]
        return "=>" in self.plain[at:line_end] or re.search(r"\blet [^=]*$", before) is not None

    @cached_property
    def statements(self):
        """The places of the statements that end with `;`, of every block, in order."""
        found = []
        for match in self.find(";"):
            start = self.back(match.start())
            if start is not None and self.plain[start : match.start()].strip():
                found.append((start, match.end()))
        return sorted(found)

    def back(self, at):
        """Where the statement begins that ends at this place; None in `[value; count]`."""
        at -= 1
        while at >= self.start:
            sign = self.plain[at]
            if sign == "}" and re.match(r"\}\s*\n\s*[\w*(&]", self.plain[at:]) and not re.match(r"\}\s*else\b", self.plain[at:]):
                break
            if sign in CLOSE:
                at = self.pairs.get(at, at)
            elif sign in "([":
                return None
            elif sign in "{;":
                break
            at -= 1
        return at + 1 + len(re.match(r"\s*", self.plain[at + 1 :])[0])

    @cached_property
    def tail(self):
        """The place of the expression at the body's end; None where a statement ends it."""
        start = self.back(self.end)
        return (start, start + len(self.plain[start : self.end].rstrip())) if self.plain[start : self.end].strip() else None

    @cached_property
    def arms(self):
        """The places of the pattern and of the result of each match arm."""
        found = []
        for match in self.find("=>"):
            end = self.forward(match.end(), ",")
            start = self.plain.rfind("\n", 0, match.start()) + 1
            result = match.end() + len(re.match(r"\s*", self.plain[match.end() :])[0])
            if result < end:
                found.append((start + len(re.match(r"\s*", self.plain[start:])[0]), match.start(), result, end))
        return found

    def forward(self, at, stops):
        """Where what begins at this place ends: at one of these signs, after a block, or at the end of the brackets around it."""
        is_block = self.plain[at:].lstrip().startswith("{")
        while at < self.end:
            sign = self.plain[at]
            if sign in OPEN:
                at = self.pairs.get(at, at)
                if is_block:
                    return at + 1
            elif sign in CLOSE or sign in stops:
                return at
            at += 1
        return at

    @cached_property
    def conditions(self):
        """The places of the conditions of `if` and `while`, and their words; not of `if let`."""
        found = []
        for match in self.find(r"\b(if|while) "):
            at = match.end()
            while at < self.end and self.plain[at] != "{" and self.plain[at : at + 2] != "=>":
                at = self.pairs.get(at, at) + 1 if self.plain[at] in "([" else at + 1
            condition = self.plain[match.end() : at]
            if not re.search(r"\blet\b", condition):
                found.append((match[1], match.end(), match.end() + len(condition.rstrip())))
        return found


def parts(text, separator=","):
    """The parts of a list in the text of types or expressions, without what is nested."""
    found, depth, last = [], 0, 0
    text_ = text.replace("->", "__").replace("=>", "__")
    for at, sign in enumerate(text_):
        depth += (sign in "([{<") - (sign in ")]}>")
        if sign == separator and not depth:
            found.append(text[last:at])
            last = at + 1
    return [it.strip() for it in [*found, text[last:]] if it.strip()]
