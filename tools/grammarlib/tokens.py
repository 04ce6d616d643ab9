"""Token trees for the scripts: a reader of simple texts, and the text of a list of trees."""
import re
from dataclasses import dataclass, field
from functools import partial

# no text shows the delimiters of an invisible group; here they are `\(` and `\)`
OPENING = {'(': 'Paren', '{': 'Brace', '[': 'Bracket', '\\(': 'None'}
CLOSING = {')': '(', '}': '{', ']': '[', '\\)': '\\('}
DELIMITER_TEXTS = {'Paren': '()', 'Brace': '{}', 'Bracket': '[]', 'None': ('\\(', '\\)')}
MARKS = "~!@#$%^&*-=+|;:,<.>/?'"
WORD = re.compile(r'[A-Za-z_]\w*')
LITERALS = {'ByteStr': r'b"[^"]*"', 'CStr': r'c"[^"]*"', 'Str': r'"[^"]*"', 'Byte': r"b'[^']'", 'Char': r"'[^']'", 'Float': r'\d+\.\d\w*', 'Int': r'\d\w*'}

NO_SPAN = (0, 0)


@dataclass(frozen=True)
class Ident:
    text: str
    span: tuple = field(default=NO_SPAN, compare=False)


@dataclass(frozen=True)
class Literal:
    kind: str
    text: str
    span: tuple = field(default=NO_SPAN, compare=False)


@dataclass(frozen=True)
class Punct:
    character: str
    joint: bool
    span: tuple = field(default=NO_SPAN, compare=False)


@dataclass(frozen=True)
class Group:
    delimiter: str
    content: tuple
    opening: tuple = field(default=NO_SPAN, compare=False)
    closing: tuple = field(default=NO_SPAN, compare=False)


class Stream:
    """Token trees in a row, and their lookahead (computed once)."""
    __slots__ = ('token', 'rest', 'known_lookahead', 'known_looks', 'known_content')

    def __init__(self, token=None, rest=None):
        self.token, self.rest = token, rest
        self.known_lookahead, self.known_looks, self.known_content = None, {}, None

    def content(self):
        """The content of the first tree, a group."""
        if self.known_content is None:
            self.known_content = stream(self.token.content)
        return self.known_content

    def trees(self, stop=None):
        """The trees before the rest `stop`, else all."""
        found, here = [], self
        while here is not stop and here.token is not None:
            found.append(here.token)
            here = here.rest
        return found


def stream(trees):
    here = Stream()
    for tree in reversed(trees):
        here = Stream(tree, here)
    return here


def mark(text, spans=None):
    """The trees of a printed mark: all but its last character are Joint."""
    return [Punct(c, n + 1 < len(text), spans[n] if spans else NO_SPAN) for n, c in enumerate(text)]


def shown(trees):
    """The text of token trees: a space after each but a Joint character."""
    text = ''
    for tree in trees:
        if isinstance(tree, Group):
            opening, closing = DELIMITER_TEXTS[tree.delimiter]
            text += f'{opening}{shown(tree.content)}{closing} '
        else:
            text += tree.character + ' ' * (not tree.joint) if isinstance(tree, Punct) else tree.text + ' '
    return text.rstrip()


LEAVES = [(re.compile(pattern), partial(Literal, kind)) for kind, pattern in LITERALS.items()] + [(WORD, Ident)]


def read_text(text):
    """The token trees of a text of words, simple literals, marks and groups. Spans are byte offsets."""
    trees, place = read_trees(text, 0, None)
    return trees


def sign(text, place):
    """The character at this place, or a delimiter of two; nothing at the end."""
    return text[place:place + 1 + text.startswith('\\', place)]


def read_trees(text, place, closing):
    trees = []
    while True:
        while place < len(text) and text[place] == ' ':
            place += 1
        character = sign(text, place)
        if not character or character in CLOSING:
            if CLOSING.get(character) != closing:
                raise ValueError(f'unbalanced group in {text!r}')
            return tuple(trees), place
        span = (place, place + len(character))
        if character in OPENING:
            content, stop = read_trees(text, span[1], character)
            place = stop + len(character)
            trees.append(Group(OPENING[character], content, span, (stop, place)))
            continue
        for pattern, make in LEAVES:
            found = pattern.match(text, place)
            if found:
                trees.append(make(found[0], found.span()))
                place = found.end()
                break
        else:
            if character not in MARKS:
                raise ValueError(f'unexpected character {character!r} in {text!r}')
            follows = text[place + 1:place + 2]
            trees.append(Punct(character, bool(follows) and follows in MARKS or character == "'", span))
            place += 1
