"""Values of the grammar written as Antt, and the `use` lines that a text needs."""
import re

from . import antt

CRATE = 'Rattle.syn_grammar'
PRELUDE = ['◌≡◌', 'ℕ', 'zero', 'suc', 'Bool', 'true', 'false', 'List', '[]', '◌∷◌', 'nat_eq', 'nat_lt', 'refl']
COMMON = ['◌≡◌', 'ℕ', 'Bool', 'true', 'false', 'List', '[]', '◌∷◌', 'refl', 'sym', 'true≢false']


class Writer:
    """Writes terminals, looks and texts by the names that the specifications give them."""

    def __init__(self, source):
        self.text_names = {text: name for name, text in source.texts.items()}
        self.look_names = {look: name for name, look in source.looks.items()}

    def text(self, text):
        return self.text_names.get(text) or '(' + ' ∷ '.join(map(str, text.encode())) + ' ∷ [])'

    def terminal(self, terminal):
        if len(terminal) == 1:
            return terminal[0]
        argument = self.text(terminal[1]) if terminal[0] in ('Word', 'Punctuation') else terminal[1][0]
        return ' '.join([terminal[0], argument] + [str(flag).lower() for flag in terminal[2:]])

    def look(self, look, least=0):
        """A look, in parentheses where `least` (how strongly the context binds) requires them."""
        if look in self.look_names:
            return self.look_names[look]
        kind = look[0]
        if kind in antt.INFIX:
            text = f'{self.look(look[1], antt.INFIX[kind] + 1)} {kind} {self.look(look[2], antt.INFIX[kind] + (kind != "or_else"))}'
            return f'({text})' if antt.INFIX[kind] < least else text
        if len(look) == 1:
            return kind
        text = f'{kind} {self.text(look[1]) if isinstance(look[1], str) else look[1][0]}'
        return f'({text})' if least > 90 else text

    def list(self, items):
        items = list(items)
        return ' ∷ '.join(items) + ' ∷ []' if items else '[]'

    def terminals(self, terminals):
        return self.list(map(self.terminal, terminals))

    def looks(self, looks):
        return self.list(self.look(c, 50) for c in looks)


def argument(text):
    return f'({text})' if ' ' in text and not text.startswith('(') else text


def exports(path):
    """The public names of a file, in their order."""
    names = []
    for _, _, text in antt.declarations(path.read_text()):
        data = re.match(r'pub data (\S+)', text)
        if data:
            names.append(data[1])
            for constructor in re.findall(r'^  (?!--)([^:\n]+?) :', text, re.M):
                names += constructor.split()
            continue
        found = re.match(r'(?:pub record|abbrev pub|unfoldable pub|pub) (\S+)', text)
        if found and found[1] != 'mod':
            names.append(found[1])
    return list(dict.fromkeys(names))


def words(text):
    """The words of a text of Antt, comments and `use` lines aside."""
    lines = [line.split('--')[0] for line in text.split('\n') if not line.startswith('use ')]
    found = set(re.findall(r'[^\s(),{};]+', '\n'.join(lines)))
    for word in list(found):  # a record's or a pair's field: x.0, k.name
        found.update(word.split('.'))
        found.add(word.rstrip('.'))
    return found


def used(names, present):
    """Of these names those whose words are present; `◌&◌` is used where `&` is."""
    return [n for n in names if all(part in present for part in n.split('◌') if part)]


def use_lines(body, modules):
    """A `use` line for each module of which the body uses some name."""
    present, taken, lines = words(body), set(), []
    for module, names in modules:
        mine = [n for n in used(names, present) if n not in taken]
        taken.update(mine)
        if mine:
            lines.append(f'use {module}.{{{", ".join(mine)}}}')
    return '\n'.join(lines) + '\n'
