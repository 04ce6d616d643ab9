"""Wrong tables: for each rule the forms that differ from its own by one change, each with a sentence that describes the change.

What a change may be: a part left out, optional, twice, or again at another place; an optional part required; the two ways of a choice
exchanged; a condition that tests less or something else; a word, a mark or a pair of delimiters that may also be another one;
a name that may be a keyword; a group whose content isn't read to its end, or may be empty.
"""
from collections import Counter
from dataclasses import dataclass

from .lookaheads import EMPTY, INVISIBLE, JOINED, NEVER, group_terminals, unique
from .reader import Reader, Refused
from .starts import LOOKS, Starts
from .tokens import stream

DELIMITERS = {'Paren': '( )', 'Brace': '{ }', 'Bracket': '[ ]'}
# keywords that may take the place of names, and one that may not
PATH_WORDS = ['self', 'Self', 'super', 'crate']
KEYWORDS = PATH_WORDS + ['_', 'fn']
# marks that are easily taken for one another
LIKE = {',': [';'], ';': [','], '::': [':', '.'], ':': ['::', '='], '=': ['=='], '->': ['=>'], '=>': ['->'], '+': [','], '&': ['*'], '|': [',']}


ANY_REST = ('any_rest',)  # all that is left: a form of wrong tables alone


@dataclass(frozen=True)
class Mutant:
    rule: str
    change: str
    form: tuple


def is_form(value):
    return isinstance(value, tuple) and bool(value) and isinstance(value[0], str) and value[0] not in LOOKS


def reads_nothing(form):
    """Nothing is ever read of it or printed."""
    return form in (EMPTY, ('unshown',)) or (form[0] == 'shaped' and reads_nothing(form[2]))


def children(form):
    """The places of the forms directly in a form."""
    if form[0] in ('token', 'mark', 'rule', 'one_of', 'raw', 'rest_after', 'inside'):
        return [2] if form[0] == 'inside' else []
    return [n for n in range(1, len(form)) if is_form(form[n]) and not (form[0] in ('such', 'shaped', 'supplied') and n == 1)]


def places(form, path=()):
    """This form and each form in it, with the path to it."""
    yield path, form
    for n in children(form):
        yield from places(form[n], path + (n,))


def put(form, path, new):
    """The form with another one at this place."""
    if not path:
        return new
    return form[:path[0]] + (put(form[path[0]], path[1:], new),) + form[path[0] + 1:]


def members(form):
    """The parts of a sequence, else the form alone."""
    return [form[1]] + members(form[2]) if form[0] == '&' else [form]


def sequence(parts):
    parts = [p for p in parts if p != EMPTY] or [EMPTY]
    found = parts[-1]
    for part in reversed(parts[:-1]):
        found = ('&', part, found)
    return found


def sequences(form, path=()):
    """Each form that is no part of a sequence, or is a whole one, with the way to it."""
    yield path, form
    for inner, member in member_places(form, path):
        for n in children(member):
            yield from sequences(member[n], inner + (n,))


def member_places(form, path):
    if form[0] == '&':
        yield path + (1,), form[1]
        yield from member_places(form[2], path + (2,))
    else:
        yield path, form


def either(look, other):
    return ('or_else', look, other)


def any_of(looks):
    looks = unique(looks)
    found = looks[-1]
    for look in reversed(looks[:-1]):
        found = either(look, found)
    return found


def look_places(look, path=()):
    yield path, look
    if look[0] in JOINED:
        for n in (1, 2):
            yield from look_places(look[n], path + (n,))


def exchanged(value, change):
    """A form or a look with each part that `change` knows exchanged for what it says."""
    new = change(value)
    if new is not None:
        return new
    return tuple(exchanged(x, change) if isinstance(x, tuple) and x and isinstance(x[0], str) else x for x in value)


class Mutants:
    def __init__(self, lookaheads, table):
        self.lookaheads, self.table = lookaheads, table
        self.starts = Starts(lookaheads, table)
        self.words = lookaheads.keywords + lookaheads.contextual

    def of(self, rule):
        """The changes of a rule that alter what is read or printed; each form once."""
        return self.distinct(rule, self.changes(self.table[rule]))

    def of_facts(self, rule):
        """The changes of the facts that the rule's tokens promise: they alter nothing that is read, but a law may refuse them."""
        form = self.table[rule]
        quiet = {'token': (), 'mark': False}
        return self.distinct(rule, ((f'{self.name(part)} promises no facts', put(form, path, (part[0], quiet[part[0]], part[2])))
                                    for path, part in places(form) if part[0] in quiet))

    def distinct(self, rule, changes):
        found, said = {}, Counter()
        for change, new in changes:
            if new != self.table[rule] and new not in found:
                said[change] += 1
                place = f' (place {said[change]})' if said[change] > 1 else ''  # the same is changed at several places
                found[new] = Mutant(rule, change + place, new)
        return list(found.values())

    def changes(self, form):
        yield from self.of_sequences(form)
        for path, part in places(form):
            for change, new in self.of_part(part):
                yield change, put(form, path, new)
        yield from self.of_fixed_tokens(form)

    # PARTS OF SEQUENCES

    def of_sequences(self, form):
        for path, found in sequences(form):
            parts = [p for p in members(found) if not reads_nothing(p)]
            if not parts or parts == [NEVER]:
                continue
            for change, new in self.of_members(parts, self.guard(form, path)):
                yield change, put(form, path, sequence(new))

    def guard(self, form, path):
        """The terminals with which the form at this place may begin, where a choice has tested for them; else None."""
        above = self.above(form, path)
        while above and (above[0] == 'shaped' or (above[0] == '&' and path[-1] == 1)):
            path = path[:-1]
            above = self.above(form, path)
        if not above or above[0] != 'when' or path[-1] != 2:
            return None
        return {f for f in self.terminals() if self.lookaheads.may(above[1], f)}

    def above(self, form, path):
        """The form of which the form at this place is a part."""
        return next((f for p, f in places(form) if path and p == path[:-1]), None)

    def of_members(self, parts, guard):
        for n, part in enumerate(parts):
            name, before, behind = self.name(part), parts[:n], parts[n + 1:]
            yield f'{name} is left out', before + behind
            first_set = set(self.starts.first_set(part))
            if not self.starts.nullable(part) and not (n == 0 and guard is not None and guard <= first_set):
                yield f'{name} may be left out', before + [self.optional(part)] + behind
            if behind:
                yield f'{name} and {self.name(behind[0])} are exchanged', before + [behind[0], part] + behind[1:]
            if part[0] == 'when' and part[2] == NEVER:
                continue  # a refusal
            if not self.is_idle_after(before + [part], part):
                yield f'{name} occurs twice', before + [part, part] + behind
            for place in [p for p in range(len(parts) + 1) if p != n]:
                if place == 0 and guard is not None and not guard & first_set or self.is_idle_after(parts[:place], part):
                    continue
                where = f'before {self.name(parts[place])}' if place < len(parts) else 'at the end'
                yield f'{name} may occur again {where}', parts[:place] + [self.optional(part)] + parts[place:]

    def optional(self, part):
        if self.starts.nullable(part):
            return part
        return ('when', self.first(part), part, EMPTY)

    def is_idle_after(self, before, part):
        """The optional part never begins after these."""
        made = self.optional(part)
        return bool(before) and made[0] == 'when' and made[3] == EMPTY and made[1] in self.starts.never_follow([], sequence(before))

    def first(self, part):
        """The look that holds where the part begins."""
        made = {'Name': lambda f: ('at_name',), 'Word': lambda f: ('at_word', f[1]), 'Punctuation': lambda f: ('at_mark', f[1]),
                'Literal': lambda f: ('at_literal', f[1]), 'Delimited': lambda f: ('at_empty_group',) if f[2] else ('at_group', f[1])}
        return any_of([made[f[0]](f) for f in self.starts.first_set(part)] or [('ended',)])

    # CHOICES, GROUPS AND UNIONS

    def of_part(self, part):
        kind = part[0]
        if kind == 'when':
            yield from self.of_choice(part)
        elif kind == 'vanishing':
            yield f'{self.name(part)} is always there', part[3]
            for change, look in self.of_look(part[2], ()):
                yield change, part[:2] + (look,) + part[3:]
        elif kind == 'inside':
            yield f'{self.name(part)} is not read to its end', ('inside', part[1], ('&', part[2], ANY_REST))
            yield f'{self.name(part)} may hold anything', ('raw', part[1])
            if not self.reads_nothing(part[2]):
                yield f'{self.name(part)} may be empty', ('inside', part[1], ('when', ('ended',), EMPTY, part[2]))
            yield f'{self.name(part)} has no delimiters', part[2]
        elif kind == 'one_of':
            for n, rule in enumerate(part[1]):
                yield f'no {rule[0]}', ('one_of', part[1][:n] + part[1][n + 1:])
        elif kind == 'either':
            yield f'only {self.name(part[1])}', part[1]
            yield f'only {self.name(part[2])}', part[2]
        elif kind == 'such':
            yield f'the test {part[1][0]} is left out', part[2]
        elif kind == 'rule':
            called = self.table[part[1][0]]
            for other in unique(f[1][0] for _, f in places(called) if f[0] == 'rule' and f != called):
                yield f'{other} in place of {part[1][0]}', ('rule', (other,))

    def reads_nothing(self, form):
        """The form reads the end of a group or stream."""
        try:
            return Reader(self.lookaheads, self.table).read(form, stream(()))[1].token is None
        except Refused:
            return False

    def of_choice(self, part):
        kind, look, yes, other = part
        yield f'always {self.name(yes)} in place of {self.name(other)}', yes
        yield f'always {self.name(other)} in place of {self.name(yes)}', other
        yield f'{self.name(yes)} and {self.name(other)} exchanged', (kind, look, other, yes)
        own = [t for kind, t in unique(self.fixed_tokens(part)) if kind == 'mark']
        for change, new in self.of_look(look, own):
            if not self.is_idle(look, new, yes, other):
                yield f'{self.name(yes)}, {change}', (kind, new, yes, other)

    def of_look(self, look, marks):
        """A condition changed at one place; `marks` may be taken for the end."""
        for path, found in look_places(look):
            for change, new in self.of_condition(found, marks):
                yield change, put(look, path, new)

    def of_condition(self, look, marks):
        kind = look[0]
        if kind == 'ended':
            for text in marks:
                yield f'where `{text}` is next too', either(look, ('at_mark', text))
        if kind in JOINED:
            yield f'where only {self.look_name(look[1])}', look[1]
            if kind != 'but_not':
                yield f'where only {self.look_name(look[2])}', look[2]
        if kind == 'at_mark':
            longer = [m for m in self.lookaheads.long_marks if m.startswith(look[1]) and m != look[1]]
            for text in [look[1][:-1]] * (len(look[1]) > 1) + longer[:2]:
                yield f'where `{text}` is next and not `{look[1]}`', ('at_mark', text)
        if kind == 'at_group':
            for other in DELIMITERS:
                if (other,) != look[1]:
                    yield f'where {DELIMITERS[other]} is next too', either(look, ('at_group', (other,)))
        if kind == 'at_empty_group':
            yield 'where an invisible group with content is next too', ('at_group', INVISIBLE)
        if kind in ('at_word', 'at_mark', 'at_name'):
            yield 'at the end too', either(look, ('ended',))
        if kind == 'at_word':
            yield f'where a name is next too', either(look, ('at_name',))

    def terminals(self):
        signs = list("~!@#$%^&*-=+|;:,<.>/?'") + self.lookaheads.long_marks
        kinds = ['Str', 'ByteStr', 'CStr', 'Byte', 'Char', 'Int', 'Float']
        return ([('Ended',), ('Name',)] + [('Word', w) for w in self.words] + [('Punctuation', s) for s in signs]
                + [('Literal', (k,)) for k in kinds] + [f for d in list(DELIMITERS) + ['None'] for f in group_terminals((d,))])

    def is_idle(self, look, new, yes, other):
        """The two conditions differ only before what neither way reads."""
        starts = self.starts
        differ = [f for f in self.terminals() if self.may_differ(look, new, f)]
        if starts.nullable(yes) or starts.nullable(other):
            return not differ
        return not any(f in starts.first_set(yes) or f in starts.first_set(other) for f in differ)

    def may_differ(self, look, new, terminal):
        """The two conditions may differ for lookaheads with this terminal."""
        lookaheads, kind = self.lookaheads, look[0]
        if look == new:
            return False
        if new[:2] == ('or_else', look):
            return lookaheads.may(new[2], terminal) and not lookaheads.must(look, terminal)
        if kind in JOINED and new[0] == kind and look[1] == new[1]:
            decides = lookaheads.must(look[1], terminal) if kind == 'or_else' else not lookaheads.may(look[1], terminal)
            return not decides and self.may_differ(look[2], new[2], terminal)
        if kind in JOINED and new[0] == kind and look[2] == new[2]:
            decides = not lookaheads.may(look[2], terminal) if kind == 'and_also' else lookaheads.must(look[2], terminal)
            return not decides and self.may_differ(look[1], new[1], terminal)
        both = lookaheads.must(look, terminal) and lookaheads.must(new, terminal)
        return not both and (lookaheads.may(look, terminal) or lookaheads.may(new, terminal))

    # WORDS, MARKS AND DELIMITERS, in tokens and conditions alike

    def of_fixed_tokens(self, form):
        tokens = unique(self.fixed_tokens(form))
        words = [w for kind, w in tokens if kind == 'word']
        for kind, text in tokens:
            if kind == 'word':
                yield f'`{text}` may be any identifier', exchanged(form, self.any_identifier(text))
                for other in words:
                    if other != text:
                        yield f'`{text}` may also be `{other}`', exchanged(form, self.also_word(text, other))
            elif kind == 'mark':
                for other in LIKE.get(text, []):
                    yield f'`{text}` may also be `{other}`', exchanged(form, self.also_mark(text, other))
            elif kind == 'group':
                for other in DELIMITERS:
                    if other != text:
                        name = DELIMITERS.get(text, 'the invisible group')
                        yield f'{name} may also be {DELIMITERS[other]}', exchanged(form, self.also_group(text, other))
        yield from self.of_names(form, words)

    def fixed_tokens(self, form):
        for _, part in places(form):
            if part[0] == 'token' and part[2][0] == 'word':
                yield 'word', part[2][1]
            elif part[0] == 'mark':
                yield 'mark', part[2]
            elif part[0] == 'rest_after':
                yield 'mark', part[1]
            elif part[0] in ('inside', 'raw'):
                yield 'group', part[1][0]

    def any_identifier(self, text):
        looks = any_of([('at_name',)] + [('at_word', w) for w in self.words])

        def change(value):
            if value == ('at_word', text):
                return looks
            if value[0] == 'token' and value[2] == ('word', text):
                return value[:2] + (('identifier',),)
            return None
        return change

    def also_word(self, text, other):
        def change(value):
            if value == ('at_word', text):
                return either(value, ('at_word', other))
            if value[0] == 'token' and value[2] == ('word', text):
                return ('either', value, value[:2] + (('word', other),))
            return None
        return change

    def also_mark(self, text, other):
        def change(value):
            if value == ('at_mark', text):
                return either(value, ('at_mark', other))
            if value[0] == 'mark' and value[2] == text:
                # the longer one first: the spacing of the last character isn't looked at
                return ('either', *sorted([value, ('mark', value[1], other)], key=lambda m: -len(m[2])))
            return None
        return change

    def also_group(self, text, other):
        def change(value):
            if value == ('at_group', (text,)):
                return either(value, ('at_group', (other,)))
            if value[0] in ('inside', 'raw') and value[1] == (text,):
                return ('either', value, (value[0], (other,)) + value[2:])
            return None
        return change

    def of_names(self, form, words):
        """Names that may be keywords, or may not be a word that is a keyword in some places alone."""
        for path, part in places(form):
            if part[0] != 'token' or part[2][0] not in ('name', 'name_or'):
                continue
            known = part[2][1] if part[2][0] == 'name_or' else ()
            comes = self.comes_there(form, path)
            if any(comes(('Word', word)) for word in self.lookaheads.keywords if word not in known):
                yield f'{self.name(part)} may be any identifier', put(form, path, part[:2] + (('identifier',),))
            for word in unique(KEYWORDS + words):
                if word not in known and word not in self.lookaheads.contextual and comes(('Word', word)):
                    yield f'{self.name(part)} may also be `{word}`', put(form, path, part[:2] + (('name_or', known + (word,)),))
            for word in known:
                rest = tuple(w for w in known if w != word)
                yield f'{self.name(part)} may not be `{word}`', put(form, path, part[:2] + (('name_or', rest) if rest else ('name',),))
            for word in self.lookaheads.contextual:
                yield f'{self.name(part)} may not be `{word}`', put(form, path, ('when', ('at_word', word), NEVER, part))
            if comes(('Literal', ('Int',))) or comes(('Literal', ('Str',))):
                yield f'{self.name(part)} may also be a literal', put(form, path, ('either', part, part[:2] + (('literal_of', (('Int',), ('Str',))),)))

    def comes_there(self, form, path):
        """Whether the token at this place may be tried on a terminal: not where a choice that begins with the token has tested for it."""
        guard = self.guard(form, path)
        return lambda terminal: guard is None or terminal in guard

    # SENTENCES

    def name(self, form):
        """A part in a few words."""
        kind = form[0]
        if kind == 'empty':
            return 'nothing'
        if kind == 'token':
            token = form[2]
            return f'`{token[1]}`' if token[0] == 'word' else {'name': 'the name', 'identifier': 'the identifier', 'name_or': 'the name or word',
                                                              'literal_of': 'the literal', 'index': 'the field number'}[token[0]]
        if kind == 'mark':
            return f'`{form[2]}`'
        if kind == 'rule':
            return form[1][0]
        if kind in ('inside', 'raw'):
            return f'the group {DELIMITERS[form[1][0]]}' if form[1][0] in DELIMITERS else 'the invisible group'
        if kind == 'one_of':
            return 'one of ' + ', '.join(k[0] for k in form[1]) if form[1] else 'a refusal'
        if kind == '&':
            return ' and '.join(self.name(p) for p in members(form))
        if kind == 'when':
            return f'({self.name(form[2])} or {self.name(form[3])})'
        if kind == 'vanishing':
            return f'the optional {self.name(form[3])}'
        inner = [self.name(form[n]) for n in children(form)]
        return f'{kind} {" and ".join(inner)}'.strip()

    def look_name(self, look):
        names = {look: name for name, look in self.lookaheads.source.looks.items()}
        if look in names:
            return names[look]
        if look[0] in JOINED:
            return f'({self.look_name(look[1])} {look[0]} {self.look_name(look[2])})'
        return ' '.join([look[0], *(x if isinstance(x, str) else x[0] for x in look[1:])])
