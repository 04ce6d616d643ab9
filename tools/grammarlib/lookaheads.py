"""The front of a stream: terminals, the facts of a lookahead, and looks (as specs/Tokens.antt defines them).

A terminal is ('Ended',), ('Name',), ('Word', text), ('Punctuation', text), ('Literal', kind) or ('Delimited', delimiter, empty), where
`empty` says that it is an invisible group without content.
A lookahead is a terminal and its facts.
"""

from functools import lru_cache

ENDED, NAME = ('Ended',), ('Name',)
NEVER = ('one_of', ())
EMPTY = ('empty',)
INVISIBLE = ('None',)
JOINED = ('or_else', 'and_also', 'but_not')


def unique(items):
    """The items in their order, each once."""
    return list(dict.fromkeys(items))


def parts(look):
    """The two looks that a joined look is made of."""
    return look[1:] if look[0] in JOINED else ()


def group_terminals(delimiter):
    """The terminals that a group with this delimiter may have."""
    return [('Delimited', delimiter, empty) for empty in ([False, True] if delimiter == INVISIBLE else [False])]


@lru_cache(maxsize=None)
def mentions_fact(look):
    return look[0] == 'ahead' or any(map(mentions_fact, parts(look)))


@lru_cache(maxsize=None)
def occurs(part, look):
    return look == part or any(occurs(part, x) for x in parts(look))


def barred(off, look):
    """It is taken out of the look already."""
    return look[0] == 'but_not' and (look[2] == off or barred(off, look[1]))


class Lookaheads:
    """Terminals and looks, by the words, marks and facts of the specifications."""

    def __init__(self, source):
        self.source = source
        self.keywords = list(source.value('keywords'))
        self.contextual = list(source.value('contextual'))
        self.long_marks = list(source.value('long_marks'))
        self.lifetime_mark = source.value('lifetime_mark')
        self.all_facts = [(n,) for n in source.facts]
        self.at_generics = source.looks['at_generics']
        self.at_parameter = source.looks['at_parameter']
        self.asked_of, self.terminals_of = {}, {}

    # LOOKS

    def terminal_answers(self, look, terminal):
        kind = look[0]
        if kind == 'ended':
            return terminal == ENDED
        if kind == 'at_name':
            return terminal == NAME or (terminal[0] == 'Word' and terminal[1] in self.contextual)
        if kind == 'at_word':
            return terminal == ('Word', look[1])
        if kind == 'at_mark':
            return terminal[0] == 'Punctuation' and terminal[1].startswith(look[1])
        if kind == 'at_literal':
            return terminal == ('Literal', look[1])
        if kind == 'at_group':
            return terminal[:2] == ('Delimited', look[1])
        if kind == 'at_empty_group':
            return terminal == ('Delimited', INVISIBLE, True)
        raise ValueError(f'unknown look {look}')

    def may(self, look, terminal):
        """Some lookahead with this terminal meets the look."""
        kind = look[0]
        if kind == 'ahead':
            return True
        if kind == 'or_else':
            return self.may(look[1], terminal) or self.may(look[2], terminal)
        if kind == 'and_also':
            return self.may(look[1], terminal) and self.may(look[2], terminal)
        if kind == 'but_not':
            return self.may(look[1], terminal) and not self.must(look[2], terminal)
        return self.terminal_answers(look, terminal)

    def must(self, look, terminal):
        """Every lookahead with this terminal meets the look."""
        kind = look[0]
        if kind == 'ahead':
            return False
        if kind == 'or_else':
            return self.must(look[1], terminal) or self.must(look[2], terminal)
        if kind == 'and_also':
            return self.must(look[1], terminal) and self.must(look[2], terminal)
        if kind == 'but_not':
            return self.must(look[1], terminal) and not self.may(look[2], terminal)
        return self.terminal_answers(look, terminal)

    def answers(self, look, lookahead):
        kind = look[0]
        if kind == 'ahead':
            return look[1] in lookahead[1]
        if kind == 'or_else':
            return self.answers(look[1], lookahead) or self.answers(look[2], lookahead)
        if kind == 'and_also':
            return self.answers(look[1], lookahead) and self.answers(look[2], lookahead)
        if kind == 'but_not':
            return self.answers(look[1], lookahead) and not self.answers(look[2], lookahead)
        return self.terminal_answers(look, lookahead[0])

    # NOTES

    def asked(self, terminal):
        """The conditions of a token with this terminal on the lookahead after it: pairs of a look and the fact that it sets."""
        if terminal not in self.asked_of:
            value = terminal if terminal[0] not in ('Word', 'Punctuation') else (terminal[0], tuple(terminal[1].encode()))
            self.asked_of[terminal] = [(p[1], p[2]) for p in self.source.value('asked', value)]
        return self.asked_of[terminal]

    def asked_inside(self, delimiter):
        return [(p[1], p[2]) for p in self.source.value('asked_inside', delimiter)]

    def group_lookahead(self, delimiter, lookahead):
        """The lookahead of a group whose content has this lookahead."""
        empty = delimiter == INVISIBLE and lookahead[0] == ENDED
        return ('Delimited', delimiter, empty), self.facts_for(self.asked_inside(delimiter), lookahead)

    def facts_for(self, asked, lookahead):
        return [n for look, n in asked if self.answers(look, lookahead)]

    def leaf_terminal(self, text):
        return ('Word', text) if text in self.keywords or text in self.contextual else NAME

    def join(self, character, terminal):
        """The terminal of a Joint character before this terminal."""
        if terminal[0] == 'Punctuation':
            text = character + terminal[1]
            for mark in self.long_marks:
                if text.startswith(mark):
                    return ('Punctuation', mark)
        if terminal[0] in ('Name', 'Word') and character == self.lifetime_mark[0]:
            return ('Punctuation', self.lifetime_mark)
        return ('Punctuation', character)

    def punctuation_lookahead(self, character, joint, lookahead):
        """The lookahead of a punctuation character before this lookahead."""
        terminal = self.join(character, lookahead[0]) if joint else ('Punctuation', character)
        if len(terminal[1]) == 1:
            return terminal, self.facts_for(self.asked(('Punctuation', character)), lookahead)
        if len(terminal[1]) == 2 and character == ':':
            return terminal, lookahead[1] if lookahead[0][0] == 'Punctuation' and len(lookahead[0][1]) == 1 else []
        return terminal, []

    # TERMINAL OF TOKENS AND MARKS

    def terminals(self, kind):
        """The terminals that a token of this kind may have."""
        if kind not in self.terminals_of:
            raw = kind
            if kind[0] == 'word':
                raw = ('word', tuple(kind[1].encode()))
            elif kind[0] == 'name_or':
                raw = ('name_or', tuple(tuple(x.encode()) for x in kind[1]))
            self.terminals_of[kind] = list(self.source.value('terminals', raw))
        return self.terminals_of[kind]

    def beginning(self, text):
        return [('Punctuation', m) for m in [self.lifetime_mark] + self.long_marks if m.startswith(text)]

    def mark_first_set(self, text):
        """The terminals that a mark may be seen with, depending on what follows it."""
        if len(text) == 1:
            return [('Punctuation', text)] + self.beginning(text)
        return [self.join(text[0], f) for f in self.mark_first_set(text[1:])]

    def mark_terminal(self, text):
        """The terminal of a mark that is seen whole, as it is printed."""
        return ('Punctuation', text) if len(text) == 1 else self.join(text[0], self.mark_terminal(text[1:]))

    # A LOOK IN SOURCE AND PRINT

    def deaf(self, character, look):
        """No mark that meets the look continues a mark from this character."""
        kind = look[0]
        if kind == 'at_mark':
            return not any(mark.startswith(character + look[1][0]) for mark in self.long_marks)
        if kind == 'ahead':
            return False
        if kind == 'or_else':
            return self.deaf(character, look[1]) and self.deaf(character, look[2])
        if kind == 'and_also':
            return self.deaf(character, look[1]) or self.deaf(character, look[2])
        return self.deaf(character, look[1]) if kind == 'but_not' else True

    def decided(self, look, a, b):
        return (self.must(look, a) and self.must(look, b)) or not (self.may(look, a) or self.may(look, b))

    def agree(self, look, a, b, known):
        """The look holds of both or of neither of two lookaheads with these terminals that agree in these facts."""
        if look[0] == 'ahead':
            return look[1] in known
        return self.decided(look, a, b) or (look[0] in JOINED and all(self.agree(x, a, b, known) for x in parts(look)))

    def stays_off(self, look, a, b, known):
        """Where a lookahead with the first terminal doesn't meet the look, one with the second doesn't either."""
        return self.must(look, a) or not self.may(look, b) or self.agree(look, a, b, known)

    def surely(self, asks, after, look, terminal):
        """A lookahead with this terminal meets the look, where one of the terminals `after` follows it."""
        kind = look[0]
        if kind == 'ahead':
            return False
        if kind == 'or_else':
            return self.surely(asks, after, look[1], terminal) or self.surely(asks, after, look[2], terminal)
        if kind == 'and_also':
            return self.surely(asks, after, look[1], terminal) and self.surely(asks, after, look[2], terminal)
        if kind == 'but_not':
            return self.surely(asks, after, look[1], terminal) and self.hardly(asks, after, look[2], terminal)
        return self.must(look, terminal)

    def hardly(self, asks, after, look, terminal):
        """A lookahead with this terminal doesn't meet the look, where one of the terminals `after` follows it."""
        kind = look[0]
        if kind == 'ahead':
            return all(n != look[1] or not any(self.may(c, e) for e in after) for c, n in asks)
        if kind == 'or_else':
            return self.hardly(asks, after, look[1], terminal) and self.hardly(asks, after, look[2], terminal)
        if kind == 'and_also':
            return self.hardly(asks, after, look[1], terminal) or self.hardly(asks, after, look[2], terminal)
        if kind == 'but_not':
            return self.hardly(asks, after, look[1], terminal) or self.surely(asks, after, look[2], terminal)
        return not self.may(look, terminal)
