"""Reads the small part of Antt that the grammar's specifications are written in, and evaluates it.

A file is a list of definitions. Each has clauses `name patterns = expression`, where an expression is made of names,
numbers, application, lists, pairs and the infix words that the specifications declare. Clauses that need more (a lambda, a record)
are kept unread, and are refused only where somebody evaluates them.

Values: a number is an int; a list is a tuple of values; a constructor is a tuple of its name and its arguments.
"""
import re
from dataclasses import dataclass, field

# infix words: how strongly they bind (all to the right)
INFIX = {'∷': 5, '++': 6, 'or_else': 30, 'and_also': 35, 'but_not': 35, '&': 40}
WHEN = 35  # how strongly `when .. then .. else` binds to its last part

LEXEME = re.compile(r'--[^\n]*|[(),{}\[\];]|\[\]|[^\s(),{}\[\];]+')


class Fault(Exception):
    """Something in a file that can't be read; the message says where and why."""


@dataclass
class Definition:
    name: str
    file: str
    line: int
    type: str = ''
    comment: str = ''
    clauses: list = field(default_factory=list)


@dataclass
class Clause:
    patterns: list
    body: object  # an expression, or the Fault that says why it can't be read
    comment: str
    line: int


def lexemes(text):
    """The words of a text, without comments; `[` `]` together are one word."""
    words = [w for w in LEXEME.findall(text) if not w.startswith('--')]
    joined = []
    for word in words:
        if word == ']' and joined and joined[-1] == '[':
            joined[-1] = '[]'
        else:
            joined.append(word)
    return joined


class Expressions:
    """A parser of expressions over a list of words."""

    def __init__(self, words, where):
        self.words, self.at, self.where = words, 0, where

    def peek(self):
        return self.words[self.at] if self.at < len(self.words) else None

    def next(self):
        self.at += 1
        return self.words[self.at - 1]

    def want(self, word):
        if self.peek() != word:
            raise Fault(f'{self.where}: `{word}` is expected at `{self.peek() or "the end"}`')
        self.at += 1

    def whole(self):
        expression = self.infix(0)
        if self.peek() is not None:
            raise Fault(f'{self.where}: `{self.peek()}` is left over')
        return expression

    def infix(self, least):
        if self.peek() == 'when':
            if least > WHEN:
                raise Fault(f'{self.where}: put `when .. then .. else` into parentheses here')
            return self.when()
        left = self.application()
        while self.peek() in INFIX and INFIX[self.peek()] >= least:
            word = self.next()
            right = self.infix(INFIX[word])
            self.no_mixture(word, right)
            left = ('infix', word, left, right)
        return left

    def no_mixture(self, word, right):
        """`a but_not b and_also c` would mean `a but_not (b and_also c)`, which nobody expects."""
        pair = {'and_also', 'but_not'}
        if word in pair and right[0] == 'infix' and right[1] in pair and (word, right[1]) != ('and_also', 'and_also'):
            raise Fault(f'{self.where}: `{word}` and `{right[1]}` bind alike, to the right: write the parentheses that are meant')

    def when(self):
        self.want('when')
        look = self.infix(0)
        self.want('then')
        yes = self.infix(0)
        self.want('else')
        return ('when', look, yes, self.infix(WHEN))

    def application(self):
        head = self.atom()
        arguments = []
        while self.peek() is not None and self.peek() not in INFIX and self.peek() not in (')', ',', 'then', 'else', '='):
            arguments.append(self.atom())
        return ('apply', head, arguments) if arguments else head

    def atom(self):
        word = self.peek()
        if word is None:
            raise Fault(f'{self.where}: an expression is wanted at the end')
        if word == '(':
            return self.parentheses()
        if word in INFIX or word in (')', ',', 'then', 'else', '=', '{', '}', 'λ', 'let', 'elim', 'record', 'when'):
            raise Fault(f'{self.where}: `{word}` can\'t be read here')
        self.next()
        if word.isdigit():
            return ('number', int(word))
        return ('list',) if word == '[]' else ('name', word)

    def parentheses(self):
        self.want('(')
        parts = [self.infix(0)]
        while self.peek() == ',':
            self.next()
            parts.append(self.infix(0))
        self.want(')')
        return ('parentheses', parts[0]) if len(parts) == 1 else ('pair', parts)


def declarations(text):
    """The declarations of a file: (line number, comment before it, text with its indented lines)."""
    found, comment, lines = [], [], text.split('\n')
    for number, line in enumerate(lines, 1):
        if line.startswith('--'):
            comment.append(line[2:].strip())
        elif not line.strip():
            comment = []
        elif line[0] in ' \t':
            if found:
                found[-1][2] += '\n' + line
        else:
            found.append([number, ' '.join(comment).strip(), line])
            comment = []
    return found


def read(path, name):
    """The definitions of a file, by name, and its constructors."""
    definitions, constructors = {}, set()
    for line, comment, text in declarations(path.read_text()):
        where = f'{name}, line {line}'
        if text.startswith(('use ', 'infix', 'pub mod')):
            continue
        if text.startswith('pub data'):
            for constructor in re.findall(r'^  (?!--)([^:\n]+?) :', text, re.M):
                constructors.update(x.strip('◌').replace('◌', ' ') for x in constructor.split())
            continue
        signature = re.match(r'(?:abbrev pub|abbrev|unfoldable pub|unfoldable|pub) (\S+) : (.*)', text, re.S)
        if signature:
            known = definitions.setdefault(signature[1], Definition(signature[1], name, line))
            known.type, known.comment = signature[2].strip(), comment
            continue
        if ' =' not in text:
            continue
        left, right = re.split(r'\s=\s', text + ' ', maxsplit=1) if re.search(r'\s=\s', text + ' ') else (text, '')
        head, *patterns = lexemes(left) or ['']
        try:
            patterns = pattern_list(patterns, where)
            body = Expressions(lexemes(right), where).whole()
        except Fault as fault:
            body = fault
        definitions.setdefault(head, Definition(head, name, line)).clauses.append(Clause(patterns, body, comment, line))
    return definitions, constructors


def pattern_list(words, where):
    parser, patterns = Expressions(words, where), []
    while parser.peek() is not None:
        patterns.append(parser.atom())
    return patterns


class Evaluator:
    """Evaluates expressions by the definitions of some files. A name that nothing defines is a Fault.

    `rules` are names too, but not in patterns: forms that have a name call rules."""

    def __init__(self, definitions, constructors, rules=()):
        self.definitions = definitions
        self.constructors = constructors | {'true', 'false'}
        self.rules = set(rules)
        self.memo = {}
        self.known = {
            'nat_eq': lambda a, b: ('true',) if a == b else ('false',),
            'map': lambda f, l: tuple(self.apply(f, [x], 'map') for x in l),
        }

    def value(self, name, *arguments):
        return self.apply(self.name(name, {}, name), list(arguments), name)

    def evaluate(self, e, names, where):
        if isinstance(e, Fault):
            raise e
        kind = e[0]
        if kind == 'number':
            return e[1]
        if kind == 'list':
            return ()
        if kind == 'parentheses':
            return self.evaluate(e[1], names, where)
        if kind == 'pair':
            return (',', *(self.evaluate(x, names, where) for x in e[1]))
        if kind == 'when':
            return ('when', *(self.evaluate(x, names, where) for x in e[1:]))
        if kind == 'infix':
            left, right = self.evaluate(e[2], names, where), self.evaluate(e[3], names, where)
            return (left,) + right if e[1] == '∷' else left + right if e[1] == '++' else (e[1], left, right)
        if kind == 'name':
            return self.name(e[1], names, where)
        return self.apply(self.evaluate(e[1], names, where), [self.evaluate(x, names, where) for x in e[2]], where)

    def name(self, name, names, where):
        if name in names:
            return names[name]
        if name in self.definitions:
            if name not in self.memo:
                definition = self.definitions[name]
                constant = definition.clauses and not definition.clauses[0].patterns
                self.memo[name] = self.evaluate(definition.clauses[0].body, {}, where) if constant else ('function', name)
            return self.memo[name]
        if name in self.constructors or name in self.rules:
            return (name,)
        if name in self.known:
            return ('function', name)
        raise Fault(f'{where}: nothing is named `{name}`')

    def apply(self, function, arguments, where):
        if not arguments:
            return function
        if function[0] != 'function':
            return function + tuple(arguments)
        name = function[1]
        if name in self.known:
            return self.known[name](*arguments)
        definition = self.definitions[name]
        for clause in definition.clauses:
            if len(clause.patterns) != len(arguments):
                raise Fault(f'{where}: `{name}` takes {len(clause.patterns)} arguments')
            names = self.match_all(clause.patterns, arguments)
            if names is not None:
                return self.evaluate(clause.body, names, f'{definition.file}, line {clause.line}')
        raise Fault(f'{where}: no clause of `{name}` fits')

    def match_all(self, patterns, values):
        names = {}
        for pattern, value in zip(patterns, values):
            if not self.match(pattern, value, names):
                return None
        return names

    def match(self, pattern, value, names):
        kind = pattern[0]
        if kind == 'parentheses':
            return self.match(pattern[1], value, names)
        if kind == 'list':
            return value == ()
        if kind == 'infix':  # x ∷ l
            is_list = isinstance(value, tuple) and value != () and not isinstance(value[0], str)
            return is_list and self.match(pattern[2], value[0], names) and self.match(pattern[3], value[1:], names)
        if kind == 'name':
            if pattern[1] in self.constructors:
                return value == (pattern[1],)
            names[pattern[1]] = value
            return True
        if kind == 'apply':
            head, arguments = pattern[1][1], pattern[2]
            return (isinstance(value, tuple) and len(value) == len(arguments) + 1 and value[0] == head
                    and all(self.match(p, v, names) for p, v in zip(arguments, value[1:])))
        return False


def names_in(expression):
    """The names in an expression."""
    if isinstance(expression, (list, tuple)):
        own = {expression[1]} if len(expression) == 2 and expression[0] == 'name' else set()
        return own.union(*map(names_in, expression))
    return set()


def simple(value):
    """A value with its texts as str and its truth values as bool."""
    if not isinstance(value, tuple) or value == ():
        return value
    if isinstance(value[0], str):
        if len(value) == 1 and value[0] in ('true', 'false'):
            return value[0] == 'true'
        return (value[0], *map(simple, value[1:]))
    if isinstance(value[0], int):
        return bytes(value).decode()
    return tuple(map(simple, value))
