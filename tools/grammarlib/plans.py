"""The plans of unions, as in the specifications but without values: trees of what is read, where it branches and how it ends.

A plan is a tuple: ('reads', form, plan), ('apart', form, plan) (the same, of which no form is made with what follows), ('turns', look, plan, plan), ('tests', test, plan, plan), ('ends',), ('done',), ('fails',),
('then', plan, form) (a plan and a form after it), ('lists', plan) (generics of an impl, and what follows), and ('self', plan) (the self
type of an impl, and what follows)."""
import re

from . import antt

FILES = ['ItemPlan', 'MemberPlans', 'StatementPlans', 'SmallPlans', 'AlonePlans']
WORDS = ('reads', 'apart', 'turns', 'tests', 'keeps', 'ends', 'done', 'fails')


class Plans:
    def __init__(self, source, more=''):
        self.source = source
        self.clauses = {}
        self.forms = {}
        for file in FILES:
            self.read((source.crate / 'specs' / f'{file}.antt').read_text())
        known, self.clauses = self.clauses, {}
        self.read(more)
        self.clauses = {**known, **self.clauses}
        self.places = ('public', 'unwritten', 'plain')
        self.reader, self.called = Reader, set()

    def read(self, text):
        for _, _, body in antt.declarations(text):
            if re.match(r'(use|pub data|infix|pub record)\b', body):
                continue
            signature = re.match(r'(?:abbrev pub|unfoldable pub) (\S+) : (.*)', body, re.S)
            if signature:
                if signature[2].strip() in ('Look', 'Grammar'):
                    self.forms[signature[1]] = None
                continue
            if ' =' not in body:
                continue
            left, right = re.split(r'\s=(?:\s|$)', body, maxsplit=1)
            head, *patterns = antt.lexemes(left)
            if head in self.forms:
                self.forms[head] = antt.Expressions(antt.lexemes(right), head).whole()
            elif head.endswith('_plan') or any(w in antt.lexemes(right) for w in WORDS) or head.startswith(('kept_', 'impl_', 'after_', 'item_')):
                self.clauses.setdefault(head, []).append((patterns, antt.lexemes(right)))

    def plan(self, name):
        return self.call(name, [], {})

    # EVALUATION

    def call(self, name, arguments, names):
        """A plan by its name and the texts of its arguments, each with what its names mean."""
        self.called.add(name)
        for patterns, words in self.clauses[name]:
            inner, fits = {}, len(patterns) == len(arguments)
            for pattern, argument in zip(patterns, arguments):
                if pattern in self.places:
                    fits = fits and argument == (pattern,)
                inner[pattern] = argument
            if fits:
                return self.reader(self, list(words), inner).whole()
        raise antt.Fault(f'no clause of {name} fits {arguments}')

    def value(self, words):
        names = {k: (k,) for k in self.source.rules}
        for name, body in self.forms.items():
            if body is not None and name in words:
                names[name] = self.value_of(body)
        return antt.simple(self.source.evaluator.evaluate(antt.Expressions(words, 'a plan').whole(), names, 'a plan'))

    def value_of(self, body):
        names = {k: (k,) for k in self.source.rules}
        for name, other in self.forms.items():
            if other is not None and other is not body and name in str(body):
                names[name] = self.value_of(other)
        return self.source.evaluator.evaluate(body, names, 'a plan')


class Reader:
    def __init__(self, plans, words, names):
        self.plans, self.words, self.at, self.names = plans, words, 0, names

    def whole(self):
        found = self.plan()
        assert self.at == len(self.words), (self.words, self.at)
        return found

    def next(self):
        self.at += 1
        return self.words[self.at - 1]

    def skip(self):
        """The words of one atom."""
        begin, depth = self.at, 0
        while True:
            word = self.next()
            depth += {'(': 1, ')': -1}.get(word, 0)
            if depth == 0:
                return self.words[begin:self.at]

    def atom_plan(self):
        if self.words[self.at] == '(':
            self.at += 1
            found = self.plan()
            assert self.next() == ')', self.words[self.at - 5:self.at + 5]
            return found
        word = self.next()
        return self.named(word, [])

    def form(self):
        return self.plans.value(self.skip())

    def named(self, word, arguments):
        if word in ('done', 'fails'):
            return (word,)
        if word in self.names:
            meaning = self.names[word]
            if meaning[0] == 'partial':
                return self.plans.call(meaning[1], [*meaning[2], *arguments], {})
            assert not arguments, word
            return meaning[1]
        return self.plans.call(word, arguments, {})

    def argument(self):
        """A place, a plan, a function to plans, or a value (dropped)."""
        begin = self.at
        words = self.skip()
        inner = words[1:-1] if words[0] == '(' else words
        head = inner[0]
        if len(words) == 1 and head in self.names:
            return self.names[head]
        if head in self.plans.places:
            return (head,)
        if head in self.plans.clauses:
            wanted = len(self.plans.clauses[head][0][0])
            given = type(self)(self.plans, inner[1:], self.names).arguments()
            return ('partial', head, given) if len(given) < wanted else ('plan', self.plans.call(head, given, {}))
        if head == 'fails':
            return ('plan', ('fails',))
        del begin
        return ('value',)

    def arguments(self):
        found = []
        while self.at < len(self.words) and self.words[self.at] != ')':
            found.append(self.argument())
        return found

    def plan(self):
        word = self.next()
        if word == '(':
            self.at -= 1
            return self.atom_plan()
        if word in ('reads', 'apart'):
            form = self.form()
            assert self.next() == 'λ'
            self.next()
            return ('reads', form, self.plan()) if word == 'reads' else ('apart', form, self.plan())
        if word == 'turns':
            look = self.form()
            return ('turns', look, self.atom_plan(), self.atom_plan())
        if word == 'tests':
            test = self.form()
            self.skip()
            return ('tests', test, self.atom_plan(), self.atom_plan())
        if word == 'keeps':
            return self.atom_plan()
        if word == 'ends':
            self.skip()
            return ('ends',)
        if word in ('lists', 'self'):
            return (word, self.atom_plan())
        if word == 'then':
            return ('then', self.atom_plan(), self.form())
        return self.named(word, self.arguments())


def endings(plan):
    """How a plan may end, and what it needs its beginning or its number for."""
    kind = plan[0]
    if kind == 'reads':
        return endings(plan[2])
    if kind == 'apart':
        return {'apart'} | endings(plan[2])
    if kind == 'turns':
        return endings(plan[2]) | endings(plan[3])
    if kind == 'tests':
        return {'tests'} | endings(plan[2]) | endings(plan[3])
    if kind == 'then':
        return {'then'} | endings(plan[1])
    if kind in ('lists', 'self'):
        return {kind} | endings(plan[1])
    if kind in ('impl', 'alone'):
        return {'lists'}
    return {kind} - {'fails'}


def flat(plan):
    """The form that reads as a plan whose end says nothing more."""
    kind = plan[0]
    if kind == 'reads':
        return ('&', plan[1], flat(plan[2]))
    if kind == 'turns':
        return ('when', plan[1], flat(plan[2]), flat(plan[3]))
    return ('one_of', ()) if kind == 'fails' else ('empty',)


def course(plan):
    """The plan with its ends as forms: ('rest', form) where it is known that it is of a kind, ('kept', form) where it is kept."""
    ends = endings(plan)
    if ends <= {'ends'}:
        return ('rest', flat(plan))
    if ends <= {'done'}:
        return ('kept', flat(plan))
    kind = plan[0]
    if kind == 'reads':
        if plan[2][:2] == ('tests', ('has', ('root_mark',))):
            return ('rooted', course(plan[2][2]), course(plan[2][3]))
        return ('reads', plan[1], course(plan[2]))
    if kind == 'apart':
        return ('reads', plan[1], course(plan[2]))
    if kind == 'turns':
        return (kind, plan[1], course(plan[2]), course(plan[3]))
    if kind == 'then':
        return ('then', course(plan[1]), plan[2])
    return (kind, course(plan[1]))


# PROOFS that a course goes as its plan

NOTHING = ('none',)


def both(parts):
    if not parts:
        return NOTHING
    return parts[0] if len(parts) == 1 else ('both', parts[0], both(parts[1:]))


class Values:
    """What the values at a plan's ends are made of: pieces that were read, one after the other. A name means its parts and its text."""

    def __init__(self, names):
        self.names = names

    def of(self, e):
        kind = e[0]
        if kind == 'parentheses':
            return self.of(e[1])
        if kind == 'name':
            if e[1] in ('absent', 'hidden', 'inherited', 'no_clause', 'Nothing'):
                return NOTHING
            return self.names[e[1]][1]
        if kind == 'apply':
            head, arguments = e[1][1], e[2]
            if head == 'untag':
                piece = self.of(arguments[0])
                assert piece[0] == 'piece', e
                return ('untagged', piece[1])
            if head in ('Left', 'Right', 'Node', 'Such', 'parts'):
                return both(self.list_of(arguments[0])) if head == 'parts' else self.of(arguments[0])
            if head in ('item_of', 'Both'):
                return both([self.of(x) for x in arguments[-2:]])
            if head == 'member_of':
                return both(self.list_of(arguments[1]))
            if head == 'impl_of':
                return both([self.of(x) for x in arguments[:5]])
            if head == 'crate_item':
                return ('both', self.of(arguments[0]), NOTHING)
            if head == 'crate_statement':
                return ('both', self.of(arguments[0]), self.of(arguments[1]))
        raise antt.Fault(f'no parts of {e}')

    def list_of(self, e):
        if e[0] == 'parentheses':
            return self.list_of(e[1])
        if e[0] == 'list':
            return []
        assert e[0] == 'infix' and e[1] == '∷', e
        return [self.of(e[2]), *self.list_of(e[3])]

    def text(self, words):
        return ' '.join(self.names[x][2] if x in self.names and self.names[x][0] == 'value' else x for x in words)


class Prover(Reader):
    """Reads a plan with its values: ('reads', form, plan, number), ('ends', parts, text), ('impl', parts, texts) (an impl after its word)."""
    count = 0

    def plan(self):
        word = self.words[self.at]
        if word == 'reads':
            self.at += 1
            form = self.form()
            assert self.next() == 'λ'
            Prover.count += 1
            name, number = self.next().rstrip('.'), Prover.count
            inner = Prover(self.plans, self.words, {**self.names, name: ('value', ('piece', f'x{number}'), f'x{number}')})
            inner.at = self.at
            plan = inner.plan()
            self.at = inner.at
            return ('reads', form, plan, number)
        if word == 'ends':
            self.at += 1
            words = self.skip()
            values = Values(self.names)
            return ('ends', values.of(antt.Expressions(words, 'a value').whole()), values.text(words))
        if word == 'tests':
            self.at += 1
            test = self.form()
            self.skip()
            return ('tests', test, self.atom_plan(), self.atom_plan())
        if word == 'turns' and self.words[self.at + 1] == 'at_generics' and 'plain_types' in self.words[self.at:]:
            self.at += 2
            self.skip()
            given = [self.names[x] for x in self.skip()[2:6]]
            return ('alone', both([x[1] for x in given]), [x[2] for x in given])
        if word == 'impl_generics':
            self.at += 1
            given = self.arguments()
            return ('impl', both([x[1] for x in given]), [x[2] for x in given])
        return super().plan()

    def argument(self):
        begin = self.at
        found = super().argument()
        if found == ('value',):
            words, values = self.words[begin:self.at], Values(self.names)
            text = values.text(words)
            return ('value', values.of(antt.Expressions(words, 'a value').whole()), text if len(words) == 1 else f'({text})' if words[0] != '(' else text)
        return found


def parts_text(it):
    if it == NOTHING:
        return 'none'
    return f'({it[0]} {it[1]})' if it[0] in ('piece', 'untagged') else f'(both {parts_text(it[1])} {parts_text(it[2])})'


def behind(parts, piece):
    """These parts, and a piece after them."""
    return both([*(parts_in(parts)), piece])


def parts_in(parts):
    return [parts[1], *parts_in(parts[2])] if parts[0] == 'both' else [parts]


class Proofs:
    """The proof that a course goes as a plan, in one of the two ways of writing."""

    def __init__(self, way):
        self.way, self.turns, self.lone = way, 0, []

    def turn(self):
        self.turns += 1
        return f's{self.turns}'

    def of(self, plan, at):
        ends = endings(plan)
        if ends <= {'ends'}:
            return self.flat(plan, at)
        if ends <= {'done'}:
            return self.kept(plan)
        kind = plan[0]
        if kind == 'impl':
            value = ' ∷ '.join([*plan[2][1:], 'z', '[]'])
            return f'item_impl_meets {self.way} (λ z. item_of impl_definition {plan[2][0]} (parts ({value}))) _ {at} (λ z. text_after {self.way} end {parts_text(behind(plan[1], ("piece", "z")))})'
        if kind == 'alone':
            value = ' ∷ '.join([*plan[2], 'z', '[]'])
            return f'alone_impl_meets {self.way} (λ z. Node (parts ({value}))) _ {at} (λ z. text_after {self.way} end {parts_text(behind(plan[1], ("piece", "z")))})'
        if kind == 'reads':
            n = plan[3]
            if plan[2][0] == 'tests':
                one, other = self.of(plan[2][2], f'r{n}'), self.of(plan[2][3], f'r{n}')
                return f'rooted_meets {self.way} _ _ _ _ _ {at} (λ x{n} r{n} e{n}. {one}) (λ x{n} r{n} e{n}. {other})'
            if 'tests' in ends and plan[1] == ('rule', ('where_clause',)):
                return self.clause(plan, at)
            return f'(refl, λ x{n} r{n} e{n}. {self.of(plan[2], f"r{n}")})'
        assert kind == 'turns', plan
        return f'(refl, {self.both_turns(plan, at, self.of)})'

    def both_turns(self, plan, at, of):
        one, other = self.turn(), self.turn()
        is_lone = 'Lone_word' in str(plan[1])
        self.lone += [one] * is_lone
        first = of(plan[2], at)
        self.lone = self.lone[:-1] if is_lone else self.lone
        return f'(λ {one}. {first}, λ {other}. {of(plan[3], at)})'

    def clause(self, plan, at):
        """A type alias from its first where clause on: it may be verbatim after it, or ends there."""
        name, equals = ('clause_meets', plan[2][2]) if plan[2][0] == 'turns' else ('alone_clause_meets', plan[2])
        kind, clause = equals[2], equals[2][2]
        end = clause[2][2]
        names = ' '.join(f'x{n}' for n in (plan[3], equals[3], kind[3], clause[3], end[3]))
        return f'{name} {self.way} (λ {names}. {end[2][2]}) _ {at} (λ {names}. text_after {self.way} end {parts_text(end[2][1])})'

    def flat(self, plan, at):
        if plan[0] == 'reads':
            n = plan[3]
            return f'(refl, (refl, λ x{n} r{n} e{n}. {self.flat(plan[2], f"r{n}")}))'
        if plan[0] == 'turns':
            return f'(refl, {self.both_turns(plan, at, self.flat)})'
        if plan[0] == 'fails':
            return 'refl'
        if plan[2].lstrip('( ').startswith('impl_of '):
            return f'(refl, {self.lone_end(plan)})'
        return f'(refl, text_after {self.way} end {parts_text(plan[1])})'

    def lone_end(self, plan):
        """The end of an impl of a type of one word in parentheses, which has no generics."""
        words = re.findall(r'x\d+', plan[2])
        attributes, word, kind, body = (int(x[1:]) for x in words)
        value = f'item_of impl_definition x{attributes} (parts (absent ∷ absent ∷ absent ∷ x{word} ∷ z ∷ []))'
        before = both([('piece', f'x{attributes}'), NOTHING, NOTHING, NOTHING, ('piece', f'x{word}'), ('piece', 'z')])
        return f'lone_text {self.way} (λ z. {value}) _ _ _ _ x{kind} x{body} (λ z. text_after {self.way} end {parts_text(before)}) {self.lone[-1]} e{kind} e{body}'

    def kept(self, plan):
        if plan[0] == 'reads':
            return f'(refl, (refl, λ x{plan[3]}. {self.kept(plan[2])}))'
        if plan[0] == 'turns':
            return f'(refl, ({self.kept(plan[2])}, {self.kept(plan[3])}))'
        return 'refl'
