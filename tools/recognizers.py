#!/usr/bin/env python3
"""Writes the table of the grammar as data of crates/syn_recognize: src/rules.rt, src/rules/*.rt, src/shape.rt, src/words.rt,
src/plan.rt, specs/Names.antt, specs/Parts.antt, specs/Stages.antt, proofs/Known.antt and proofs/PlannedCourses.antt.

Run it at the top of the repository; the written files are committed. With --check it writes nothing, and fails where a file
differs. It formats the files by `rt fmt`."""

import argparse
import re
import subprocess
import sys
import tempfile
import textwrap
from pathlib import Path

from grammarlib import plans
from grammarlib.source import Source
from tokens import DECLARATIONS, EXPRESSIONS, LONG_MARKS, MARKS, OTHERS

CRATE = Path('crates/syn_recognize')
GRAMMAR = Path('crates/syn_grammar')
WRITTEN = 'Written by tools/recognizers.py; edits are lost.'

# Rules that only the plan of their union reads, or nothing.
BY_PLANS = ['kept_item', 'kept_item_rest', 'kept_in_block', 'item_rest', 'kept_trait_item', 'kept_impl_item', 'kept_foreign_item', 'marked_member',
            'rooted_use', 'crate_macro_item', 'const_trait', 'const_impl', 'odd_const_impl']

# The files of rules: the name of each, its first rule, and its subject.
TOPICS = [
    ('attributes', 'attributes', 'Attributes, and paths in module style.'),
    ('visibilities', 'visibility', 'Visibilities.'),
    ('types', 'type_path', 'Paths in types, and types.'),
    ('generics', 'generics', 'Generics, bounds and where clauses.'),
    ('fields', 'fields_named', 'Fields and variants.'),
    ('inputs', 'structure', 'Structs, enums, unions, and the input of a derive.'),
    ('patterns', 'expression_path', 'Paths in expressions, macros and patterns.'),
    ('lists', 'expressions', 'Lists of expressions.'),
    ('blocks', 'block', 'Blocks, and expressions without prefixes and postfixes.'),
    ('postfixes', 'postfixes', 'Prefixes and postfixes of expressions.'),
    ('operators', 'casts', 'Operators, and whole expressions.'),
    ('heads', 'primary_head', 'Expressions in the heads of `if`, `while` and `for`.'),
    ('statements', 'operand_rest', 'Statements.'),
    ('signatures', 'no_attributes', 'Signatures and their parameters.'),
    ('items', 'function', 'Items.'),
    ('kept_items', 'bodiless_function', 'Items that are stored verbatim.'),
    ('traits', 'supertraits', 'Traits.'),
    ('impls', 'self_type', 'Impls.'),
    ('foreign', 'foreign_module', 'Foreign modules.'),
    ('trait_members', 'bare_trait_function', 'Members of traits.'),
    ('impl_members', 'impl_const', 'Members of impls.'),
    ('foreign_members', 'foreign_signature', 'Members of foreign modules.'),
    ('files', 'kept_item_rest', 'Any items, and files.'),
]

# The largest size of a static; a larger form is cut into parts with statics of their own. Rattle's own compiler refuses a type of 585 parts
# ("too much code for the backend's tables") and accepts one of 540; the type of a static has the parts of all forms, plans and looks in it.
LARGEST = 520
PARTS = {'Form': 47, 'Plan': 25, 'Look': 8}

# Rules with error messages of their own: at a form that is never read, and at a missing mark.
REFUSING = {'after_expression': 'MissingEnd', 'unnamed_field': 'DefaultValue', 'primary': 'BreakValue', 'primary_head': 'BreakValue'}
LACKING = {'statement': (';', 'MissingSemi'), 'statement_end': (';', 'MissingSemi')}

# A single statement, whose missing end is reported too.
UNENDED = ('&', ('rule', ('whole_expression',)), ('mark', False, ';'))

# Tokens and marks of rules where Rust accepts a form that the grammar leaves out: src/left_out.rt recognizes it.
PLACES = {
    ('expression_words', 'NameOrPathStart'): 'Expression', ('type_words', 'NameOrPathStart'): 'Type', ('more_type_words', 'NameOrPathStart'): 'Type', ('pattern', 'Name'): 'Pattern',
    ('member', 'Name'): 'Member', ('loop_expression', 'Word(Word::In)'): 'Following', ('local', 'Semi'): 'Following',
}

# Lists without which a part isn't printed, by their rules; src/fading.rt has the token before each.
FADING = {'lifetimes': 'Lifetimes', 'parameter_bounds': 'Bounds', 'predicates': 'Predicates', 'supertraits': 'Supertraits', 'type_bounds': 'TypeBounds'}

# Lists in `< >`, by their first members.
ORDERED = {('lifetime',): 'Arguments', ('rule', ('lifetime_parameter',)): 'Parameters'}

# Rules of parameters whose name may be left out; src/supplied.rt has what follows the name.
NAMELESS = {'argument': 'Argument', 'input_rest': 'Input'}

# Rules with a union, which is read by a plan (grammarlib/plans.py): by the specifications' plan, or by one of these.
PLANS = {'item': 'item_plan', 'trait_item': 'trait_item_plan', 'impl_item': 'impl_item_plan', 'foreign_item': 'foreign_item_plan', 'crate_macro': 'crate_macro_plan',
         'derive_input': 'derive_input_plan', 'statements': 'statements_list', 'statement': 'statement_alone', 'use_item_rest': 'use_alone', 'type_item_rest': 'type_alone',
         'impl_definition_rest': 'impl_alone'}
MORE_PLANS = '''
impl_generics a d c u k =
    lists (impl_types a d c u k absent)
impl_types a d c u k g =
    turns at_exclamation (reads (punctuation exclamation) λ x.
    turns at_brace (reads (rule impl_body) λ b. ends x)
    (turns at_module_path (reads (rule type_path) λ t. self (reads (rule impl_body) λ b. ends x))
    (keeps (reads (rule type) λ t. reads (rule for_self_type) λ f. reads (rule impl_body) λ b. done))))
    (turns at_module_path (reads (rule type_path) λ t. turns at_for (self (reads (rule impl_body) λ b. ends x)) (reads (rule impl_body) λ b. ends x))
    (reads (rule type) λ t.
    turns at_for kept_impl
    (reads (rule impl_body) λ b. ends x)))
plain_types d c u k g =
    turns at_exclamation (reads (punctuation exclamation) λ x.
    turns at_brace (reads (rule impl_body) λ b. ends x)
    (reads (rule type_path) λ t. self (reads (rule impl_body) λ b. ends x)))
    (turns at_module_path (reads (rule type_path) λ t. turns at_for (self (reads (rule impl_body) λ b. ends x)) (reads (rule impl_body) λ b. ends x))
    (reads (rule type) λ t. reads (rule impl_body) λ b. ends x))
impl_alone =
    reads (optional_item_word w_default) λ d. reads (optional_item_word w_const) λ c. reads (optional_item_word w_unsafe) λ u. reads (plainly (word w_impl)) λ k. lists (plain_types d c u k absent)
type_plan a v =
    reads (plainly (word w_type)) λ k. reads (plainly name) λ n. reads (rule generics) λ g.
    turns at_colon (keeps (reads (punctuation colon) λ c. reads (rule type_bounds) λ b. reads type_and_clause λ e. kept_end))
    (turns at_where (apart (rule where_clause) λ w. turns at_equals (equal_and_one a) (keeps kept_end))
    (turns at_equals (equal_and_more a)
    (keeps kept_end)))
type_alone =
    reads (rule visibility) λ v. reads (plainly (word w_type)) λ k. reads (plainly name) λ n. reads (rule generics) λ g.
    turns at_where (apart (rule where_clause) λ w. equal_and_one v)
    (equal_and_more v)
equal_and_one v =
    apart (punctuation equals) λ q. apart (rule type) λ t. turns at_where (apart (rule where_clause) λ x. fails) (reads (punctuation semicolon) λ z. ends z)
equal_and_more v =
    apart (punctuation equals) λ q. apart (rule type) λ t. apart (rule where_clause) λ x. reads (punctuation semicolon) λ z. ends z
statements_list =
    reads (rule attributes) λ a. turns at_item (then (item_after a) (rule statements)) (reads (rule statement_rest) λ s. ends s)
statement_alone =
    reads (rule attributes) λ a. turns at_item (item_after a) (reads other_statement λ s. ends s)
'''

# Forms that are always parts of their own, since proofs and sources name them.
CUT = [('generics', ('first', 'second')), ('member', ('second',)), ('type_words', ('second',)), ('more_type_words', ('second',)), ('expression_words', ('second',))]

# Lookaheads that are not composed of others: a function decides each.
REPORTED = ['at_any_literal', 'at_lifetime', 'at_inner_attribute', 'at_arguments', 'at_association', 'at_turbofish', 'at_path_word',
        'at_pattern_path', 'at_macro', 'at_brace_macro', 'at_lone_crate', 'at_crate_macro', 'at_bang', 'at_postfix_mark',
        'at_block_like', 'at_whole_expression', 'at_unfinished', 'at_restriction', 'at_nameless_fields', 'at_parameter_end', 'at_predicate_end', 'at_item', 'at_receiver', 'at_no_macro_item']

# Other lookaheads that a function decides.
ALSO_KNOWN = {
    ('and_also', ('at_mark', '<'), ('ahead', ('Before_parameter',))): 'Generics',
    ('at_literal', ('Str',)): 'StrLiteral', ('ahead', ('Before_colons',)): 'BeforeColons', ('ahead', ('Before_macro',)): 'BeforeMacro',
    ('and_also', ('at_word', 'union'), ('ahead', ('Begins_item',))): 'MarkedUnion', ('and_also', ('at_word', 'auto'), ('ahead', ('Begins_item',))): 'MarkedAuto',
    ('and_also', ('at_group', ('Paren',)), ('ahead', ('Begins_in',))): 'InRestriction', ('and_also', ('at_group', ('Paren',)), ('ahead', ('Lone_word',))): 'LoneWord',
}

TOKENS = {
    ('name',): 'Name', ('index',): 'Index', ('name_or', ('self', 'Self', 'super', 'crate')): 'PathWord',
    ('name_or', ('self', 'super', 'crate', 'try')): 'UseWord', ('name_or', ('_',)): 'NameOrUnderscore', ('name_or', ('self',)): 'NameOrSelf', ('name_or', ('try',)): 'NameOrTry',
    ('literal_of', (('Str',),)): 'Str', ('name_or', ('Self',)): 'NameOrSelfType', ('name_or', ('self', 'super', 'crate')): 'NameOrPathStart',
}


def size(text):
    """How many parts the type of a static with this text has."""
    return sum(parts * text.count(f'&{name}::') for name, parts in PARTS.items()) + PARTS[text.split('::')[0]]


def snake(name):
    return re.sub(r'(?<=[a-z])(\d+)$', r'_\1', name[0].lower() + name[1:])


def camel(name):
    return ''.join(it.capitalize() for it in name.split('_'))


# How many rules, parts or stages one function matches at most: the proof search for the last of 28 gives up.
MOST = 24
# The same for parts of plans, which are larger: the search for the last of 21 fails.
MOST_PLANNED = 17


def groups_of(name, things, most=MOST):
    """Things in groups of about the same size, each with a name, which has a number where there are several."""
    count = -(-len(things) // most)
    sizes = [len(things) // count + (i < len(things) % count) for i in range(count)]
    starts = [sum(sizes[:i]) for i in range(count)]
    return [(name if count == 1 else f'{name}_{i + 1}', things[start:start + size]) for i, (start, size) in enumerate(zip(starts, sizes))]


def picked(cases, of='place'):
    """The body of a function that returns the case at a place; the last one beyond all places."""
    if len(cases) == 1:
        return [f'    {cases[0]}', '}', '']
    return [f'    match {of} {{', *[f'        {i} => {case},' for i, case in enumerate(cases[:-1])], f'        _ => {cases[-1]},', '    }', '}', '']


def at_place(cases):
    return '(' + ' ∷ '.join([*cases[:-1], '[]']) + f') n {cases[-1]}'


def rules_in(form):
    if not isinstance(form, tuple):
        return []
    own = [form[1][0]] if form and form[0] == 'rule' else []
    own += [k for k, in form[1]] if form and form[0] == 'one_of' else []
    return own + [k for part in form for k in rules_in(part)]


class Writer:
    def __init__(self):
        self.source = Source(GRAMMAR)
        self.told = {self.source.looks[name]: name for name in REPORTED}
        self.texts = {text: name for name, text in reversed(self.source.texts.items())}
        self.rust = {text: name for name, text, *_ in DECLARATIONS + EXPRESSIONS + OTHERS + MARKS + LONG_MARKS}
        self.spelled = {name: text for text, name in self.rust.items()}
        self.words, self.marks, self.shapes, self.variants = set(), set(), set(), set()
        self.uses, self.parts = set(), []
        self.rule = None
        self.plans = plans.Plans(self.source, MORE_PLANS)
        self.stages, self.stage_names = [], {}

    def rules(self):
        return [k for k in self.source.rules if k not in BY_PLANS]

    def named(self, kind, *parts):
        self.uses.add(kind)
        return f'{kind}::' + ''.join(parts)

    def word(self, text):
        self.words.add(text)
        return self.named('Word', self.rust[text])

    def mark(self, text):
        self.marks.add(text)
        return self.named('Mark', self.rust[text])

    def delimiter(self, it):
        return self.named('Delimiter', it[0])

    def look(self, it):
        if it in self.told:
            return self.named('Look', camel(self.told[it][3:]))
        if it in ALSO_KNOWN:
            return self.named('Look', ALSO_KNOWN[it])
        name, *rest = it
        if name == 'at_literal' and rest[0] == ('Int',):
            return self.named('Look', 'Integer')
        if name in ('ended', 'at_name', 'at_empty_group'):
            return self.named('Look', {'ended': 'Ended', 'at_name': 'Name', 'at_empty_group': 'EmptyGroup'}[name])
        if name in ('at_word', 'at_mark', 'at_group'):
            part = {'at_word': self.word, 'at_mark': self.mark, 'at_group': self.delimiter}[name](rest[0])
            return self.named('Look', f'{camel(name[3:])}({part})')
        if name in ('or_else', 'but_not'):
            return self.named('Look', f'{camel(name.split("_")[0])}(&{self.look(rest[0])}, &{self.look(rest[1])})')
        raise ValueError(f'no data for the look {it}')

    def token(self, kind):
        if kind[0] == 'word':
            return self.named('Token', f'Word({self.word(kind[1])})')
        if kind[0] == 'literal_of' and kind not in TOKENS:
            assert len(kind[1]) == 7, kind
            return self.named('Token', 'Literal')
        return self.named('Token', TOKENS[kind])

    def placed(self, kind, it):
        """A token or a mark; some with their place in the rule."""
        place = PLACES.get((self.rule, it.split('::', 1)[1]))
        return self.named('Form', f'{kind}At({it}, {self.named("Place", place)})' if place else f'{kind}({it})')

    def shape(self, it):
        name, *rest = it
        self.shapes.add(it[0] if not rest else (it[0],))
        if not rest:
            return self.named('Shape', camel(name))
        self.variants.add(rest[0][0])
        return self.named('Shape', f'{camel(name)}({self.named("Variant", rest[0][0])})')

    def both_ways(self, one, other, way):
        """The forms after a whole expression that ends with braces, and after one that doesn't."""
        assert one[:2] == ('&', ('such', ('trailing_brace',), ('rule', ('whole_expression',)))), one
        assert other[:2] == ('&', ('such', ('no_trailing_brace',), ('rule', ('whole_expression',)))), other
        return self.made('ByBraces(', [(one[2], (*way, 'first', 'second')), (other[2], (*way, 'second', 'second'))])

    def made(self, head, parts):
        """A form, by its head and the forms that it refers to, each with its way from the rule's. The heaviest is cut off while it is too
        large."""
        texts = [self.form(form, way) for form, way in parts]
        while size('Form::' + head) + sum(size(text) for text in texts) > (LARGEST if self.rule != 'planned' else LARGEST - 3 * PARTS['Plan']):
            heaviest = max(range(len(texts)), key=lambda i: size(texts[i]))
            if '&' not in texts[heaviest]:
                raise ValueError(f'a look of {self.rule} refers to too many others: a function has to tell it')
            texts[heaviest] = self.cut(texts[heaviest], parts[heaviest][1])
        return self.named('Form', head + ', '.join('&' + text for text in texts) + ')')

    def cut(self, text, way):
        """A form in a static of its own."""
        number = 1 + sum(rule == self.rule for _, rule, _, _ in self.parts)
        name = f'{camel(self.rule)}{number}'
        self.parts.append((name, self.rule, way, text))
        return self.named('Form', f'Part({self.named("Part", self.constant(name))})')

    def form_of(self, rule):
        self.rule = rule
        return self.form(self.source.table[rule], ())

    def form(self, it, way):
        if way == () and self.rule in PLANS and self.rule != 'statements' or it[0] == 'either' and self.rule == 'statements':
            return self.named('Form', f'Planned({self.named("Planned", camel(self.rule))})')
        text = self.whole(it, way)
        return self.cut(text, way) if (self.rule, way) in CUT else text

    def fading(self, look, part):
        """A part that isn't printed where its list is empty."""
        if part[0] == 'ordered':
            assert look == ('at_mark', '<') and ORDERED[part[1]] == 'Parameters', part
            return self.named('Form', 'Generics')
        name, head, (last, (rule,)) = part
        known = (('at_mark', ':'), ('mark', False, ':')) if rule != 'predicates' else (('at_word', 'where'), ('token', (), ('word', 'where')))
        assert (name, last) == ('&', 'rule') and (look, head) == known, part
        (self.marks if head[0] == 'mark' else self.words).add(look[1])
        return self.named('Form', f'Fading({self.named("Fading", FADING[rule])})')

    def whole(self, it, way):
        name, *rest = it
        if name in ('empty', 'lifetime', 'unshown'):
            return self.named('Form', camel(name))
        if name == 'one_of' and not rest[0]:
            return self.named('Form', f'Never({self.named("Fault", REFUSING.get(self.rule, "Unexpected"))})')
        if name == 'one_of':
            (rule,), = rest[0]
            return self.named('Form', f'Only({self.named("Rule", rule.upper())})')
        if name == 'vanishing' and not rest[0]:
            if rest[2][0] == 'ordered':
                self.form(rest[2][2], (*way, 'first', 'second'))
            return self.fading(rest[1], rest[2])
        if name == 'mark' and LACKING.get(self.rule, ('',))[0] == rest[1]:
            return self.named('Form', f'MarkElse({self.mark(rest[1])}, {self.named("Fault", LACKING[self.rule][1])})')
        if name == 'either':
            return self.both_ways(*rest, way)
        if name == 'ordered':
            return self.named('Form', f'Ordered({self.named("List", ORDERED[rest[0]])})')
        first, second = (*way, 'first'), (*way, 'second')
        if it == UNENDED and self.rule == 'planned':
            return self.named('Form', f'Then(&{self.form(rest[0], first)}, &{self.named("Form", "MarkElse")}({self.mark(";")}, {self.named("Fault", "MissingSemi")}))')
        if name == 'supplied':
            assert rest[:2] == [('Before_less',), ('rule', ('pattern',))], rest
            return self.named('Form', f'Supplied({self.named("Nameless", NAMELESS[self.rule])})')
        parts = {
            'token': lambda: self.placed('Token', self.token(rest[1])),
            'mark': lambda: self.placed('Mark', self.mark(rest[1])),
            'raw': lambda: self.named('Form', f'Raw({self.delimiter(rest[0])})'),
            'rest_after': lambda: self.named('Form', f'RestAfter({self.mark(rest[0])})'),
            'rule': lambda: self.named('Form', f'Rule({self.named("Rule", rest[0][0].upper())})'),
            '&': lambda: self.made('Then(', [(rest[0], first), (rest[1], second)]),
            'when': lambda: self.made(f'When({self.look(rest[0])}, ', [(rest[1], first), (rest[2], second)]),
            'inside': lambda: self.made(f'Inside({self.delimiter(rest[0])}, ', [(rest[1], first)]),
            'shaped': lambda: self.made(f'Shaped({self.shape(rest[0])}, ', [(rest[1], first)]),
            'vanishing': lambda: self.made(f'Hidden(&{self.look(rest[1])}, ', [(rest[2], first)]),
            'captured': lambda: self.made('Captured(', [(rest[0], first)]),
        }
        if name not in parts:
            raise ValueError(f'no data for the form {it}')
        return parts[name]()

    def topics(self):
        rules = self.rules()
        starts = [self.source.rules.index(first) for _, first, _ in TOPICS] + [len(self.source.rules)]
        for (name, _, sentence), start, end in zip(TOPICS, starts, starts[1:]):
            yield name, sentence, [k for k in self.source.rules[start:end] if k in rules]

    MODULES = {'Fault': 'crate::fault', 'Fading': 'crate::fading', 'List': 'crate::list', 'Nameless': 'crate::supplied', 'Place': 'crate::left_out', 'Planned': 'crate::plan', 'Stage': 'crate::plan', 'Delimiter': 'syn_tokens::delimiter',
               'Form': 'crate::form', 'Look': 'crate::look', 'Rule': 'crate::rules', 'Part': 'crate::rules', 'Shape': 'crate::shape',
               'Variant': 'crate::shape', 'Token': 'crate::token', 'Word': 'crate::words', 'Mark': 'crate::words'}

    def imports(self):
        modules = {}
        for name in sorted(self.uses):
            modules.setdefault(self.MODULES[name], []).append(name)
        return [f'use {module}::{names[0]};' if len(names) == 1 else f'use {module}::{{{", ".join(names)}}};' for module, names in sorted(modules.items())]

    def topic(self, name, sentence, rules):
        self.uses = {'Form'}
        body = [line for k in rules for line in self.statics(k)]
        parts = [part for part, k, _, _ in self.parts if k in rules]
        groups = groups_of(name, rules)
        specs = ['ghost use Rattle.std.specs.Prelude.{◌≡◌};', 'ghost use Rattle.syn_grammar.specs.Run.{parse_form};', 'ghost use Rattle.syn_grammar.specs.Table.{table};',
                 'ghost use Rattle.syn_recognize.specs.Forms.{grammar_of};', f'ghost use Rattle.syn_recognize.specs.Names.{{{", ".join(f"{it}_rule" for it, _ in groups)}}};',
                 *([f'ghost use Rattle.syn_recognize.specs.Parts.{{{name}_part}};'] if parts else []), '']
        functions = ['', *[line for it, some in groups for line in ('/// The form of the rule at this place.', *self.at(self.teller(name, it), f'table ({it}_rule {self.place(some)})', some, [f'&{k.upper()}' for k in some]))]]
        if parts:
            functions += ['/// The form of the part at this place.', *self.at('part_at', f'{name}_part {self.place(parts)}', parts, [f'&{self.constant(part)}' for part in parts])]
        return [f'//! {WRITTEN}', '//!', f'//! {sentence}', *specs, *self.imports(), *body, *functions]

    def teller(self, name, group):
        """The function that returns the forms of a group of a topic's rules."""
        return 'form_at' + group[len(name):]

    def rule_groups(self):
        """Rules in groups: the group's name, the function that returns their forms, and the rules."""
        return [(group, f'{name}::{self.teller(name, group)}', some) for name, _, rules in self.topics() for group, some in groups_of(name, rules)]

    def place(self, things):
        return 'place' if len(things) > 1 else '_place'

    def at(self, function, promise, things, cases, visible='pub(super) '):
        """A function that returns a form by its place."""
        return ['#[tactic(auto, using(std::proofs::lemmas::List::get_or_past), unfolding(crate::specs::Names::rule_of, crate::specs::Parts::part_form))]',
                f"{visible}fn {function}({self.place(things)}: u8) -> &'static Form", f'    ensures {{ parse_form (grammar_of result.now) ≡ parse_form ({promise}) }}', '{', *picked(cases)]

    def statics(self, rule):
        """A rule's form, followed by those of its parts."""
        before = len(self.parts)
        form = self.form_of(rule)
        parts = [('', f'/// A part of `{k}`.', f'static {self.constant(name)}: Form = {text};') for name, k, _, text in self.parts[before:]]
        return ['', *self.sentence(rule), f'static {rule.upper()}: Form = {form};', *(line for part in parts for line in part)]

    def constant(self, part):
        """The name of a part's static."""
        return next(f'{k.upper()}_{name[len(camel(k)):]}' for name, k, _, _ in self.parts if name == part)

    def sentence(self, rule):
        return textwrap.wrap(' '.join(self.source.comments[rule].split()), 120, initial_indent='/// ', subsequent_indent='/// ')

    def files(self):
        out = {}
        topics = list(self.topics())
        for name, sentence, rules in topics:
            out[f'src/rules/{name}.rt'] = self.topic(name, sentence, rules)
        out['src/plan.rt'] = self.plan_file()
        out['src/rules.rt'] = self.rules_file(topics)
        out['src/shape.rt'] = self.shape_file()
        out['src/words.rt'] = self.words_file()
        out['specs/Stages.antt'] = self.stages_file()
        out['proofs/PlannedCourses.antt'] = self.planned_file()
        out['specs/Names.antt'] = self.names_file()
        out['specs/Parts.antt'] = self.parts_file()
        out['proofs/Known.antt'] = self.known_file()
        return {name: '\n'.join(lines) for name, lines in out.items()}

    def rules_file(self, topics):
        return [
            f'//! {WRITTEN}', '//!', '//! The rules of the grammar as data.', 'ghost use Rattle.std.specs.Prelude.{◌≡◌};',
            'ghost use Rattle.syn_grammar.specs.Run.{parse_form};', 'ghost use Rattle.syn_grammar.specs.Table.{table};',
            'ghost use Rattle.syn_recognize.specs.Forms.{grammar_of};', 'ghost use Rattle.syn_recognize.specs.Names.{rule_of};',
            'ghost use Rattle.syn_recognize.specs.Parts.{part_form};', '',
            'use crate::form::Form;', '', *[f'mod {name};' for name in sorted(name for name, _, _ in topics)], '',
            '/// A file of rules, or a part of one.', '#[derive(Clone, Copy, PartialEq, Eq)]', 'enum Topic {', *[f'    {camel(name)},' for name, _, _ in self.rule_groups()], '}', '',
            '/// A rule of the grammar, by its group and its place there.', '#[derive(Clone, Copy, PartialEq, Eq)]', 'pub struct Rule {', '    topic: Topic,', '    place: u8,', '}', '',
            'impl Rule {', *[f'    pub const {k.upper()}: Rule = Rule {{ topic: Topic::{camel(name)}, place: {i} }};' for name, _, rules in self.rule_groups() for i, k in enumerate(rules)], '}', '',
            '/// The form of the rule.', '#[tactic(auto, unfolding(crate::specs::Names::rule_of))]', "pub(crate) fn form_of(rule: Rule) -> &'static Form",
            '    ensures { parse_form (grammar_of result.now) ≡ parse_form (table (rule_of rule)) }', '{', '    match rule.topic {',
            *[f'        Topic::{camel(name)} => {function}(rule.place),' for name, function, _ in self.rule_groups()], '    }', '}', '',
            '/// A group of parts.', '#[derive(Clone, Copy)]', 'enum Group {', *[f'    {camel(name)},' for name, _, _ in self.part_groups()], '}', '',
            "/// A part of a rule's form with a static of its own: Rattle's own compiler accepts no larger ones.", '#[derive(Clone, Copy)]',
            'pub(crate) struct Part {', '    group: Group,', '    place: u8,', '}', '',
            'impl Part {', *[f'    pub(crate) const {self.constant(part)}: Part = Part {{ group: Group::{camel(name)}, place: {i} }};' for name, _, parts in self.part_groups() for i, part in enumerate(parts)], '}', '',
            '/// The form of the part.', '#[tactic(auto, unfolding(crate::specs::Parts::part_form))]', "pub(crate) fn form_of_part(part: Part) -> &'static Form",
            '    ensures { parse_form (grammar_of result.now) ≡ parse_form (part_form part) }', '{', '    match part.group {',
            *[f'        Group::{camel(name)} => {function}(part.place),' for name, function, _ in self.part_groups()], '    }', '}', '']

    def part_groups(self):
        """Parts in groups: the group's name, the function that returns their forms, and the parts."""
        groups = []
        for name, _, rules in self.topics():
            parts = [part for part, k, _, _ in self.parts if k in rules]
            groups += [(name, f'{name}::part_at', parts)] if parts else []
        return groups + [(name, f'crate::plan::{name}', parts) for name, parts in groups_of('planned', [part for part, _, _, _ in self.plan_parts], MOST_PLANNED)]

    def plan(self, it):
        """A plan as data: that of a stage, or one nested in it."""
        kind, *rest = it
        if kind in ('rest', 'kept'):
            return f'Plan::{camel(kind)}(&{self.piece(rest[0])})'
        if kind == 'reads':
            piece = self.piece(rest[0])
            return f'Plan::Reads(&{piece}, &{self.inner(rest[1], size(piece))})'
        if kind == 'turns':
            look = self.look(rest[0])
            one = self.inner(rest[1], size(look))
            return f'Plan::Turns({look}, &{one}, &{self.inner(rest[2], size(look) + size(one))})'
        if kind == 'rooted':
            one = self.inner(rest[0])
            return f'Plan::Rooted(&{one}, &{self.inner(rest[1], size(one))})'
        if kind == 'then':
            piece = self.piece(rest[1])
            return f'Plan::Then(&{self.inner(rest[0], size(piece))}, &{piece})'
        if kind == 'lists':
            return f'Plan::Lists(&{self.inner(("led", rest[0]))})'
        return f'Plan::{ {"led": "Led", "self": "SelfType"}[kind]}(&{self.inner(rest[0])})'

    def piece(self, form):
        """A form in a plan; a large one is cut into parts, each a rule of its own."""
        self.rule = 'planned'
        return self.form(form, ('planned', form))

    def inner(self, it, beside=0):
        """A nested plan: a stage of its own if it is used twice, or is too large beside its neighbours."""
        text = self.plan(it) if it not in self.stage_names else ''
        if text and self.uses_of[it] == 1 and text.count('&') <= 5 and size(text) + beside + PARTS['Plan'] <= LARGEST:
            return text
        if it not in self.stage_names:
            self.stage_names[it] = f'Stage_{len(self.stages) + 1}'
            self.stages.append((self.stage_names[it], it, text))
        return f'Plan::Go(Stage::{self.stage_names[it].upper()})'

    def count(self, it):
        self.uses_of[it] = self.uses_of.get(it, 0) + 1
        if self.uses_of[it] == 1:
            for part in it[1:]:
                if isinstance(part, tuple) and part and part[0] in ('rest', 'kept', 'reads', 'turns', 'rooted', 'then', 'lists', 'led', 'self'):
                    self.count(('led', part) if it[0] == 'lists' else part)

    def plan_file(self):
        self.uses, self.uses_of = {'Form'}, {}
        courses = {k: plans.course(self.plans.plan(name)) for k, name in PLANS.items()}
        for it in courses.values():
            self.count(it)
        before = len(self.parts)
        begins = [(k, self.plan(it)) for k, it in courses.items()]
        self.plan_parts = self.parts[before:]
        self.uses -= {'Stage', 'Planned'}
        series, planned = self.series(), groups_of('planned', [part for part, _, _, _ in self.plan_parts], MOST_PLANNED)
        return [f'//! {WRITTEN}', '//!', '//! The plans of unions as data.', 'ghost use Rattle.std.specs.Prelude.{◌≡◌};', 'ghost use Rattle.syn_grammar.specs.Run.{parse_form};', 'ghost use Rattle.syn_recognize.specs.Courses.{course_of};', 'ghost use Rattle.syn_recognize.specs.Forms.{grammar_of};', f'ghost use Rattle.syn_recognize.specs.Parts.{{{", ".join(f"{name}_part" for name, _ in planned)}}};', f'ghost use Rattle.syn_recognize.specs.Stages.{{stage_course, planned_course, {", ".join(f"{name}_course" for name, _ in series)}}};', '', *self.imports(), '',
                '/// A plan: one reading of a union, without a trial.', '#[derive(Clone, Copy)]', 'pub enum Plan {',
                '    /// The plan of this stage.', '    Go(Stage),', '    /// Reads a form, and continues.', "    Reads(&'static Form, &'static Plan),",
                '    /// Continues with the plan that the lookahead selects.', "    Turns(Look, &'static Plan, &'static Plan),", '    /// Reads trees of a use in braces, and selects a plan by whether one of them has `::` before it.', "    Rooted(&'static Plan, &'static Plan),",
                '    /// A plan, followed by a form.', "    Then(&'static Plan, &'static Form),", '    /// It is of a kind: reads the rest.', "    Rest(&'static Form),",
                '    /// Its tokens are stored verbatim: reads the rest.', "    Kept(&'static Form),", '    /// Reads the generics of an impl, and continues.', "    Lists(&'static Plan),",
                '    /// Notes whether the next tokens would be read as generics.', "    Led(&'static Plan),", '    /// Reads `for` and the self type of an impl.', "    SelfType(&'static Plan),", '}', '',
                '/// A form that is read by a plan.', '#[derive(Clone, Copy)]', 'pub enum Planned {', *[f'    {camel(k)},' for k in PLANS], '}', '',
                '/// A series of stages.', '#[derive(Clone, Copy)]', 'enum Series {', *[f'    {camel(name)},' for name, _ in series], '}', '',
                '/// A stage of a plan.', '#[derive(Clone, Copy)]', 'pub struct Stage {', '    series: Series,', '    place: u8,', '}', '',
                'impl Stage {', *[f'    const {stage.upper()}: Stage = Stage {{ series: Series::{camel(name)}, place: {i} }};' for name, stages in series for i, stage in enumerate(stages)], '}', '',
                *[f'static {self.constant(name)}: Form = {text};' for name, _, _, text in self.plan_parts],
                *[f'static {k.upper()}: Plan = {text};' for k, text in begins],
                *[f'static {name.upper()}: Plan = {text};' for name, _, text in self.stages], '',
                '/// How the plan begins.', '#[tactic(auto, unfolding(crate::specs::Names::rule_of, crate::specs::Parts::part_form, crate::specs::Stages::stage_course))]', "pub(crate) fn begin_of(planned: Planned) -> &'static Plan", '    ensures { course_of result.now ≡ planned_course planned }', '{', '    match planned {',
                *[f'        Planned::{camel(k)} => &{k.upper()},' for k in PLANS], '    }', '}', '',
                '/// The plan of the stage.', '#[tactic(auto, unfolding(crate::specs::Stages::stage_course))]', "pub(crate) fn plan_of(stage: Stage) -> &'static Plan", '    ensures { course_of result.now ≡ stage_course stage }', '{', '    match stage.series {',
                *[f'        Series::{camel(name)} => {name}(stage.place),' for name, _ in series], '    }', '}', '',
                *[line for name, stages in series for line in (
                    '/// The plan of the stage at this place.', '#[tactic(auto, using(std::proofs::lemmas::List::get_or_past), unfolding(crate::specs::Names::rule_of, crate::specs::Parts::part_form, crate::specs::Stages::stage_course))]',
                    f"fn {name}({self.place(stages)}: u8) -> &'static Plan", f'    ensures {{ course_of result.now ≡ {name}_course {self.place(stages)} }}', '{', *picked([f'&{stage.upper()}' for stage in stages]))],
                *[line for name, parts in planned for line in ('/// The form of the part at this place.', *self.at(name, f'{name}_part {self.place(parts)}', parts, [f'&{self.constant(part)}' for part in parts], 'pub(crate) '))]]

    def series(self):
        return groups_of('series', [name for name, _, _ in self.stages])

    def course(self, it):
        """A course in the specifications' words; its stages by their names."""
        kind, *rest = it
        inner = lambda x: snake(self.stage_names[x]) if x in self.stage_names else f'({self.course(x)})'
        if kind in ('rest', 'kept'):
            return f'{kind} {self.antt(rest[0])}'
        if kind == 'reads':
            return f'reads {self.antt(rest[0])} {inner(rest[1])}'
        if kind == 'turns':
            return f'turns {self.antt_look(rest[0])} {inner(rest[1])} {inner(rest[2])}'
        if kind == 'rooted':
            return f'rooted {inner(rest[0])} {inner(rest[1])}'
        if kind == 'then':
            return f'followed {inner(rest[0])} {self.antt(rest[1])}'
        if kind == 'lists':
            return f'lists {inner(("led", rest[0]))}'
        return f'{ {"led": "led", "self": "self_type"}[kind]} {inner(rest[0])}'

    def planned_file(self):
        """The proof that the courses of these unions write what their plans write."""
        lines, called = [], set()
        for k in ('item', 'trait_item', 'impl_item', 'foreign_item', 'derive_input', 'crate_macro', 'use_item_rest', 'type_item_rest', 'impl_definition_rest'):
            goes = {}
            for way in ('true', 'false'):
                own = plans.Plans(self.source)
                own.reader, plans.Prover.count = plans.Prover, 0
                goes[way] = plans.Proofs(way).of(own.call(PLANS[k], [], {}), 'm')
                own.called |= {'item': {'impl_generics', 'impl_types'}, 'impl_definition_rest': {'plain_types'}}.get(k, set())
                called |= own.called
            opened = ' '.join(sorted(own.called))
            course = f'(planned_course Planned-m.{camel(k)})'
            lines += ['', f'pub {k}_goes : (a : Bool) (m : Stream) → Goes a {course} {PLANS[k]} end m', 'unfolding ' + opened,
                      *[f'{k}_goes {way} m = {goes[way]}' for way in ('true', 'false')]]
        where = lambda file: [n for n in sorted(called) if re.search(rf'^unfoldable pub {n} :', (GRAMMAR / 'specs' / f'{file}.antt').read_text(), re.M)]
        text = '\n'.join(lines)
        used = lambda names: ', '.join(x for x in names if re.search(rf'(?<![\w.]){x}(?!\w)', text))
        return [f'-- {WRITTEN}', '-- The courses of unions write what their plans write.', 'use Rattle.std.proofs.Common.{Bool, true, false, [], ◌∷◌, refl}',
                'use Rattle.syn_grammar.specs.Tokens.{Stream, end}', 'use Rattle.syn_grammar.specs.Rules.{' + used(['impl_definition', 'type_item', 'use_item']) + '}',
                'use Rattle.syn_grammar.specs.Grammar.{' + used(['Left', 'Right', 'Node', 'Both', 'Such']) + '}', 'use Rattle.syn_grammar.specs.Values.{untag}',
                'use Rattle.syn_grammar.specs.ItemPlan.{' + ', '.join([*where('ItemPlan'), used(['parts', 'absent', 'hidden', 'inherited', 'item_of', 'public', 'plain', 'unwritten'])]) + '}',
                *[f'use Rattle.syn_grammar.specs.{file}.{{{", ".join(where(file))}}}' for file in ('MemberPlans', 'StatementPlans', 'SmallPlans', 'AlonePlans')],
                'use Rattle.syn_recognize.specs.Stages.{planned_course}', 'use Rattle.syn_recognize.specs.declared.plan.Planned.TheVariants as Planned-m',
                'use Rattle.syn_recognize.proofs.CourseProofs.{Goes, none, piece, untagged, both, text_after}', 'use Rattle.syn_recognize.proofs.ImplCourses.{item_impl_meets, alone_impl_meets, lone_text}',
                'use Rattle.syn_recognize.proofs.SmallCourses.{rooted_meets, clause_meets, alone_clause_meets}', *lines, '']

    def stages_file(self):
        at = 'Rattle.syn_recognize.specs.declared'
        looks = sorted(k for k in self.source.looks)
        words = sorted(set(self.texts.values()))
        courses = {k: plans.course(self.plans.plan(name)) for k, name in PLANS.items()}
        defined = [(name, self.course(it)) for name, it, _ in self.stages]
        begins = [(f'Planned-m.{camel(k)}', self.course(it)) for k, it in courses.items()]
        text = '\n'.join(x for _, x in defined + begins)
        used = lambda names: [x for x in names if re.search(rf'(?<![\w.]){re.escape(x)}(?![\w])', text)]
        tokens = used(['Paren', 'Brace', 'Bracket', 'None', 'Str', 'Before_colons', 'Before_macro', 'Begins_item', 'Begins_in', 'Lone_word', 'ended', 'at_name', 'at_word', 'at_mark', 'at_group',
                       'at_literal', 'at_empty_group', 'ahead', 'at_generics', 'at_lifetime', 'at_path_word', 'at_parameter', 'at_path_rest'])
        table = [x for x in used(looks) if x not in tokens]
        return [f'-- {WRITTEN}', '-- THE COURSES OF PLANS, and the forms that these plans read.', 'use Rattle.std.specs.Prelude.{ℕ, true, false, [], ◌∷◌, get_or}',
                'use Rattle.syn_grammar.specs.Words.{' + ', '.join(used(words)) + '}', 'use Rattle.syn_grammar.specs.Tokens.{' + ', '.join(tokens) + ', ◌or_else◌, ◌and_also◌, ◌but_not◌}',
                'use Rattle.syn_grammar.specs.Table.{table, ' + ', '.join(table) + '}', 'use Rattle.syn_grammar.specs.Rules as rules', 'use Rattle.syn_grammar.specs.Shape as shapes',
                'use Rattle.syn_grammar.specs.Grammar.{' + ', '.join(used(['name', 'word', 'name_or', 'literal_of', 'any_literal', 'index'])) + ', Grammar, empty, token, mark, ◌&◌, when◌then◌else◌, inside, raw, rule, one_of, shaped, vanishing, ordered}',
                'use Rattle.syn_recognize.specs.Within.{first, second}', 'use Rattle.syn_recognize.specs.Ordered.{first_form, other_form}',
                'use Rattle.syn_recognize.specs.Course.{Course, reads, turns, rooted, followed, rest, kept, lists, led, self_type}',
                f'use {at}.list.List.TheVariants as List-m', f'use {at}.plan.Stage.{{Stage}}', f'use {at}.plan.Series.{{Series}}', f'use {at}.plan.Series.TheVariants as Series-m',
                f'use {at}.plan.Planned.{{Planned}}', f'use {at}.plan.Planned.TheVariants as Planned-m', '',
                *[line for name, it, _ in self.stages for line in (f'abbrev pub {snake(name)} : Course', f'{snake(name)} = {self.course(it)}', '')],
                *[line for name, stages in self.series() for line in (f'abbrev pub {name}_course : ℕ → Course', f'{name}_course n = get_or {at_place([snake(x) for x in stages])}', '')],
                'abbrev pub course_at : Series → ℕ → Course', *[f'course_at Series-m.{camel(name)} n = {name}_course n' for name, _ in self.series()], '',
                'unfoldable pub stage_course : Stage → Course', 'stage_course s = course_at s.series s.place', '',
                'abbrev pub planned_course : Planned → Course', *[f'planned_course {name} = {x}' for name, x in begins], '',
                '-- the form that is read by a plan', 'abbrev pub planned_form : Planned → Grammar',
                *[f'planned_form Planned-m.{camel(k)} = ' + ('first (second (first (second (table rules.statements))))' if k == 'statements' else f'table rules.{k}') for k in PLANS], '']

    # FORMS IN THE SPECIFICATIONS' WORDS

    def text_at(self, way):
        form = way[1]
        for step in way[2:]:
            place = {'&': 1, 'when': 2}.get(form[0], {'inside': 2, 'shaped': 2, 'vanishing': 3, 'captured': 1, 'supplied': 2}.get(form[0]))
            form = form[place + (step == 'second')]
        return self.antt(form)

    def antt(self, it):
        """A form as the specifications write it."""
        name, *rest = it
        text = lambda x: self.texts[x]
        if name == '&':
            return f'({self.antt(rest[0])} & {self.antt(rest[1])})'
        if name == 'when':
            return f'(when {self.antt_look(rest[0])} then {self.antt(rest[1])} else {self.antt(rest[2])})'
        if name == 'token':
            return f'(token [] ({self.antt_kind(rest[1])}))'
        if name == 'mark':
            return f'(mark false {text(rest[1])})'
        if name == 'rule':
            return f'(rule rules.{rest[0][0]})'
        if name == 'inside':
            return f'(inside {rest[0][0]} {self.antt(rest[1])})'
        if name == 'raw':
            return f'(raw {rest[0][0]})'
        if name == 'vanishing':
            return f'(vanishing {str(rest[0]).lower()} {self.antt_look(rest[1])} {self.antt(rest[2])})'
        if name == 'one_of':
            return '(one_of (' + ' ∷ '.join([f'rules.{k}' for k, in rest[0]] + ['[]']) + '))'
        if name == 'shaped':
            shape = ' '.join(x if isinstance(x, str) else f'shapes.{x[0]}' for x in rest[0])
            return f'(shaped (shapes.{shape}) {self.antt(rest[1])})'
        if name == 'empty':
            return 'empty'
        if name == 'ordered' and ORDERED[rest[0]] == 'Parameters':
            return '(ordered (first_form List-m.Parameters) (other_form List-m.Parameters))'
        raise ValueError(f'no words for {it}')

    def antt_kind(self, it):
        if it[0] == 'word':
            return f'word {self.texts[it[1]]}'
        if it[0] in ('name_or', 'literal_of'):
            return f'{it[0]} (' + ' ∷ '.join([self.texts[x] if isinstance(x, str) else x[0] for x in it[1]] + ['[]']) + ')'
        return it[0]

    def antt_look(self, it):
        name, *rest = it
        for known, value in self.source.looks.items():
            if value == it:
                return known
        if name in ('or_else', 'and_also', 'but_not'):
            return f'({self.antt_look(rest[0])} {name} {self.antt_look(rest[1])})'
        if name in ('at_word', 'at_mark'):
            return f'({name} {self.texts[rest[0]]})'
        if name in ('ahead', 'at_group', 'at_literal'):
            return f'({name} {rest[0][0]})'
        return name

    def parts_imports(self):
        text = '\n'.join(self.text_at(way) for _, _, way, _ in self.plan_parts)
        used = lambda names: [x for x in names if re.search(rf'(?<![\w.]){re.escape(x)}(?![\w])', text)]
        tokens = used(['Paren', 'Brace', 'Bracket', 'None', 'Str', 'Before_colons', 'Before_macro', 'Begins_item', 'Begins_in', 'Lone_word', 'ended', 'at_name', 'at_word', 'at_mark', 'at_group',
                       'at_literal', 'at_empty_group', 'ahead', 'at_generics', 'at_lifetime', 'at_path_word', 'at_parameter', 'at_path_rest'])
        table = [x for x in used(sorted(self.source.looks)) if x not in tokens]
        return ['use Rattle.std.specs.Prelude.{ℕ, true, false, [], ◌∷◌, get_or}', 'use Rattle.syn_grammar.specs.Words.{' + ', '.join(used(sorted(set(self.texts.values())))) + '}',
                'use Rattle.syn_grammar.specs.Tokens.{' + ', '.join(tokens + ['◌or_else◌', '◌and_also◌', '◌but_not◌']) + '}',
                'use Rattle.syn_grammar.specs.Rules as rules', 'use Rattle.syn_grammar.specs.Shape as shapes', 'use Rattle.syn_grammar.specs.Table.{' + ', '.join(['table', *table]) + '}',
                'use Rattle.syn_grammar.specs.Grammar.{' + ', '.join(used(['name', 'word', 'name_or', 'literal_of', 'any_literal', 'index']) + ['Grammar', 'empty', 'token', 'mark', '◌&◌', 'when◌then◌else◌', 'inside', 'raw', 'rule', 'one_of', 'shaped', 'vanishing', 'ordered']) + '}',
                'use Rattle.syn_recognize.specs.Within.{first, second}', 'use Rattle.syn_recognize.specs.Ordered.{first_form, other_form}',
                'use Rattle.syn_recognize.specs.declared.list.List.TheVariants as List-m']

    def parts_file(self):
        at = 'Rattle.syn_recognize.specs.declared.rules'
        forms = {name: '(' + ''.join(f'{step} (' for step in reversed(way)) + f'table rules.{k}' + ')' * len(way) + ')' for name, k, way, _ in self.parts if k != 'planned'}
        forms |= {name: f'({self.text_at(way)})' for name, _, way, _ in self.plan_parts}
        return [
            f'-- {WRITTEN}', '-- THE PARTS OF RULES THAT HAVE STATICS OF THEIR OWN: the place of each in its rule.',
            *self.parts_imports(), f'use {at}.Part.{{Part}}', f'use {at}.Group.{{Group}}', f'use {at}.Group.TheVariants as Group-m', '',
            *[line for name, _, parts in self.part_groups() for line in (f'abbrev pub {name}_part : ℕ → Grammar', f'{name}_part n = get_or {at_place([forms[part] for part in parts])}', '')],
            'abbrev pub part_at : Group → ℕ → Grammar', *[f'part_at Group-m.{camel(name)} n = {name}_part n' for name, _, _ in self.part_groups()], '',
            'unfoldable pub part_form : Part → Grammar', 'part_form p = part_at p.group p.place', '']

    def shape_variants(self):
        names = sorted(it if isinstance(it, str) else it[0] for it in self.shapes)
        return [(name, (name,) in self.shapes) for name in names]

    def shape_file(self):
        return [f'//! {WRITTEN}', '//!', '//! The shapes of values, as the specifications build them. Reading needs none of them.', '',
                '/// How the value of a form is built.', '#[derive(Clone, Copy)]', 'pub enum Shape {',
                *[f'    {camel(name)}{"(Variant)" if of else ""},' for name, of in self.shape_variants()], '}', '',
                '/// A variant of expressions.', '#[derive(Clone, Copy)]', 'pub enum Variant {', *[f'    {name},' for name in sorted(self.variants)], '}', '']

    def words_file(self):
        words, marks = (sorted(self.rust[text] for text in texts) for texts in (self.words, self.marks))
        function = lambda sentence, head, promise, kind, names, arm, *tactics: [
            f'/// {sentence}', *tactics, f'pub(crate) fn {head}', f'    ensures {{ {promise} }}', '{', f'    match {"it" if "(it:" in head else kind.lower()} {{',
            *[f'        {kind}::{name} => {arm(name)},' for name in names], '    }', '}', '']
        keywords = self.source.value('keywords')
        look = '{}, input: &ParseBuffer<\'_>) -> bool'
        peeked = lambda name: f'input.peek::<token::{name}>()'
        copy = '{}, out: &mut Writer, input: &mut ParseBuffer<\'_>) -> Stepped<()>'
        said = lambda name: f'"expected `{self.spelled[name]}`"'
        copied_word = lambda name: f'copy_text("{self.spelled[name]}", {said(name)}, out, input)'
        copied_mark = lambda name: f'copy_mark{len(self.spelled[name])}({", ".join(map(repr, self.spelled[name]))}, {said(name)}, out, input)'
        lacking = lambda kind, names: [
            f'/// The error message where this {kind.lower()} is expected at the end.', f"pub(crate) fn {kind.lower()}_at_end({kind.lower()}: {kind}) -> &'static str {{", f'    match {kind.lower()} {{',
            *[f'        {kind}::{name} => "unexpected end of input, expected `{self.spelled[name]}`",' for name in names], '    }', '}', '']
        copies = 'Copies IsFault out.old ({}) result out.new input.new'
        return [
            f'//! {WRITTEN}', '//!', '//! Words and marks as data.', 'ghost use Rattle.std.specs.Prelude.{◌≡◌};',
            'ghost use Rattle.syn_grammar.specs.Tokens as grammar;', 'ghost use Rattle.syn_grammar.specs.Tokens.{one_of_texts};', 'ghost use Rattle.syn_grammar.specs.Words.{keywords};', 'ghost use Rattle.syn_grammar.specs.Grammar.{word};', 'ghost use Rattle.syn_grammar.specs.Take.{sees, take_token, take_mark};',
            'ghost use Rattle.syn_recognize.specs.Copies.{Copies};',
            'ghost use Rattle.syn_recognize.specs.May as may;', 'ghost use Rattle.syn_recognize.specs.May.{head_of};', 'ghost use Rattle.syn_recognize.specs.Names.{word_text, mark_text};',
            'ghost use Rattle.syn_recognize.specs.Stops.{IsFault};', '', 'use crate::stop::Stepped;', 'use crate::token::{copy_mark1, copy_mark2, copy_mark3, copy_text};', 'use crate::writer::Writer;',
            'use syn_parse::buffer::ParseBuffer;', 'use syn_tokens::token;', '',
            '/// A word.', '#[derive(Clone, Copy)]', 'pub enum Word {', *[f'    {name},' for name in words], '}', '',
            '/// A mark.', '#[derive(Clone, Copy)]', 'pub enum Mark {', *[f'    {name},' for name in marks], '}', '',
            *function('Whether this word is next.', 'at_word(' + look.format('word: Word'), 'result ≡ sees (grammar.at_word (word_text word)) input.now', 'Word', words, peeked),
            *function('Whether this mark is next.', 'at_mark(' + look.format('mark: Mark'), 'result ≡ sees (grammar.at_mark (mark_text mark)) input.now', 'Mark', marks, peeked),
            *function('Reads and writes this word.', 'copy_word(' + copy.format('it: Word'), copies.format('take_token (word (word_text it)) input.old'), 'Word', words, copied_word, '#[tactic(auto, unfolding(syn_tokens::specs::Leaves::is_known_word))]'),
            *function('Reads and writes this mark.', 'copy_mark(' + copy.format('mark: Mark'), copies.format('take_mark (mark_text mark) input.old'), 'Mark', marks, copied_mark, '#[tactic(auto, unfolding(syn_tokens::specs::Punct::is_punct_character))]'),
            *lacking('Word', words), *lacking('Mark', marks),
            '/// Whether this word is a keyword everywhere, and not a contextual one.', 'pub(crate) fn is_known(word: Word) -> bool', '    ensures { result ≡ one_of_texts (word_text word) keywords }', '{', '    match word {',
            *[f'        Word::{name} => {str(self.spelled[name] in keywords).lower()},' for name in words], '    }', '}', '',
            '/// The first character of this mark.', 'pub(crate) fn first_of(mark: Mark) -> char', '    ensures { result ≡ head_of (mark_text mark) }', '{', '    match mark {',
            *[f"        Mark::{name} => '{self.spelled[name][0]}'," for name in marks], '    }', '}', '',
            '/// Whether this mark is a single character.', 'pub(crate) fn is_one(mark: Mark) -> bool', '    ensures { result ≡ may.is_one (mark_text mark) }', '{', '    match mark {',
            *[f'        Mark::{name} => {str(len(self.spelled[name]) == 1).lower()},' for name in marks], '    }', '}', '']

    def known_file(self):
        at = 'Rattle.syn_recognize.specs.declared.words.Mark'
        marks = sorted(self.rust[text] for text in self.marks)
        return [
            f'-- {WRITTEN}', '-- How the next token tree alone distinguishes marks: each has a first character.', 'use Rattle.std.proofs.Common.{◌≡◌, false, refl}',
            'use Rattle.syn_recognize.specs.May.{is_empty_text}', 'use Rattle.syn_recognize.specs.Names.{mark_text}', f'use {at}.{{Mark}}', f'use {at}.TheVariants as Mark-m', '',
            'pub known_mark : (m : Mark) → is_empty_text (mark_text m) ≡ false', *[f'known_mark Mark-m.{name} = refl' for name in marks], '']

    def names_file(self):
        at = 'Rattle.syn_recognize.specs.declared'
        texts = [(self.rust[text], self.texts[text]) for text in sorted(self.words, key=self.rust.get)]
        marks = [(self.rust[text], self.texts[text]) for text in sorted(self.marks, key=self.rust.get)]
        told = sorted(REPORTED, key=lambda name: name in ('at_lifetime', 'at_path_word'))
        variants = sorted(self.variants)
        return [
            f'-- {WRITTEN}', '-- WHAT WORDS, MARKS, LOOKAHEADS, SHAPES AND RULES AS DATA DENOTE.', 'use Rattle.std.specs.Prelude.{ℕ, [], ◌∷◌, get_or}', 'use Rattle.syn_grammar.specs.Words.{Text, ' + ', '.join(name for _, name in texts + marks) + '}',
            'use Rattle.syn_grammar.specs.Words.{w_union, w_auto}', 'use Rattle.syn_grammar.specs.ItemPlan.{at_in_restriction, at_lone_word}',
            'use Rattle.syn_grammar.specs.Tokens.{Int, Str, Before_colons, Before_macro, Begins_item, Look, ended, at_name, at_word, at_mark, at_group, at_literal, at_empty_group, ahead, ◌or_else◌, ◌and_also◌, ◌but_not◌, at_lifetime, at_path_word, at_generics}',
            'use Rattle.syn_grammar.specs.Table.{' + ', '.join(told[:-2]) + '}',
            'use Rattle.syn_grammar.specs.Rules as rules', 'use Rattle.syn_grammar.specs.Rules.{Rule}',
            'use Rattle.syn_grammar.specs.Shape as shapes', 'use Rattle.syn_grammar.specs.Shape.{Shape, Variant}',
            'use Rattle.syn_tokens.specs.Delimiters.{delimiter_of}',
            *[line for module, name, alias in [('words', 'Word', 'Word'), ('words', 'Mark', 'Mark'), ('look', 'Look', 'look'), ('shape', 'Shape', 'shape'), ('shape', 'Variant', 'variant'), ('rules', 'Rule', 'rule'), ('rules', 'Topic', 'Topic')]
              for line in (f'use {at}.{module}.{name}.{{{name}}}' if alias == name else f'use {at}.{module}.{name} as {alias}', f'use {at}.{module}.{name}.TheVariants as {name}-m') if 'use ' in line and not line.endswith(' Rule-m')], '',
            'abbrev pub word_text : Word → Text', *[f'word_text Word-m.{rust} = {name}' for rust, name in texts], '',
            'abbrev pub mark_text : Mark → Text', *[f'mark_text Mark-m.{rust} = {name}' for rust, name in marks], '',
            'abbrev pub look_of : look.Look → Look', 'look_of Look-m.Ended = ended', 'look_of Look-m.Name = at_name', 'look_of (Look-m.Word w) = at_word (word_text w)',
            'look_of (Look-m.Mark m) = at_mark (mark_text m)', 'look_of (Look-m.Group d) = at_group (delimiter_of d)',
            "look_of (Look-m.Or' p c q d) = look_of c or_else look_of d", "look_of (Look-m.But' p c q d) = look_of c but_not look_of d",
            'look_of Look-m.Integer = at_literal Int', 'look_of Look-m.EmptyGroup = at_empty_group', *[f'look_of Look-m.{camel(name[3:])} = {name}' for name in REPORTED],
            'look_of Look-m.Generics = at_generics', 'look_of Look-m.StrLiteral = at_literal Str', 'look_of Look-m.BeforeColons = ahead Before_colons', 'look_of Look-m.BeforeMacro = ahead Before_macro',
            'look_of Look-m.MarkedUnion = at_word w_union and_also ahead Begins_item', 'look_of Look-m.MarkedAuto = at_word w_auto and_also ahead Begins_item',
            'look_of Look-m.InRestriction = at_in_restriction', 'look_of Look-m.LoneWord = at_lone_word', '',
            'abbrev pub variant_of : variant.Variant → Variant', *[f'variant_of Variant-m.{name} = shapes.{name}' for name in variants], '',
            'abbrev pub shape_of : shape.Shape → Shape',
            *[f'shape_of (Shape-m.{camel(name)} v) = shapes.{name} (variant_of v)' if of else f'shape_of Shape-m.{camel(name)} = shapes.{name}' for name, of in self.shape_variants()], '',
            *[line for name, _, rules in self.rule_groups() for line in (f'abbrev pub {name}_rule : ℕ → Rule', f'{name}_rule n = get_or {at_place([f"rules.{k}" for k in rules])}', '')],
            'abbrev pub rule_at : Topic → ℕ → Rule', *[f'rule_at Topic-m.{camel(name)} n = {name}_rule n' for name, _, _ in self.rule_groups()], '',
            'unfoldable pub rule_of : rule.Rule → Rule', 'rule_of k = rule_at k.topic k.place', '']


def write(files, folder):
    for name, text in files.items():
        path = folder / name
        path.parent.mkdir(parents=True, exist_ok=True)
        path.write_text(text)


def formatted(files):
    """The texts formatted by `rt fmt`, in a temporary crate, so that nothing else is touched."""
    with tempfile.TemporaryDirectory() as folder:
        crate = Path(folder) / 'crates' / CRATE.name
        write(files, crate)
        (Path(folder) / 'crates.txt').write_text(f'{CRATE.name}:\n')
        (crate / 'src/lib.rt').write_text('mod rules;\nmod shape;\nmod words;\n')
        subprocess.run(['rt', 'fmt'], cwd=crate, check=True, stdout=subprocess.DEVNULL)
        return {name: (crate / name).read_text() for name in files}


def main():
    parser = argparse.ArgumentParser(description=__doc__, formatter_class=argparse.RawDescriptionHelpFormatter)
    parser.add_argument('--check', action='store_true', help='write nothing, and fail where a file differs')
    options = parser.parse_args()
    files = formatted(Writer().files())
    if not options.check:
        write(files, CRATE)
        return 0
    stale = [name for name, text in files.items() if not (CRATE / name).exists() or (CRATE / name).read_text() != text]
    for name in stale:
        print(f"{CRATE / name} isn't as tools/recognizers.py writes it", file=sys.stderr)
    return 1 if stale else 0


if __name__ == '__main__':
    sys.exit(main())
