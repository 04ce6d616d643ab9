"""Statements as functions hold them, for `print stmts`.

syn 1 and the grammar of this repository read all of them, as the same tokens. So nothing is written that one of them
refuses (closures, `match`, ranges, struct literals, items), and nothing that they may read in two ways: a comparison
stands in no other without parentheses, nothing that begins with `<` follows a cast, and no number of a field follows another.
No local has an `else`, which syn 1 keeps as tokens.
"""
import random

from items import kind_of_type

NAMES = ['value', 'x', 'y2', 'entry', 'offset_in_bytes', 'self', 'parser', 'rest', 'count', 'module_name']
PATHS = ['None', 'Self::EMPTY', 'usize::MAX', 'crate::parser::LIMIT', '::std::f64::consts::PI', 'Kind::Empty', '<T as Limits>::MAX']
FUNCTIONS = ['Some', 'Ok', 'Self::new', 'String::from', 'std::mem::take', 'Vec::<u8>::with_capacity', 'size_of::<Option<T>>',
             'parse_entry', 'super::find', '<T as From<u8>>::from', 'HashMap::<String, Vec<T>>::new']
METHODS = ['len', 'iter', 'get', 'push', 'unwrap_or', 'clone', 'as_bytes', 'next', 'parse::<u64>', 'collect::<Vec<u8>>',
           'into_iter', 'sum::<usize>', 'map::<Result<T, Error>>']
FIELDS = ['name', 'offset', 'entries', 'parent', 'size_hint', 'inner']
LITERALS = ['0', '1', '16', '0x7f', '1_000_u64', '2.5', '"a text"', "'c'", "b'\\n'", 'b"bytes"', 'r#"a "raw" text"#', 'true',
            'false']
MACROS = ['vec![%s]', 'println!("{} of {}", %s)', 'assert_eq!(%s)', 'format!("{:?}", %s)', 'matches!(value, Some(%s))']
SCALARS = ['u8', 'usize', 'i64', 'f64', 'char', '*const u8', '*mut T', 'Span']

# The operators with a value on both sides, those that bind least first.
LEVELS = [['||'], ['&&'], ['==', '!=', '<', '>', '<=', '>='], ['|'], ['^'], ['&'], ['<<', '>>'], ['+', '-'], ['*', '/', '%']]
COMPARISONS = 2
ASSIGNMENTS = ['=', '=', '=', '+=', '-=', '*=', '/=', '%=', '^=', '&=', '|=', '<<=', '>>=']


# ---------------------------------------------------------------- expressions

def values(pick, depth):
    """Values with commas between them, perhaps none."""
    return ', '.join(value(pick, depth) for _ in range(pick.choice([0, 1, 1, 2])))


def grouped(pick, depth):
    """Parentheses, a tuple, an array or a macro."""
    form = pick.randrange(6)
    if form == 0:
        return '(%s, %s)' % (value(pick, depth), value(pick, depth))
    if form == 1:
        return '(%s,)' % value(pick, depth)
    if form == 2:
        return '[%s]' % values(pick, depth)
    if form == 3:
        return '[%s; %s]' % (value(pick, depth), value(pick, depth))
    if form == 4:
        return pick.choice(MACROS) % values(pick, depth)
    return '(%s)' % value(pick, depth)


def called(pick, depth):
    """What a member, a call or an index stands behind: no number."""
    form = pick.randrange(8)
    if form < 4 or depth == 0:
        return pick.choice(NAMES)
    if form < 6:
        return '%s(%s)' % (pick.choice(FUNCTIONS), values(pick, depth - 1))
    return '(%s)' % value(pick, depth - 1)


def behind(pick, depth):
    """What may follow a value: a call of a method, a field, an index, `?`, or a call of what is a field."""
    form = pick.randrange(9)
    if form < 3:
        return '.%s(%s)' % (pick.choice(METHODS), values(pick, depth))
    if form < 5:
        return '.' + pick.choice(FIELDS)
    if form == 5:
        return '.%d[%s]' % (pick.randrange(4), value(pick, depth))
    if form == 6:
        return '[%s]' % value(pick, depth)
    return '?' if form == 7 else '.%s(%s)?' % (pick.choice(METHODS), values(pick, depth))


def operand(pick, depth):
    """A value without operators outside of parentheses, but for those before it."""
    form = pick.randrange(12) if depth else 0
    if form < 3:
        return pick.choice(pick.choice([NAMES, NAMES, LITERALS, PATHS]))
    if form < 5:
        return pick.choice(['-', '!', '*', '&', '&mut ', '!*', '&*', '*&']) + called(pick, depth - 1)
    if form < 7:
        return grouped(pick, depth - 1)
    return called(pick, depth) + ''.join(behind(pick, depth - 1) for _ in range(pick.choice([1, 1, 2, 3])))


def operation(pick, depth, least=0):
    """Two values with an operator between them that binds at least as tightly as `least`, or one value."""
    level = pick.randrange(least, len(LEVELS) + 3)
    if level >= len(LEVELS) or depth == 0:
        return operand(pick, depth)
    sign = pick.choice(LEVELS[level])
    left = operation(pick, depth - 1, level + (level == COMPARISONS))
    if not sign.startswith('<') and pick.randrange(8) == 0:
        left = '%s as %s' % (operand(pick, depth - 1), pick.choice(SCALARS))
    return '%s %s %s' % (left, sign, operation(pick, depth - 1, level + 1))


def value(pick, depth):
    """Any expression, where a comma, a bracket or a semicolon follows."""
    if depth > 0 and pick.randrange(10) == 0:
        return '%s as %s' % (operand(pick, depth - 1), pick.choice(SCALARS))
    return operation(pick, depth) if pick.randrange(3) == 0 else operand(pick, depth)


def place(pick):
    """What is assigned to."""
    return pick.choice(['', '', '*']) + called(pick, 1) + pick.choice(['', '.offset', '.0', '[%s]' % value(pick, 1)])


def expression_statement(pick):
    """An expression as a statement, or a local of a name."""
    form = pick.randrange(4)
    if form == 0:
        return '%s %s %s;' % (place(pick), pick.choice(ASSIGNMENTS), operation(pick, 3))
    if form == 1:
        return 'let %s = %s;' % (pick.choice(NAMES[:5]), operation(pick, 4))
    return operation(pick, 4) + ';'


# ---------------------------------------------------------------- statements

def pattern(pick, depth=2):
    """A name, `_`, a path, a tuple, or a path with patterns in parentheses."""
    form = pick.randrange(8 if depth else 4)
    if form < 3:
        return pick.choice(['', '', 'mut ', 'ref ', 'ref mut ']) + pick.choice(['entry', 'value', 'x', 'rest'])
    if form == 3:
        return pick.choice(['_', 'Kind::Empty', 'crate::Unit'])
    inner = ', '.join(pattern(pick, depth - 1) for _ in range(2))
    return pick.choice(['(%s)', '(%s,)', 'Some((%s))', 'Kind::Pair(%s)']) % inner


def local(pick):
    """`let`, a pattern with a type or without one, and a value or none."""
    attribute = pick.choice(['', '', '', '', '#[allow(unused)] '])
    kind = pick.choice(['', ': ' + kind_of_type(pick)])
    start = pick.choice(['', ' = ' + operation(pick, 2), ' = ' + operation(pick, 2)])
    return '%slet %s%s%s;' % (attribute, pattern(pick), kind, start)


def leave(pick):
    """`return`, `break` or `continue`."""
    return pick.choice(['return;', 'return %s;' % operation(pick, 2), 'break;', "break 'outer;", 'continue;', "continue 'outer;"])


def block(pick, depth, inside):
    """Statements in braces, perhaps with a value at the end."""
    lines = [inside + '    ' + statement(pick, depth - 1, inside + '    ') for _ in range(pick.choice([1, 2, 3]))]
    if pick.randrange(4) == 0:
        lines.append(inside + '    ' + operation(pick, 2))
    return '{\n%s\n%s}' % ('\n'.join(lines), inside)


def condition(pick):
    """What stands behind `if` or `while`."""
    return operation(pick, 2)


def branches(pick, depth, inside):
    """`if`, with `else` or without it."""
    text = 'if %s %s' % (condition(pick), block(pick, depth, inside))
    if pick.randrange(3) == 0:
        text += ' else if %s %s' % (condition(pick), block(pick, depth, inside))
    return text + pick.choice(['', ' else ' + block(pick, depth, inside)])


def with_block(pick, depth, inside):
    """What ends with a block; a label's has a `;`, since syn 1 takes `[..]` or `(..)` behind its block for an index or a call."""
    form = pick.randrange(7)
    if form < 3:
        return branches(pick, depth, inside)
    if form == 3:
        return 'unsafe ' + block(pick, depth, inside)
    label = pick.choice(['', '', "'outer: "])
    head = pick.choice(['', 'loop ', 'while %s ' % condition(pick), 'for %s in %s ' % (pattern(pick, 1), operation(pick, 2)),
                        'for %s in %s ' % (pattern(pick), operand(pick, 1))])
    return label + head + block(pick, depth, inside) + (';' if label else '')


def statement(pick, depth=3, inside=''):
    """A local, an expression, what ends with a block, or a call of a macro in braces."""
    form = pick.randrange(12)
    if form < 4:
        return local(pick)
    if form < 6 and depth:
        return with_block(pick, depth, inside)
    if form == 6 and depth:
        return 'let %s = %s;' % (pattern(pick, 1), pick.choice(['unsafe ', '', 'loop ']) + block(pick, depth, inside))
    if form == 7:
        return leave(pick)
    if form == 8:
        return pick.choice(['quote! { %s }', 'debug! { %s };']) % values(pick, 1)
    return expression_statement(pick)


FORMS = {'exprs': expression_statement, 'blocks': statement}


def source(form, size):
    """Statements of this form of about that many bytes, the same at each run."""
    pick = random.Random(size)
    parts = []
    length = 0
    while length < size - 40:
        part = FORMS[form](pick) + '\n'
        parts.append(part)
        length += len(part)
    return ''.join(parts)
