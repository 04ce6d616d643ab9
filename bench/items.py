"""Derive inputs as programs have them, for `print derive`."""
import random

WORDS = ['value', 'x', 'y2', 'Entry', 'offset_in_bytes', 'u8', 'String', 'module_name', 'T', 'Configuration']


def visibility(pick):
    return pick.choice(['', '', 'pub ', 'pub ', 'pub(crate) ', 'pub(super) ', 'pub(in crate::parser) '])


def path(pick):
    words = '::'.join(pick.choice(WORDS) for _ in range(pick.choice([1, 1, 2, 3])))
    return pick.choice(['', '', '', 'crate::', '::', 'self::']) + words


def kind_of_type(pick, depth=2):
    """A type as fields have them: paths with arguments, references, slices, arrays, tuples."""
    if depth == 0 or pick.random() < 0.5:
        return path(pick)
    inner = kind_of_type(pick, depth - 1)
    return pick.choice(['Vec<%s>', 'Option<%s>', "&'a %s", "&'a mut %s", 'Box<[%s]>', '[%s; 16]', 'HashMap<String, %s>',
                        '(u8, %s)', '*const %s', '<%s as Iterator>::Item', 'Box<Fn(u8) -> %s>']) % inner


def attribute(pick):
    return pick.choice(['', '', '', '#[serde(default)] ', '#[inline] ', '#[doc = "What it is for."] ', '#[cfg(feature = "std")] '])


def field_name(pick):
    return '%s_%d' % (pick.choice(['name', 'offset', 'value', 'entries', 'parent', 'size_hint']), pick.randrange(100))


def tuple_field(pick):
    """A visibility and a path."""
    return visibility(pick) + path(pick)


def named_field(pick):
    """An attribute or none, a visibility, a name and a type."""
    return '%s%s%s: %s' % (attribute(pick), visibility(pick), field_name(pick), kind_of_type(pick))


def variant(pick):
    """An attribute or none, a name, and fields of any form, or none and a value or none."""
    name = attribute(pick) + pick.choice(['First', 'Entry', 'Other', 'Empty', 'Node']) + str(pick.randrange(1000))
    form = pick.randrange(4)
    if form == 0:
        return '%s { %s }' % (name, ', '.join('%s: %s' % (field_name(pick), kind_of_type(pick)) for _ in range(2)))
    if form == 1:
        return '%s(%s)' % (name, ', '.join(kind_of_type(pick) for _ in range(2)))
    return name + pick.choice(['', '', ' = %d' % pick.randrange(1000)])


GENERICS = "<'a, T: Clone + 'a, K: Into<String> = String, const N: usize = 3>"

# a name, what stands before the members, one member, how many on a line, and what stands behind them
FORMS = {
    'tuple': ('pub struct Wide(\n', tuple_field, 4, ');\n'),
    'named': ('#[derive(Clone, Debug)]\npub struct Wide%s where T: Sized {\n' % GENERICS, named_field, 1, '}\n'),
    'enum': ('#[derive(Clone, Debug)]\npub enum Wide%s where T: Sized {\n' % GENERICS, variant, 1, '}\n'),
}


def source(form, size):
    """One item of this form of about that many bytes, the same at each run."""
    head, member, on_a_line, tail = FORMS[form]
    pick = random.Random(size)
    parts = [head]
    length = len(head)
    while length < size - 3:
        part = '    %s,\n' % ', '.join(member(pick) for _ in range(on_a_line))
        parts.append(part)
        length += len(part)
    return ''.join(parts) + tail
