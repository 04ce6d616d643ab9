"""Token streams as lists of words, in the format of the program `cut_streams`, and their changes.

A word is the delimiter of a group (`<` and `>` of an invisible one); or `+` (Joint) or `-` (Alone) and a punctuation character; or a kind of
tokens, `:` and the hex digits of the token's text.
"""

VISIBLE = {"(": ")", "{": "}", "[": "]"}
CLOSING = VISIBLE | {"<": ">"}
OPENING = {closing: opening for opening, closing in CLOSING.items()}
# A tree that only raw contents may hold.
SIGN = "-@"


def is_mark(word):
    return word[0] in "+-"


def closed(words):
    """The words, followed by the closing delimiters of the open groups."""
    missing = []
    for word in words:
        if word in CLOSING:
            missing.append(CLOSING[word])
        elif word in OPENING:
            missing.pop()
    return [*words, *reversed(missing)]


def cuts(words):
    """The first N tokens for each N, where the two delimiters of a group count as one; open groups are closed."""
    yield closed([])
    for at, word in enumerate(words):
        if word not in OPENING:
            yield closed(words[:at + 1])


def with_sign(words):
    """One more tree at the end of a group, for each group."""
    for at, word in enumerate(words):
        if word in OPENING:
            yield [*words[:at], SIGN, *words[at:]]


def pairs(words):
    """The indices of the delimiters of each group."""
    stack = []
    for at, word in enumerate(words):
        if word in CLOSING:
            stack.append(at)
        elif word in OPENING:
            yield stack.pop(), at


def with_delimiters(words):
    """Other delimiters of a group, for each group."""
    for start, end in pairs(words):
        for opening in VISIBLE:
            if opening != words[start]:
                yield [*words[:start], opening, *words[start + 1:end], CLOSING[opening], *words[end + 1:]]


def spaced(words, spacing):
    """With this spacing of every punctuation character: `+` Joint, `-` Alone."""
    return [spacing + word[1:] if is_mark(word) else word for word in words]


def with_spacings(words):
    """Every punctuation character Joint, every one Alone, and one at a time changed; none twice, and none unchanged."""
    changed = [spaced(words, "+"), spaced(words, "-")]
    for at, word in enumerate(words):
        if is_mark(word):
            changed.append([*words[:at], spaced([word], "-" if word[0] == "+" else "+")[0], *words[at + 1:]])
    told = [words]
    for each in changed:
        if each not in told:
            told.append(each)
            yield each


# Of at most so many adjacent trees each run is taken; of more, the runs at either end, and each tree alone.
ALL_RUNS = 7


def levels(words):
    """The indices at which a tree begins, for each group and the whole, each list with the index after the last tree."""
    places, around, found = [], [], []
    for at, word in enumerate(words):
        if word in OPENING:
            places.append(at)
            found.append(places)
            places = around.pop()
        else:
            places.append(at)
        if word in CLOSING:
            around.append(places)
            places = []
    return [*found, [*places, len(words)]]


def runs(places):
    """The runs of these trees: the index of the first, and that after the last."""
    last = len(places) - 1
    for start in range(last):
        for end in range(start + 1, last + 1):
            if last <= ALL_RUNS or start == 0 or end == last or end == start + 1:
                yield places[start], places[end]


def with_invisible(words):
    """An invisible group around a run of trees, or an empty one before a tree or at an end."""
    for places in levels(words):
        for start, end in [*runs(places), *((place, place) for place in places)]:
            yield [*words[:start], "<", *words[start:end], ">", *words[end:]]


# The changes of each stream, by name.
SWEEPS = {"cuts": cuts, "@": with_sign, "delimiters": with_delimiters, "spacings": with_spacings}
INVISIBLE = {"invisible": with_invisible}
