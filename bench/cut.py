"""Statements and items cut from Rust's library, for `print stmts` and `print file`: the bodies of functions, and the items of files, as
tokens, so without comments."""
import glob
import os
import subprocess
import sys
from collections import Counter

from benchlib import library, say


def printed(command, source):
    """What the command prints, white space aside, or None where it refuses the source."""
    run = subprocess.run(command, input=source, stdout=subprocess.PIPE, stderr=subprocess.DEVNULL)
    return b''.join(run.stdout.split()) if run.returncode == 0 else None


def outcome(prints, piece):
    """What becomes of a piece: it is taken where all print it alike."""
    texts = []
    for command in prints:
        texts.append(printed(command, piece))
        if texts[-1] is None:
            return 'refused'
    return 'taken' if len(set(texts)) == 1 else 'printed otherwise'


def pieces(word, size, prints, peer):
    """The bodies or items of the library that all of `prints` print alike, up to this size together; the peer finds them."""
    taken, length, counts = [], 0, Counter()
    for path in sorted(glob.glob(library() + '/**/*.rs', recursive=True)):
        if length >= size:
            break
        with open(path, 'rb') as file:
            found = subprocess.run([peer, word], stdin=file, stdout=subprocess.PIPE, stderr=subprocess.DEVNULL).stdout
        for piece in filter(None, found.split(b'\n')):
            became = outcome(prints, piece)
            counts[became] += 1
            if became == 'taken':
                taken.append(piece)
                length += len(piece) + 1
    say('%s of %s: %s; %d bytes are taken'
        % (word, library(), ', '.join('%d %s' % (count, became) for became, count in counts.most_common()), length))
    if not taken:
        sys.exit('bench/%s: no piece is printed alike' % os.path.basename(sys.argv[0]))
    return taken


def source(taken, size):
    """Pieces, one behind the other, of at least this size; from the first again where there are no more."""
    parts, length = [], 0
    while length < size:
        parts.append(taken[len(parts) % len(taken)])
        length += len(parts[-1]) + 1
    return (b'\n'.join(parts) + b'\n').decode()
