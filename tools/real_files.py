#!/usr/bin/env python3
"""Reads, prints and reads again each file of folders of Rust sources, whole and item by item, by the proved program.

    tools/real_files.py [FOLDER..] [--show N] [--table]

The default folder is the library of Debian's package rust-src. `syn_canon print file` has to print each file, and to print its output
unchanged; `print item` the same for each item of a file. An item reaches from its attributes to its `;` or braces, in the tokens of
`token_lines`. For each folder the script prints how many were read and how many were refused for which reason, with an example each;
with --table this is a row of a table. The status is 1 if a print was read differently or the program failed without a refusal, and 2
if nothing could be read.

Both programs are built by `./prove` or `rt run`.
"""
import argparse
import subprocess
import sys
from collections import Counter
from concurrent.futures import ThreadPoolExecutor
from pathlib import Path

ROOT = Path(__file__).resolve().parent.parent
LINES = ROOT / "crates/token_lines/out/token_lines"
PROGRAM = ROOT / "crates/syn_canon/out/syn_canon"
# An item that begins with one of these words ends with `;`, whatever stands before it.
ENDED = {"use", "static", "type", "const"}
# Behind `const` or `extern`, a word with which another item begins.
OTHERS = {"fn", "unsafe", "async", "extern", "trait", "impl", "auto"}


class Token:
    """A token or a group: its kind (`Ident`, `Punct`, `{` ..), its place in the text, its text, and the tokens of a group."""

    def __init__(self, kind, start, end, text=""):
        self.kind, self.start, self.end, self.text, self.content = kind, start, end, text, []

    def is_mark(self, character):
        return self.kind == "Punct" and self.text == character


def trees(line):
    """The token trees of a line of `token_lines`, or None if the text was refused."""
    if line.startswith("refused"):
        return None
    stack = [Token("", 0, 0)]
    for word in line.split("\t")[0].split():
        kind, start, end, *rest = word.split(":")
        if kind in ")]}":
            stack.pop().end = int(end)
            continue
        token = Token(kind, int(start), int(end), bytes.fromhex(rest[0]).decode() if rest else "")
        stack[-1].content.append(token)
        if kind in "([{":
            stack.append(token)
    return stack[0].content


def ending(level, i):
    """The `;` or the braces at the end of an item, outside of `< >`."""
    depth = 0
    for j in range(i, len(level)):
        token = level[j]
        if token.is_mark("<"):
            depth += 1
        elif token.is_mark(">") and not (level[j - 1].is_mark("-") or level[j - 1].is_mark("=")):
            depth -= 1
        elif depth == 0 and (token.is_mark(";") or token.kind == "{"):
            return j
    return None


def library():
    """The library of Debian's package rust-src, if it is installed."""
    folders = sorted(Path("/usr/src").glob("rustc-*/library"))
    return folders[-1] if folders else None


def is_attribute(level, i):
    return level[i].is_mark("#") and i + 1 < len(level) and (level[i + 1].kind == "[" or level[i + 1].is_mark("!"))


def after_attributes(level, i):
    """Where the attributes at i end, inner ones too."""
    while i < len(level) and is_attribute(level, i):
        i += 3 if level[i + 1].is_mark("!") else 2
    return i


def after_visibility(level, i):
    """Where the visibility at i ends, if one stands there."""
    if i < len(level) and level[i].text == "pub":
        i += 1
        if i < len(level) and level[i].kind == "(":
            i += 1
    return i


def ends_with_semicolon(level, i):
    """Whether the item that begins with the word at i has no braces of its own at its end."""
    behind = level[i + 1].text if i + 1 < len(level) else ""
    if level[i].text == "extern":
        return behind == "crate"
    return level[i].text in ENDED and behind not in OTHERS


def item_end(level, i):
    """The last token tree of the item that begins at i, behind its attributes."""
    i = after_visibility(level, i)
    if i < len(level) and ends_with_semicolon(level, i):
        return next((j for j in range(i, len(level)) if level[j].is_mark(";")), None)
    return ending(level, i)


def items_of(level):
    """Where each item of a file's token trees begins and ends."""
    found, i = [], 0
    while i < len(level) and is_attribute(level, i) and level[i + 1].is_mark("!"):
        i += 3
    while i < len(level):
        end = item_end(level, after_attributes(level, i))
        if end is None:
            break
        found.append((level[i].start, level[end].end))
        i = end + 1
    return found


def outcome(kind, source):
    """What becomes of a text: `read`, the reason of its refusal, or what went wrong."""
    command = [PROGRAM, "print", kind]
    first = subprocess.run(command, input=source, capture_output=True, check=False)
    if first.returncode == 1:
        return "refused", first.stderr.decode().strip().split(": ", 1)[-1], first.stderr.decode()
    if first.returncode != 0:
        return "wrong", f"status {first.returncode}", ""
    again = subprocess.run(command, input=first.stdout, capture_output=True, check=False)
    if again.returncode != 0 or again.stdout != first.stdout:
        return "wrong", "its print is read otherwise", ""
    return "read", "", ""


def place(said):
    """The byte of a refusal, which says `.. at BYTE: ..`."""
    words = said.split(": ", 1)[0].split()
    return int(words[-1]) if words and words[-1].isdigit() else 0


def line_at(source, at):
    """The line of the text in which the byte stands."""
    start, end = source.rfind(b"\n", 0, at) + 1, source.find(b"\n", at)
    return " ".join(source[start:None if end < 0 else end].decode(errors="replace").split())[:90]


class Folder:
    """The files of a folder, and the items that stand in them."""

    def __init__(self, folder):
        self.name = folder.name if folder.name != "library" else "rust-src, `library`"
        self.files = [file.read_bytes() for file in sorted(folder.rglob("*.rs"))]
        lines = subprocess.run([LINES], input="".join(f"{text.hex()}\n" for text in self.files), capture_output=True, text=True, check=True)
        levels = [trees(line) for line in lines.stdout.splitlines()]
        self.unread = sum(level is None for level in levels)
        self.items = [text[start:end] for text, level in zip(self.files, levels) if level for start, end in items_of(level)]

    def read(self, pool):
        """What becomes of each file and item."""
        return {kind: (texts, list(pool.map(lambda text: outcome(kind, text), texts))) for kind, texts in (("file", self.files), ("item", self.items))}


def told(kind, texts, outcomes, show):
    """Of what is refused or wrong, how many for which reason, with an example."""
    for how in ("wrong", "refused"):
        reasons = Counter(reason for found, reason, _ in outcomes if found == how)
        for reason, count in reasons.most_common(show):
            text, said = next((text, it[2]) for text, it in zip(texts, outcomes) if it[:2] == (how, reason))
            yield f"{count:6} {kind} {how}: {reason}, as in: {line_at(text, place(said))}"


def main():
    parser = argparse.ArgumentParser(description=__doc__, formatter_class=argparse.RawDescriptionHelpFormatter)
    parser.add_argument("folders", nargs="*", type=Path, default=[library()])
    parser.add_argument("--show", type=int, default=12, help="so many reasons of refusals")
    parser.add_argument("--table", action="store_true", help="a row of a table for each folder")
    options = parser.parse_args()
    if options.folders == [None]:
        sys.exit("real_files: no folder is named, and Debian's rust-src isn't there")
    wrong = False
    with ThreadPoolExecutor(4) as pool:
        for path in options.folders:
            folder = Folder(path)
            if not folder.files:
                print(f"real_files: {path} has no Rust source", file=sys.stderr)
                sys.exit(2)
            read = folder.read(pool)
            counts = {kind: Counter(it[0] for it in outcomes) for kind, (_, outcomes) in read.items()}
            wrong |= any(it["wrong"] for it in counts.values())
            numbers = [len(folder.files), folder.unread, counts["file"]["read"], len(folder.items), counts["item"]["read"]]
            if options.table:
                print("| " + " | ".join([folder.name] + [f"{it:,}" for it in numbers]) + " |")
            else:
                print("{0}: {1} files, {2} of them refused as text, {3} read; {4} items, {5} read".format(folder.name, *numbers))
            for kind, (texts, outcomes) in read.items():
                for line in told(kind, texts, outcomes, options.show):
                    print(line)
    sys.exit(1 if wrong else 0)


if __name__ == "__main__":
    main()
