"""The stored edits of a crate: crates/NAME/edits.toml, a table for each edit, sorted by name.

    [named_by_its_keyword]
    clause = 'reads'
    function = 'buffer::ParseBuffer::read_name'
    file = 'src/buffer/leaves.rt'
    old = 'if ident.is_keyword() {'
    new = 'if false {'

The old text occurs once in that function, or in the file where no function is named. Each further change of the edit is a table
`[[NAME.also]]` with `function`, `file`, `old` and `new`; it applies to what the earlier changes made. An edit that breaks several
clauses at once may have a list of clauses, all of which have to be refused.

The edits of must-fail/ have the kit's own format: files of lines `file:`, `old:` and `new:`, to which a line `clause:` is added,
which the kit ignores.
"""

import json
import tomllib

from editlib.edits import Change, Edit, Unfit

HEAD = """# Wrong bodies that the prover has to refuse: see tools/try_edits.py. Sorted by name; `tools/try_edits.py --record` rewrites this file.
"""
CHANGE = ("function", "file", "old", "new")


def read(crate):
    """The edits of a crate in the order of their names, and of each other one its name and why it is none."""
    edits, unfit = read_table(crate / "edits.toml")
    for path in crate.glob("must-fail/*.edit"):
        try:
            edits.append(read_lines(path))
        except Unfit as why:
            unfit.append((path.stem, str(why)))
    return sorted(edits, key=lambda edit: edit.name), sorted(unfit)


def read_table(path):
    """The edits of an edits.toml, and of each other table its name and why it is no edit."""
    edits, unfit = [], []
    for name, table in (tomllib.loads(path.read_text()) if path.is_file() else {}).items():
        try:
            edits.append(edit_of(path, name, table))
        except Unfit as why:
            unfit.append((name, str(why)))
    return edits, unfit


def edit_of(path, name, table):
    """The edit of a table."""
    unknown = set(table) - {"clause", "also", *CHANGE}
    if unknown:
        raise Unfit(f"it has an unknown key {min(unknown)}")
    clauses = table.get("clause", [])
    changes = [change_of(it) for it in [table, *table.get("also", [])]]
    return Edit(path, name, [clauses] if isinstance(clauses, str) else clauses, changes)


def change_of(table):
    lacking = [key for key in ("file", "old", "new") if key not in table]
    if lacking:
        raise Unfit(f"it has no {' and no '.join(lacking)}")
    return Change(table["file"], table.get("function"), table["old"], table["new"])


def written(edits):
    """The text of an edits.toml with these edits."""
    return "\n".join([HEAD, *(table_of(edit) for edit in sorted(edits, key=lambda edit: edit.name))])


def table_of(edit):
    """The table of an edit, as text."""
    clauses = [quoted(clause) for clause in edit.clauses]
    value = clauses[0] if len(clauses) == 1 else f"[{', '.join(clauses)}]"
    lines = [f"[{edit.name}]", *([f"clause = {value}"] if clauses else [])]
    for at, change in enumerate(edit.changes):
        lines += [f"[[{edit.name}.also]]"] if at else []
        values = (change.function, change.path, change.old, change.new)
        lines += [f"{key} = {quoted(text)}" for key, text in zip(CHANGE, values) if text is not None]
    return "\n".join([*lines, ""])


def quoted(text):
    """A text as a TOML string: without escapes where that is possible."""
    if "\n" in text and "'''" not in text and not text.endswith("'"):
        return f"'''\n{text}'''"
    if not any(sign in text for sign in "'\n"):
        return f"'{text}'"
    if "'''" not in text and "\n" not in text and ("\\" in text or '"' in text) and not text.endswith("'"):
        return f"'''{text}'''"
    return json.dumps(text, ensure_ascii=False)


def record(edits):
    """Writes these edits of one crate, whose clauses have changed, into their files; other edits there stay."""
    for path in {edit.path for edit in edits}:
        changed = {edit.name: edit for edit in edits if edit.path == path}
        if path.suffix == ".edit":
            path.write_text(with_clauses(path.read_text(), changed[path.stem].clauses))
        else:
            kept, unfit = read_table(path)
            if unfit:
                raise Unfit(f"{path} has tables that are no edits: {unfit[0][0]}: {unfit[0][1]}")
            path.write_text(written([changed.get(edit.name, edit) for edit in kept]))


def read_lines(path):
    """The edit of a file in the kit's format."""
    clauses, changes, said = [], [], {}
    for line in path.read_text().split("\n"):
        word, _, rest = line.partition(":")
        rest = rest.removeprefix(" ")
        if word == "clause":
            clauses.append(rest)
        elif word == "file":
            said = {"file": rest}
        elif word == "old":
            said[word] = rest
        elif word == "new":
            if not said.get("file") or not said.get("old"):
                raise Unfit("a line new: has no file: or old: above it")
            changes.append(Change(said["file"], None, said.pop("old"), rest))
    if not changes:
        raise Unfit("it changes nothing")
    return Edit(path, path.stem, clauses, changes)


def with_clauses(text, clauses):
    """The text of an edit in the kit's format that names these clauses and no others."""
    rest = [line for line in text.split("\n") if not line.startswith("clause: ")]
    return "\n".join([*(f"clause: {clause}" for clause in clauses), *rest])
