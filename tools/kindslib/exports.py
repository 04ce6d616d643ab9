"""The names of items, members and their parts that `syn` passes on: at its top, and in its module `item`."""
from .impls import import_lines
from .parts import with_parts

# The crates whose types are passed on, of each all files or these.
CRATES = {"syn_item": None, "syn_tree": {"item"}}
# Types of syn_item that aren't laid out as others, and where each is passed on.
BESIDES = {"Items": ("item", {"module"})}
# Which names only one of the two places has.
TOP_ALONE = {"File", "Frontmatter", "Abi"}


def exported(source, place):
    """The names of each module that this place passes on."""
    uses = {}
    for name, t in source.types.items():
        module = t.file.parts[0].removesuffix(".rt")
        files = CRATES.get(t.crate, set())
        if (files is None or module in files) and not (place == "module" and name in TOP_ALONE):
            uses.setdefault(f"{t.crate}::{module}", set()).add(name)
    for name, (module, places) in BESIDES.items():
        if place in places:
            uses.setdefault(f"syn_item::{module}", set()).add(name)
    return uses


def exports(source, crates):
    path = crates / "syn/src/lib.rt"
    top = import_lines(exported(source, "top"), "pub use")
    module = import_lines(exported(source, "module"), "    pub use")
    return {path: with_parts(path, [top, module])}
