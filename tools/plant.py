#!/usr/bin/env python3
"""Lists wrong bodies that a crate's contracts let through: those of `rt plant`, over the libraries that stand built.

    tools/plant.py CRATE [--only PATTERN] [--most N] [--minutes N] [--jobs N] [--all]

`rt plant --help` says which bodies are planted, and what became of them. It first checks the whole crate, ends a check of some bodies
after four minutes, which is less than a check of syn_expr needs before its first function, and writes names that few files here
import (`Refusal`, `Error`, `Span`), so that of syn_parse 110 of 183 bodies didn't compile. Here nothing is checked but the bodies and
what they call, a check may take twenty minutes, and such names are written with their paths. What is said of a body is `rt plant`'s.
The crate has to be a proved one: each of its functions is taken to be. With --only the public functions and methods of traits get
bodies of which file, line and name match the pattern, such as `src/ty.rt:15 <Type as Print>::print_in`.

Printed are the bodies that meet the contract (`proves`) and the functions without one (`no-ensures`), with --all each body; at the
end how many functions got bodies, of how many of them none could be judged that gives up, and how many bodies there are of each
kind. The status is 1 where a body meets a contract. A kit without `rt plant` in the form of today is an error.
"""

import argparse
import collections
import importlib.machinery
import importlib.util
import io
import os
import re
import shutil
import sys
import tempfile
from pathlib import Path

from editlib import rooms
from editlib.edits import Source

TOP = Path(__file__).resolve().parent.parent
# how many bodies one check judges, and after how many seconds it is halved
BATCH, SECONDS = 60, 1200
# what a body may name, and the crate and the module in which that stands
PLACES = {"Refusal": ("syn_parse", "read::refusal"), "Error": ("syn_tokens", "error"), "Span": ("syn_tokens", "span")}


def kit():
    """The module of the command `rt plant`."""
    path = Path(shutil.which("rt") or sys.exit("plant: there is no rt here")).resolve().parent / "rt-plant"
    if not path.is_file():
        sys.exit(f"plant: there is no {path}")
    sys.dont_write_bytecode = True
    loader = importlib.machinery.SourceFileLoader("rt_plant", str(path))
    made = importlib.util.module_from_spec(importlib.util.spec_from_loader("rt_plant", loader))
    loader.exec_module(made)
    if not all(callable(getattr(made, name, None)) for name in ("Copy", "chosen", "plant", "libraries")) or not hasattr(made.bodies, "Bodies"):
        sys.exit(f"plant: {path} is of another kit: run rt plant itself, and mend this script")
    made.BATCH, made.SECONDS = BATCH, SECONDS
    return made


def in_full(text, crate):
    """A body's text, with the paths of the names that it can't count on in a file of this crate."""
    for name, (home, module) in PLACES.items():
        path = f"{'crate' if crate == home else home}::{module}::{name}"
        text = re.sub(rf"(?<![\w:])(?:syn_tokens::)?{name}(?=::| \{{)", path, text)
    return text


def names_in_full(bodies, crate):
    """Has the kit write its bodies so."""

    def written(method):
        return lambda *given: [it._replace(text=in_full(it.text, crate)) for it in method(*given)]

    for name in ("giving_up", "over_the_real_one"):
        setattr(bodies.Bodies, name, written(getattr(bodies.Bodies, name)))


def source_of(kit_, crate):
    """The functions and types of a crate, and those of the libraries below, as the kit reads them."""
    source = kit_.bodies.Source(crate.folder)
    source.read("src/main.rt" if crate.is_program else "src/lib.rt")
    source.read_specs()
    for name, rlib in kit_.libraries(crate).items():
        if name not in (*kit_.rt.SEALED, "libc", "os"):
            source.add_library(name, f"{rlib}/lang")
    while any(kit_.Plant.stem.encode() in it for it in source.data.values()):
        kit_.Plant.stem += "_"
    return source


def symbols_of(folder):
    """The names of a crate's functions as the prover has them, each taken as proved."""
    uses = rooms.listed(TOP)
    lower = [folder.parent / it for it in rooms.below(folder.name, uses)]
    names = Source(folder, lower).names()
    return {it if it.startswith(f"{folder.name}::") else f"{folder.name}::{it}": "proved" for it in names}


def with_own_symbols(functions):
    """The functions; where several of the prover's names may be a method's, with the one that is its type's and its trait's."""
    for it in functions:
        names = re.search(r"<(\w+)(?:<.*>)? as (\w+)", it.shown)
        own = [symbol for symbol in it.symbols if names and symbol.split("::")[-2] == names[1] + names[2]]
        if len(it.symbols) > 1 and len(own) == 1:
            it.symbols = own
    return functions


def planted(kit_, folder, options):
    """The functions that got bodies, those without a contract, and the bodies, judged."""
    crate = kit_.rt.Crate(str(folder), kit_.rt.root_above(str(folder)), {})
    crate.out = io.StringIO()
    source = source_of(kit_, crate)
    chosen = kit_.chosen(crate, source, symbols_of(folder), "")
    functions, bare = ([it for it in some if re.search(options.only, it.shown)] for some in chosen)
    with tempfile.TemporaryDirectory(prefix="plant-") as room:
        copy = kit_.Copy(crate, source, room, ["--jobs", str(options.jobs)], 60 * options.minutes)
        return functions, bare, kit_.plant(crate, copy, with_own_symbols(functions), functions, options.most)


def tell(kit_, name, found, shows_all):
    """Prints what was found; 1 where a body meets a contract."""
    functions, bare, plants = found
    for it in bare:
        print(f"{'no-ensures':<10}  {it.shown}")
    for it in plants:
        if shows_all or it.kind == "proves":
            print(f"{it.kind:<10}  {it.f.shown}: {{ {it.body} }}" + (f"  ({it.why})" if it.why else ""))
    judged = {it.f for it in plants if it.kind in kit_.KINDS[:4] and it.form in kit_.GIVES_UP}
    count = collections.Counter(it.kind for it in plants)
    counts = " ".join(f"{it}={count[it]}" for it in kit_.KINDS)
    print(f"plants crate={name} planted-in={len(functions)} untested={len(functions) - len(judged)} no-ensures={len(bare)} {counts}")
    return 1 if count["proves"] else 0


def main():
    parser = argparse.ArgumentParser(description=__doc__, formatter_class=argparse.RawDescriptionHelpFormatter)
    parser.add_argument("crate")
    parser.add_argument("--only", default="", metavar="PATTERN")
    parser.add_argument("--most", type=int, default=3000)
    parser.add_argument("--minutes", type=int, default=60)
    parser.add_argument("--jobs", type=int, default=2)
    parser.add_argument("--all", action="store_true")
    options = parser.parse_args()
    made, folder = kit(), TOP / "crates" / options.crate
    names_in_full(made.bodies, options.crate)
    os.chdir(folder)
    sys.exit(tell(made, options.crate, planted(made, folder, options), options.all))


if __name__ == "__main__":
    main()
